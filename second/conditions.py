"""Every refusal whose condition holds in a case, in the order in which they are asked (01, Load order, Build order).

The answer is the first of them; each other one would be the answer if it were asked earlier."""

from typing import Callable, Iterator, Optional

from back import bin_of, chosen, named_words, spell_cfg
from builder import (BIN_LIMIT, build, chapters_broken, check_bin, check_pages, check_range, check_shape,
                     lines_sharing)
from card import CARD_LIMIT, CARD_RAM
from cfg import Entry, check_bytes, check_count, check_length, lines_in_sections, read_entry
from families import marked_by
from load import (BLOCK_HEADER, DATA_HUNK, HEADER, LOCUTUS_WORDS, TABLES, Block, check_flash, check_jlp_ram,
                  check_payload, check_supported, check_tables_found, decode_hunk, header_faults, take_tables)
from records import Asked, FlashFill, Laid, Seeded, ram_of
from refusal import Refused
from runs import count_reads, lines_of, read_line
from salvage import blocks_before_stop, is_left_out, salvage
from subrecords import sub_records
from tables import TABLES_SIZE, Tables, read_tables
from titles import Title
from writer import check_label, compose, outside, write_image

Held = tuple[str, int]
LEAST_IMAGE = len(compose(bytes(16), bytes(8), Tables(), []))
MAY_BE_ASKED_31 = {"1", "2", "3", "4", "10", "12", "13"}
LEAST_CFG = len(spell_cfg([Entry(0, "ram8", 0x5000, 0x50FF, 0x5000)]))


def held(check: Callable, *inputs: object, name: str = "") -> list[Held]:
    """Give the refusal that a check raises, if any, by its number or a name."""
    try:
        check(*inputs)
    except Refused as refused:
        return [(name or str(refused.number), refused.place)]
    return []


def short(buffer: Seeded, least: int) -> list[Held]:
    """Give 29 where the buffer is shorter than so many bytes."""
    return [("29", 0)] if buffer[0] < least else []


def tables_in(blocks: list[Block]) -> Optional[Tables]:
    """Give the first tables of the right size, whatever their checksum."""
    right = [block for block in blocks if block.kind == TABLES and len(block.payload) == TABLES_SIZE]
    return read_tables(right[0].payload) if right else None


def block_conditions(blocks: list[Block], words_lent: int) -> Iterator[Held]:
    """Give what holds of each block by itself: 7, 6 or 12, then 8, then 9 (01, Load order)."""
    found: Optional[Tables] = None
    for each in blocks:
        yield from held(check_payload, each)
        if each.kind == TABLES:
            yield from held(take_tables, each, found)
            found = tables_in([each]) or found
        if each.kind == DATA_HUNK:
            yield from held(decode_hunk, each, words_lent)


def image_conditions(image: bytes, blocks: Iterator[Held], stop: list[Held], words_lent: int,
                     flash_lent: Optional[int]) -> list[Held]:
    """Give 1 to 4, what holds of the blocks, the stop, "none" of 8, and 10, 11, 13 (01, Load order; 02)."""
    found = [(str(number), 0) for number in header_faults(image)]
    if len(image) < HEADER:
        return found
    tables, flags = tables_in(blocks_before_stop(image)[0]), image[4:20]
    found += [*blocks, *stop, *held(check_tables_found, tables, image, name="8 none")]
    found += held(check_supported, flags, tables or Tables())
    return found + held(check_jlp_ram, flags, words_lent) + held(check_flash, flags, flash_lent)


def load_conditions(image: bytes, ram: Seeded, flash_lent: Optional[int]) -> list[Held]:
    """Give what holds of a load (01, Load order)."""
    blocks, stopped = blocks_before_stop(image)
    words_lent = min(ram[0], LOCUTUS_WORDS)
    stop = [] if stopped is None else [("5", stopped)]
    return image_conditions(image, block_conditions(blocks, words_lent), stop, words_lent, flash_lent)


def full_load_conditions(image: bytes) -> list[Held]:
    """Give what holds of a load into 524,288 words, with 13 by the size alone (02, W-204, W-213)."""
    return load_conditions(image, (LOCUTUS_WORDS, 0), None)


def card_conditions(image: bytes) -> list[Held]:
    """Give what holds of the card (01, refusal 30)."""
    return ([("30", 0)] if len(image) > CARD_LIMIT else []) + load_conditions(image, (CARD_RAM, 0), 0)


def salvage_conditions(image: bytes, buffer: Seeded) -> list[Held]:
    """Give what holds of a salvage (02, W-208)."""
    kept = [each for each in blocks_before_stop(image)[0] if not is_left_out(each)]
    found = image_conditions(image, block_conditions(kept, LOCUTUS_WORDS), [], LOCUTUS_WORDS, None)
    return found + short(buffer, LEAST_IMAGE if found else salvage(image, bytearray()).length)


def write_conditions(head: bytes, tables: bytes, ram: Seeded, laid: Laid, marks: bytes, buffer: Seeded) -> list[Held]:
    """Give what holds of the plain writer (01, The plain writer)."""
    flags, words_lent = head[:16], min(ram[0], LOCUTUS_WORDS)
    found = held(check_supported, flags, read_tables(tables))
    found += held(check_jlp_ram, flags, words_lent) + held(check_flash, flags, None)
    marked = [paragraph for paragraph, mark in enumerate(marked_by(marks)) if mark]
    found += [("9", paragraph) for paragraph in outside(marked, words_lent)]
    if found:
        return found + short(buffer, LEAST_IMAGE)
    need = write_image(flags, head[16:], read_tables(tables), ram_of(ram, laid), marked_by(marks), bytearray()).length
    return short(buffer, need)


def title_conditions(title: Title, buffer: Seeded) -> list[Held]:
    """Give what holds of a build; 27, 28 and 20 are asked of the lines that 25 and 26 let through (01, Build order)."""
    found = held(check_bin, title.bin_file())
    found += held(check_length, title.cfg, name="22 length") + held(check_bytes, title.cfg)
    entries, good = [], []
    for line in lines_in_sections(title.cfg):
        fault = held(read_entry, *line)
        found += fault
        entries += [] if fault else [read_entry(*line)]
    found += held(check_count, entries)
    for entry in entries:
        faults = held(check_range, entry, title.bin_length // 2)
        faults += held(check_shape, entry) if entry.lo <= entry.hi else []
        found += faults
        good += [] if faults else [entry]
    found += [("27", line) for line in lines_sharing(good)] + [("28", chapter) for chapter in chapters_broken(good)]
    found += held(check_pages, good) + held(check_label, title.label)
    if found:
        return found + short(buffer, LEAST_IMAGE)
    return short(buffer, build(title.bin_file(), title.cfg, bytearray(), title.label).length)


def lookup_conditions(image: bytes, label: bytes, _asked: Asked) -> list[Held]:
    """Give what holds of a lookup (02, W-204)."""
    return full_load_conditions(image) + ([("12 label", 0)] if sub_records(label) is None else [])


def label_conditions(label: bytes, buffer: Seeded) -> list[Held]:
    """Give what holds of a metadata block to be written (READINGS W204-23)."""
    return held(check_label, label) + short(buffer, BLOCK_HEADER + len(label))


def list_conditions(_image: bytes, _ram: Seeded, _flash: FlashFill, text: bytes, _limit: int, room: int) -> list[Held]:
    """Give what holds of a list of accesses (02, W-214)."""
    lines = [read_line(line) for line in lines_of(text)]
    found = [("33", number) for number, access in enumerate(lines, 1) if access is None]
    return found + ([("29", 0)] if count_reads([line for line in lines if line]) > room else [])


def back_conditions(image: bytes, bin_buffer: Seeded, cfg_buffer: Seeded) -> list[Held]:
    """Give what holds of the way back; 31 is asked where the blocks are good, metadata apart (02, W-213)."""
    found, tables = full_load_conditions(image), tables_in(blocks_before_stop(image)[0])
    least_bin, least_cfg = 2, LEAST_CFG
    if tables is not None and {number for number, _ in found} <= MAY_BE_ASKED_31:
        impossible = held(chosen, image, tables, image[4:20])
        found += impossible
        if not impossible:
            lines = chosen(image, tables, image[4:20])
            least_bin, least_cfg = len(bin_of(lines, named_words(image))), len(spell_cfg(lines))
            found += [("32", 0)] if least_bin > BIN_LIMIT else []
    return found + (short(bin_buffer, least_bin) or short(cfg_buffer, least_cfg))


CONDITIONS: dict[str, Callable[..., list[Held]]] = {
    "load": load_conditions, "card": card_conditions, "write": write_conditions, "cfg": title_conditions,
    "build": title_conditions, "names": lookup_conditions, "label": label_conditions, "salvage": salvage_conditions,
    "runs": list_conditions, "back": back_conditions,
}
