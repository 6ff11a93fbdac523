"""What a record of each family says: its inputs, and the answers made from them (RECORDS.md, Families)."""

from typing import Callable

from accesses import Access, play_machine, play_plain
from back import back
from builder import build, checked_entries, make_image
from card import card, card_load
from checksums import crc32, crc32_4, dowcrc
from load import load
from machine import Machine
from metadata import date_of, given_twice, image_records, lookup
from plain import PlainCartridge
from records import Asked, Cursor, FlashFill, Laid, Record, Seeded, buffer_of, digest, digest_words, ram_of
from runs import run_list
from salvage import program, salvage
from subrecords import spell, sub_records
from tables import Tables, read_tables
from titles import Title
from words import words_of
from writer import write_image, write_metadata

Answered = tuple[int, bytes]
Case = tuple[str, int, bytes]


def sums_record(data: bytes, seed: int) -> Answered:
    """Sum bytes three times (RECORDS.md, sums)."""
    record = Record().fill(data, 0, seed).number(1, dowcrc(data)).number(4, crc32_4(data), crc32(data))
    return 0, record.finished()


def load_record(image: bytes, ram: Seeded, flash: int = 0) -> Answered:
    """Load an image, with so many words of flash lent (RECORDS.md, load)."""
    words = ram_of(ram)
    answer = load(image, words, flash)
    record = Record().fill(image).number(4, *ram, flash).number(1, answer.number)
    record.number(4, answer.place, answer.blocks, answer.words).number(1, *answer.fields)
    record.number(4, digest(answer.tables.payload()), digest_words(words)).number(2, answer.tables.readable())
    return answer.number, record.finished()


def card_record(image: bytes) -> Answered:
    """Print an image's card (RECORDS.md, card)."""
    return card_load(image).number, Record().fill(image).text(card(image)).finished()


def loaded_machine(image: bytes, words: list[int], flash_lent: int) -> Machine:
    """Load an image that loads, and give its machine (RECORDS.md, machine)."""
    loaded = load(image, words, flash_lent)
    if loaded.number:
        raise SystemExit(f"a machine's image gives {loaded.number}")
    return Machine(loaded.tables, loaded.flags)


def with_state(record: Record, machine: Machine, words: list[int], flash: list[int]) -> Record:
    """Add the state at the end: active tables, RAM, flash, readable and on (RECORDS.md, machine)."""
    active = Tables(machine.mapping, machine.permissions, machine.initial.flips)
    record.number(4, digest(active.payload()), digest_words(words), digest_words(flash))
    return record.number(2, machine.readable).number(1, machine.jlp.on)


def machine_record(image: bytes, ram: Seeded, words_lent: int, fill: FlashFill, accesses: list[Access]) -> Answered:
    """Load an image and make accesses with the first words of RAM and flash lent (RECORDS.md, machine)."""
    words, flash = ram_of(ram), words_of(fill.data)
    machine = loaded_machine(image, words, fill.at_load)
    lent_words, lent_flash = words[:words_lent], flash[:fill.lent]
    answers = play_machine(machine, lent_words, lent_flash, accesses)
    words[:words_lent], flash[:fill.lent] = lent_words, lent_flash
    record = Record().fill(image).number(4, *ram, words_lent).fill(fill.data, fill.base)
    record.number(4, fill.at_load, fill.lent).accesses(accesses, answers)
    return 0, with_state(record, machine, words, flash).finished()


def write_record(head: bytes, tables: bytes, ram: Seeded, laid: Laid, marks: bytes, buffer: Seeded) -> Answered:
    """Write an image with head as flags and UID, words laid over the RAM, and marks as bits (RECORDS.md, write)."""
    out = buffer_of(buffer)
    answer = write_image(head[:16], head[16:], read_tables(tables), ram_of(ram, laid), marked_by(marks), out)
    record = Record().raw(head).fill(tables).number(4, *ram).laid(laid).fill(marks).number(4, *buffer)
    record.number(1, answer.number).number(4, answer.place, answer.length, digest(out))
    return answer.number, record.finished()


def marked_by(marks: bytes) -> list[bool]:
    """Read 2,048 marks from their bits (RECORDS.md, write)."""
    return [marks[paragraph // 8] >> paragraph % 8 & 1 == 1 for paragraph in range(2048)]


def with_title(record: Record, title: Title) -> Record:
    """Add a title's BIN and CFG (RECORDS.md, build)."""
    return record.fill(title.bin_file(), title.bin_base, title.bin_seed).fill(title.cfg, 0x20)


def build_record(title: Title, buffer: Seeded) -> Answered:
    """Build a title with its label (RECORDS.md, build)."""
    out = buffer_of(buffer)
    answer = build(title.bin_file(), title.cfg, out, title.label)
    record = with_title(Record(), title).fill(title.label).number(4, *buffer)
    record.number(1, answer.number).number(4, answer.place, answer.length, answer.needed, digest(out))
    return answer.number, record.finished()


def bus_record(title: Title, ram: Seeded, accesses: list[Access]) -> Answered:
    """Play a built title as the plain cartridge, and see the machine agree (RECORDS.md, bus)."""
    entries, words = checked_entries(title.bin_file(), title.cfg), ram_of(ram)
    machine = loaded_machine(make_image(title.bin_file(), title.cfg, entries), words, 0)
    answers = play_plain(PlainCartridge(title.bin_file(), entries), accesses)
    if play_machine(machine, words, [], accesses) != answers:
        raise SystemExit("the machine does not play as the plain cartridge")
    record = with_title(Record(), title).number(4, *ram).accesses(accesses, answers)
    return 0, record.number(4, digest_words(words)).number(2, machine.readable).finished()


def names_record(image: bytes, label: bytes, asked: Asked) -> Answered:
    """Look texts up in a label and an image, and tell of tags given twice (RECORDS.md, names)."""
    record = Record().fill(image).fill(label).number(2, len(asked))
    for tag, n in asked:
        record.number(1, tag).number(4, n)
    refused = lookup(image, label, 0, 0)
    mine, records = (sub_records(label) or [], image_records(image)) if not refused.number else ([], [])
    told = spell([(each.tag, each.text) for each in records])
    twice = sum(1 << bit for bit, given in enumerate(given_twice(records) + given_twice(mine)) if given)
    record.number(1, refused.number).number(4, refused.place, len(records), digest(told)).number(1, twice)
    for tag, n in asked:
        found = lookup(image, label, tag, n)
        record.number(1, found.source).number(4, found.start, found.length)
    return refused.number, record.finished()


def dates_record(text: bytes) -> Answered:
    """Read a release date (RECORDS.md, dates)."""
    date = date_of(text)
    record = Record().number(1, len(text)).raw(text).number(2, date.year)
    record.number(1, date.month, date.day, date.hour, date.minute, date.second, date.zone_hour % 256, date.zone_minutes)
    return 0, record.finished()


def label_record(label: bytes, buffer: Seeded) -> Answered:
    """Write sub-records as a block (RECORDS.md, label)."""
    out = buffer_of(buffer)
    answer = write_metadata(label, out)
    record = Record().fill(label).number(4, *buffer).number(1, answer.number)
    return answer.number, record.number(4, answer.place, answer.length, digest(out)).finished()


def salvage_record(image: bytes, buffer: Seeded) -> Answered:
    """Salvage an image, and say what the program prints (RECORDS.md, salvage)."""
    out = buffer_of(buffer)
    answer = salvage(image, out)
    stopped = 0 if answer.number else 0xFFFFFFFF if answer.stopped is None else answer.stopped
    record = Record().fill(image).number(4, *buffer).number(1, answer.number)
    record.number(4, answer.place, answer.length, answer.kept, len(answer.dropped), stopped, *answer.dropped,
                  digest(out))
    return answer.number, record.text(program(image)[0]).finished()


def runs_record(image: bytes, ram: Seeded, fill: FlashFill, text: bytes, limit: int, room: int) -> Answered:
    """Load an image and run a list of accesses (RECORDS.md, runs)."""
    words, flash = ram_of(ram), words_of(fill.data)
    machine = loaded_machine(image, words, len(flash))
    ran = run_list(machine, words, flash, text, limit, room)
    record = Record().fill(image).number(4, *ram).fill(fill.data, fill.base).fill(text, 0x30).number(4, limit, room)
    record.number(1, ran.number).number(4, ran.place, ran.length, ran.lines).number(2, len(ran.answers))
    for word in ran.answers:
        record.number(2, word or 0).number(1, word is not None)
    return ran.number, with_state(record, machine, words, flash).finished()


def back_record(image: bytes, bin_buffer: Seeded, cfg_buffer: Seeded) -> Answered:
    """Write an image's BIN and CFG (RECORDS.md, back)."""
    outs = [buffer_of(bin_buffer), buffer_of(cfg_buffer)]
    answer = back(image, *outs)
    record = Record().fill(image).number(4, *bin_buffer, *cfg_buffer).number(1, answer.number)
    record.number(4, answer.place, answer.bin_length, answer.cfg_length, *(digest(out) for out in outs))
    return answer.number, record.finished()


def title_in(c: Cursor, labelled: bool) -> Title:
    """Read a BIN, a CFG and, in build, a label (RECORDS.md, build, bus)."""
    rom, cfg = c.fill(), c.filled()
    return Title(len(rom.data), rom.seed, cfg, rom.base, rom.data, c.filled() if labelled else b"")


def sums_inputs(c: Cursor) -> tuple:
    """Read bytes and their seed (RECORDS.md, sums)."""
    fill = c.fill()
    return fill.data, fill.seed


def machine_inputs(c: Cursor) -> tuple:
    """Read image, RAM, flash and accesses (RECORDS.md, machine)."""
    return c.filled(), c.seeded(), c.number(4), c.lent_flash(), c.accesses()


def build_inputs(c: Cursor) -> tuple:
    """Read a title with its label, and a buffer (RECORDS.md, build)."""
    return title_in(c, True), c.seeded()


INPUTS: dict[str, Callable[[Cursor], tuple]] = {
    "sums": sums_inputs,
    "load": lambda c: (c.filled(), c.seeded(), c.number(4)),
    "card": lambda c: (c.filled(),),
    "machine": machine_inputs,
    "jlp": machine_inputs,
    "write": lambda c: (c.raw(24), c.filled(), c.seeded(), c.laid(), c.filled(), c.seeded()),
    "cfg": build_inputs,
    "build": build_inputs,
    "bus": lambda c: (title_in(c, False), c.seeded(), c.accesses()),
    "names": lambda c: (c.filled(), c.filled(), c.asked()),
    "dates": lambda c: (c.raw(c.number(1)),),
    "label": lambda c: (c.filled(), c.seeded()),
    "salvage": lambda c: (c.filled(), c.seeded()),
    "runs": lambda c: (c.filled(), c.seeded(), c.flash(), c.filled(), c.number(4), c.number(4)),
    "back": lambda c: (c.filled(), c.seeded(), c.seeded()),
}
RECORDS: dict[str, Callable[..., Answered]] = {
    "sums": sums_record, "load": load_record, "card": card_record, "machine": machine_record, "jlp": machine_record,
    "write": write_record, "cfg": build_record, "build": build_record, "bus": bus_record, "names": names_record,
    "dates": dates_record, "label": label_record, "salvage": salvage_record, "runs": runs_record, "back": back_record,
}
