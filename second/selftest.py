"""The self-test: the papers' own vectors and cases, and every part a second way (01, Bench cases; 001; 000; 02)."""

import re
import struct
import zlib
from typing import Callable, Iterator

import hunk
from access_lists import random_accesses
from accesses import READ_IT, RESET, RESET_IT, WRITE_IT, play_machine, play_plain, read, write
from back import back, holds_words, named_words, page_entry, paragraph_entry
from builder import PAGED, build, checked_entries, lay_out, make_image, make_tables
from card import card
from cases_back import random_built
from cases_jlp import CORNERS, CRC_TABLE
from cases_load import EXAMPLE
from cases_runs import spell_list
from cases_salvage import random_damage
from cases_write import random_paragraph
from checksums import CRC32, CRC32_4, DOWCRC, ONES, bit_by_bit, crc32, crc32_4, dowcrc, run
from drafts import bad_hunk, flag_bytes, jlp_bits, metadata_block, random_draft, random_hunk, random_tables, simple
from generator import Generator, fill_bytes, fill_words
from jlp import Jlp, crc_step, signed
from load import LOCUTUS_WORDS, NOT_STATED, Loaded, compatibility, jlp_field, load
from machine import Machine, asked_entry, flipped, half_page_of, stored
from metadata import Date, date_of, image_records, lookup
from plain import PlainCartridge
from runs import run_list
from salvage import salvage
from subrecords import spell, sub_records
from tables import Tables
from titles import ram_line, random_title
from writer import write_image, write_metadata

Check = tuple[str, bool]
RISING, FOUR = bytes(range(16)), bytes.fromhex("4A5A6A7A")
VECTORS = [
    (RISING, 0x00, 0x9BB99201, 0xCECEE288),
    (FOUR, 0xB8, 0x02CB247E, 0x9B04D72C),
    (bytes(8), 0x00, 0x00000000, 0x6522DF69),
    (b"\xFF" * 8, 0x84, 0xC44FF94D, 0x2144DF1C),
]
EXAMPLE_WORDS = """0240 0100 0040 0240 0101 02B8 7A5F 0240 7FFF 0004 0154 0042 02BC 8040 02B9 1F4F 0004 0154
 0046 0002 01C0 0240 012E 0240 0102 0004 0154 0030 0001 0004 0154 0051 56A8 0004 0150 0366 0000 0220 0009"""


def check_sums() -> Iterator[Check]:
    """Run 001's twelve vectors, and bytes at a time against bit by bit (001, Test vectors)."""
    for data, short, four, ieee in VECTORS:
        yield "DOWCRC vector", dowcrc(data) == short
        yield "CRC32/4 vector", crc32_4(data) == four
        yield "CRC32 vector", crc32(data) == ieee
    for length in range(64):
        data = fill_bytes(length, 0, length + 1)
        for polynomial, start in ((DOWCRC, 0), (CRC32_4, 0), (CRC32, ONES)):
            yield "bit by bit", run(polynomial, start, data) == bit_by_bit(polynomial, start, data)
        yield "zlib", crc32(data) == zlib.crc32(data)


def check_hunks() -> Iterator[Check]:
    """Decode and encode 001's example (001, Encoded Example; READINGS S1)."""
    words = [int(word, 16) for word in EXAMPLE_WORDS.split()]
    yield "example decoded", hunk.decode(b"\x01\x02\x03" + EXAMPLE) == (0x030201, words)
    cuts = [7, 9, 14, 16, 33, 39]
    parts = [words[first:last] for first, last in zip([0] + cuts, cuts)]
    yield "example encoded", b"".join(hunk.block_10(part) for part in parts) == EXAMPLE
    for count in range(1, 129):
        ten, eight = [n * 37 % 1024 for n in range(count)], list(range(count))
        yield "10-bit", hunk.decode(bytes(3) + hunk.block_10(ten, 0xFF)) == (0, ten)
        yield "8-bit", count > 63 or hunk.decode(bytes(3) + hunk.block_8(eight)) == (0, eight)


def good_hunk(payload: bytes, words_lent: int) -> bool:
    """Tell whether a payload is whole and its words lie in the RAM (01, refusal 9)."""
    decoded = hunk.decode(payload)
    return decoded is not None and (not decoded[1] or decoded[0] + len(decoded[1]) <= words_lent)


def check_faults(g: Generator, rounds: int) -> Iterator[Check]:
    """Find 9's place as the end of the longest beginning that is a good hunk (02, W-205)."""
    for _ in range(rounds):
        lent = g.pick([0, 1, 20, 40, 80])
        payload = g.pick([bad_hunk, random_hunk])(g, lent).payload
        good = [size for size in range(len(payload) + 1) if good_hunk(payload[:size], lent)]
        expected = None if len(payload) in good else (good or [0])[-1]
        yield "fault's place", hunk.fault(payload, lent) == expected


def check_fields() -> Iterator[Check]:
    """Take TutorVision from flag bytes by division, for every version and value (02, W-201)."""
    for byte in range(256):
        version, value = byte % 4, byte // 4 % 4
        for low in (0x00, 0x55, 0xE4):
            fields = compatibility(bytes([low, byte]) + bytes(14))
            yield "TutorVision", fields[4] == (NOT_STATED if version == 0 else value)
            yield "other fields", fields[:4] == (low % 4, low // 4 % 4, low // 16 % 4, low // 64)


PERMISSION_ROWS = {
    # READ, WRITE, NARROW: is a word heard, what a write of 0xABCD over 0x12FF leaves (001, Permissions Table)
    (0, 0, 0): (False, 0x12FF), (1, 0, 0): (True, 0x12FF), (0, 1, 0): (False, 0xABCD), (1, 1, 0): (True, 0xABCD),
    (0, 0, 1): (False, 0x12FF), (1, 0, 1): (True, 0x12FF), (0, 1, 1): (False, 0x12CD), (1, 1, 1): (True, 0x12CD),
}


def check_rows() -> Iterator[Check]:
    """Run the eight rows as a table says them (02, W-203)."""
    for (read, write_bit, narrow), (heard, left) in PERMISSION_ROWS.items():
        for reserved in range(0, 256, 8):
            tables, ram = Tables(), [0x12FF]
            tables.permissions[0x51] = read | write_bit << 1 | narrow << 2 | reserved
            machine = Machine(tables)
            yield "row is heard", machine.read(ram, 0x5100) == (0x12FF if heard else None)
            machine.write(ram, [], 0x5100, 0xABCD)
            yield "row stores", ram == [left]


def write_by_001(machine: Machine, intv_addr: int, intv_data: int) -> bool:
    """Bankswitch and flip as 001's pseudo-code does; tell whether the write acted (001, pp. 37 to 39)."""
    mmap_tbl, perm_tbl, flip_tbl = machine.mapping, machine.permissions, machine.initial.flips
    if 0x40 <= intv_addr <= 0x5F:
        half_page = ((intv_addr & 0xF) << 1) | ((intv_addr & 0x10) >> 4)
        para = half_page << 3
        is_banksw = (perm_tbl[para] >> 3) & 1
        bsw_offset = intv_data
        for i in range(8 if is_banksw else 0):
            mmap_tbl[para + i] = (bsw_offset + i) & 0xFF
        return is_banksw == 1
    chap, page, is_pageflip = (intv_addr >> 12) & 0xF, intv_data & 0xF, 0
    if intv_addr & 0xFFF == 0xFFF and intv_addr & 0xF000 == intv_data & 0xF000 and intv_data & 0xFF0 == 0xA50:
        flip = flip_tbl[(chap << 4) | page]
        is_pageflip = (flip >> 3) & 1 if chap > 1 else 0
    for i in range(16 if is_pageflip else 0):
        if chap != 4 or i >= 8:
            mmap_tbl[(chap << 4) + i] = (flip & 0xFFF0) + i
            perm_tbl[(chap << 4) + i] = flip & 7
    return is_pageflip == 1


def check_switches(g: Generator, rounds: int) -> Iterator[Check]:
    """Run 001's pseudo-code beside 02's words, and the Intellicart's own addresses (02, W-202)."""
    for _ in range(rounds):
        tables, ram = random_tables(g, 1500), [0] * 1024
        one, other = Machine(tables), Machine(tables)
        for operation, address, value in random_accesses(g, [g.below(16), g.below(16)], 60):
            if operation == RESET_IT:
                one.reset()
                other.reset()
                yield "readable after reset", one.readable == len([p for p in one.permissions if p % 2 == 1])
            elif operation == WRITE_IT:
                before, mapping, permissions = list(ram), list(one.mapping), list(one.permissions)
                half_page = half_page_of(address)
                assigned = one.write(ram, [], address, value)
                acted = write_by_001(other, address, value)
                yield "001's pseudo-code", (one.mapping, one.permissions) == (other.mapping, other.permissions)
                yield "a write that acts stores nothing", not acted or ram == before
                moved = [p for p in range(256) if (mapping[p], permissions[p]) != (one.mapping[p], one.permissions[p])]
                first, size = (address >> 12 << 4, 16) if half_page is None else (8 * half_page, 8)
                inside = [p for p in range(first, first + size) if address >> 12 != 4 or p & 8]
                yield "entries assigned", assigned == (len(inside) if acted else 0)
                yield "readable is the count", one.readable == len([p for p in one.permissions if p % 2 == 1])
                yield "others stay", set(moved) <= set(inside if acted else [])
                if acted and half_page is not None:
                    at = 2048 * half_page + g.below(2048)
                    yield "Intellicart address", one.location(at) == ((at & 0x07FF) + (value << 8)) & 0xFFFF


def crc_by_000(crc: int, word: int) -> int:
    """Take a word into the CRC as 000's assembly does, by its printed table (000, Reference Code)."""
    crc ^= word
    for _ in range(2):
        index = crc & 0xFF
        crc = (crc >> 8 | crc << 8 & 0xFF00) ^ CRC_TABLE[index]
    return crc


def check_jlp(g: Generator, rounds: int) -> Iterator[Check]:
    """Run the CRC by 000's table, and arithmetic by what it must satisfy (000; 02, W-206)."""
    for byte in range(256):
        yield "CRC table", crc_step(0, byte << 8) == CRC_TABLE[byte] ^ byte << 8
    for _ in range(rounds):
        crc, word = g.below(65536), g.below(65536)
        yield "CRC by 000's assembly", crc_step(crc, word) == crc_by_000(crc, word)
        jlp = Jlp(b"\x00\x00\x01" + bytes(13))
        a, b = (g.pick([g.below(65536), g.pick(CORNERS)]) for _ in range(2))
        sa, sb = (int.from_bytes(word.to_bytes(2, "big"), "big", signed=True) for word in (a, b))
        for function, (x, y) in enumerate(((sa, sb), (sa, b), (a, sb), (a, b), (sa, sb), (a, b))):
            jlp.low, jlp.high = 0x1234, 0x5678
            for address, value in g.shuffled([(0x9F80 + 2 * function, a), (0x9F81 + 2 * function, b)]):
                jlp.write([], [], address, value)
            if function < 4:
                yield "product", (jlp.high << 16 | jlp.low) == x * y & 0xFFFFFFFF
            elif b == 0:
                yield "divisor 0", (jlp.low, jlp.high) == (0x1234, 0x5678)
            elif (x, y) == (-32768, -1):
                yield "-32,768 by -1", (jlp.low, jlp.high) == (0x8000, 0)
            else:
                quotient = signed(jlp.low) if function == 4 else jlp.low
                rest = signed(jlp.high) if function == 4 else jlp.high
                yield "division", quotient * y + rest == x and abs(rest) < abs(y) and rest * x >= 0


class PlainRows:
    """A list of rows, as 02 has flash in words: read, write where empty, erase eight (02, W-209)."""

    def __init__(self, sectors: int, words: list[int]) -> None:
        self.rows = [words[96 * row:96 * row + 96] for row in range(8 * sectors)]

    def run(self, command: str, row: int, addr: int, ram: dict[int, int]) -> None:
        """Run a command on RAM by console address, or drop it."""
        if row >= len(self.rows) or command != "erase" and not 0x8040 <= addr <= 0x9F7F - 95:
            return
        if command == "read":
            ram.update({addr + n: word for n, word in enumerate(self.rows[row])})
        elif command == "write" and set(self.rows[row]) == {0xFFFF}:
            self.rows[row] = [ram[addr + n] for n in range(96)]
        elif command == "erase":
            for which in range(len(self.rows)):
                if which // 8 == row // 8:
                    self.rows[which] = [0xFFFF] * 96


def check_rows_of_flash(g: Generator, rounds: int) -> Iterator[Check]:
    """Run commands beside a plain list of rows (02, W-209)."""
    commands = {"read": (0x802E, 0xDEC0), "write": (0x802D, 0xC0DE), "erase": (0x802F, 0xBEEF)}
    for _ in range(rounds):
        sectors, ram = g.between(1, 3), list(fill_words(73_600, g.between(1, 9)))
        flash = [0xFFFF] * 768 * sectors
        for row in range(g.below(6)):
            flash[96 * row * 3 % len(flash)] = g.below(65536)
        rows, console = PlainRows(sectors, list(flash)), {a: ram[a + 0x8000] for a in range(0x8040, 0x9F80)}
        machine = Machine(Tables(), flag_bytes(jlp_bits(3, sectors)))
        for _ in range(40):
            addr = g.pick([0x803F, 0x8040, 0x9F20, 0x9F21, g.below(65536), 0x8040 + g.below(7000)])
            row, command = g.below(8 * sectors + 2), g.pick(list(commands))
            for address, value in ((0x8025, addr), (0x8026, row), commands[command]):
                machine.write(ram, flash, address, value)
            rows.run(command, row, addr, console)
            yield "flash as rows", flash == [word for row_words in rows.rows for word in row_words]
            yield "RAM as rows", ram[0x10040:0x11F80] == list(console.values())


def carried(pack: Callable[[list[int]], bytes], words: list[int]) -> list[bytes]:
    """Give a form of the words if what it packs unpacks to them (001, Data Hunk)."""
    try:
        packed = pack(words)
    except (ValueError, struct.error):
        return []
    return [packed] if hunk.decode(bytes(3) + packed) == (0, words) else []


def check_forms(g: Generator, rounds: int) -> Iterator[Check]:
    """Try every form by packing and unpacking, and take the shortest (02, W-207)."""
    sizes = {62: (125, 80, 64), 8: (17, 12, 10), 2: (5, 5, 4), 1: (3, 3, 3)}
    for count, expected in sizes.items():
        yield "sizes", tuple(len(form) for form in hunk.forms([0] * count)) == expected
    yield "tie", hunk.smallest([9]) == hunk.block_16([9]) and hunk.smallest([0x100, 9]) == hunk.block_16([0x100, 9])
    for _ in range(rounds):
        words = random_paragraph(g)[:g.between(1, 62)]
        tried = [form for pack in (hunk.block_16, hunk.block_10, hunk.block_8) for form in carried(pack, words)]
        yield "smallest form", hunk.smallest(words) == min(tried, key=len)
        paragraph = random_paragraph(g)
        packed = hunk.encode(256, paragraph)
        yield "same words", hunk.decode(packed) == (256, paragraph)
        yield "same cuts", [len(more or []) for _, more in hunk.data_blocks(packed)] == [62, 62, 62, 62, 8]


def check_metadata(g: Generator, rounds: int) -> Iterator[Check]:
    """Write records and read them back, cut them anywhere, and look texts up in plain lists (02, W-204)."""
    for _ in range(rounds):
        parts = [[(g.pick([0, 1, 2, 2, 16]), bytes(g.below(256) for _ in range(g.below(5))))
                  for _ in range(g.below(6))] for _ in range(3)]
        label, blocks = spell(parts[0]), [metadata_block(spell(part)) for part in parts[1:]]
        image = simple(*blocks)
        records = image_records(image)
        yield "same records", [(r.tag, r.text) for r in records] == parts[1] + parts[2]
        yield "shown where they stand", all(image[r.start:r.start + len(r.text)] == r.text for r in records)
        cut, ends = g.below(len(label) + 1), {0}
        for place in range(cut - 1):
            if place in ends:
                ends.add(place + 2 + label[place + 1])
        yield "cut", (sub_records(label[:cut]) is None) == (cut not in ends)
        for tag in range(3):
            mine, others = ([text for t, text in part if t == tag] for part in (parts[0], parts[1] + parts[2]))
            n = g.below(5)
            found = lookup(image, label, tag, n)
            wanted = dict(enumerate(others, 1)) | dict(enumerate(mine, 1))
            file = {0: None, 1: label, 2: image}[found.source]
            shown = None if file is None else file[found.start:found.start + found.length]
            yield "n-th text", shown == wanted.get(n)
            yield "the label's first", (found.source == 1) == (1 <= n <= len(mine))
        out = bytearray(8 + len(label))
        yield "block written", write_metadata(label, out).number == 0 and out == metadata_block(label).encoded()
    for size in range(9):
        date = date_of(bytes([119, 7, 6, 23, 59, 60, 0xFE, 30][:size]))
        yield "date", date == Date(*([2019, 7, 6, 23, 59, 60, -2, 30][:size] + [1900, 0, 0, 0, 0, 0, 0, 0][size:]))


def loads_in_full(image: bytes) -> tuple[Loaded, list[int]]:
    """Load into a RAM of 524,288 words with a flash that 13 lets through (02, W-208)."""
    ram = [0x5A5A] * LOCUTUS_WORDS
    return load(image, ram, None), ram


def check_salvage(g: Generator, rounds: int) -> Iterator[Check]:
    """Load before and after, and leave blocks out one by one by asking a load of each alone (02, W-208)."""
    for _ in range(rounds):
        image, buffer = random_damage(g), bytearray(100_000)
        answer, (before, ram_before) = salvage(image, buffer), loads_in_full(image)
        out = bytes(buffer[:answer.length])
        if answer.number:
            yield "a refusal changes nothing", buffer == bytearray(100_000)
            yield "a refused image does not load", before.number != 0
            continue
        after, ram_after = loads_in_full(out)
        yield "loads after", (after.number, after.blocks) == (0, answer.kept)
        if before.number == 0:
            yield "the same before and after", (before, ram_before) == (after, ram_after)
            yield "nothing is left out", not answer.dropped and answer.stopped is None
        again = bytearray(100_000)
        yield "a second salvage changes nothing", (salvage(out, again).length, again) == (answer.length, buffer)
        for place in answer.dropped:
            size = 8 + image[place + 1] + 256 * image[place + 2]
            alone = loads_in_full(simple(tail=image[place:place + size]))[0]
            yield "what is left out would give 6 or 9", alone.number in (6, 9) and image[place] == 2


def check_runs(g: Generator, rounds: int) -> Iterator[Check]:
    """Run lists with two limits, and beside the accesses made one by one (02, W-214)."""
    for _ in range(rounds):
        tables, accesses = random_tables(g, 300), random_accesses(g, [g.below(16), 5], g.between(1, 30))
        text, low = spell_list(g, accesses), g.below(35)
        high = low + g.below(10)
        rams = [list(fill_words(2048, 3)) for _ in range(3)]
        short = run_list(Machine(tables), rams[0], [], text, low, 30)
        long = run_list(Machine(tables), rams[1], [], text, high, 30)
        yield "lines run", (short.lines, long.lines) == (min(low, len(accesses)), min(high, len(accesses)))
        yield "a higher limit adds", long.answers[:len(short.answers)] == short.answers
        by_hand, machine = [], Machine(tables)
        for operation, address, value in accesses[:low]:
            if operation == READ_IT:
                by_hand.append(machine.read(rams[2], address))
            elif operation == WRITE_IT:
                machine.write(rams[2], [], address, value)
            else:
                machine.reset()
        yield "one by one", (by_hand, rams[2]) == (short.answers, rams[0])
        place = g.below(len(text))
        spoilt = text[:place] + bytes([text[place] ^ 1 << g.below(8)]) + text[place + 1:]
        grammar = b"((op=x|op=r addr=[0-9a-fA-F]{4}|op=w addr=[0-9a-fA-F]{4} value=[0-9a-fA-F]{4})(\r?\n|(?!\n)\\Z))*"
        refused = run_list(Machine(tables), [], [], spoilt, 0, 30).number == 33
        yield "33", refused == (re.fullmatch(grammar, spoilt) is None)


def plan_by_rows(tables: Tables, named: set[int]) -> tuple[dict[int, str], set[tuple[int, int]]]:
    """Decode kinds and pages from flips, permissions and named paragraphs alone, without trying (02, W-213)."""
    kinds: dict[int, str] = {}
    found: set[tuple[int, int]] = set()
    first = 0
    for chapter in range(16):
        row, pages, flat = tables.flips[16 * chapter:16 * chapter + 16], set(), set()
        if any(row) and chapter in PAGED:
            flat = set(range(16 * chapter + (8 if chapter == 4 else 0), 16 * chapter + 16))
            absent = 8 if 8 in row else 16 * first + 9
            pages = {page for page in range(16) if row[page] != absent}
            if absent != 8 and 16 * first + 8 in named:
                kinds.update(dict.fromkeys(flat, "rom"))
        for paragraph in set(range(16 * chapter, 16 * chapter + 16)) - flat:
            if paragraph >= 5 and chapter not in (1, 3) and tables.permissions[paragraph] in (1, 3, 7):
                kinds[paragraph] = {1: "rom", 3: "ram16", 7: "ram8"}[tables.permissions[paragraph]]
        found |= {(chapter, page) for page in pages}
        first += len(pages) + any(p >> 4 == chapter for p in kinds)
    return kinds, found


def check_back(g: Generator, rounds: int) -> Iterator[Check]:
    """Decode a plan without trying, and build again what came back (02, W-213)."""
    for _ in range(rounds):
        image = random_built(g)[1]
        loaded = loads_in_full(image)[0]
        bin_buffer, cfg_buffer = bytearray(600_000), bytearray(16_384)
        answer = back(image, bin_buffer, cfg_buffer)
        if loaded.number:
            yield "a load's refusals first", (answer.number, answer.place) == (loaded.number, loaded.place)
            continue
        named = named_words(image)
        kinds, pages = plan_by_rows(loaded.tables, {word // 256 for word in named})
        plan = tuple(paragraph_entry(p, kind) for p, kind in kinds.items()) + tuple(page_entry(*page) for page in pages)
        starts = len([p for p in kinds if kinds.get(p - 1) != kinds[p]])
        possible = (jlp_field(loaded.flags) == 0 and 1 <= starts + len(pages) <= 128
                    and make_tables(plan, lay_out(plan)) == loaded.tables and holds_words(plan, named))
        yield "31", (answer.number == 31) == (not possible)
        if answer.number:
            continue
        bin_file, cfg = bytes(bin_buffer[:answer.bin_length]), bytes(cfg_buffer[:answer.cfg_length])
        entries = checked_entries(bin_file, cfg)
        yield "as many lines", len(entries) == starts + len(pages)
        again = make_image(bin_file, cfg, entries)
        yield "the same tables", loads_in_full(again)[0].tables == loaded.tables
        yield "the same words", named_words(again) == named
        twice = [bytearray(600_000), bytearray(16_384)]
        back(again, *twice)
        yield "back again", twice == [bin_buffer, cfg_buffer]


def built(bin_length: int, text: str) -> tuple:
    """Build lines after [mapping], and load the image (01, Bench cases 6 and 7)."""
    buffer, ram = bytearray(1_100_000), [7] * LOCUTUS_WORDS
    answer = build(fill_bytes(bin_length, 0, 5), b"[mapping]\n" + text.encode(), buffer)
    return answer, load(bytes(buffer[:answer.length]), ram), ram


def check_cases_1_to_5() -> Iterator[Check]:
    """Run the cases on sums, flips and narrow writes (01, Bench cases)."""
    yield "case 1", (dowcrc(RISING), dowcrc(FOUR)) == (0x00, 0xB8)
    yield "case 2", (crc32(RISING), crc32(FOUR)) == (0xCECEE288, 0x9B04D72C)
    yield "case 3", flipped(0x123D, 10) == (0x123A, 5) and (0x123A * 256 + 0x34) % 2**19 == 0x23A34
    yield "case 4", stored(0x12FF, 0xABCD, True) == 0x12CD
    yield "case 5", asked_entry(0x5FFF, 0x5A53) == 83
    yield "case 5", asked_entry(0x5FFF, 0x6A53) is None and asked_entry(0x5FFE, 0x5A53) is None


def check_cases_6_to_8() -> Iterator[Check]:
    """Run the cases on titles, and the card's on empty input (01, Bench cases)."""
    answer, loaded, ram = built(512, "$0000 - $00FF = $5000")
    tables = loaded.tables
    yield "case 6", (answer.number, answer.needed) == (0, 4096)
    yield "case 6", (tables.mapping[0x50], tables.permissions[0x50]) == (0, 1)
    short = built(510, "$0000 - $00FF = $5000")[0]
    yield "case 6", (short.number, short.place, short.length, short.needed) == (25, 2, 0, 0)
    answer, loaded, ram = built(8192, "$0000 - $0FFF = $C000 PAGE 2")
    yield "case 7", loaded.tables.flips[192:208] == [8, 8, 9] + [8] * 13
    word = int.from_bytes(fill_bytes(8192, 0, 5)[:2], "big")
    accesses = [read(0xC000), write(0xCFFF, 0xCA52), read(0xC000), RESET, read(0xC000)]
    answers = play_machine(Machine(loaded.tables), ram, [], accesses)
    yield "case 7", answers == [(None, 0), (None, 16), (word, 0), (None, 0), (None, 0)]
    lines = [ram_line(p) + "\n" for p in range(0x50, 0xD1)]
    yield "case 8", built(2, "[memattr]\n" + "".join(lines[:128]))[0].number == 0
    answer = built(2, "[memattr]\n" + "".join(lines))[0]
    yield "case 8", (answer.number, answer.place) == (24, 131)
    yield "card", card(b"") == "result=refused\ncode=1\nat=0\n"


def check_words_needed() -> Iterator[Check]:
    """Ask 20 of titles with a plain page in each of 14 chapters and any number of PAGE lines (02, W-210)."""
    plain = "$0-$FFF=$2000\n$0-$BFFF=$4000\n[memattr]\n$500-$FFF=RAM 8\n[mapping]\n"
    for count in (1, 61, 113, 114, 115, 116, 124, 125):
        text = plain + "".join(f"$0-$FFF=${5 + n // 16:X}000 PAGE {n % 16:X}\n" for n in range(count))
        answer = built(98_304, text)[0]
        expected = (0, 4096 * (14 + count)) if 14 + count <= 128 else (20, 0)
        yield "words needed", (answer.number, answer.needed) == expected


def check_titles(g: Generator, rounds: int) -> Iterator[Check]:
    """Play built and loaded titles beside the plain cartridge (01, The plain cartridge)."""
    for _ in range(rounds):
        title = random_title(g, g.pick([1, 2, 3, 14]))
        entries = checked_entries(title.bin_file(), title.cfg)
        image = make_image(title.bin_file(), title.cfg, entries)
        ram = list(fill_words(LOCUTUS_WORDS, 9))
        loaded = load(image, ram)
        yield "title loads", loaded.number == 0 and loaded.words == 256 * (loaded.blocks - 1)
        yield "title tolerates", loaded.fields == (1, 1, 1, 1, 1)
        accesses = random_accesses(g, [entry.chapter for entry in entries], 400)
        expected = play_plain(PlainCartridge(title.bin_file(), entries), accesses)
        yield "title plays", play_machine(Machine(loaded.tables), ram, [], accesses) == expected


def check_round_trips(g: Generator, rounds: int) -> Iterator[Check]:
    """Write what was loaded and load it again (01, The plain writer)."""
    for _ in range(rounds):
        size = g.pick([0, 1, 256, 1000, 2048])
        ram = list(fill_words(size, g.between(1, 9)))
        image = random_draft(g, size).encoded()
        loaded = load(image, ram)
        yield "draft loads", loaded.number == 0
        buffer = bytearray(1321 + 528 * 8 + 3)
        marks = [p < size // 256 for p in range(2048)]
        written = write_image(image[4:20], image[20:28], loaded.tables, ram, marks, buffer)
        other = [0] * size
        again = load(bytes(buffer[:written.length]), other)
        yield "written loads", (again.number, again.words) == (0, size // 256 * 256)
        yield "same tables", (again.tables, again.fields) == (loaded.tables, loaded.fields)
        yield "same words", other[:again.words] == ram[:again.words]


def main() -> None:
    """Run every check, and say how many there were (01, Bench cases)."""
    g, ran = Generator(2019), 0
    for checks in (check_sums(), check_hunks(), check_cases_1_to_5(), check_cases_6_to_8(),
                   check_faults(g, 1000), check_forms(g, 1000), check_words_needed(), check_fields(), check_rows(),
                   check_switches(g, 300), check_jlp(g, 2000), check_rows_of_flash(g, 60), check_metadata(g, 200),
                   check_salvage(g, 200), check_runs(g, 300), check_back(g, 200), check_titles(g, 200),
                   check_round_trips(g, 500)):
        for name, passed in checks:
            ran += 1
            if not passed:
                raise SystemExit(f"self-test: {name} fails (check {ran})")
    print(f"self-test: all {ran} checks pass")


if __name__ == "__main__":
    main()
