"""Cases on the machine: the family machine (RECORDS.md, Families)."""

from typing import Iterable, Iterator

from access_lists import random_accesses
from accesses import RESET, Access, read, write
from drafts import random_tables, simple
from families import Case, machine_record
from generator import Generator
from records import FlashFill
from tables import BANKSW, READ, WRITE, Tables


def row_edges() -> Iterator[Case]:
    """Give each setting of READ, WRITE and NARROW with some reserved bits (02, W-203; READINGS W203-1)."""
    for row in range(8):
        for reserved in (0x00, 0x08, 0x50, 0xF8):
            tables, accesses = Tables(), []
            for paragraph in (0x02, 0x05, 0x13, 0x31, 0x51):
                tables.mapping[paragraph] = tables.mapping[0x60 + paragraph] = paragraph % 8
                tables.permissions[paragraph], tables.permissions[0x60 + paragraph] = row | reserved, 1
                for value in (0xABCD, 0x0100):
                    accesses += [read(256 * paragraph + 7), write(256 * paragraph + 7, value),
                                 read(256 * paragraph + 7)]
                    accesses.append(read(256 * (0x60 + paragraph) + 7))
            image = simple(tables=tables)
            yield (f"W203-1 row {row:03b}, reserved {reserved:#04x}",
                   *machine_record(image, (2048, 3), 2048, FlashFill(), accesses))


def looks(half_page: int) -> list[Access]:
    """Read first and last words of a half-page's paragraphs, and beside it (01, The machine)."""
    first = 2048 * half_page
    near = [(first - 1) % 65536, (first + 2048) % 65536]
    return [read(address) for p in range(8)
            for address in (first + 256 * p, first + 256 * p + 255)] + [read(a) for a in near]


def bank_tables(mapping: int, permissions: int, half_pages: Iterable[int]) -> Tables:
    """Give some half-pages rising mappings and one permissions byte (02, W-202)."""
    tables = Tables()
    for paragraph in [8 * half_page % 256 + k for half_page in half_pages for k in range(8)]:
        tables.mapping[paragraph], tables.permissions[paragraph] = mapping + paragraph, permissions
    return tables


def bank_edges() -> Iterator[tuple[str, Tables, list[Access]]]:
    """Give each half-page and the readings on bankswitching (02, W-202; READINGS W202-1 to W202-11)."""
    for half_page in range(32):
        register = 0x40 + half_page // 2 + 16 * (half_page % 2)
        tables = bank_tables(0x1200, READ | 0xF0, [half_page - 1, half_page, half_page + 1])
        tables.permissions[8 * half_page] |= BANKSW
        for value in (0x0000, 0x00F9, 0x00FF, 0x77FE, 0xFF03) if half_page % 8 == 5 else (0x00F9, 0x77FE):
            yield f"W202-1 half-page {half_page}, {value:#06x}", tables, [write(register, value), *looks(half_page)]
        others = bank_tables(0x1200, READ | BANKSW | WRITE, [0, half_page])
        others.permissions[8 * half_page] = READ | WRITE
        others.mapping[0], others.mapping[0x60], others.permissions[0x60] = 9, 9, READ
        alias = [write(register, 0x4321), read(0x6000 + register), *looks(half_page)]
        yield f"W202-6 W202-7 half-page {half_page} has not the bit", others, alias
    tables = bank_tables(0x1200, READ, [24, 25])
    tables.permissions[0xC0] |= BANKSW
    yield "001's write to $004C", tables, [write(0x004C, 0x0060), *looks(24), write(0x005C, 0x0068), *looks(25)]
    for address in (0x003F, 0x0040, 0x005F, 0x0060, 0x0140, 0x1040, 0x8040, 0xFF50, 0x0540, 0x0050):
        tables = bank_tables(0, READ | BANKSW | WRITE, [0, 1, 2, 16, 30, 31])
        tables.mapping[0x60], tables.permissions[0x60] = address >> 8, READ
        accesses = [write(address, 0x0067), read(address), read(0x6000 + address % 256), read(0x0540)]
        yield f"W202-10 write to {address:#06x}", tables, accesses + looks(0)[-8:] + looks(31)[-4:]


def count_edges() -> Iterator[tuple[str, Tables, list[Access]]]:
    """Give flips that make paragraphs readable or not, then a bankswitch and a reset (02, W-211)."""
    starts = {"none": [0] * 256, "all": [READ] * 256, "all, banked": [READ | BANKSW] * 256,
              "every third": [0xFE | READ * (p % 3 == 0) for p in range(256)]}
    for chapter in (0, 1, 2, 3, 4, 5, 8, 15):
        for name, permissions in starts.items():
            tables = Tables(permissions=list(permissions))
            row = [0x10, 0x19, 0x1E, 0x1F] if chapter != 1 else [0x10, 0x11, 0x16, 0x17]
            tables.flips[16 * chapter:16 * chapter + 4] = row
            asks = [write(4096 * chapter + 0xFFF, 4096 * chapter + 0xA50 + page) for page in range(4)]
            for accesses in ([], asks[:1], asks[:2], asks[:3], asks[1:], [asks[2], RESET],
                             [write(0x40 + chapter, 0x20)]):
                if accesses or chapter == 0:
                    yield f"W211-1 chapter {chapter}, {name} at first, {len(accesses)} accesses", tables, accesses


def bank_and_flip_edges() -> Iterator[tuple[str, Tables, list[Access]]]:
    """Give bankswitches before and after page requests and resets (02, W-202; READINGS W202-5, W202-9)."""
    for chapter in (0, 1, 2, 3, 4, 5, 8, 15):
        tables = bank_tables(0x30, READ | BANKSW, [2 * chapter, 2 * chapter + 1])
        pfe = 8 if chapter != 1 else 0
        tables.flips[16 * chapter:16 * chapter + 16] = [16 * page + 0x20 | pfe | page % 8 for page in range(16)]
        tables.flips[16 * chapter + 7] &= 0xFFF7
        low, high = 0x40 + chapter, 0x50 + chapter
        request = 4096 * chapter + 0xA50
        flip, miss = write(4096 * chapter + 0xFFF, request + 1), write(4096 * chapter + 0xFFF, request + 7)
        look = looks(2 * chapter) + looks(2 * chapter + 1)
        switch = [write(low, 0x10), write(high, 0xFC)]
        for name, accesses in (
            ("switch, flip", [*switch, flip, *look]),
            ("flip, switch", [flip, *switch, *look]),
            ("flip that does not act, switch", [miss, *switch, *look]),
            ("flip, switch, reset, switch", [flip, *switch, RESET, *switch, *look]),
            ("switch, flip, switch, flip", [*switch, flip, *switch, write(flip[1], request + 3), *look]),
            ("switch, reset", [*switch, RESET, *look]),
            ("W212-1 the same twice", [*switch, *switch, flip, flip, *switch, miss, *look]),
            ("switch twice", [*switch, write(low, 0xFF), write(high, 0x80), *look]),
        ):
            yield f"W202-5 chapter {chapter}: {name}", tables, accesses


def machine_case(g: Generator, which: int) -> Case:
    """Load tables of any kind, and run accesses on the machine (01, The machine; M1 to M6)."""
    tables = random_tables(g, g.pick([20, 200, 1500]))
    for paragraph in range(256):
        if g.below(3):
            tables.mapping[paragraph] &= 0xF80F
    ram_length, ram_seed = g.pick([0, 1, 300, 4096, 4096, 4096, 65_536]), g.between(1, 9)
    if which % 50 == 0:
        ram_length = g.pick([524_287, 524_288, 524_300])
    image = simple(tables=tables)
    lent = g.below(ram_length + 1) if g.one_in(8) else ram_length
    accesses = random_accesses(g, [g.below(16), g.below(5)], 100)
    return (f"RAM of {ram_length} words, {lent} lent",
            *machine_record(image, (ram_length, ram_seed), lent, FlashFill(), accesses))


def machine_cases(g: Generator) -> Iterator[Case]:
    """Give the edges, then random tables and accesses (01, The machine)."""
    yield from row_edges()
    for edges, ram in ((bank_edges(), (65_536, 3)), (bank_and_flip_edges(), (16_384, 4)), (count_edges(), (16, 4))):
        for name, tables, accesses in edges:
            yield (name, *machine_record(simple(tables=tables), ram, ram[0], FlashFill(), accesses))
    for which in range(300):
        yield machine_case(g, which)
