"""Cases on JLP's flash: the family jlp, second part (02, W-209; RECORDS.md, Families)."""

from typing import Iterator

from accesses import RESET, Access, read, write
from cases_jlp import OFF, ON, over, random_jlp_access
from drafts import jlp_bits, simple
from families import Case, machine_record
from flash import ADDR, AT_ROW, ERASE_SECTOR, FIRST, LAST, READ_ROW, ROW, WRITE_ROW
from generator import Generator, fill_bytes
from load import JLP_WORDS, SECTOR_WORDS
from records import FlashFill
from tables import READ, WRITE

ROWS_READ = [read(FIRST), read(LAST)]
DO_WRITE, DO_READ, DO_ERASE = write(*WRITE_ROW), write(*READ_ROW), write(*ERASE_SECTOR)
Edge = tuple[str, int, int, FlashFill, list[Access]]


def at(addr: int, row: int) -> list[Access]:
    """Set both registers (000, JLP Flash)."""
    return [write(ADDR, addr), write(AT_ROW, row)]


def look(addr: int) -> list[Access]:
    """Read the first and last word of a place for a row, and beside it (02, W-209)."""
    return [read(address % 65536) for address in (addr - 1, addr, addr + ROW - 1, addr + ROW)]


def flash_of(sectors: int, full: dict[int, bytes]) -> bytes:
    """Give empty flash with some rows' bytes over it (02, W-209)."""
    data = bytearray(b"\xFF" * (2 * SECTOR_WORDS * sectors))
    for row, content in full.items():
        data[192 * row:192 * row + len(content)] = content
    return bytes(data)


def flash_lent(sectors: int, full: dict[int, bytes], spare: int = 0) -> FlashFill:
    """Lend flash of so many sectors; the accesses get more or fewer words by spare (READINGS W209-4, W209-5)."""
    data = flash_of(sectors + (1 if spare > 0 else 0), full)
    return FlashFill(data, SECTOR_WORDS * sectors, SECTOR_WORDS * sectors + spare, 0xFF)


def register_edges() -> Iterator[Edge]:
    """Read and write the registers by field and size, on and off (READINGS W209-1, W209-6, W209-9 to W209-11)."""
    every = [read(a) for a in range(0x8022, 0x8031)]
    for jlp in range(4):
        for size in (0, 1, 2):
            flash = flash_lent(size if jlp >= 2 else 0, {0: fill_bytes(192, 0, 5)} if size and jlp >= 2 else {})
            writes = [write(a, 0x8100 + a % 16) for a in range(0x8022, 0x8031)]
            accesses = every + writes + every
            accesses += [ON, *every, *at(0x8040, 0), DO_READ, *look(0x8040)]
            accesses += [OFF, *every, *at(0x8200, 0), DO_READ, ON, DO_READ, *look(0x8040), *look(0x8200)]
            yield f"W209-1 field {jlp}, size {size}", jlp, size, flash, accesses
    commands = [*ROWS_READ, *at(0x8040, 0), DO_READ, DO_WRITE, DO_ERASE, *look(0x8040)]
    yield "W209-4 682 sectors", 3, 682, FlashFill(b"", SECTOR_WORDS * 682, 0, 0), commands
    yield "W209-1 field 1 keeps no flash", 1, 682, FlashFill(b"\x12\x34" * 5, 3, 5, 0), commands
    survive = [*at(0x8100, 1), RESET, DO_READ, *look(0x8100), OFF, ON, write(AT_ROW, 0), DO_READ, *look(0x8100)]
    yield "W209-11 registers survive", 3, 1, flash_lent(1, {1: fill_bytes(192, 0, 6)}), survive
    for command in (WRITE_ROW, READ_ROW, ERASE_SECTOR):
        for word in (0xC0DE, 0xDEC0, 0xBEEF, 0, command[1] ^ 1):
            ask = [write(command[0], word), *look(0x8100)]
            flash = flash_lent(1, {1: fill_bytes(192, 0, 6)})
            yield f"W209-6 {word:04X} to {command[0]:04X}", 3, 1, flash, [*at(0x8100, 0), *ask, *at(0x8100, 1), *ask]


def range_edges() -> Iterator[Edge]:
    """Run each command at the edges of RAM and rows (READINGS W209-2, W209-3, W209-5, W209-7)."""
    full = {row: fill_bytes(192 if row == 8 else 6, 0, 9 + row) for row in (0, 7, 8, 15)}
    addrs = (0x0000, 0x803F, 0x8040, 0x8041, 0x9F20, 0x9F21, 0x9F7F, 0x9F80, 0xFFA0, 0xFFA1, 0xFFFF)
    rows = (0, 1, 6, 7, 8, 9, 15, 16, 17, 0x7FFF, 0x8000, 0xFFFF)
    for command in (DO_READ, DO_WRITE):
        for start in (7, 9):
            accesses = [access for n, addr in enumerate(addrs)
                        for access in (*at(addr, start if command == DO_READ else start - 7 + n), command, *look(addr),
                                       *look(0x8040)[1:3])]
            yield f"W209-2 {command[1]:04X}, addresses, from row {start}", 3, 2, flash_lent(2, full), accesses
        accesses = [access for n, row in enumerate(rows)
                    for access in (*at(0x9000 + 96 * n, row), command, *look(0x9000 + 96 * n))]
        yield f"W209-3 {command[1]:04X}, rows", 2, 2, flash_lent(2, full), [ON, *accesses]
        for spare in (1, 768, -1, -95, -96, -97, -768, -769, -1536):
            accesses = [access for row in (0, 6, 8, 14, 15, 16)
                        for access in (*at(0x9000 + row, row), command, *look(0x9000 + row))]
            yield f"W209-5 {command[1]:04X}, {spare} words more lent", 3, 2, flash_lent(2, full, spare), accesses
    for row in rows:
        yield f"W209-7 erase row {row}", 3, 2, flash_lent(2, full), [*at(0xFFFF, row), DO_ERASE]
    for spare in (768, -1, -767, -768, -769):
        for row in (0, 8, 15, 16):
            name = f"W209-7 erase row {row}, {spare} words more lent"
            yield name, 3, 2, flash_lent(2, full, spare), [*at(0, row), DO_ERASE]


def empty_row_edges() -> Iterator[Edge]:
    """Write to empty rows and to rows with one word that is not $FFFF, and erase (READINGS W209-8)."""
    for word in (0, 1, 94, 95):
        for byte in (0, 1):
            spot = bytes([0xFF] * (2 * word + byte)) + b"\xFE"
            accesses = [*at(0x9000, 3), DO_WRITE, *at(0x8100, 3), DO_READ, *look(0x8100), *at(0x9000, 4), DO_WRITE]
            yield f"W209-8 word {word} isn't empty", 3, 1, flash_lent(1, {3: spot}), accesses
    story = [*at(0x8040, 2), DO_WRITE, write(0x8040, 0x5555), DO_WRITE, *at(0x9000, 2), DO_READ, *look(0x9000),
             *at(0x8100, 3), DO_WRITE,
             *at(0, 5), DO_ERASE, *at(0x8040, 2), DO_WRITE, *at(0x9100, 2), DO_READ, *look(0x9100), *at(0x9200, 9),
             DO_READ, *look(0x9200)]
    yield "000's story: write, write again, read, erase, write", 3, 2, flash_lent(2, {}), story
    blank = [*at(0x9000, 0), DO_READ, *look(0x9000), *at(0x9000, 1), DO_WRITE, *at(0x8100, 1), DO_WRITE, DO_READ,
             *look(0x8100)]
    yield "W209-8 a row of $FFFF may be written", 3, 1, flash_lent(1, {}), blank


def random_flash_access(g: Generator, sectors: int) -> list[Access]:
    """Choose registers and a command, or any JLP access (02, W-209)."""
    if g.one_in(3):
        return [random_jlp_access(g)]
    addr = g.pick([0x8040, 0x8080, 0x9000, 0x9F20, 0x9F21, 0x803F, 0x8040 + g.below(8000)])
    row = g.pick([g.below(8 * sectors), g.below(8 * sectors + 8), 8 * sectors - 1])
    command = g.pick([DO_READ, DO_READ, DO_WRITE, DO_WRITE, DO_WRITE, DO_ERASE])
    return g.pick([at(addr, row), [write(AT_ROW, row)], []]) + [command] + g.pick([look(addr), []])


def flash_case(g: Generator) -> Case:
    """Run random commands on random flash (02, W-209)."""
    sectors = g.between(1, 3)
    full = {g.below(8 * sectors): fill_bytes(g.pick([6, 192]), 0, g.between(1, 9)) for _ in range(g.below(6))}
    flash = flash_lent(sectors, full, g.pick([0, 0, 0, 0, 768, -96, -500]))
    accesses: list[Access] = []
    while len(accesses) < 110:
        accesses += random_flash_access(g, sectors)
    lent = g.pick([JLP_WORDS, JLP_WORDS, JLP_WORDS, JLP_WORDS - 1, 0x11000])
    image = simple(bits=jlp_bits(3, sectors), tables=over(READ | WRITE))
    return (f"flash of {sectors} sectors, {lent} words lent",
            *machine_record(image, (JLP_WORDS, g.between(1, 9)), lent, flash, accesses))


def flash_cases(g: Generator) -> Iterator[Case]:
    """Give the edges, then random commands (02, W-209)."""
    for edges in (register_edges(), range_edges(), empty_row_edges()):
        for name, jlp, size, flash, accesses in edges:
            image = simple(bits=jlp_bits(jlp, size))
            yield (name, *machine_record(image, (JLP_WORDS, 3), JLP_WORDS, flash, accesses))
    for _ in range(35):
        yield flash_case(g)
