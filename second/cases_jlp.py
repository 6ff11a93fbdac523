"""Cases on JLP's RAM, arithmetic and CRC: the family jlp, first part (02, W-206; RECORDS.md, Families)."""

from pathlib import Path
from typing import Iterator

from access_lists import random_access
from accesses import READ_IT, RESET, Access, read, write
from drafts import jlp_bits, random_tables, simple
from families import Case, machine_record
from flash import JLP_RAM
from generator import Generator
from jlp import CRC, CRC_DATA, HIGH, LOW, OPERANDS, TURN_OFF, TURN_ON
from load import JLP_WORDS
from records import FlashFill
from tables import BANKSW, NARROW, READ, WRITE, Tables

CORNERS = [0x0000, 0x0001, 0x0002, 0x7FFF, 0x8000, 0x8001, 0xFFFE, 0xFFFF]
CRC_TABLE = [int(word, 16) for word in (Path(__file__).parent / "crc16_table.txt").read_text().split()]
ON, OFF = write(*TURN_ON), write(*TURN_OFF)
RESULTS = [read(LOW), read(HIGH)]
Edge = tuple[str, int, Tables, list[Access]]


def over(permissions: int) -> Tables:
    """Map $8000-$9FFF to the RAM's first words, chapters 8 and 9 paged, and two windows on them elsewhere (01)."""
    tables = Tables()
    for k in range(32):
        tables.mapping[0x80 + k] = tables.mapping[0x50 + k] = k
        tables.permissions[0x80 + k], tables.permissions[0x50 + k] = permissions, READ
        tables.mapping[0xC0 + k], tables.permissions[0xC0 + k] = 0x100 + k, READ | WRITE
    for page in range(16):
        tables.flips[16 * 8 + page] = tables.flips[16 * 9 + page] = 16 * page + 8 + page % 8
    return tables


def switch_edges() -> Iterator[Edge]:
    """Give the two switch writes and near misses, on and off, stores beneath included (READINGS W206-1 to W206-4)."""
    look = [read(a) for a in (0x8033, 0x8034, 0x8040, 0x5033, 0x5034, 0x5040, 0x9F8E, 0x9FFD)]
    misses = [write(0x8033, 0x6A7A), write(0x8034, 0x4A5A), write(0x8033, 0x4A5B), write(0x8034, 0x6A7B),
              write(0x8133, 0x4A5A), write(0x9034, 0x6A7A)]
    for jlp in range(4):
        for permissions in (READ, READ | WRITE):
            tables = over(permissions)
            yield f"W206-1 field {jlp} at load", jlp, tables, look
            yield f"W206-2 field {jlp}, on, on", jlp, tables, [ON, *look, ON, *look]
            yield f"W206-3 field {jlp}, off, off", jlp, tables, [OFF, *look, OFF, *look]
            yield f"W206-3 field {jlp}, off, on, off", jlp, tables, [OFF, *look, ON, *look, OFF, *look]
            wrong = misses + look
            yield f"W206-2 field {jlp}, misses", jlp, tables, [*wrong, ON, *wrong, OFF, *wrong]
            yield f"W206-16 field {jlp}, reset", jlp, tables, [ON, RESET, *look, OFF, RESET, *look]


def window_edges() -> Iterator[Edge]:
    """Write and read every kind of address of the window, on and off (READINGS ALL-2, W206-4, W206-5, W206-15)."""
    edges = [0x7FFF, 0x8000, 0x8022, 0x8023, 0x8024, 0x8025, 0x8026, 0x802D, 0x802E, 0x802F, 0x8032, 0x8033,
             0x8034, 0x803F, 0x8040, 0x8041, 0x80FF, 0x8FFE, 0x8FFF, 0x9000, 0x9F7E, 0x9F7F, 0x9F80, 0x9F8B,
             0x9F8C, 0x9F8D, 0x9F8E, 0x9F8F, 0x9F90, 0x9FFB, 0x9FFC, 0x9FFD, 0x9FFE, 0x9FFF, 0xA000]
    for jlp in range(4):
        for permissions in (READ, READ | WRITE | NARROW):
            tables = over(permissions)
            accesses = [write(a, 0x1111 + a) for a in edges] + [read(a) for a in edges]
            beneath = [read(a - 0x3000) for a in edges if 0x8000 <= a <= 0x9FFF]
            yield f"W206-15 field {jlp}, as loaded", jlp, tables, accesses + beneath
            yield f"W206-4 field {jlp}, switched first", jlp, tables, [OFF if jlp & 1 else ON] + accesses + beneath
    aliases = [write(0x8040, 0xABCD), read(0xC040), write(0xC041, 0x1234), read(0x8041), write(0xDF7F, 5), read(0x9F7F),
               write(0xDF80, 6), read(0x9F80)]
    for jlp in write(2, 3):
        yield f"W206-5 field {jlp}, other paragraphs map to it", jlp, over(READ), aliases + [ON] + aliases


def request_edges() -> Iterator[Edge]:
    """Ask for pages in chapters 8 and 9 and bankswitch there, on and off (READINGS W206-6, W202-9)."""
    for jlp in range(4):
        for chapter in (8, 9):
            ask = write(4096 * chapter + 0xFFF, 4096 * chapter + 0xA53)
            look = [read(a) for a in (4096 * chapter + 0xFFF, 4096 * chapter + 0x800, 0x5FFF, 0x6FFF, 0xCFFF, 0xDFFF)]
            tables = over(READ | WRITE | BANKSW)
            banks = [write(0x40 + chapter, 0xFD), write(0x50 + chapter, 0x7702)]
            asks = [ask, *look, OFF, *look, ask, *look, ON, *look]
            switches = [*banks, *look, OFF, *look, ON, *banks, OFF, *look]
            yield f"W206-6 field {jlp}, chapter {chapter}, ask", jlp, tables, asks
            yield f"W202-9 field {jlp}, chapter {chapter}, bankswitch", jlp, tables, switches


def arithmetic_edges() -> Iterator[Edge]:
    """Run each function on corner words, then the readings on results (READINGS W206-7 to W206-12)."""
    for function in range(6):
        first, second = OPERANDS[2 * function], OPERANDS[2 * function + 1]
        for half in (CORNERS[:4], CORNERS[4:]):
            accesses = [access for a in half for b in CORNERS
                        for access in (write(first, a), write(second, b), *RESULTS)]
            yield f"W206-8 function {function}, first of {half[0]:04X}..", 1, Tables(), accesses
        again = [write(second, 7), *RESULTS, write(first, 0xFFF0), *RESULTS,
                 write(OPERANDS[6], 3), write(OPERANDS[7], 9), *RESULTS,
                 write(first, 0xFFF0), *RESULTS, write(second, 0), *RESULTS, write(first, 5), *RESULTS,
                 write(LOW, 1), write(HIGH, 2), *RESULTS, RESET, *RESULTS, write(second, 2), *RESULTS,
                 OFF, *RESULTS, write(second, 9), ON, *RESULTS, write(first, 77), *RESULTS]
        yield f"W206-9 W206-11 W206-16 function {function}", 3, Tables(), again
    score, digits = 12_345, [write(OPERANDS[11], 10)]
    for _ in range(5):
        digits += [write(OPERANDS[10], score), *RESULTS]
        score //= 10
    yield "W206-7 000's program: a number to decimal", 1, Tables(), digits


def crc_edges() -> Iterator[Edge]:
    """Give 000's printed table byte by byte, its short cycle, and words one after the other (READINGS W206-13)."""
    for first in range(0, 256, 32):
        accesses = [access for byte in range(first, first + 32)
                    for access in (write(CRC, 0), write(CRC_DATA, byte << 8), read(CRC))]
        yield f"W206-13 000's table from {first:#04x}", 1, Tables(), accesses
    cycle = [write(CRC_DATA, 0x5AA4), read(CRC)] * 8
    yield "W206-13 $5AA4 written again", 1, Tables(), [write(CRC, 1), *cycle, read(CRC_DATA)]
    words = [access for n in range(60) for access in (write(CRC_DATA, n * 4001 % 65536), read(CRC))]
    words += [RESET, read(CRC), OFF, read(CRC), write(CRC_DATA, 5), ON, read(CRC)]
    yield "W206-13 words from load on, then reset, off and on", 3, Tables(), words


def random_jlp_access(g: Generator) -> Access:
    """Choose an access in or near the window, or any (02, W-206)."""
    choice, word = g.below(12), g.pick([g.below(65536), g.pick(CORNERS)])
    if choice == 0:
        return g.pick([ON, OFF, ON, OFF, write(TURN_ON[0], word), write(TURN_OFF[0], word)])
    if choice == 1:
        return g.pick([write(0x8FFF, 0x8A50 + g.below(16)), write(0x9FFF, 0x9A50 + g.below(16)),
                       write(0x48 + g.below(2) + 16 * g.below(2), word)])
    if choice < 5:
        return write(g.pick(OPERANDS), word)
    if choice == 5:
        return write(g.pick([CRC_DATA, CRC_DATA, CRC]), word)
    if choice < 8:
        return read(g.pick([LOW, HIGH, CRC, 0x9F80 + g.below(128)]))
    if choice < 11:
        operation = g.below(2)
        address = g.pick([g.pick(JLP_RAM), JLP_RAM[0] - 2 + g.below(4), JLP_RAM[-1] - 2 + g.below(4),
                          0x8000 + g.below(0x2000)])
        return read(address) if operation == READ_IT else write(address, word)
    return random_access(g, [8, 9])


def jlp_case(g: Generator) -> Case:
    """Run random accesses on a random JLP image (02, W-206)."""
    tables, jlp = random_tables(g, g.pick([20, 200])), g.below(4)
    for paragraph in range(0x80, 0xA0):
        tables.mapping[paragraph], tables.permissions[paragraph] = g.below(0x120), g.below(16)
    ram = (g.pick([JLP_WORDS, JLP_WORDS, 80_000]), g.between(1, 9))
    lent = g.pick([ram[0], ram[0], ram[0], JLP_WORDS - 1, 0x10040, 0x10041, 0x11000, 100])
    image = simple(bits=jlp_bits(jlp), tables=tables)
    accesses = [random_jlp_access(g) for _ in range(120)]
    return (f"JLP field {jlp}, {lent} words lent", *machine_record(image, ram, lent, FlashFill(), accesses))


def jlp_cases(g: Generator) -> Iterator[Case]:
    """Give the edges, then random accesses (02, W-206)."""
    for edges in (switch_edges(), window_edges(), request_edges(), arithmetic_edges(), crc_edges()):
        for name, jlp, tables, accesses in edges:
            image = simple(bits=jlp_bits(jlp), tables=tables)
            yield (name, *machine_record(image, (JLP_WORDS, 3), JLP_WORDS, FlashFill(), accesses))
    for _ in range(70):
        yield jlp_case(g)
