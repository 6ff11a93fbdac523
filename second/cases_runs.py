"""Cases on lists of bus accesses: the family runs (02, W-214; RECORDS.md, Families)."""

from pathlib import Path
from typing import Iterator

from access_lists import random_accesses
from accesses import READ_IT, RESET_IT, Access
from cases_flash import flash_lent, random_flash_access
from cases_jlp import over
from drafts import jlp_bits, random_tables, simple
from families import Case, runs_record
from generator import Generator
from load import JLP_WORDS
from records import FlashFill
from tables import READ, WRITE, Tables

BAD_ACCESSES = (Path(__file__).parent / "bad_accesses.txt").read_bytes().splitlines()


def small_image() -> bytes:
    """Make an image with RAM at $5000 and a page at $6000 (02, W-214)."""
    tables = Tables()
    tables.permissions[0x50] = READ | WRITE
    tables.flips[16 * 6 + 2] = 0x0019
    return simple(tables=tables)


def list_edges() -> Iterator[tuple[str, bytes, int, int]]:
    """Give lists, limits and rooms at the readings' edges (READINGS W214-1 to W214-10)."""
    good = (b"op=w addr=5001 value=aBcD\nop=r addr=5001\nop=w addr=6FFF value=6A52\nop=r addr=6000\n"
            b"op=x\nop=r addr=6000\nop=r addr=5001\n")
    for limit in (0, 1, 2, 3, 4, 5, 6, 7, 8, 0xFFFFFFFF):
        yield f"W214-10 limit {limit}", good, limit, 4
    for room in (0, 3, 4, 5, 100):
        for limit in (0, 2, 7):
            yield f"W214-6 room {room}, limit {limit}", good, limit, room
    for text in (b"", b"\n", b"op=x", b"op=x\n", b"op=x\r\n", b"op=x\r", b"op=x\n\n", b"\nop=x", b"op=x\n\nop=x\n",
                 b"op=x\r\r\n", b"\r\n", b"\r", b"op=x\n\r\n",
                 b"op=x\r\nop=x\nop=x\r\n", b"op=r addr=5000\r", b"op=r\raddr=5000\n", b"\rop=x\n", b"op=x\n\r",
                 b"op=x\r\n\n", b"op=x\x00\n", b"op=x\x0b", b"op=x\n \n", b"op=x\x1a"):
        yield f"W214-2 W214-3 {text!r}", text, 9, 9
    for line in BAD_ACCESSES:
        yield f"W214-1 {line!r}", b"op=x\n" + line + b"\nop=x\n", 9, 9
    for byte in (0x00, 0x09, 0x0D, 0x1F, 0x20, 0x3A, 0x40, 0x47, 0x60, 0x67, 0x7F, 0x80, 0xB2, 0xFF):
        yield f"W214-1 byte {byte:#04x} as a digit", b"op=r addr=500" + bytes([byte]) + b"\n", 9, 9
    for digit in b"0123456789abcdefABCDEF":
        text = b"op=w addr=500%c value=%c00%c\nop=r addr=500%c" % (digit, digit, digit, digit)
        yield f"W214-1 digit {chr(digit)}", text, 9, 9
    bad = b"op=r addr=5000\nop=r addr=5001\nop=q\nop=z\n"
    for limit, room in ((0, 9), (1, 9), (2, 9), (9, 0), (0, 0)):
        yield f"W214-5 33 at line 3, limit {limit}, room {room}", bad, limit, room
    yield "W214-5 the last line, without its end", b"op=x\n" * 30 + b"op=w addr=5000", 2, 0
    many = b"op=r addr=5000\n" * 300
    for room in (299, 300):
        yield f"W214-6 300 reads, room {room}", many, 5, room


def spell_list(g: Generator, accesses: list[Access]) -> bytes:
    """Spell accesses with digits of either case and both line ends (02, W-214)."""
    lines = []
    for operation, address, value in accesses:
        form = g.pick(["%04X", "%04x"])
        line = "op=x"
        if operation == READ_IT:
            line = ("op=r addr=" + form) % address
        elif operation != RESET_IT:
            line = ("op=w addr=" + form + " value=" + form) % (address, value)
        lines.append(line + g.pick(["\n", "\n", "\r\n"]))
    text = "".join(lines).encode()
    return text if g.below(4) else text.rstrip(b"\r\n")


def random_case(g: Generator) -> Case:
    """Run a random list on plain, JLP or flash (02, W-214)."""
    if g.one_in(5):
        bits, flash = jlp_bits(3, 1), flash_lent(1, {2: b"\x01\x02"})
        ram = (JLP_WORDS, g.between(1, 9))
        tables, accesses = over(READ | WRITE), [access for _ in range(16) for access in random_flash_access(g, 1)]
    else:
        bits, ram, flash = 0, (g.pick([300, 4096]), g.between(1, 9)), FlashFill()
        tables, accesses = random_tables(g, g.pick([20, 60])), random_accesses(g, [g.below(16), 5], 40)
    text = spell_list(g, accesses)
    if g.one_in(6):
        place = g.below(len(text))
        text = text[:place] + g.pick([b" ", b"\n", b"\r", b"G", b"\t", b""]) + text[place + g.below(2):]
    limit, room = g.pick([0, g.below(45), 40, 1000]), g.pick([60, 60, 60, g.below(40)])
    return ("random", *runs_record(simple(bits=bits, tables=tables), ram, flash, text, limit, room))


def runs_cases(g: Generator) -> Iterator[Case]:
    """Give the edges, then random lists (02, W-214)."""
    image = small_image()
    for name, text, limit, room in list_edges():
        yield (name, *runs_record(image, (512, 3), FlashFill(), text, limit, room))
    for _ in range(100):
        yield random_case(g)
