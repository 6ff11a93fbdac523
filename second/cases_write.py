"""Cases on the plain writer: the family write (RECORDS.md, Families)."""

from typing import Iterator

from drafts import flag_bytes, jlp_bits, random_tables
from families import Case, write_record
from generator import Generator
from records import ram_of
from tables import Tables
from writer import write_image


def marks_of(paragraphs: set[int]) -> bytes:
    """Write marks as 2,048 bits (RECORDS.md, write)."""
    return sum(1 << paragraph for paragraph in paragraphs).to_bytes(256, "little")


def write_edges() -> Iterator[Case]:
    """Give limits and the order 10, 11, 13, 9, 1, 29 (01, The plain writer; READINGS B7, L12, LW-7)."""
    none, mapper, tables = bytes(24), bytes(4) + b"\x01" + bytes(19), bytes(1280)
    for jlp in (1, 2, 3):
        for size in (0, 1, 682, 683):
            for words in (73_599, 73_600):
                for other, buffer in ((0, 0), (0, 1321), (1 << 32, 1321)):
                    head = flag_bytes(jlp_bits(jlp, size, other)) + bytes(8)
                    for few in (set(), {287}):
                        name = f"LW-7 field {jlp}, size {size}, RAM {words}, marks {few}, buffer {buffer}, flag 32 "
                        name += str(other >> 32)
                        yield (name, *write_record(head, tables, (words, 3), [], marks_of(few), (buffer, 13)))
    for count in (1983, 1984, 2048):
        marks = marks_of(set(range(count - 1)) | {2047})
        for head in (none, mapper):
            for words in (524_287, 524_288, 524_300):
                for buffer in (1321 + 528 * count, 1320 + 528 * count, 0):
                    name = f"{count} marks, RAM {words}, buffer {buffer}, flag 32 {head[4]}"
                    yield (name, *write_record(head, tables, (words, 3), [], marks, (buffer, 13)))
    for words in (0, 255, 256, 511, 512):
        for few in (set(), {0}, {0, 1}, {1}, {1, 7}):
            for buffer in (0, 1320, 1321, 1849, 3000):
                name = f"RAM {words}, marks {few}, buffer {buffer}"
                yield (name, *write_record(none, tables, (words, 5), [], marks_of(few), (buffer, 13)))


def form_edges() -> Iterator[Case]:
    """Give data blocks at the edge between two forms, and 29 at the smaller length (READINGS W207-1, W207-7)."""
    places = (0, 1, 59, 60, 61, 62, 122, 123, 124, 247, 248, 254, 255)
    for word in (0x00FF, 0x0100, 0x03FF, 0x0400, 0xFFFF):
        for place in places:
            name = f"W207-1 word {word:#06x} at {place}"
            yield (name, *write_record(bytes(24), bytes(1280), (512, 0), [(256 + place, [word])], marks_of({1}),
                                        (2000, 13)))
    for place in (60, 61):
        laid = [(place, [0x0100]), (62 + place, [0x03FF]), (124 + place, [0x0400]), (186 + place, [0x8000]),
                (248, [0x100] * 8)]
        ram, marks = ram_of((256, 0), laid), [True] + [False] * 2047
        length = write_image(bytes(16), bytes(8), Tables(), ram, marks, bytearray()).length
        for buffer in (length - 1, length, length + 1):
            name = f"W207-7 five data blocks, buffer {buffer}"
            yield (name, *write_record(bytes(24), bytes(1280), (256, 0), laid, marks_of({0}), (buffer, 13)))


def random_paragraph(g: Generator) -> list[int]:
    """Give a paragraph's words, each data block of some width with few wider words (02, W-207)."""
    words: list[int] = []
    for count in (62, 62, 62, 62, 8):
        width = g.pick([1, 256, 256, 1024, 1024, 65536])
        words += [g.below(width) for _ in range(count)]
        if g.one_in(2):
            words[-1 - g.pick([0, 0, 1, g.below(count)])] = g.pick([0xFF, 0x100, 0x3FF, 0x400, 0xFFFF])
    return words


def write_cases(g: Generator) -> Iterator[Case]:
    """Give the edges, then random tables, marks and buffers (01, The plain writer)."""
    yield from write_edges()
    yield from form_edges()
    for _ in range(60):
        laid = [(256, random_paragraph(g))]
        yield ("W207 random forms",
               *write_record(bytes(24), bytes(1280), (768, g.below(2)), laid, marks_of({1, 2}), (2700, 13)))
    for _ in range(300):
        words = g.pick([256, 300, 2048, 4096, 20_000])
        tables = random_tables(g, g.below(10))
        if g.one_in(5):
            tables.permissions[g.below(256)] |= 8
            tables.flips[g.below(64)] |= 8
        head = bytes([g.below(256), g.below(256), 4 * g.below(64) + g.one_in(9), 7, 2 * g.below(99)])
        head += bytes(11) + bytes(g.below(256) for _ in range(8))
        few = {g.below(words // 256 + (1 if g.one_in(3) else 0)) for _ in range(g.below(12))}
        buffer = max(1321 + 528 * len(few) + g.pick([-1400, -1, 0, 0, 1, 100]), 0)
        ram = (words, g.between(1, 9))
        yield ("random", *write_record(head, tables.payload(), ram, [], marks_of(few), (buffer, g.between(1, 9))))
