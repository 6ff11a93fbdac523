"""Cases on metadata: the families names, dates and label (02, W-204; RECORDS.md, Families)."""

from typing import Iterator

import hunk
from drafts import Draft, hunk_block, jlp_bits, metadata_block, random_draft, simple, tables_block
from families import Case, dates_record, label_record, names_record
from generator import Generator, fill_bytes
from records import Asked
from subrecords import spell
from tables import Tables

SHORT = [(0, b"Night Stalker"), (1, b"Stalker"), (2, b"Ann"), (3, b"Pub"), (4, bytes([82, 11])), (2, b"Bob"),
         (7, b"k=v"), (2, b"")]


def random_records(g: Generator, most: int) -> bytes:
    """Make some sub-records, a few tags often, some unknown, some empty, some long (001, Metadata Tags)."""
    records = []
    for _ in range(g.below(most + 1)):
        tag = g.pick([0, 1, 2, 2, 3, g.below(16), g.below(18), g.below(256)])
        length = g.pick([0, 1, 3, g.below(12), 255 if g.one_in(8) else 8])
        records.append((tag, fill_bytes(length, 0, 0) if g.one_in(3)
                        else bytes(g.between(0x20, 0x7E) for _ in range(length))))
    return spell(records)


def label_of(size: int) -> bytes:
    """Make whole sub-records of so many bytes in all, 1 apart (READINGS W204-18)."""
    texts = []
    while size:
        taken = min(size, 257) - (1 if size == 258 else 0)
        texts.append((5, bytes(taken - 2)))
        size -= taken
    return spell(texts)


def asked_all(most: int) -> Asked:
    """Ask for every tag and n from 0, and for some that can't be (READINGS W204-15)."""
    return [(tag, n) for tag in (0, 1, 2, 3, 4, 7, 0x0F)
            for n in range(most + 1)] + [(0x10, 1), (0xFF, 1), (2, 65_536), (2, 0xFFFFFFFF), (0, 257)]


def names_edges() -> Iterator[tuple[str, bytes, bytes, Asked]]:
    """Give images and labels at the readings' edges (READINGS W204-3, W204-4, W204-8 to W204-18)."""
    good, one, asked = spell(SHORT), spell([(2, b"Cy")]), asked_all(4)
    image = simple(metadata_block(good))
    yield "W204-16 no label", image, b"", asked
    yield "W204-16 a label with one author, an image with three", image, one, asked
    yield "W204-16 no metadata", simple(), one, asked
    yield "W204-16 neither", simple(), b"", asked
    some = [metadata_block(one), tables_block(Tables()), *map(metadata_block, (good, b"", one))]
    yield "W204-14 three blocks", Draft(some).encoded(), b"", asked_all(6)
    after = b"\xFF" + metadata_block(good).encoded()
    yield "W204-14 blocks after 0xFF", simple(metadata_block(one), tail=after), b"", asked
    unknown, empty = spell([(0x10, b"x"), (0xFF, b"y"), (0x0F, b"z")]), spell([(2, b""), (2, b"a"), (2, b"")])
    yield "W204-3 unknown tags", simple(metadata_block(unknown)), spell([(0x10, b"w")]), asked
    yield "W204-4 empty texts", simple(metadata_block(empty)), spell([(3, b""), (2, b"")]), asked
    for twice in ([(0, b"a"), (0, b"a")], [(1, b"a"), (0, b"b"), (1, b"")], [(0, b""), (0, b""), (1, b""), (1, b"")],
                  [(2, b"a"), (2, b"a")], [(7, b""), (7, b"")]):
        yield "W204-10 given twice in a block", simple(metadata_block(spell(twice))), b"", asked
        two = simple(metadata_block(spell(twice[:1])), metadata_block(spell(twice[1:])))
        yield "W204-10 given twice in two blocks", two, b"", asked
        yield "W204-10 given twice in the label", simple(), spell(twice), asked
        yield "W204-10 once in each", simple(metadata_block(spell(twice[:1]))), spell(twice[:1]), asked
    for size in range(len(one) + 1):
        yield f"W204-17 a label's first {size} bytes", image, one[:size], asked_all(1)
    for size in (65_535, 65_536, 70_000):
        long = label_of(size - 5) + spell([(2, b"end")])
        yield f"W204-18 a label of {size} bytes", image, long, asked_all(1)
    yield "W204-15 a load's refusal before the label's", simple(metadata_block(b"\x00")), b"\x00", asked_all(1)
    yield "W204-15 1 before the label's", b"", b"\x00", asked_all(1)
    yield "W204-15 10 before the label's", simple(metadata_block(good), bits=1 << 32), b"\x00", asked_all(1)
    yield "W204-15 13 by the size", simple(metadata_block(good), bits=jlp_bits(2, 683)), one, asked_all(1)
    yield "W204-15 a size that 13 lets through", simple(metadata_block(good), bits=jlp_bits(2, 682)), one, asked_all(1)
    last = hunk_block(0x7FFFF, hunk.block_16([1]))
    yield "W204-15 the last word of the RAM", simple(last, metadata_block(good)), one, asked_all(1)
    past = hunk_block(0x7FFFF, hunk.block_16([1, 2]))
    yield "W204-15 past the RAM", simple(past, metadata_block(good)), one, asked_all(1)


def names_cases(g: Generator) -> Iterator[Case]:
    """Give the edges, then random images and labels (02, W-204)."""
    for name, image, label, asked in names_edges():
        yield (name, *names_record(image, label, asked))
    for _ in range(150):
        draft = random_draft(g, 300)
        for _ in range(g.below(4)):
            draft.blocks.insert(g.below(len(draft.blocks) + 1), metadata_block(random_records(g, 8)))
        label = random_records(g, 8)
        if g.one_in(8):
            label = label[:-1]
        asked = [(g.pick([0, 1, 2, 3, g.below(18)]), g.below(5)) for _ in range(20)]
        yield ("random", *names_record(draft.encoded(), label, asked))


def dates_cases(g: Generator) -> Iterator[Case]:
    """Give short, whole and long forms, and values outside 001's ranges (READINGS W204-5 to W204-7)."""
    whole = bytes([119, 7, 6, 23, 59, 60, 0xFE, 30])
    for size in range(9):
        yield (f"W204-5 {size} bytes", *dates_record(whole[:size]))
    yield ("W204-5 255 bytes", *dates_record(whole + bytes(range(247))))
    yield ("W204-5 nine bytes", *dates_record(whole + b"\xFF"))
    yield ("001's -0130", *dates_record(bytes([119, 7, 6, 0, 0, 0, 0xFE, 30])))
    for zone in range(256):
        if zone in (0, 1, 12, 13, 127, 128, 129, 243, 244, 255):
            yield (f"W204-7 zone hour {zone:#04x}", *dates_record(bytes([0, 0, 31, 24, 60, 61, zone, 255])))
    for _ in range(60):
        yield ("random", *dates_record(bytes(g.below(256) for _ in range(g.below(11)))))


def label_cases(g: Generator) -> Iterator[Case]:
    """Give blocks to write: whole, cut, too long, and buffers at their edge (READINGS W204-23)."""
    for size in (65_534, 65_535, 65_536):
        data = label_of(size)
        for buffer in (8 + size, 7 + size, 0):
            yield (f"W204-18 {size} bytes, buffer {buffer}", *label_record(data, (buffer, 13)))
        yield (f"W204-18 {size - 1} bytes, cut", *label_record(data[:-1], (0, 13)))
    good = spell(SHORT)
    for size in range(len(good) + 1):
        yield (f"W204-2 the first {size} bytes", *label_record(good[:size], (g.pick([8 + size, 7 + size, 100]), 13)))
    for _ in range(60):
        data = random_records(g, 6)
        yield ("random", *label_record(data[:-1] if g.one_in(5) else data,
                                       (max(8 + len(data) + g.pick([-1, 0, 1, -8]), 0), 13)))
