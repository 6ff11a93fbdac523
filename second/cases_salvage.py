"""Cases on salvage: the family salvage (02, W-208; RECORDS.md, Families)."""

from itertools import chain
from typing import Iterator

import hunk
from drafts import (Draft, DraftBlock, bad_hunk, hunk_block, jlp_bits, metadata_block, random_draft, random_image,
                    simple, spoil_draft, tables_block)
from families import Case, salvage_record
from generator import Generator
from load import IMAGE_LIMIT, LOCUTUS_WORDS
from salvage import salvage
from tables import PFE, Tables


def bad_hunks() -> dict[str, DraftBlock]:
    """Give type 2 blocks that 6 or 9 would refuse (02, W-208)."""
    word = hunk.block_16([7])
    return {
        "6": DraftBlock(2, bytes(3) + word, spoil_payload=1), "9 cut": DraftBlock(2, b"\x00"),
        "9 reserved": hunk_block(0, word + b"\xFE"),
        "9 outside": hunk_block(0x7FFFF, hunk.block_16([1, 2])), "6 and 9": DraftBlock(2, b"", spoil_payload=9),
        "9 far": hunk_block(0xFFFFFF, word), "9 at 80000": hunk_block(0x80000, word),
    }


def block_edges() -> Iterator[tuple[str, bytes]]:
    """Give each block that is kept, left out, stops or refuses (READINGS W208-1 to W208-4, W208-6, W208-8)."""
    word, last = hunk_block(1, hunk.block_16([7, 8])), hunk_block(0x7FFFF, hunk.block_16([5]))
    meta, other = metadata_block(b"\x02\x01A"), DraftBlock(0x42, b"abc", spoil_payload=1)
    yield "W208-6 all is good", simple(word, meta, last, other)
    for tail in (b"", b"\xFF", b"\xFF\x00\x01", b"\xFF" + bytes(9)):
        yield f"W208-6 ends in {tail.hex()}", simple(word, other, tail=tail)
    for name, bad in bad_hunks().items():
        yield f"W208-1 {name} first", Draft([bad, tables_block(Tables()), word]).encoded()
        yield f"W208-1 {name} between", simple(word, bad, last)
        yield f"W208-1 {name} twice", simple(bad, word, bad, other)
        yield f"W208-1 {name} last, no 0xFF", simple(word, bad, tail=b"")
        yield f"W208-3 {name}, then the stop", simple(word, bad, tail=b"\x02\x00")
        yield f"W208-2 {name}, then 7", simple(bad, DraftBlock(0, b""))
        yield f"W208-2 {name}, then 12", simple(bad, metadata_block(b"\x00"))
        yield f"W208-5 {name}, then none of 8", Draft([bad]).encoded()
    for name, stop in (("header cut", b"\x02"), ("7 bytes", word.encoded()[:7]),
                       ("wrong header", DraftBlock(2, b"", 0, 1).encoded()),
                       ("past the end", DraftBlock(2, b"", 1).encoded()), ("type 0 cut", b"\x00"),
                       ("bad type 0", DraftBlock(0, b"", 0, 1).encoded())):
        yield f"W208-3 {name}", simple(word, tail=stop)
        refusals = DraftBlock(0, b"").encoded() + metadata_block(b"\x00").encoded()
        yield f"W208-3 {name}, then a refusal", simple(word, tail=stop + refusals + b"\xFF")
        yield f"W208-4 {name} before the tables", Draft([word], tail=stop + tables_block(Tables()).encoded()).encoded()
        yield f"W208-4 {name} at once", Draft([], tail=stop + tables_block(Tables()).encoded()).encoded()
    for name, block in (("6", DraftBlock(1, bytes(1280), spoil_payload=1)), ("8 size", DraftBlock(1, bytes(1279))),
                        ("8 second", tables_block(Tables())),
                        ("6 second", DraftBlock(1, bytes(1280), spoil_payload=1)),
                        ("7", DraftBlock(0, b"x", spoil_payload=1)),
                        ("12 cut", metadata_block(b"\x01")), ("12 sum", metadata_block(b"", 1))):
        yield f"W208-2 {name} refuses", simple(word, block, last)
        yield f"W208-2 {name} refuses, tables later", Draft([block, tables_block(Tables())]).encoded()


def header_edges() -> Iterator[tuple[str, bytes]]:
    """Give what the header and the flags refuse, and what of the header is kept (READINGS W208-1, W208-5, LW-10)."""
    word, pfe = hunk_block(1, hunk.block_16([7, 8])), Tables()
    pfe.flips[16] = PFE
    yield "W208-5 10 flag 32", simple(word, bits=1 << 32)
    yield "W208-5 10 PFE", simple(word, tables=pfe)
    for jlp in range(4):
        for size in (0, 682, 683):
            yield f"LW-10 field {jlp}, size {size}", simple(word, bits=jlp_bits(jlp, size))
    yield "LW-10 10 before 13", simple(word, bits=jlp_bits(3, 683, 1 << 32))
    yield "W208-5 none of 8 before 10 and 13", Draft([word], flags=b"\xFF" * 16).encoded()
    for length in range(0, 34):
        yield f"1 {length} bytes", simple()[:length]
    for fault in (dict(magic=b"LTo"), dict(version=0), dict(spoil_header=1), dict(reserved=b"\x01\x02\x03"),
                  dict(uid=b"12345678")):
        yield f"2 to 4, or kept: {fault}", Draft([tables_block(Tables()), word], **fault).encoded()


def limit_edges() -> Iterator[tuple[str, bytes]]:
    """Give images at the limit, where 0xFF may be left off (READINGS W208-6), and at the card's."""
    steps = [DraftBlock(0x42, bytes(65_535))] * 31
    for size in (63_989, 63_990, 63_991):
        for tail in (b"", b"\xFF"):
            image = simple(*steps, DraftBlock(0x70, bytes(size)), tail=tail)
            yield f"W208-6 {size} bytes in the last block, tail {tail.hex()}", image
    small = simple(hunk_block(1, hunk.block_16([7])))
    for length in (24_575, 24_576, 24_577, IMAGE_LIMIT, IMAGE_LIMIT + 1):
        yield f"W208-9 {length} bytes", small + bytes(length - len(small))
    full = simple(DraftBlock(0x42, bytes(24_576 - len(simple(tail=b"")) - 8)), tail=b"")
    yield "W208-10 24,576 bytes without 0xFF", full


def random_damage(g: Generator) -> bytes:
    """Make an image with some bad hunks, perhaps a fault or a cut end (02, W-208)."""
    draft = random_draft(g, 300)
    for _ in range(g.below(4)):
        draft.blocks.insert(g.below(len(draft.blocks) + 1), bad_hunk(g, LOCUTUS_WORDS))
    for _ in range(g.pick([0, 0, 0, 1])):
        spoil_draft(g, draft, LOCUTUS_WORDS)
    image = draft.encoded()
    return image[:g.between(len(image) // 2, len(image))] if g.one_in(5) else image


def salvage_cases(g: Generator) -> Iterator[Case]:
    """Give the edges with buffers that suffice or not, then random damage (02, W-208)."""
    for name, image in chain(block_edges(), header_edges()):
        length = salvage(image, bytearray()).length
        yield (name, *salvage_record(image, (length + g.pick([0, 0, 1, 50]), 13)))
        if length and g.one_in(3):
            yield (name + ", short buffer", *salvage_record(image, (g.pick([0, length - 1]), 13)))
    for name, image in limit_edges():
        yield (name, *salvage_record(image, (salvage(image, bytearray()).length, 13)))
    for _ in range(300):
        image = random_image(g, 4096)[1] if g.one_in(4) else random_damage(g)
        length = salvage(image, bytearray()).length
        yield ("random", *salvage_record(image, (max(length + g.pick([-1, 0, 0, 0, 7]), 0), g.between(1, 9))))
