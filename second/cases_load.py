"""Cases on images that are loaded: the families load and card (RECORDS.md, Families)."""

from typing import Iterator

import hunk
from cases_metadata import SHORT
from drafts import (Draft, DraftBlock, flag_bytes, hunk_block, jlp_bits, metadata_block, random_image, simple,
                    tables_block)
from families import Case, card_record, load_record
from generator import Generator, fill_bytes
from load import IMAGE_LIMIT, JLP_WORDS, METADATA
from subrecords import spell
from tables import Tables

Image = tuple[str, bytes, int, int]
RAM_SIZES = [0, 1, 2, 255, 256, 300, 1024, 4096]
EXAMPLE = bytes.fromhex("""46 92 40 00 40 40 60 01 B8 5F 7A 41 80 40 FF 7F 44 12 04 54 42 BC 40 80 41 80 B9 4F 1F
 50 10 04 54 46 02 66 C0 40 2E 40 44 02 04 54 30 04 01 04 54 51 A8 56 45 1C 04 50 66 00 80 20 09 00""")


def data_edges() -> Iterator[Image]:
    """Give each start byte: whole, cut by a byte, in a RAM a word short (001, Data Hunk; L13, L14)."""
    for start in range(256):
        for size in [hunk.block_size(start)] if hunk.block_size(start) else [1, 2, 3, 4, 127, 129, 195]:
            packed = bytes([start]) + fill_bytes(size - 1, 0, start + 1)
            words = len((hunk.decode(bytes(3) + packed) or (0, [0] * 70))[1])
            yield f"start byte {start:#04x}, {size} bytes", simple(hunk_block(5, packed)), 5 + words, 0
            yield f"start byte {start:#04x} cut", simple(hunk_block(5, packed[:-1])), 200, 0
            yield f"start byte {start:#04x} outside", simple(hunk_block(5, packed)), 4 + words, 0


def bit_edges() -> Iterator[Image]:
    """Give each flag bit, BANKSW bit, PFE bit and block type (01, refusals 5 to 10; L6, L7, L17, L18)."""
    for bit in range(128):
        yield f"L18 flag bit {bit}", simple(bits=1 << bit), 10, 0
    for entry in range(256):
        banksw, pfe = Tables(), Tables()
        banksw.permissions[entry] = 0xFF
        pfe.flips[entry] = 0x0008
        if entry < 48 or entry % 8 < 2:
            yield f"L17 BANKSW on paragraph {entry}", simple(tables=banksw), 10, 0
            yield f"L17 PFE on entry {entry}", simple(tables=pfe), 10, 0
        for spoilt in ((0, 0), (0, 1), (1, 0)):
            block = DraftBlock(entry, bytes(3), 0, *spoilt)
            yield f"L6 L7 type {entry:#04x} spoilt {spoilt}", simple(block), 10, 0


def block_edges() -> Iterator[Image]:
    """Give the readings on blocks and their order (READINGS L2 to L10, L15, L16, L19)."""
    tables, word = tables_block(Tables()), hunk_block(1, hunk.block_16([7, 8]))
    short = DraftBlock(1, bytes(1279))
    bad_short = DraftBlock(1, bytes(9), spoil_payload=1)
    bad_second = DraftBlock(1, bytes(1280), spoil_payload=1)
    for length in range(33):
        for version in (0, 1):
            image = Draft([], version=version).encoded()[:length]
            yield f"L2 {length} bytes, version {version}", image, 10, 0
    for length in range(9):
        yield f"L3 {length} bytes left", simple(tail=word.encoded()[:length]), 10, 0
        after = b"\xFF" + tables.encoded()[:length]
        yield f"L3 0xFF and {length} bytes", simple(word, tail=after), 10, 0
    for tail in (b"", b"\xFF", b"\xFF\x00\x01", b"\xFF" + tables.encoded()):
        yield "L5 no tables", Draft([word], tail=tail).encoded(), 10, 0
    yield "L4 tables and type 0 after 0xFF", simple(tail=b"\xFF" + tables.encoded() + bytes(8)), 10, 0
    yield "L8 wrong size and checksum", Draft([bad_short]).encoded(), 10, 0
    yield "L8 second with wrong checksum", simple(bad_second), 10, 0
    yield "L9 wrong size first", Draft([short, tables]).encoded(), 10, 0
    for size in range(4):
        yield f"L10 payload of {size} bytes", simple(DraftBlock(2, b"\xFF" * size)), 0, 0
    later = hunk_block(2, b"\x01\x05\x06")
    yield "L15 repeats counted, the later value holds", simple(word, later, DraftBlock(3, b"ab"), word), 10, 3
    yield "L15 the later value holds", simple(word, later), 10, 3
    yield "L16 stored hunks before 10", simple(word, bits=1 << 16), 10, 3
    yield "L16 stored hunks before 9", simple(word, hunk_block(9, hunk.block_16([1, 2]))), 10, 3
    yield "L19 5 before 10", simple(word, DraftBlock(9, b"", 0, 1), bits=1 << 32), 10, 3
    yield "L19 none of 8 before 10", Draft([word], flags=b"\xFF" * 16).encoded(), 10, 3


def broken_hunks() -> Iterator[tuple[str, bytes, int]]:
    """Give what is wrong, the payload and the lent words of hunks with two good data blocks before the bad one."""
    forms = {"8-bit": hunk.block_8([1, 2, 3]), "10-bit": hunk.block_10([4, 5, 6, 7, 8, 9]),
             "16-bit": hunk.block_16([10, 11])}
    counts = {"8-bit": 3, "10-bit": 6, "16-bit": 2}
    for first, second in (("8-bit", "10-bit"), ("10-bit", "16-bit"), ("16-bit", "8-bit")):
        start, words = bytes([1, 0, 0]) + forms[first] + forms[second], 1 + counts[first] + counts[second]
        for third, data in forms.items():
            for size in range(1, len(data)):
                yield f"W205-4 {third} block cut to {size} after two", start + data[:size], 100
            for lent in range(words - counts[second], words + counts[third] + 1):
                yield f"W205-4 {first}, {second}, {third} blocks, {lent} words lent", start + data, lent
            for reserved in (0x00, 0xFE, 0xFF):
                bad = bytes([reserved])
                yield f"W205-3 reserved after {third}", start + data + bad, 100
                yield f"W205-3 reserved before {third}", start + bad + data, 100
                for lent in (words - 1, words, words + 1, words + counts[third]):
                    yield f"W205-3 outside or reserved, {lent} words lent", start + data + bad, lent
                    yield f"W205-3 outside or cut, {lent} words lent", start + data + data[:-1], lent


def hunk_edges() -> Iterator[Image]:
    """Give the place that 9 names (02, W-205; READINGS W205-1 to W205-4)."""
    other, word = DraftBlock(0x42, b"abc", spoil_payload=1), hunk_block(1, hunk.block_16([7, 8]))
    for name, payload, lent in broken_hunks():
        yield name, simple(other, DraftBlock(2, payload)), lent, 3
    for size in range(4):
        for lent in (0, 3):
            name = f"W205-2 payload of {size} bytes, {lent} words lent"
            yield name, simple(word, DraftBlock(2, b"\xFE" * size)), lent, 3
            yield name + ", first in the file", Draft([DraftBlock(2, b"\xFE" * size), word]).encoded(), lent, 3
    twice = hunk.block_8([1]) + hunk.block_16([2, 3])
    for address in (0x7FFFC, 0x7FFFD, 0x7FFFE, 0x7FFFF, 0x80000, 0xFFFFFF):
        for lent in (524_287, 524_288, 524_300):
            yield f"W205-3 two blocks at {address:#x}, {lent} words lent", simple(hunk_block(address, twice)), lent, 3
    bad, far = hunk_block(1, hunk.block_16([7]) + b"\xFF"), hunk_block(9, hunk.block_16([1, 2]))
    yield "W205-3 two broken hunks", simple(word, bad, far), 10, 3
    yield "W205-3 two broken hunks", simple(word, far, bad), 10, 3
    yield "W205 6 before 9", simple(DraftBlock(2, bad.payload, spoil_payload=1)), 10, 3
    yield "W205 9 before 8 of a later block", simple(bad, tables_block(Tables())), 10, 3
    yield "W205 8 before 9 of a later block", simple(tables_block(Tables()), bad), 10, 3
    yield "W205 9 before none of 8 and 10", Draft([bad], flags=b"\xFF" * 16).encoded(), 10, 3


def example_edges() -> Iterator[Image]:
    """Give 001's encoded example, whole, cut at each byte, and in a RAM short by each word (001, Encoded Example)."""
    for lent in range(100, 140):
        yield f"001's example, {lent} words lent", simple(hunk_block(100, EXAMPLE)), lent, 3
    for size in range(len(EXAMPLE)):
        yield f"001's example, the first {size} bytes", simple(hunk_block(100, EXAMPLE[:size])), 139, 3


def field_edges() -> Iterator[Image]:
    """Give each value of flag bits 8 to 15, and each refusal of an image that states all (02, W-201)."""
    for byte in range(256):
        yield f"W201-1 flags byte 5 is {byte:#04x}", simple(bits=byte << 8 | byte * 37 % 256), 10, 0
    stated, tables, pfe = b"\xFF\xFF" + bytes(14), tables_block(Tables()), Tables()
    pfe.flips[16] = 8
    yield "W201-2 loads", Draft([tables], flags=stated).encoded(), 10, 0
    yield "W201-2 refusal 1", Draft([tables], flags=stated).encoded()[:31], 10, 0
    yield "W201-2 refusal 2", Draft([tables], flags=stated, magic=b"LTo").encoded(), 10, 0
    yield "W201-2 refusal 3", Draft([tables], flags=stated, version=2).encoded(), 10, 0
    yield "W201-2 refusal 4", Draft([tables], flags=stated, spoil_header=1).encoded(), 10, 0
    yield "W201-2 refusal 5", Draft([tables], flags=stated, tail=b"\x03").encoded(), 10, 0
    yield "W201-2 refusal 6", Draft([DraftBlock(1, bytes(1280), spoil_payload=1)], flags=stated).encoded(), 10, 0
    yield "W201-2 refusal 7", Draft([tables, DraftBlock(0, b"")], flags=stated).encoded(), 10, 0
    yield "W201-2 refusal 8", Draft([], flags=stated).encoded(), 10, 0
    yield "W201-2 refusal 9", Draft([tables, DraftBlock(2, b"")], flags=stated).encoded(), 10, 0
    yield "W201-2 refusal 10", Draft([tables_block(pfe)], flags=stated).encoded(), 10, 0


def readable_edges() -> Iterator[Image]:
    """Give tables with none, one, some and all paragraphs readable, and a refusal of the last (02, W-211)."""
    for name, permissions in (("none", [0xFE] * 256), ("all", [0x01] * 256), ("all bits", [0xFF] * 256),
                              ("half", [0xFE, 0x01] * 128),
                              ("silent ones", [int(p < 5 or p >> 4 in (1, 3)) for p in range(256)]),
                              ("255", [0] + [1] * 255)):
        yield f"W211-1 {name} readable", simple(tables=Tables(permissions=permissions)), 10, 0
        yield f"W211-2 {name} readable, but 10", simple(tables=Tables(permissions=permissions), bits=1 << 32), 10, 0
        broken = simple(DraftBlock(2, b""), tables=Tables(permissions=permissions))
        yield f"W211-2 {name} readable, but 9", broken, 10, 0


def feature_edges() -> Iterator[Image]:
    """Give JLP fields, flash sizes and lent words at their edges, and what comes before 11 (02, W-206)."""
    pfe = Tables()
    pfe.flips[31] = 8
    for jlp in range(4):
        for lent in (0, 73_599, 73_600, 73_601):
            yield f"LW-3 field {jlp}, {lent} words lent", simple(bits=jlp_bits(jlp)), lent, 3
            mapper = simple(bits=jlp_bits(jlp, 0, 1 << 32))
            yield f"LW-2 10 before 11: field {jlp}, flag 32, {lent} words lent", mapper, lent, 3
        for size in (1, 2, 3, 4, 512, 682, 683, 1023):
            for lent in (73_599, 73_600):
                yield f"LW-6 field {jlp}, size {size}, {lent} words lent", simple(bits=jlp_bits(jlp, size)), lent, 3
        image = simple(bits=jlp_bits(jlp, 0, 0xF << 18))
        yield f"LW-6 field {jlp}, flag bits 18 to 21", image, 73_600, 3
        yield f"LW-2 10 before 11: field {jlp}, PFE in chapter 1", simple(tables=pfe, bits=jlp_bits(jlp)), 100, 3
        broken = hunk_block(73_599, hunk.block_16([1, 2]))
        yield f"LW-2 9 before 11: field {jlp}", simple(broken, bits=jlp_bits(jlp)), 73_600, 3
        bare = Draft([], flags=flag_bytes(jlp_bits(jlp))).encoded()
        yield f"LW-2 none of 8 before 11: field {jlp}", bare, 9, 3
        inside = hunk_block(0x10040, hunk.block_16([1, 2]))
        yield f"W206-5 field {jlp}, a hunk in JLP RAM", simple(inside, bits=jlp_bits(jlp)), 73_600, 3
    for lent in (524_287, 524_288, 524_300):
        yield f"LW-3 field 3, {lent} words lent", simple(bits=jlp_bits(3)), lent, 3


def flash_edges() -> Iterator[tuple[str, bytes, int, int, int]]:
    """Give sizes and lent flash at their edges, and what comes before 13 (02, W-209; READINGS LW-2 to LW-6)."""
    for jlp in range(4):
        for size in (0, 1, 2, 681, 682, 683, 1023):
            right = 768 * size
            for flash in sorted({0, 1, 8, 768, right - 1, right, right + 1, 96 * size, 2 * right} - {-1}):
                if size < 3 or flash < 524_600 and flash in (0, right, right - 1, right + 1):
                    name = f"LW-4 LW-5 field {jlp}, size {size}, {flash} words of flash"
                    yield name, simple(bits=jlp_bits(jlp, size)), 73_600, 3, flash
        yield f"LW-2 11 before 13: field {jlp}", simple(bits=jlp_bits(jlp, 683)), 73_599, 3, 768
        yield f"LW-2 10 before 13: field {jlp}", simple(bits=jlp_bits(jlp, 683, 1 << 32)), 73_600, 3, 768


def metadata_edges() -> Iterator[Image]:
    """Give 12 at its edges and beside other refusals (02, W-204; READINGS W204-1 to W204-4, W204-11 to W204-14)."""
    good, word = spell(SHORT), hunk_block(1, hunk.block_16([7, 8]))
    bad, far = metadata_block(b"\x00"), hunk_block(9, hunk.block_16([1, 2]))
    for size in range(len(good) + 1):
        yield f"W204-2 the first {size} bytes", simple(metadata_block(good[:size])), 10, 3
    for payload in (b"", b"\x10\x00", b"\xFF\x02ab", b"\x02\x00\x02\x00", b"\x05\xFF" + bytes(255),
                    b"\x05\xFF" + bytes(254), b"\x05\xFF" + bytes(256), b"\xFF"):
        name = f"W204-2 W204-3 payload {payload[:2].hex()} of {len(payload)} bytes"
        yield name, simple(metadata_block(payload)), 10, 3
        yield f"W204-12 wrong checksum, {len(payload)} bytes", simple(metadata_block(payload, 1)), 10, 3
    yield "W204-11 5 before 12", simple(DraftBlock(METADATA, b"\x00", 0, 1)), 10, 3
    yield "W204-11 5 before 12, past the end", simple(DraftBlock(METADATA, b"\x00", 9)), 10, 3
    yield "W204-11 12 before a later 7", simple(bad, DraftBlock(0, b"")), 10, 3
    yield "W204-11 7 before a later 12", simple(DraftBlock(0, b""), bad), 10, 3
    yield "W204-11 12 before a later 9", simple(word, bad, far), 10, 3
    yield "W204-11 9 before a later 12", simple(word, far, bad), 10, 3
    yield "W204-11 12 before a later 6", simple(bad, DraftBlock(2, bytes(3), spoil_payload=1)), 10, 3
    yield "W204-11 6 before a later 12", simple(DraftBlock(2, bytes(3), spoil_payload=1), bad), 10, 3
    yield "W204-11 12 before a second tables block", simple(bad, tables_block(Tables())), 10, 3
    yield "W204-11 12 before none of 8", Draft([word, bad]).encoded(), 10, 3
    yield "W204-11 12 before 10, 11 and 13", simple(bad, bits=jlp_bits(3, 683, 1 << 32)), 10, 3
    yield "W204-14 before the tables", Draft([metadata_block(good), tables_block(Tables())]).encoded(), 10, 3
    yield "W204-14 a record does not run on", simple(metadata_block(good[:5]), metadata_block(good[5:])), 10, 3
    yield "W204-14 after 0xFF", simple(tail=b"\xFF" + bad.encoded()), 10, 3
    three = simple(metadata_block(good), word, metadata_block(b""), metadata_block(good))
    yield "W204-21 blocks and words", three, 10, 3
    for kind in (4, 5, 0x42, 0xFE):
        yield f"W204-13 type {kind:#04x} is not looked at", simple(DraftBlock(kind, b"\x00", spoil_payload=1)), 10, 3


def large_edges() -> Iterator[Image]:
    """Give the readings on limits and large RAMs (READINGS L1, L11, L12)."""
    small = simple(hunk_block(1, hunk.block_16([7, 8])))
    for length in range(IMAGE_LIMIT - 1, IMAGE_LIMIT + 8):
        yield f"L1 {length} bytes", small + bytes(length - len(small)), 10, 3
    steps = [DraftBlock(0x42, bytes(65_535))] * 31 + [DraftBlock(0x70, bytes(63_991))]
    yield "L1 no 0xFF at the limit", simple(*steps, tail=b""), 10, 3
    yield "L1 0xFF past the limit", simple(*steps), 10, 3
    for address in (0x7FFFE, 0x7FFFF, 0x80000, 0x80001, 0x100001, 0xFFFFFF):
        image = simple(hunk_block(address, hunk.block_16([7])))
        for ram in (address % 2**19, address % 2**19 + 1, 524_287, 524_288, 524_300):
            yield f"L11 L12 word at {address:#x}", image, ram, 3


def load_cases(g: Generator) -> Iterator[Case]:
    """Give the edges, then random images (01, File layout)."""
    for edges in (data_edges(), bit_edges(), block_edges(), example_edges(), hunk_edges(), field_edges(),
                  readable_edges(), feature_edges(), flash_edges(), metadata_edges(), large_edges()):
        for name, image, ram_length, ram_seed, *flash in edges:
            yield (name, *load_record(image, (ram_length, ram_seed), *flash))
    for _ in range(1000):
        ram_length = JLP_WORDS if g.one_in(30) else g.pick(RAM_SIZES)
        name, image = random_image(g, ram_length)
        yield (name, *load_record(image, (ram_length, g.between(1, 9)), g.pick([0, 0, 768])))


def card_cases(g: Generator) -> Iterator[Case]:
    """Give images and the card's exact text (01, Bench cases; refusal 30)."""
    small = simple(hunk_block(16_383, hunk.block_16([7])))
    past = simple(hunk_block(16_384, b"\x01\x05\x06"))
    images = [("empty", b""), ("K1 last word", small), ("K1 past RAM", past)]
    images += [(f"K1 {size} bytes", small + bytes(size - len(small))) for size in (24_575, 24_576, 24_577)]
    images += [(f"K1 {size} zero bytes", bytes(size)) for size in (24_576, 24_577, 1_048_577)]
    two = hunk.block_8([1]) + hunk.block_16([2, 3])
    images += [(f"W205-4 two blocks at {first}", simple(hunk_block(first, two))) for first in range(16_380, 16_385)]
    images += [(f"W205-2 {size} bytes", simple(DraftBlock(2, two[:size]))) for size in range(4)]
    images += [("W205-3 reserved", simple(hunk_block(0, two + b"\x00" + two)))]
    images += [(f"LW-8 field {jlp}, size {size}", simple(bits=jlp_bits(jlp, size))) for jlp in range(4)
               for size in (0, 1, 683)]
    images += [("W204-12 a cut record", simple(DraftBlock(3, b"\x00\x05ab"))),
               ("W204-21 a record", simple(DraftBlock(3, b"\x00\x02ab")))]
    images += [random_image(g, 16_384) for _ in range(150)]
    for name, image in images:
        yield (name, *card_record(image))
