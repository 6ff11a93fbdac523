"""Images to be written, with any blocks and encodings, and faults of every kind to put in (01, File layout)."""

from dataclasses import dataclass, field
from typing import Optional

import hunk
from checksums import crc32_4, dowcrc
from generator import Generator
from load import DATA_HUNK, LOCUTUS_WORDS, MAGIC, METADATA, TABLES
from tables import BANKSW, PFE, TABLES_SIZE, Tables


@dataclass
class DraftBlock:
    """A block to be written; what is spoilt is XORed into a right checksum (001, Block Header)."""

    kind: int
    payload: bytes
    longer: int = 0
    spoil_header: int = 0
    spoil_payload: int = 0

    def encoded(self) -> bytes:
        """Write the block, faults included (001, Block Header)."""
        length = (len(self.payload) + self.longer) & 0xFFFF
        summed = bytes([self.kind]) + length.to_bytes(2, "little")
        checksum = crc32_4(self.payload) ^ self.spoil_payload
        return (summed + bytes([dowcrc(summed) ^ self.spoil_header])
                + checksum.to_bytes(4, "little") + self.payload)


@dataclass
class Draft:
    """An image to be written: header fields, blocks, and the bytes after them (01, File layout)."""

    blocks: list[DraftBlock] = field(default_factory=list)
    flags: bytes = bytes(16)
    uid: bytes = bytes(8)
    reserved: bytes = bytes(3)
    magic: bytes = MAGIC
    version: int = 1
    spoil_header: int = 0
    tail: bytes = b"\xFF"

    def encoded(self) -> bytes:
        """Write the image, faults included (01, File layout)."""
        summed = self.magic + bytes([self.version]) + self.flags + self.uid + self.reserved
        head = summed + bytes([dowcrc(summed) ^ self.spoil_header])
        return head + b"".join(block.encoded() for block in self.blocks) + self.tail


def tables_block(tables: Tables) -> DraftBlock:
    """Wrap tables as type 0x01 (01, File layout)."""
    return DraftBlock(TABLES, tables.payload())


def hunk_block(address: int, packed: bytes) -> DraftBlock:
    """Wrap packed data as type 0x02 (001, Data Hunk)."""
    return DraftBlock(DATA_HUNK, address.to_bytes(3, "little") + packed)


def metadata_block(data: bytes, spoil_payload: int = 0) -> DraftBlock:
    """Wrap sub-records as type 0x03 (001, Program Metadata)."""
    return DraftBlock(METADATA, data, spoil_payload=spoil_payload)


def flag_bytes(bits: int) -> bytes:
    """Write flag bits as the sixteen flag bytes (01, File layout; READINGS L18)."""
    return bits.to_bytes(16, "little")


def jlp_bits(field_value: int, size: int = 0, more: int = 0) -> int:
    """Give flag bits with a JLP field and a flash size (001, Feature Flags)."""
    return field_value << 16 | size << 22 | more


def simple(*blocks: DraftBlock, tail: bytes = b"\xFF", bits: int = 0, tables: Optional[Tables] = None) -> bytes:
    """Write an image of tables, then the blocks (01, File layout)."""
    return Draft([tables_block(tables or Tables()), *blocks], flags=flag_bytes(bits), tail=tail).encoded()


def random_tables(g: Generator, entries: int) -> Tables:
    """Set some entries of each table, none of which gives 10 (01, refusal 10)."""
    tables = Tables()
    for _ in range(entries):
        paragraph, flip = g.below(256), g.below(256)
        tables.mapping[g.below(256)] = g.below(65536)
        banksw = BANKSW if g.one_in(3) else 0
        tables.permissions[paragraph] = g.below(8) | banksw | g.below(16) << 4
        tables.flips[flip] = g.below(65536)
        if flip // 16 == 1:
            tables.flips[flip] &= ~PFE
    return tables


def random_data(g: Generator, most: int) -> tuple[bytes, int]:
    """Pack up to so many random words in one data block of some kind (001, Data Hunk)."""
    kind = g.below(3)
    limit = (hunk.MOST_8, hunk.MOST_10, hunk.MOST_16)[kind]
    count = g.between(1, min(most, limit))
    words = [g.below((256, 1024, 65536)[kind]) for _ in range(count - 1)] + [g.below(65536)]
    if kind == 0:
        return hunk.block_8(words), count
    if kind == 1:
        return hunk.block_10(words, g.below(256)), count
    return hunk.block_16(words), count


def random_hunk(g: Generator, ram_words: int) -> DraftBlock:
    """Make a hunk that fits the RAM, often to its last word (01, refusal 9)."""
    packed, count = b"", 0
    while count < ram_words and not g.one_in(3):
        data, more = random_data(g, min(ram_words - count, 24))
        packed, count = packed + data, count + more
    room = ram_words - count
    return hunk_block(room if g.one_in(3) else g.below(room + 1), packed)


def random_draft(g: Generator, ram_words: int) -> Draft:
    """Make an image that a RAM of so many words accepts (01, File layout)."""
    blocks = [random_hunk(g, min(ram_words, LOCUTUS_WORDS)) for _ in range(g.below(4))]
    blocks += [DraftBlock(g.between(4, 254), bytes(g.below(20)), 0, 0, g.below(3))
               for _ in range(g.below(3))]
    blocks += [metadata_block(bytes(2 * g.below(4)) + b"\x02\x01A" * g.below(3)) for _ in range(g.below(2))]
    blocks = g.shuffled(blocks + [tables_block(random_tables(g, g.below(6)))])
    draft = Draft(blocks)
    draft.flags = bytes([g.below(256), g.below(256), g.below(64) * 4, g.below(256), g.below(128) * 2])
    draft.flags += bytes(g.below(256) for _ in range(11))
    draft.uid = bytes(g.below(256) for _ in range(8))
    draft.reserved = bytes(g.below(2) for _ in range(3))
    draft.tail = g.pick([b"", b"\xFF", b"\xFF", b"\xFF\x00\x01\x02", b"\xFF\xFF"])
    return draft


def bad_hunk(g: Generator, words_lent: int) -> DraftBlock:
    """Make a hunk that is cut, reserved or outside the lent RAM, good data before it or not (01, refusal 9)."""
    before, first = b"", 0
    for _ in range(g.below(4)):
        data, count = random_data(g, 20)
        before, first = before + data, first + count
    data, count = random_data(g, 20)
    short = data[:g.between(1, len(data) - 1)]
    after = g.pick([b"", b"", b"\x00", data])
    return g.pick([
        DraftBlock(DATA_HUNK, bytes(g.below(3))),
        hunk_block(0, before + short),
        hunk_block(0, before + data + g.pick([b"\x00", b"\xFE", b"\xFF"])),
        hunk_block(max(words_lent + g.between(1, count) - first - count, 0), before + data + after),
        hunk_block(g.pick([0x80000, 0x80001, 0x100000, 0xFFFFFF]), before + data),
    ])


def spoil_tables(g: Generator, draft: Draft) -> None:
    """Make the tables missing, double or of a wrong size (01, refusal 8)."""
    for place, block in enumerate(list(draft.blocks)):
        if block.kind == TABLES:
            block.kind = g.pick([TABLES, TABLES, METADATA, 0x42, 0xFE])
            draft.blocks.insert(g.between(place, len(draft.blocks)), tables_block(Tables()))
            block.payload = g.pick([block.payload, b"", block.payload[:-1], block.payload + b"\x00"])


def ask_unsupported(g: Generator, draft: Draft) -> None:
    """Ask for JLP, the mapper or flips in chapter 1 (01, refusal 10; 02, W-206, W-209)."""
    if g.one_in(2):
        bits = int.from_bytes(draft.flags, "little") | 1 << g.pick([16, 17, 32])
        draft.flags = flag_bytes(bits)
        return
    place = 768 + 32 + 2 * g.below(16)
    for block in draft.blocks:
        if block.kind == TABLES and len(block.payload) == TABLES_SIZE:
            spoilt = bytearray(block.payload)
            spoilt[place] |= PFE
            block.payload = bytes(spoilt)


def spoil_draft(g: Generator, draft: Draft, words_lent: int) -> None:
    """Put in a fault for one of the refusals 2 to 13 (01, Numbers that come back; 02)."""
    fault, block = g.pick([2, 3, 4, 5, 6, 7, 8, 8, 8, 9, 9, 10, 10, 10, 12, 12]), g.pick(draft.blocks)
    if fault == 2:
        draft.magic = g.pick([b"LTo", b"\x00TO", b"LUO", b"OTL"])
    elif fault == 3:
        draft.version = g.pick([0, 2, 255])
    elif fault == 4:
        draft.spoil_header = g.between(1, 255)
    elif fault == 5 and g.one_in(2):
        block.spoil_header = g.between(1, 255)
    elif fault == 5:
        block.longer = g.pick([1, 8, 300, 20000])
    elif fault == 6:
        block.spoil_payload = 1 << g.below(32)
    elif fault == 7:
        block.kind = 0
    elif fault == 8:
        spoil_tables(g, draft)
    elif fault == 9:
        draft.blocks.insert(g.between(0, len(draft.blocks)), bad_hunk(g, words_lent))
    elif fault == 12:
        payload, wrong = g.pick([(b"\x00", 0), (b"\x02\x05abcd", 0), (b"\x02\x01a", 1), (b"\x00\x00\x0F", 0), (b"", 1),
                                 (b"\x01", 7)])
        draft.blocks.insert(g.below(len(draft.blocks) + 1), metadata_block(payload, wrong))
    else:
        ask_unsupported(g, draft)


def damaged(g: Generator, image: bytes) -> bytes:
    """Cut the bytes of an image somewhere, or flip some of its bits (01, refusals 1 to 10)."""
    if g.one_in(2):
        return image[:g.below(len(image) + 1)]
    spoilt = bytearray(image)
    for _ in range(g.between(1, 3)):
        spoilt[g.below(len(spoilt))] ^= 1 << g.below(8)
    if g.one_in(2) and len(spoilt) >= 32:
        spoilt[31] = dowcrc(bytes(spoilt[0:31]))
    return bytes(spoilt)


def random_image(g: Generator, ram_words: int) -> tuple[str, bytes]:
    """Make an image: whole, with faults, or damaged; name what was done (01, refusals 1 to 13)."""
    draft = random_draft(g, ram_words)
    faults = g.pick([0, 1, 1, 1, 2, 3, 4])
    for _ in range(faults):
        spoil_draft(g, draft, min(ram_words, LOCUTUS_WORDS))
    image = draft.encoded()
    if g.one_in(4):
        return f"{faults} faults, damaged", damaged(g, image)
    return f"{faults} faults", image
