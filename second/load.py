"""Loading a version 1 image into a lent RAM (01, File layout and refusals 1 to 13)."""

from dataclasses import dataclass, field
from typing import Iterator, MutableSequence, Optional

import hunk
from checksums import crc32_4, dowcrc
from refusal import Refused
from subrecords import sub_records
from tables import PFE, TABLES_SIZE, Tables, read_tables
from words import word_at

HEADER, BLOCK_HEADER = 32, 8
IMAGE_LIMIT = 2_097_152
LOCUTUS_WORDS = 524_288
JLP_WORDS = 73_600
MOST_SECTORS, SECTOR_WORDS = 682, 768
MAGIC = b"\x4C\x54\x4F"
NOT_STATED = 4
ENDED, ENCRYPTED, TABLES, DATA_HUNK, METADATA = 0xFF, 0x00, 0x01, 0x02, 0x03


@dataclass
class Loaded:
    """What a load answers; a refusal has all else zero, and TutorVision not stated (01; 02, W-201)."""

    number: int = 0
    place: int = 0
    blocks: int = 0
    words: int = 0
    fields: tuple[int, ...] = (0, 0, 0, 0, NOT_STATED)
    tables: Tables = field(default_factory=Tables)
    flags: bytes = bytes(16)


@dataclass
class Block:
    """A block whose header is whole and right and whose payload is all there (01, 5)."""

    start: int
    kind: int
    checksum: int
    payload: bytes


def lent(ram: MutableSequence[int]) -> int:
    """Count the words that count as lent (01, The machine)."""
    return min(len(ram), LOCUTUS_WORDS)


def header_faults(image: bytes) -> list[int]:
    """Give which of 1 to 4 hold, in their order; what is cut off can't be wrong (01, Load order; READINGS L2)."""
    faults = {
        1: len(image) < HEADER or len(image) > IMAGE_LIMIT,
        2: len(image) >= 3 and image[0:3] != MAGIC,
        3: len(image) >= 4 and image[3] != 1,
        4: len(image) >= HEADER and dowcrc(image[0:31]) != image[31],
    }
    return [number for number, holds in faults.items() if holds]


def check_header(image: bytes) -> None:
    """Ask 1 to 4, in this order (01, Load order)."""
    for number in header_faults(image):
        raise Refused(number, 0)


def blocks_of(image: bytes) -> Iterator[Block]:
    """Step over the blocks up to 0xFF or the end, asking 5 of each (01, refusal 5)."""
    start = HEADER
    while start < len(image) and image[start] != ENDED:
        if len(image) - start < BLOCK_HEADER or dowcrc(image[start:start + 3]) != image[start + 3]:
            raise Refused(5, start)
        end = start + BLOCK_HEADER + word_at(image, start + 1)
        if end > len(image):
            raise Refused(5, start)
        checksum = int.from_bytes(image[start + 4:start + 8], "little")
        yield Block(start, image[start], checksum, image[start + BLOCK_HEADER:end])
        start = end


def check_payload(block: Block) -> None:
    """Ask 7, then 6 of types 1 and 2, and 12 of type 3 (01, Load order; 02, W-204)."""
    if block.kind == ENCRYPTED:
        raise Refused(7, block.start)
    wrong = crc32_4(block.payload) != block.checksum
    if block.kind in (TABLES, DATA_HUNK) and wrong:
        raise Refused(6, block.start)
    if block.kind == METADATA and (wrong or sub_records(block.payload) is None):
        raise Refused(12, block.start)


def take_tables(block: Block, before: Optional[Tables]) -> Tables:
    """Read a tables block, or 8 by its size or if one came before (01, refusal 8)."""
    if len(block.payload) != TABLES_SIZE or before is not None:
        raise Refused(8, block.start)
    return read_tables(block.payload)


def check_tables_found(tables: Optional[Tables], image: bytes) -> Tables:
    """Give the tables found, or "none" of 8 (01, refusal 8; READINGS L5)."""
    if tables is None:
        raise Refused(8, len(image))
    return tables


def decode_hunk(block: Block, words_lent: int) -> tuple[int, list[int]]:
    """Give a hunk's address and words, each inside the lent RAM (01, refusal 9; 02, W-205)."""
    broken = hunk.fault(block.payload, words_lent)
    if broken is not None:
        raise Refused(9, block.start + BLOCK_HEADER + broken)
    return hunk.decode(block.payload) or (0, [])


def compatibility(flags: bytes) -> tuple[int, ...]:
    """Give the five fields; TutorVision counts from version 1 on (01, File layout; 02, W-201)."""
    bits = int.from_bytes(flags, "little")
    tutorvision = bits >> 10 & 3 if bits >> 8 & 3 else NOT_STATED
    return (*(bits >> first & 3 for first in (0, 2, 4, 6)), tutorvision)


def jlp_field(flags: bytes) -> int:
    """Give flag bits 16 and 17 (001, JLP Accelerator Enable)."""
    return flags[2] & 3


def flash_size(flags: bytes) -> int:
    """Give flag bits 22 to 31, the sectors of flash (001, JLP Flash Save Game Size; READINGS LW-6)."""
    return int.from_bytes(flags[:4], "little") >> 22


def check_supported(flags: bytes, tables: Tables) -> None:
    """Ask 10: flag 32, or PFE in chapter 1 (01, refusal 10; 02, W-202, W-206; READINGS W206-18)."""
    if flags[4] & 1 or any(entry & PFE for entry in tables.flips[16:32]):
        raise Refused(10, 0)


def check_jlp_ram(flags: bytes, words_lent: int) -> None:
    """Ask 11 (02, W-206; READINGS LW-3)."""
    if jlp_field(flags) and words_lent < JLP_WORDS:
        raise Refused(11, 0)


def check_flash(flags: bytes, flash_lent: Optional[int]) -> None:
    """Ask 13; with no flash given, by the size alone (02, W-209; READINGS LW-4, LW-5)."""
    size = flash_size(flags)
    if jlp_field(flags) >= 2 and (size > MOST_SECTORS or flash_lent not in (None, SECTOR_WORDS * size)):
        raise Refused(13, 0)


def check_features(flags: bytes, tables: Tables, words_lent: int, flash_lent: Optional[int] = None) -> None:
    """Ask 10, 11, 13, in this order (02, W-206, W-209; READINGS LW-1, LW-2)."""
    check_supported(flags, tables)
    check_jlp_ram(flags, words_lent)
    check_flash(flags, flash_lent)


def accept(image: bytes, ram: MutableSequence[int], flash_lent: Optional[int]) -> Loaded:
    """Ask everything, and only then store the hunks in file order (01, Load order)."""
    check_header(image)
    found, hunks, blocks = None, [], 0
    for block in blocks_of(image):
        check_payload(block)
        if block.kind == TABLES:
            found = take_tables(block, found)
        if block.kind == DATA_HUNK:
            hunks.append(decode_hunk(block, lent(ram)))
        blocks += 1
    tables, flags = check_tables_found(found, image), image[4:20]
    check_features(flags, tables, lent(ram), flash_lent)
    for address, words in hunks:
        for place, word in enumerate(words):
            ram[address + place] = word
    stored = sum(len(words) for _, words in hunks)
    return Loaded(0, 0, blocks, stored, compatibility(flags), tables, flags)


def accept_in_full(image: bytes) -> Loaded:
    """Ask everything for a RAM of 524,288 words, and 13 by the size alone (02, W-204, W-209, W-213)."""
    return accept(image, [0] * LOCUTUS_WORDS, None)


def load(image: bytes, ram: MutableSequence[int], flash_lent: Optional[int] = 0) -> Loaded:
    """Load the image, or answer number and place with the RAM untouched; flash_lent as in check_features (01)."""
    try:
        return accept(image, ram, flash_lent)
    except Refused as refused:
        return Loaded(refused.number, refused.place)
