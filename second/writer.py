"""The plain writer of images (01, How an image is laid out by the builder)."""

from dataclasses import dataclass
from typing import MutableSequence, Sequence

from checksums import crc32_4, dowcrc
from hunk import encode
from load import DATA_HUNK, ENDED, IMAGE_LIMIT, MAGIC, METADATA, TABLES, check_features, lent
from refusal import Refused
from subrecords import sub_records
from tables import Tables

MOST_PAYLOAD = 65_535


@dataclass
class Written:
    """What a write answers (01, Numbers that come back)."""

    number: int = 0
    place: int = 0
    length: int = 0


def header(flags: bytes, uid: bytes) -> bytes:
    """Write the 32 bytes of the header (01, File layout)."""
    summed = MAGIC + b"\x01" + flags + uid + bytes(3)
    return summed + bytes([dowcrc(summed)])


def block(kind: int, payload: bytes) -> bytes:
    """Write a block's header and payload (001, Block Header)."""
    summed = bytes([kind]) + len(payload).to_bytes(2, "little")
    checksum = crc32_4(payload).to_bytes(4, "little")
    return summed + bytes([dowcrc(summed)]) + checksum + payload


def compose(flags: bytes, uid: bytes, tables: Tables, hunks: list[tuple[int, list[int]]], label: bytes = b"") -> bytes:
    """Lay out header, tables, a label if any, a hunk for each paragraph and 0xFF (01; 02, W-204)."""
    parts = [header(flags, uid), block(TABLES, tables.payload())]
    if label:
        parts.append(block(METADATA, label))
    for paragraph, words in hunks:
        parts.append(block(DATA_HUNK, encode(paragraph * 256, words)))
    return b"".join(parts) + bytes([ENDED])


def put(image: bytes, buffer: bytearray) -> int:
    """Write the image into a buffer that is long enough, else 29 with the length needed (01, refusal 29)."""
    if len(buffer) < len(image):
        raise Refused(29, 0, len(image))
    buffer[:len(image)] = image
    return len(image)


def check_label(label: bytes) -> None:
    """Ask 12 of sub-records to be written: cut, or longer than a block (02, W-204; READINGS W204-18)."""
    if len(label) > MOST_PAYLOAD or sub_records(label) is None:
        raise Refused(12, 0)


def write_metadata(label: bytes, buffer: bytearray) -> Written:
    """Write sub-records as a block of type 0x03, refusing 12, then 29 (02, W-204; READINGS W204-23)."""
    try:
        check_label(label)
        return Written(0, 0, put(block(METADATA, label), buffer))
    except Refused as refused:
        return Written(refused.number, refused.place, refused.length)


def outside(marked: Sequence[int], words_lent: int) -> list[int]:
    """Give the marked paragraphs that aren't wholly lent, rising (01, The plain writer)."""
    return [paragraph for paragraph in marked if paragraph * 256 + 256 > words_lent]


def write_image(flags: bytes, uid: bytes, tables: Tables, ram: MutableSequence[int],
                marks: Sequence[bool], buffer: bytearray) -> Written:
    """Write a hunk for each marked paragraph, refusing 10, 11, 13, 9, 1, 29 in order (01; 02, W-206, W-209)."""
    try:
        check_features(flags, tables, lent(ram))
        marked = [paragraph for paragraph in range(2048) if marks[paragraph]]
        for paragraph in outside(marked, lent(ram)):
            raise Refused(9, paragraph)
        hunks = [(p, list(ram[p * 256:p * 256 + 256])) for p in marked]
        image = compose(flags, uid, tables, hunks)
        if len(image) > IMAGE_LIMIT:
            raise Refused(1, 0)
        return Written(0, 0, put(image, buffer))
    except Refused as refused:
        return Written(refused.number, refused.place, refused.length)
