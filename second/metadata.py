"""Names, credits and dates, in blocks of type 0x03 and in a label file (02, W-204; 001, Program Metadata)."""

from dataclasses import dataclass
from typing import Optional

from load import BLOCK_HEADER, METADATA, accept_in_full, blocks_of
from refusal import Refused
from subrecords import SubRecord, sub_records

TAGS, SINGLE = range(0x10), (0x00, 0x01)
NONE, LABEL, IMAGE = 0, 1, 2


@dataclass
class Found:
    """What a lookup answers: which file the text stands in, its first byte there and its length (READINGS W204-4)."""

    number: int = 0
    place: int = 0
    source: int = NONE
    start: int = 0
    length: int = 0


@dataclass
class Date:
    """A release date; month 0 and day 0 are not given (001, Date Released; READINGS W204-5 to W204-7)."""

    year: int
    month: int
    day: int
    hour: int
    minute: int
    second: int
    zone_hour: int
    zone_minutes: int


def image_records(image: bytes) -> list[SubRecord]:
    """Give the records of all metadata blocks in order, with places in the image (READINGS W204-14)."""
    found = []
    for block in blocks_of(image):
        if block.kind == METADATA:
            first = block.start + BLOCK_HEADER
            found += [SubRecord(r.tag, first + r.start, r.text) for r in sub_records(block.payload) or []]
    return found


def given_twice(records: list[SubRecord]) -> tuple[bool, ...]:
    """Tell of each single-value tag whether it is given twice (02, W-204; READINGS W204-9, W204-10)."""
    return tuple(len([r for r in records if r.tag == tag]) > 1 for tag in SINGLE)


def nth(records: list[SubRecord], tag: int, n: int) -> Optional[SubRecord]:
    """Give the n-th record of a tag, counted from 1 (02, W-204)."""
    same = [r for r in records if r.tag == tag]
    return same[n - 1] if tag in TAGS and 1 <= n <= len(same) else None


def readable_label(image: bytes, label: bytes) -> list[SubRecord]:
    """Ask a load's refusals, then 12 of the label; give the label's records (02, W-204; READINGS W204-15)."""
    accept_in_full(image)
    records = sub_records(label)
    if records is None:
        raise Refused(12, 0)
    return records


def lookup(image: bytes, label: bytes, tag: int, n: int) -> Found:
    """Find the label's n-th text, else the image's, else none (02, W-204; READINGS W204-16)."""
    try:
        mine = nth(readable_label(image, label), tag, n)
    except Refused as refused:
        return Found(refused.number, refused.place)
    other = nth(image_records(image), tag, n)
    if mine:
        return Found(0, 0, LABEL, mine.start, len(mine.text))
    if other:
        return Found(0, 0, IMAGE, other.start, len(other.text))
    return Found()


def date_of(text: bytes) -> Date:
    """Read a release date, missing bytes as 0 and those past the eighth ignored (READINGS W204-5)."""
    full = (text + bytes(8))[:8]
    zone = full[6] - 256 if full[6] >= 128 else full[6]
    return Date(1900 + full[0], *full[1:6], zone, full[7])
