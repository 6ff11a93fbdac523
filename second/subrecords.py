"""Sub-records of tag, length and up to 255 bytes (001, Block Type 0x03)."""

from dataclasses import dataclass
from typing import Optional


@dataclass
class SubRecord:
    """A tag, the place of the text's first byte, and the text (001, Program Metadata)."""

    tag: int
    start: int
    text: bytes


def sub_records(data: bytes) -> Optional[list[SubRecord]]:
    """Give the sub-records, or none if the last one is cut (READINGS W204-1 to W204-4)."""
    found, place = [], 0
    while place < len(data):
        if place + 2 > len(data) or place + 2 + data[place + 1] > len(data):
            return None
        start, end = place + 2, place + 2 + data[place + 1]
        found.append(SubRecord(data[place], start, data[start:end]))
        place = end
    return found


def spell(records: list[tuple[int, bytes]]) -> bytes:
    """Write tags and texts as sub-records (001, Program Metadata)."""
    return b"".join(bytes([tag, len(text)]) + text for tag, text in records)
