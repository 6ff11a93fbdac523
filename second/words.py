"""16-bit words as bytes: low byte first in images, high byte first in a BIN (01, File layout)."""

from struct import pack, unpack
from typing import Sequence


def word_at(data: bytes, place: int) -> int:
    """Read one word, low byte first (01, File layout)."""
    return data[place] | data[place + 1] << 8


def words_of(data: bytes) -> list[int]:
    """Read all words, low byte first (01, File layout)."""
    return list(unpack(f"<{len(data) // 2}H", data))


def le16(words: Sequence[int]) -> bytes:
    """Write words low byte first (01, File layout)."""
    return pack(f"<{len(words)}H", *words)


def bin_words(data: bytes) -> list[int]:
    """Read all words, high byte first (01, File layout)."""
    return list(unpack(f">{len(data) // 2}H", data))


def be16(words: Sequence[int]) -> bytes:
    """Write words high byte first (01, File layout)."""
    return pack(f">{len(words)}H", *words)
