"""Data hunks: a 24-bit word address and packed data blocks (001, Block Type 0x02)."""

from typing import Iterator, Optional

from words import le16, word_at, words_of

MOST_8, MOST_10, MOST_16 = 0x3F, 0xBF - 0x3F, 0xFD - 0xBF


def block_size(start: int) -> Optional[int]:
    """Give a data block's size by its start byte, none if reserved (001, Data Hunk)."""
    if 0x01 <= start <= 0x3F:
        return 2 + start
    if 0x40 <= start <= 0xBF:
        n = start - 0x3F
        return 2 + ((n + 2) >> 2) + n
    if 0xC0 <= start <= 0xFD:
        return 1 + 2 * (start - 0xBF)
    return None


def decles(packets: bytes) -> list[int]:
    """Unpack packets of one byte of MSBs and up to four bytes of LSBs (001, 10-bit Data Block)."""
    found = []
    for first in range(0, len(packets), 5):
        msbs = packets[first]
        for which, lsbs in enumerate(packets[first + 1:first + 5]):
            found.append((msbs >> (6 - 2 * which) & 3) << 8 | lsbs)
    return found


def decode_block(block: bytes) -> list[int]:
    """Give the words of one whole data block (001, Data Hunk)."""
    start, body = block[0], block[1:]
    if start >= 0xC0:
        return words_of(body)
    narrow = body[:-2]
    words = list(narrow) if start < 0x40 else decles(narrow)
    return words + [word_at(body, len(body) - 2)]


def data_blocks(payload: bytes) -> Iterator[tuple[int, Optional[list[int]]]]:
    """Give place and words of each data block; a cut or reserved one has none and is the last (001, Data Hunk)."""
    place = 3
    while place < len(payload):
        size = block_size(payload[place])
        if size is None or place + size > len(payload):
            yield place, None
            return
        yield place, decode_block(payload[place:place + size])
        place += size


def address_of(payload: bytes) -> int:
    """Read a hunk's word address (001, Data Hunk)."""
    return int.from_bytes(payload[0:3], "little")


def decode(payload: bytes) -> Optional[tuple[int, list[int]]]:
    """Give address and words, or none if cut or reserved (01, refusal 9; READINGS L10)."""
    if len(payload) < 3:
        return None
    words: list[int] = []
    for _, more in data_blocks(payload):
        if more is None:
            return None
        words += more
    return address_of(payload), words


def fault(payload: bytes, words_lent: int) -> Optional[int]:
    """Give the place in the payload that 9 names, or none (02, W-205; READINGS W205-1 to W205-4)."""
    if len(payload) < 3:
        return 0
    end = address_of(payload)
    for place, words in data_blocks(payload):
        if words is None or end + len(words) > words_lent:
            return place
        end += len(words)
    return None


def block_8(words: list[int]) -> bytes:
    """Pack 1 to 63 words, all but the last below 256 (001, 8-bit Data Block)."""
    return bytes([len(words)]) + bytes(words[:-1]) + le16(words[-1:])


def block_10(words: list[int], spare: int = 0) -> bytes:
    """Pack 1 to 128 words, all but the last below 1024 (001, 10-bit Data Block)."""
    packed = bytearray([len(words) + 0x3F])
    for first in range(0, len(words) - 1, 4):
        four = words[first:min(first + 4, len(words) - 1)]
        msbs = spare & (0xFF >> 2 * len(four))
        for which, word in enumerate(four):
            msbs |= (word >> 8) << (6 - 2 * which)
        packed.append(msbs)
        packed += bytes(word & 0xFF for word in four)
    return bytes(packed) + le16(words[-1:])


def block_16(words: list[int]) -> bytes:
    """Pack 1 to 62 words (001, 16-bit Data Block)."""
    return bytes([len(words) + 0xBF]) + le16(words)


def forms(words: list[int]) -> list[bytes]:
    """Give each form that can carry the words: 16-bit, 10-bit, 8-bit (02, W-207; READINGS W207-1)."""
    found = [block_16(words)] if len(words) <= MOST_16 else []
    if len(words) <= MOST_10 and all(word <= 0x3FF for word in words[:-1]):
        found.append(block_10(words))
    if len(words) <= MOST_8 and all(word <= 0xFF for word in words[:-1]):
        found.append(block_8(words))
    return found


def smallest(words: list[int]) -> bytes:
    """Give the smallest form; on a tie 16-bit before 10-bit before 8-bit (02, W-207)."""
    return min(forms(words), key=len)


def encode(address: int, words: list[int]) -> bytes:
    """Write a hunk, cut as the longest 16-bit data blocks are, each in its smallest form (01; 02, W-207)."""
    parts = [words[first:first + MOST_16] for first in range(0, len(words), MOST_16)]
    return address.to_bytes(3, "little") + b"".join(smallest(part) for part in parts)
