"""DOWCRC, CRC32/4 and the IEEE CRC32, all right shifting (01, File layout)."""

from functools import lru_cache
from struct import unpack

DOWCRC = 0x98
CRC32_4 = 0x82F63B78
CRC32 = 0xEDB88320
ONES = 0xFFFFFFFF


def eight_shifts(polynomial: int, state: int) -> int:
    """Take eight bits out of the state, one by one (001, Reference Implementation)."""
    for _ in range(8):
        state = (state >> 1) ^ (polynomial if state & 1 else 0)
    return state


def bit_by_bit(polynomial: int, start: int, data: bytes) -> int:
    """Run a checksum as 001's reference code does (001, Reference Implementation)."""
    state = start
    for byte in data:
        state = eight_shifts(polynomial, state ^ byte)
    return state


@lru_cache(maxsize=None)
def pairs_shifted(polynomial: int) -> tuple[int, ...]:
    """List the sixteen shifts of each pair of bytes; they serve speed alone."""
    once = [eight_shifts(polynomial, byte) for byte in range(256)]
    return tuple(once[(pair >> 8) ^ once[pair & 0xFF] & 0xFF] ^ once[pair & 0xFF] >> 8
                 for pair in range(65536))


def run(polynomial: int, start: int, data: bytes) -> int:
    """Give what bit_by_bit gives, two bytes at a time; the self-test compares the two."""
    shifted, state, pairs = pairs_shifted(polynomial), start, len(data) // 2
    for pair in unpack(f"<{pairs}H", data[:2 * pairs]):
        state = (state >> 16) ^ shifted[(state ^ pair) & 0xFFFF]
    return bit_by_bit(polynomial, state, data[2 * pairs:])


def dowcrc(data: bytes) -> int:
    """Sum for headers: start 0, not inverted (01, File layout: Checksums)."""
    return run(DOWCRC, 0, data)


def crc32_4(data: bytes) -> int:
    """Sum for payloads: start 0, not inverted (01, File layout: Checksums)."""
    return run(CRC32_4, 0, data)


def crc32(data: bytes) -> int:
    """IEEE sum, inverted at both ends (01, File layout: Checksums)."""
    return run(CRC32, ONES, data) ^ ONES
