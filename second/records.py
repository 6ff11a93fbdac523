"""The record form of the vector files: a Record is written, a Cursor reads one (RECORDS.md)."""

from dataclasses import dataclass
from typing import Iterator, Sequence
from zlib import crc32 as digest

from accesses import WRITE_IT, Access, Answers
from generator import fill_bytes, fill_words
from words import le16, words_of

RECORD_LIMIT = 65_535
NEAR = 6
Seeded = tuple[int, int]
Laid = list[tuple[int, list[int]]]
Asked = list[tuple[int, int]]


@dataclass
class Fill:
    """Bytes, and the base and seed of the fill that they are written as (RECORDS.md, Fills)."""

    data: bytes = b""
    base: int = 0
    seed: int = 0


@dataclass
class FlashFill:
    """Flash as a fill, and how many words of it are lent to the load and to the accesses (RECORDS.md, machine)."""

    data: bytes = b""
    at_load: int = 0
    lent: int = 0
    base: int = 0


def buffer_of(buffer: Seeded) -> bytearray:
    """Give a buffer by its length and seed (RECORDS.md, Fills)."""
    return bytearray(fill_bytes(buffer[0], 0, buffer[1]))


def ram_of(ram: Seeded, laid: Sequence[tuple[int, list[int]]] = ()) -> list[int]:
    """Give a RAM by its length and seed, with runs of words laid over it (RECORDS.md, Fills)."""
    words = list(fill_words(*ram))
    for first, run in laid:
        words[first:first + len(run)] = run
    return words


def digest_words(words: Sequence[int]) -> int:
    """Digest words as their little-endian bytes (RECORDS.md)."""
    return digest(le16(words))


def differing(data: bytes, filling: bytes) -> list[tuple[int, int]]:
    """Give first and end of each stretch that differs, near ones joined (RECORDS.md, Fills)."""
    stretches: list[tuple[int, int]] = []
    if data == filling:
        return stretches
    for place, (byte, filled) in enumerate(zip(data, filling)):
        if byte == filled:
            continue
        if stretches and place - stretches[-1][1] <= NEAR:
            stretches[-1] = (stretches[-1][0], place + 1)
        else:
            stretches.append((place, place + 1))
    return stretches


class Record:
    """Fields in order, little endian; each method adds one (RECORDS.md)."""

    def __init__(self) -> None:
        self.fields = bytearray()

    def number(self, width: int, *values: int) -> "Record":
        """Add numbers of so many bytes each."""
        for value in values:
            self.fields += value.to_bytes(width, "little")
        return self

    def raw(self, data: bytes) -> "Record":
        """Add bytes as they are."""
        self.fields += data
        return self

    def text(self, text: str) -> "Record":
        """Add a count and so many characters."""
        return self.number(2, len(text)).raw(text.encode())

    def fill(self, data: bytes, base: int = 0, seed: int = 0) -> "Record":
        """Add bytes as a fill and the runs laid over it (RECORDS.md, Fills)."""
        stretches = differing(data, fill_bytes(len(data), base, seed))
        self.number(4, len(data)).number(1, base).number(4, seed).number(2, len(stretches))
        for first, end in stretches:
            self.number(4, first).number(2, end - first).raw(data[first:end])
        return self

    def laid(self, laid: Laid) -> "Record":
        """Add runs of words laid over a RAM (RECORDS.md, Fills)."""
        self.number(2, len(laid))
        for first, run in laid:
            self.number(4, first).number(2, len(run), *run)
        return self

    def accesses(self, accesses: list[Access], answers: Answers) -> "Record":
        """Add accesses, each with its answer (RECORDS.md, Fills)."""
        self.number(2, len(accesses))
        for (operation, address, value), (word, assigned) in zip(accesses, answers):
            self.number(1, operation).number(2, address)
            self.number(2, value if word is None else word).number(1, assigned + (word is not None))
        return self

    def finished(self) -> bytes:
        """Give the record with its length before it."""
        if len(self.fields) > RECORD_LIMIT:
            raise ValueError(f"record of {len(self.fields)} bytes")
        return len(self.fields).to_bytes(4, "little") + bytes(self.fields)


class Cursor:
    """A place in one record's bytes; each method reads a field (RECORDS.md)."""

    def __init__(self, data: bytes) -> None:
        self.data = data
        self.place = 0

    def raw(self, count: int) -> bytes:
        """Read so many bytes."""
        self.place += count
        return self.data[self.place - count:self.place]

    def number(self, width: int) -> int:
        """Read a number of so many bytes."""
        return int.from_bytes(self.raw(width), "little")

    def fill(self) -> Fill:
        """Read a fill and the runs over it (RECORDS.md, Fills)."""
        length, base, seed = self.number(4), self.number(1), self.number(4)
        data = bytearray(fill_bytes(length, base, seed))
        for _ in range(self.number(2)):
            first, count = self.number(4), self.number(2)
            data[first:first + count] = self.raw(count)
        return Fill(bytes(data), base, seed)

    def filled(self) -> bytes:
        """Read a fill of which only the bytes count."""
        return self.fill().data

    def seeded(self) -> Seeded:
        """Read a length and a seed (RECORDS.md, Fills)."""
        return self.number(4), self.number(4)

    def flash(self) -> FlashFill:
        """Read flash that is lent whole (RECORDS.md, runs)."""
        fill = self.fill()
        return FlashFill(fill.data, len(fill.data) // 2, len(fill.data) // 2, fill.base)

    def lent_flash(self) -> FlashFill:
        """Read flash and how much of it is lent (RECORDS.md, machine)."""
        fill = self.fill()
        return FlashFill(fill.data, self.number(4), self.number(4), fill.base)

    def laid(self) -> Laid:
        """Read runs of words laid over a RAM (RECORDS.md, Fills)."""
        heads = ((self.number(4), self.number(2)) for _ in range(self.number(2)))
        return [(first, words_of(self.raw(2 * count))) for first, count in heads]

    def accesses(self) -> list[Access]:
        """Read accesses, leaving out the words that answer reads (RECORDS.md, Fills)."""
        fields = ((self.number(1), self.number(2), self.number(2), self.number(1)) for _ in range(self.number(2)))
        return [(operation, address, value if operation == WRITE_IT else 0) for operation, address, value, _ in fields]

    def asked(self) -> Asked:
        """Read tags and numbers asked for (RECORDS.md, names)."""
        return [(self.number(1), self.number(4)) for _ in range(self.number(2))]


def records_in(data: bytes) -> Iterator[bytes]:
    """Cut a file into its records, each with its length before it (RECORDS.md)."""
    place = 0
    while place < len(data):
        end = place + 4 + int.from_bytes(data[place:place + 4], "little")
        yield data[place:end]
        place = end
