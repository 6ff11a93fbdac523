"""Cases on the three checksums: the family sums (RECORDS.md, Families)."""

from typing import Iterator

from families import Case, sums_record
from generator import Generator, fill_bytes


def sums_cases(g: Generator) -> Iterator[Case]:
    """Give bytes and their three sums: all short lengths, each single byte, some long ones."""
    datas = [fill_bytes(length, 0, length + 1) for length in range(300)]
    datas += [bytes([byte]) for byte in range(256)]
    datas += [bytes(range(16)), bytes.fromhex("4A5A6A7A"), bytes(8), b"\xFF" * 8]
    datas += [fill_bytes(g.between(300, 70_000), 0, 77) for _ in range(20)]
    for data in datas:
        yield (f"{len(data)} bytes", *sums_record(data, 77 if len(data) >= 300 else 0))
