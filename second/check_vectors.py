"""Reads the vector files back and makes every record again: python3 check_vectors.py DIRECTORY [FAMILY..]."""

import sys
from pathlib import Path

from families import INPUTS, RECORDS
from records import Cursor, records_in


def check_family(name: str, data: bytes) -> int:
    """Make each record of a file again from its inputs, and count them."""
    count = 0
    for record in records_in(data):
        inputs = INPUTS[name](Cursor(record[4:]))
        if RECORDS[name](*inputs)[1] != record:
            raise SystemExit(f"check_vectors: {name} {count} differs")
        count += 1
    return count


if __name__ == "__main__":
    for family in sys.argv[2:] or INPUTS:
        file = Path(sys.argv[1]) / f"{family}.vec"
        print(f"{family}: {check_family(family, file.read_bytes())} records agree")
