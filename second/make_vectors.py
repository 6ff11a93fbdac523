"""Makes the vector files, all or those named: python3 make_vectors.py DIRECTORY [FAMILY..] (RECORDS.md)."""

import sys
from collections import Counter
from itertools import chain
from pathlib import Path

from cases_back import back_cases
from cases_flash import flash_cases
from cases_jlp import jlp_cases
from cases_load import card_cases, load_cases
from cases_machine import machine_cases
from cases_metadata import dates_cases, label_cases, names_cases
from cases_order import (back_order_cases, build_order_cases, card_order_cases, label_order_cases, load_order_cases,
                         names_order_cases, runs_order_cases, salvage_order_cases, write_order_cases)
from cases_runs import runs_cases
from cases_salvage import salvage_cases
from cases_sums import sums_cases
from cases_titles import build_cases, bus_cases, cfg_cases
from cases_write import write_cases
from generator import Generator

SEED = 20190706
FILE_LIMIT = 1_000_000
FAMILIES = {
    "sums": [sums_cases], "load": [load_cases, load_order_cases], "card": [card_cases, card_order_cases],
    "machine": [machine_cases], "jlp": [jlp_cases, flash_cases], "write": [write_cases, write_order_cases],
    "cfg": [cfg_cases], "build": [build_cases, build_order_cases], "bus": [bus_cases],
    "names": [names_cases, names_order_cases], "dates": [dates_cases], "label": [label_cases, label_order_cases],
    "salvage": [salvage_cases, salvage_order_cases], "runs": [runs_cases, runs_order_cases],
    "back": [back_cases, back_order_cases],
}


def make_family(name: str, directory: Path) -> list[str]:
    """Write one family's file, print its counts, and give its lines of the index."""
    g, records, index, codes = Generator(SEED), [], [], Counter()
    for number, (case, code, record) in enumerate(chain(*(cases(g) for cases in FAMILIES[name]))):
        records.append(record)
        index.append(f"{name} {number} code={code} {case}")
        codes[code] += 1
    data = b"".join(records)
    if len(data) > FILE_LIMIT:
        raise SystemExit(f"make_vectors: {name} has {len(data)} bytes")
    (directory / f"{name}.vec").write_bytes(data)
    counts = " ".join(f"{code}:{codes[code]}" for code in sorted(codes))
    print(f"{name}.vec: {len(records)} records, {len(data)} bytes, by number {counts}")
    return index


def kept_index(directory: Path, families: list[str]) -> list[str]:
    """Give the index's lines of the families that are not made again."""
    file = directory / "index.txt"
    lines = file.read_text().splitlines() if file.exists() else []
    return [line for line in lines if line.split()[0] not in families]


def main() -> None:
    """Write the families and the index of names into the directory."""
    directory, families = Path(sys.argv[1]), sys.argv[2:] or list(FAMILIES)
    directory.mkdir(parents=True, exist_ok=True)
    index = kept_index(directory, families) if sys.argv[2:] else []
    index += [line for name in families for line in make_family(name, directory)]
    order = list(FAMILIES)
    index.sort(key=lambda line: order.index(line.split()[0]))
    (directory / "index.txt").write_text("\n".join(index) + "\n")


if __name__ == "__main__":
    main()
