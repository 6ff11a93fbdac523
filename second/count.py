"""Counts the landed cases by family, by refusal and by order: python3 second/count.py > docs/VECTORS.md."""

from collections import Counter
from pathlib import Path
from typing import Iterator

from card import CARD_LIMIT
from conditions import CONDITIONS
from families import INPUTS
from orders import ORDERS, decided
from records import Cursor, records_in

CRATES = Path(__file__).parent.parent / "crates"
FOLDERS = [CRATES / "vectors" / "data", CRATES / "vectors_desk" / "data"]
FEW = 5
NUMBERS = [*range(1, 14), *range(20, 34)]
TOGETHER = {"build": ["cfg", "build"]}
Pairs = Counter[tuple[str, str]]
HEAD = (
    "# What the vectors cover\n\n"
    "Printed by `python3 second/count.py` from the landed files: it reads each case, asks every condition of it by the "
    "second program's own checks, sees that the first one that holds is the answer, and counts.\n")
REFUSALS = (
    "In how many cases each number of 01 and 02 is the answer. Beside these the salvage program prints 30 in {program} "
    "cases. The writer's 1 can't occur since the image limit rose (W-210).\n")
ORDER = (
    "Only the order decides: the row is the answer, the column another refusal whose condition holds in the same case. "
    "An empty cell can't be. \"8 none\" is 8 for no tables block, \"22 length\" is 22 for the CFG's length, "
    "\"12 label\" is the label file's 12. Blocks are asked in file order, so two of 5 to 9 and 12 meet either way "
    "round; so do 25 and 26, line by line. The same number twice is at two places. Beside another refusal, 29 is "
    "counted where the buffer is shorter than any image.")
MISSING = (
    "\nMissing, and rare (fewer than {few} cases). The card, the lookup and the way back give a load's refusals; of "
    "them only what they add is counted here.\n")


def answers(family: str) -> list[int]:
    """Give the refusal numbers of a family's cases, from the index (RECORDS.md)."""
    lines = [line.split() for folder in FOLDERS for line in (folder / "index.txt").read_text().splitlines()]
    return [int(line[2][len("code="):]) for line in lines if line[0] == family]


def cases_in(family: str) -> Iterator[tuple]:
    """Give the inputs of each case of a family (RECORDS.md)."""
    file = next(folder / f"{family}.vec" for folder in FOLDERS if (folder / f"{family}.vec").exists())
    for record in records_in(file.read_bytes()):
        yield INPUTS[family](Cursor(record[4:]))


def pairs_of(family: str) -> Pairs:
    """Count, by answer, the cases in which another refusal holds too; the first that holds must be the answer."""
    pairs: Pairs = Counter()
    for number, (inputs, answer) in enumerate(zip(cases_in(family), answers(family), strict=True)):
        found = [name for name, _ in CONDITIONS[family](*inputs)]
        if int((found or ["0"])[0].split()[0]) != answer:
            raise SystemExit(f"count: {family} {number} answers {answer}, but these hold: {found[:5]}")
        pairs.update({(found[0], other) for other in found[1:]})
    return pairs


def family_table(numbers: dict[str, Counter[int]]) -> Iterator[str]:
    """Say how many cases each family has, and how many of them are refused."""
    totals = [codes.total() for codes in numbers.values()]
    refused = [codes.total() - codes[0] for codes in numbers.values()]
    yield "| family | all | " + " | ".join(numbers) + " |"
    yield "|---" + "|---:" * (1 + len(numbers)) + "|"
    for name, counts in (("cases", totals), ("refused", refused)):
        yield f"| {name} | {sum(counts):,} | " + " | ".join(f"{count:,}" for count in counts) + " |"


def number_table(numbers: dict[str, Counter[int]]) -> Iterator[str]:
    """Say in how many cases each number is the answer, by family."""
    refusing = [family for family in numbers if family in CONDITIONS]
    yield "| No. | all | " + " | ".join(refusing) + " |"
    yield "|---:" * (2 + len(refusing)) + "|"
    for number in NUMBERS:
        counts = [numbers[family][number] for family in refusing]
        yield f"| {number} | {sum(counts)} | " + " | ".join(str(count or "") for count in counts) + " |"


def pair_table(operation: str, pairs: Pairs) -> Iterator[str]:
    """Say of each answer how often each other refusal holds beside it."""
    order = [name for group in ORDERS[operation] for name in group]
    wanted = decided(operation)
    columns = [name for name in order if any(other == name for _, other in wanted)]
    yield f"| {operation} | " + " | ".join(columns) + " |"
    yield "|---" + "|---:" * len(columns) + "|"
    for first in order:
        cells = [str(pairs[first, other]) if (first, other) in wanted else "" for other in columns]
        if any(cells):
            yield f"| **{first}** | " + " | ".join(cells) + " |"


def pair_list(pairs: Pairs, wanted: list[tuple[str, str]]) -> str:
    """Spell pairs as an answer over others, with their counts."""
    rows: dict[str, list[str]] = {}
    for first, other in wanted:
        count = f" ({pairs[first, other]})" if pairs[first, other] else ""
        rows.setdefault(first, []).append(other + count)
    return "; ".join(f"**{first}** over {', '.join(others)}" for first, others in rows.items()) or "none"


def count_lists(pairs: dict[str, Pairs]) -> Iterator[str]:
    """List the pairs of the smaller orders, then what is missing or rare in all."""
    for operation in ("write", "card", "names", "back", "label", "runs"):
        yield f"- {operation}: {pair_list(pairs[operation], [p for p in decided(operation) if pairs[operation][p]])}"
    yield MISSING.format(few=FEW)
    for operation, counts in pairs.items():
        wanted = decided(operation)
        missing = [pair for pair in wanted if not counts[pair]]
        rare = [pair for pair in wanted if 0 < counts[pair] < FEW]
        if missing or rare:
            yield (f"- {operation}, of {len(wanted)} pairs. Missing: {pair_list(counts, missing)}. "
                   f"Rare: {pair_list(counts, rare)}.")


def main() -> None:
    """Print the three tables, and what is missing or rare."""
    numbers = {family: Counter(answers(family)) for family in INPUTS}
    pairs = {operation: sum((pairs_of(family) for family in TOGETHER.get(operation, [operation])), Counter())
             for operation in ORDERS}
    program = len([image for image, _ in cases_in("salvage") if len(image) > CARD_LIMIT])
    lines = [HEAD, *family_table(numbers), "", REFUSALS.format(program=program), *number_table(numbers), "", ORDER, ""]
    for operation in ("load", "build", "salvage"):
        lines += [*pair_table(operation, pairs[operation]), ""]
    print("\n".join([*lines, *count_lists(pairs)]))


if __name__ == "__main__":
    main()
