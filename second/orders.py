"""The orders in which refusals are asked, and the pairs that an order decides (01, Load order, Build order; 02)."""

HEADER, BLOCKS = [["1"], ["2"], ["3"], ["4"]], ["5", "7", "6", "12", "8", "9"]
LOADS = [*HEADER, BLOCKS, ["8 none"], ["10"]]
# What is asked, in order; those that stand together are asked block by block, or line by line
ORDERS: dict[str, list[list[str]]] = {
    "load": [*LOADS, ["11"], ["13"]],
    "build": [["21"], ["22 length"], ["22"], ["23"], ["24"], ["25", "26"], ["27"], ["28"], ["20"], ["12"], ["29"]],
    "salvage": [*HEADER, ["7", "6", "12", "8"], ["8 none"], ["10"], ["13"], ["29"]],
    "write": [["10"], ["11"], ["13"], ["9"], ["29"]],
    "card": [["30"], *LOADS, ["11"], ["13"]],
    "names": [*LOADS, ["13"], ["12 label"]],
    "back": [*LOADS, ["13"], ["31"], ["32"], ["29"]],
    "label": [["12"], ["29"]],
    "runs": [["33"], ["29"]],
}
# Families that begin or end with a load: only what they add to it is counted, for the rest is the load's
ADDED = {"card": {"30"}, "names": {"12 label"}, "back": {"31", "32", "29"}}
REPEATED = {"7", "6", "12", "8", "9", "23", "25", "26", "27", "28", "33"}
NOT_ASKED = {(first, other) for first in (*BLOCKS[:3], "8", "9", "8 none") for other in ("31", "32")}
NEVER = NOT_ASKED | {("31", "32"), ("13", "32")}


def decided(operation: str) -> list[tuple[str, str]]:
    """Give the pairs that the order decides: an earlier and a later one, or two that stand together either way."""
    order, added = ORDERS[operation], ADDED.get(operation)
    pairs = []
    for place, group in enumerate(order):
        later = [name for names in order[place + 1:] for name in names]
        for first in group:
            again = [first] if first in REPEATED and (len(group) > 1 or first != "12") else []
            beside = [] if first == "5" else [other for other in group if other != first]
            pairs += [(first, other) for other in again + beside + later]
    return [pair for pair in pairs if pair not in NEVER and (added is None or added & set(pair))]
