"""The image card: prints what a load of standard input did (01, Bench cases)."""

import sys

from load import Loaded, load
from refusal import refusal_text

CARD_LIMIT = 24_576
CARD_RAM = 16_384


def card_load(image: bytes) -> Loaded:
    """Load into the card's RAM, asking 30 first (01, Bench cases; refusal 30)."""
    return Loaded(30) if len(image) > CARD_LIMIT else load(image, [0] * CARD_RAM)


def card(image: bytes) -> str:
    """Give the exact text of the card (01, Bench cases; READINGS K1)."""
    answer = card_load(image)
    if answer.number:
        return refusal_text(answer.number, answer.place)
    return f"result=loaded\nblocks={answer.blocks}\nwords={answer.words}\n"


if __name__ == "__main__":
    sys.stdout.write(card(sys.stdin.buffer.read()))
