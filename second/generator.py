"""The one generator behind every fill and every choice: 32-bit xorshift (RECORDS.md, Fills)."""

from array import array
from functools import lru_cache
from typing import Sequence, TypeVar

from words import le16

ONES = 0xFFFFFFFF
T = TypeVar("T")


def stepped(state: int) -> int:
    """Give the state after this one: left 13, right 17, left 5."""
    state ^= state << 13 & ONES
    state ^= state >> 17
    return state ^ state << 5 & ONES


class Generator:
    """A 32-bit state; seed 0 stays 0 for ever."""

    def __init__(self, seed: int) -> None:
        self.state = seed

    def step(self) -> int:
        """Move to the next state and give it."""
        self.state = stepped(self.state)
        return self.state

    def below(self, bound: int) -> int:
        """Choose a number below the bound."""
        return (self.step() >> 8) % bound

    def between(self, first: int, last: int) -> int:
        """Choose a number from first to last."""
        return first + self.below(last - first + 1)

    def pick(self, choices: Sequence[T]) -> T:
        """Choose one of the choices."""
        return choices[self.below(len(choices))]

    def one_in(self, number: int) -> bool:
        """Say yes once in so many times."""
        return self.below(number) == 0

    def shuffled(self, things: Sequence[T]) -> list[T]:
        """Give the things in some order."""
        rest, order = list(things), []
        while rest:
            order.append(rest.pop(self.below(len(rest))))
        return order


class Stream:
    """The low 16 bits of a seed's states, as far as they were asked for; kept, for speed alone."""

    def __init__(self, seed: int) -> None:
        self.state = seed
        self.words = array("H")

    def first(self, count: int) -> array:
        """Give the first so many words."""
        for _ in range(count - len(self.words)):
            self.state = stepped(self.state)
            self.words.append(self.state & 0xFFFF)
        return self.words[:count]


@lru_cache(maxsize=64)
def stream(seed: int) -> Stream:
    """Give the one stream of a seed."""
    return Stream(seed)


@lru_cache(maxsize=8)
def fill_bytes(length: int, base: int, seed: int) -> bytes:
    """Give so many bytes: the low 8 bits of each state, XOR the base."""
    low = le16(stream(seed).first(length))[::2] if seed else bytes(length)
    return low.translate(bytes(byte ^ base for byte in range(256)))


@lru_cache(maxsize=8)
def fill_words(length: int, seed: int) -> tuple[int, ...]:
    """Give so many words: the low 16 bits of each state."""
    return tuple(stream(seed).first(length)) if seed else (0,) * length
