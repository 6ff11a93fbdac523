"""Console accesses, made one after the other on whatever answers them (01, The machine)."""

from functools import partial
from typing import Callable, MutableSequence, Optional

from machine import Machine
from plain import PlainCartridge

READ_IT, WRITE_IT, RESET_IT = 0, 1, 2
Access = tuple[int, int, int]
Answers = list[tuple[Optional[int], int]]
RESET: Access = (RESET_IT, 0, 0)


def read(address: int) -> Access:
    """Read an address."""
    return READ_IT, address, 0


def write(address: int, value: int) -> Access:
    """Write a word to an address."""
    return WRITE_IT, address, value


def play(on_read: Callable, on_write: Callable, on_reset: Callable, accesses: list[Access]) -> Answers:
    """Make each access in turn; give word read, none for silence or no read, and entries assigned (01; 02, W-212)."""
    answers: Answers = []
    for operation, address, value in accesses:
        if operation == READ_IT:
            answers.append((on_read(address), 0))
        elif operation == RESET_IT:
            on_reset()
            answers.append((None, 0))
        else:
            answers.append((None, on_write(address, value)))
    return answers


def play_plain(cartridge: PlainCartridge, accesses: list[Access]) -> Answers:
    """Answer as the plain cartridge (01, The plain cartridge)."""
    return play(cartridge.read, cartridge.write, cartridge.reset, accesses)


def play_machine(machine: Machine, ram: MutableSequence[int], flash: MutableSequence[int],
                 accesses: list[Access]) -> Answers:
    """Answer as the machine with its lent RAM and flash (01, The machine; 02, W-209)."""
    return play(partial(machine.read, ram), partial(machine.write, ram, flash), machine.reset, accesses)
