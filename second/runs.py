"""The runner of a list of bus accesses, and the text of such a list (02, W-214)."""

import re
from dataclasses import dataclass, field
from typing import MutableSequence, Optional

from accesses import READ_IT, RESET, Access, play_machine, read, write
from machine import Machine
from refusal import Refused

HEX = b"([0-9A-Fa-f]{4})"
READ_LINE = re.compile(b"op=r addr=" + HEX)
WRITE_LINE = re.compile(b"op=w addr=" + HEX + b" value=" + HEX)


@dataclass
class Ran:
    """What a run answers beside the state: length is the reads that need room, at 29 (READINGS W214-7)."""

    number: int = 0
    place: int = 0
    length: int = 0
    lines: int = 0
    answers: list[Optional[int]] = field(default_factory=list)


def lines_of(text: bytes) -> list[bytes]:
    """Cut a list at LF or CR LF; what follows the last is a line if it isn't empty (READINGS W214-2, W214-3)."""
    *ended, rest = text.split(b"\n")
    lines = [line[:-1] if line.endswith(b"\r") else line for line in ended]
    return lines + ([rest] if rest else [])


def read_line(line: bytes) -> Optional[Access]:
    """Read one line, or none if malformed (READINGS W214-1)."""
    if line == b"op=x":
        return RESET
    match = READ_LINE.fullmatch(line)
    if match:
        return read(int(match[1], 16))
    match = WRITE_LINE.fullmatch(line)
    return write(int(match[1], 16), int(match[2], 16)) if match else None


def read_list(text: bytes) -> list[Access]:
    """Read every line, or 33 at the first malformed one (02, W-214)."""
    accesses = [read_line(line) for line in lines_of(text)]
    if None in accesses:
        raise Refused(33, 1 + accesses.index(None))
    return accesses


def count_reads(accesses: list[Access]) -> int:
    """Count the answers that a list needs room for (READINGS W214-6)."""
    return len([access for access in accesses if access[0] == READ_IT])


def run_list(machine: Machine, ram: MutableSequence[int], flash: MutableSequence[int], text: bytes, limit: int,
             room: int) -> Ran:
    """Run up to limit lines, refusing 33, then 29, before any (02, W-214; READINGS W214-5 to W214-10)."""
    try:
        accesses = read_list(text)
        if count_reads(accesses) > room:
            raise Refused(29, 0, count_reads(accesses))
    except Refused as refused:
        return Ran(refused.number, refused.place, refused.length)
    played = accesses[:limit]
    answers = play_machine(machine, ram, flash, played)
    return Ran(0, 0, 0, len(played), [word for (word, _), access in zip(answers, played) if access[0] == READ_IT])
