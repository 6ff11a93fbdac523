"""The machine that answers console accesses (01, The machine)."""

from typing import MutableSequence, Optional

from jlp import Jlp
from load import LOCUTUS_WORDS, lent
from tables import BANKSW, NARROW, PFE, READ, WRITE, Tables

SILENT = ((0x0000, 0x04FF), (0x1000, 0x1FFF), (0x3000, 0x3FFF))


def silent(address: int) -> bool:
    """Tell whether reads of the address are never answered (01, The machine)."""
    return any(first <= address <= last for first, last in SILENT)


def asked_entry(address: int, value: int) -> Optional[int]:
    """Give the flip entry that a write asks for, if any (01, The machine)."""
    chapter = address >> 12
    if address & 0xFFF == 0xFFF and value & 0xFFF0 == chapter << 12 | 0xA50:
        return 16 * chapter + value % 16
    return None


def flipped(entry: int, k: int) -> tuple[int, int]:
    """Give mapping and permissions of a chapter's paragraph k (01, The machine)."""
    return (entry & 0xFFF0) + k, entry & 7


def flippable(chapter: int) -> range:
    """Give the paragraphs that a flip of the chapter changes (01, The machine; What a CFG may say)."""
    return range(16 * chapter + (8 if chapter == 4 else 0), 16 * chapter + 16)


def half_page_of(register: int) -> Optional[int]:
    """Give the half-page, 0 to 31, that a write to the address switches, if any (02, W-202)."""
    if 0x0040 <= register <= 0x004F:
        return 2 * (register - 0x0040)
    if 0x0050 <= register <= 0x005F:
        return 2 * (register - 0x0050) + 1
    return None


def stored(old: int, value: int, narrow: bool) -> int:
    """Give the word after a write (01, The machine: NARROW)."""
    return old & 0xFF00 | value & 0x00FF if narrow else value


class Machine:
    """Initial and active tables, the one flip table, how many are readable, and JLP (01; 02, W-211, W-206)."""

    def __init__(self, tables: Tables, flags: bytes = bytes(16)) -> None:
        self.initial = tables
        self.jlp = Jlp(flags)
        self.reset()

    def reset(self) -> None:
        """Copy initial mapping and permissions to active, and set the accelerators' switch (01; 02, W-206)."""
        self.jlp.reset()
        self.mapping = list(self.initial.mapping)
        self.permissions = list(self.initial.permissions)
        self.readable = self.initial.readable()

    def location(self, address: int) -> int:
        """Give the Locutus address of a console address (01, The machine)."""
        return (self.mapping[address >> 8] * 256 + address % 256) % LOCUTUS_WORDS

    def read(self, ram: MutableSequence[int], address: int) -> Optional[int]:
        """Give the word read, or none for silence (01, The machine; 02, W-206)."""
        if self.jlp.has(address):
            return self.jlp.read(ram, address)
        location = self.location(address)
        readable = self.permissions[address >> 8] & READ
        if readable and location < lent(ram) and not silent(address):
            return ram[location]
        return None

    def acts(self, entry: int) -> bool:
        """Tell whether a request for a flip entry acts (01, The machine)."""
        return entry >= 32 and self.initial.flips[entry] & PFE != 0

    def write(self, ram: MutableSequence[int], flash: MutableSequence[int], address: int, value: int) -> int:
        """Give the write to its one taker, and count the mapping entries assigned (READINGS ALL-1; 02, W-212)."""
        if self.jlp.switched(address, value):
            return 0
        if self.jlp.has(address):
            self.jlp.write(ram, flash, address, value)
            return 0
        half_page, entry = half_page_of(address), asked_entry(address, value)
        if half_page is not None and self.permissions[8 * half_page] & BANKSW:
            return self.switch(half_page, value % 256)
        if entry is not None and self.acts(entry):
            return self.flip(entry)
        self.store(ram, address, value)
        return 0

    def store(self, ram: MutableSequence[int], address: int, value: int) -> None:
        """Store a word where the permissions let it (01, The machine; READINGS M1, M2)."""
        location, permissions = self.location(address), self.permissions[address >> 8]
        if permissions & WRITE and location < lent(ram):
            ram[location] = stored(ram[location], value, permissions & NARROW != 0)

    def switch(self, half_page: int, first: int) -> int:
        """Map a half-page from an Intellicart paragraph on; permissions stay (02, W-202; READINGS W202-3, W202-4)."""
        for k in range(8):
            self.mapping[8 * half_page + k] = (first + k) % 256
        return 8

    def flip(self, entry: int) -> int:
        """Give the chapter's paragraphs their new mapping and permissions (01, The machine)."""
        for paragraph in flippable(entry // 16):
            mapping, permissions = flipped(self.initial.flips[entry], paragraph % 16)
            self.readable += (permissions & READ) - (self.permissions[paragraph] & READ)
            self.mapping[paragraph], self.permissions[paragraph] = mapping, permissions
        return len(flippable(entry // 16))
