"""The plain cartridge: what a BIN and CFG mean to the console (01, The plain cartridge)."""

from typing import Optional, Sequence

from cfg import Entry


class PlainCartridge:
    """Sixteen page numbers, the CFG's lines and the words of its RAM (01, The plain cartridge)."""

    def __init__(self, bin_file: bytes, entries: Sequence[Entry]) -> None:
        self.bin_file = bin_file
        self.entries = entries
        self.ram: dict[int, int] = {}
        self.reset()

    def reset(self) -> None:
        """Make all page numbers 0; RAM survives (01, The plain cartridge)."""
        self.pages = [0] * 16

    def line_at(self, address: int) -> Optional[Entry]:
        """Find the PAGE line that is shown there, else the plain line (01, The plain cartridge)."""
        here = [entry for entry in self.entries if entry.holds(address)]
        shown = [entry for entry in here if entry.page == self.pages[address >> 12]]
        plain = [entry for entry in here if entry.page is None]
        return (shown + plain + [None])[0]

    def read(self, address: int) -> Optional[int]:
        """Give the word of the line found, or silence (01, The plain cartridge)."""
        entry = self.line_at(address)
        if entry is None:
            return None
        if entry.kind != "rom":
            return self.ram.get(address, 0)
        offset = entry.lo + address - entry.address
        return int.from_bytes(self.bin_file[2 * offset:2 * offset + 2], "big")

    def write(self, address: int, value: int) -> int:
        """Take a page number, and store in RAM whatever is written there (01, The plain cartridge).

        Give how many mapping entries the built machine assigns: those of a chapter with PAGE lines (02, W-212)."""
        chapter, assigned = address >> 12, 0
        if f"{address:04X}"[1:] == "FFF" and f"{value:04X}"[:3] == f"{address >> 12:X}A5":
            self.pages[chapter] = value % 16
            if any(entry.page is not None and entry.chapter == chapter for entry in self.entries):
                assigned = 8 if chapter == 4 else 16
        for entry in self.entries:
            if entry.kind != "rom" and entry.holds(address):
                self.ram[address] = value % 256 if entry.kind == "ram8" else value
        return assigned
