"""JLP's flash: rows of 96 words in a lent buffer, by registers and commands (02, W-209; 000, JLP Flash)."""

from typing import MutableSequence, Optional

from load import SECTOR_WORDS, flash_size, jlp_field, lent

ROW, ROWS = 96, 8
EMPTY = 0xFFFF
JLP_RAM, TO_LOCUTUS = range(0x8040, 0x9F80), 0x8000
FIRST, LAST, ADDR, AT_ROW = 0x8023, 0x8024, 0x8025, 0x8026
WRITE_ROW, READ_ROW, ERASE_SECTOR = (0x802D, 0xC0DE), (0x802E, 0xDEC0), (0x802F, 0xBEEF)


class Flash:
    """The two registers and the number of sectors; the words are lent (02, W-209)."""

    def __init__(self, flags: bytes) -> None:
        self.sectors = flash_size(flags) if jlp_field(flags) >= 2 else 0
        self.addr = self.row = 0

    def read(self, address: int) -> Optional[int]:
        """Give first or last row; all else is silent (000's table; READINGS W209-4, W209-9)."""
        if self.sectors == 0:
            return None
        return {FIRST: 0, LAST: ROWS * self.sectors - 1}.get(address)

    def write(self, ram: MutableSequence[int], flash: MutableSequence[int], address: int, value: int) -> None:
        """Set a register or run a command (000's table; READINGS W209-6, W209-10)."""
        if self.sectors == 0:
            return
        if address == ADDR:
            self.addr = value
        elif address == AT_ROW:
            self.row = value
        elif (address, value) == READ_ROW and self.row_lent(flash) and self.ram_lent(ram):
            self.copy(ram, flash)
        elif (address, value) == WRITE_ROW and self.row_lent(flash) and self.ram_lent(ram):
            self.keep(ram, flash)
        elif (address, value) == ERASE_SECTOR:
            self.erase(flash)

    def row_lent(self, flash: MutableSequence[int]) -> bool:
        """Tell whether the row is in range and wholly lent (02, W-209; READINGS W209-3 to W209-5)."""
        return self.row < ROWS * self.sectors and ROW * self.row + ROW <= len(flash)

    def ram_lent(self, ram: MutableSequence[int]) -> bool:
        """Tell whether all 96 words lie in JLP's RAM and in the lent RAM (02, W-209; READINGS W209-2)."""
        return all(word in JLP_RAM and word + TO_LOCUTUS < lent(ram) for word in (self.addr, self.addr + ROW - 1))

    def copy(self, ram: MutableSequence[int], flash: MutableSequence[int]) -> None:
        """Read a row into RAM (02, W-209)."""
        for word in range(ROW):
            ram[self.addr + TO_LOCUTUS + word] = flash[ROW * self.row + word]

    def keep(self, ram: MutableSequence[int], flash: MutableSequence[int]) -> None:
        """Write RAM into an empty row (02, W-209; READINGS W209-8)."""
        row = range(ROW * self.row, ROW * self.row + ROW)
        if all(flash[word] == EMPTY for word in row):
            for word in row:
                flash[word] = ram[self.addr + TO_LOCUTUS + word - row[0]]

    def erase(self, flash: MutableSequence[int]) -> None:
        """Make the row's sector empty if it is in range and wholly lent (02, W-209; READINGS W209-7)."""
        first = SECTOR_WORDS * (self.row // ROWS)
        if self.row < ROWS * self.sectors and first + SECTOR_WORDS <= len(flash):
            flash[first:first + SECTOR_WORDS] = [EMPTY] * SECTOR_WORDS
