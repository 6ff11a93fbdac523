"""JLP's RAM, multiplies, divides and CRC (02, W-206; 000, Accelerators)."""

from typing import MutableSequence, Optional

from flash import JLP_RAM, TO_LOCUTUS, Flash
from load import jlp_field, lent

WINDOW = range(0x8000, 0xA000)
OPERANDS, LOW, HIGH = range(0x9F80, 0x9F8C), 0x9F8E, 0x9F8F
CRC_DATA, CRC = 0x9FFC, 0x9FFD
POLYNOMIAL = 0xAD52
TURN_ON, TURN_OFF = (0x8033, 0x4A5A), (0x8034, 0x6A7A)


def signed(word: int) -> int:
    """Take a word as a number from -32,768 to 32,767 (000, Multiply and Divide)."""
    return word - 65536 if word >= 32768 else word


def product(function: int, first: int, second: int) -> int:
    """Multiply as MPYSS, MPYSU, MPYUS or MPYUU, modulo 2^32 (000's table; READINGS W206-8)."""
    left = signed(first) if function in (0, 1) else first
    right = signed(second) if function in (0, 2) else second
    return left * right % 2**32


def quotient_and_remainder(function: int, first: int, second: int) -> tuple[int, int]:
    """Divide as DIVSS or DIVUU, rounding toward zero (000's table; 02, W-206; READINGS W206-12)."""
    left, right = (signed(first), signed(second)) if function == 4 else (first, second)
    quotient = abs(left) // abs(right)
    if (left < 0) != (right < 0):
        quotient = -quotient
    return quotient % 65536, (left - quotient * right) % 65536


def crc_step(crc: int, word: int) -> int:
    """Take one 16-bit word into the CRC (000, CRC-16; READINGS W206-13)."""
    crc ^= word
    for _ in range(16):
        crc = crc >> 1 ^ (POLYNOMIAL if crc & 1 else 0)
    return crc


class Jlp:
    """The switch, twelve operands, two result words, the CRC and flash's registers (02, W-206, W-209)."""

    def __init__(self, flags: bytes) -> None:
        self.field = jlp_field(flags)
        self.operands = [0] * 12
        self.low = self.high = self.crc = 0
        self.flash = Flash(flags)
        self.reset()

    def reset(self) -> None:
        """Turn on for fields 1 and 3, off else; all else survives (02, W-206; READINGS W206-16)."""
        self.on = self.field in (1, 3)

    def switched(self, address: int, value: int) -> bool:
        """Take a switch write, and tell whether it was one (02, W-206; READINGS W206-1 to W206-3)."""
        if self.field != 0 and (address, value) == TURN_ON:
            self.on = True
            return True
        if self.on and (address, value) == TURN_OFF:
            self.on = False
            return True
        return False

    def has(self, address: int) -> bool:
        """Tell whether the accelerators stand at the address now (02, W-206; READINGS ALL-2)."""
        return self.on and address in WINDOW

    def read(self, ram: MutableSequence[int], address: int) -> Optional[int]:
        """Read RAM, results, CRC or flash's rows; all else is silent (02, W-206; READINGS W206-15)."""
        if address in JLP_RAM:
            return ram[address + TO_LOCUTUS] if address + TO_LOCUTUS < lent(ram) else None
        return {LOW: self.low, HIGH: self.high, CRC: self.crc}.get(address, self.flash.read(address))

    def write(self, ram: MutableSequence[int], flash: MutableSequence[int], address: int, value: int) -> None:
        """Write RAM, an operand, the CRC or flash's registers; all else stores nothing (02, W-206, W-209)."""
        if address in JLP_RAM and address + TO_LOCUTUS < lent(ram):
            ram[address + TO_LOCUTUS] = value
        elif address in OPERANDS:
            self.operands[address - OPERANDS[0]] = value
            self.compute((address - OPERANDS[0]) // 2)
        elif address == CRC_DATA:
            self.crc = crc_step(self.crc, value)
        elif address == CRC:
            self.crc = value
        else:
            self.flash.write(ram, flash, address, value)

    def compute(self, function: int) -> None:
        """Run a function on its two operands; divisor 0 leaves the results (02, W-206; READINGS W206-9 to W206-11)."""
        first, second = self.operands[2 * function:2 * function + 2]
        if function < 4:
            self.high, self.low = divmod(product(function, first, second), 65536)
        elif second != 0:
            self.low, self.high = quotient_and_remainder(function, first, second)
