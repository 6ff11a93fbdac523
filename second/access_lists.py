"""Random lists of console accesses (01, The machine; 02, W-202)."""

from accesses import READ_IT, RESET, Access, read, write
from generator import Generator


def random_access(g: Generator, chapters: list[int]) -> Access:
    """Choose a read, a write, a page request, a near miss of one, a bankswitch, or a reset (01; 02, W-202)."""
    chapter = g.pick(chapters) if chapters and g.below(6) else g.below(16)
    address = 4096 * chapter + g.pick([g.below(4096), g.below(4096), 0x7FF, 0x800, 0, 0xFFF, 0x4FF, 0x500])
    request = 4096 * chapter + 0xA50 + g.below(16)
    choice = g.below(18)
    if choice >= 16:
        register = 0x40 + 16 * g.below(2) + chapter
        return write(register, g.pick([g.below(256), 0xF8 + g.below(8), g.below(65536), g.below(16)]))
    if choice < 7:
        return read(address)
    if choice < 10:
        return write(address, g.below(65536))
    if choice < 13:
        return write(4096 * chapter + 0xFFF, request)
    if choice < 14:
        return write(4096 * chapter + 0xFFF, g.pick([request ^ 0x1000, request ^ 0x10, request ^ 0x100]))
    if choice < 15:
        return write(4096 * chapter + g.pick([0xFFE, 0x7FF, 0xEFF]), request)
    return RESET if g.one_in(3) else read(address)


def random_accesses(g: Generator, chapters: list[int], count: int) -> list[Access]:
    """Choose a list of accesses, about half of them near the one before (01, The machine)."""
    accesses = [random_access(g, chapters)]
    while len(accesses) < count:
        operation, address, value = random_access(g, chapters)
        before = accesses[-1][1]
        if operation == READ_IT and g.one_in(2):
            address = g.pick([before, before & 0xF000 | address & 0xFFF])
        accesses.append((operation, address, value))
    return accesses
