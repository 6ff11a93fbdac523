"""The CFG reader (01, What a CFG may say; refusals 22, 23 and 24)."""

import re
from dataclasses import dataclass
from typing import Iterator, Optional

from refusal import Refused

CFG_LIMIT = 16_384
MOST_ENTRIES = 128
HEX = "[0-9A-Fa-f]"
BLANK = "[ \t]*"
SECTION = re.compile(r"\[(mapping|memattr)\]")
MAPPING = re.compile(
    rf"\$({HEX}{{1,5}}){BLANK}-{BLANK}\$({HEX}{{1,5}}){BLANK}={BLANK}"
    rf"\$({HEX}{{1,4}})(?:[ \t]+PAGE[ \t]+({HEX}))?")
MEMATTR = re.compile(
    rf"\$({HEX}{{1,4}}){BLANK}-{BLANK}\$({HEX}{{1,4}}){BLANK}={BLANK}RAM[ \t]+(16|8)")


@dataclass(frozen=True)
class Entry:
    """A line of a section: BIN words lo to hi at an address, or RAM from lo to hi (01)."""

    line: int
    kind: str
    lo: int
    hi: int
    address: int
    page: Optional[int] = None

    @property
    def count(self) -> int:
        """Count the words from lo to hi (01, What a CFG may say)."""
        return self.hi - self.lo + 1

    @property
    def chapter(self) -> int:
        """Give the chapter of the first address (01, The machine)."""
        return self.address >> 12

    def holds(self, address: int) -> bool:
        """Tell whether the line's range holds the console address (01, The plain cartridge)."""
        return self.address <= address < self.address + self.count


def allowed(cfg: bytes, place: int) -> bool:
    """Tell whether the byte there may stand in a CFG (01, What a CFG may say; READINGS C3)."""
    byte = cfg[place]
    if byte == 0x0D:
        return cfg[place + 1:place + 2] == b"\n"
    return 0x20 <= byte <= 0x7E or byte in (0x09, 0x0A)


def check_length(cfg: bytes) -> None:
    """Ask 22 of the length (01, refusal 22; READINGS C1)."""
    if len(cfg) > CFG_LIMIT:
        raise Refused(22, 0)


def check_bytes(cfg: bytes) -> None:
    """Ask 22 of each byte (01, refusal 22; READINGS C3, C4)."""
    for place in range(len(cfg)):
        if not allowed(cfg, place):
            raise Refused(22, 1 + cfg[:place].count(b"\n"))


def bare_lines(cfg: bytes) -> list[tuple[int, str]]:
    """Number the lines from 1 and drop comments and blanks (01, What a CFG may say)."""
    lines = cfg.decode("latin-1").replace("\r\n", "\n").split("\n")
    bare = [(number, line.split(";")[0].strip(" \t")) for number, line in enumerate(lines, 1)]
    return [(number, line) for number, line in bare if line]


def read_entry(number: int, line: str, section: str) -> Entry:
    """Read one entry of its section, else 23 (01, refusal 23; READINGS C5 to C8)."""
    form = {"mapping": MAPPING, "memattr": MEMATTR}.get(section)
    match = form.fullmatch(line) if form else None
    if match is None:
        raise Refused(23, number)
    lo, hi = int(match[1], 16), int(match[2], 16)
    if section == "memattr":
        return Entry(number, "ram" + match[3], lo, hi, lo)
    page = None if match[4] is None else int(match[4], 16)
    return Entry(number, "rom", lo, hi, int(match[3], 16), page)


def lines_in_sections(cfg: bytes) -> Iterator[tuple[int, str, str]]:
    """Give number and text of each line that names no section, and the section it stands in (01)."""
    section = ""
    for number, line in bare_lines(cfg):
        named = SECTION.fullmatch(line)
        if named:
            section = named[1]
        else:
            yield number, line, section


def check_count(entries: list[Entry]) -> None:
    """Ask 24: no entry, or more than 128 (01, refusal 24; 02, W-210; READINGS C12)."""
    if not entries:
        raise Refused(24, 0)
    if len(entries) > MOST_ENTRIES:
        raise Refused(24, entries[MOST_ENTRIES].line)


def read_cfg(cfg: bytes) -> list[Entry]:
    """Read all entries, asking 22, 23 and 24 each of the whole file (01; READINGS C2)."""
    check_length(cfg)
    check_bytes(cfg)
    entries = [read_entry(*line) for line in lines_in_sections(cfg)]
    check_count(entries)
    return entries
