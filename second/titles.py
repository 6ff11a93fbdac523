"""Titles (BIN, CFG and label), at random and with faults to put in (01, What a CFG may say)."""

from dataclasses import dataclass, field, replace
from pathlib import Path
from typing import Optional

from builder import PAGED, page_range
from cfg import MOST_ENTRIES, Entry
from generator import Generator, fill_bytes

BAD_LINES = (Path(__file__).parent / "bad_lines.txt").read_text().splitlines()


@dataclass
class Title:
    """A BIN by length, seed and base or by its bytes, a CFG, a label, and the lines that the CFG was spelt from."""

    bin_length: int
    bin_seed: int
    cfg: bytes = b""
    bin_base: int = 0
    data: Optional[bytes] = None
    label: bytes = b""
    plan: list[Entry] = field(default_factory=list)

    def bin_file(self) -> bytes:
        """Give the BIN's bytes (RECORDS.md, Fills)."""
        return fill_bytes(self.bin_length, self.bin_base, self.bin_seed) if self.data is None else self.data


def some_kinds(g: Generator, kinds: dict[int, str], paragraphs: range) -> None:
    """Put short runs of ROM and RAM over some paragraphs (01, What a CFG may say)."""
    kind: Optional[str] = None
    for paragraph in paragraphs:
        if g.one_in(4):
            kind = g.pick(["rom", "ram16", "ram8", None])
        if kind:
            kinds[paragraph] = kind


def fill_chapter(g: Generator, chapter: int, kinds: dict[int, str]) -> list[int]:
    """Choose a chapter's plain paragraphs, and give its pages (01, What a CFG may say)."""
    here = range(16 * chapter + (5 if chapter == 0 else 0), 16 * chapter + 16)
    style = g.below(5 if chapter in PAGED else 2)
    if style == 0:
        kinds.update(dict.fromkeys(here, g.pick(["rom", "rom", "ram16", "ram8"])))
        return []
    if style == 1:
        some_kinds(g, kinds, here)
        return []
    if chapter == 4:
        some_kinds(g, kinds, here[:8])
    if style == 2:
        kinds.update(dict.fromkeys(here[8:] if chapter == 4 else here, "rom"))
    return g.shuffled(range(16))[:16 if g.one_in(6) else g.between(1, 4)]


def cut_lines(g: Generator, kinds: dict[int, str]) -> list[tuple[str, int, int]]:
    """Cut the plain paragraphs into lines of one kind: kind, first, count (01)."""
    lines: list[tuple[str, int, int]] = []
    sharp = g.pick([2, 8, 1000])
    for paragraph in sorted(kinds):
        kind, first, count = lines[-1] if lines else ("", 0, 0)
        if kind == kinds[paragraph] and first + count == paragraph and not g.one_in(sharp):
            lines[-1] = (kind, first, count + 1)
        else:
            lines.append((kinds[paragraph], paragraph, 1))
    return lines


def ram_line(paragraph: int, width: int = 8) -> str:
    """Spell a RAM line of one paragraph (01, What a CFG may say)."""
    return f"${256 * paragraph:X}-${256 * paragraph + 255:X}=RAM {width}"


def rom_line(g: Generator, address: int, count: int, page: Optional[int], words: int) -> Entry:
    """Take a line's words from some place in the BIN (01, What a CFG may say)."""
    lo = g.below(words - count + 1)
    return Entry(0, "rom", lo, lo + count - 1, address, page)


def page_line(g: Generator, chapter: int, page: int, words: int) -> Entry:
    """Make a PAGE line of a chapter's shape (01, What a CFG may say)."""
    whole = page_range(chapter)
    return rom_line(g, whole[0], len(whole), page, words)


def random_title(g: Generator, chapters: int) -> Title:
    """Make a title with up to so many chapters that 21 to 28 let through (01)."""
    kinds: dict[int, str] = {}
    paged: list[tuple[int, int]] = []
    for chapter in g.shuffled([0, 2] + list(range(4, 16)))[:g.between(1, chapters)]:
        paged += [(chapter, page) for page in fill_chapter(g, chapter, kinds)]
    lines = cut_lines(g, kinds)
    if not lines and not paged or len(lines) > MOST_ENTRIES:
        return random_title(g, chapters)
    longest = max([256 * count for kind, _, count in lines if kind == "rom"] + [4096 if paged else 1])
    words = min(longest + g.pick([0, 1, 255, 4096]), 262_144)
    plan = []
    for kind, first, count in lines:
        if kind == "rom":
            plan.append(rom_line(g, 256 * first, 256 * count, None, words))
        else:
            last = 256 * (first + count) - 1
            plan.append(Entry(0, kind, 256 * first, last, 256 * first))
    plan += [page_line(g, chapter, page, words) for chapter, page in g.shuffled(paged)[:MOST_ENTRIES - len(lines)]]
    title = Title(2 * words, g.between(1, 12), plan=g.shuffled(plan))
    if g.one_in(5):
        title.bin_seed, title.bin_base = 0, g.pick([0, 1, 3, 4, 0xFF])
    title.cfg = spell_freely(g, title.plan)
    return title


def spell_number(g: Generator, number: int, most: int) -> str:
    """Spell a number in hex, in either case, with some zeros before it (01, What a CFG may say)."""
    digits = f"{number:X}" if g.one_in(2) else f"{number:x}"
    return "$" + digits.rjust(g.between(1, most), "0")


def spell_line_freely(g: Generator, entry: Entry) -> str:
    """Spell an entry with blanks here and there (01, What a CFG may say)."""
    def may() -> str:
        return g.pick(["", " ", " ", "  ", "\t"])

    def must() -> str:
        return g.pick([" ", " ", "\t", " \t "])

    most = 5 if entry.kind == "rom" else 4
    text = may() + spell_number(g, entry.lo, most) + may() + "-" + may()
    text += spell_number(g, entry.hi, most) + may() + "=" + may()
    if entry.kind != "rom":
        return text + "RAM" + must() + entry.kind[3:] + may()
    text += spell_number(g, entry.address, 4)
    if entry.page is not None:
        text += must() + "PAGE" + must() + g.pick([f"{entry.page:X}", f"{entry.page:x}"])
    return text + may()


def spell_freely(g: Generator, plan: list[Entry]) -> bytes:
    """Spell a CFG: sections where needed, comments, blank lines, line ends (01)."""
    lines, section, chatty = [], "", g.one_in(2)
    for entry in plan:
        wanted = "[mapping]" if entry.kind == "rom" else "[memattr]"
        if section != wanted or g.one_in(12):
            lines.append(wanted)
            section = wanted
        if chatty and g.one_in(6):
            lines.append(g.pick(["", "  ", "; $0 - $FF = $5000", "\t;[memattr]", ";"]))
        lines.append(spell_line_freely(g, entry) + (g.pick([";", "; rom", " ;PAGE 3"]) if g.one_in(6) else ""))
    end = g.pick(["\n", "\n", "\r\n"])
    text = "".join(line + (end if g.below(9) else "\n") for line in lines)
    return (text if g.below(4) else text.rstrip("\r\n")).encode()


def bad_entry(g: Generator, number: int, entry: Entry, words: int) -> Entry:
    """Spoil a line so that 25 or 26 speaks of it (01, refusals 25 and 26)."""
    start = g.pick([0x0000, 0x0400, 0x1000, 0x1F00, 0x3000, 0x3F00])
    chapter = g.pick([0, 0x1000, 0x3000, 0x4000, 0x4800, 0x5000, 0x5800])
    if number == 25:
        return g.pick([
            replace(entry, lo=entry.hi, hi=max(entry.lo, 1) - 1),
            Entry(0, "rom", 0, words, 0x5000, g.pick([None, 1])),
            Entry(0, "rom", max(words - 256, 0), words - 1, 0xFF00 + g.between(1, 255)),
        ])
    return g.pick([
        replace(entry, hi=entry.hi - 1),
        replace(entry, lo=entry.lo + 1),
        Entry(0, "ram16", start, start + 255, start),
        Entry(0, "ram8", 0x2F00, g.pick([0x30FF, 0x40FF]), 0x2F00),
        Entry(0, "rom", 0, min(g.pick([2047, 4095]), words - 1), chapter, g.below(16)),
    ])


def spoil_sharing(g: Generator, title: Title) -> None:
    """Repeat a line, whole or in part, so that 27 speaks (01, refusal 27)."""
    entry = g.pick(title.plan)
    if entry.page is None and g.one_in(2):
        start = entry.address + 256 * g.below(max(entry.count // 256, 1))
        entry = Entry(0, g.pick(["ram16", "ram8"]), start, start + 255, start)
    title.plan.insert(g.below(len(title.plan) + 1), entry)


def spoil_chapter(g: Generator, title: Title) -> None:
    """Put a PAGE line beside a part of plain ROM, or RAM, so that 28 speaks (01, refusal 28)."""
    chapter = g.pick(PAGED)
    words = max(title.bin_length // 2, 4096)
    title.bin_length = 2 * words
    title.plan = [entry for entry in title.plan if entry.chapter != chapter][:MOST_ENTRIES - 4]
    title.plan.append(page_line(g, chapter, g.below(16), words))
    inside = 4096 * chapter + 256 * g.between(8, 15)
    ram = Entry(0, g.pick(["ram8", "ram16"]), inside, inside + 255, inside)
    title.plan.append(g.pick([ram, rom_line(g, inside, 256, None, words)]))


def spoil_text(g: Generator, number: int, cfg: bytes) -> bytes:
    """Spoil a CFG's text so that 22, 23 or 24 speaks (01, refusals 22 to 24)."""
    lines, place = cfg.split(b"\n"), g.below(len(cfg) + 1)
    if number == 22:
        bad = [b"\x00", b"\x0B", b"\r", b"\x1F", b"\x7F", b"\x80", b"\xFF", b"\x1A", b"\r\r\n"]
        return cfg[:place] + g.pick(bad) + cfg[place:]
    if number == 23 and g.one_in(6):
        return b"\n".join(line for line in lines if b"[" not in line.split(b";")[0])
    if number == 23:
        lines.insert(g.below(len(lines)), g.pick(BAD_LINES).encode())
        return b"\n".join(lines)
    if g.below(3):
        return g.pick([b"", b"\n\n", b"[mapping]\n", b"[memattr]\n; none\n[mapping]", b";\n"])
    return cfg + b"\n[memattr]\n" + b"$0-$0=RAM 8\n" * g.between(MOST_ENTRIES, MOST_ENTRIES + 20)


def spoil_title(g: Generator, title: Title, numbers: list[int]) -> None:
    """Put in a fault for each of the refusals 21 to 28 named, and spell the CFG (01)."""
    for number in sorted(numbers, reverse=True):
        if number == 28:
            spoil_chapter(g, title)
        elif number == 27:
            spoil_sharing(g, title)
        elif number in (25, 26):
            which = g.below(len(title.plan))
            title.plan[which] = bad_entry(g, number, title.plan[which], title.bin_length // 2)
    title.cfg = spell_freely(g, title.plan)
    for number in sorted(numbers, reverse=True):
        if number in (22, 23, 24):
            title.cfg = spoil_text(g, number, title.cfg)
        elif number == 21:
            title.bin_length = g.pick([0, 1, 511, 524_289, 524_290])
