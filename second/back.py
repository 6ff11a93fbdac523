"""Back to BIN and CFG: the lines that build an image's tables and words (02, W-213)."""

from dataclasses import dataclass, replace
from typing import Iterator, Sequence

from builder import BIN_LIMIT, PAGED, PERMISSIONS, lay_out, locutus_paragraphs, make_tables, page_range, plain_kinds
from cfg import MOST_ENTRIES, Entry
from load import DATA_HUNK, LOCUTUS_WORDS, accept_in_full, blocks_of, decode_hunk, jlp_field
from machine import flippable, silent
from refusal import Refused
from tables import Tables
from words import be16

KINDS = {permissions: kind for kind, permissions in PERMISSIONS.items()}
RAM_KINDS = ("ram16", "ram8")
Named = dict[int, int]
Plan = tuple[Entry, ...]


@dataclass
class Sources:
    """What W-213 answers: number and place, and both lengths (READINGS W213-17)."""

    number: int = 0
    place: int = 0
    bin_length: int = 0
    cfg_length: int = 0


def named_words(image: bytes) -> Named:
    """Give each word that a hunk names, with its last value (READINGS W213-12)."""
    named: Named = {}
    for block in blocks_of(image):
        if block.kind == DATA_HUNK:
            address, words = decode_hunk(block, LOCUTUS_WORDS)
            named.update(enumerate(words, address))
    return named


def paragraph_entry(paragraph: int, kind: str) -> Entry:
    """Give a plain line of one paragraph; its BIN words come later (01, What a CFG may say)."""
    first = 0 if kind == "rom" else 256 * paragraph
    return Entry(0, kind, first, first + 255, 256 * paragraph)


def page_entry(chapter: int, page: int) -> Entry:
    """Give a PAGE line; its BIN words come later (01, What a CFG may say)."""
    whole = page_range(chapter)
    return Entry(0, "rom", 0, len(whole) - 1, whole[0], page)


def plain_entries(tables: Tables, paragraphs: Sequence[int]) -> list[Entry]:
    """Take plain paragraphs by their permissions, where lines may stand (01, Permissions)."""
    allowed = [p for p in paragraphs if not silent(256 * p)]
    return [paragraph_entry(p, KINDS[tables.permissions[p]]) for p in allowed if tables.permissions[p] in KINDS]


def chapter_plans(tables: Tables, chapter: int, first_page: int) -> Iterator[list[Entry]]:
    """Give every plan of a chapter that its flip entries leave open, plain words before PAGE 0 (02, W-213).

    An absent page's entry is that of the plain page where plain ROM answers, else 8: two ways to tell the pages."""
    row, every = tables.flips[16 * chapter:16 * chapter + 16], range(16 * chapter, 16 * chapter + 16)
    if row == [0] * 16 or chapter not in PAGED:
        yield plain_entries(tables, every)
        return
    outside = plain_entries(tables, [p for p in every if p not in flippable(chapter)])
    for absent, under in ((16 * first_page + 9, True), (8, False)):
        pages = [page_entry(chapter, page) for page in range(16) if row[page] != absent]
        plain = [paragraph_entry(p, "rom") for p in flippable(chapter)] if under else []
        yield outside + plain + pages


def same_chapter(one: Tables, other: Tables, chapter: int) -> bool:
    """Tell whether two tables agree in a chapter, entry by entry (READINGS W213-11)."""
    here = slice(16 * chapter, 16 * chapter + 16)
    rows = [(tables.mapping[here], tables.permissions[here], tables.flips[here]) for tables in (one, other)]
    return rows[0] == rows[1]


def plans(tables: Tables, chapter: int = 0, so_far: Plan = ()) -> Iterator[Plan]:
    """Give every plan that the builder's tables are these for, by trying it (01, How an image is laid out)."""
    if chapter == 16:
        yield so_far
        return
    for here in chapter_plans(tables, chapter, len(lay_out(so_far))):
        plan = so_far + tuple(here)
        if same_chapter(make_tables(plan, lay_out(plan)), tables, chapter):
            yield from plans(tables, chapter + 1, plan)


def locutus_words(lines: Sequence[Entry], kinds: Sequence[str]) -> list[int]:
    """Give the Locutus addresses of all words of the lines of some kinds (01, How an image is laid out)."""
    layout = lay_out(lines)
    return [256 * p + word for line in lines if line.kind in kinds for p in locutus_paragraphs(line, layout)
            for word in range(256)]


def holds_words(plan: Plan, named: Named) -> bool:
    """Tell whether the plan covers just the named words, RAM's being 0 (READINGS W213-12, W213-13)."""
    covered = locutus_words(plan, ("rom", *RAM_KINDS))
    if len(covered) != len(named) or any(word not in named for word in covered):
        return False
    return all(named[word] == 0 for word in locutus_words(plan, RAM_KINDS))


def joined(plan: Plan) -> list[Entry]:
    """Give the lines in order: plain ROM by address, PAGE lines, RAM by address (READINGS W213-4, W213-5)."""
    runs: list[Entry] = []
    for paragraph, kind in sorted(plain_kinds(plan).items()):
        last = runs[-1] if runs else None
        if last and last.kind == kind and last.address + last.count == 256 * paragraph:
            runs[-1] = replace(last, hi=last.hi + 256)
        else:
            runs.append(paragraph_entry(paragraph, kind))
    pages = sorted((entry for entry in plan if entry.page is not None), key=lambda entry: (entry.chapter, entry.page))
    return [run for run in runs if run.kind == "rom"] + pages + [run for run in runs if run.kind != "rom"]


def placed(lines: list[Entry]) -> list[Entry]:
    """Give each ROM line its own BIN words, one line after the other (READINGS W213-8)."""
    found, offset = [], 0
    for line in lines:
        if line.kind == "rom":
            line = replace(line, lo=offset, hi=offset + line.count - 1)
            offset += line.count
        found.append(line)
    return found


def spell_line(line: Entry) -> str:
    """Spell a line in 01's form (02, W-213; READINGS W213-1 to W213-3)."""
    if line.kind != "rom":
        return f"${line.lo:04X} - ${line.hi:04X} = RAM {line.kind[3:]}"
    page = "" if line.page is None else f" PAGE {line.page:X}"
    return f"${line.lo:05X} - ${line.hi:05X} = ${line.address:04X}{page}"


def spell_cfg(lines: list[Entry]) -> bytes:
    """Spell a CFG, each section named once if used (02, W-213)."""
    rom, ram = ([spell_line(line) for line in lines if (line.kind == "rom") == wanted] for wanted in (True, False))
    text = (["[mapping]"] + rom if rom else []) + (["[memattr]"] + ram if ram else [])
    return "".join(line + "\n" for line in text).encode()


def bin_of(lines: list[Entry], named: Named) -> bytes:
    """Write the words of the lines, high byte first; one zero word if there are none (READINGS W213-8, W213-9)."""
    return be16([named[word] for word in locutus_words(lines, ("rom",))] or [0])


def chosen(image: bytes, tables: Tables, flags: bytes) -> list[Entry]:
    """Find the lines, plain ones rather than PAGE 0, or 31 (02, W-213; READINGS W213-7, W213-10, W213-14, W213-15)."""
    named = named_words(image)
    if jlp_field(flags) == 0:
        for plan in plans(tables):
            lines = placed(joined(plan))
            if holds_words(plan, named) and 1 <= len(lines) <= MOST_ENTRIES:
                return lines
    raise Refused(31, 0)


def sources_of(image: bytes) -> tuple[bytes, bytes]:
    """Give BIN and CFG, or a load's refusal, 31 or 32 (02, W-213)."""
    loaded = accept_in_full(image)
    lines = chosen(image, loaded.tables, loaded.flags)
    bin_file = bin_of(lines, named_words(image))
    if len(bin_file) > BIN_LIMIT:
        raise Refused(32, 0)
    return bin_file, spell_cfg(lines)


def back(image: bytes, bin_buffer: bytearray, cfg_buffer: bytearray) -> Sources:
    """Write BIN and CFG into both buffers, or neither (02, W-213; READINGS W213-17)."""
    try:
        bin_file, cfg = sources_of(image)
    except Refused as refused:
        return Sources(refused.number, refused.place)
    if len(bin_buffer) < len(bin_file) or len(cfg_buffer) < len(cfg):
        return Sources(29, 0, len(bin_file), len(cfg))
    bin_buffer[:len(bin_file)], cfg_buffer[:len(cfg)] = bin_file, cfg
    return Sources(0, 0, len(bin_file), len(cfg))
