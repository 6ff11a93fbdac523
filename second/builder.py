"""The builder from BIN and CFG (01, How an image is laid out by the builder)."""

from dataclasses import dataclass
from functools import lru_cache
from typing import Iterator, Optional, Sequence

from cfg import Entry, read_cfg
from checksums import crc32
from load import LOCUTUS_WORDS
from machine import SILENT, flippable, flipped
from refusal import Refused
from tables import NARROW, PFE, READ, WRITE, Tables
from words import bin_words
from writer import check_label, compose, put

BIN_LIMIT = 524_288
FLAGS = b"\x55\x05" + bytes(14)
PERMISSIONS = {"rom": READ, "ram16": READ | WRITE, "ram8": READ | WRITE | NARROW}
PAGED = [2, *range(4, 16)]
Layout = dict[tuple[int, Optional[int]], int]


@dataclass
class Built:
    """What a build answers (01, Numbers that come back)."""

    number: int = 0
    place: int = 0
    length: int = 0
    needed: int = 0


def check_bin(bin_file: bytes) -> None:
    """Ask 21 (01, refusal 21)."""
    if not bin_file or len(bin_file) % 2 or len(bin_file) > BIN_LIMIT:
        raise Refused(21, 0)


def check_range(entry: Entry, bin_words: int) -> None:
    """Ask 25 of a line (01, refusal 25; READINGS C14)."""
    if entry.lo > entry.hi:
        raise Refused(25, entry.line)
    past = entry.hi >= bin_words or entry.address + entry.hi - entry.lo > 0xFFFF
    if entry.kind == "rom" and past:
        raise Refused(25, entry.line)


def page_range(chapter: int) -> range:
    """Give the addresses of a chapter's PAGE lines: all of it, or $4800-$4FFF (01, What a CFG may say)."""
    return range(256 * flippable(chapter)[0], 4096 * chapter + 4096)


def shape_allowed(entry: Entry) -> bool:
    """Tell whether a line's start and length are of its kind (01, What a CFG may say)."""
    if entry.page is None:
        return entry.address % 256 == 0 and entry.count % 256 == 0
    whole = page_range(entry.chapter)
    return entry.chapter in PAGED and (entry.address, entry.count) == (whole[0], len(whole))


def check_shape(entry: Entry) -> None:
    """Ask 26 of a line (01, refusal 26; READINGS C15)."""
    last = entry.address + entry.count - 1
    touches = any(entry.address <= end and first <= last for first, end in SILENT)
    if touches or not shape_allowed(entry):
        raise Refused(26, entry.line)


def shares(entry: Entry, earlier: Entry) -> bool:
    """Tell whether two lines share a plain word, or chapter and page (01, refusal 27)."""
    if entry.page is None and earlier.page is None:
        return entry.holds(earlier.address) or earlier.holds(entry.address)
    paged = entry.page is not None and entry.page == earlier.page
    return paged and entry.chapter == earlier.chapter


def lines_sharing(entries: Sequence[Entry]) -> Iterator[int]:
    """Give the lines that share with an earlier one, in order (01, refusal 27; READINGS C16)."""
    for which, entry in enumerate(entries):
        if any(shares(entry, earlier) for earlier in entries[:which]):
            yield entry.line


def check_shared(entries: Sequence[Entry]) -> None:
    """Ask 27 (01, refusal 27)."""
    for line in lines_sharing(entries):
        raise Refused(27, line)


def paragraphs_of(entry: Entry) -> range:
    """Give the console paragraphs of a line (01, The machine)."""
    return range(entry.address >> 8, (entry.address + entry.count) >> 8)


def plain_kinds(entries: Sequence[Entry]) -> dict[int, str]:
    """Give the kind of each paragraph that a plain line fills (01, What a CFG may say)."""
    return {p: entry.kind for entry in entries if entry.page is None for p in paragraphs_of(entry)}


def paged_chapters(entries: Sequence[Entry]) -> list[int]:
    """Give the chapters with PAGE lines, rising (01, What a CFG may say)."""
    return sorted({entry.chapter for entry in entries if entry.page is not None})


def chapters_broken(entries: Sequence[Entry]) -> Iterator[int]:
    """Give the paged chapters whose plain lines break the rule, rising (01, refusal 28; READINGS C17)."""
    kinds = plain_kinds(entries)
    for chapter in paged_chapters(entries):
        here = {kinds.get(paragraph) for paragraph in flippable(chapter)}
        if here != {"rom"} and here != {None}:
            yield chapter


def check_paged_chapters(entries: Sequence[Entry]) -> None:
    """Ask 28 (01, refusal 28)."""
    for chapter in chapters_broken(entries):
        raise Refused(28, chapter)


def lay_out(entries: Sequence[Entry]) -> Layout:
    """Number the Locutus pages; page none stands for plain lines (01, How an image is laid out)."""
    plain = {(paragraph >> 4, -1) for paragraph in plain_kinds(entries)}
    paged = {(entry.chapter, entry.page) for entry in entries if entry.page is not None}
    order = sorted(plain | paged)
    return {(chapter, None if page == -1 else page): number
            for number, (chapter, page) in enumerate(order)}


def words_needed(entries: Sequence[Entry]) -> int:
    """Count 4,096 words for each Locutus page (01, How an image is laid out; 02, W-210)."""
    return 4096 * len(lay_out(entries))


def check_pages(entries: Sequence[Entry]) -> None:
    """Ask 20 (02, W-210)."""
    if words_needed(entries) > LOCUTUS_WORDS:
        raise Refused(20, 0)


def flip_entry(chapter: int, page: int, layout: Layout, kinds: dict[int, str]) -> int:
    """Give the flip entry of a paged chapter's page (01, Permissions; READINGS B1)."""
    number = layout.get((chapter, page))
    if number is None and kinds.get(flippable(chapter)[0]) == "rom":
        number = layout[(chapter, None)]
    return PFE if number is None else 16 * number + PFE + READ


def make_tables(entries: Sequence[Entry], layout: Layout) -> Tables:
    """Fill the three tables (01, Permissions; READINGS B2)."""
    tables, kinds = Tables(), plain_kinds(entries)
    for paragraph, kind in kinds.items():
        number = layout[(paragraph >> 4, None)]
        tables.mapping[paragraph] = 16 * number + paragraph % 16
        tables.permissions[paragraph] = PERMISSIONS[kind]
    for chapter in paged_chapters(entries):
        row = [flip_entry(chapter, page, layout, kinds) for page in range(16)]
        tables.flips[16 * chapter:16 * chapter + 16] = row
        for paragraph in flippable(chapter):
            tables.mapping[paragraph], tables.permissions[paragraph] = flipped(row[0], paragraph % 16)
    return tables


def locutus_paragraphs(entry: Entry, layout: Layout) -> list[int]:
    """Give the Locutus paragraphs of a line (01, How an image is laid out)."""
    return [16 * layout[(p >> 4, entry.page)] + p % 16 for p in paragraphs_of(entry)]


def entry_hunks(entry: Entry, layout: Layout, bin_file: bytes) -> list[tuple[int, list[int]]]:
    """Give Locutus paragraph and words of each paragraph of a line (01, How an image is laid out)."""
    words = [0] * entry.count if entry.kind != "rom" else bin_words(bin_file[2 * entry.lo:2 * entry.hi + 2])
    return [(p, words[256 * n:256 * n + 256]) for n, p in enumerate(locutus_paragraphs(entry, layout))]


def checked_entries(bin_file: bytes, cfg: bytes) -> tuple[Entry, ...]:
    """Give the entries of a title that 21 to 28 and 20 let through (01, Build order; 02, W-210; READINGS C13)."""
    check_bin(bin_file)
    entries = read_cfg(cfg)
    for entry in entries:
        check_range(entry, len(bin_file) // 2)
        check_shape(entry)
    check_shared(entries)
    check_paged_chapters(entries)
    check_pages(entries)
    return tuple(entries)


@lru_cache(maxsize=2)
def make_image(bin_file: bytes, cfg: bytes, entries: tuple[Entry, ...], label: bytes = b"") -> bytes:
    """Compose the image of checked entries (01, Header; READINGS B3, B6); kept, for the length is asked first."""
    layout = lay_out(entries)
    uid = crc32(bin_file).to_bytes(4, "little") + crc32(cfg).to_bytes(4, "little")
    hunks = [hunk for entry in entries for hunk in entry_hunks(entry, layout, bin_file)]
    return compose(FLAGS, uid, make_tables(entries, layout), sorted(hunks), label)


def build(bin_file: bytes, cfg: bytes, buffer: bytearray, label: bytes = b"") -> Built:
    """Build a title into the buffer, or answer number and place (01, Build order; 02, W-204, W-210)."""
    try:
        entries = checked_entries(bin_file, cfg)
        check_label(label)
        image = make_image(bin_file, cfg, entries, label)
        return Built(0, 0, put(image, buffer), words_needed(entries))
    except Refused as refused:
        return Built(refused.number, refused.place, refused.length)
