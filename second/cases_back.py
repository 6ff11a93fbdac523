"""Cases on the way back to BIN and CFG: the family back (02, W-213; RECORDS.md, Families)."""

from dataclasses import dataclass, field
from typing import Iterator

import hunk
from back import back
from builder import checked_entries, entry_hunks, lay_out, make_tables, page_range
from drafts import Draft, DraftBlock, flag_bytes, hunk_block, jlp_bits, metadata_block, tables_block
from families import Case, back_record
from generator import Generator
from tables import PFE, Tables
from titles import Title, ram_line, random_title
from words import be16

COMPATIBLE = 0x0555


@dataclass
class TitleImage:
    """The tables of a title, its named paragraphs and its flag bits, to be spoilt and written (02, W-213)."""

    tables: Tables
    words: dict[int, list[int]]
    bits: int = COMPATIBLE
    blocks: list[DraftBlock] = field(default_factory=list)


def laid_out(title: Title) -> TitleImage:
    """Lay a title out as the builder does (01, How an image is laid out)."""
    entries = checked_entries(title.bin_file(), title.cfg)
    layout = lay_out(entries)
    words = dict(each for entry in entries for each in entry_hunks(entry, layout, title.bin_file()))
    return TitleImage(make_tables(entries, layout), words)


def packed(words: list[int]) -> bytes:
    """Pack words in long 10-bit data blocks where they fit, for short records (001, Data Hunk)."""
    data = b""
    for first in range(0, len(words), hunk.MOST_10):
        part = words[first:first + hunk.MOST_10]
        if max(part[:-1], default=0) <= 0x3FF:
            data += hunk.block_10(part)
        else:
            data += b"".join(hunk.smallest(part[n:n + 62]) for n in range(0, len(part), 62))
    return data


def hunks_of(words: dict[int, list[int]], most: int) -> list[DraftBlock]:
    """Write named paragraphs as hunks of up to so many paragraphs that lie together (READINGS W213-12)."""
    runs: list[tuple[int, list[int]]] = []
    for paragraph in sorted(words):
        if runs and runs[-1][0] + len(runs[-1][1]) // 256 == paragraph and len(runs[-1][1]) < 256 * most:
            runs[-1][1].extend(words[paragraph])
        else:
            runs.append((paragraph, list(words[paragraph])))
    return [hunk_block(256 * first, packed(run)) for first, run in runs]


def image_of(built: TitleImage, most: int = 120) -> bytes:
    """Write an image of tables and named paragraphs (01, File layout)."""
    blocks = [tables_block(built.tables), *built.blocks, *hunks_of(built.words, most)]
    return Draft(blocks, flags=flag_bytes(built.bits), uid=b"any UID ").encoded()


def titled(text: str, words: int = 4096) -> TitleImage:
    """Lay out CFG text over a BIN of zeros with some words in it (01, What a CFG may say)."""
    data = bytearray(2 * words)
    for place in range(0, words, 1009):
        data[2 * place:2 * place + 2] = be16([place * 7 % 1024])
    return laid_out(Title(2 * words, 0, text.replace("|", "\n").encode(), 0, bytes(data)))


def under(chapter: int) -> str:
    """Spell plain ROM over a chapter's flippable range (01, What a CFG may say)."""
    whole = page_range(chapter)
    return f"$0-${len(whole) - 1:X}=${whole[0]:X}"


def pages(chapter: int, which: range) -> str:
    """Spell PAGE lines of a chapter (01, What a CFG may say)."""
    return "".join(f"{under(chapter)} PAGE {page:X}|" for page in which)


def good_edges() -> Iterator[tuple[str, TitleImage]]:
    """Give titles at the readings' edges that come back (READINGS W213-4 to W213-9, W213-15)."""
    every, m, r = range(16), "[mapping]|", "[memattr]|"
    yield "W213-9 RAM alone", titled(r + "$5000-$50FF=RAM 8")
    yield "W213-5 three kinds side by side", titled(
        m + "$0-$FF=$5000|" + r + "$5100-$51FF=RAM 8|$5200-$52FF=RAM 16|" + m + "$0-$FF=$5300")
    yield "W213-5 a run across chapters", titled(m + "$0-$2FF=$4E00|" + r + "$6000-$80FF=RAM 16|")
    yield "W213-5 lines cut and out of order", titled(
        r + "$8100-$81FF=RAM 8|$8000-$80FF=RAM 8|" + m + "$100-$1FF=$7000|$0-$FF=$7100|")
    yield "W213-5 up to the silent ranges", titled(m + "$0-$AFF=$0500|$0-$FFF=$2000|$0-$FF=$4000|$0-$FF=$FF00|")
    yield "W213-3 last address", titled(r + "$FF00-$FFFF=RAM 16|$0500-$05FF=RAM 8|")
    for chapter in (2, 4, 5, 15):
        plain = under(chapter) + "|"
        yield f"W213-4 chapter {chapter}, pages 2 and A", titled(m + pages(chapter, range(2, 11, 8)))
        yield f"W213-4 chapter {chapter}, page 0 alone", titled(m + pages(chapter, range(1)))
        yield f"W213-4 chapter {chapter}, pages over plain words", titled(m + plain + pages(chapter, range(1, 3)))
        yield f"W213-4 chapter {chapter}, page 0 over plain words", titled(m + plain + pages(chapter, range(1)))
        if chapter not in (4, 5):
            continue
        yield f"W213-7 chapter {chapter}, sixteen pages", titled(m + pages(chapter, every))
        yield f"W213-7 chapter {chapter}, plain and pages 1 to F", titled(m + plain + pages(chapter, range(1, 16)))
        yield f"W213-6 chapter {chapter}, hidden", titled(m + plain + pages(chapter, every))
        yield f"W213-4 chapter {chapter}, fifteen pages, 0 to E", titled(m + pages(chapter, range(15)))
    for below in ("$0-$7FF=$4000|", "$0-$FF=$4300|", r + "$4000-$40FF=RAM 16|" + m):
        for plain in ("", under(4) + "|"):
            for which in (every, range(1, 16), range(3)):
                name = f"W213-6 chapter 4, {below[:9]} below, {bool(plain)} under, {len(which)} pages"
                yield name, titled(m + below + plain + pages(4, which))
    yield "W213-7 sixteen pages beside plain words", titled(m + "$0-$1FF=$4E00|$0-$FF=$6000|" + pages(5, every))
    yield "W213-7 two chapters of sixteen pages", titled(m + pages(5, every) + pages(6, every))
    yield "W213-8 the same words twice", titled(m + "$0-$FF=$5000|$0-$FF=$7000|$0-$FFF=$C000 PAGE 1|")


def many_ram(count: int, first: int) -> str:
    """Spell so many RAM lines that can't be joined (READINGS W213-15)."""
    return "[memattr]|" + "".join(ram_line(p, 16 if p % 2 else 8) + "|" for p in range(first, first + count))


def limit_edges() -> Iterator[tuple[str, TitleImage]]:
    """Give images at 128 lines and at the BIN's limit (READINGS W213-10, W213-15, W213-18)."""
    yield "W213-15 128 lines", titled(many_ram(128, 0x70))
    more = titled(many_ram(128, 0x70))
    more.tables.mapping[0xF0], more.tables.permissions[0xF0], more.words[8 * 16] = 8 * 16, 7, [0] * 256
    yield "W213-15 129 lines", more
    near = "[mapping]|$0-$1FFF=$5000|" + pages(5, range(1, 16))
    yield "W213-15 128 lines, 129 with PAGE 0", titled(near + many_ram(112, 0x80), 8192)
    full = "[mapping]|" + pages(5, range(16)) + pages(7, range(16)) + pages(9, range(16))
    yield "W213-15 64 pages, the largest BIN", titled(full + pages(11, range(16)))
    yield "W213-10 64 pages and a paragraph: 32", titled(full + pages(11, range(16)) + "$0-$FF=$F000|")
    yield "W213-10 64 pages and RAM", titled(full + pages(11, range(16)) + "[memattr]|$F000-$FFFF=RAM 8|")
    yield "W213-15 no line", TitleImage(Tables(), {})
    yield "W213-15 no line, but a word", TitleImage(Tables(), {0: [0] * 256})


def spoilt_tables(g: Generator, tables: Tables) -> None:
    """Change one entry of a table, often one that is used (READINGS W213-11)."""
    used = [p for p in range(256) if tables.permissions[p]] or [0]
    paragraph = g.pick([g.pick(used), g.below(256)])
    entry = g.pick([e for e in range(256) if tables.flips[e]] or [g.below(256)])
    choice = g.below(6)
    if choice == 0:
        tables.mapping[paragraph] ^= 1 << g.below(16)
    elif choice == 1:
        tables.permissions[paragraph] ^= 1 << g.below(8)
    elif choice == 2:
        tables.flips[entry] ^= g.pick([1, 2, 4, 8, 16, 32, 0x8000, 9])
    elif choice == 3:
        tables.flips[entry] = g.pick([0, 8, 9, 25, tables.flips[entry ^ 1]])
    elif choice == 4:
        tables.flips[g.below(256)] = g.pick([8, 9])
    else:
        tables.mapping[paragraph], tables.permissions[paragraph] = g.below(32), g.pick([0, 1, 3, 7])
    for page in range(16, 32):
        tables.flips[page] &= ~PFE


def spoilt_words(g: Generator, built: TitleImage) -> None:
    """Change which words are named, or a word of RAM (READINGS W213-12, W213-13)."""
    paragraph = g.pick(sorted(built.words) or [0])
    choice = g.below(5)
    if choice == 0:
        built.words.pop(paragraph, None)
    elif choice == 1:
        built.words[paragraph + g.pick([1, 2, 8, 16])] = [0] * 256
    elif choice == 2 and paragraph in built.words:
        built.words[paragraph] = built.words[paragraph][:g.pick([255, 0, 100])]
    elif choice == 3:
        built.blocks.append(hunk_block(256 * (paragraph + g.pick([0, 1, 16])) + g.pick([0, 255]), hunk.block_16([0])))
    elif paragraph in built.words:
        built.words[paragraph][g.below(len(built.words[paragraph]) or 1):] = [g.pick([0, 1, 0xFFFF])] * 3
        built.words[paragraph] = built.words[paragraph][:256]


def dressed(g: Generator, built: TitleImage) -> bytes:
    """Write an image with other blocks, cuts and order, and words named twice (READINGS W213-12, W213-14)."""
    built.bits = g.pick([COMPATIBLE, 0, 0xFFFF, jlp_bits(0, 1023, 5), COMPATIBLE | 0xFFFF << 48])
    hunks = hunks_of(built.words, g.pick([1, 7, 16, 120]))
    if hunks and g.one_in(2):
        hunks = [hunk_block(hunk.address_of(g.pick(hunks).payload), hunk.block_16([0xABCD]))] + hunks
    else:
        hunks = g.shuffled(hunks)
    others = [metadata_block(b"\x00\x01A"), DraftBlock(0x42, b"x", spoil_payload=1), hunk_block(0x7FFFF, b"")]
    blocks = [tables_block(built.tables)] + hunks + built.blocks
    for other in g.shuffled(others)[:g.below(4)]:
        blocks.insert(g.below(len(blocks) + 1), other)
    return Draft(blocks, flags=flag_bytes(built.bits), tail=g.pick([b"", b"\xFF", b"\xFF\x00"])).encoded()


def small_title(g: Generator) -> TitleImage:
    """Lay out a random title with few nonzero words (02, W-213)."""
    title = random_title(g, g.pick([1, 2, 3]))
    data = bytearray(title.bin_length)
    for _ in range(6):
        place = 2 * g.below(title.bin_length // 2)
        data[place:place + 2] = be16([g.pick([g.below(1024), g.below(65536)])])
    title.data = bytes(data)
    return laid_out(title)


def random_built(g: Generator) -> tuple[str, bytes]:
    """Make an image of a title, whole or spoilt (02, W-213)."""
    built, faults = small_title(g), g.pick([0, 0, 1, 1, 1, 2])
    while len(built.words) > 120:
        built = small_title(g)
    for _ in range(faults):
        if g.one_in(2):
            spoilt_tables(g, built.tables)
        else:
            spoilt_words(g, built)
    return f"random, {faults} faults", dressed(g, built)


def refused_edges() -> Iterator[tuple[str, bytes]]:
    """Give a load's refusals before 31, and JLP (READINGS W213-14, W213-19)."""
    built = titled("[mapping]|$0-$FF=$5000|")
    for jlp, size in ((0, 0), (0, 683), (1, 0), (1, 683), (2, 0), (2, 682), (2, 683), (3, 1), (3, 1023)):
        built.bits = jlp_bits(jlp, size)
        yield f"W213-14 W213-19 field {jlp}, size {size}", image_of(built)
    built.bits = COMPATIBLE | 1 << 32
    yield "W213-19 10", image_of(built)
    built.bits, built.blocks = COMPATIBLE, [metadata_block(b"\x00")]
    yield "W213-19 12", image_of(built)
    built.blocks = [hunk_block(0x80000, hunk.block_16([0]))]
    yield "W213-19 9", image_of(built)
    yield "W213-19 1", b""
    built.blocks = []
    built.words[0][255] = 0xFFFF
    yield "W213-8 big endian", image_of(built)
    for what in ("mapping", "permissions", "flips"):
        for entry in (0, 5, 16, 48, 80, 81, 255):
            spoilt = titled("[mapping]|$0-$FF=$5000|")
            getattr(spoilt.tables, what)[entry] ^= 16 if what != "permissions" else 8
            yield f"W213-11 {what} {entry} is another", image_of(spoilt)


def short_buffers(image: bytes) -> Iterator[Case]:
    """Give each way that a buffer may be short (READINGS W213-17)."""
    answer = back(image, bytearray(), bytearray())
    for spare in ((-1, 0), (0, -1), (-1, -1), (1, -1), (-answer.bin_length, 0), (0, -answer.cfg_length)):
        buffers = [(length + more, 13) for length, more in zip((answer.bin_length, answer.cfg_length), spare)]
        yield (f"W213-17 buffers of {buffers[0][0]} and {buffers[1][0]} bytes", *back_record(image, *buffers))


def back_cases(g: Generator) -> Iterator[Case]:
    """Give the edges, short buffers, then random images (02, W-213)."""
    images = [(name, image_of(built)) for edges in (good_edges(), limit_edges()) for name, built in edges]
    images += list(refused_edges()) + [random_built(g) for _ in range(120)]
    for name, image in images:
        answer = back(image, bytearray(), bytearray())
        spare = g.pick([(0, 0), (0, 0), (3, 5)])
        yield (name, *back_record(image, (answer.bin_length + spare[0], 13), (answer.cfg_length + spare[1], 13)))
    for text in ("[mapping]|$0-$FF=$5000|", "[memattr]|$5000-$50FF=RAM 8|",
                 "[mapping]|$0-$FFF=$C000 PAGE 2|[memattr]|$5000-$50FF=RAM 8|"):
        yield from short_buffers(image_of(titled(text)))
