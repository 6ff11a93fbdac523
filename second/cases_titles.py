"""Cases on titles: the families cfg, build and bus (RECORDS.md, Families)."""

import re
from pathlib import Path
from typing import Iterator

from access_lists import random_accesses
from builder import build, checked_entries, lay_out, locutus_paragraphs
from cases_metadata import label_of, random_records
from cases_write import random_paragraph
from families import Case, build_record, bus_record
from generator import Generator
from subrecords import spell
from titles import BAD_LINES, Title, ram_line, random_title, spoil_title
from words import be16

BUFFER_SEED = 17


def ram_lines(count: int) -> str:
    """Give so many RAM entries, one a paragraph, from $5000 on (READINGS C12)."""
    return "".join(ram_line(p) + "|" for p in range(0x50, 0x50 + count))


def page_lines(count: int) -> str:
    """Give so many PAGE entries, from $5000 PAGE 0 on (READINGS B3, B8)."""
    return "|".join(f"${n:X}-${n + 4095:X}=${5 + n // 16:X}000 PAGE {n % 16:X}" for n in range(count))


def cfg_edges() -> Iterator[tuple[str, Title]]:
    """Read the edges of cfg_edges.txt (READINGS C1 to C19, B1 to B8)."""
    lines = (Path(__file__).parent / "cfg_edges.txt").read_text().split("\n")
    for line in lines[1:-1]:
        name, words, text = line.split(" / ", 2)
        text = re.sub("@ram([0-9]+)@", lambda match: ram_lines(int(match[1])), text)
        text = re.sub("@pages([0-9]+)@", lambda match: page_lines(int(match[1])), text)
        cfg = text.replace("|", "\n").encode().decode("unicode_escape").encode("latin-1")
        yield name, Title(2 * int(words), 1 + int(words) % 7, cfg)


def size_edges() -> Iterator[tuple[str, Title]]:
    """Give the limits of BIN and CFG, and 21 before 22 (01, refusals 21 and 22; READINGS C1)."""
    good = b"[mapping]\n$0-$FF=$5000\n"
    for length in (16_383, 16_384, 16_385, 20_000):
        for end in (b"", b"\x80", b"x"):
            cfg = good.ljust(length - len(end)) + end
            yield f"C1 {length} bytes, ends {end!r}", Title(512, 3, cfg)
    for length in (0, 1, 2, 510, 511, 512, 513, 524_287, 524_288, 524_289, 524_290):
        for cfg in (good, b"\x00", b"x", b""):
            yield f"21 BIN of {length} bytes, CFG {cfg[:2]!r}", Title(length, 3, cfg)


def image_length(title: Title) -> int:
    """Give the length of a title's image, 0 if 21 to 28 refuse it (01, refusal 29)."""
    return build(title.bin_file(), title.cfg, bytearray(), title.label).length


def cfg_cases(g: Generator) -> Iterator[Case]:
    """Give every edge, every bad line in both sections, and random 22, 23 and 24."""
    for edges in (cfg_edges(), size_edges()):
        for name, title in edges:
            yield (name, *build_record(title, (image_length(title), BUFFER_SEED)))
    for line in BAD_LINES:
        for section in ("mapping", "memattr"):
            cfg = f"[mapping]\n$0-$FF=$7000\n[{section}]\n{line}\n$0-$FF=$7000\n"
            yield (f"C5 {line}", *build_record(Title(8192, 3, cfg.encode()), (2000, BUFFER_SEED)))
    for _ in range(400):
        title = random_title(g, 2)
        numbers = g.pick([[22], [23], [23], [24], [22, 23], [23, 24], [22, 24], [22, 23, 24]])
        spoil_title(g, title, numbers)
        yield (f"faults {numbers}", *build_record(title, (g.pick([0, 100]), BUFFER_SEED)))


def form_edges(g: Generator) -> Iterator[tuple[str, Title]]:
    """Give BINs whose data blocks take each form, by single words and at random (02, W-207)."""
    cfg = b"[mapping]\n$0-$1FF=$5000\n"
    for word in (0x00FF, 0x0100, 0x03FF, 0x0400):
        for place in (0, 60, 61, 247, 248, 254, 255, 256):
            data = bytearray(1024)
            data[2 * place:2 * place + 2] = be16([word])
            yield f"W207-1 word {word:#06x} at {place}", Title(1024, 0, cfg, 0, bytes(data))
    for base in (0, 1, 3, 4, 0xFF):
        with_ram = cfg + b"[memattr]\n$7000-$70FF=RAM 8\n"
        yield f"W207-1 all words {base:02X}{base:02X}", Title(1024, 0, with_ram, base)
    for _ in range(40):
        data = be16(random_paragraph(g) + random_paragraph(g))
        yield "W207 random forms", Title(1024, 0, cfg, 0, data)


def label_edges() -> Iterator[tuple[str, Title]]:
    """Give labels at their edges, and 12 between 20 and 29 (02, W-204; READINGS W204-18 to W204-22)."""
    cfg, text = b"[mapping]\n$0-$FF=$5000\n", spell([(0, b"Name"), (2, b"Ann"), (2, b""), (0x77, b"?")])
    pages = f"[mapping]\n{page_lines(128)}|[memattr]|$500-$5FF=RAM 8|".replace("|", "\n").encode()
    over = f"[mapping]\n{page_lines(127)}|[memattr]|$E000-$FFFF=RAM 8|".replace("|", "\n").encode()
    for size in range(len(text) + 1):
        yield f"W204-19 a label's first {size} bytes", Title(512, 3, cfg, label=text[:size])
    for size in (65_534, 65_535, 65_536):
        yield f"W204-18 a label of {size} bytes", Title(512, 3, cfg, label=label_of(size))
    for cut in (text, text[:1]):
        yield "W204-19 25 before 12", Title(510, 3, cfg, label=cut)
        yield "W204-19 28 before 12", Title(8192, 3, cfg + b"$0-$FFF=$5000 PAGE 1\n", label=cut)
        yield "W204-19 24 before 12", Title(8192, 3, pages, label=cut)
        yield "W204-19 20 before 12", Title(98_304, 3, over, label=cut)
    for base in (b"[memattr]\n$5000-$50FF=RAM 8\n", b"[mapping]\n$0-$FFF=$C000 PAGE 2\n"):
        yield "W204-20 the block stands after the tables", Title(8192, 3, base, label=text)


def build_cases(g: Generator) -> Iterator[Case]:
    """Give random titles: good ones, short buffers, one fault, several faults (01, Build order)."""
    for name, title in form_edges(g):
        length = image_length(title)
        yield (name, *build_record(title, (length - g.below(2), BUFFER_SEED)))
    for name, title in label_edges():
        length = image_length(title)
        for buffer in (length, length - 1) if length else (0,):
            yield (name, *build_record(title, (buffer, BUFFER_SEED)))
    for which in range(1000):
        title = random_title(g, 14 if which % 40 == 0 else g.pick([1, 2, 3]))
        numbers = [g.pick([21, 25, 25, 26, 26, 27, 27, 28, 28]) for _ in range(g.pick([0, 0, 1, 1, 2, 3]))]
        if numbers and g.one_in(6):
            numbers.append(g.between(22, 24))
        if numbers:
            spoil_title(g, title, numbers)
        if g.one_in(4):
            title.label = random_records(g, 4)[:-1 if g.one_in(4) else None]
        length = image_length(title)
        spare = g.pick([-length, -1, -g.below(length + 1), 0, 0, 1, 300])
        yield (f"faults {sorted(numbers)}", *build_record(title, (max(length + spare, 0), BUFFER_SEED)))


def bus_case(g: Generator, title: Title, count: int) -> Case:
    """Play a built title as the plain cartridge and as the machine (01, The plain cartridge)."""
    entries = checked_entries(title.bin_file(), title.cfg)
    layout = lay_out(entries)
    last = max(p for entry in entries for p in locutus_paragraphs(entry, layout))
    ram_length = g.pick([256 * last + 256, 4096 * len(layout), 4096 * len(layout) + g.below(300)])
    accesses = random_accesses(g, [entry.chapter for entry in entries], count)
    return (f"{len(layout)} pages", *bus_record(title, (ram_length, g.between(1, 9)), accesses))


def bus_cases(g: Generator) -> Iterator[Case]:
    """Give every edge that builds, then random titles (01, The plain cartridge)."""
    for name, title in cfg_edges():
        if image_length(title):
            yield (name, *bus_case(g, title, 60)[1:])
    for which in range(250):
        yield bus_case(g, random_title(g, 14 if which % 10 == 0 else 3), 200)
