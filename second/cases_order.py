"""Cases that only the order decides: each pair of refusals that can hold together, in each family (01, Load order)."""

from typing import Iterator

from cases_back import TitleImage, image_of, many_ram, pages, titled
from cases_titles import page_lines
from cases_write import marks_of
from conditions import CONDITIONS
from drafts import Draft, DraftBlock, bad_hunk, flag_bytes, jlp_bits, metadata_block, tables_block
from families import RECORDS, Case
from generator import Generator
from load import DATA_HUNK, IMAGE_LIMIT, JLP_WORDS, LOCUTUS_WORDS, TABLES
from orders import decided
from records import FlashFill
from tables import PFE, Tables
from titles import Title

EACH = 5
CUT_LABELS = [b"\x00", b"\x02\x05abcd", b"\x00\x01A\x03"]
Pair = tuple[str, str]


def case(family: str, pair: Pair, *inputs: object) -> Case:
    """Give a case in which the pair holds, its first as the answer."""
    found = [name for name, _ in CONDITIONS[family](*inputs)]
    if found[:1] != [pair[0]] or pair[1] not in found[1:]:
        raise SystemExit(f"{family}: {pair} was meant, {found[:5]} hold")
    return (f"order: {pair[0]} over {pair[1]}", *RECORDS[family](*inputs))


def block_with(g: Generator, fault: str, pair: Pair, words_lent: int, salvaged: bool) -> DraftBlock:
    """Make a block with one fault; at 6 a salvage is refused by tables alone (01, refusals 5 to 9; 02, W-208)."""
    if fault == "5":
        return DraftBlock(g.pick([0, 1, 2, 3, 0x42]), g.pick([b"", b"ab"]), 0, g.between(1, 255))
    if fault == "7":
        return DraftBlock(0, g.pick([b"", b"\x00", b"abc"]), spoil_payload=g.below(2))
    if fault == "6" and salvaged:
        return DraftBlock(TABLES, bytes(9 if "8 none" in pair else g.pick([9, 1280])), spoil_payload=1 << g.below(32))
    if fault == "6":
        return DraftBlock(DATA_HUNK, g.pick([bytes(3), b"", bytes(3) + b"\xFE"]), spoil_payload=1 << g.below(32))
    if fault == "12":
        return metadata_block(*g.pick([(b"\x00", 0), (b"\x02\x05abcd", 0), (b"\x02\x01a", 1), (b"", 7)]))
    if fault == "8":
        return DraftBlock(TABLES, bytes(1279 if "8 none" in pair else g.pick([0, 1279, 1280])))
    return bad_hunk(g, words_lent)


def flag_bits(g: Generator, pair: Pair, pfe: bool) -> int:
    """Give flag bits for 10, 11 and 13 (01, refusal 10; 02, W-206, W-209)."""
    bits = 1 << 32 if "10" in pair and not pfe else 0
    if "13" in pair:
        return bits | jlp_bits(g.between(2, 3), g.between(683, 1023))
    return bits | jlp_bits(g.pick([1, 1, 2, 3]) if "11" in pair else 0)


def too_long(image: bytes) -> bytes:
    """Lengthen an image to a byte past the limit (01, refusal 1; 02, W-210)."""
    return image + bytes(IMAGE_LIMIT + 1 - len(image))


def image_with(g: Generator, pair: Pair, words_lent: int, salvaged: bool = False) -> bytes:
    """Make an image with two faults, in the pair's order (01, File layout)."""
    tables, pfe = Tables(), "8 none" not in pair and g.one_in(2)
    if "10" in pair and pfe:
        tables.flips[16 + g.below(16)] = PFE
    blocks = [] if "8 none" in pair else [tables_block(tables)]
    blocks += [block_with(g, fault, pair, words_lent, salvaged) for fault in pair if fault in "5 7 6 12 8 9".split()]
    draft = Draft(blocks, flags=flag_bytes(flag_bits(g, pair, pfe)))
    draft.magic = g.pick([b"LTo", b"OTL"]) if "2" in pair else draft.magic
    draft.version = g.pick([0, 2, 255]) if "3" in pair else 1
    draft.spoil_header = g.between(1, 255) if "4" in pair else 0
    image = draft.encoded()
    if pair[0] == "1" and pair[1] in ("2", "3") and g.one_in(2):
        return image[:g.between(4, 31)]
    return too_long(image) if "1" in pair else image


def load_order_cases(g: Generator) -> Iterator[Case]:
    """Give each pair of a load (01, Load order)."""
    for pair in decided("load"):
        for _ in range(EACH):
            ram = JLP_WORDS if "13" in pair and "11" not in pair else g.pick([10, 300])
            yield case("load", pair, image_with(g, pair, ram), (ram, g.between(1, 9)), 0)


def card_order_cases(g: Generator) -> Iterator[Case]:
    """Give 30 over each refusal of a load (01, refusal 30)."""
    for pair in decided("card"):
        for _ in range(EACH):
            image = image_with(g, pair, 16_384)
            yield case("card", pair, image + bytes(max(24_577 + g.below(9) - len(image), 0)))


def salvage_order_cases(g: Generator) -> Iterator[Case]:
    """Give each pair of a salvage (02, W-208)."""
    for pair in decided("salvage"):
        for _ in range(EACH):
            image = image_with(g, pair, LOCUTUS_WORDS, True)
            yield case("salvage", pair, image, (g.pick([0, 1320]) if "29" in pair else 2000, 13))


def names_order_cases(g: Generator) -> Iterator[Case]:
    """Give each refusal of a load over the label's 12 (READINGS W204-15)."""
    for pair in decided("names"):
        for _ in range(EACH):
            image = image_with(g, (pair[0], ""), LOCUTUS_WORDS)
            yield case("names", pair, image, g.pick(CUT_LABELS), [(2, 1), (0, 0)])


def write_order_cases(g: Generator) -> Iterator[Case]:
    """Give each pair of the plain writer (READINGS LW-7)."""
    for pair in decided("write"):
        for _ in range(EACH):
            words = 73_599 if "11" in pair else 73_600
            head = flag_bytes(flag_bits(g, pair, False)) + bytes(8)
            marks = {g.below(9), 290, g.between(288, 2047)} if "9" in pair else {g.below(9)}
            buffer = g.pick([0, 1320]) if "29" in pair else 3000
            yield case("write", pair, head, bytes(1280), (words, 3), [], marks_of(marks), (buffer, 13))


LINES = {
    "23": ["$0-$FF=$5000 PAGE", "bogus", "$0-$FF=RAM 8"],
    "25": ["$20-$1F=$7000", "$100-$FF=$7000 PAGE 3"],
    "26": ["$0-$7F=$7000", "$0-$FF=$1000", "$0-$FE=$7000 PAGE 3"],
    "27": ["[memattr]|$500-$5FF=RAM 8|$500-$6FF=RAM 16|[mapping]", "$0-$FFF=$2000 PAGE 1|$1-$1000=$2000 PAGE 1"],
    "28": ["$0-$FFF=$2000 PAGE 1|$0-$FF=$2100", "$0-$FFF=$2000 PAGE 2|[memattr]|$2F00-$2FFF=RAM 8|[mapping]"],
    "20": ["$0-$BFFF=$4000|" + page_lines(117)],
}
MANY = "[memattr]|" + "$0-$0=RAM 8|" * 129 + "[mapping]"


def cfg_with(g: Generator, pair: Pair) -> bytes:
    """Spell a CFG with two faults, in the pair's order (01, Build order)."""
    lines = ["$0-$FF=$6000"] if "20" not in pair else []
    if pair == ("27", "27"):
        lines += [LINES["27"][0], LINES["27"][1]]
    elif pair == ("28", "28"):
        lines += [LINES["28"][0], "$0-$FFF=$7000 PAGE 1|$0-$FF=$7100"]
    else:
        lines += [g.pick(LINES[fault]) for fault in pair if fault in LINES]
    if "24" in pair:
        lines.append(page_lines(129) if "20" in pair else MANY)
    text = ("[mapping]|" + "|".join(lines) + "|").replace("|", "\n").encode()
    if "22" in pair:
        text += g.pick([b"; \x80\n", b"\x00", b";\r;\n"])
    return text + (b" " * (16_385 + g.below(99) - len(text)) if "22 length" in pair else b"")


def build_order_cases(g: Generator) -> Iterator[Case]:
    """Give each pair of a build (01, Build order; 02, W-204, W-210)."""
    for pair in decided("build"):
        for _ in range(EACH):
            words = 49_152 if "20" in pair else 4097
            length = g.pick([2 * words + 1, 524_289, 524_290]) if "21" in pair else 2 * words
            label = g.pick([*CUT_LABELS, bytes(65_536)]) if "12" in pair else b""
            title = Title(length, g.between(1, 9), cfg_with(g, pair), label=label)
            yield case("build", pair, title, (g.pick([0, 1320]) if "29" in pair else 2000, 17))


def label_order_cases(g: Generator) -> Iterator[Case]:
    """Give 12 over 29 (READINGS W204-23)."""
    for pair in decided("label"):
        for _ in range(EACH):
            yield case("label", pair, g.pick(CUT_LABELS), (g.below(9), 13))


def runs_order_cases(g: Generator) -> Iterator[Case]:
    """Give 33 over a later 33 and over 29 (02, W-214)."""
    image = Draft([tables_block(Tables())]).encoded()
    for pair in decided("runs"):
        for _ in range(EACH):
            good, bad = b"op=r addr=5000\n" * g.between(1, 9), g.pick([b"op=q\n", b"\n", b"op=r addr=500\n"])
            text = g.pick([good + bad, bad + good]) + (bad if pair[1] == "33" else b"")
            yield case("runs", pair, image, (16, 3), FlashFill(), text, g.below(9), 0 if pair[1] == "29" else 60)


def large_title() -> TitleImage:
    """Lay out 64 pages and a paragraph, whose BIN is too long (READINGS W213-10)."""
    text = "".join(pages(chapter, range(16)) for chapter in (5, 7, 9, 11))
    large = titled("[mapping]|" + text + "$0-$FF=$F000|")
    large.words = {paragraph: [0] * 256 for paragraph in large.words}
    return large


def title_with(pair: Pair, large: TitleImage) -> TitleImage:
    """Lay out a title that 31, 32 or neither refuses (02, W-213)."""
    if "32" in pair:
        return TitleImage(large.tables, large.words, 0)
    built = titled(many_ram(1, 0x70), 1)
    built.bits = 0
    if "31" in pair:
        built.tables.mapping[0] = 1
    return built


def spoilt_title(g: Generator, pair: Pair, large: TitleImage) -> bytes:
    """Write a title's image with a load's refusal, and 31, 32 or a short buffer after it (02, W-213)."""
    built, fault = title_with(pair, large), pair[0]
    if fault == "8 none":
        return Draft([]).encoded()
    if fault in ("10", "13"):
        built.bits = flag_bits(g, pair, False)
    if fault in ("5", "7", "6", "12", "8", "9"):
        built.blocks = [block_with(g, fault, pair, LOCUTUS_WORDS, False)]
    return image_of(built)


def with_header_fault(g: Generator, fault: str, image: bytes) -> bytes:
    """Put 1, 2, 3 or 4 into an image's header or length (01, refusals 1 to 4)."""
    if fault == "1":
        return too_long(image)
    spoilt = bytearray(image)
    spoilt[{"2": 0, "3": 3, "4": 31}[fault]] ^= 1 << g.below(8)
    return bytes(spoilt)


def back_order_cases(g: Generator) -> Iterator[Case]:
    """Give a load's refusals over 31, 32 and 29, and these over each other (02, W-213)."""
    large = large_title()
    for pair in decided("back"):
        for _ in range(1 if pair[1] == "32" else EACH):
            image = spoilt_title(g, pair, large)
            if pair[0] in ("1", "2", "3", "4"):
                image = with_header_fault(g, pair[0], image)
            buffers = [(g.below(2), 13), (g.below(9), 13)] if "29" in pair else [(524_291, 13), (3029, 13)]
            yield case("back", pair, image, *buffers)
