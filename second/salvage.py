"""Salvage of a damaged image: python3 salvage.py OUT < IMAGE (02, W-208)."""

import sys
from dataclasses import dataclass, field
from pathlib import Path
from typing import Optional

from card import CARD_LIMIT
from load import (BLOCK_HEADER, DATA_HUNK, ENDED, HEADER, IMAGE_LIMIT, LOCUTUS_WORDS, TABLES, Block, blocks_of,
                  check_features, check_header, check_payload, check_tables_found, decode_hunk, take_tables)
from refusal import Refused, refusal_text
from writer import put


@dataclass
class Salvaged:
    """What a salvage answers (02, W-208)."""

    number: int = 0
    place: int = 0
    length: int = 0
    kept: int = 0
    stopped: Optional[int] = None
    dropped: list[int] = field(default_factory=list)


def blocks_before_stop(image: bytes) -> tuple[list[Block], Optional[int]]:
    """Give the blocks before the first that would give 5, and its place (READINGS W208-3)."""
    blocks = []
    try:
        for block in blocks_of(image):
            blocks.append(block)
    except Refused as five:
        return blocks, five.place
    return blocks, None


def is_left_out(block: Block) -> bool:
    """Tell whether a hunk gives 6 or 9 in a RAM of 524,288 words (02, W-208; READINGS W208-1)."""
    if block.kind != DATA_HUNK:
        return False
    try:
        check_payload(block)
        decode_hunk(block, LOCUTUS_WORDS)
    except Refused:
        return True
    return False


def salvaged(image: bytes) -> tuple[Salvaged, bytes]:
    """Judge the blocks in order, and give what is kept of the file (02, W-208; READINGS W208-1 to W208-6)."""
    check_header(image)
    answer, out, tables = Salvaged(), image[:HEADER], None
    blocks, answer.stopped = blocks_before_stop(image)
    for block in blocks:
        if is_left_out(block):
            answer.dropped.append(block.start)
            continue
        check_payload(block)
        if block.kind == TABLES:
            tables = take_tables(block, tables)
        answer.kept += 1
        out += image[block.start:block.start + BLOCK_HEADER + len(block.payload)]
    check_features(image[4:20], check_tables_found(tables, image), LOCUTUS_WORDS)
    return answer, out + (bytes([ENDED]) if len(out) < IMAGE_LIMIT else b"")


def salvage(image: bytes, buffer: bytearray) -> Salvaged:
    """Copy what is good into the buffer, or answer number and place (02, W-208; READINGS W208-11)."""
    try:
        answer, out = salvaged(image)
        answer.length = put(out, buffer)
        return answer
    except Refused as refused:
        return Salvaged(refused.number, refused.place, refused.length)


def program(image: bytes) -> tuple[str, bytes]:
    """Give what the program prints, and the file it writes (02, W-208; READINGS W208-7 to W208-10)."""
    buffer = bytearray(CARD_LIMIT + 1)
    answer = salvage(image, buffer) if len(image) <= CARD_LIMIT else Salvaged(30)
    if answer.number:
        return refusal_text(answer.number, answer.place), b""
    stopped = "none" if answer.stopped is None else answer.stopped
    lines = [f"kept={answer.kept}", f"dropped={len(answer.dropped)}", f"stopped={stopped}"]
    lines += [f"drop={place}" for place in answer.dropped]
    return "".join(line + "\n" for line in lines), bytes(buffer[:answer.length])


if __name__ == "__main__":
    text, saved = program(sys.stdin.buffer.read())
    if saved:
        Path(sys.argv[1]).write_bytes(saved)
    sys.stdout.write(text)
