"""The three tables of block type 0x01 (01, File layout)."""

from dataclasses import dataclass, field

from words import le16, words_of

TABLES_SIZE = 1280
READ, WRITE, NARROW, BANKSW = 1, 2, 4, 8
PFE = 8


def zeros() -> list[int]:
    """Give 256 entries of 0 (01, Numbers that come back: all else zero)."""
    return [0] * 256


@dataclass
class Tables:
    """Mapping by paragraph, permissions by paragraph, flips by chapter and page (01)."""

    mapping: list[int] = field(default_factory=zeros)
    permissions: list[int] = field(default_factory=zeros)
    flips: list[int] = field(default_factory=zeros)

    def readable(self) -> int:
        """Count the paragraphs with READ (02, W-211; READINGS W211-1)."""
        return sum(permissions & READ for permissions in self.permissions)

    def payload(self) -> bytes:
        """Lay the tables out as type 0x01 has them (01, File layout)."""
        return le16(self.mapping) + bytes(self.permissions) + le16(self.flips)


def read_tables(payload: bytes) -> Tables:
    """Read the 1,280 bytes of type 0x01 (01, File layout)."""
    return Tables(words_of(payload[:512]), list(payload[512:768]), words_of(payload[768:]))
