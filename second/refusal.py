"""A refusal: its number, its place, and the length at 29 (01, Numbers that come back)."""


class Refused(Exception):
    """Raised where a condition of 01's table or of 02 holds."""

    def __init__(self, number: int, place: int, length: int = 0) -> None:
        super().__init__(f"refusal {number} at {place}")
        self.number = number
        self.place = place
        self.length = length


def refusal_text(number: int, place: int) -> str:
    """Give what the programs print of a refusal (01, Bench cases; READINGS K1)."""
    return f"result=refused\ncode={number}\nat={place}\n"
