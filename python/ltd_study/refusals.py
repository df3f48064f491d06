"""The engine's refusals: their numbers and their words."""

from typing import Dict, Optional

WORDS: Dict[int, str] = {
    1: "window",
    2: "date",
    3: "status",
    4: "sequence",
    5: "short elimination",
    6: "rate table",
    7: "cell",
    8: "rate",
    9: "full",
    10: "short list",
    11: "block",
    12: "valuation",
    13: "discount",
    14: "too many records",
    15: "other window",
    16: "benefit",
    17: "open claims",
    18: "withdrawal",
    19: "no count",
    20: "load",
}
"""The word of each number: 1 to 13 are document 01's, 14 to 20 document 02's."""

BAD_FORM = 255
"""What a call answers of a lent list that has not the length or form asked for."""


class Refused(ValueError):
    """What the engine refused, under its number and word.

    ``block`` and ``place`` say where in a claim file; a place of 0 is the block itself, and both are None outside a file.
    """

    def __init__(self, number: int, block: Optional[int] = None, place: Optional[int] = None) -> None:
        self.number = number
        self.word = WORDS[number]
        self.block = block
        self.place = place
        super().__init__(f"refused {number} ({self.word}){self.where}")

    @property
    def where(self) -> str:
        """' at block 1, place 2' for a refusal in a file, else nothing."""
        if self.block is None:
            return ""
        return f" at block {self.block}" + (f", place {self.place}" if self.place else "")


def must_be_taken(answer: int) -> None:
    """Raises what an answer other than 0 says."""
    if answer == BAD_FORM:
        raise ValueError("a list lent to the engine has not the length or form that its call asks for")
    if answer != 0:
        raise Refused(answer)


def taken(answer: int) -> int:
    """The value of an answer of 64 bits, or its refusal raised."""
    if answer >> 32:
        must_be_taken(answer - (1 << 32))
    return answer
