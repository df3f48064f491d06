"""A claim and its record, the 32 bytes of the claim file."""

import struct
from dataclasses import dataclass, fields
from typing import Callable, Dict, Union

from .dates import DateLike, RecordDate, is_missing, number_of, of_number, record_date
from .library import fits

RECORD = struct.Struct("<IIIIIBBHB7x")
RECORD_LENGTH = RECORD.size

STATUS_WORDS: Dict[int, str] = {0: "open", 1: "closed"}
CODE_WORDS: Dict[int, str] = {0: "none", 1: "recovery", 2: "death", 3: "settlement", 4: "max-out", 5: "limit", 6: "definition"}
"""6 is a closing at the change of definition; its category is recovery."""

STATUS_NUMBERS: Dict[str, int] = {word: number for number, word in STATUS_WORDS.items()}
CODE_NUMBERS: Dict[str, int] = {word: number for number, word in CODE_WORDS.items()}


@dataclass(frozen=True)
class Claim:
    """A claim, sound or not: whether a study takes it is the engine's to say.

    number       claim number; with corrections on, the last record of a number counts
    disability   date of disability
    bcd          benefit commencement date
    termination  termination date, None in an open claim
    maximum      claim maximum date, None if it isn't known
    status       0 open, 1 closed
    code         0 none, 1 recovery, 2 death, 3 settlement, 4 max-out, 5 limit, 6 definition
    cell         picks the rates
    benefit      monthly benefit in hundreds of dollars, 1 to 200; 0 weighs as 1

    Dates may be given as ISO text or timestamps, status and code as words; NaT, NaN and None are no date, and no code:

    >>> Claim(17, "2009-03-13", "2009-06-11", "2012-04-29", status="closed", code="recovery").termination
    datetime.date(2012, 4, 29)
    """

    number: int
    disability: DateLike
    bcd: DateLike
    termination: DateLike = None
    maximum: DateLike = None
    status: Union[int, str] = 0
    code: Union[int, str] = 0
    cell: int = 0
    benefit: int = 0

    def __post_init__(self) -> None:
        for name, read in READERS.items():
            given = getattr(self, name)
            found = read(given)
            if found is not given:
                object.__setattr__(self, name, found)

    @property
    def record(self) -> bytes:
        """The claim's 32 bytes."""
        dates = (number_of(when) for when in (self.disability, self.bcd, self.termination, self.maximum))
        return RECORD.pack(self.number, *dates, self.status, self.code, self.cell, self.benefit)

    @classmethod
    def of_record(cls, record: bytes) -> "Claim":
        """The claim of 32 bytes; bytes 25 to 31 are not read."""
        number, disability, bcd, termination, maximum, status, code, cell, benefit = RECORD.unpack(record)
        dates = (of_number(when) for when in (disability, bcd, termination, maximum))
        return cls(number, *dates, status, code, cell, benefit)

    @property
    def status_word(self) -> str:
        """The status in a word, or its number where it has none."""
        return STATUS_WORDS.get(int(self.status), str(self.status))

    @property
    def code_word(self) -> str:
        """The code in a word, or its number where it has none."""
        return CODE_WORDS.get(int(self.code), str(self.code))


COLUMNS = tuple(field.name for field in fields(Claim))
"""number, disability, bcd, termination, maximum, status, code, cell, benefit: as in the claim's CSV."""

BITS: Dict[str, int] = {"number": 32, "status": 8, "code": 8, "cell": 16, "benefit": 8}
"""Of each field that is no date."""


def _date_reader(name: str) -> Callable[[object], RecordDate]:
    def read(when: object) -> RecordDate:
        try:
            return record_date(when)
        except ValueError as error:
            raise ValueError(f"{name}: {error}") from None

    return read


def _number_reader(name: str) -> Callable[[object], int]:
    return lambda value: fits(name, value, BITS[name])  # type: ignore[arg-type]


def _status(value: object) -> int:
    return _worded("status", value, STATUS_NUMBERS)


def _code(value: object) -> int:
    return 0 if is_missing(value) else _worded("code", value, CODE_NUMBERS)


def _worded(name: str, value: object, numbers: Dict[str, int]) -> int:
    if not isinstance(value, str):
        return fits(name, value, BITS[name])  # type: ignore[arg-type]
    if value not in numbers:
        raise ValueError(f"{name} '{value}' is none of {', '.join(numbers)}")
    return numbers[value]


READERS: Dict[str, Callable[[object], object]] = {
    **{name: _date_reader(name) for name in ("disability", "bcd", "termination", "maximum")},
    **{name: _number_reader(name) for name in ("number", "cell", "benefit")},
    "status": _status,
    "code": _code,
}
"""What a field is, however it was given. Each raises ValueError with the field's name."""


def record_of(claim: Union[Claim, bytes]) -> bytes:
    """The record of a claim, which may be given as its bytes."""
    return claim.record if isinstance(claim, Claim) else bytes(claim)
