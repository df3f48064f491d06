"""Dates as people, the claim file and the engine write them.

The claim file's four bytes as one number are year + 65,536 × month + 16,777,216 × day; a day number counts from 1950-01-01.
"""

import re
from datetime import date, timedelta
from typing import NamedTuple, Optional, Union

FIRST = date(1950, 1, 1)
LAST = date(2099, 12, 31)
"""The engine's calendar goes from FIRST to LAST."""

MISSING = 0
_ISO = re.compile(r"\d{4}-\d{2}-\d{2}", re.ASCII)


class NoDate(NamedTuple):
    """A year, month and day of a record that make no date, as 2001-02-29; the engine refuses it under 2."""

    year: int
    month: int
    day: int

    def __str__(self) -> str:
        return f"{self.year:04}-{self.month:02}-{self.day:02}"


RecordDate = Union[date, NoDate, None]
"""What stands in a record: a date, no date, or None for a missing one."""

DateLike = Union[RecordDate, str]
"""The same, or an ISO date as text; an empty text is a missing date. Timestamps of pandas and numpy, NaT and NaN are taken too."""


def parsed(text: str) -> Optional[date]:
    """The date of an ISO text, None of an empty one. Raises ValueError with the reason."""
    if text == "":
        return None
    if not _ISO.fullmatch(text):
        raise ValueError(f"{text!r} is no date as 2011-02-28")
    try:
        return date.fromisoformat(text)
    except ValueError:
        raise ValueError(f"{text!r} is not in the calendar") from None


def is_missing(value: object) -> bool:
    """Whether a value is None, NaN, NaT or NA; all but None are known by not being equal to themselves."""
    if value is None:
        return True
    try:
        return bool(value != value)
    except TypeError:
        # NA of pandas is neither equal to itself nor not.
        return str(value) == "<NA>"


def record_date(when: object) -> RecordDate:
    """What a record has for a date in any form: a timestamp has its day, NaT and NaN are missing. Raises ValueError with the reason."""
    if type(when) is date or when is None or isinstance(when, NoDate):
        return when
    if isinstance(when, str):
        return parsed(when)
    if is_missing(when):
        return None
    # numpy's datetime64 has no year of its own.
    plain = when.astype("datetime64[D]").item() if getattr(getattr(when, "dtype", None), "kind", "") == "M" else when  # type: ignore[attr-defined]
    if not all(hasattr(plain, part) for part in ("year", "month", "day")):
        raise ValueError(f"{when!r} is no date, ISO text or None")
    return date(plain.year, plain.month, plain.day)


def number_of(when: DateLike) -> int:
    """A date as one number of 32 bits, 0 for a missing one."""
    when = record_date(when)
    if when is None:
        return MISSING
    if not (0 <= when.year <= 0xFFFF and 0 <= when.month <= 0xFF and 0 <= when.day <= 0xFF):
        raise ValueError(f"a record can't hold {tuple(when)}")  # type: ignore[arg-type]
    return when.year | when.month << 16 | when.day << 24


def of_number(number: int) -> RecordDate:
    """The date that stands in a record as this number; None for a missing one."""
    if number == MISSING:
        return None
    year, month, day = number & 0xFFFF, number >> 16 & 0xFF, number >> 24
    try:
        return date(year, month, day)
    except ValueError:
        return NoDate(year, month, day)


def iso(when: DateLike) -> str:
    """The ISO text, empty for a missing date."""
    return "" if when is None else str(when)


def day_number(when: date) -> int:
    """Days since 1950-01-01."""
    return (when - FIRST).days


def of_day_number(number: int) -> date:
    """The date of a day number."""
    return FIRST + timedelta(days=number)
