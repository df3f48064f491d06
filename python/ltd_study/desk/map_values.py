"""What a map says of an extract's texts: dates of a named format, words, dollars, cells of several columns, numbers that are none."""

import re
from datetime import date, timedelta
from typing import Callable, Dict, Iterable, Mapping, Tuple

from .. import dates
from .csv_rows import is_utf8, shown

_PARTS = {
    "YYYY": r"(?P<year>\d{4})",
    "MMM": r"(?P<word>[A-Za-z]{3})",
    "MM": r"(?P<month>\d{2})",
    "M": r"(?P<month>\d{1,2})",
    "DD": r"(?P<day>\d{2})",
    "D": r"(?P<day>\d{1,2})",
}
_MONTHS = ("jan", "feb", "mar", "apr", "may", "jun", "jul", "aug", "sep", "oct", "nov", "dec")
_PART = re.compile("YYYY|MMM|MM?|DD?")
_BETWEEN = re.compile(r"[-/. ,]*")
_AFTER = re.compile(r"[-/. ,]*(?:[T ]?[0:.]+)?")
_LONGEST_DATE = 40

EXCEL_DAYS = {"excel-1900": date(1899, 12, 30), "excel-1904": date(1904, 1, 1)}
"""The day that a serial number counts from. In the system of 1900 that holds from 1900-03-01 on: it has a 29 February 1900."""
_FIRST_SERIAL = {"excel-1900": 61, "excel-1904": 0}
_LAST_DAY = date(9999, 12, 31)

DATE_FORMATS = ("YYYY-MM-DD", "MM/DD/YYYY", "DD/MM/YYYY", "M/D/YYYY", "D/M/YYYY", "DD.MM.YYYY", "YYYYMMDD", "DD-MMM-YYYY", "DDMMMYYYY", *EXCEL_DAYS)
"""Those that are shown to a user; others of the same parts are taken too."""

HUNDRED = 100
_HIGHEST_BENEFIT = 255
_LONGEST_AMOUNT = 24


def date_pattern(form: str) -> "re.Pattern[str]":
    """The texts of a date format: YYYY, MM or M, DD or D, or MMM for jan to dec, with signs between. Raises ValueError with the reason."""
    parts = list(_PART.finditer(form))
    named = sorted(part[0][0] for part in parts)
    if re.search("(?<!Y)YY(?!Y)", form):
        raise ValueError(f"{shown(form)} has a year of two digits, and its century would be guessed; have the extract written with YYYY")
    if named != ["D", "M", "Y"]:
        raise ValueError(f"{shown(form)} is no date format: it has YYYY, MM or M or MMM, and DD or D once each, or is one of {', '.join(EXCEL_DAYS)}")
    pattern, end = "", 0
    for part in parts:
        between = form[end : part.start()]
        if not _BETWEEN.fullmatch(between) or (between and end == 0):
            raise ValueError(f"{shown(form)} is no date format: {shown(between)} stands in it")
        if not between and end and {"M", "D"} & {found[0] for found in parts}:
            raise ValueError(f"{shown(form)} is no date format: M and D, of one digit or two, need a sign between the parts")
        pattern += re.escape(between) + _PARTS[part[0]]
        end = part.end()
    if not _AFTER.fullmatch(form[end:]):
        raise ValueError(f"{shown(form)} is no date format: only a midnight as 00:00:00 may stand after the date")
    return re.compile(pattern + re.escape(form[end:]), re.ASCII)


class Dates(Dict[str, int]):
    """Texts of one date format, each read once; an empty one and those named are missing."""

    def __init__(self, form: str, missing: Iterable[str] = ()) -> None:
        super().__init__()
        self._form, self._missing = form, {"", *missing}
        self._read: Callable[[str], date] = self._serial if form in EXCEL_DAYS else self._text
        self._pattern = re.compile("") if form in EXCEL_DAYS else date_pattern(form)

    def __missing__(self, text: str) -> int:
        plain = text.strip()
        number = self[text] = dates.MISSING if plain in self._missing else dates.number_of(self._read(plain))
        return number

    def _text(self, plain: str) -> date:
        match = self._pattern.fullmatch(plain) if len(plain) <= _LONGEST_DATE else None
        parts = match.groupdict() if match else {}
        word = str(parts.get("word", "jan")).lower()
        if not parts or word not in _MONTHS:
            raise ValueError(f"{shown(plain)} is no date as {self._form}")
        month = parts.get("month", _MONTHS.index(word) + 1)
        try:
            return date(int(parts["year"]), int(month), int(parts["day"]))
        except ValueError:
            raise ValueError(f"{shown(plain)} is not in the calendar, as {self._form}") from None

    def _serial(self, plain: str) -> date:
        day = EXCEL_DAYS[self._form]
        last = (_LAST_DAY - day).days
        if not (plain.isascii() and plain.isdigit() and len(plain) <= len(str(last))):
            raise ValueError(f"{shown(plain)} is no serial number of a day, as {self._form}")
        if not _FIRST_SERIAL[self._form] <= int(plain) <= last:
            raise ValueError(f"{shown(plain)} is no serial number from {_FIRST_SERIAL[self._form]} to {last}, as {self._form}")
        return day + timedelta(days=int(plain))


class Words(Dict[str, int]):
    """The words of a map's table, and no others."""

    def __init__(self, table: str, words: Mapping[str, int]) -> None:
        super().__init__()
        self._table, self._words = table, words

    def __missing__(self, text: str) -> int:
        plain = text.strip()
        if plain not in self._words:
            words = f"is not in the map's [{self._table}], which has {', '.join(map(shown, self._words))}"
            raise ValueError(f"{shown(plain)} {words}" if plain else f"is empty, and the map's [{self._table}] has no \"\"")
        number = self[text] = self._words[plain]
        return number


class Cells(Dict[Tuple[str, ...], int]):
    """The cells of several columns' values, by the map's table."""

    def __init__(self, cells: Mapping[Tuple[str, ...], int]) -> None:
        super().__init__()
        self._cells = cells

    def __missing__(self, texts: Tuple[str, ...]) -> int:
        plain = tuple(text.strip() for text in texts)
        if plain not in self._cells:
            raise ValueError(f"{', '.join(map(shown, plain))} is in no row of the map's [cell]")
        number = self[texts] = self._cells[plain]
        return number


class TextNumbers:
    """Claim numbers that aren't numbers, numbered from 1 in the order they are first seen."""

    def __init__(self) -> None:
        self.originals: Dict[str, int] = {}

    def read(self, text: str) -> int:
        """The number of a text."""
        plain = text.strip()
        if not plain or not (plain.isascii() or is_utf8(plain)):
            raise ValueError("is empty" if not plain else f"{shown(text)} has bytes that can't be read")
        return self.originals.setdefault(plain, len(self.originals) + 1)


def _up(whole: int, left: int, unit: int) -> int:
    return whole + (left > 0)


def _down(whole: int, left: int, unit: int) -> int:
    return whole


def _half_up(whole: int, left: int, unit: int) -> int:
    return whole + (2 * left >= unit)


def _half_even(whole: int, left: int, unit: int) -> int:
    return whole + (2 * left > unit or (2 * left == unit and whole % 2))


def _exact(whole: int, left: int, unit: int) -> int:
    if left:
        raise ValueError("is no whole number of hundreds of dollars, and the map's rounding is 'none'")
    return whole


ROUNDINGS: Dict[str, Callable[[int, int, int], int]] = {
    "half-up": _half_up,
    "half-even": _half_even,
    "up": _up,
    "down": _down,
    "none": _exact,
}


class Dollars(Dict[str, int]):
    """Amounts in dollars as hundreds of them, by a named rounding, each read once; an empty one is 0."""

    def __init__(self, rounding: str, currency: str = "", thousands: str = "", decimal: str = ".") -> None:
        super().__init__()
        self._round = ROUNDINGS[rounding]
        self._thousands = thousands
        groups = rf"\d{{1,3}}(?:{re.escape(thousands)}\d{{3}})+|\d+" if thousands else r"\d+"
        sign = rf"(?:{re.escape(currency)}\s*)?" if currency else ""
        self._amount = re.compile(rf"{sign}({groups})(?:{re.escape(decimal)}(\d*))?", re.ASCII)

    def __missing__(self, text: str) -> int:
        plain = text.strip()
        number = self[text] = self._hundreds(plain) if plain else 0
        return number

    def _hundreds(self, plain: str) -> int:
        match = self._amount.fullmatch(plain) if len(plain) <= _LONGEST_AMOUNT else None
        if match is None:
            raise ValueError(f"{shown(plain)} is no amount of dollars as the map has it")
        part = match[2] or ""
        unit = HUNDRED * 10 ** len(part)
        digits = (match[1].replace(self._thousands, "") if self._thousands else match[1]) + part
        try:
            hundreds = self._round(*divmod(int(digits), unit), unit)
        except ValueError as error:
            raise ValueError(f"{shown(plain)} {error}") from None
        if hundreds > _HIGHEST_BENEFIT:
            raise ValueError(f"{shown(plain)} is over {_HIGHEST_BENEFIT} hundreds of dollars; a study takes 1 to 200")
        return hundreds
