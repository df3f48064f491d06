"""The months of exposure of one claim."""

import ctypes
from array import array
from datetime import date
from typing import Iterable, List, NamedTuple, Union

from .claim import CODE_WORDS, Claim, record_of
from .dates import DateLike, number_of, of_day_number
from .library import calls
from .refusals import Refused, taken

MOST_MONTHS = 1800
"""A claim has no more month records; claim month 1,801 would start after 2099."""

_WINDOW_REFUSED = 1
_NUMBERS = 6
_BUFFER = (ctypes.c_int32 * (_NUMBERS * MOST_MONTHS))


class MonthRecord(NamedTuple):
    """The part of a claim month that lies in the window.

    duration    in months since disability
    first       first day of the part
    last        its last day
    thirtieths  exposure; -1 in a month of 28 days that was cut the day before the claim closed in it
    month       year × 12 + month - 1 of the first day
    category    0, but in the closing month 1 recovery, 2 death, 3 settlement, 4 max-out, 5 limit
    """

    duration: int
    first: date
    last: date
    thirtieths: int
    month: int
    category: int

    @property
    def category_word(self) -> str:
        """The category in a word, empty for 0."""
        return CODE_WORDS[self.category] if self.category else ""


def listing(claim: Union[Claim, bytes], first: DateLike, last: DateLike) -> List[MonthRecord]:
    """The month records of a claim in the window first..last. Refused under 1 to 5 or 16.

    >>> claim = Claim(1, "2010-11-12", "2011-02-10", "2011-02-16", status="closed", code="settlement")
    >>> [month.thirtieths for month in listing(claim, "2011-02-16", "2011-12-31")]
    [-1]
    """
    record = record_of(claim)
    numbers = _BUFFER()
    count = taken(calls().ltd_listing(number_of(first), number_of(last), record, len(record), numbers, len(numbers)))
    rows = (numbers[i : i + _NUMBERS] for i in range(0, count * _NUMBERS, _NUMBERS))
    return [MonthRecord(row[0], of_day_number(row[1]), of_day_number(row[2]), *row[3:]) for row in rows]


class Listings(NamedTuple):
    """The month records of many claims, as columns that a data frame takes: one value for each month record, claim by claim.

    refused     of each claim, not of each month: 0, or the number refused, and it has no months here
    claim       the claim's row, from 0
    first_day   first day of the part, in days since 1950-01-01
    last_day    its last day, likewise; first and last have both as dates
    duration    and the others as in MonthRecord
    """

    refused: "array[int]"
    claim: "array[int]"
    duration: "array[int]"
    first_day: "array[int]"
    last_day: "array[int]"
    thirtieths: "array[int]"
    month: "array[int]"
    category: "array[int]"

    @property
    def first(self) -> List[date]:
        """The first days as dates."""
        return _dates(self.first_day)

    @property
    def last(self) -> List[date]:
        """The last days as dates."""
        return _dates(self.last_day)


def listings(claims: Iterable[Union[Claim, bytes]], first: DateLike, last: DateLike) -> Listings:
    """The month records of all claims in the window first..last, past those that are refused. Refused under 1.

    >>> claims = [Claim(1, "2010-11-12", "2011-02-10", "2011-02-16", status="closed", code="settlement"), Claim(2, "2011-01-10", "2011-04-10")]
    >>> found = listings(claims, "2011-01-01", "2011-05-31")
    >>> list(found.claim), list(found.thirtieths)
    ([0, 1, 1], [7, 30, 21])
    """
    window = number_of(first), number_of(last)
    buffer = _BUFFER()
    call, length, written = calls().ltd_listing, len(buffer), memoryview(buffer).cast("B")
    refused, rows, numbers = array("B"), array("I"), array("i")
    for row, claim in enumerate(claims):
        record = record_of(claim)
        try:
            count = taken(call(*window, record, len(record), buffer, length))
        except Refused as error:
            if error.number == _WINDOW_REFUSED:
                raise
            refused.append(error.number)
            continue
        refused.append(0)
        rows.extend([row] * count)
        numbers.frombytes(written[: count * _NUMBERS * numbers.itemsize])
    return Listings(refused, rows, *(numbers[place::_NUMBERS] for place in range(_NUMBERS)))


def _dates(numbers: "array[int]") -> List[date]:
    """Day numbers as dates, each made once."""
    days = {number: of_day_number(number) for number in set(numbers)}
    return [days[number] for number in numbers]
