"""Many claims at once, given as columns and held as their records."""

import sys
from array import array
from datetime import date
from typing import Dict, Iterable, Iterator, List, Optional

from .claim import BITS, CODE_NUMBERS, COLUMNS, READERS, RECORD_LENGTH, STATUS_NUMBERS, Claim
from .dates import number_of

Column = Optional[Iterable[object]]
"""A list, an array or a data frame's column; None where every claim has the field's usual value."""

_TYPES = {8: "B", 16: "H", 32: "I"}
_PLACES = {"number": 0, "disability": 4, "bcd": 8, "termination": 12, "maximum": 16, "status": 20, "code": 21, "cell": 22, "benefit": 24}
"""The byte of the record where each field starts."""
_WORDS = {"status": STATUS_NUMBERS, "code": CODE_NUMBERS}


class Claims:
    """Claims as columns: the fields of Claim, each for all claims, in lists, arrays or a data frame's columns; from status on by name.

    They are iterated as their records, which every call takes that takes claims: Study.add_all, write_claims, small_company.
    A column that isn't given has Claim's own default in every row. Raises ValueError with the row, from 0, and its reason.

    >>> claims = Claims([17, 18], ["2009-03-13", "2010-01-10"], ["2009-06-11", "2010-04-10"], termination=["2012-04-29", None],
    ...                 status=["closed", "open"], code=["recovery", None])
    >>> len(claims), claims.claim(0).termination
    (2, datetime.date(2012, 4, 29))
    """

    def __init__(
        self,
        number: Iterable[object],
        disability: Iterable[object],
        bcd: Iterable[object],
        termination: Column = None,
        maximum: Column = None,
        **others: Column,
    ) -> None:
        unknown = others.keys() - set(COLUMNS)
        if unknown:
            raise TypeError(f"Claims has no column {', '.join(sorted(unknown))}; it has {', '.join(COLUMNS)}")
        given = {**dict(zip(COLUMNS, (number, disability, bcd, termination, maximum))), **others}
        columns = {name: _values(name, column) for name, column in given.items() if column is not None}
        count = len(columns["number"])
        records = bytearray(RECORD_LENGTH * count)
        for name, values in columns.items():
            if len(values) != count:
                raise ValueError(f"{name} has {len(values):,} rows, where number has {count:,}")
            _put(records, name, _packed(name, values))
        self.data = bytes(records)

    @classmethod
    def of_records(cls, data: bytes) -> "Claims":
        """The claims of records that stand one after the other."""
        if len(data) % RECORD_LENGTH:
            raise ValueError(f"{len(data):,} bytes are no records of {RECORD_LENGTH}")
        claims = cls((), (), ())
        claims.data = bytes(data)
        return claims

    def __len__(self) -> int:
        return len(self.data) // RECORD_LENGTH

    def __iter__(self) -> Iterator[bytes]:
        for start in range(0, len(self.data), RECORD_LENGTH):
            yield self.data[start : start + RECORD_LENGTH]

    def claim(self, row: int) -> Claim:
        """The claim of a row, from 0."""
        if not 0 <= row < len(self):
            raise IndexError(f"there is no row {row}: there are {len(self):,} claims")
        return Claim.of_record(self.data[row * RECORD_LENGTH : (row + 1) * RECORD_LENGTH])

    def __eq__(self, other: object) -> bool:
        return self.data == other.data if isinstance(other, Claims) else NotImplemented

    def __repr__(self) -> str:
        return f"<Claims: {len(self):,}>"


class _DateNumbers(Dict[object, int]):
    """Dates in any form as the numbers of a record, each read once."""

    def __missing__(self, when: object) -> int:
        number = number_of(when)  # type: ignore[arg-type]
        # What isn't equal to itself is never found again.
        if when == when:
            self[when] = number
        return number


def _values(name: str, column: Iterable[object]) -> List[object]:
    """A column as a list; numpy and pandas know how to make one quickly."""
    if isinstance(column, (str, bytes)):
        raise ValueError(f"{name} must be a column of values, not the one value {column!r}")
    plain = column.to_numpy() if hasattr(column, "to_numpy") else column
    if getattr(getattr(plain, "dtype", None), "kind", "") == "M":
        # As a list, times would be numbers.
        plain = plain.astype("datetime64[D]")  # type: ignore[attr-defined]
    return plain.tolist() if hasattr(plain, "tolist") else list(plain)


def _packed(name: str, values: List[object]) -> "array[int]":
    """A column as a record holds it."""
    try:
        if name not in BITS:
            return _timestamps(values) if _are_timestamps(values) else array("I", map(_DateNumbers().__getitem__, values))
        if name in _WORDS and set(map(type, values)) == {str}:
            return array("B", bytes(map(_WORDS[name].__getitem__, values)))
        return array(_TYPES[BITS[name]], values)  # type: ignore[arg-type]
    except (KeyError, TypeError, ValueError, OverflowError):
        return _packed_one_by_one(name, values)


def _are_timestamps(values: List[object]) -> bool:
    kinds = set(map(type, values))
    return bool(kinds - {date}) and all(issubclass(kind, date) for kind in kinds)


def _timestamps(values: List[object]) -> "array[int]":
    """Timestamps by their days, which are found quicker than the timestamps themselves. NaT says that it is on the first of all days."""
    days = list(map(date.toordinal, values))  # type: ignore[arg-type]
    numbers = {day: number_of(date.fromordinal(day)) for day in set(days)}
    return array("I", [numbers[day] if day > 1 else number_of(value) for day, value in zip(days, values)])  # type: ignore[arg-type]


def _packed_one_by_one(name: str, values: List[object]) -> "array[int]":
    """The same for values of several kinds; the first that can't be taken is named with its row."""
    packed = array(_TYPES[BITS.get(name, 32)])
    for row, value in enumerate(values):
        try:
            found = READERS[name](value)
            packed.append(found if name in BITS else number_of(found))  # type: ignore[arg-type]
        except ValueError as error:
            raise ValueError(f"row {row:,}: {error}") from None
    return packed


def _put(records: bytearray, name: str, values: "array[int]") -> None:
    """Stores a column in its place of every record, low byte first."""
    if sys.byteorder == "big":
        values.byteswap()
    size = values.itemsize
    memoryview(records).cast(values.typecode)[_PLACES[name] // size :: RECORD_LENGTH // size] = memoryview(values)  # type: ignore[index]
