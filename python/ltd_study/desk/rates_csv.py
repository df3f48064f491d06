"""Rates as CSV: cell, duration, recovery, death, in millionths or as decimals."""

import re
from array import array
from fractions import Fraction
from typing import BinaryIO, Callable, Dict, Iterator, List, NamedTuple, Set, TextIO, Tuple

from ..rates import CELL_LENGTH, DURATIONS, FIRST_DURATION, LAST_DURATION, MILLION, MOST_CELLS, Rates
from .csv_rows import Faults, WholeNumbers, header_places, is_utf8, not_utf8, numbered_rows, shown, text_of, writer
from .figures import counted

COLUMNS = ("cell", "duration", "recovery", "death")
_DECIMAL = re.compile(r"(\d*)(?:\.(\d*))?(?:[eE]([+-]?\d{1,2}))?", re.ASCII)
_LONGEST_DECIMAL = 40
_PLACES = 6


class Form(NamedTuple):
    """How rates are read: as decimals or millionths, decimals rounded to millionths, and a cell's last rate taken for the durations after it."""

    decimal: bool = False
    rounded: bool = False
    extend_last: bool = False


class ReadRates(NamedTuple):
    """A table, and in words what was done to its rows."""

    rates: Rates
    notes: List[str]


class _Decimals(Dict[str, int]):
    """Texts of decimals that are whole millionths, or are rounded to them, each read once."""

    def __init__(self, rounded: bool) -> None:
        super().__init__()
        self._rounded = rounded
        self.were_rounded: Set[str] = set()

    def __missing__(self, text: str) -> int:
        number, left = decimal_parts(text)
        if left and not self._rounded:
            raise ValueError(f"{shown(text)} is no whole number of millionths")
        if left:
            self.were_rounded.add(text)
        self[text] = number = number + (2 * left >= 1)
        return number


class _Durations(WholeNumbers):
    """Durations that have a rate."""

    def __missing__(self, text: str) -> int:
        number = super().__missing__(text)
        if number < FIRST_DURATION:
            del self[text]
            raise ValueError(f"{shown(text)} is under {FIRST_DURATION}")
        return number


def decimal_millionths(text: str) -> int:
    """The millionths of a decimal from 0 to 1. Raises ValueError with the reason."""
    return _Decimals(rounded=False)[text]


def decimal_parts(text: str) -> Tuple[int, Fraction]:
    """The whole millionths of a decimal from 0 to 1, and the part of one that is left. Raises ValueError with the reason."""
    plain = text.strip()
    match = _DECIMAL.fullmatch(plain) if len(plain) <= _LONGEST_DECIMAL else None
    digits = (match[1] or "") + (match[2] or "") if match else ""
    if match is None or digits == "":
        raise ValueError("is empty" if plain == "" else f"{shown(text)} is no decimal")
    power = _PLACES - len(match[2] or "") + int(match[3] or 0)
    unit = 10 ** max(-power, 0)
    number, left = divmod(int(digits) * 10 ** max(power, 0), unit)
    if (number, left) > (MILLION, 0):
        raise ValueError(f"{shown(text)} is over 1")
    return number, Fraction(left, unit)


def read_rates(stream: BinaryIO, form: Form, faults: Faults) -> ReadRates:
    """The table of the rows. Rows that are missing, doubled or impossible are faults."""
    rows = numbered_rows(text_of(stream), faults)
    places = header_places(rows, COLUMNS, faults)
    cells: Dict[int, "array[int]"] = {}
    notes: List[str] = []
    if places is not None:
        lines: Dict[Tuple[int, int], int] = {}
        rate: Dict[str, int] = _Decimals(form.rounded) if form.decimal else WholeNumbers(MILLION)
        for line, cell, duration, recovery, death in _read_rows(rows, places, rate, faults, notes):
            if (cell, duration) in lines:
                faults.add(line, "", f"cell {cell}, duration {duration} stands in line {lines[cell, duration]} already")
            elif recovery + death > MILLION:
                both = f"recovery and death of cell {cell}, duration {duration}"
                faults.add(line, "", f"{both} are {recovery + death:,} millionths together, over 1,000,000")
            lines.setdefault((cell, duration), line)
            numbers = cells.setdefault(cell, array("I", bytes(4 * CELL_LENGTH)))
            numbers[duration - FIRST_DURATION] = recovery
            numbers[DURATIONS + duration - FIRST_DURATION] = death
        if form.extend_last:
            notes += _extended(cells, lines)
        _name_missing(lines, max(cells, default=0), faults)
    return ReadRates(Rates(number for cell in sorted(cells) for number in cells[cell]), notes)


def _extended(cells: Dict[int, "array[int]"], lines: Dict[Tuple[int, int], int]) -> List[str]:
    """Gives the durations after a cell's last one its rates, and says so. A gap before it stays a fault."""
    lasts: Dict[int, int] = {}
    for cell, duration in lines:
        lasts[cell] = max(duration, lasts.get(cell, 0))
    for cell, last in lasts.items():
        for duration in range(last + 1, LAST_DURATION + 1):
            lines[cell, duration] = lines[cell, last]
            for kind in (0, DURATIONS):
                cells[cell][kind + duration - FIRST_DURATION] = cells[cell][kind + last - FIRST_DURATION]
    ends = sorted({last for last in lasts.values() if last < LAST_DURATION})
    return [_extended_words(last, [cell for cell in sorted(lasts) if lasts[cell] == last]) for last in ends]


def _extended_words(last: int, cells: List[int]) -> str:
    spans = ", ".join(str(first) if first == end else f"{first} to {end}" for first, end in runs(cells))
    where = f"in {'cell' if len(cells) == 1 else 'cells'} {spans}"
    return f"the rates of duration {last} stand for durations {last + 1} to {LAST_DURATION} too (--extend-last), {where}"


def _read_rows(
    rows: Iterator[Tuple[int, List[str]]], places: List[int], rate: Dict[str, int], faults: Faults, notes: List[str]
) -> Iterator[Tuple[int, ...]]:
    """Line, cell, duration, recovery and death of each row that can be read; how many rates were rounded is noted."""
    were_rounded = rate.were_rounded if isinstance(rate, _Decimals) else set()
    count = 0
    readers: List[Dict[str, int]] = [WholeNumbers(MOST_CELLS - 1), _Durations(LAST_DURATION), rate, rate]
    for line, row in rows:
        if len(row) != len(COLUMNS):
            faults.add(line, "", f"{len(row)} fields, where the header has {len(COLUMNS)}")
            continue
        fields = [row[place] for place in places]
        try:
            yield (line, *[reader[text] for reader, text in zip(readers, fields)])
        except ValueError:
            for column, text, reader in zip(COLUMNS, fields, readers):
                _name_fault(line, column, text, reader.__getitem__, faults)
        count += sum(text in were_rounded for text in fields[2:])
    if count:
        notes.append(f"{counted(count, 'rate was', 'rates were')} rounded to the nearest millionth, halves up (--round)")


def _name_fault(line: int, column: str, text: str, read: Callable[[str], int], faults: Faults) -> None:
    try:
        read(text)
    except ValueError as error:
        faults.add(line, column, str(error) if is_utf8(text) else not_utf8(text))


def _name_missing(lines: Dict[Tuple[int, int], int], last_cell: int, faults: Faults) -> None:
    """The durations without a row, of every cell up to the last one."""
    last_line = max(lines.values(), default=1)
    for cell in range(last_cell + 1):
        for first, last in runs([d for d in range(FIRST_DURATION, LAST_DURATION + 1) if (cell, d) not in lines]):
            span = f"duration {first}" if first == last else f"durations {first} to {last}"
            faults.add(last_line, "", f"up to this last line there is no row of cell {cell} for {span}")


def runs(numbers: List[int]) -> Iterator[Tuple[int, int]]:
    """First and last of each run of consecutive numbers in a rising list."""
    start = 0
    for i in range(1, len(numbers) + 1):
        if i == len(numbers) or numbers[i] != numbers[i - 1] + 1:
            yield numbers[start], numbers[i - 1]
            start = i


def write_rows(rates: Rates, decimal: bool, text: TextIO) -> None:
    """A row for each cell and duration."""
    out = writer(text)
    out.writerow(COLUMNS)
    for cell in range(rates.cells):
        for duration in range(FIRST_DURATION, LAST_DURATION + 1):
            both = rates.recovery(cell, duration), rates.death(cell, duration)
            out.writerow((cell, duration, *[as_decimal(rate) if decimal else rate for rate in both]))


def as_decimal(millionths: int) -> str:
    """1027 as 0.001027."""
    return f"{millionths // MILLION}.{millionths % MILLION:06}"
