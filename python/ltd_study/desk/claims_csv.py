"""Claims as CSV: number, disability, bcd, termination, maximum, status, code, cell, benefit."""

from typing import BinaryIO, Callable, Dict, Iterator, List, Mapping, TextIO, Tuple

from .. import dates
from ..claim import CODE_NUMBERS, CODE_WORDS, COLUMNS, RECORD, STATUS_NUMBERS, STATUS_WORDS
from ..claim_file import ClaimFile
from .csv_rows import Faults, WholeNumbers, header_places, is_utf8, not_utf8, numbered_rows, shown, text_of, whole_number, writer

_HIGHEST_NUMBER = 0xFFFF_FFFF
_HIGHEST_CELL = 0xFFFF
_HIGHEST_BYTE = 0xFF
_ISO_LENGTH = 10
_ROWS_BETWEEN = 4096


class _Dates(Dict[str, int]):
    """ISO texts of dates, empty for a missing one, each read once."""

    def __missing__(self, text: str) -> int:
        plain = text.strip()
        if len(plain) > _ISO_LENGTH:
            raise ValueError(f"{shown(text)} is no date as 2011-02-28")
        number = self[text] = dates.number_of(plain)
        return number


class _Words(Dict[str, int]):
    """Words or numbers, each read once; an empty text has its own number, or is refused."""

    def __init__(self, words: Mapping[str, int], empty: int = -1) -> None:
        super().__init__()
        self._words, self._empty = words, empty

    def __missing__(self, text: str) -> int:
        number = self[text] = self._read(text.strip().lower(), text)
        return number

    def _read(self, plain: str, text: str) -> int:
        if plain in self._words:
            return self._words[plain]
        if plain == "" and self._empty >= 0:
            return self._empty
        if plain.isascii() and plain.isdigit():
            return whole_number(plain, _HIGHEST_BYTE)
        raise ValueError("is empty" if plain == "" else f"{shown(text)} is neither a number nor one of {', '.join(self._words)}")


class _Benefits(WholeNumbers):
    """Benefits; an empty one is 0, which weighs as 1."""

    def __missing__(self, text: str) -> int:
        try:
            return super().__missing__(text) if text.strip() else 0
        except ValueError as error:
            raise ValueError(f"{error}; a benefit is in hundreds of dollars, 1 to 200") from None


def _number(text: str) -> int:
    return whole_number(text, _HIGHEST_NUMBER)


def read_records(stream: BinaryIO, faults: Faults, seen: Callable[[int], None] = lambda line: None) -> Iterator[bytes]:
    """The record of each row; what a record can't hold is a fault. ``seen`` is told the line now and then."""
    rows = numbered_rows(text_of(stream), faults)
    places = header_places(rows, COLUMNS, faults)
    if places is None:
        return
    width = len(COLUMNS)
    when, status, code = _Dates(), _Words(STATUS_NUMBERS), _Words(CODE_NUMBERS, empty=0)
    cell, benefit = WholeNumbers(_HIGHEST_CELL), _Benefits(_HIGHEST_BYTE)
    readers = tuple(column_readers().values())
    at_number, at_disability, at_bcd, at_termination, at_maximum, at_status, at_code, at_cell, at_benefit = places
    pack, next_seen = RECORD.pack, _ROWS_BETWEEN
    for line, row in rows:
        if line >= next_seen:
            seen(line)
            next_seen = line + _ROWS_BETWEEN
        if len(row) != width:
            faults.add(line, "", f"{len(row)} fields, where the header has {width}")
            continue
        try:
            yield pack(
                _number(row[at_number]),
                when[row[at_disability]],
                when[row[at_bcd]],
                when[row[at_termination]],
                when[row[at_maximum]],
                status[row[at_status]],
                code[row[at_code]],
                cell[row[at_cell]],
                benefit[row[at_benefit]],
            )
        except ValueError:
            _name_faults(line, [row[place] for place in places], readers, faults)


def column_readers() -> Dict[str, Callable[[str], int]]:
    """What reads the text of each column."""
    when, benefit = _Dates(), _Benefits(_HIGHEST_BYTE)
    words = _Words(STATUS_NUMBERS).__getitem__, _Words(CODE_NUMBERS, empty=0).__getitem__
    readers = (_number, *[when.__getitem__] * 4, *words, WholeNumbers(_HIGHEST_CELL).__getitem__, benefit.__getitem__)
    return dict(zip(COLUMNS, readers))


def _name_faults(line: int, fields: List[str], readers: Tuple[Callable[[str], int], ...], faults: Faults) -> None:
    """Every column of a row that can't be read."""
    for column, text, read in zip(COLUMNS, fields, readers):
        try:
            read(text)
        except ValueError as error:
            faults.add(line, column, str(error) if is_utf8(text) else not_utf8(text))


def write_rows(file: ClaimFile, text: TextIO, seen: Callable[[int], None] = lambda block: None) -> int:
    """The claims of a file as CSV, in their order; answers how many. Refused under 11, with part of them written."""
    out = writer(text)
    out.writerow(COLUMNS)
    shown_date: Dict[int, str] = {}
    count = 0
    for block in range(1, file.last_block + 1):
        seen(block)
        for number, disability, bcd, termination, maximum, status, code, cell, benefit in RECORD.iter_unpack(file.records_of(block)):
            row: List[object] = [number]
            for when in (disability, bcd, termination, maximum):
                if when not in shown_date:
                    shown_date[when] = dates.iso(dates.of_number(when))
                row.append(shown_date[when])
            row += STATUS_WORDS.get(status, status), CODE_WORDS.get(code, code), cell, benefit
            out.writerow(row)
            count += 1
    return count
