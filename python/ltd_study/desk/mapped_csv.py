"""An extract's rows, read by its map: records, the line of each, and the columns that are kept."""

import io
from array import array
from itertools import repeat
from typing import BinaryIO, Callable, Dict, Iterable, Iterator, List, Sequence, TextIO, Tuple

from ..claim import RECORD
from .csv_rows import Faults, is_utf8, numbered_rows, shown
from .extract_map import ENCODINGS, ExtractMap, Field

_ROWS_AT_ONCE = 512
Row = Tuple[int, List[str]]
Columns = Sequence[Sequence[str]]


class MappedRows:
    """The rows of an extract. Once the records are taken, it has the line of each, the columns kept and how many rows were passed over."""

    def __init__(self, found: ExtractMap, faults: Faults) -> None:
        self.map, self._faults = found, faults
        self.lines = array("Q")
        self.kept: Dict[str, List[str]] = {name: [] for name in found.keep}
        self.passed_over = 0
        self.totals_rows = 0
        self._line = 0

    def records(self, stream: BinaryIO, seen: Callable[[int], None] = lambda line: None) -> Iterator[bytes]:
        """The record of each claim; what the map doesn't say is a fault. ``seen`` is told the line now and then."""
        # UTF-16 has no bytes that could be kept for their row to be named.
        errors = "strict" if self.map.encoding.startswith("utf-16") else "surrogateescape"
        with io.TextIOWrapper(stream, encoding=ENCODINGS[self.map.encoding], errors=errors, newline="") as text:
            try:
                yield from self._records(text, seen)
            except UnicodeError:
                self._faults.add(self._line + 1, "", f"from about here on the bytes are not {self.map.encoding}, as the map says")

    def _records(self, text: TextIO, seen: Callable[[int], None]) -> Iterator[bytes]:
        for _ in range(self.map.title_lines):
            self._line += bool(text.readline())
        rows = numbered_rows(text, self._faults, self.map.delimiter, self._line)
        line, header = next(rows, (self._line + 1, []))
        names = [name.strip() for name in header]
        if not self._header_is_known(line, names):
            return
        for chunk in self._chunks(rows):
            if chunk:
                self._line = chunk[-1][0]
                seen(self._line)
            yield from self._chunk(self._of_width(self._claims(chunk, names), len(names)), names)

    def _chunks(self, rows: Iterator[Row]) -> Iterator[List[Row]]:
        """The rows, many at once, without the totals at the end."""
        last = self.map.totals_rows
        waiting: List[Row] = []
        for row in rows:
            waiting.append(row)
            if len(waiting) == _ROWS_AT_ONCE + last:
                yield waiting[:_ROWS_AT_ONCE]
                del waiting[:_ROWS_AT_ONCE]
        self.totals_rows = min(last, len(waiting))
        yield waiting[: len(waiting) - self.totals_rows]

    def _header_is_known(self, line: int, names: List[str]) -> bool:
        """Whether the map says something of every column, and each that it reads stands once."""
        before = self._faults.count
        if not names:
            self._faults.add(line, "", "no header line")
        for name in dict.fromkeys(names):
            if name not in self.map.used and name not in self.map.ignore:
                words = f"the map says nothing of column {shown(name)}: name it in [columns], ignore or keep"
                self._faults.add(line, "", words if is_utf8(name) else f"column {self._unreadable(name)}, as the map says")
        for name in [*self.map.used, *self.map.ignore]:
            if name not in names or (names.count(name) > 1 and name not in self.map.ignore):
                self._faults.add(line, name, "is missing" if name not in names else "stands twice")
        return self._faults.count == before

    def _claims(self, chunk: List[Row], names: List[str]) -> List[Row]:
        """The rows that the map's [skip] doesn't pass over; a cell that a short row lacks is empty."""
        claims = chunk
        for name, texts in self.map.skip.items():
            place = names.index(name)
            claims = [(line, row) for line, row in claims if (row[place].strip() if place < len(row) else "") not in texts]
        self.passed_over += len(chunk) - len(claims)
        return claims

    def _of_width(self, claims: List[Row], width: int) -> List[Row]:
        """The rows that have as many fields as the header; the others are faults."""
        for line, row in claims:
            if len(row) != width:
                self._faults.add(line, "", f"{len(row)} fields, where the header has {width}")
        return [numbered for numbered in claims if len(numbered[1]) == width]

    def _chunk(self, rows: List[Row], names: List[str]) -> Iterable[bytes]:
        """The records of some rows, column by column; only where that fails, row by row for the faults."""
        if not rows:
            return ()
        lines = [line for line, _ in rows]
        columns = list(zip(*(row for _, row in rows)))
        places = [tuple(map(names.index, field.columns)) for field in self.map.fields]
        try:
            values = [_values(field, at, columns, len(rows)) for field, at in zip(self.map.fields, places)]
            records = list(map(RECORD.pack, *values))
            kept = {name: [text.strip() for text in columns[names.index(name)]] for name in self.kept}
            # What isn't text can't be written either.
            "".join("".join(texts) for texts in kept.values()).encode()
        except ValueError:
            for line, row in rows:
                self._name_faults(line, row, places, names)
            return ()
        self.lines.extend(lines)
        for name, texts in kept.items():
            self.kept[name] += texts
        return records

    def _name_faults(self, line: int, row: List[str], places: List[Tuple[int, ...]], names: List[str]) -> None:
        """Every column of a row that can't be read."""
        for field, at in zip(self.map.fields, places):
            texts = tuple(row[place] for place in at)
            try:
                field.read(texts if len(texts) > 1 else texts[0] if texts else "")
            except ValueError as error:
                bad = next((text for text in texts if not is_utf8(text)), None)
                self._faults.add(line, ", ".join(field.columns), str(error) if bad is None else self._unreadable(bad))
        for name in self.kept:
            text = row[names.index(name)]
            if not is_utf8(text):
                self._faults.add(line, name, self._unreadable(text))

    def _unreadable(self, text: str) -> str:
        return f"{shown(text)} is not {self.map.encoding}"


def _values(field: Field, places: Tuple[int, ...], columns: Columns, count: int) -> Iterable[int]:
    """A field's numbers of some rows."""
    if not places:
        return repeat(field.read(""), count)
    return map(field.read, columns[places[0]] if len(places) == 1 else zip(*(columns[place] for place in places)))
