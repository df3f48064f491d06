"""CSV as RFC 4180 has it, row by row with line numbers, and the faults found in it."""

import csv
import io
from typing import BinaryIO, Dict, Iterator, List, NamedTuple, Optional, Sequence, TextIO, Tuple

_LONGEST_SHOWN = 40
_OTHER_SEPARATORS = {";": "semicolons", "\t": "tabs", "|": "bars"}


class Fault(NamedTuple):
    """What is wrong in a line, and in which column."""

    line: int
    column: str
    """Empty where it is the whole row."""
    reason: str

    def __str__(self) -> str:
        return f"line {self.line}" + (f", column {self.column}" if self.column else "") + f": {self.reason}"


class Faults:
    """The faults of a file: the first ones up to a limit, and how many there are in all."""

    def __init__(self, limit: int) -> None:
        self.limit = limit
        self.count = 0
        self.first: List[Fault] = []

    def add(self, line: int, column: str, reason: str) -> None:
        """One fault more."""
        self.count += 1
        if len(self.first) < self.limit:
            self.first.append(Fault(line, column, reason))


def shown(text: str) -> str:
    """A field's text in quotes, cut if it is long, with what can't be printed escaped."""
    cut = text if len(text) <= _LONGEST_SHOWN else text[:_LONGEST_SHOWN] + ".."
    plain = cut.encode("utf-8", "backslashreplace").decode("utf-8")
    return "'" + "".join(c if c.isprintable() else ascii(c)[1:-1] for c in plain) + "'"


def is_utf8(text: str) -> bool:
    """False of text that stands for bytes that are no UTF-8."""
    return not any("\udc80" <= c <= "\udcff" for c in text)


def not_utf8(text: str) -> str:
    """What is said of such text. Every byte is a character of Latin-1; Windows-1252 has letters where Latin-1 has controls."""
    return f"{shown(text.encode('utf-8', 'surrogateescape').decode('cp1252', 'replace'))} is Latin-1 (or Windows-1252) and not UTF-8"


def text_of(stream: BinaryIO) -> TextIO:
    """UTF-8 text, with or without a mark. Bytes that are no UTF-8 are kept, for their row to be named."""
    return io.TextIOWrapper(stream, encoding="utf-8-sig", errors="surrogateescape", newline="")


def numbered_rows(text: TextIO, faults: Faults, delimiter: str = ",", above: int = 0) -> Iterator[Tuple[int, List[str]]]:
    """Each row with the line that it starts in; empty lines are passed over, and rows that are no CSV named. Lines above were read already."""
    reader = csv.reader(text, strict=True, delimiter=delimiter)
    while True:
        line = above + reader.line_num + 1
        try:
            row = next(reader)
        except StopIteration:
            return
        except csv.Error as error:
            faults.add(line, "", f"no CSV row: {error}")
            continue
        if row:
            yield line, row


def header_places(rows: Iterator[Tuple[int, List[str]]], columns: Sequence[str], faults: Faults) -> Optional[List[int]]:
    """Where each of the columns stands, by the header line; None, and faults, where they are not exactly these."""
    line, header = next(rows, (1, []))
    names = [name.strip().lower() for name in header]
    if not names:
        faults.add(line, "", f"no header line; it names the columns {', '.join(columns)}")
        return None
    if wrong := _other_form(header):
        faults.add(line, "", wrong)
        return None
    before = faults.count
    for name, found in zip(header, names):
        if found not in columns:
            named = shown(name) if is_utf8(name) else not_utf8(name)
            faults.add(line, "", f"no such column: {named}; the columns are {', '.join(columns)}")
    for column in columns:
        if names.count(column) != 1:
            faults.add(line, column, "is missing" if column not in names else "stands twice")
    return [names.index(column) for column in columns] if faults.count == before else None


def _other_form(header: Sequence[str]) -> str:
    """What a whole file is where it is no CSV in UTF-8, by its header line."""
    if any("\0" in name for name in header):
        return "the file is UTF-16 and not UTF-8: save it as UTF-8"
    if len(header) > 1:
        return ""
    kinds = [kind for mark, kind in _OTHER_SEPARATORS.items() if mark in header[0]]
    return f"the fields are separated by {kinds[0]} and not by commas" if kinds else ""


def writer(text: TextIO) -> "csv._writer":  # type: ignore[name-defined]
    """A writer of CSV rows."""
    return csv.writer(text, lineterminator="\n")


def csv_bytes(header: Sequence[str], rows: Sequence[Sequence[object]]) -> bytes:
    """A whole CSV file."""
    text = io.StringIO()
    out = writer(text)
    out.writerow(header)
    out.writerows(rows)
    return text.getvalue().encode()


class WholeNumbers(Dict[str, int]):
    """Texts of whole numbers up to a highest one; one that was read is remembered."""

    def __init__(self, highest: int) -> None:
        super().__init__()
        self._highest = highest

    def __missing__(self, text: str) -> int:
        number = whole_number(text, self._highest)
        self[text] = number
        return number


def whole_number(text: str, highest: int) -> int:
    """A whole number in plain digits, 0 to the highest. Raises ValueError with the reason."""
    plain = text.strip()
    if not (plain.isascii() and plain.isdigit()):
        raise ValueError("is empty" if plain == "" else f"{shown(text)} is no whole number")
    # Very long texts of digits are no numbers that Python reads.
    if len(plain.lstrip("0")) > len(str(highest)) or int(plain) > highest:
        raise ValueError(f"{shown(text)} is over {highest:,}")
    return int(plain)
