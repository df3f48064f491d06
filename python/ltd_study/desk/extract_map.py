"""The map of an extract: how an administration system's file is read as claims. What it doesn't say is refused."""

import tomllib
from dataclasses import dataclass, field
from typing import Any, Callable, Dict, List, Mapping, NamedTuple, Sequence, Tuple

from ..claim import CODE_NUMBERS, COLUMNS, STATUS_NUMBERS
from . import map_values
from .claims_csv import column_readers
from .csv_rows import shown

DELIMITERS = {",": "comma", ";": "semicolon", "\t": "tab", "|": "bar"}
ENCODINGS = {
    "utf-8": "utf-8-sig",
    "latin-1": "latin-1",
    "windows-1252": "cp1252",
    "utf-16": "utf-16",
    "utf-16-le": "utf-16-le",
    "utf-16-be": "utf-16-be",
}
"""The encodings that a map may name, with Python's names."""

_DATE_FIELDS = ("disability", "bcd", "termination", "maximum")
_KEYS = {
    "delimiter": str,
    "encoding": str,
    "title_lines": int,
    "totals_rows": int,
    "ignore": list,
    "keep": list,
    "columns": dict,
    "constant": dict,
    "skip": dict,
    "number": dict,
    "dates": dict,
    "status": dict,
    "code": dict,
    "cell": dict,
    "benefit": dict,
}
_HIGHEST_CELL = 0xFFFF
_SIDE_NAMES = ("numbers", "lines")
_NOT_IN_NAMES = set('/\\:*?"<>|')


class BadMap(ValueError):
    """What is wrong in a map."""


class Field(NamedTuple):
    """A field of the claim: the extract's columns that it is read from, none for a constant, and what reads them."""

    columns: Tuple[str, ...]
    read: Callable[[Any], int]
    """Of a column's text, or of a tuple of several columns' texts."""


@dataclass
class ExtractMap:
    """A map that was read: the nine fields in the record's order, and the file's form."""

    fields: List[Field]
    delimiter: str = ","
    encoding: str = "utf-8"
    title_lines: int = 0
    totals_rows: int = 0
    ignore: Sequence[str] = ()
    keep: Sequence[str] = ()
    skip: Mapping[str, Sequence[str]] = field(default_factory=dict)
    originals: "Dict[str, int] | None" = None
    """The claim numbers that aren't numbers, filled as they are read."""

    @property
    def used(self) -> List[str]:
        """Every column that is read, each once."""
        names = [name for one in self.fields for name in one.columns]
        return list(dict.fromkeys([*names, *self.keep, *self.skip]))


def read_map(data: bytes) -> ExtractMap:
    """The map of a TOML file's bytes. Raises BadMap."""
    try:
        found = tomllib.loads(data.decode("utf-8-sig"))
    except UnicodeDecodeError:
        raise BadMap("a map is UTF-8, and this is not") from None
    except tomllib.TOMLDecodeError as error:
        raise BadMap(f"no TOML: {error}") from None
    _look_at_keys(found, _KEYS, "the map")
    fields, originals = _fields(found)
    made = ExtractMap(
        fields,
        _one_of("delimiter", found.get("delimiter", ","), DELIMITERS),
        _one_of("encoding", found.get("encoding", "utf-8"), ENCODINGS),
        _count("title_lines", found.get("title_lines", 0)),
        _count("totals_rows", found.get("totals_rows", 0)),
        _texts("ignore", found.get("ignore", [])),
        _texts("keep", found.get("keep", [])),
        {name.strip(): _texts(f"skip.{name}", texts) for name, texts in found.get("skip", {}).items()},
        originals,
    )
    _look_at_names(made)
    return made


def _look_at_keys(table: Mapping[str, Any], keys: Mapping[str, type], where: str) -> None:
    for key, value in table.items():
        if key not in keys:
            raise BadMap(f"{where} has no {shown(key)}; it has {', '.join(keys)}")
        if not isinstance(value, keys[key]) or isinstance(value, bool):
            raise BadMap(f"{shown(key)} of {where} is no {_KINDS[keys[key]]}")


_KINDS = {str: "text", int: "whole number", list: "list", dict: "table"}


def _one_of(name: str, value: str, values: Mapping[str, object]) -> str:
    if value not in values:
        raise BadMap(f"{name} {shown(value)} is none of {', '.join(map(shown, values))}")
    return value


def _count(name: str, value: int) -> int:
    if not 0 <= value <= 1000:
        raise BadMap(f"{name} is not from 0 to 1,000")
    return value


def _texts(name: str, values: object) -> List[str]:
    if not isinstance(values, list) or not all(isinstance(value, str) for value in values):
        raise BadMap(f"{name} is no list of texts")
    return [value.strip() for value in values]


def _look_at_names(made: ExtractMap) -> None:
    """A column that is read isn't ignored, and the columns that are kept make names of files."""
    for name in made.used:
        if name in made.ignore:
            raise BadMap(f"column {shown(name)} is both read and ignored")
    lower = [name.lower() for name in made.keep]
    for name in made.keep:
        if not name.isprintable() or not name or _NOT_IN_NAMES & set(name) or name.lower() in _SIDE_NAMES:
            raise BadMap(f"keep: a file can't be named after column {shown(name)}")
        if lower.count(name.lower()) > 1:
            raise BadMap(f"keep: column {shown(name)} stands twice")


def _fields(found: Dict[str, Any]) -> "Tuple[List[Field], Dict[str, int] | None]":
    """The nine fields, each from columns or constant, and never both."""
    columns, constant = found.get("columns", {}), found.get("constant", {})
    _look_at_keys(columns, dict.fromkeys(COLUMNS, str), "[columns]")
    readers, numbers = _readers(found)
    fields = []
    for name in COLUMNS:
        table = name == "cell" and "cell" in found
        if (name in columns) + (name in constant) + table != 1:
            ways = "[columns], [constant] and [cell]" if name == "cell" else "[columns] and [constant]"
            raise BadMap(f"{name} stands in {'none' if name not in {**columns, **constant} else 'more than one'} of {ways}; it stands in one")
        if table:
            fields.append(_cell_table(found["cell"]))
        elif name in columns:
            fields.append(Field((columns[name].strip(),), readers[name]))
        else:
            fields.append(_constant(name, constant[name]))
    _look_at_keys(constant, dict.fromkeys(COLUMNS[1:], object), "[constant]")
    return fields, numbers.originals if numbers is not None else None


def _readers(found: Dict[str, Any]) -> "Tuple[Dict[str, Callable[[str], int]], map_values.TextNumbers | None]":
    """What reads each field's column: as without a map, but for what the map says."""
    readers = column_readers()
    if "dates" in found:
        when = _dates(found["dates"])
        readers.update({name: when.__getitem__ for name in _DATE_FIELDS})
    for name, numbers in (("status", STATUS_NUMBERS), ("code", CODE_NUMBERS)):
        if name in found:
            readers[name] = _words(name, found[name], numbers).__getitem__
    if "benefit" in found:
        readers["benefit"] = _benefit(found["benefit"], readers["benefit"])
    texts = map_values.TextNumbers() if _number_kind(found.get("number", {})) == "text" else None
    if texts is not None:
        readers["number"] = texts.read
    return readers, texts


def _number_kind(table: Dict[str, Any]) -> str:
    _look_at_keys(table, {"kind": str}, "[number]")
    return _one_of("[number] kind", table.get("kind", "number"), {"number": 0, "text": 0})


def _dates(table: Dict[str, Any]) -> map_values.Dates:
    _look_at_keys(table, {"format": str, "missing": list}, "[dates]")
    try:
        return map_values.Dates(table.get("format", "YYYY-MM-DD"), _texts("[dates] missing", table.get("missing", [])))
    except ValueError as error:
        raise BadMap(f"[dates] format {error}") from None


def _words(name: str, table: Dict[str, Any], numbers: Mapping[str, int]) -> map_values.Words:
    for word in table.values():
        if not isinstance(word, str) or word not in numbers:
            raise BadMap(f"[{name}] {word!r} is none of {', '.join(numbers)}")
    return map_values.Words(name, {text.strip(): numbers[word] for text, word in table.items()})


def _benefit(table: Dict[str, Any], hundreds: Callable[[str], int]) -> Callable[[str], int]:
    _look_at_keys(table, dict.fromkeys(("unit", "round", "currency", "thousands", "decimal"), str), "[benefit]")
    if _one_of("[benefit] unit", table.get("unit", "hundreds"), {"hundreds": 0, "dollars": 0}) == "hundreds":
        if table.keys() - {"unit"}:
            raise BadMap("[benefit] only dollars have a rounding, a currency and signs: unit = \"dollars\"")
        return hundreds
    if "round" not in table:
        raise BadMap(f"[benefit] in dollars needs a rounding to hundreds: round is one of {', '.join(map(shown, map_values.ROUNDINGS))}")
    signs = table.get("thousands", ""), table.get("decimal", ".")
    if not set(signs) <= {"", ".", ",", " ", "'", "\u00a0", "\u202f"} or signs[0] == signs[1] or not signs[1]:
        raise BadMap("[benefit] thousands and decimal are two signs, as ',' and '.'")
    rounding = _one_of("[benefit] round", table["round"], map_values.ROUNDINGS)
    return map_values.Dollars(rounding, table.get("currency", ""), *signs).__getitem__


def _cell_table(table: Dict[str, Any]) -> Field:
    _look_at_keys(table, {"columns": list, "rows": list}, "[cell]")
    columns, rows = tuple(_texts("[cell] columns", table.get("columns", []))), table.get("rows", [])
    if not columns or not rows:
        raise BadMap("[cell] has columns, and rows of their values with the cell as the last one")
    cells: Dict[Tuple[str, ...], int] = {}
    for row in rows:
        if not isinstance(row, list) or len(row) != len(columns) + 1 or not all(type(value) in (str, int) for value in row):
            raise BadMap(f"[cell] row {row} isn't {len(columns)} values and a cell")
        values, cell = tuple(str(value).strip() for value in row[:-1]), row[-1]
        if type(cell) is not int or not 0 <= cell <= _HIGHEST_CELL:
            raise BadMap(f"[cell] row {row}: {cell!r} is no cell from 0 to {_HIGHEST_CELL:,}")
        if values in cells:
            raise BadMap(f"[cell] row {row}: its values stand twice")
        cells[values] = cell
    read = map_values.Cells(cells)
    # A single column's text comes alone, not as a tuple.
    return Field(columns, read.__getitem__ if len(columns) > 1 else lambda text: read[(text,)])


def _constant(name: str, value: object) -> Field:
    if type(value) not in (str, int):
        raise BadMap(f"[constant] {name} is no text and no whole number")
    try:
        number = column_readers()[name](str(value))
    except ValueError as error:
        raise BadMap(f"[constant] {name}: {error}") from None
    return Field((), lambda _: number)
