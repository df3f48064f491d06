"""A first map of an extract, from its header line: what could be told, and as comments what could not."""

import csv
import io
import json
import re
from itertools import islice
from typing import Dict, Iterable, List, NamedTuple, Optional, Sequence

from ..claim import CODE_NUMBERS, COLUMNS, STATUS_NUMBERS
from .csv_rows import shown
from .extract_map import DELIMITERS, ENCODINGS
from .map_values import DATE_FORMATS, ROUNDINGS, Dates

ROWS_LOOKED_AT = 1000
_BYTES_LOOKED_AT = 1_000_000
_LINES_FOR_A_HEADER = 50
_FEWEST_NAMES = 3
_VALUES_SHOWN = 12
_DATE_FIELDS = ("disability", "bcd", "termination", "maximum")
_OPTIONAL = ("maximum", "code", "cell", "benefit")

# Letters and digits of the names that are told without a doubt.
_NAMES: Dict[str, Sequence[str]] = {
    "number": ("number", "claimnumber", "claimno", "claimnum", "claimid", "claimnbr", "claim"),
    "disability": ("disability", "dateofdisability", "disabilitydate", "disabilitydt", "datedisabled", "dod", "disdate", "disdt"),
    "bcd": ("bcd", "benefitcommencementdate", "benefitcommencement", "benefitstartdate", "benefitstart", "bencommdt", "benstartdt"),
    "termination": ("termination", "terminationdate", "terminationdt", "termdate", "termdt", "closedate", "closeddate", "closedt"),
    "maximum": ("maximum", "maximumdate", "maxdate", "maxdt", "maxbenefitdate", "maximumbenefitdate", "maxbendt", "benefitmaximumdate"),
    "status": ("status", "claimstatus", "statuscode", "statuscd", "clmstatus"),
    "code": ("code", "terminationcode", "terminationreason", "termreason", "termcode", "termcd", "closereason", "closurereason", "reason"),
    "cell": ("cell", "ratecell"),
    "benefit": ("benefit", "monthlybenefit", "monthlybenefitamount", "grossbenefit", "grossmonthlybenefit", "mthlyben", "benefitamount"),
}


class Form(NamedTuple):
    """The form of an extract's file; None is for what has to be told from the file."""

    delimiter: Optional[str] = None
    encoding: Optional[str] = None
    title_lines: Optional[int] = None


class Told(NamedTuple):
    """What was told of an extract: its form, the columns' names, their texts in the first rows, and each field's column."""

    form: Form
    sure_of_encoding: bool
    names: List[str]
    texts: Dict[str, List[str]]
    columns: Dict[str, str]


def first_map(data: bytes, form: Form = Form()) -> str:
    """A map to complete. Raises ValueError where there is no header line."""
    told = tell(data, form)
    rest = [name for name in told.names if name not in told.columns.values()]
    parts = [
        "# A first map, for './ltd pack --map'. Lines that start with # are what has to be looked at.\n",
        *_file_lines(told),
        *_ignore_lines(rest),
        "\n[columns]\n",
        *(_column_line(name, told, rest) for name in COLUMNS),
        *_number_lines(told),
        *_date_lines(told),
        *_word_lines("status", told, STATUS_NUMBERS),
        *_word_lines("code", told, CODE_NUMBERS),
        *_benefit_lines(told),
    ]
    return "".join(parts)


def tell(data: bytes, form: Form) -> Told:
    """What can be told of an extract's first bytes."""
    encoding, sure = (form.encoding, True) if form.encoding else _encoding(data)
    text = io.StringIO(data[:_BYTES_LOOKED_AT].decode(ENCODINGS[encoding], "replace"), newline="")
    lines = list(islice(text, _LINES_FOR_A_HEADER + ROWS_LOOKED_AT))
    delimiter = form.delimiter or _delimiter(lines)
    above = _lines_above(lines, delimiter) if form.title_lines is None else form.title_lines
    rows = csv.reader(io.StringIO("".join(lines[above:]), newline=""), delimiter=delimiter)
    try:
        header, *first = islice((row for row in rows if row), ROWS_LOOKED_AT + 1)
    except (ValueError, csv.Error):
        raise ValueError("there is no header line") from None
    names = [name.strip() for name in header]
    texts: Dict[str, List[str]] = {name: [] for name in names}
    for row in first:
        for name, field in zip(names, row):
            texts[name].append(field.strip())
    columns: Dict[str, str] = {}
    for field, known in _NAMES.items():
        found = [name for name in names if re.sub("[^a-z0-9]", "", name.lower()) in known]
        if len(found) == 1:
            columns[field] = found[0]
    return Told(Form(delimiter, encoding, above), sure, names, texts, columns)


def _encoding(data: bytes) -> "tuple[str, bool]":
    """By the mark at the start, or where the bytes are UTF-8; other bytes are read as Latin-1, which has to be looked at."""
    if data[:2] in (b"\xff\xfe", b"\xfe\xff"):
        return "utf-16", True
    try:
        data.decode("utf-8")
        return "utf-8", True
    except UnicodeDecodeError:
        return "latin-1", False


def _delimiter(lines: List[str]) -> str:
    """The one that cuts a line into the most fields."""
    return max(DELIMITERS, key=lambda sign: max((line.count(sign) for line in lines[:_LINES_FOR_A_HEADER]), default=0))


def _lines_above(lines: List[str], delimiter: str) -> int:
    """How many lines stand above the first that has names enough."""
    for above, line in enumerate(lines[:_LINES_FOR_A_HEADER]):
        names = [name for name in line.split(delimiter) if name.strip(' "\r\n')]
        if len(names) >= _FEWEST_NAMES:
            return above
    return 0


def _text(value: str) -> str:
    """A text as TOML has it."""
    return json.dumps(value, ensure_ascii=False).replace("\x7f", "\\u007f")


def _comment(value: str) -> str:
    return f"# {value}\n"


def _seen(texts: Iterable[str]) -> List[str]:
    """The different texts, in the order they came."""
    return list(dict.fromkeys(texts))


def _file_lines(told: Told) -> List[str]:
    lines = []
    if told.form.delimiter != ",":
        lines.append(f"delimiter = {_text(told.form.delimiter or '')}\n")
    if not told.sure_of_encoding:
        lines.append(_comment('the bytes are no UTF-8: "latin-1" or "windows-1252" is to be chosen'))
        lines.append(_comment('encoding = "latin-1"'))
    elif told.form.encoding != "utf-8":
        lines.append(f"encoding = {_text(told.form.encoding or '')}\n")
    if told.form.title_lines:
        lines.append(f"title_lines = {told.form.title_lines}\n")
    lines.append(_comment("totals_rows = 1     if so many last rows are no claims"))
    return lines


def _ignore_lines(rest: List[str]) -> List[str]:
    """The columns that weren't told stay unsaid, so that 'pack' asks for them."""
    if not rest:
        return []
    listed = ", ".join(map(_text, dict.fromkeys(rest)))
    return [_comment("not told; each is to stand in [columns], [cell], ignore or keep:"), _comment(f"ignore = [{listed}]")]


def _column_line(name: str, told: Told, rest: List[str]) -> str:
    if name in told.columns:
        return f"{name} = {_text(told.columns[name])}\n"
    words = f"{name} = one of {', '.join(map(_text, rest))}" if rest else f"{name} = no column is left"
    if name in _OPTIONAL:
        words += f"; or without a column [constant] {name} = " + ('""' if name == "maximum" else "0")
    if name == "cell":
        words += '; or [cell] columns = ["EP", "Class"], rows = [["90", "A", 0], ["180", "A", 1]]'
    return _comment(words)


def _number_lines(told: Told) -> List[str]:
    """Numbers that are all none are numbered; where only some are none, they may be rows of totals."""
    column = told.columns.get("number", "")
    texts = _seen(told.texts.get(column, []))
    other = [text for text in texts if not (text.isascii() and text.isdigit())]
    if not other:
        return []
    if len(other) == len(texts):
        return [f'\n# as {shown(other[0])}: numbered in file order\n[number]\nkind = "text"\n']
    skipped = "[skip]", f"{_text(column)} = [{', '.join(map(_text, other[:_VALUES_SHOWN]))}]"
    lines = "these are no numbers; if they stand in rows that are no claims:", *skipped, "or if they are claims:", "[number]", 'kind = "text"'
    return ["\n", *map(_comment, lines)]


def _date_lines(told: Told) -> List[str]:
    """The formats that all dates seen have, as comments: which of them it is can't be told from the dates."""
    texts = _seen(text for name in _DATE_FIELDS if name in told.columns for text in told.texts[told.columns[name]] if text)
    fitting = [form for form in DATE_FORMATS if texts and _all_fit(form, texts)]
    if not texts or "YYYY-MM-DD" in fitting:
        return []
    shown_texts = ", ".join(map(shown, texts[:3]))
    lines = ["\n[dates]\n", _comment(f"dates as {shown_texts}; of the formats {', '.join(DATE_FORMATS)}")]
    lines.append(_comment(f"these fit all that were seen: {', '.join(fitting)}" if fitting else "none fits all that were seen"))
    lines.append(_comment(f"format = {_text(fitting[0] if fitting else 'MM/DD/YYYY')}"))
    lines.append(_comment('missing = ["00/00/0000"]     if a missing date is not empty'))
    return lines


def _all_fit(form: str, texts: List[str]) -> bool:
    read = Dates(form)
    try:
        return all(read[text] for text in texts)
    except ValueError:
        return False


def _word_lines(field: str, told: Told, numbers: Dict[str, int]) -> List[str]:
    """The words that are none of ours, for the user to say what each means."""
    texts = _seen(told.texts.get(told.columns.get(field, ""), []))
    known = {*numbers, *map(str, numbers.values())} | ({""} if field == "code" else set())
    if all(text.lower() in known for text in texts):
        return []
    lines = [f"\n[{field}]\n", _comment(f"each is {', '.join(numbers)}")]
    for text in texts[:_VALUES_SHOWN]:
        ours = text.lower() if text.lower() in numbers else None
        lines.append(f"{_text(text)} = {_text(ours)}\n" if ours else _comment(f"{_text(text)} = {_text('?')}"))
    more = len(texts) - _VALUES_SHOWN
    return lines + ([_comment(f"and {more} more")] if more > 0 else [])


def _benefit_lines(told: Told) -> List[str]:
    texts = _seen(text for text in told.texts.get(told.columns.get("benefit", ""), []) if text)
    if all(text.isascii() and text.isdigit() and len(text) < 4 and int(text) <= 200 for text in texts):
        return []
    lines = ["\n[benefit]\n", _comment(f"amounts as {', '.join(map(shown, texts[:3]))}; unit is hundreds or dollars")]
    lines.append(_comment('unit = "dollars"'))
    lines.append(_comment(f"round = one of {', '.join(map(_text, ROUNDINGS))}"))
    return lines + [_comment('currency = "$"'), _comment('thousands = ","'), _comment('decimal = "."')]
