"""total: the committee's table of what carriers publish, as text, CSV, JSON and a page."""

import argparse
from argparse import Namespace
from typing import Any, Callable, Dict, List, Optional, Sequence, Tuple

from ..study import SUM_NAMES, GroupSums, total
from . import provenance, published
from .charts import closings_chart, exposure_chart, group_bars, rate_chart, ratio_chart
from .claim_notes import COUNT_COLUMNS, count_cells
from .crude_rates import CRUDE_NOTE, KINDS, crude_rates
from .csv_rows import csv_bytes
from .duration_reports import duration_tables
from .figures import counted, months, whole
from .intervals import POISSON_WORDS
from .page import NOTES, Heading, Judged, Section, page_of
from .published import Published
from .ratios import ratios_of
from .reports import GROUP_COLUMNS, GroupFigures, beside_rows, beside_table, group_rows, set_tables, sums_dict
from .tables import Column, Row, Table, printed
from .talk import DATA_REFUSED, DONE, DataRefused, WrongUse, put, put_bytes, put_json, read_bytes, say, say_note
from .totals import NO_FACTORS, Entry, Total, add_up, all_rows_beside, verdict
from .whole_files import write_whole

FORMAT = "ltd total 1"
_HASH_SHOWN = 16


def add(commands: "argparse._SubParsersAction", command: Callable[..., argparse.ArgumentParser]) -> None:
    """The command's arguments."""
    about = (
        "The files are what 'study --json', 'years --json' and 'durations --json' print, of one window and one rate\n"
        "table; durations are added up apart from studies. A study and the years of the same claims count once. Each\n"
        "file is checked: closings not over claims taken, no count below zero, totals, ratios, rates, z, m and T that\n"
        "follow from the sums, years that total their window. How many claims each left out and how many numbers it\n"
        "repeats is told, and in the JSON. There is no limit of 500,000 claims, and so a total has no z, m and T."
    )
    example = "./ltd total first.json first-years.json second.json --html total.html"
    made = command(commands, "total", total_of_carriers, "add up what carriers publish", about=about, example=example)
    made.add_argument("files", metavar="FILE.json", nargs="+", help="a study, its years or its durations, saved by --json, best with --carrier NAME")
    made.add_argument("--again", action="store_true", help="count the same claims twice where two files are of the same claims")
    form = made.add_mutually_exclusive_group()
    form.add_argument("--json", action="store_true", help="print JSON, with both sets of sums")
    form.add_argument("--csv", action="store_true", help="print CSV: the sums as they are, ratios and monthly rates with their intervals")
    made.add_argument("--weighted", action="store_true", help="show the sums weighted by benefit too")
    made.add_argument("--html", metavar="FILE", help="write a page to print: tables and charts in one file")
    made.add_argument("--title", help="the page's title")


def total_of_carriers(asked: Namespace) -> int:
    """The total; status 1 if a carrier's years don't add up."""
    files = [_read(path) for path in asked.files]
    try:
        found = add_up(files, asked.again)
    except ValueError as error:
        raise DataRefused(str(error)) from None
    if asked.weighted and not found.by_group:
        raise WrongUse("--weighted: rows by duration go by count")
    words, holds = verdict(found), not found.differences
    lines = [
        f"{found.window.first} to {found.window.last}: {counted(found.claims_taken, 'claim')} taken by {counted(len(found.entries), 'carrier')}",
        NO_FACTORS,
    ]
    for note in found.notes:
        say_note(note)
    if asked.html is not None:
        sources = [provenance.saved_source("file", file.name, file.sha256, file.sources) for file in files]
        made = [provenance.rates_line(files[0].rates_sha256), *provenance.lines(asked, "")]
        heading = Heading(asked.title or "Total of carriers", lines, sources, made, found.notes)
        write_whole(asked.html, _page(heading, found, asked.weighted, words, holds).encode("utf-8", "backslashreplace"))
    if asked.json:
        put_json(_as_dict(found, words, holds))
    elif asked.csv:
        put_bytes(csv_bytes(_CSV_HEADER, _csv_rows(found, asked.weighted)))
    else:
        top = "\n".join([*lines, *(f"note: {note}" for note in found.notes)])
        foot = [f"{POISSON_WORDS}.", CRUDE_NOTE, *[words] * bool(words)]
        put("\n".join([f"Total of {top}\n", *map(printed, _tables(found, asked.weighted)), *foot]) + "\n")
    if not holds:
        say(words)
    return DONE if holds else DATA_REFUSED


def _read(path: str) -> Published:
    try:
        return published.read(path, read_bytes("published file", path))
    except ValueError as error:
        raise DataRefused(f"'{path}': {error}") from None


def _tables(found: Total, weighted: bool) -> List[Table]:
    return [_file_table(found), *_figure_tables(found, False), *(_figure_tables(found, True) if weighted else []), *_years_tables(found, weighted)]


def _figure_tables(found: Total, weighted: bool) -> List[Table]:
    """The tables of a set, by count with the crude rates; of durations those of their rows."""
    if not found.by_group:
        return duration_tables([(row.band, row.count) for row in found.rows])
    groups = [GroupFigures(i, row.weighted if weighted else row.count) for i, row in enumerate(found.rows, 1)]
    exposure, ratio, apart, expected = set_tables(groups, not weighted)
    return [exposure, ratio, apart, expected] if weighted else [exposure, ratio, apart, _crude_table(groups), expected]


def _file_table(found: Total) -> Table:
    columns = (Column("carrier", left=True, wraps=True), Column("claims", "taken"), Column("closings"), Column("corrections", left=True))
    columns += (*COUNT_COLUMNS, Column("published", left=True), Column("files", f"sha256, first {_HASH_SHOWN} digits", left=True, wraps=True))
    rows = []
    for entry in found.entries:
        closed = sum(row.count.closings for row in entry.whole.rows)
        kinds = " and ".join(file.kind for file in entry.files)
        names = ", ".join(f"{file.name} {file.sha256[:_HASH_SHOWN]}" for file in entry.files)
        sums = entry.carrier, whole(entry.whole.claims_taken), whole(closed)
        rows.append(Row((*sums, "with" if entry.whole.corrected else "without", *_counts([entry]), kinds, names)))
    closed = sum(row.count.closings for row in found.rows)
    last = Row(("all", whole(found.claims_taken), whole(closed), "", *_counts(found.entries), "", ""), summary=True)
    return Table("What was added", columns, [*rows, last])


def _counts(entries: Sequence[Entry]) -> Tuple[str, str]:
    """Numbers repeated and claims left out, of some carriers together."""
    return count_cells(sum(entry.whole.repeated_numbers for entry in entries), sum(entry.whole.left_out for entry in entries))


def _crude_table(groups: Sequence[GroupFigures]) -> Table:
    kinds = tuple(Column(kind, unit) for kind in KINDS for unit in ("monthly rate", "95 % interval"))

    def cells(sums: GroupSums) -> Tuple[str, ...]:
        found = [months(sums.thirtieths)]
        for rate in crude_rates(sums):
            found += rate.text, rate.interval_text
        return tuple(found)

    last = Row(("all", "", *cells(total(group.sums for group in groups))), summary=True)
    rows = [*group_rows(groups, [cells(group.sums) for group in groups]), last]
    return Table("Crude monthly rates", (*GROUP_COLUMNS, Column("exposure", "months"), *kinds), rows)


def _years_tables(found: Total, weighted: bool) -> List[Table]:
    """The parts beside the window, all durations together, carrier by carrier and in total."""
    if not found.with_years:
        return []
    who = [(entry.carrier, [entry]) for entry in found.with_years] + [("all carriers that sent their years", found.with_years)]
    tables = []
    for of_set in (False, True)[: 1 + weighted]:
        more = ", weighted by benefit" if of_set else ""
        for name, entries in who:
            beside = beside_rows([part.label for part in found.parts], all_rows_beside(entries, len(found.rows), of_set))
            tables.append(beside_table(f"Years beside the window{more}: {name}", "part", beside))
    return tables


def _page(heading: Heading, found: Total, weighted: bool, words: str, holds: bool) -> str:
    sections = [Section(_file_table(found))]
    for of_set in (False, True)[: 1 + weighted]:
        first, *others = _figure_tables(found, of_set)
        sums = [row.weighted if of_set else row.count for row in found.rows]
        sections += _charted(first, others.pop(0), sums, of_set) if found.by_group else [_by_duration(first, found)]
        sections += map(Section, others)
    sections += map(Section, _years_tables(found, weighted))
    return page_of(heading, Judged(words, holds) if words else None, sections, foot=(*NOTES, CRUDE_NOTE, NO_FACTORS))


def _charted(exposure: Table, ratio: Table, sums: Sequence[GroupSums], weighted: bool) -> List[Section]:
    """Both tables with charts beside them."""
    bars = group_bars(sums)
    if not bars:
        return [Section(exposure), Section(ratio)]
    name, more = ("weighted-", ", weighted by benefit") if weighted else ("", "")
    charts = [exposure_chart(f"{name}exposure", f"Exposure by group{more}, in months", bars)]
    charts.append(closings_chart(f"{name}closings", f"Closings by group{more}", bars))
    return [Section(exposure, charts), Section(ratio, [ratio_chart(f"{name}ratio", f"Actual to expected by group{more}", sums, not weighted)])]


def _by_duration(table: Table, found: Total) -> Section:
    """The table of durations with charts of its rates."""
    rows = [(row.band[0], row.count) for row in found.rows]
    charts = [rate_chart(f"{kind}-rates", f"Crude monthly rates of {kind} and the table's", rows, i) for i, kind in enumerate(KINDS)]
    return Section(table, charts)


_CSV_HEADER = ("set", "row", "first_duration", "last_duration", *SUM_NAMES, "months", "actual", "expected")
_CSV_HEADER += tuple(f"{kind}{end}" for kind in ("actual_to_expected", "recoveries_to_expected", "deaths_to_expected") for end in ("", "_low", "_high"))
_CSV_HEADER += tuple(f"{kind}{end}" for kind in ("recovery_rate", "death_rate") for end in ("", "_low", "_high"))


def _csv_rows(found: Total, weighted: bool) -> List[List[object]]:
    rows: List[List[object]] = []
    for of_set in ("count", "weighted")[: 1 + weighted]:
        sums = [row.weighted if of_set == "weighted" else row.count for row in found.rows]
        for i, (row, own) in enumerate(zip(found.rows, sums), 1):
            rows.append([of_set, i, *row.band, *_csv_figures(own, of_set == "count")])
        rows.append([of_set, "all", found.rows[0].band[0], found.rows[-1].band[1], *_csv_figures(total(sums), of_set == "count")])
    return rows


def _csv_figures(sums: GroupSums, by_count: bool) -> List[object]:
    figures: List[object] = [*sums, months(sums.thirtieths).replace(",", ""), sums.terminations, sums.expected]
    for ratio in ratios_of(sums, by_count):
        figures += [ratio.text.replace(",", ""), *(ratio.interval or ("", ""))]
    for rate in crude_rates(sums):
        figures += [rate.text.replace(",", ""), *(rate.interval or ("", ""))] if by_count else [""] * 3
    return figures


def _as_dict(found: Total, words: str, holds: bool) -> Dict[str, Any]:
    """The total for JSON."""
    files = [
        {
            "carrier": entry.carrier,
            "files": [{"name": file.name, "sha256": file.sha256, "published": file.kind} for file in entry.files],
            "claims_sha256": entry.whole.claims_sha256 or None,
            "claims_taken": entry.whole.claims_taken,
            "corrected": entry.whole.corrected,
            "repeated_numbers": entry.whole.repeated_numbers,
            "left_out": entry.whole.left_out,
        }
        for entry in found.entries
    ]
    header = _CSV_HEADER
    rows = [{name: None if figure == "" else figure for name, figure in zip(header, row)} for row in _csv_rows(found, found.by_group)]
    return {
        "format": FORMAT,
        "window": {"first": str(found.window.first), "last": str(found.window.last)},
        "claims_taken": found.claims_taken,
        "rates_sha256": found.entries[0].whole.rates_sha256,
        "carriers": files,
        "engine": provenance.engine(),
        "note": NO_FACTORS,
        "rows": rows,
        "years": _years_dict(found, words, holds),
    }


def _years_dict(found: Total, words: str, holds: bool) -> Optional[Dict[str, Any]]:
    if not found.with_years:
        return None
    who = [(entry.carrier, [entry]) for entry in found.with_years] + [(None, found.with_years)]
    besides = [(carrier, all_rows_beside(entries, len(found.rows), False)) for carrier, entries in who]
    return {
        "adds_up": holds,
        "verdict": words,
        "parts": [{"label": part.label, "first": str(part.first), "last": str(part.last)} for part in found.parts],
        "beside": [
            {
                "carrier": carrier,
                "parts": [sums_dict(sums) for sums in beside.parts],
                "together": sums_dict(beside.together),
                "window": sums_dict(beside.whole),
                "difference": dict(beside.difference._asdict()),
            }
            for carrier, beside in besides
        ],
    }
