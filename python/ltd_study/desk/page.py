"""One self-contained page: tables, drawn charts and notes. It needs no network and no script, and prints on paper."""

from html import escape
from pathlib import Path
from typing import List, NamedTuple, Optional, Sequence

from ..study import GroupSums, Study
from .charts import Chart, closings_chart, exposure_chart, group_bars, part_bars, ratio_chart
from .intervals import POISSON_WORDS
from .parts import Divided
from .reports import closings_table, part_totals, shown_years_tables, study_tables
from .side_files import Kept
from .tables import Column, Row, Table, folded

NOTES = (
    "Exposure is counted in thirtieths of a month. A month of -1 thirtieths can stand in a part that begins the day a claim closed in a month "
    "of 28 days; it is kept, so that the parts total the window.",
    "Actual are recoveries and deaths; settlements, max-outs and limits are closings that don't count there. Expected sums count in 1/30,000,000 of a "
    "closing. Actual to expected is 30,000,000 × actual / expected sum, blank where nothing is expected.",
    f"{POISSON_WORDS}. Sums weighted by benefit are no counts, and have none.",
    "All sums, counts, z, m and T come from the study engine, whose calls are proved; totals, differences, ratios and intervals were added here.",
)

FACTOR_WORDS = (
    (
        "z, credibility",
        "How far the study's own experience counts: 0 where nothing is expected, else the root of E / K, rounded down to a millionth and at most 1. E is what is "
        "expected of recoveries and deaths together; K is 3,300, 2,500, 2,100 and 1,700 closings in groups 2 to 5.",
    ),
    (
        "m, margin",
        "What is taken off for caution: 0.03 more than 1.03 times the root of A / C, rounded up to a millionth and at most 0.15; 0.15 where C is 0. C is the number of "
        "recoveries and deaths; A is 4, 3, 2.5 and 2 in groups 2 to 5.",
    ),
    (
        "T, factor",
        "What the table's rates are multiplied by for valuation: z × (1 − m) × C / E + 1 − z, and 1 where nothing is expected. It stands here without any "
        "ceiling; the limit of 1.30 in groups 3 to 5 is judged on reserves, apart from this page.",
    ),
    ("Group 1", "z and m are 0 and T is 1. z, m and T go by count, also where sums are weighted by benefit."),
)

_LONG = 30
"""Rows of a table that may be printed on more than one page."""
_WIDE = 12
"""Columns of a table that is set closer on paper, if it has more."""


class Source(NamedTuple):
    """A file that a page was made from, with its fingerprint, how it was made and its map's text."""

    what: str
    name: str
    sha256: str
    notes: Sequence[str] = ()
    map_text: str = ""
    kept: Sequence[Kept] = ()
    """What is known of the files that it was made from itself: its CSV and map, or what a saved JSON keeps."""


class Heading(NamedTuple):
    """What stands on top of a page, and at its foot: the files it was made from, and by whom, when and how."""

    title: str
    lines: Sequence[str]
    sources: Sequence[Source]
    made: Sequence[str] = ()
    notes: Sequence[str] = ()
    """What a reader must not miss."""


class Section(NamedTuple):
    """A table with the charts that stand beside it, and a box below it."""

    table: Table
    charts: Sequence[Chart] = ()
    box: str = ""


class Judged(NamedTuple):
    """A verdict in words, and whether it is as it has to be."""

    words: str
    holds: bool


def study_page(heading: Heading, study: Study, weighted: bool, more: Sequence[Table] = (), judged: Optional[Judged] = None) -> str:
    """The page of a study, with tables of what else was asked and the verdict on them."""
    sections = _study_sections(study_tables(study, False), study.groups, "")
    if weighted:
        tables = study_tables(study, True)
        sections += _study_sections(tables[len(tables) // 2 :], study.weighted, ", weighted by benefit")
    return page_of(heading, judged, [*sections, *map(Section, more)])


def _study_sections(tables: Sequence[Table], groups: Sequence[GroupSums], of_set: str) -> List[Section]:
    """The tables of a set, the first two with charts beside them."""
    exposure, ratio, *others = tables
    name, by_count = "weighted-" if of_set else "", not of_set
    bars = group_bars(groups)
    charts = [exposure_chart(f"{name}exposure", f"Exposure by group{of_set}, in months", bars)] if bars else []
    charts += [closings_chart(f"{name}closings", f"Closings by group{of_set}", bars)] if bars else []
    ratios = [ratio_chart(f"{name}ratio", f"Actual to expected by group{of_set}", groups, by_count)]
    return [Section(exposure, charts), Section(ratio, ratios, factor_box() if by_count else ""), *map(Section, others)]


def years_page(heading: Heading, divided: Divided, weighted: bool, judged: Judged, more: Sequence[Table]) -> str:
    """The page of a window cut into parts, with the verdict on them."""
    parts = part_bars(list(zip((part for part, _ in divided.parts), part_totals(divided))))
    charts = [ratio_chart("ratio", "Actual to expected by group, undivided window", divided.whole.groups)]
    charts += [exposure_chart("exposure", "Exposure by part, in months", parts), closings_chart("closings", "Closings by part", parts)]
    sections = list(map(Section, [closings_table(divided), *shown_years_tables(divided, weighted), *more]))
    return page_of(heading, judged, sections, charts)


def factor_box() -> str:
    """What z, m and T are."""
    terms = "".join(f"<dt>{escape(term)}</dt><dd>{escape(words)}</dd>\n" for term, words in FACTOR_WORDS)
    return f'<aside class="box">\n<h3>What z, m and T are</h3>\n<dl>\n{terms}</dl>\n</aside>\n'


def page_of(
    heading: Heading, judged: Optional[Judged], sections: Sequence[Section], charts: Sequence[Chart] = (), foot: Sequence[str] = NOTES
) -> str:
    """A whole page: heading, notes, verdict, charts, sections and footer."""
    style = Path(__file__).with_name("page.css").read_text(encoding="utf-8")
    lines = "".join(f'<p class="muted">{escape(line)}</p>\n' for line in heading.lines)
    notes = "".join(f'<p class="note">Note: {escape(note)}.</p>\n' for note in heading.notes)
    verdict = f'<p class="verdict{"" if judged.holds else " bad"}">{escape(judged.words)}</p>' if judged else ""
    return (
        '<!DOCTYPE html>\n<html lang="en">\n<head>\n<meta charset="utf-8">\n'
        "<meta http-equiv=\"Content-Security-Policy\" content=\"default-src 'none'; style-src 'unsafe-inline'\">\n"
        '<meta name="viewport" content="width=device-width, initial-scale=1">\n'
        f"<title>{escape(heading.title)}</title>\n<style>\n{style}</style>\n</head>\n<body>\n<main>\n"
        f"<header>\n<h1>{escape(heading.title)}</h1>\n{lines}</header>\n{notes}{verdict}\n{_charts(charts)}"
        f"{''.join(map(_section, sections))}{_footer(heading, foot)}</main>\n</body>\n</html>\n"
    )


def _charts(charts: Sequence[Chart]) -> str:
    return f'<div class="charts">\n{"".join(map(_figure, charts))}</div>\n' if charts else ""


def _figure(chart: Chart) -> str:
    return f"<figure>\n<figcaption>{escape(chart.title)}</figcaption>\n{chart.svg}\n</figure>\n"


def _section(section: Section) -> str:
    table = folded(section.table)
    head = "".join(map(_heading_cell, table.columns))
    rows = "".join(_row(row, table.columns) for row in table.rows)
    name = escape(table.title)
    kind = " ".join(["beside"] * bool(section.charts) + ["long"] * (len(table.rows) > _LONG) + ["wide"] * (len(table.columns) > _WIDE))
    return (
        f'<section class="{kind}">\n<h2>{name}</h2>\n<div class="scroll" role="region" aria-label="{name}" tabindex="0">\n<table>\n'
        f"<thead><tr>{head}</tr></thead>\n<tbody>\n{rows}</tbody>\n</table>\n</div>\n{_charts(section.charts)}{section.box}</section>\n"
    )


def _heading_cell(column: Column) -> str:
    unit = f"<span>{escape(column.unit)}</span>" if column.unit else ""
    return f'<th scope="col"{_side(column)}>{escape(column.heading)}{unit}</th>'


def _row(row: Row, columns: Sequence[Column]) -> str:
    cells: List[str] = []
    for i, (cell, column) in enumerate(zip(row.cells, columns)):
        tag, scope = ("th", ' scope="row"') if i == 0 else ("td", "")
        cells.append(f"<{tag}{scope}{_side(column)}>{escape(cell)}</{tag}>")
    kind = ' class="summary"' if row.summary else ""
    return f"<tr{kind}>{''.join(cells)}</tr>\n"


def _side(column: Column) -> str:
    kinds = ["left"] * column.left + ["wraps"] * column.wraps
    return f' class="{" ".join(kinds)}"' if kinds else ""


def _footer(heading: Heading, notes: Sequence[str]) -> str:
    told = "".join(f"<p>{escape(note)}</p>\n" for note in notes)
    made_from = "".join(f"<p>{escape(line)}</p>\n" for line in heading.made) + "".join(map(_made_from, heading.sources))
    return f'<footer>\n<div>\n{told}</div>\n<div class="made">\n{made_from}</div>\n</footer>\n'


def _made_from(source: Source) -> str:
    lines = [f"{source.what}: {source.name}, sha256 {source.sha256}", *(f"{source.what}: {note}" for note in source.notes)]
    map_text = f"<pre>{escape(source.map_text)}</pre>\n" if source.map_text else ""
    return "".join(f"<p>{escape(line)}</p>\n" for line in lines) + map_text
