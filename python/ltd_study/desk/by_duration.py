"""durations: the sums of each month of duration, as text, CSV, JSON and a page."""

from argparse import ArgumentParser, Namespace
from typing import Any, Callable, Dict, List, Sequence

from ..claim_file import ClaimFile, RefusedFile, file_study
from ..duration_rows import MOST_ROWS, USUAL_ROWS, RefusedDurations
from ..duration_rows import durations as duration_rows
from ..study import Study
from . import parts as cutting
from . import provenance
from .charts import rate_chart
from .checking import Found
from .choosing import Chosen, choose, say_left_out
from .crude_rates import CRUDE_NOTE, KINDS
from .csv_rows import csv_bytes
from .duration_reports import CSV_HEADER, ByDuration, OfPart, all_dict, csv_rows, part_dict, part_tables
from .figures import counted
from .page import NOTES, Heading, Judged, Section, Source, page_of
from .parts import Part
from .progress import Progress
from .published import DURATIONS_FORMAT
from .reports import LEFT_OUT, found_dict, found_table
from .tables import Table, printed
from .talk import DATA_REFUSED, DONE, DataRefused, WrongUse, put, put_bytes, put_json, say, say_note
from .whole_files import write_whole

ABOUT = (
    "A row for each month of duration, by count; the last row has all later ones. Crude monthly rates are\n"
    "recoveries, or deaths, over months of exposure, with Wilson's 95 % intervals, blank with no exposure;\n"
    "expected rates are the table's. The groups' totals under the rows are verified against the study: status\n"
    "1 if they differ. --by-year writes the same for each calendar year, and verifies that the years total the\n"
    "window at every duration."
)
EXAMPLE = "./ltd durations portfolio.claims portfolio.rates --to 121 --html durations.html"


def arguments(parser: ArgumentParser, count: Callable[[str], int]) -> None:
    """What can be asked of the command beside claims, rates and window."""
    says = f"rows of one duration each up to N - 1, and one of N and all later ones (default {USUAL_ROWS}, at most {MOST_ROWS:,})"
    parser.add_argument("--to", metavar="N", type=count, default=USUAL_ROWS, help=says)
    parser.add_argument("--by-year", action="store_true", help="each calendar year too, verified to total the window at every duration")
    form = parser.add_mutually_exclusive_group()
    form.add_argument("--json", action="store_true", help="print JSON")
    form.add_argument("--csv", action="store_true", help="print CSV: the sums as the engine has them, rates with their intervals")
    parser.add_argument("--html", metavar="FILE", help="write a page to hand on: tables and charts in one file")
    parser.add_argument("--title", help="the page's title")
    provenance.options(parser)
    parser.set_defaults(corrected=False)


def durations(asked: Namespace) -> int:
    """The rows of a claim file; status 1 if they don't total its study."""
    if not 1 <= asked.to <= MOST_ROWS:
        raise WrongUse(f"--to {asked.to}: the last row's duration is from 1 to {MOST_ROWS:,}")
    chosen = choose(asked)
    found = _by_duration(asked, chosen)
    _show(asked, chosen, found)
    say_left_out(asked, chosen.left_out)
    if not found.holds:
        say(found.words)
    return DONE if found.holds else DATA_REFUSED


def _by_duration(asked: Namespace, chosen: Chosen) -> ByDuration:
    whole_study = chosen.study()
    window = Part(whole_study.first, whole_study.last)
    whole = _of_part(chosen, chosen.file, window, asked.to, whole_study)
    if not asked.by_year:
        return ByDuration(whole, [])
    years = cutting.calendar_years(*window)
    parts: List[OfPart] = []
    with Progress("studying the years", len(years)) as progress:
        for i, year in enumerate(years):
            progress.at(i)
            file = chosen.file.with_window(*year)
            parts.append(_of_part(chosen, file, year, asked.to, file_study(file, chosen.rates)))
    return ByDuration(whole, parts)


def _of_part(chosen: Chosen, file: ClaimFile, part: Part, last: int, study: Study) -> OfPart:
    try:
        return OfPart(part, duration_rows(file, chosen.rates, last), study)
    except RefusedDurations as refused:
        # The engine refuses both runs alike, so the study was refused before.
        raise DataRefused(chosen.refusal(RefusedFile(refused.number, refused.block or 0, refused.place or 0, study))) from None


def _show(asked: Namespace, chosen: Chosen, found: ByDuration) -> None:
    whole = found.whole
    lines = [f"{whole.part.first} to {whole.part.last}: {counted(whole.found.claims_taken, 'claim')} taken"]
    lines += [f"carrier: {asked.carrier}"] * bool(asked.carrier) + chosen.lines
    for note in chosen.notes:
        say_note(note)
    heading = Heading(asked.title or "Disability study by duration", lines, *provenance.made(asked, chosen.sources, asked.carrier), chosen.notes)
    if asked.html is not None:
        write_whole(asked.html, _page(heading, found, chosen.left_out).encode("utf-8", "backslashreplace"))
    if asked.json:
        put_json(_as_dict(asked, chosen, found, heading.sources))
    elif asked.csv:
        put_bytes(csv_bytes(CSV_HEADER, [row for one in (whole, *found.parts) for row in csv_rows(one)]))
    else:
        notes = [f"note: {note}" for note in chosen.notes]
        tables = _tables(found)
        tables += [found_table(LEFT_OUT, chosen.left_out)] if chosen.left_out else []
        put("\n".join(["By duration " + "\n".join([*lines, *notes]) + "\n", *map(printed, tables), CRUDE_NOTE, found.words]) + "\n")


def _page(heading: Heading, found: ByDuration, left_out: List[Found]) -> str:
    whole = found.whole
    rows = list(zip((first for first, _ in whole.bands), whole.found.rows))
    charts = [rate_chart(f"{kind}-rates", f"Crude monthly rates of {kind} and the table's", rows, i) for i, kind in enumerate(KINDS)]
    tables = _tables(found) + ([found_table(LEFT_OUT, left_out)] if left_out else [])
    return page_of(heading, Judged(found.words, found.holds), list(map(Section, tables)), charts, foot=(*NOTES, CRUDE_NOTE))


def _tables(found: ByDuration) -> List[Table]:
    """Those of the window, then those of each part."""
    return part_tables(found.whole) + [table for one in found.parts for table in part_tables(one, f", {one.part.label}")]


def _as_dict(asked: Namespace, chosen: Chosen, found: ByDuration, sources: Sequence[Source]) -> Dict[str, Any]:
    whole = found.whole
    parts = [{"label": one.part.label, "first": str(one.part.first), "last": str(one.part.last), **part_dict(one.found)} for one in found.parts]
    return {
        "format": DURATIONS_FORMAT,
        "window": {"first": str(whole.part.first), "last": str(whole.part.last)},
        "corrected": False,
        "carrier": asked.carrier,
        "claims_sha256": chosen.sources[0].sha256,
        "rates_sha256": chosen.rates.sha256,
        "sources": [one._asdict() for one in provenance.kept(sources)],
        "engine": provenance.engine(),
        "repeated_numbers": chosen.repeated,
        "left_out": [found_dict(one) for one in chosen.left_out],
        "adds_up": found.holds,
        **part_dict(whole.found),
        "all": all_dict(whole.found),
        "parts": parts,
    }
