"""study, pool and years: tables, CSV, JSON and the page."""

import hashlib
from argparse import Namespace
from typing import Any, Dict, List, NamedTuple, Optional, Sequence, Set, Tuple

from ..claim_file import ClaimFile, RefusedFile
from ..refusals import Refused
from ..study import Study, total
from . import parts as cutting
from . import provenance
from .checking import Found
from .choosing import Chosen, choose, say_left_out
from .csv_rows import csv_bytes
from .figures import counted
from .intervals import POISSON_WORDS
from .page import Heading, Judged, Source, study_page, years_page
from .parts import Closing, Divided, Part
from .pool_reports import pool_lines, pool_notes, pooled_table
from .progress import Progress
from .published import YEARS_FORMAT
from .reports import (
    CLOSINGS_CSV_HEADER,
    LEFT_OUT,
    STUDY_CSV_HEADER,
    YEARS_CSV_HEADER,
    closing_list,
    closing_row,
    closings_table,
    found_dict,
    found_table,
    study_rows,
    study_tables,
    years_rows,
    years_sets,
    years_tables,
)
from .study_json import Pooled, SavedStudy, of_json, to_json
from .tables import Column, Table, printed
from .talk import DATA_REFUSED, DONE, DataRefused, WrongUse, put, put_bytes, put_json, read_bytes, say, say_note
from .value_reports import VALUE_CSV_HEADER, value_dict, value_rows, value_tables
from .values import ByValue, by_value, read_values
from .whole_files import must_be_writable, write_whole

MOST_CLOSINGS_SHOWN = 50


def study(asked: Namespace) -> int:
    """The study of a claim file; status 1 if the studies of a column's values don't total it."""
    chosen = choose(asked)
    found = chosen.study()
    claims_source, rates_source = chosen.sources
    about = chosen.rates.sha256, claims_source.sha256, asked.carrier, tuple(chosen.repeated), tuple(chosen.left_out)
    column = None if asked.by is None else read_values(asked.by, chosen)
    by = None if column is None else by_value(chosen, found, column)
    sources = [claims_source, rates_source] + ([] if column is None else [column.source])
    saved = SavedStudy(found, asked.corrected, *about)
    heading = study_heading(asked, saved, "Disability study", sources)._replace(notes=chosen.notes)
    show_study(asked, _with_lines(heading, chosen.lines), saved, left_out_tables(saved), by)
    say_left_out(asked, chosen.left_out)
    if by is not None and not by.adds_up:
        say(by.words)
        return DATA_REFUSED
    return DONE


def study_heading(asked: Namespace, saved: SavedStudy, title: str, sources: Sequence[Source]) -> Heading:
    """Title, window, claims taken and carrier, and for a page where it comes from."""
    found, carrier = saved.study, saved.carrier
    lines = [f"{found.first} to {found.last}: {counted(found.claims_taken, 'claim')} taken"] + [f"carrier: {carrier}"] * bool(carrier)
    return Heading(asked.title or title, lines, *provenance.made(asked, sources, carrier))


def _with_lines(heading: Heading, more: Sequence[str]) -> Heading:
    return heading._replace(lines=[*heading.lines, *more])


def left_out_tables(saved: SavedStudy) -> List[Table]:
    """The claims that are left out, if there are any."""
    return [found_table(LEFT_OUT, saved.left_out)] if saved.left_out else []


def show_study(asked: Namespace, heading: Heading, saved: SavedStudy, listed: Sequence[Table] = (), by: Optional[ByValue] = None) -> None:
    """The study in the form asked for, and as a page."""
    found = saved.study
    more = [*listed, *([] if by is None else value_tables(by, asked.weighted))]
    for note in heading.notes:
        say_note(note)
    if asked.html is not None:
        judged = None if by is None else Judged(by.words, by.adds_up)
        write_whole(asked.html, study_page(heading, found, asked.weighted, more, judged).encode("utf-8", "backslashreplace"))
    if asked.json:
        put(to_json(saved._replace(sources=provenance.kept(heading.sources)), engine=provenance.engine(), **({} if by is None else {"by": value_dict(by)})))
    elif asked.csv and by is not None:
        put_bytes(csv_bytes(VALUE_CSV_HEADER, value_rows(by, asked.weighted)))
    elif asked.csv:
        put_bytes(csv_bytes(STUDY_CSV_HEADER, study_rows(found, asked.weighted)))
    else:
        tables = [*map(printed, study_tables(found, asked.weighted)), POISSON_WORDS + ".\n", *map(printed, more)]
        put("\n".join([_top("Study of", heading), *tables, *([] if by is None else [by.words + "\n"])]))


def _top(what: str, heading: Heading) -> str:
    return f"{what} " + "\n".join([*heading.lines, *(f"note: {note}" for note in heading.notes)]) + "\n"


def pool(asked: Namespace) -> int:
    """Saved studies joined into one."""
    saved, sources = zip(*map(read_saved, asked.studies))
    together = [one for path, study in zip(asked.studies, saved) for one in study.as_pooled(path)]
    _must_be_poolable(asked, saved, together)
    pooled: Optional[Study] = None
    for path, one in zip(asked.studies, saved):
        try:
            # A fresh study of the window is neutral; joined to it, the first study is looked at as all others are.
            pooled = pooled or Study.open(one.study.first, one.study.last)
            pooled.join(one.study)
        except (ValueError, OverflowError) as error:
            raise DataRefused(f"'{path}': {error}") from None
    assert pooled is not None, "a pool has a first study"
    all_of_them = SavedStudy(pooled, all(one.corrected for one in together), saved[0].rates_sha256, pooled=tuple(together))
    title = f"Disability study, {counted(len(together), 'study', 'studies')} pooled"
    heading = _with_lines(study_heading(asked, all_of_them, title, sources), pool_lines(together))
    made = [provenance.rates_line(all_of_them.rates_sha256), *heading.made]
    show_study(asked, heading._replace(made=made, notes=pool_notes(together)), all_of_them, [pooled_table(together)])
    return DONE


def _must_be_poolable(asked: Namespace, saved: Sequence[SavedStudy], together: Sequence[Pooled]) -> None:
    """One table, and no claims twice."""
    for path, one in zip(asked.studies[1:], saved[1:]):
        if one.rates_sha256 != saved[0].rates_sha256:
            other = f"'{path}' was made with another rate table than '{asked.studies[0]}'"
            raise DataRefused(f"{other}: a pool is the study of all claims with one table")
    files: Dict[str, str] = {}
    for one in together:
        if one.claims_sha256 in files and not asked.again:
            same = f"'{one.file}' is a study of the same claim file as '{files[one.claims_sha256]}'"
            raise DataRefused(f"{same} (claims_sha256 {one.claims_sha256}): its claims would count twice; --again pools them all the same")
        files[one.claims_sha256] = one.file


def read_saved(path: str) -> Tuple[SavedStudy, Source]:
    """A saved study, every figure of it checked, and the file's fingerprint."""
    data = read_bytes("saved study", path)
    try:
        saved = of_json(data.decode("utf-8-sig"))
    except ValueError as error:
        raise DataRefused(f"'{path}': {error}") from None
    return saved, provenance.saved_source("study", path, hashlib.sha256(data).hexdigest(), saved.sources)


def years(asked: Namespace) -> int:
    """A study of each part of the window beside the undivided one; status 1 if they didn't add up."""
    chosen = choose(asked)
    cut_up = _parts(asked, chosen.file)
    made = provenance.made(asked, chosen.sources, asked.carrier)
    for path in (asked.html, asked.closings):
        if path is not None:
            must_be_writable(path)
    try:
        with Progress("studying the parts", len(cut_up)) as progress:
            divided = cutting.divide(chosen.file, chosen.rates, cut_up, asked.corrected, progress.at)
    except RefusedFile as refused:
        raise DataRefused(chosen.refusal(refused)) from None
    records = [chosen.whole.record(*found.where).data for found in chosen.left_out]
    refused_in = cutting.refused_in(records, chosen.rates, cut_up)
    verdict = Verdict(divided, _closings(asked, chosen, divided), list(zip(chosen.left_out, refused_in)))
    _show_years(asked, verdict, chosen, made)
    say_left_out(asked, chosen.left_out)
    if not verdict.holds:
        say(verdict.words)
    return DONE if verdict.holds else DATA_REFUSED


def _parts(asked: Namespace, file: ClaimFile) -> List[Part]:
    """The parts asked for, of the file's window."""
    try:
        found = Study.open(*file.window())
    except Refused as refused:
        raise DataRefused(f"'{asked.claims}': {Refused(refused.number, 0, 0)}") from None
    try:
        if asked.cut is None:
            return cutting.calendar_years(found.first, found.last)
        return cutting.cut(found.first, found.last, asked.cut)
    except ValueError as error:
        raise WrongUse(f"--cut: {error}") from None


def _closings(asked: Namespace, chosen: Chosen, divided: Divided) -> Optional[List[Closing]]:
    """Each closing with its part, where a file of them is asked for or they are few; the file is written."""
    many = total(divided.whole.groups).closings > MOST_CLOSINGS_SHOWN
    if many and asked.closings is None:
        return None
    with Progress("looking for closings", chosen.whole.last_block) as progress:
        closed = list(cutting.closings((record for _, record in chosen.counted()), divided, progress.at))
    if asked.closings is not None:
        write_whole(asked.closings, csv_bytes(CLOSINGS_CSV_HEADER, [closing_row(closing) for closing in closed]))
    return closed


class Verdict(NamedTuple):
    """A window cut into parts, its closings, if they were looked for, and the claims left out: whether it is as the theorem says."""

    divided: Divided
    closed: Optional[List[Closing]]
    left_out: List[Tuple[Found, Set[int]]]
    """Each with the numbers under which the parts refuse it."""

    @property
    def holds(self) -> bool:
        """Whether the parts total the window, each closing is counted in exactly one, and each claim left out is refused in all under one number."""
        if not all(numbers == {found.refused} for found, numbers in self.left_out):
            return False
        if self.closed is None:
            return self.divided.adds_up
        counted_once = all(closing.counted_once for closing in self.closed)
        return self.divided.adds_up and counted_once and len(self.closed) == total(self.divided.whole.groups).closings

    @property
    def words(self) -> str:
        """The same in words."""
        if not self.holds:
            return (
                "The parts do not add up to the undivided window, or a closing is not counted in exactly one, or a claim left out is not refused in all. "
                "That contradicts the engine's theorem: keep the files, and check that the engine was built from its own sources."
            )
        count = len(self.divided.parts)
        words = f"The {counted(count, 'part')} add up: " if count != 1 else "The one part is the window: "
        words += "in every group every sum of the parts, by count and weighted, totals the undivided window's; every difference is 0."
        if self.closed:
            words += f" {counted(len(self.closed), 'closing is', 'closings are')} counted in exactly one part each."
        if self.left_out:
            words += f" {counted(len(self.left_out), 'claim is', 'claims are')} left out: each is refused in every part, under the number of the window."
        return words


def _left_out_table(verdict: Verdict) -> Table:
    every = f"all {len(verdict.divided.parts)}, under "
    in_parts = [every + str(found.refused) if numbers == {found.refused} else f"not so: {sorted(numbers)}" for found, numbers in verdict.left_out]
    return found_table(LEFT_OUT, [found for found, _ in verdict.left_out], [(Column("refused in parts", left=True), in_parts)])


def _show_years(asked: Namespace, verdict: Verdict, chosen: Chosen, made: Tuple[List[Source], List[str]]) -> None:
    divided, closed, left_out = verdict
    found = divided.whole
    lines = [f"{found.first} to {found.last} in {counted(len(divided.parts), 'part')}: {counted(found.claims_taken, 'claim')} taken in each study"]
    lines += [f"carrier: {asked.carrier}"] * bool(asked.carrier)
    heading = Heading(asked.title or "Disability study, part by part", lines + chosen.lines, *made, chosen.notes)
    few = closed is not None and len(closed) <= MOST_CLOSINGS_SHOWN
    listed = [_left_out_table(verdict)] if left_out else []
    listed += [closing_list(closed)] if few and closed else []
    for note in heading.notes:
        say_note(note)
    if asked.html is not None:
        page = years_page(heading, divided, asked.weighted, Judged(verdict.words, verdict.holds), listed)
        write_whole(asked.html, page.encode("utf-8", "backslashreplace"))
    if asked.json:
        put_json(_years_dict(asked, verdict, chosen, heading.sources))
    elif asked.csv:
        put_bytes(csv_bytes(YEARS_CSV_HEADER, years_rows(divided, asked.weighted)))
    else:
        tables = [closings_table(divided), *years_tables(divided, asked.weighted), *listed]
        more = [] if closed is not None else ["Which part counts each closing: '--closings FILE' writes it.\n"]
        put("\n".join([_top("Studies of", heading), *map(printed, tables), *more, verdict.words + "\n"]))


def _years_dict(asked: Namespace, verdict: Verdict, chosen: Chosen, sources: Sequence[Source]) -> Dict[str, Any]:
    """Years for JSON: each set, group by group, with the parts' sums in their order."""
    divided, closed, left_out = verdict
    return {
        "format": YEARS_FORMAT,
        "parts": [{"label": part.label, "first": str(part.first), "last": str(part.last)} for part, _ in divided.parts],
        "window": {"first": str(divided.whole.first), "last": str(divided.whole.last)},
        "corrected": chosen.corrected,
        "claims_taken": divided.whole.claims_taken,
        "carrier": asked.carrier,
        "claims_sha256": chosen.sources[0].sha256,
        "rates_sha256": chosen.rates.sha256,
        "sources": [one._asdict() for one in provenance.kept(sources)],
        "engine": provenance.engine(),
        "repeated_numbers": chosen.repeated,
        "left_out": [{**found_dict(found), "refused_in_parts": sorted(numbers)} for found, numbers in left_out],
        "adds_up": verdict.holds,
        **years_sets(divided),
        "closings": None if closed is None else [dict(zip(CLOSINGS_CSV_HEADER, closing_row(closing))) for closing in closed],
    }
