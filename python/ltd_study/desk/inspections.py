"""check and months: the claims a study would refuse, and the months of one claim."""

from argparse import Namespace
from datetime import date
from typing import List

from .. import dates
from ..claim import Claim
from ..claim_file import ClaimFile, Record, repeated_numbers
from ..rates import Rates
from ..refusals import WORDS, Refused
from ..study import Study
from . import repeats
from .broken_rules import broken_rule
from .checking import Checked, Found
from .csv_lines import with_lines
from .csv_rows import csv_bytes
from .figures import counted, whole
from .month_rules import Explained, explain, near_maximum
from .progress import Progress
from .reports import FOUND_CSV_HEADER, found_dict, found_table
from .tables import Column, Row, Table, printed
from .talk import DATA_REFUSED, DONE, DataRefused, WrongUse, put, put_bytes, read_claims, read_rates, say_note

_MOST_NAMED = 5
_MONTHS_HEADER = ("duration", "first_day", "last_day", "thirtieths", "month", "category", "month_start", "month_end", "u", "b", "rule")


def check(asked: Namespace) -> int:
    """Every claim that would be refused; status 1 if there are any."""
    file, source = read_claims(asked.claims)
    rates, _ = read_rates(asked.rates)
    checked = Checked(file, rates, asked.corrected)
    with Progress("checking", file.last_block) as progress:
        found = with_lines(source, file, list(checked.refusals(progress.at)))
    if asked.csv:
        put_bytes(csv_bytes(FOUND_CSV_HEADER, [list(found_dict(one).values()) for one in found]))
    else:
        put(_check_text(checked, found))
    if not asked.corrected:
        say_note(repeats.note(repeated_numbers(file)))
    return DATA_REFUSED if found else DONE


def _check_text(checked: Checked, found: List[Found]) -> str:
    if not found:
        return f"No refusal: a study takes {'each' if checked.checked == 1 else 'all'} of the {counted(checked.checked, 'claim')}.\n"
    counts = Table(
        "By number",
        (Column("refused"), Column("word", left=True), Column("times")),
        [Row((str(number), WORDS[number], whole(times))) for number, times in sorted(checked.counts.items())],
    )
    claims = sum(1 for one in found if one.place)
    last = f"{claims:,} of {counted(checked.checked, 'claim')} would be refused"
    others = len(found) - claims
    last += f", and {counted(others, 'fault')} of the file itself (place 0)" if others else ""
    return "\n".join([printed(found_table("Refused", found)), printed(counts), last + ".\n"])


def months(asked: Namespace) -> int:
    """The listing of one claim, with the rule that decided each part month."""
    by_place = asked.block is not None and asked.place is not None
    if by_place == (asked.number is not None) or (asked.block is None) != (asked.place is None):
        asked.misused("a claim is named by BLOCK and PLACE, or by --number N")
    file, _ = read_claims(asked.claims)
    first, last = asked.window or file.window()
    try:
        Study.open(first, last)
        record = file.record(asked.block, asked.place) if by_place else _numbered(file, asked.number)
    except IndexError as error:
        raise WrongUse(str(error)) from None
    except Refused as refused:
        raise DataRefused(f"'{asked.claims}': {refused}") from None
    try:
        explained = explain(record.claim, first, last)
    except Refused as refused:
        raise DataRefused(f"'{asked.claims}': {_refusal(refused, record)}") from None
    if asked.csv:
        put_bytes(csv_bytes(_MONTHS_HEADER, _month_rows(explained)))
    else:
        put(_months_text(record, explained, first, last))
    return DONE


def _numbered(file: ClaimFile, number: int) -> Record:
    """The record of a claim number, which must stand once."""
    records = [record for record in file.records() if record.number == number]
    if len(records) == 1:
        return records[0]
    if not records:
        raise IndexError(f"there is no claim number {number}")
    places = " and ".join(f"block {record.block}, place {record.place}" for record in records[:_MOST_NAMED])
    more = f" and {len(records) - _MOST_NAMED:,} more" if len(records) > _MOST_NAMED else ""
    raise IndexError(f"claim number {number} stands {counted(len(records), 'time')}: name one by {places}{more}")


def _refusal(refused: Refused, record: Record) -> str:
    return f"{Refused(refused.number, record.block, record.place)}: {broken_rule(record.claim, refused.number, Rates(()))}"


def _month_rows(explained: Explained) -> List[List[object]]:
    rows: List[List[object]] = []
    for month in explained.months:
        record = month.record
        numbers = [record.duration, record.first, record.last, record.thirtieths, _calendar_month(record.month), record.category_word]
        rows.append([*numbers, month.start, month.end, month.upper, month.lower, month.rule])
    return rows


def _calendar_month(month: int) -> str:
    return f"{month // 12}-{month % 12 + 1:02}"


def _months_text(record: Record, explained: Explained, first: date, last: date) -> str:
    claim = record.claim
    lines = [
        f"Claim {claim.number}, block {record.block}, place {record.place}: {claim.status_word}, cell {claim.cell}, benefit {claim.benefit}",
        f"disability {dates.iso(claim.disability)}, BCD {dates.iso(claim.bcd)}: elimination period {counted(explained.elimination_period, 'day')}, "
        f"first duration {explained.first_duration}",
        *_closing_lines(claim, explained),
        f"window {first} to {last}",
        "",
    ]
    columns = (Column("duration"), Column("from", left=True), Column("to", left=True), Column("exposure", "thirtieths"))
    columns += (Column("category", left=True), Column("rule", left=True))
    rows = []
    for month in explained.months:
        found = month.record
        rows.append(Row((str(found.duration), str(found.first), str(found.last), str(found.thirtieths), found.category_word, month.rule)))
    exposure = sum(month.record.thirtieths for month in explained.months)
    rows.append(Row(("all", "", "", whole(exposure), "", ""), summary=True))
    table = printed(Table("Months of exposure", columns, rows)) if explained.months else "No months of exposure in the window.\n"
    return "\n".join(lines) + "\n" + table


def _closing_lines(claim: Claim, explained: Explained) -> List[str]:
    if not claim.status:
        return [f"maximum {dates.iso(claim.maximum) or 'not known'}"]
    why = f": {near_maximum(claim)}" if near_maximum(claim) else ""
    known = dates.iso(claim.maximum) or "not known"
    return [
        f"closed {dates.iso(claim.termination)} with code {claim.code_word}, maximum {known}",
        f"category {explained.category}{why}",
    ]
