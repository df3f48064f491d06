"""valuation, reserve, limit and wanted: what the valuation actuary asks of a study's T."""

import io
from argparse import Namespace
from typing import Any, Dict, List, Sequence, Tuple

from ..rates import FIRST_DURATION, LAST_DURATION, Rates
from ..refusals import Refused
from ..study import EXPECTED_UNIT, GROUPS
from ..valuation import factor, reserve_factor, reserve_limit, valuation_rate, wanted_count
from .csv_rows import Faults, csv_bytes, header_places, numbered_rows, text_of, whole_number
from .figures import closings, counted, durations, millionths, whole
from .given_t import LIMIT_FORMAT, GivenT, given_t, group_3_count
from .inputs import must_be_sound
from .provenance import engine
from .tables import Column, Row, Table, printed
from .talk import DONE, DataRefused, WrongUse, put, put_bytes, put_json, read_bytes, read_rates

OPEN_COLUMNS = ("cell", "duration", "months")
MOST_OPEN = 2_000
_HIGHEST_NUMBER = 0xFFFF_FFFF
LIMIT_T = 1_300_000
KEPT_FROM = 5_000
"""Group 3 keeps its T from so many recoveries and deaths on."""

_RATE_WORDS = (
    "The valuation rate is the cell's recovery plus death rate times the T of the duration's group, rounded down to a millionth\n"
    "and at most 1. T is taken as it is, without any ceiling: './ltd limit' judges it on reserves."
)
_FACTOR_WORDS = (
    "The reserve factor adds up, month by month, the share still disabled times the discount: the worth of 1 a month, paid at\n"
    "the end of each month while the claim is open. A month's share goes down by the valuation rate of its duration; durations\n"
    f"after {LAST_DURATION} have {LAST_DURATION}'s."
)


def group_of(duration: int) -> int:
    """The group of a duration, 1 to 5."""
    return next(i for i, (_, last) in enumerate(GROUPS, 1) if last is None or duration <= last)


def valuation(asked: Namespace) -> int:
    """The valuation rates of five T over a table."""
    rates, source = read_rates(asked.rates)
    given = given_t(asked)
    given.must_be_of(rates, asked.rates)
    rows = _valuation_rows(asked, rates, given)
    if asked.json:
        figures = [dict(zip(_VALUATION_HEADER, row)) for row in rows]
        head = {"format": "ltd valuation 1", "unit": "millionths", "t": list(given.t), "rates_sha256": source.sha256}
        put_json({**head, "engine": engine(), "rates": figures})
    elif asked.csv:
        put_bytes(csv_bytes(_VALUATION_HEADER, rows))
    else:
        columns = (Column("cell"), Column("duration"), Column("group"), Column("T"), Column("rate", "recovery + death"), Column("valuation rate"))
        shown = [Row((*map(str, row[:3]), *map(millionths, row[3:]))) for row in rows]
        head_words = f"Valuation rates over '{asked.rates}', with the T {given.words}: {given.shown}"
        put("\n".join([head_words, _RATE_WORDS, "", printed(Table("Valuation rates", columns, shown))]))
    return DONE


_VALUATION_HEADER = ("cell", "duration", "group", "t", "rate", "valuation_rate")


def _valuation_rows(asked: Namespace, rates: Rates, given: GivenT) -> List[Tuple[int, ...]]:
    """In millionths, a row for each cell and duration asked for."""
    _must_be_a_table(rates, asked.rates)
    first, last = asked.durations or (FIRST_DURATION, LAST_DURATION)
    if not FIRST_DURATION <= first <= last <= LAST_DURATION:
        raise WrongUse(f"--durations {first} {last}: they run from FIRST to LAST within {FIRST_DURATION} to {LAST_DURATION}")
    rows = []
    for cell in range(rates.cells) if asked.cell is None else (asked.cell,):
        for duration in range(first, last + 1):
            t = given.t[group_of(duration) - 1]
            try:
                found = valuation_rate(rates, cell, t, duration)
            except Refused as refused:
                raise DataRefused(f"'{asked.rates}', cell {cell}: {refused}") from None
            rows.append((cell, duration, group_of(duration), t, rates.recovery(cell, duration) + rates.death(cell, duration), found))
    return rows


def _must_be_a_table(rates: Rates, name: str) -> None:
    if rates.prepared is None:
        raise DataRefused(f"'{name}': {Refused(6)}: {len(rates):,} numbers are no table; it has 958 for each of 1 to 1,024 cells")


def reserve(asked: Namespace) -> int:
    """One reserve factor."""
    rates, source = read_rates(asked.rates)
    given = given_t(asked)
    given.must_be_of(rates, asked.rates)
    try:
        found = reserve_factor(rates, asked.cell, asked.first, given.t, asked.months, asked.v)
    except Refused as refused:
        raise DataRefused(f"cell {asked.cell}, duration {asked.first}, {counted(asked.months, 'month')}, v {asked.v!r}: {refused}") from None
    if asked.json:
        what = {"cell": asked.cell, "first": asked.first, "months": asked.months, "v": asked.v, "t": list(given.t), "rates_sha256": source.sha256}
        put_json({"format": "ltd reserve 1", "units": {"t": "millionths"}, **what, "engine": engine(), "factor": found})
        return DONE
    lines = [
        f"Reserve factor {found!r}",
        f"cell {asked.cell} of '{asked.rates}', from duration {asked.first} over {counted(asked.months, 'month')}, monthly discount v {asked.v!r}",
        f"T {given.words}: {given.shown}",
        "",
        _FACTOR_WORDS,
    ]
    put("\n".join(lines) + "\n")
    return DONE


def limit(asked: Namespace) -> int:
    """The 1.30 limit judged on reserves of open claims."""
    rates, source = read_rates(asked.rates)
    given = given_t(asked)
    given.must_be_of(rates, asked.rates)
    count = group_3_count(asked, given)
    claims = _open_claims(asked)
    if len(claims) > MOST_OPEN:
        raise DataRefused(f"'{asked.open}': {Refused(17)}: {len(claims):,} open claims, at most {MOST_OPEN:,} are judged together")
    try:
        found = reserve_limit(rates, [claim for _, claim in claims], given.t, count, asked.v)
    except Refused as refused:
        raise DataRefused(_refused_claim(asked, rates, given, claims, refused)) from None
    replaced = found.given < found.replaced
    if asked.json:
        what: Dict[str, Any] = {"given_t": list(given.t), "group_3_count": count, "v": asked.v, "open_claims": len(claims)}
        totals = {"total_given": found.given, "total_replaced": found.replaced, "replaced": replaced, "t": list(found.t)}
        put_json({"format": LIMIT_FORMAT, "unit": "millionths", **what, "rates_sha256": source.sha256, "engine": engine(), **totals})
    else:
        put(_limit_text(asked, given, count, len(claims), found))
    return DONE


def _open_claims(asked: Namespace) -> List[Tuple[int, Tuple[int, int, int]]]:
    """Line, cell, next duration and months left of each row."""
    faults, found = Faults(asked.limit), []
    rows = numbered_rows(text_of(io.BytesIO(read_bytes("CSV file", asked.open))), faults)
    places = header_places(rows, OPEN_COLUMNS, faults)
    for line, row in rows if places is not None else ():
        if len(row) != len(OPEN_COLUMNS):
            faults.add(line, "", f"{len(row)} fields, where the header has {len(OPEN_COLUMNS)}")
            continue
        numbers = [_number(line, column, row[place], faults) for column, place in zip(OPEN_COLUMNS, places or ())]
        found.append((line, (numbers[0], numbers[1], numbers[2])))
    must_be_sound(faults, asked.open, "nothing is judged")
    return found


def _number(line: int, column: str, text: str, faults: Faults) -> int:
    """A field's number; 0, and a fault, where it is none."""
    try:
        return whole_number(text, _HIGHEST_NUMBER)
    except ValueError as error:
        faults.add(line, column, str(error))
        return 0


def _refused_claim(asked: Namespace, rates: Rates, given: GivenT, claims: Sequence[Tuple[int, Tuple[int, int, int]]], refused: Refused) -> str:
    """The refusal with the line of its claim: the first that is refused by itself."""
    for line, claim in claims:
        try:
            reserve_limit(rates, [claim], given.t, 0, asked.v)
        except Refused as own:
            cell, duration, months = claim
            return f"'{asked.open}', line {line}: {own}: cell {cell}, next duration {duration}, {counted(months, 'month')} left, v {asked.v!r}"
    return f"'{asked.open}': {refused}"


def _limit_text(asked: Namespace, given: GivenT, count: int, claims: int, found: Any) -> str:
    kept = count >= KEPT_FROM
    kept_words = f"is kept: its {count:,} recoveries and deaths are {KEPT_FROM:,} or more" if kept else f"is replaced too: its {count:,} recoveries and deaths are below {KEPT_FROM:,}"
    replaced = found.given < found.replaced
    groups = "groups 4 and 5" if kept else "groups 3 to 5"
    if replaced:
        why = f"The given T reserve less than T of {millionths(LIMIT_T)} in {groups} would, so the replaced set is returned."
    elif claims:
        why = f"The given T reserve no less than T of {millionths(LIMIT_T)} in {groups} would, so the given set is returned."
    else:
        why = "There are no open claims to judge it on, so the given set is returned."
    limited = [t if i < 2 or (i == 2 and kept) else LIMIT_T for i, t in enumerate(given.t)]
    rows = [Row((str(i), durations(*GROUPS[i - 1]), *map(millionths, three))) for i, three in enumerate(zip(given.t, limited, found.t), 1)]
    columns = (Column("group", left=True), Column("durations", "months", left=True), Column("T", "given"), Column("T", "replaced"), Column("T", "returned"))
    lines = [
        f"The 1.30 limit, judged on the reserves of {counted(claims, 'open claim')} disabled over two years, monthly discount v {asked.v!r}",
        f"T {given.words}; group 3 {kept_words}",
        "",
        f"total of the reserve factors with the given T     {found.given!r}",
        f"total of the reserve factors with T replaced      {found.replaced!r}",
        "",
        why,
        "",
        printed(Table("The five T", columns, rows)),
        "The totals add the reserve factor of each open claim, from its next duration over its months left, in the list's order.",
        "The T returned are for valuation rates and reserves; the T that a study reports have no ceiling.",
    ]
    return "\n".join(lines) + "\n"


def wanted(asked: Namespace) -> int:
    """How many closings reach a wanted T."""
    given = None if asked.study is None else given_t(Namespace(t=None, t_of=asked.study))
    if given is not None and given.study is None:
        raise DataRefused(f"'{asked.study}': no study, and the expected sum is a study's")
    if not 1 <= asked.group <= len(GROUPS):
        raise WrongUse(f"--group {asked.group}: {Refused(12)}; groups are 1 to {len(GROUPS)}")
    sums = None if given is None or given.study is None else given.study.groups[asked.group - 1]
    expected = asked.expected if sums is None else sums.expected
    try:
        count = wanted_count(asked.group, expected, asked.t)
    except Refused as refused:
        no_count = f"group {asked.group}, {closings(expected)} expected: no count up to 500,000 has a T of {millionths(asked.t)} or more"
        raise DataRefused(f"{refused}: {no_count}" if refused.number == 19 else str(refused)) from None
    reached = factor(asked.group, count, expected).t
    below = None if count == 0 else factor(asked.group, count - 1, expected).t
    if asked.json:
        what = {"group": asked.group, "expected": expected, "wanted_t": asked.t, "count": count, "t": reached, "t_below": below}
        actual = None if sums is None else sums.terminations
        put_json({"format": "ltd wanted 1", "unit": "millionths", **what, "actual": actual, "engine": engine()})
        return DONE
    lines = [
        f"{counted(count, 'recovery or death', 'recoveries and deaths')} reach a T of {millionths(asked.t)} in group {asked.group}, durations "
        f"{durations(*GROUPS[asked.group - 1])} months",
        f"with {closings(expected)} expected ({whole(expected)} / {EXPECTED_UNIT:,}): T is {millionths(reached)}"
        + ("" if below is None else f", and {millionths(below)} with one less"),
    ]
    if sums is not None:
        more = count - sums.terminations
        lines.append(f"the study has {whole(sums.terminations)}: " + (f"{whole(more)} more are needed" if more > 0 else "it reaches it already"))
    lines += ["", "It is the smallest count from 0 to 500,000 that does, what is expected as it is, before any test of reserves."]
    put("\n".join(lines) + "\n")
    return DONE
