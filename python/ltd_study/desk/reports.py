"""What studies and years are shown as: tables for text and page, rows for CSV, figures for JSON."""

from typing import Any, Callable, Dict, Iterable, List, NamedTuple, Optional, Sequence, Tuple, Union

from ..study import GROUPS, SUM_NAMES, GroupSums, Study, total
from ..valuation import Factor
from .checking import Found
from .figures import actual_to_expected, closings, durations, interval_text, millionths, months, whole
from .parts import Closing, Divided, GroupBeside, Part
from .ratios import KINDS, Ratio, ratios_of
from .tables import Column, Row, Table

CLOSING_COLUMNS = (Column("recovery"), Column("death"), Column("settlement"), Column("max-out"), Column("limit"))
GROUP_COLUMNS = (Column("group", left=True), Column("durations", "months", left=True))
EXPOSURE_COLUMNS = (Column("exposure", "thirtieths"), Column("exposure", "months"))
EXPECTED_COLUMNS = (Column("expected recoveries", "1/30,000,000"), Column("expected deaths", "1/30,000,000"))
_RATIO = Column("actual to expected")
RATIO_COLUMNS = (Column("actual", "recoveries and deaths"), Column("expected"), _RATIO)
INTERVAL_COLUMN = Column("interval", "95 %")
BESIDE_COLUMNS = (EXPOSURE_COLUMNS[0], *CLOSING_COLUMNS, *EXPECTED_COLUMNS, _RATIO)
FACTOR_COLUMNS = (Column("z"), Column("m"), Column("T"))
BENEFIT = ", weighted by benefit (hundreds of dollars a month)"

Figure = Union[int, float, str, None]


class GroupFigures(NamedTuple):
    """A group of a study in one set, with z, m and T where they are its own: they go by count."""

    group: int
    sums: GroupSums
    factor: Optional[Factor] = None

    @property
    def name(self) -> Tuple[str, str]:
        """Group and durations."""
        return str(self.group), durations(*GROUPS[self.group - 1])


def group_figures(study: Study, weighted: bool) -> List[GroupFigures]:
    """The five groups of a study, by count with their factors or weighted."""
    sums = study.weighted if weighted else study.groups
    return [GroupFigures(i, group, None if weighted else study.factor(i)) for i, group in enumerate(sums, 1)]


def study_tables(study: Study, weighted: bool) -> List[Table]:
    """Exposure and closings; actual to expected with z, m and T; recoveries and deaths apart; expected sums. With ``weighted`` the second set's
    after them."""
    tables = set_tables(group_figures(study, False), by_count=True)
    return tables + set_tables(group_figures(study, True), by_count=False) if weighted else tables


def set_tables(groups: Sequence[GroupFigures], by_count: bool) -> List[Table]:
    """The four tables of a set, a row for each group; intervals only of counts, z, m and T only where the groups have them."""
    all_groups, of_set = total(group.sums for group in groups), "" if by_count else BENEFIT
    factors: Tuple[Column, ...] = () if groups[0].factor is None else FACTOR_COLUMNS
    interval: Tuple[Column, ...] = (INTERVAL_COLUMN,) if by_count else ()
    apart = tuple(
        Column(kind, unit) for kind in KINDS[1:] for unit in ("actual", "expected", "actual to expected", "95 % interval") if by_count or "%" not in unit
    )

    def table(title: str, columns: Iterable[Column], cells_of: Callable[[GroupSums], Tuple[str, ...]], more: Sequence[Tuple[str, ...]] = ()) -> Table:
        rows = [cells_of(group.sums) + tuple(own) for group, own in zip(groups, more or [()] * len(groups))]
        last = cells_of(all_groups)
        last += ("",) * (len(rows[0]) - len(last))
        return Table(title + of_set, (*GROUP_COLUMNS, *columns), [*group_rows(groups, rows), Row(("all", "", *last), summary=True)])

    return [
        table("Exposure and closings", (*EXPOSURE_COLUMNS, *CLOSING_COLUMNS), exposure_cells),
        table(
            "Actual to expected" + (", credibility z, margin m and factor T" if factors else ""),
            (*RATIO_COLUMNS, *interval, *factors),
            lambda sums: ratio_cells(ratios_of(sums, by_count)[:1], by_count),
            [factor_cells(group.factor) for group in groups],
        ),
        table("Recoveries and deaths apart", apart, lambda sums: ratio_cells(ratios_of(sums, by_count)[1:], by_count)),
        table(
            "Expected closings",
            (*EXPECTED_COLUMNS, Column("expected recoveries", "closings"), Column("expected deaths", "closings")),
            _expected_cells,
        ),
    ]


def group_rows(groups: Sequence[GroupFigures], rows: Sequence[Tuple[str, ...]]) -> List[Row]:
    """A row for each group, empty where it has no sums at all."""
    return [Row((*group.name, *cells), empty=not any(group.sums)) for group, cells in zip(groups, rows)]


def exposure_cells(sums: GroupSums) -> Tuple[str, ...]:
    """Exposure in thirtieths and months, and the five closing counts."""
    return (whole(sums.thirtieths), months(sums.thirtieths), *(whole(count) for count in sums[1:6]))


def _expected_cells(sums: GroupSums) -> Tuple[str, ...]:
    both = sums.expected_recoveries, sums.expected_deaths
    return (*map(whole, both), *map(closings, both))


def ratio_cells(ratios: Sequence[Ratio], with_interval: bool) -> Tuple[str, ...]:
    """Actual, expected, their ratio, and its interval."""
    cells: List[str] = []
    for ratio in ratios:
        cells += whole(ratio.actual), closings(ratio.expected), ratio.text
        cells += [interval_text(ratio.interval)] * with_interval
    return tuple(cells)


def factor_cells(factor: Optional[Factor]) -> Tuple[str, ...]:
    """z, m and T, or nothing."""
    return () if factor is None else (millionths(factor.z), millionths(factor.m), millionths(factor.t))


STUDY_CSV_HEADER = ("set", "group", "first_duration", "last_duration", *SUM_NAMES)
STUDY_CSV_HEADER += ("months", "actual", "expected", "actual_to_expected", "z", "m", "t")


def study_rows(study: Study, weighted: bool) -> List[List[Figure]]:
    """A row for each group, and one for all: the sums as they are, z, m and T in millionths."""
    rows = _rows_of("count", group_figures(study, False))
    return rows + _rows_of("weighted", group_figures(study, True)) if weighted else rows


def _rows_of(name: str, groups: Sequence[GroupFigures]) -> List[List[Figure]]:
    rows: List[List[Figure]] = []
    for group in groups:
        rows.append([name, group.group, *GROUPS[group.group - 1], *_figures(group.sums), *(group.factor or ("", "", ""))])
    return [*rows, [name, "all", 1, None, *_figures(total(group.sums for group in groups)), "", "", ""]]


def _figures(sums: GroupSums) -> List[Figure]:
    return [*sums, months(sums.thirtieths).replace(",", ""), sums.terminations, sums.expected, actual_to_expected(sums).replace(",", "")]


def group_dict(group: int, sums: GroupSums, factor: Optional[Factor]) -> Dict[str, Figure]:
    """A group for JSON: its sums by name, what the desk adds to them, and z, m and T in millionths."""
    first, last = GROUPS[group - 1]
    named: Dict[str, Figure] = {"group": group, "first_duration": first, "last_duration": last}
    named.update(sums_dict(sums))
    if factor is not None:
        named.update(factor._asdict())
    return named


def sums_dict(sums: GroupSums) -> Dict[str, Figure]:
    """Sums by name, with exposure in months, C, E and actual to expected."""
    named: Dict[str, Figure] = dict(sums._asdict())
    named.update(months=sums.months, actual=sums.terminations, expected=sums.expected, actual_to_expected=sums.actual_to_expected)
    return named


def years_tables(divided: Divided, weighted: bool) -> List[Table]:
    """A table for each group: a row for each part, the parts together, the undivided window and the difference."""
    return [_years_table(divided, group, of_set) for of_set in (False, True)[: 1 + weighted] for group in range(1, len(GROUPS) + 1)]


def shown_years_tables(divided: Divided, weighted: bool) -> List[Table]:
    """The same for a page: groups without any sums share a table of one row."""
    empty = [group for group in range(1, len(GROUPS) + 1) if all(divided.of_group(group, of_set).is_empty for of_set in (False, True))]
    shown = [table for i, table in enumerate(years_tables(divided, weighted)) if i % len(GROUPS) + 1 not in empty]
    return [*shown, _empty_table(empty)] if empty else shown


def _empty_table(groups: Sequence[int]) -> Table:
    columns = (Column("groups", left=True), Column("durations", "months", left=True), Column("every sum"), Column("difference"))
    spans = "; ".join(durations(*GROUPS[group - 1]) for group in groups)
    return Table("Groups without exposure in any part", columns, [Row((", ".join(map(str, groups)), spans, "0", "0"))])


def _years_table(divided: Divided, group: int, weighted: bool) -> Table:
    labels = [part.label for part, _ in divided.parts]
    return beside_table(group_title(group, weighted), "part", beside_rows(labels, divided.of_group(group, weighted)))


def group_title(group: int, weighted: bool) -> str:
    """A group with its durations, and the set."""
    return f"Group {group}: durations {durations(*GROUPS[group - 1])} months" + (BENEFIT if weighted else "")


Beside = Tuple[str, GroupSums, str, bool]
"""A row of studies beside each other: its name, sums and actual to expected, and whether it sums up."""


def beside_table(title: str, what: str, found: Sequence[Beside], factors: Sequence[Tuple[str, ...]] = ()) -> Table:
    """A table of such rows, with z, m and T of each where they are given."""
    columns = (Column(what, left=True), *BESIDE_COLUMNS, *(FACTOR_COLUMNS if factors else ()))
    more = factors or [()] * len(found)
    return Table(title, columns, [Row((name, *map(whole, sums), ratio, *own), summary) for (name, sums, ratio, summary), own in zip(found, more)])


def beside_rows(labels: Iterable[str], beside: GroupBeside, together: str = "parts together", undivided: str = "undivided") -> List[Beside]:
    """A row for each study, for all together, for the whole, and for the difference."""
    rows = [(label, sums, actual_to_expected(sums), False) for label, sums in zip(labels, beside.parts)]
    rows.append((together, beside.together, actual_to_expected(beside.together), True))
    rows.append((undivided, beside.whole, actual_to_expected(beside.whole), True))
    rows.append(("difference", beside.difference, "", True))
    return rows


def years_sets(divided: Divided) -> Dict[str, List[Dict[str, Any]]]:
    """Both sets for JSON, group by group: the parts' sums in their order, together, the undivided window's and the difference."""
    sets: Dict[str, List[Dict[str, Any]]] = {}
    for name, weighted in (("groups", False), ("weighted", True)):
        beside = [divided.of_group(group, weighted) for group in range(1, len(GROUPS) + 1)]
        sets[name] = [
            {
                "group": i,
                "parts": [sums_dict(sums) for sums in group.parts],
                "together": sums_dict(group.together),
                "undivided": sums_dict(group.whole),
                "difference": dict(group.difference._asdict()),
            }
            for i, group in enumerate(beside, 1)
        ]
    return sets


YEARS_CSV_HEADER = ("set", "group", "part", "first_day", "last_day", *SUM_NAMES, "actual_to_expected")


def years_rows(divided: Divided, weighted: bool) -> List[List[Figure]]:
    """A row for each set, group and part, and for the parts together, the undivided window and the difference."""
    rows: List[List[Figure]] = []
    window = Part(divided.whole.first, divided.whole.last)
    days = [*(part for part, _ in divided.parts), window, window, window]
    for of_set in ("count", "weighted") if weighted else ("count",):
        for group in range(1, len(GROUPS) + 1):
            beside = beside_rows([part.label for part, _ in divided.parts], divided.of_group(group, of_set == "weighted"))
            for (name, sums, ratio, summary), part in zip(beside, days):
                kind = name if summary else "part"
                rows.append([of_set, group, kind, str(part.first), str(part.last), *sums, ratio.replace(",", "")])
    return rows


def part_totals(divided: Divided) -> List[GroupSums]:
    """The sums by count of all groups, part by part."""
    return [total(study.groups) for _, study in divided.parts]


def closings_table(divided: Divided) -> Table:
    """Which part counts how many closings, all groups together."""
    whole_window = total(divided.whole.groups)
    parts = part_totals(divided)
    together = total(parts)
    rows = [Row((part.label, *_closing_cells(sums))) for (part, _), sums in zip(divided.parts, parts)]
    for name, sums in (("parts together", together), ("undivided", whole_window), ("difference", together.minus(whole_window))):
        rows.append(Row((name, *_closing_cells(sums)), summary=True))
    columns = (Column("part", left=True), *EXPOSURE_COLUMNS, *CLOSING_COLUMNS, Column("closings"))
    return Table("Exposure and closings by part, all groups", columns, rows)


def _closing_cells(sums: GroupSums) -> Tuple[str, ...]:
    return (*exposure_cells(sums), whole(sums.closings))


CLOSINGS_CSV_HEADER = ("block", "place", "number", "closed_on", "category", "duration", "counted_in")


def closing_row(closing: Closing) -> Tuple[Figure, ...]:
    """A closing and the part that counts it; more than one part, or none, would be all named."""
    record, month = closing.record, closing.month
    counted_in = "; ".join(part.label for part in closing.parts) or "no part"
    return record.block, record.place, record.number, str(month.last), month.category_word, month.duration, counted_in


def closing_list(closed: Iterable[Closing]) -> Table:
    """Each closing with the part that counts it."""
    columns = (Column("block"), Column("place"), Column("claim number"), Column("closed on", left=True), Column("category", left=True))
    columns += (Column("duration"), Column("counted in", left=True))
    return Table("Which part counts each closing", columns, [Row(tuple(map(str, closing_row(closing)))) for closing in closed])


LEFT_OUT = "Refused and left out"
FOUND_CSV_HEADER = ("block", "place", "number", "refused", "word", "why", "line")
_FOUND_COLUMNS = {
    "block": Column("block"),
    "place": Column("place"),
    "line": Column("line"),
    "number": Column("claim number"),
    "refused": Column("refused"),
    "word": Column("word", left=True),
    "why": Column("why", left=True, wraps=True),
}


def found_dict(found: Found) -> Dict[str, Figure]:
    """A refusal by name."""
    return {name: getattr(found, name) for name in FOUND_CSV_HEADER}


def found_table(title: str, found: Sequence[Found], more: Sequence[Tuple[Column, Sequence[str]]] = ()) -> Table:
    """Refusals, with the lines of the CSV where one is known, and more columns after them."""
    names = [name for name in _FOUND_COLUMNS if name != "line" or any(one.line for one in found)]
    columns = [*(_FOUND_COLUMNS[name] for name in names), *(column for column, _ in more)]
    rows = []
    for i, one in enumerate(found):
        figures = found_dict(one)
        known = ["" if figures[name] is None else str(figures[name]) for name in names]
        rows.append(Row((*known, *(texts[i] for _, texts in more))))
    return Table(title, columns, rows)
