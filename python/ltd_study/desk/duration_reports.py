"""What durations are shown as: a table for text and page, rows for CSV, figures for JSON."""

from typing import Any, Callable, Dict, List, NamedTuple, Optional, Sequence, Tuple, Union

from ..duration_rows import Durations
from ..study import GROUPS, SUM_NAMES, GroupSums, Study, total
from .crude_rates import KINDS, crude_rates
from .figures import closings, durations, months, whole
from .parts import Part
from .ratios import ratios_of
from .reports import sums_dict
from .tables import Column, Row, Table

Band = Tuple[int, Optional[int]]
"""First and last duration of a row; None where it has all later ones."""

Figure = Union[int, float, str, None]

_DURATION = Column("duration", "months", left=True)
_SUMS = (Column("exposure", "months"), Column("recoveries"), Column("deaths"), Column("other closings"))
_SUMS += (Column("expected", "recoveries and deaths"), Column("actual to expected"))
_RATES = tuple(Column(kind, unit) for kind in KINDS for unit in ("monthly rate", "95 % interval", "expected rate"))


class OfPart(NamedTuple):
    """A window or a part of it: its rows, and its study."""

    part: Part
    found: Durations
    study: Study

    @property
    def bands(self) -> List[Band]:
        """The durations of each row."""
        return bands(len(self.found.rows))

    @property
    def groups(self) -> List[int]:
        """The groups whose durations have rows of their own: those before the last row's, and the last group where its own row begins it."""
        return _groups(len(self.found.rows))

    def of_group(self, group: int) -> GroupSums:
        """The total of a group's rows."""
        return _of_group(self.found.rows, group)

    @property
    def totals_hold(self) -> bool:
        """Whether each group's rows total the study's group, all rows together all groups, and both took as many claims."""
        groups = all(self.of_group(group) == self.study.groups[group - 1] for group in self.groups)
        return groups and total(self.found.rows) == total(self.study.groups) and self.found.claims_taken == self.study.claims_taken


def _groups(rows: int) -> List[int]:
    return [group for group, (_, end) in enumerate(GROUPS, 1) if rows > (GROUPS[-2][1] or 0) or (end is not None and end < rows)]


def _of_group(rows: Sequence[GroupSums], group: int) -> GroupSums:
    first, end = GROUPS[group - 1]
    return total(rows[first - 1 : end])


class ByDuration(NamedTuple):
    """A window's rows, and those of its parts where it is cut."""

    whole: OfPart
    parts: List[OfPart]

    @property
    def parts_hold(self) -> bool:
        """Whether the parts' rows total the window's at every duration, and every part took as many claims."""
        together = [total(rows) for rows in zip(*(one.found.rows for one in self.parts))]
        taken = {one.found.claims_taken for one in self.parts}
        return not self.parts or (together == self.whole.found.rows and taken == {self.whole.found.claims_taken})

    @property
    def holds(self) -> bool:
        """Whether all is as the engine's theorems say."""
        return self.parts_hold and all(one.totals_hold for one in (self.whole, *self.parts))

    @property
    def words(self) -> str:
        """The same in words."""
        if not self.holds:
            return (
                "The rows do not add up to the study's groups, or the parts' rows not to the window's. That contradicts the engine's theorem: keep the "
                "files, and check that the engine was built from its own sources."
            )
        groups = len(self.whole.groups)
        shown = "each of the five groups" if groups == len(GROUPS) else f"each of the first {groups:,} groups" if groups > 1 else "all groups together"
        words = f"The rows add up: those of {shown} total the study's sums; every difference is 0."
        if self.parts:
            words += f" The {len(self.parts):,} parts add up too: at every duration each of their sums totals the window's."
        return words


def bands(rows: int) -> List[Band]:
    """The durations of so many rows: one each, and all later ones in the last."""
    return [*((duration, duration) for duration in range(1, rows)), (rows, None)]


def band_name(band: Band) -> str:
    """'36', '25 to 60', 'over 120'."""
    return str(band[0]) if band[0] == band[1] else durations(*band)


def duration_tables(rows: Sequence[Tuple[Band, GroupSums]], groups: Sequence[Tuple[str, Band, GroupSums]] = (), of_part: str = "") -> List[Table]:
    """Sums, and crude rates: a row for each duration, the groups' totals under them, and one for all."""

    def table(title: str, columns: Sequence[Column], cells: Callable[[GroupSums], Tuple[str, ...]]) -> Table:
        shown = [Row((band_name(band), *cells(sums))) for band, sums in rows]
        shown += [Row((f"{name}: {band_name(band)}", *cells(sums)), summary=True) for name, band, sums in groups]
        shown.append(Row(("all", *cells(total(sums for _, sums in rows))), summary=True))
        return Table(title + of_part, (_DURATION, *columns), shown)

    return [table("Sums by duration", _SUMS, _sums), table("Crude monthly rates by duration", _RATES, _rates)]


def part_tables(one: OfPart, of_part: str = "") -> List[Table]:
    """The same of a window or a part of it."""
    groups = [(f"group {group}", GROUPS[group - 1], one.of_group(group)) for group in one.groups]
    return duration_tables(list(zip(one.bands, one.found.rows)), groups, of_part)


def _sums(sums: GroupSums) -> Tuple[str, ...]:
    others, both = sums.settlement + sums.max_out + sums.limit, ratios_of(sums)[0]
    return months(sums.thirtieths), whole(sums.recovery), whole(sums.death), whole(others), closings(both.expected), both.text


def _rates(sums: GroupSums) -> Tuple[str, ...]:
    return tuple(text for rate in crude_rates(sums) for text in (rate.text, rate.interval_text, rate.expected_text))


CSV_HEADER = ("first_day", "last_day", "row", "first_duration", "last_duration", *SUM_NAMES, "months", "actual", "expected", "actual_to_expected")
_RATE_NAMES = tuple(f"{kind}_rate{end}" for kind in ("recovery", "death") for end in ("", "_low", "_high", "_expected"))
CSV_HEADER += _RATE_NAMES


def csv_rows(one: OfPart) -> List[List[Figure]]:
    """A row for each duration, for each group that has rows of its own, and for all."""
    days = [str(one.part.first), str(one.part.last)]
    rows: List[List[Figure]] = [[*days, "duration", *band, *_csv_figures(sums)] for band, sums in zip(one.bands, one.found.rows)]
    rows += [[*days, f"group {group}", *GROUPS[group - 1], *_csv_figures(one.of_group(group))] for group in one.groups]
    return [*rows, [*days, "all", 1, None, *_csv_figures(total(one.found.rows))]]


def _csv_figures(sums: GroupSums) -> List[Figure]:
    both = ratios_of(sums)[0]
    return [*sums, months(sums.thirtieths).replace(",", ""), sums.terminations, sums.expected, both.text.replace(",", ""), *_rate_figures(sums).values()]


def _rate_figures(sums: GroupSums) -> Dict[str, Figure]:
    found: List[Figure] = []
    for rate in crude_rates(sums):
        found += rate.text, *(rate.interval or ("", "")), rate.expected_text
    return dict(zip(_RATE_NAMES, found))


def row_dict(band: Band, sums: GroupSums) -> Dict[str, Figure]:
    """A row for JSON: its sums by name, and what the desk adds to them."""
    rates = {name: rate.value for name, rate in zip(("recovery_rate", "death_rate"), crude_rates(sums))}
    expected = {f"{name}_expected": rate.expected_value for name, rate in zip(("recovery_rate", "death_rate"), crude_rates(sums))}
    return {"first_duration": band[0], "last_duration": band[1], **sums_dict(sums), **rates, **expected}


def part_dict(found: Durations) -> Dict[str, Any]:
    """A window or a part of it for JSON."""
    rows = [row_dict(band, sums) for band, sums in zip(bands(len(found.rows)), found.rows)]
    groups = [{"group": group, **row_dict(GROUPS[group - 1], _of_group(found.rows, group))} for group in _groups(len(found.rows))]
    return {"claims_taken": found.claims_taken, "rows": rows, "groups": groups}


def all_dict(found: Durations) -> Dict[str, int]:
    """All rows together, for JSON."""
    return dict(total(found.rows)._asdict())
