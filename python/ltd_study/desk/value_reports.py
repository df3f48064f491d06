"""What the studies of a column's values are shown as: tables, rows for CSV, figures for JSON."""

from typing import Any, Dict, List, Tuple

from ..study import GROUPS, Study, total
from .figures import whole
from .ratios import ratios_of
from .reports import (
    CLOSING_COLUMNS,
    EXPOSURE_COLUMNS,
    FACTOR_COLUMNS,
    INTERVAL_COLUMN,
    RATIO_COLUMNS,
    STUDY_CSV_HEADER,
    Figure,
    beside_rows,
    beside_table,
    exposure_cells,
    factor_cells,
    group_title,
    ratio_cells,
    study_rows,
)
from .study_json import sums_by_group
from .tables import Column, Row, Table
from .values import ByValue

VALUE_CSV_HEADER = ("study", "value", *STUDY_CSV_HEADER)
_JOINED, _WHOLE = "joined", "whole"


def value_tables(by: ByValue, weighted: bool) -> List[Table]:
    """All groups together, then a table for each group: a row for each value, the studies joined, the whole one and the difference."""
    groups = range(1, len(GROUPS) + 1)
    tables = [_overview(by), *(_group_table(by, group, False) for group in groups)]
    return tables + [_group_table(by, group, True) for group in groups] if weighted else tables


def _overview(by: ByValue) -> Table:
    rows = [Row((value, *_overview_cells(study))) for value, study in by.studies]
    rows += [Row((name, *_overview_cells(study)), summary=True) for name, study in ((_JOINED, by.joined), (_WHOLE, by.whole))]
    columns = (Column(by.column, left=True), Column("claims taken"), *EXPOSURE_COLUMNS, *CLOSING_COLUMNS, *RATIO_COLUMNS, INTERVAL_COLUMN)
    return Table(f"All groups, by {by.column}", columns, rows)


def _overview_cells(study: Study) -> Tuple[str, ...]:
    sums = total(study.groups)
    return (whole(study.claims_taken), *exposure_cells(sums), *ratio_cells(ratios_of(sums, True)[:1], True))


def _group_table(by: ByValue, group: int, weighted: bool) -> Table:
    labels = [value for value, _ in by.studies]
    found = beside_rows(labels, by.of_group(group, weighted), _JOINED, _WHOLE)
    return beside_table(f"{group_title(group, weighted)}, by {by.column}", by.column, found, [] if weighted else _factors(by, group))


def _factors(by: ByValue, group: int) -> List[Tuple[str, ...]]:
    """z, m and T of each row; a difference has none."""
    studies = [*(study for _, study in by.studies), by.joined, by.whole]
    return [*(factor_cells(study.factor(group)) for study in studies), ("",) * len(FACTOR_COLUMNS)]


def value_rows(by: ByValue, weighted: bool) -> List[List[Figure]]:
    """The rows of each study: of the whole, of each value, and of all joined."""
    named = [(_WHOLE, "", by.whole), *(("value", value, study) for value, study in by.studies), (_JOINED, "", by.joined)]
    return [[kind, value, *row] for kind, value, study in named for row in study_rows(study, weighted)]


def value_dict(by: ByValue) -> Dict[str, Any]:
    """For JSON."""
    values = [{"value": value, **sums_by_group(study)} for value, study in by.studies]
    return {"column": by.column, "values": values, "joined": sums_by_group(by.joined), "adds_up": by.adds_up}
