"""Tables of texts, printed in columns; the page has the same ones."""

from typing import List, NamedTuple, Sequence, Tuple

_LONGEST_RULE = 120


class Column(NamedTuple):
    """A heading, what it counts in, on which side its texts stand, and whether a page may set them in lines."""

    heading: str
    unit: str = ""
    left: bool = False
    wraps: bool = False


class Row(NamedTuple):
    """The texts of a row; one that sums up is set apart, one of a group without any sums may be folded."""

    cells: Tuple[str, ...]
    summary: bool = False
    empty: bool = False


class Table(NamedTuple):
    """A table; the first column names the row."""

    title: str
    columns: Sequence[Column]
    rows: Sequence[Row]


def folded(table: Table) -> Table:
    """The table with its empty rows as one, after the others; it has the figures that are theirs alike."""
    empty = [row.cells for row in table.rows if row.empty]
    if not empty:
        return table
    alike = [texts[0] if len(set(texts)) == 1 else "" for texts in zip(*empty)]
    one = Row((", ".join(cells[0] for cells in empty), "no exposure", *alike[2:]), empty=True)
    full = [row for row in table.rows if not row.empty]
    summaries = [row for row in full if row.summary]
    return table._replace(rows=[*(row for row in full if not row.summary), one, *summaries])


def printed(table: Table) -> str:
    """A table as lines of text."""
    widths = [
        max(len(column.heading), len(column.unit), *(len(row.cells[i]) for row in table.rows), 0) for i, column in enumerate(table.columns)
    ]
    lines = [table.title, _line(table, widths, [column.heading for column in table.columns])]
    if any(column.unit for column in table.columns):
        lines.append(_line(table, widths, [column.unit for column in table.columns]))
    lines.append("-" * min(sum(widths) + 2 * (len(widths) - 1), _LONGEST_RULE))
    lines += [_line(table, widths, row.cells) for row in table.rows]
    return "\n".join(lines) + "\n"


def _line(table: Table, widths: Sequence[int], cells: Sequence[str]) -> str:
    texts: List[str] = []
    for column, width, cell in zip(table.columns, widths, cells):
        texts.append(cell.ljust(width) if column.left else cell.rjust(width))
    return "  ".join(texts).rstrip()
