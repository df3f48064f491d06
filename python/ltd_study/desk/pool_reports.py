"""What a pool says of the studies in it."""

from typing import List, Sequence

from .claim_notes import COUNT_COLUMNS, count_cells, together_notes
from .figures import whole
from .repeats import CORRECTED
from .study_json import Pooled
from .tables import Column, Row, Table


def pooled_table(together: Sequence[Pooled]) -> Table:
    """The files with carrier, claims taken and hash."""
    columns = (Column("file", left=True, wraps=True), Column("carrier", left=True, wraps=True), Column("claims taken"), Column("corrected", left=True))
    columns += (*COUNT_COLUMNS, Column("sha256 of the claims", left=True, wraps=True))
    rows = []
    for one in together:
        counts = count_cells(one.repeated_numbers, one.left_out)
        rows.append(Row((one.file, one.carrier, whole(one.claims_taken), "yes" if one.corrected else "no", *counts, one.claims_sha256)))
    return Table("Pooled studies", columns, rows)


def pool_lines(together: Sequence[Pooled]) -> List[str]:
    """How many of the studies had corrections on."""
    corrected, studies = sum(one.corrected for one in together), len(together)
    return [CORRECTED if corrected == studies else f"in {corrected} of {studies} studies {CORRECTED}"] if corrected else []


def pool_notes(together: Sequence[Pooled]) -> List[str]:
    """What the studies' own pages say as notes, of all of them."""
    left_out, repeated = sum(one.left_out for one in together), sum(one.repeated_numbers for one in together)
    again = len(together) - len({one.claims_sha256 for one in together})
    return together_notes(repeated, left_out, again, "pool")
