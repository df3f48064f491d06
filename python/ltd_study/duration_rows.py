"""The sums of each month of duration of a claim file."""

import ctypes
from pathlib import Path
from typing import List, NamedTuple, Union

from .claim_file import ClaimFile
from .library import calls
from .rates import Rates
from .refusals import Refused
from .study import SUM_NAMES, GroupSums

MOST_ROWS = 2000
USUAL_ROWS = 121
"""The durations of groups 1 to 4 one by one, and group 5 as the last row."""

_HEAD = 4
_NUMBERS = len(SUM_NAMES)


class Durations(NamedTuple):
    """The sums of durations 1, 2, .., by count, over the month records of each; the last row has all later durations too.

    claims_taken  how many claims they are of
    rows          as a group of a study has them: rows[0] is duration 1
    """

    claims_taken: int
    rows: List[GroupSums]


class RefusedDurations(Refused):
    """A run that was refused, with the rows so far."""

    def __init__(self, number: int, block: int, place: int, durations: Durations) -> None:
        super().__init__(number, block, place)
        self.durations = durations


def durations(claims: Union[ClaimFile, bytes, str, Path], rates: Rates, last: int = USUAL_ROWS) -> Durations:
    """The rows of durations 1 to last of a whole claim file, given by its path or its bytes: 1 to 2,000 rows.

    Checks, order, numbers and places are those of file_study, and each group's sums are the totals of its rows. Raises RefusedDurations.
    """
    if not 1 <= last <= MOST_ROWS:
        raise ValueError(f"the last duration must be from 1 to {MOST_ROWS:,}, not {last!r}")
    file = claims if isinstance(claims, ClaimFile) else ClaimFile(claims) if isinstance(claims, bytes) else ClaimFile.read(claims)
    out = (ctypes.c_int64 * (_HEAD + _NUMBERS * last))()
    # No table by its length: the run with the plain rates says at which claim.
    call, table = (calls().ltd_durations, rates) if rates.prepared is None else (calls().ltd_prepared_durations, rates.prepared)
    call(file.data, len(file.data), *table.lent, out, len(out))
    number, block, place, taken = out[:_HEAD]
    found = Durations(taken, [GroupSums(*out[at : at + _NUMBERS]) for at in range(_HEAD, len(out), _NUMBERS)])
    if number != 0:
        raise RefusedDurations(number, block, place, found)
    return found
