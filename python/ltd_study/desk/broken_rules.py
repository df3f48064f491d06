"""Why the engine refuses: the rule of a refusal's number in words, with the fields that break it.

The number is the engine's own. What is looked at here gives it words and decides nothing.
"""

from datetime import date
from typing import Callable, Dict, Iterator

from .. import dates
from ..claim import CODE_WORDS, Claim
from ..claim_file import BLOCK_LENGTH, MOST_RECORDS_CORRECTED, ClaimFile
from ..dates import RecordDate
from ..rates import CELL_LENGTH, DURATIONS, FIRST_DURATION, MILLION, MOST_CELLS, Rates
from .figures import counted

_OPEN, _CLOSED = 0, 1
_HIGHEST_BENEFIT = 200
_SHORTEST_ELIMINATION = 15
_MOST_CLAIMS = 500_000


def broken_rule(claim: Claim, refused: int, rates: Rates) -> str:
    """What of a claim breaks the rule that it is refused under."""
    return "; ".join(_RULES[refused](claim, rates))


def broken_window(file: ClaimFile) -> str:
    """What is wrong with a window that is refused under 1."""
    first, last = file.window()
    for name, when in (("first", first), ("last", last)):
        if not _in_calendar(when):
            return f"the window's {name} day {_no_date(when)}"
    return f"the window's last day {last} is before its first, {first}"


def broken_block(file: ClaimFile, block: int) -> str:
    """What is wrong with a block that is refused under 11."""
    length = len(file.block(block))
    if length == BLOCK_LENGTH:
        return "the block's number, count, zero bytes or check is wrong"
    return f"the file ends {counted(length, 'byte')} into the block, which has {BLOCK_LENGTH}"


def too_many_words(records: int) -> str:
    """Of a file that is refused under 14."""
    return f"the file has {counted(records, 'record')}, and with corrections {MOST_RECORDS_CORRECTED:,} are the most"


def _in_calendar(when: RecordDate) -> bool:
    return isinstance(when, date) and dates.FIRST <= when <= dates.LAST


def _no_date(when: RecordDate) -> str:
    if when is None:
        return "is missing"
    return f"{when} is not in {dates.FIRST} to {dates.LAST}" if isinstance(when, date) else f"{when} is no date"


def _date(claim: Claim, rates: Rates) -> Iterator[str]:
    wanted = [("disability", claim.disability), ("BCD", claim.bcd)]
    wanted += [("termination of a closed claim", claim.termination)] * (claim.status == _CLOSED)
    wanted += [("maximum", claim.maximum)] * (claim.maximum is not None)
    for name, when in wanted:
        if not _in_calendar(when):  # type: ignore[arg-type]
            yield f"{name} {_no_date(when)}"  # type: ignore[arg-type]


def _status(claim: Claim, rates: Rates) -> Iterator[str]:
    if claim.status not in (_OPEN, _CLOSED):
        yield f"status {claim.status} is neither 0 (open) nor 1 (closed)"
    if claim.status == _OPEN and claim.code != 0:
        yield f"an open claim has code {claim.code_word}"
    if claim.status == _OPEN and claim.termination is not None:
        yield f"an open claim has termination {claim.termination}"
    if claim.status == _CLOSED and (claim.code == 0 or claim.code not in CODE_WORDS):
        yield f"a closed claim has code {claim.code_word}"


def _sequence(claim: Claim, rates: Rates) -> Iterator[str]:
    if claim.bcd < claim.disability:  # type: ignore[operator]
        yield f"BCD {claim.bcd} is before disability {claim.disability}"
    if claim.status == _CLOSED and claim.termination < claim.bcd:  # type: ignore[operator]
        yield f"termination {claim.termination} is before BCD {claim.bcd}"


def _elimination(claim: Claim, rates: Rates) -> Iterator[str]:
    days = (claim.bcd - claim.disability).days  # type: ignore[operator]
    yield f"BCD {claim.bcd} is {counted(days, 'day')} after disability {claim.disability}, and {_SHORTEST_ELIMINATION} are the fewest"


def _benefit(claim: Claim, rates: Rates) -> Iterator[str]:
    yield f"benefit {claim.benefit} is over {_HIGHEST_BENEFIT}; it is in hundreds of dollars"


def _table(claim: Claim, rates: Rates) -> Iterator[str]:
    yield f"the rate table has {counted(len(rates), 'number')}, and not {CELL_LENGTH} for each of 1 to {MOST_CELLS:,} cells"


def _cell(claim: Claim, rates: Rates) -> Iterator[str]:
    yield f"cell {claim.cell} is not in the rate table, which has cells 0 to {rates.cells - 1}"


def _rate(claim: Claim, rates: Rates) -> Iterator[str]:
    for duration in range(FIRST_DURATION, FIRST_DURATION + DURATIONS):
        both = rates.recovery(claim.cell, duration) + rates.death(claim.cell, duration)
        if both > MILLION:
            yield f"recovery and death of cell {claim.cell}, duration {duration} are {both:,} millionths together, over {MILLION:,}"
            return


def _full(claim: Claim, rates: Rates) -> Iterator[str]:
    yield f"a study takes {_MOST_CLAIMS:,} claims, and those before it fill it"


_RULES: Dict[int, Callable[[Claim, Rates], Iterator[str]]] = {
    2: _date,
    3: _status,
    4: _sequence,
    5: _elimination,
    6: _table,
    7: _cell,
    8: _rate,
    9: _full,
    16: _benefit,
}
