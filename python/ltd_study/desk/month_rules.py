"""The months of one claim with the rule that decided each part month, in document 01's words.

The engine's listing has the figures; the rule's own result is worked out here and held to them.
"""

from datetime import date, timedelta
from typing import List, NamedTuple, Optional, Tuple

from .. import dates
from ..claim import CODE_WORDS, Claim
from ..month_listing import MonthRecord, listing
from .figures import counted

FULL = 30
_RECOVERY_OR_DEATH = (1, 2)
_LATE_DAY = 27
_NEAR_MAXIMUM = 45
_MONTHS = 12


class ExplainedMonth(NamedTuple):
    """A month record, its whole claim month and the rule."""

    record: MonthRecord
    start: date
    end: date
    upper: int
    """U."""
    lower: int
    """B; the thirtieths are U - B."""
    rule: str


class Explained(NamedTuple):
    """A claim's months, and what its dates make of it."""

    months: List[ExplainedMonth]
    elimination_period: int
    first_duration: int
    category: str
    """Of a closed claim."""


def claim_month(bcd: date, k: int) -> Tuple[date, date]:
    """First and last day of claim month k = 1, 2, ..: the BCD's day, or as many days before the month's end as BCD is from day 27 on."""
    return _start(bcd, k), _start(bcd, k + 1) - timedelta(days=1)


def _start(bcd: date, k: int) -> date:
    if bcd.day < _LATE_DAY:
        return _month_start(bcd, k - 1) + timedelta(days=bcd.day - 1)
    before_next = _month_start(bcd, 1) - bcd
    return _month_start(bcd, k) - before_next


def _month_start(bcd: date, later: int) -> date:
    month = bcd.year * _MONTHS + bcd.month - 1 + later
    return date(month // _MONTHS, month % _MONTHS + 1, 1)


def explain(claim: Claim, first: date, last: date) -> Explained:
    """The months of a claim in a window, each with its rule. Refused as a listing is."""
    records = listing(claim, first, last)
    lifetime = listing(claim, dates.FIRST, dates.LAST)
    disability, bcd = claim.disability, claim.bcd
    assert isinstance(disability, date) and isinstance(bcd, date), "a claim that is listed has both dates"
    months = [_explained(record, claim, bcd, record.duration - lifetime[0].duration + 1, first, last) for record in records]
    category = CODE_WORDS.get(lifetime[-1].category, "")
    return Explained(months, (bcd - disability).days, lifetime[0].duration, category if claim.status else "")


def _explained(record: MonthRecord, claim: Claim, bcd: date, k: int, first: date, last: date) -> ExplainedMonth:
    start, end = claim_month(bcd, k)
    lower, lower_rule = _lower(start, end, first)
    upper, upper_rule = _upper(record, start, end, last)
    if upper - lower != record.thirtieths or record.first != max(start, bcd, first):
        raise AssertionError(f"the rule gives {upper - lower} thirtieths from {start} on, the engine's listing {record}")
    rule = "; ".join(text for text in (upper_rule, lower_rule) if text) or "a full month"
    return ExplainedMonth(record, start, end, upper, lower, rule)


def _lower(start: date, end: date, first: date) -> Tuple[int, str]:
    if start >= first:
        return 0, ""
    inside = (end - first).days + 1
    return FULL - inside, f"began {start}, before the window: B = 30 - {counted(inside, 'day')} up to {end}"


def _upper(record: MonthRecord, start: date, end: date, last: date) -> Tuple[int, str]:
    closed = record.last
    if record.category in _RECOVERY_OR_DEATH:
        return FULL, f"closed by {record.category_word}: U = 30, the whole month"
    if record.category and closed.day >= _LATE_DAY:
        missing = (end - closed).days
        return FULL - missing, f"closed on day {closed.day}, 27 or later: U = 30 - {counted(missing, 'day')} left to {end}"
    if record.category:
        days = (closed - start).days + 1
        most = ", but at most 30" if days > FULL else ""
        return min(FULL, days), f"closed before day 27: U = {counted(days, 'day')} from {start} on{most}"
    if last <= end:
        missing = (end - last).days
        return FULL - missing, f"window ends {counted(missing, 'day')} before {end}: U = 30 - {missing}" if missing else ""
    return FULL, ""


def near_maximum(claim: Claim) -> Optional[str]:
    """Why a closed claim is a max-out whatever its code, where it is near its maximum date."""
    termination, maximum = claim.termination, claim.maximum
    if not (isinstance(termination, date) and isinstance(maximum, date)):
        return None
    days = (termination - maximum).days
    if abs(days) > _NEAR_MAXIMUM:
        return None
    side = "on" if days == 0 else f"{counted(abs(days), 'day')} {'before' if days < 0 else 'after'}"
    return f"closed {side} the maximum date, which is 45 days or less"
