"""Actual to expected of a group: recoveries and deaths together and apart, each with its interval."""

from typing import List, NamedTuple, Optional

from ..study import EXPECTED_UNIT, GroupSums
from .figures import RATIO_PLACES, closings, interval_text, quotient, whole
from .intervals import Interval, poisson

KINDS = ("both", "recoveries", "deaths")


class Ratio(NamedTuple):
    """Actual over expected of one kind of closing; an interval only of counts."""

    kind: str
    actual: int
    expected: int
    interval: Optional[Interval]

    @property
    def whole(self) -> bool:
        """Whether it is of recoveries and deaths together."""
        return self.kind == KINDS[0]

    @property
    def value(self) -> Optional[float]:
        """30,000,000 × actual / expected, None where nothing is expected."""
        return EXPECTED_UNIT * self.actual / self.expected if self.expected > 0 else None

    @property
    def text(self) -> str:
        """The same as a text, blank where nothing is expected."""
        return quotient(EXPECTED_UNIT * self.actual, self.expected, RATIO_PLACES) if self.expected > 0 else ""

    @property
    def words(self) -> str:
        """The same in words."""
        what = "recoveries and deaths" if self.whole else self.kind
        if self.value is None:
            return f"nothing expected of {what}"
        within = f" (95 % interval {interval_text(self.interval)})" if self.interval else ""
        return f"{self.text}{within}, {whole(self.actual)} {what} for {closings(self.expected)} expected"


def ratios_of(sums: GroupSums, with_intervals: bool = True) -> List[Ratio]:
    """Recoveries and deaths together, then each. Sums weighted by benefit are no counts, and have no interval."""
    kinds = (
        (KINDS[0], sums.terminations, sums.expected),
        (KINDS[1], sums.recovery, sums.expected_recoveries),
        (KINDS[2], sums.death, sums.expected_deaths),
    )
    return [Ratio(*kind, _interval(kind[1], kind[2]) if with_intervals else None) for kind in kinds]


def _interval(actual: int, expected: int) -> Optional[Interval]:
    if expected <= 0 or actual < 0:
        return None
    low, high = poisson(actual)
    return EXPECTED_UNIT * low / expected, EXPECTED_UNIT * high / expected
