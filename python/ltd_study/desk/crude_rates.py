"""Crude monthly rates: recoveries, or deaths, over months of exposure, each with its interval and the table's expected rate."""

from typing import NamedTuple, Optional, Tuple

from ..study import EXPECTED_UNIT, THIRTIETHS, GroupSums
from .figures import interval_text, quotient
from .intervals import WILSON_WORDS, Interval, wilson

RATE_PLACES = 6
CRUDE_NOTE = f"Crude monthly rates are recoveries, or deaths, over months of exposure. {WILSON_WORDS}, blank with no exposure."
KINDS = ("recoveries", "deaths")


class CrudeRate(NamedTuple):
    """A count of closings, the exposure and what is expected of it."""

    count: int
    thirtieths: int
    expected: int

    @property
    def value(self) -> Optional[float]:
        """The rate, None with no exposure."""
        return THIRTIETHS * self.count / self.thirtieths if self.thirtieths > 0 else None

    @property
    def text(self) -> str:
        """The same as a text, blank with no exposure."""
        return quotient(THIRTIETHS * self.count, self.thirtieths, RATE_PLACES) if self.thirtieths > 0 else ""

    @property
    def interval(self) -> Optional[Interval]:
        """Wilson's interval."""
        return wilson(self.count, self.thirtieths / THIRTIETHS)

    @property
    def interval_text(self) -> str:
        """The same as a text."""
        return interval_text(self.interval, RATE_PLACES)

    @property
    def expected_value(self) -> Optional[float]:
        """The table's rate, weighted by exposure; None with no exposure."""
        return THIRTIETHS * self.expected / (EXPECTED_UNIT * self.thirtieths) if self.thirtieths > 0 else None

    @property
    def expected_text(self) -> str:
        """The same as a text."""
        return quotient(THIRTIETHS * self.expected, EXPECTED_UNIT * self.thirtieths, RATE_PLACES) if self.thirtieths > 0 else ""


def crude_rates(sums: GroupSums) -> Tuple[CrudeRate, CrudeRate]:
    """Of recoveries, and of deaths."""
    recoveries = CrudeRate(sums.recovery, sums.thirtieths, sums.expected_recoveries)
    return recoveries, CrudeRate(sums.death, sums.thirtieths, sums.expected_deaths)
