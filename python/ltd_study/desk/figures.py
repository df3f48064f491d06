"""Figures as people read them. Every one is exact or rounded from whole numbers, never from a rounded one."""

from typing import Optional, Sequence, Tuple, Union

from ..study import EXPECTED_UNIT, THIRTIETHS, GroupSums

MONTH_PLACES = 3
CLOSING_PLACES = 4
RATIO_PLACES = 4
INTERVAL_PLACES = 3


def whole(number: int) -> str:
    """1,234,567."""
    return f"{number:,}"


def quotient(numerator: int, denominator: int, places: int) -> str:
    """A fraction with so many decimals, halves away from zero."""
    scaled = (2 * abs(numerator) * 10**places + denominator) // (2 * denominator)
    sign = "-" if numerator < 0 and scaled else ""
    return f"{sign}{scaled // 10**places:,}.{scaled % 10**places:0{places}}"


def months(thirtieths: int) -> str:
    """Thirtieths as months."""
    return quotient(thirtieths, THIRTIETHS, MONTH_PLACES)


def closings(expected: int) -> str:
    """An expected sum as a number of closings."""
    return quotient(expected, EXPECTED_UNIT, CLOSING_PLACES)


def actual_to_expected(sums: GroupSums) -> str:
    """30,000,000 × C / E, blank where E is 0 or less."""
    return quotient(EXPECTED_UNIT * sums.terminations, sums.expected, RATIO_PLACES) if sums.expected > 0 else ""


def interval_text(interval: Optional[Tuple[float, float]], places: int = INTERVAL_PLACES) -> str:
    """'0.345 to 2.051', blank where there is none."""
    return "" if interval is None else f"{interval[0]:,.{places}f} to {interval[1]:,.{places}f}"


def group_names(groups: Sequence[int]) -> str:
    """'Group 1', 'Groups 1, 4 and 5'."""
    *others, last = map(str, groups)
    return f"Groups {', '.join(others)} and {last}" if others else f"Group {last}"


def millionths(number: int) -> str:
    """1027931 as 1.027931, which is exact."""
    return f"{number // 1_000_000:,}.{number % 1_000_000:06}"


def durations(first: int, last: Optional[int]) -> str:
    """A group's durations in words."""
    return f"{first} to {last}" if last is not None else f"over {first - 1}"


def counted(number: int, one: str, many: Union[str, None] = None) -> str:
    """'1 claim', '2 claims'."""
    return f"{number:,} {one if number == 1 else many or one + 's'}"
