"""95 % intervals of counts and rates, so that six closings don't look as firm as fifty thousand. They are the desk's, not the engine's."""

import math
from typing import Optional, Tuple

TAIL = 0.025
NORMAL = 1.959963984540054
"""The normal distribution's value with TAIL above it."""

POISSON_WORDS = "95 % interval: exact limits of a Poisson count (Garwood's), what is expected taken as known"
WILSON_WORDS = "95 % interval: Wilson's, of a share of the months of exposure"

_STEPS = 60
_CLOSE = 1e-12

Interval = Tuple[float, float]


def poisson(count: int) -> Interval:
    """The means for which so high, and so low, a count has a chance of 2.5 %.

    >>> [round(end, 4) for end in poisson(6)]
    [2.2019, 13.0595]
    """
    low = 0.0 if count == 0 else _mean(count, TAIL)
    return low, _mean(count + 1, 1 - TAIL)


def wilson(count: int, trials: float) -> Optional[Interval]:
    """The limits of a rate of count in trials; None where there are no trials, or fewer than counted.

    >>> [round(end, 4) for end in wilson(5, 50)]
    [0.0435, 0.2136]
    """
    if trials <= 0 or count > trials:
        return None
    rate, square = count / trials, NORMAL**2 / trials
    centre = rate + square / 2
    half = NORMAL * math.sqrt(rate * (1 - rate) / trials + square / (4 * trials))
    return max(0.0, (centre - half) / (1 + square)), min(1.0, (centre + half) / (1 + square))


def _mean(shape: int, chance: float) -> float:
    """The mean with which a Poisson count reaches ``shape`` with this chance, by Newton's steps from Wilson and Hilferty's cube."""
    normal = NORMAL if chance > 0.5 else -NORMAL
    ninth = 1 / (9 * shape)
    mean = max(shape * (1 - ninth + normal * math.sqrt(ninth)) ** 3, 0.01)
    for _ in range(_STEPS):
        slope = math.exp((shape - 1) * math.log(mean) - mean - math.lgamma(shape))
        step = (_reaches(shape, mean) - chance) / slope
        # A step past zero is cut: the chance rises with the mean everywhere.
        mean = max(mean - step, mean / 2)
        if abs(step) <= _CLOSE * mean:
            break
    return mean


def _reaches(shape: int, mean: float) -> float:
    """The chance that a Poisson count of this mean is ``shape`` or more."""
    first = math.exp(shape * math.log(mean) - mean - math.lgamma(shape + 1))
    if mean < shape + 1:
        return first * _sum_up(shape, mean)
    return 1 - first * _sum_down(shape, mean)


def _sum_up(shape: int, mean: float) -> float:
    """The chances of shape, shape + 1, .. over that of shape."""
    together = term = 1.0
    after = shape + 1
    while term > _CLOSE * _CLOSE * together:
        term *= mean / after
        together += term
        after += 1
    return together


def _sum_down(shape: int, mean: float) -> float:
    """The chances of shape - 1, shape - 2, .. 0 over that of shape."""
    together, term = 0.0, 1.0
    for count in range(shape, 0, -1):
        term *= count / mean
        together += term
        if term <= _CLOSE * _CLOSE * together:
            break
    return together
