"""z, m and T, valuation rates, reserve factors, the limit on reserves and the count that reaches a wanted T. All in millionths."""

import ctypes
from collections.abc import Iterable
from typing import NamedTuple, Sequence, Tuple

from .library import calls, fits, u64_list
from .rates import Rates
from .refusals import must_be_taken, taken


class Factor(NamedTuple):
    """Credibility z, margin m and factor T of a group, in millionths; T without any ceiling."""

    z: int
    m: int
    t: int


class ReserveLimit(NamedTuple):
    """What the limit judged on reserves leaves of T, and the totals it is judged by.

    t         the five T
    given     the reserve factors added up with the given T
    replaced  the same with T replaced by 1,300,000 in groups 3 to 5 (group 3 kept from 5,000 terminations on)
    """

    t: Tuple[int, ...]
    given: float
    replaced: float


def factor(group: int, terminations: int, expected: int) -> Factor:
    """z, m and T of a group from C and E. Refused under 12.

    >>> factor(2, 1_000, 99_000_000_000)
    Factor(z=1000000, m=95143, t=274199)
    """
    out = (ctypes.c_uint64 * 3)()
    arguments = fits("group", group, 8), fits("terminations", terminations, 32), fits("expected", expected, 64, signed=True)
    must_be_taken(calls().ltd_factor(*arguments, out, len(out)))
    return Factor(*out)


def wanted_count(group: int, expected: int, wanted: int) -> int:
    """The smallest C, 0 to 500,000, whose T is at least the wanted one, E as it is. Refused under 12 or 19."""
    answer = calls().ltd_wanted_count(fits("group", group, 8), fits("expected", expected, 64, signed=True), fits("wanted", wanted, 64))
    return taken(answer)


def valuation_rate(rates: Rates, cell: int, t: int, duration: int) -> int:
    """The valuation rate of a T, cell and duration: the cell's recovery plus death rate times T. Refused under 6 to 8 or 12."""
    arguments = fits("cell", cell, 32), fits("t", t, 64), fits("duration", duration, 32)
    return taken(calls().ltd_valuation_rate(*rates.lent, *arguments))


def reserve_factor(rates: Rates, cell: int, first: int, t: Sequence[int], months: int, v: float) -> float:
    """The reserve factor of a cell from a first duration on, over a number of months, with five T and the discount v.

    Refused under 6 to 8, 12 or 13.

    >>> reserve_factor(Rates.flat(250_000, 250_000), 0, 4, [1_000_000] * 5, 2, 0.5)
    0.3125
    """
    out = (ctypes.c_double * 1)()
    five = u64_list("t", t)
    start = fits("cell", cell, 32), fits("first", first, 32)
    must_be_taken(calls().ltd_reserve_factor(*rates.lent, *start, five, len(five), fits("months", months, 32), v, out, len(out)))
    return out[0]


def reserve_limit(
    rates: Rates, open_claims: Iterable[Tuple[int, int, int]], t: Sequence[int], group_3_count: int, v: float
) -> ReserveLimit:
    """The limit on T judged on reserves, over open claims of cell, next duration (above 24) and months left, at most 2,000.

    Where the total with the given T is less than that with the replaced ones, the replaced T are returned, else the given.
    Refused under 6 to 8, 12, 13 or 17.
    """
    claims = [fits("an open claim's number", number, 32) for claim in map(_triple, open_claims) for number in claim]
    lent_claims = (ctypes.c_uint32 * len(claims))(*claims)
    five, t_out, totals = u64_list("t", t), (ctypes.c_uint64 * 5)(), (ctypes.c_double * 2)()
    arguments = five, len(five), fits("group_3_count", group_3_count, 64), v
    lists = t_out, len(t_out), totals, len(totals)
    must_be_taken(calls().ltd_reserve_limit(*rates.lent, lent_claims, len(claims), *arguments, *lists))
    return ReserveLimit(tuple(t_out), totals[0], totals[1])


def _triple(claim: Iterable[int]) -> Tuple[int, ...]:
    # The engine sees one list of numbers: claims of another length would shift into one another.
    numbers = tuple(claim) if isinstance(claim, Iterable) else ()
    if len(numbers) != 3:
        raise ValueError(f"an open claim is cell, next duration and months left, not {claim!r}")
    return numbers
