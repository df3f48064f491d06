"""The small company rule."""

import ctypes
from typing import Iterable, NamedTuple, Sequence, Tuple, Union

from .claim import Claim, record_of
from .claim_columns import Claims
from .dates import DateLike, number_of
from .library import calls, u64_list
from .refusals import must_be_taken


class SmallCompany(NamedTuple):
    """Whether a carrier is exempt, and the T it gets.

    recent   open claims disabled within two years of the valuation date
    earlier  open claims disabled earlier
    group    the first group whose new T differs from the old by more than a tenth of the old, or 0
    t        five T: 1,000,000 each for an exempt carrier, else the new ones
    """

    exempt: bool
    recent: int
    earlier: int
    group: int
    t: Tuple[int, ...]


def small_company(
    valuation_date: DateLike, claims: Iterable[Union[Claim, bytes]], new_t: Sequence[int], old_t: Sequence[int]
) -> SmallCompany:
    """The rule on a carrier's claims, with the five new T and the five in use. Refused under 2, 11, or a claim's 2 to 5 or 16."""
    records = claims.data if isinstance(claims, Claims) else b"".join(map(record_of, claims))
    new, old, out = u64_list("new_t", new_t), u64_list("old_t", old_t), (ctypes.c_uint64 * 9)()
    lists = records, len(records), new, len(new), old, len(old), out, len(out)
    must_be_taken(calls().ltd_small_company(number_of(valuation_date), *lists))
    exempt, recent, earlier, group, *t = out
    return SmallCompany(bool(exempt), recent, earlier, group, tuple(t))
