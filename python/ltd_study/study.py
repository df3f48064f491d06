"""A study: its sums by duration group, by count and weighted by benefit."""

import ctypes
from datetime import date
from typing import Callable, Iterable, List, NamedTuple, Optional, Sequence, Tuple, Union

from .claim import Claim, record_of
from .dates import DateLike, number_of, of_day_number
from .library import calls, fits
from .rates import Rates
from .refusals import BAD_FORM, must_be_taken
from .valuation import Factor, factor

GROUPS: Tuple[Tuple[int, Optional[int]], ...] = ((1, 3), (4, 24), (25, 60), (61, 120), (121, None))
"""First and last duration of each group, in months."""

EXPECTED_UNIT = 30_000_000
"""An expected sum counts in 1/30,000,000 of a closing."""

THIRTIETHS = 30
"""To a month of exposure."""


class GroupSums(NamedTuple):
    """The sums of one duration group, by count or weighted.

    thirtieths                                   exposure in thirtieths of a month
    recovery, death, settlement, max_out, limit  closings
    expected_recoveries, expected_deaths         in 1/30,000,000 of a closing
    """

    thirtieths: int = 0
    recovery: int = 0
    death: int = 0
    settlement: int = 0
    max_out: int = 0
    limit: int = 0
    expected_recoveries: int = 0
    expected_deaths: int = 0

    @property
    def months(self) -> float:
        """Exposure in months."""
        return self.thirtieths / THIRTIETHS

    @property
    def terminations(self) -> int:
        """C: recoveries and deaths; settlements, max-outs and limits don't count."""
        return self.recovery + self.death

    @property
    def closings(self) -> int:
        """All five closing counts together."""
        return sum(self[1:6])

    @property
    def expected(self) -> int:
        """E: both expected sums together."""
        return self.expected_recoveries + self.expected_deaths

    @property
    def actual_to_expected(self) -> Optional[float]:
        """30,000,000 × C / E, None where E is 0 or less."""
        return EXPECTED_UNIT * self.terminations / self.expected if self.expected > 0 else None

    def plus(self, other: "GroupSums") -> "GroupSums":
        """Sum by sum."""
        return GroupSums(*(a + b for a, b in zip(self, other)))

    def minus(self, other: "GroupSums") -> "GroupSums":
        """Sum by sum."""
        return GroupSums(*(a - b for a, b in zip(self, other)))


SUM_NAMES = GroupSums._fields
_GROUP_LENGTH = len(SUM_NAMES)
_SUMS_AT = 3
_WEIGHTED_AT = _SUMS_AT + len(GROUPS) * _GROUP_LENGTH
STUDY_LENGTH = _WEIGHTED_AT + len(GROUPS) * _GROUP_LENGTH


def total(groups: Iterable[GroupSums]) -> GroupSums:
    """The sums of several groups together."""
    together = GroupSums()
    for group in groups:
        together = together.plus(group)
    return together


class Study:
    """A study of a window, held as the engine's 83 numbers.

    >>> study = Study.open("2009-01-01", "2017-12-31")
    >>> claim = Claim(1, "2009-03-13", "2009-06-11", "2012-04-29", status="closed", code="recovery")
    >>> study.add(claim, Rates.flat(10_000, 5_000))
    >>> study.groups[1].thirtieths, study.groups[2].recovery, study.factor(3).t
    (630, 1, 1027931)
    """

    def __init__(self, numbers: Sequence[int]) -> None:
        if len(numbers) != STUDY_LENGTH:
            raise ValueError(f"a study is {STUDY_LENGTH} numbers, not {len(numbers)}")
        self._list = (ctypes.c_int64 * STUDY_LENGTH)(*(fits("a study's number", number, 64, signed=True) for number in numbers))

    @classmethod
    def open(cls, first: DateLike, last: DateLike) -> "Study":
        """A fresh study of the window first..last, both included. Refused under 1."""
        study = cls([0] * STUDY_LENGTH)
        must_be_taken(calls().ltd_open(number_of(first), number_of(last), study._list, STUDY_LENGTH))
        return study

    def add(self, claim: Union[Claim, bytes], rates: Rates) -> None:
        """Adds a claim. Refused under 1 to 9 or 16, the study as it was."""
        must_be_taken(self.try_add(claim, rates))

    def try_add(self, claim: Union[Claim, bytes], rates: Rates) -> int:
        """Adds a claim and answers 0, or the number refused."""
        return self._change(calls().ltd_prepared_add, calls().ltd_add, claim, rates)

    def add_all(self, claims: Iterable[Union[Claim, bytes]], rates: Rates) -> List[int]:
        """Adds claims one after the other, past those that are refused, and answers 0 or the number refused of each."""
        return [self.try_add(claim, rates) for claim in claims]

    def withdraw(self, claim: Union[Claim, bytes], rates: Rates) -> None:
        """Takes a claim back that was added before with these rates. Refused as adding, or under 18, the study as it was."""
        must_be_taken(self.try_withdraw(claim, rates))

    def try_withdraw(self, claim: Union[Claim, bytes], rates: Rates) -> int:
        """Takes a claim back and answers 0, or the number refused."""
        return self._change(calls().ltd_prepared_withdraw, calls().ltd_withdraw, claim, rates)

    def _change(self, prepared_call: Callable[..., int], plain_call: Callable[..., int], claim: Union[Claim, bytes], rates: Rates) -> int:
        """Changes the study with the prepared table, or with the rates where none can be prepared of them: the engine answers alike."""
        record = record_of(claim)
        table = rates.prepared
        call, lent = (plain_call, rates.lent) if table is None else (prepared_call, table.lent)
        answer = call(self._list, STUDY_LENGTH, record, len(record), *lent)
        if answer == BAD_FORM:
            must_be_taken(answer)
        return answer

    def join(self, other: "Study") -> None:
        """Pools another study of the same window, built with the same rates. Refused under 1, 15 or 9, the study as it was."""
        # A list that is written may overlap no other: a study joined to itself is joined to a copy.
        joined = other.copy() if other is self else other
        must_be_taken(calls().ltd_join(self._list, STUDY_LENGTH, joined._list, STUDY_LENGTH))

    def copy(self) -> "Study":
        """A study with the same numbers."""
        return Study(self.numbers)

    @property
    def numbers(self) -> List[int]:
        """The 83 numbers, in the order that the C header gives."""
        return list(self._list)

    @property
    def first(self) -> date:
        """The window's first day."""
        return of_day_number(self._list[0])

    @property
    def last(self) -> date:
        """The window's last day."""
        return of_day_number(self._list[1])

    @property
    def claims_taken(self) -> int:
        """How many claims the study holds, those without months included."""
        return self._list[2]

    @property
    def groups(self) -> List[GroupSums]:
        """The sums of groups 1 to 5, by count."""
        return self._set(_SUMS_AT)

    @property
    def weighted(self) -> List[GroupSums]:
        """The sums of groups 1 to 5, each claim's share times its benefit."""
        return self._set(_WEIGHTED_AT)

    def _set(self, start: int) -> List[GroupSums]:
        numbers = self._list[start : start + len(GROUPS) * _GROUP_LENGTH]
        return [GroupSums(*numbers[i : i + _GROUP_LENGTH]) for i in range(0, len(numbers), _GROUP_LENGTH)]

    def factor(self, group: int) -> Factor:
        """z, m and T of a group, from its sums by count. Refused under 12."""
        sums = self.groups[group - 1] if 1 <= group <= len(GROUPS) else GroupSums()
        return factor(group, sums.terminations, sums.expected)

    def __eq__(self, other: object) -> bool:
        return self.numbers == other.numbers if isinstance(other, Study) else NotImplemented

    def __repr__(self) -> str:
        return f"<Study of {self.first} to {self.last}: {self.claims_taken} claims>"
