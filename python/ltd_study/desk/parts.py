"""A window cut into parts: a study of each beside the undivided one."""

from datetime import date, timedelta
from typing import Callable, Iterable, Iterator, List, NamedTuple, Optional, Sequence, Set, Tuple

from ..claim_file import ClaimFile, Record, file_study
from ..month_listing import MonthRecord, listing
from ..rates import Rates
from ..study import GroupSums, Study, total

_CLOSED = 1
_STATUS_AT = 20


class Part(NamedTuple):
    """A part of a window, both days included."""

    first: date
    last: date

    @property
    def label(self) -> str:
        """The year, or both days where it is no whole year."""
        whole_year = self == (date(self.first.year, 1, 1), date(self.first.year, 12, 31))
        return str(self.first.year) if whole_year else f"{self.first} to {self.last}"


def cut(first: date, last: date, ends: Sequence[date]) -> List[Part]:
    """The parts of a window, each but the last ending on one of the days. Raises ValueError where a day can't end a part."""
    parts, start = [], first
    for end in sorted(ends):
        if not first <= end < last:
            raise ValueError(f"no part can end on {end}: the window is {first} to {last}, and the last part ends with it")
        if end < start:
            raise ValueError(f"{end} is given twice")
        parts.append(Part(start, end))
        start = end + timedelta(days=1)
    return [*parts, Part(start, last)]


def calendar_years(first: date, last: date) -> List[Part]:
    """The parts of a window that are calendar years, the first and the last as far as they lie in it."""
    return cut(first, last, [date(year, 12, 31) for year in range(first.year, last.year)])


class Divided(NamedTuple):
    """The study of a window, and those of its parts."""

    whole: Study
    parts: List[Tuple[Part, Study]]

    def of_group(self, group: int, weighted: bool) -> "GroupBeside":
        """A group's sums, beside each other."""
        whole, *parts = (sums_of(study, weighted)[group - 1] for study in (self.whole, *(study for _, study in self.parts)))
        return GroupBeside(whole, parts, total(parts))

    @property
    def adds_up(self) -> bool:
        """Whether every sum of the parts, by count and weighted, totals the undivided one, and every study took as many claims."""
        differences = (self.of_group(group, weighted).difference for group in range(1, 6) for weighted in (False, True))
        taken = {study.claims_taken for _, study in self.parts}
        return not any(any(sums) for sums in differences) and taken == {self.whole.claims_taken}


class GroupBeside(NamedTuple):
    """The sums of a group in the whole study and in each of the studies that make it, and theirs together."""

    whole: GroupSums
    parts: List[GroupSums]
    together: GroupSums

    @property
    def is_empty(self) -> bool:
        """Whether every sum is zero in every study."""
        return not any(any(sums) for sums in (self.whole, *self.parts))

    @property
    def difference(self) -> GroupSums:
        """The parts together less the whole."""
        return self.together.minus(self.whole)


def sums_of(study: Study, weighted: bool) -> List[GroupSums]:
    """The groups of a study in one set."""
    return study.weighted if weighted else study.groups


def divide(file: ClaimFile, rates: Rates, parts: Sequence[Part], corrected: bool, seen: Callable[[int], None] = lambda i: None) -> Divided:
    """The study of a file and of the same claims in each part. Raises RefusedFile."""
    whole = file_study(file, rates, corrected)
    studies = []
    for i, part in enumerate(parts):
        seen(i)
        studies.append((part, file_study(file.with_window(*part), rates, corrected)))
    return Divided(whole, studies)


class Closing(NamedTuple):
    """A closing in the undivided window, and the parts that count it: by the theorem exactly one."""

    record: Record
    month: MonthRecord
    parts: List[Part]

    @property
    def counted_once(self) -> bool:
        """Whether it is."""
        return len(self.parts) == 1


def closings(records: Iterable[Record], divided: Divided, seen: Callable[[int], None] = lambda block: None) -> Iterator[Closing]:
    """Each closing of the claims that count, in their order, by the listings of its claim in the window and in the parts."""
    whole = Part(divided.whole.first, divided.whole.last)
    for record in records:
        seen(record.block)
        if record.data[_STATUS_AT] != _CLOSED:
            continue
        month = closing_month(record, whole)
        if month is not None:
            yield Closing(record, month, [part for part, _ in divided.parts if closing_month(record, part) is not None])


def closing_month(record: Record, part: Part) -> Optional[MonthRecord]:
    """The month in which a claim closes in a window, if it does."""
    months = listing(record.data, *part)
    return months[-1] if months and months[-1].category else None


def refused_in(records: Iterable[bytes], rates: Rates, parts: Sequence[Part]) -> List[Set[int]]:
    """Of each claim the numbers under which the parts refuse it; 0 where one takes it."""
    studies = [Study.open(*part) for part in parts]
    return [{study.try_add(record, rates) for study in studies} for record in records]
