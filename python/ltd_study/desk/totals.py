"""What several carriers published, added up: without the limit of one study, and so without z, m and T."""

from collections import defaultdict
from typing import Dict, List, NamedTuple, Optional, Sequence, Tuple

from ..study import GROUPS, GroupSums, total
from .claim_notes import together_notes
from .figures import counted
from .parts import GroupBeside, Part
from .published import Band, Published, Row

NO_FACTORS = (
    "A total has no z, m and T: they are a study's, of one carrier or of affiliates pooled, and of at most 500,000 claims. "
    "A total has no such limit."
)


class Entry(NamedTuple):
    """What one carrier published of its claims: a study, its years, or both."""

    study: Optional[Published]
    years: Optional[Published]

    @property
    def whole(self) -> Published:
        """The window's figures."""
        found = self.study or self.years
        assert found is not None, "an entry has a file"
        return found

    @property
    def carrier(self) -> str:
        """The carrier's name, or its file's."""
        return next((file.carrier for file in self.files if file.carrier), self.whole.name)

    @property
    def files(self) -> List[Published]:
        """The study, then the years."""
        return [file for file in (self.study, self.years) if file is not None]


class Total(NamedTuple):
    """The entries, and the sums of all."""

    entries: List[Entry]
    rows: List[Row]

    @property
    def window(self) -> Part:
        """The one window."""
        return self.entries[0].whole.window

    @property
    def by_group(self) -> bool:
        """Whether the rows are the five groups, and not durations."""
        return tuple(row.band for row in self.rows) == GROUPS

    @property
    def claims_taken(self) -> int:
        """All carriers' claims."""
        return sum(entry.whole.claims_taken for entry in self.entries)

    @property
    def notes(self) -> List[str]:
        """What a reader must not miss of the carriers' claims."""
        whole = [entry.whole for entry in self.entries]
        claims = [one for file in whole for one in file.claims]
        repeated, left_out = sum(file.repeated_numbers for file in whole), sum(file.left_out for file in whole)
        return together_notes(repeated, left_out, len(claims) - len(set(claims)), "total")

    @property
    def with_years(self) -> List[Entry]:
        """The carriers that sent their years."""
        return [entry for entry in self.entries if entry.years is not None]

    @property
    def parts(self) -> List[Part]:
        """The parts that the years are cut into."""
        return [part for part, _ in _parts(self.with_years[0])] if self.with_years else []

    @property
    def differences(self) -> int:
        """How many sums of the parts, band by band and in both sets, don't total the window's: carrier by carrier, and in total."""
        sets = [[entry] for entry in self.with_years] + [self.with_years]
        besides = (beside(entries, i, weighted) for entries in sets for i in range(len(self.rows)) for weighted in (False, True))
        return sum(1 for one in besides for sum_ in one.difference if sum_) if self.with_years else 0


def add_up(files: Sequence[Published], again: bool = False) -> Total:
    """The total of what carriers published. Raises ValueError where it isn't of one window, one rate table and one set of bands, where the
    same claims stand twice (unless ``again``), or where a carrier's study and years differ."""
    first = files[0]
    for file in files[1:]:
        _must_fit(first, file)
    entries = _entries(files, again)
    total_of = Total(entries, [_row(entries, i) for i in range(len(first.rows))])
    for entry in total_of.with_years:
        if [part for part, _ in _parts(entry)] != total_of.parts:
            raise ValueError(f"'{entry.files[-1].name}' is cut into other parts than '{total_of.with_years[0].files[-1].name}'")
    return total_of


def _must_fit(first: Published, file: Published) -> None:
    if file.window != first.window:
        windows = f"{file.window.first} to {file.window.last}, '{first.name}' of {first.window.first} to {first.window.last}"
        raise ValueError(f"'{file.name}' is of the window {windows}: a total is of one window")
    if file.rates_sha256 != first.rates_sha256:
        raise ValueError(f"'{file.name}' was made with another rate table than '{first.name}': a total is of one table")
    if bands_of(file) != bands_of(first):
        raise ValueError(f"'{file.name}' has other rows of durations than '{first.name}'")


def bands_of(file: Published) -> List[Band]:
    """The durations of each row."""
    return [row.band for row in file.rows]


def _entries(files: Sequence[Published], again: bool) -> List[Entry]:
    """Studies and years of the same claims as one entry each, in the order of the files."""
    of_claims: Dict[Tuple[str, bool], List[Published]] = defaultdict(list)
    for file in files:
        of_claims[file.claims_sha256 or file.sha256, file.corrected].append(file)
    entries = []
    for same in of_claims.values():
        studies = [file for file in same if not file.parts]
        years = [file for file in same if file.parts]
        for kind in (studies, years):
            if len(kind) > 1 and not again:
                raise ValueError(f"'{kind[1].name}' is of the same claims as '{kind[0].name}': with --again both count")
        for i in range(max(len(studies), len(years))):
            entries.append(_entry(studies[i] if i < len(studies) else None, years[i] if i < len(years) else None))
    _no_claims_twice(entries, again)
    return entries


def _no_claims_twice(entries: Sequence[Entry], again: bool) -> None:
    """The same claims with and without corrections, or in a pool, are the same claims."""
    seen: Dict[str, Entry] = {}
    for entry, claims in ((entry, claims) for entry in entries for claims in entry.whole.claims):
        other = seen.setdefault(claims, entry)
        if other is not entry and not again:
            raise ValueError(f"'{entry.whole.name}' is of the same claims as '{other.whole.name}': with --again both count")


def _entry(study: Optional[Published], years: Optional[Published]) -> Entry:
    if study and years and (study.rows != years.rows or study.claims_taken != years.claims_taken):
        raise ValueError(f"'{study.name}' and '{years.name}' are of the same claims, and their sums of the window differ")
    if study and years and (study.left_out, study.repeated_numbers) != (years.left_out, years.repeated_numbers):
        raise ValueError(f"'{study.name}' and '{years.name}' are of the same claims, and their claims left out or numbers repeated differ")
    return Entry(study, years)


def _row(entries: Sequence[Entry], i: int) -> Row:
    rows = [entry.whole.rows[i] for entry in entries]
    return Row(rows[0].band, total(row.count for row in rows), total(row.weighted for row in rows))


def _parts(entry: Entry) -> List[Tuple[Part, List[Row]]]:
    return entry.years.parts if entry.years else []


def beside(entries: Sequence[Entry], i: int, weighted: bool) -> GroupBeside:
    """The parts of some entries beside their windows, at one row."""

    def sums(row: Row) -> GroupSums:
        return row.weighted if weighted else row.count

    parts = zip(*(_parts(entry) for entry in entries))
    whole = total(sums(entry.whole.rows[i]) for entry in entries)
    return _beside(whole, [total(sums(rows[i]) for _, rows in part) for part in parts])


def all_rows_beside(entries: Sequence[Entry], rows: int, weighted: bool) -> GroupBeside:
    """The same, of all rows together."""
    found = [beside(entries, i, weighted) for i in range(rows)]
    return _beside(total(one.whole for one in found), [total(part) for part in zip(*(one.parts for one in found))])


def _beside(whole: GroupSums, parts: List[GroupSums]) -> GroupBeside:
    return GroupBeside(whole, parts, total(parts))


def verdict(total_of: Total) -> str:
    """What was verified of the years, in words; empty where nobody sent any."""
    carriers = len(total_of.with_years)
    if not carriers:
        return ""
    if total_of.differences:
        return f"{counted(total_of.differences, 'sum')} of the years do not total the window's. Ask the carriers for their files again."
    who = "the carrier that sent its years" if carriers == 1 else f"each of the {carriers:,} carriers that sent their years, and in total"
    words = f"Years beside the window: for {who}, every sum of the {counted(len(total_of.parts), 'part')} totals the window's, "
    sets = "by count and weighted" if total_of.by_group else "at every duration"
    return words + f"in every row, {sets}; every difference is 0."
