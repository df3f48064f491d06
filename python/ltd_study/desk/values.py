"""A study for each value of a column beside the whole one; the engine's own call joins them to show that they total it."""

import hashlib
import io
import os
from typing import Dict, Iterator, List, NamedTuple, Tuple

from ..claim_file import ClaimFile, file_study, record_count, write_claims
from ..study import Study
from .choosing import Chosen
from .csv_rows import Faults, is_utf8, not_utf8, numbered_rows, text_of
from .figures import counted
from .page import Source
from .parts import GroupBeside, sums_of
from .side_files import belongs, beside
from .talk import DataRefused, read_bytes

MOST_VALUES = 200
_NO_VALUE = "(empty)"


class Values(NamedTuple):
    """The values of a column, one for each claim in file order."""

    column: str
    values: List[str]
    source: Source


class ByValue(NamedTuple):
    """The whole study, that of each value, and the latter joined."""

    column: str
    whole: Study
    studies: List[Tuple[str, Study]]
    joined: Study

    def of_group(self, group: int, weighted: bool) -> GroupBeside:
        """A group's sums, beside each other."""
        whole, joined, *studies = (sums_of(study, weighted)[group - 1] for study in (self.whole, self.joined, *(study for _, study in self.studies)))
        return GroupBeside(whole, studies, joined)

    @property
    def adds_up(self) -> bool:
        """Whether the joined studies are the whole one: window, claims taken and every sum."""
        return self.joined == self.whole

    @property
    def words(self) -> str:
        """The same in words."""
        studies = counted(len(self.studies), "study", "studies")
        if not self.adds_up:
            wrong = f"The {studies} by {self.column}, joined, are not the whole study"
            return f"{wrong}: keep the files, and check that the engine was built from its own sources."
        return f"The {studies} by {self.column}, joined by the engine, are the whole study: claims taken and every sum, by count and weighted."


def read_values(named: str, chosen: Chosen) -> Values:
    """A column's CSV: its name, then one value for each claim of the file. 'pack --map' keeps it beside the claim file, under the column's name."""
    kept = beside(chosen.name, f"{named}.csv")
    path = kept if os.path.isfile(kept) and not os.path.exists(named) else named
    if path == kept and not belongs(chosen.name, chosen.sources[0].sha256):
        raise DataRefused(f"'{kept}' is not of the claim file '{chosen.name}'")
    data = read_bytes("column of values", path)
    faults = Faults(1)
    column, *values = _texts(data, faults) or [""]
    if faults.count:
        raise DataRefused(f"'{path}': {faults.first[0]}")
    claims, different = record_count(chosen.whole), len(set(values))
    if len(values) != claims:
        empty = '; an empty value is written as ""' if len(values) < claims else ""
        found = f"'{path}' has {counted(len(values), 'value')} for {counted(claims, 'claim')}"
        raise DataRefused(f"{found}: after its name it has one for each, in file order{empty}")
    if different > MOST_VALUES:
        raise DataRefused(f"'{path}' has {different:,} different values, and {MOST_VALUES} are the most that are studied")
    return Values(column, values, Source("values", path, hashlib.sha256(data).hexdigest()))


def _texts(data: bytes, faults: Faults) -> List[str]:
    """The one field of each line; anything else is a fault."""
    texts = []
    for line, row in numbered_rows(text_of(io.BytesIO(data)), faults):
        text = row[0].strip() or _NO_VALUE
        if len(row) != 1:
            faults.add(line, "", f"{len(row)} fields, where a value stands alone")
        elif not is_utf8(text):
            faults.add(line, "", not_utf8(text))
        texts.append(text)
    return texts


def by_value(chosen: Chosen, whole: Study, column: Values) -> ByValue:
    """The study of each value's claims that count, and all of them joined."""
    records: Dict[str, List[bytes]] = {value: [] for value in _in_order(column.values)}
    for i, record in chosen.counted():
        records[column.values[i]].append(record.data)
    studies = [(value, _study(chosen, own)) for value, own in records.items()]
    joined = Study.open(whole.first, whole.last)
    for _, study in studies:
        joined.join(study)
    return ByValue(column.column, whole, studies, joined)


def _in_order(values: List[str]) -> Iterator[str]:
    """Each once; as numbers where all are numbers."""
    different = set(values)
    numbers = all(value.isascii() and value.isdigit() for value in different)
    yield from sorted(different, key=(lambda value: (len(value.lstrip("0")), value.lstrip("0"), value)) if numbers else str)


def _study(chosen: Chosen, records: List[bytes]) -> Study:
    out = io.BytesIO()
    write_claims(out, *chosen.file.window(), records)
    return file_study(ClaimFile(out.getvalue()), chosen.rates)
