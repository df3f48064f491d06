"""What carriers publish, read and checked: a study's JSON or that of its years. Each format has a reader."""

import hashlib
import json
from typing import Any, Callable, Dict, List, NamedTuple, Tuple

from .. import dates
from ..duration_rows import Durations
from ..study import GROUPS, SUM_NAMES, GroupSums, Study, total
from .duration_reports import Band, all_dict, bands, part_dict
from .parts import Divided, Part
from .reports import found_dict, years_sets
from .saved_figures import hash_in, left_out_in, must_be_rows, must_follow, part_in, repeated_in, sources_in, study_in, text_in, whole_in
from .side_files import Kept
from .study_json import FORMAT as STUDY_FORMAT
from .study_json import OLDER_FORMATS, of_dict

YEARS_FORMAT = "ltd years 1"
DURATIONS_FORMAT = "ltd durations 1"


class Row(NamedTuple):
    """The sums of a band of durations, by count and weighted by benefit."""

    band: Band
    count: GroupSums
    weighted: GroupSums


class Published(NamedTuple):
    """A carrier's file: its window, claims taken and rows, those of each part too where it is cut into parts."""

    name: str
    sha256: str
    carrier: str
    claims_sha256: str
    rates_sha256: str
    corrected: bool
    window: Part
    sources: Tuple[Kept, ...]
    """The files that it was made from, as it keeps them; nothing in an older one."""
    claims: Tuple[str, ...]
    """The fingerprints of all claim files in it: a pool has several."""
    repeated_numbers: int
    """How many claim numbers have more than one record that counts."""
    left_out: int
    """How many claims are refused and left out."""
    claims_taken: int
    rows: List[Row]
    parts: List[Tuple[Part, List[Row]]]

    @property
    def kind(self) -> str:
        """In a word."""
        if [row.band for row in self.rows] != list(GROUPS):
            return "durations by year" if self.parts else "durations"
        return "years" if self.parts else "study"


def read(name: str, data: bytes) -> Published:
    """The file's figures, each checked. Raises ValueError with the reason."""
    try:
        found = json.loads(data.decode("utf-8-sig"))
    except ValueError as error:
        raise ValueError(f"no JSON: {error}") from None
    kind = found.get("format") if isinstance(found, dict) else None
    reader = READERS.get(kind) if isinstance(kind, str) else None
    if kind in OLDER_FORMATS:
        of_dict(found)
    if reader is None:
        raise ValueError(f'nothing that a carrier publishes: its "format" is none of {", ".join(READERS)}')
    try:
        figures = reader(found)
        window, rates = part_in(found["window"]), text_in(found["rates_sha256"], "rates_sha256")
        texts = [text_in(found.get(key) or "", key) for key in ("carrier", "claims_sha256")]
        corrected, sources = bool(found["corrected"]), sources_in(found)
    except (KeyError, TypeError, OverflowError) as error:
        raise ValueError(f"a part of it is missing or not as it was saved: {error}") from None
    published = Published(name, hashlib.sha256(data).hexdigest(), *texts, rates, corrected, window, sources, *figures)
    _check(published)
    return published


def _study(found: Dict[str, Any]) -> "Figures":
    saved = of_dict(found)
    study, pooled = saved.study, saved.as_pooled("")
    counts = sum(one.repeated_numbers for one in pooled), sum(one.left_out for one in pooled)
    return tuple(one.claims_sha256 for one in pooled), *counts, study.claims_taken, _rows(study.groups, study.weighted), []


def _years(found: Dict[str, Any]) -> "Figures":
    """The undivided window and its parts; what was said of them is worked out anew."""
    whole = _study_in(found, part_in(found["window"]), lambda group: group["undivided"])
    parts = []
    for i, named in enumerate(found["parts"]):
        part = part_in(named)
        parts.append((part, _study_in(found, part, lambda group, i=i: group["parts"][i])))  # type: ignore[misc]
    divided = Divided(whole, parts)
    wanted = years_sets(divided)
    must_follow({name: found[name] for name in wanted}, wanted)
    _check_parts(divided)
    if found["adds_up"] is not True or not divided.adds_up:
        raise ValueError("its parts do not add up to its window")
    by_part = [(part, _rows(study.groups, study.weighted)) for part, study in parts]
    return *_claims(found), whole.claims_taken, _rows(whole.groups, whole.weighted), by_part


def _durations(found: Dict[str, Any]) -> "Figures":
    """Rows by duration, and those of the years where they were asked for. They go by count: their weighted sums are zeros, and not shown."""
    whole = _duration_rows(found)
    must_follow(found["all"], all_dict(Durations(0, [row.count for row in whole])), "all")
    parts = [(part_in(part), _duration_rows(part)) for part in found["parts"]]
    if found["adds_up"] is not True or any([row.band for row in rows] != [row.band for row in whole] for _, rows in parts):
        raise ValueError("its rows do not add up")
    if parts:
        _must_follow_one_another([part for part, _ in parts], part_in(found["window"]))
    return *_claims(found), whole_in(found["claims_taken"], "claims_taken"), whole, parts


def _claims(found: Dict[str, Any]) -> Tuple[Tuple[str, ...], int, int]:
    """The fingerprint of the claim file, how many of its numbers are repeated, and how many claims left out."""
    left_out = left_out_in(found)
    must_follow(found["left_out"], [found_dict(one) for one in left_out], "left_out")
    return (hash_in(found["claims_sha256"], "claims_sha256"),), len(repeated_in(found)), len(left_out)


def _duration_rows(found: Dict[str, Any]) -> List[Row]:
    sums = [GroupSums(*(whole_in(row[name], name) for name in SUM_NAMES)) for row in found["rows"]]
    claims_taken = whole_in(found["claims_taken"], "claims_taken")
    must_follow(found, part_dict(Durations(claims_taken, sums)))
    must_be_rows(claims_taken, sums)
    return [Row(band, row, GroupSums()) for band, row in zip(bands(len(sums)), sums)]


Figures = Tuple[Tuple[str, ...], int, int, int, List[Row], List[Tuple[Part, List[Row]]]]
"""The claim files' fingerprints, numbers repeated, claims left out, claims taken, the window's rows, and the parts'."""

READERS: Dict[str, Callable[[Dict[str, Any]], Figures]] = {STUDY_FORMAT: _study, YEARS_FORMAT: _years, DURATIONS_FORMAT: _durations}
"""A reader for each format."""


def _rows(groups: List[GroupSums], weighted: List[GroupSums]) -> List[Row]:
    return [Row(*row) for row in zip(GROUPS, groups, weighted)]


def _check(published: Published) -> None:
    """What holds of every format: the rows of the parts total those of the window."""
    for i, row in enumerate(published.rows):
        for kind in ("count", "weighted"):
            together = total(getattr(rows[i], kind) for _, rows in published.parts)
            if published.parts and together != getattr(row, kind):
                raise ValueError(f"the parts of row {i + 1} do not total the window's")


def _check_parts(divided: Divided) -> None:
    _must_follow_one_another([part for part, _ in divided.parts], Part(divided.whole.first, divided.whole.last))


def _must_follow_one_another(parts: List[Part], whole: Part) -> None:
    """The parts follow one another from the window's first day to its last."""
    days = [dates.day_number(day) for part in parts for day in part]
    window = list(map(dates.day_number, whole))
    sound = bool(days) and [days[0], days[-1]] == window and days == sorted(days)
    if not sound or any(first != last + 1 for last, first in zip(days[1::2], days[2::2])):
        raise ValueError("its parts do not follow one another from the window's first day to its last")


def _study_in(found: Dict[str, Any], part: Part, sums_in: Callable[[Dict[str, Any]], Dict[str, Any]]) -> Study:
    """The study of a part of a years' JSON, or of its window."""
    sets = {name: [{**sums_in(group), "group": group["group"]} for group in found[name]] for name in ("groups", "weighted")}
    window = {"first": str(part.first), "last": str(part.last)}
    return study_in({**sets, "window": window, "claims_taken": found["claims_taken"]})
