"""What every saved JSON is read and checked by: counts that can be, and figures that follow from the sums."""

import json
import re
from datetime import date
from typing import Any, Dict, List, Sequence, Tuple

from .. import dates
from ..study import GROUPS, SUM_NAMES, GroupSums, Study, total
from .checking import Found
from .parts import Part
from .side_files import Kept

_HASH = re.compile(r"[0-9a-f]{64}")
_CLOSING_NAMES = SUM_NAMES[1:6]
_HIGHEST_BENEFIT = 200


def whole_in(number: Any, name: str) -> int:
    """A whole number. Raises TypeError, as those below do."""
    if type(number) is not int:
        raise TypeError(f"{name} is no whole number")
    return number


def text_in(text: Any, name: str) -> str:
    """A text."""
    if not isinstance(text, str):
        raise TypeError(f"{name} is no text")
    return text


def hash_in(text: Any, name: str) -> str:
    """A fingerprint."""
    if not _HASH.fullmatch(text_in(text, name)):
        raise TypeError(f"{name} is no sha256")
    return str(text)


def repeated_in(found: Dict[str, Any]) -> Tuple[int, ...]:
    """The claim numbers of which more than one record counts."""
    return tuple(whole_in(number, "a repeated number") for number in found["repeated_numbers"])


def left_out_in(found: Dict[str, Any]) -> Tuple[Found, ...]:
    """The claims left out, each with its refusal."""
    return tuple(Found(*(one[name] for name in Found._fields)) for one in found["left_out"])


def sources_in(found: Dict[str, Any]) -> Tuple[Kept, ...]:
    """The files that it was made from; nothing in an older JSON, which keeps none."""
    sources = found.get("sources", [])
    if not isinstance(sources, list):
        raise TypeError("sources are no list")
    return tuple(map(_source, sources))


def _source(one: Any) -> Kept:
    if not isinstance(one, dict):
        raise TypeError("a source is no object")
    return Kept(text_in(one["what"], "a source's what"), text_in(one["name"], "a source's name"), hash_in(one["sha256"], "a source's sha256"))


def part_in(named: Dict[str, Any]) -> Part:
    """A window or a part of it."""
    return Part(date.fromisoformat(named["first"]), date.fromisoformat(named["last"]))


def study_in(found: Dict[str, Any]) -> Study:
    """The study of a window, claims taken and both sets of sums, as they stand there; its counts are checked."""
    window = part_in(found["window"])
    numbers = [*map(dates.day_number, window), whole_in(found["claims_taken"], "claims_taken")]
    for name in ("groups", "weighted"):
        numbers += _sums(found[name], name)
    Study.open(*window)
    study = Study(numbers)
    _must_be_counts(study.claims_taken, study.groups, study.weighted)
    return study


def _sums(groups: List[Dict[str, Any]], name: str) -> List[int]:
    if len(groups) != len(GROUPS) or [group["group"] for group in groups] != list(range(1, len(GROUPS) + 1)):
        raise TypeError(f"{name} are not the five groups in their order")
    return [whole_in(group[sum_name], sum_name) for group in groups for sum_name in SUM_NAMES]


def _must_be_counts(claims_taken: int, groups: Sequence[GroupSums], weighted: Sequence[GroupSums]) -> None:
    """What holds in every study that the engine made, and that its calls don't ask of one handed in."""
    for group, (counts, by_benefit) in enumerate(zip(groups, weighted), 1):
        for name in _CLOSING_NAMES:
            _must_be_count(f"{name} of group {group}", getattr(counts, name), getattr(by_benefit, name))
    _must_be_taken(claims_taken, groups)


def must_be_rows(claims_taken: int, rows: Sequence[GroupSums]) -> None:
    """The same of rows by duration, which have no weighted set."""
    for row, sums in enumerate(rows, 1):
        for name in _CLOSING_NAMES:
            if getattr(sums, name) < 0:
                raise ValueError(f"{name} of row {row} is {getattr(sums, name)}, and no count is negative")
    _must_be_taken(claims_taken, rows)


def _must_be_taken(claims_taken: int, rows: Sequence[GroupSums]) -> None:
    if claims_taken < 0:
        raise ValueError(f"claims_taken is {claims_taken}, and no count is negative")
    closings = total(rows).closings
    if closings > claims_taken:
        raise ValueError(f"{closings:,} closings of {claims_taken:,} claims taken, and a claim closes once")


def _must_be_count(name: str, count: int, weighted: int) -> None:
    if count < 0 or weighted < 0:
        raise ValueError(f"{name} is {min(count, weighted)}, and no count is negative")
    if not count <= weighted <= _HIGHEST_BENEFIT * count:
        raise ValueError(f"{name} is {count:,}, and {weighted:,} weighted: that is not 1 to {_HIGHEST_BENEFIT} times the count")


def must_follow(found: Any, wanted: Any, name: str = "") -> None:
    """Every figure that the sums come to is the one that was saved with them."""
    if isinstance(wanted, dict) and isinstance(found, dict):
        for key, value in wanted.items():
            if key not in found:
                raise ValueError(f"{_joined(name, key)} is missing")
            must_follow(found[key], value, _joined(name, key))
    elif isinstance(wanted, list) and isinstance(found, list) and len(found) == len(wanted):
        for i, value in enumerate(wanted):
            must_follow(found[i], value, f"{name} {i + 1}")
    elif found != wanted or type(found) is not type(wanted):
        raise ValueError(f"{name} is {json.dumps(found)}, and from the sums follows {json.dumps(wanted)}")


def _joined(name: str, key: str) -> str:
    return f"{name}: {key}" if name else key
