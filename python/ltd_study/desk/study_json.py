"""A study as JSON, to keep and to pool."""

import json
from typing import Any, Dict, List, NamedTuple, Tuple

from ..study import Study, total
from .checking import Found
from .reports import found_dict, group_dict, group_figures, sums_dict
from .saved_figures import hash_in, left_out_in, must_follow, repeated_in, sources_in, study_in, text_in, whole_in
from .side_files import Kept

FORMAT = "ltd study 2"
OLDER_FORMATS = ("ltd study 1",)
_UNITS = {
    "thirtieths": "thirtieths of a month of exposure",
    "expected": "1/30,000,000 of a closing",
    "z, m, t": "millionths",
    "actual_to_expected": "30,000,000 x actual / expected",
    "weighted": "each claim's share times its monthly benefit in hundreds of dollars",
}


class Pooled(NamedTuple):
    """A study that went into a pool."""

    file: str
    carrier: str
    claims_sha256: str
    claims_taken: int
    corrected: bool
    repeated_numbers: int
    """How many claim numbers have more than one record that counts."""
    left_out: int
    """How many claims are refused and left out."""


class SavedStudy(NamedTuple):
    """A study and what it was made from."""

    study: Study
    corrected: bool
    """Of a pool: whether all its studies are."""
    rates_sha256: str
    claims_sha256: str = ""
    """Empty in a pool, whose studies have their own."""
    carrier: str = ""
    repeated_numbers: Tuple[int, ...] = ()
    """The claim numbers of which more than one record counts."""
    left_out: Tuple[Found, ...] = ()
    pooled: Tuple[Pooled, ...] = ()
    sources: Tuple[Kept, ...] = ()
    """The files that it was made from, as its page names them; nothing where an older ./ltd saved it."""

    def as_pooled(self, file: str) -> List[Pooled]:
        """The studies that this one is in a pool: itself, or those that were pooled before."""
        if self.pooled:
            return [one._replace(file=f"{file}: {one.file}") for one in self.pooled]
        counts = len(self.repeated_numbers), len(self.left_out)
        return [Pooled(file, self.carrier, self.claims_sha256, self.study.claims_taken, self.corrected, *counts)]


def as_dict(saved: SavedStudy) -> Dict[str, Any]:
    """A study by name: its sums, what they come to, and whose claims they are."""
    study = saved.study
    return {
        "format": FORMAT,
        "window": {"first": str(study.first), "last": str(study.last)},
        "carrier": saved.carrier,
        "corrected": saved.corrected,
        "claims_sha256": saved.claims_sha256,
        "rates_sha256": saved.rates_sha256,
        **({"sources": [one._asdict() for one in saved.sources]} if saved.sources else {}),
        "repeated_numbers": list(saved.repeated_numbers),
        "left_out": [found_dict(found) for found in saved.left_out],
        "pooled": [one._asdict() for one in saved.pooled],
        "units": _UNITS,
        **sums_by_group(study),
    }


def sums_by_group(study: Study) -> Dict[str, Any]:
    """Claims taken and both sets of sums by name, with what they come to."""
    return {
        "claims_taken": study.claims_taken,
        "groups": [group_dict(*group) for group in group_figures(study, False)],
        "total": sums_dict(total(study.groups)),
        "weighted": [group_dict(*group) for group in group_figures(study, True)],
        "weighted_total": sums_dict(total(study.weighted)),
    }


def to_json(saved: SavedStudy, **more: Any) -> str:
    """The text that ``./ltd study --json`` prints; what is given more stands after the study and is not read back."""
    return json.dumps({**as_dict(saved), **more}, indent=2) + "\n"


def of_json(text: str) -> SavedStudy:
    """The study of such a text. Raises ValueError with the reason, also where a figure doesn't follow from the sums."""
    try:
        found = json.loads(text)
    except ValueError as error:
        raise ValueError(f"no JSON: {error}") from None
    return of_dict(found)


def of_dict(found: Any) -> SavedStudy:
    """The same, of what the JSON holds."""
    form = found.get("format") if isinstance(found, dict) else None
    if form in OLDER_FORMATS:
        raise ValueError(f'saved as "{form}" by an older ./ltd, which kept no hash of its claims: save it again')
    if form != FORMAT:
        raise ValueError(f"no study saved by './ltd study --json': it has no \"format\": \"{FORMAT}\"")
    try:
        saved = _saved(found)
        _must_be_its_pool(saved)
        must_follow(found, as_dict(saved))
    except (KeyError, TypeError, AttributeError, OverflowError) as error:
        raise ValueError(f"a part of the study is missing or not as it was saved: {error}") from None
    return saved


def _saved(found: Dict[str, Any]) -> SavedStudy:
    """As it stands there, by its sums alone."""
    pooled = [_pooled(one) for one in found["pooled"]]
    texts = [hash_in(found["rates_sha256"], "rates_sha256"), found["claims_sha256"], text_in(found["carrier"], "carrier")]
    if not pooled or texts[1] != "":
        hash_in(texts[1], "claims_sha256")
    return SavedStudy(study_in(found), found["corrected"] is True, *texts, repeated_in(found), left_out_in(found), tuple(pooled), sources_in(found))


def _pooled(one: Dict[str, Any]) -> Pooled:
    texts = [text_in(one["file"], "file"), text_in(one["carrier"], "carrier"), hash_in(one["claims_sha256"], "claims_sha256")]
    counts = [whole_in(one[name], name) for name in ("claims_taken", "repeated_numbers", "left_out")]
    return Pooled(*texts, counts[0], one["corrected"] is True, *counts[1:])


def _must_be_its_pool(saved: SavedStudy) -> None:
    pooled, taken = sum(one.claims_taken for one in saved.pooled), saved.study.claims_taken
    if saved.pooled and pooled != taken:
        raise ValueError(f"claims_taken is {taken:,}, and that of its pooled studies together {pooled:,}")
