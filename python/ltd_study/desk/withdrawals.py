"""withdraw: a saved study without claims that were reported by mistake."""

from argparse import Namespace
from collections import Counter
from typing import List, Sequence, Tuple

from ..rates import Rates
from ..refusals import Refused
from ..study import Study
from . import repeats
from .figures import counted
from .inputs import last_of_each, number_in, read_claim_list
from .page import Source
from .studies import left_out_tables, read_saved, show_study, study_heading
from .study_json import SavedStudy
from .talk import DONE, DataRefused, read_rates, say

_SO = "nothing is withdrawn"
_PREMISE = "each must have been taken with these fields and not yet withdrawn; --among CLAIMS verifies that they stand in the file studied"


def withdraw(asked: Namespace) -> int:
    """The study without the claims, or none of them taken back."""
    saved, source = read_saved(asked.study)
    if saved.pooled:
        raise DataRefused(f"'{asked.study}' is a pool: a claim is taken back from the study of its own file, and that is pooled again")
    rates, rates_source = read_rates(asked.rates)
    if saved.rates_sha256 != rates.sha256:
        raise DataRefused(f"'{asked.study}' was made with another rate table than '{asked.rates}': a claim is taken back with the rates it was added with")
    records, claims_source = read_claim_list(asked.claims, asked.limit, _SO)
    sources = [source, claims_source._replace(what="claims taken back"), rates_source]
    repeated = saved.repeated_numbers
    if asked.among is not None:
        taken, among_source = read_claim_list(asked.among, asked.limit, _SO)
        _must_stand_in(asked, records, taken, saved.corrected)
        sources.append(among_source._replace(what="among"))
        repeated = _still_repeated(saved, records, taken)
    else:
        say(f"note: {_PREMISE}")
    remaining = saved._replace(study=_taken_back(asked, saved.study, records, rates), repeated_numbers=repeated)
    _show(asked, remaining, counted(len(records), "claim"), sources)
    return DONE


def _taken_back(asked: Namespace, study: Study, records: List[bytes], rates: Rates) -> Study:
    """The study of the claims remaining."""
    remaining = study.copy()
    for i, record in enumerate(records, 1):
        try:
            remaining.withdraw(record, rates)
        except Refused as refused:
            raise DataRefused(f"'{asked.claims}': {refused} at record {i} (claim number {number_in(record)}); {_SO}") from None
    return remaining


def _show(asked: Namespace, remaining: SavedStudy, claims: str, sources: Sequence[Source]) -> None:
    left = counted(remaining.study.claims_taken, "claim")
    say(f"{claims} taken back, {left} remaining: the study is that of the claims remaining")
    heading = study_heading(asked, remaining, f"Disability study, {claims} taken back", sources)._replace(notes=_notes(remaining))
    if remaining.corrected:
        heading = heading._replace(lines=[*heading.lines, repeats.CORRECTED])
    show_study(asked, heading, remaining, left_out_tables(remaining))


def _notes(remaining: SavedStudy) -> List[str]:
    """What the study's own page says as notes; of how many claims some were left out is known to the study alone."""
    left_out = counted(len(remaining.left_out), "claim is", "claims are") + " refused and left out, as the study lists" if remaining.left_out else ""
    return [note for note in (left_out, repeats.note(remaining.repeated_numbers)) if note]


def _still_repeated(saved: SavedStudy, records: List[bytes], taken: List[bytes]) -> Tuple[int, ...]:
    """The numbers of which more than one record still counts."""
    counting = Counter(map(number_in, taken))
    counting.subtract(map(number_in, records))
    counting.subtract(found.number for found in saved.left_out if found.number is not None)
    return tuple(number for number in saved.repeated_numbers if counting[number] > 1)


def _must_stand_in(asked: Namespace, records: List[bytes], taken: List[bytes], corrected: bool) -> None:
    """Every record stands in the file studied, as often as it is taken back."""
    missing = Counter(records) - Counter(last_of_each(taken) if corrected else taken)
    for i, record in enumerate(records, 1):
        if record in missing:
            reason = "no record with these fields stands in" if record not in taken else "it is taken back more often than it stands in"
            raise DataRefused(f"'{asked.claims}', record {i} (claim number {number_in(record)}): {reason} '{asked.among}'; {_SO}")
