"""The claims that a study takes: those of a file, under its window or another, with corrections or without, all or the accepted ones."""

import io
from argparse import Namespace
from typing import Dict, Iterator, List, NamedTuple, Optional, Sequence, Tuple

from .. import dates
from ..claim_file import ClaimFile, Record, RefusedFile, file_study, last_places, record_count, repeated_numbers, write_claims
from ..rates import Rates
from ..refusals import Refused
from ..study import Study
from . import repeats
from .broken_rules import broken_rule, too_many_words
from .checking import OWN_REFUSALS, Checked, Found
from .claim_notes import left_out_note
from .csv_lines import with_lines
from .page import Source
from .progress import Progress
from .talk import DataRefused, must_be_window, read_claims, read_rates, say


class Chosen(NamedTuple):
    """Claims to study, and what was chosen of their file."""

    name: str
    """Of the claim file, as the user gave it."""
    whole: ClaimFile
    """All its claims, under the window to study."""
    file: ClaimFile
    """The same without the claims left out."""
    rates: Rates
    corrected: bool
    sources: Tuple[Source, Source]
    """Of claims and rates."""
    own_window: str
    """The file's, in words, where another is studied."""
    left_out: List[Found]
    looked_at: int
    repeated: List[int]
    """The claim numbers of which more than one record counts, in rising order."""

    def study(self) -> Study:
        """The study of the claims. A refusal is told to the user."""
        try:
            return file_study(self.file, self.rates, self.corrected)
        except RefusedFile as refused:
            raise DataRefused(self.refusal(refused)) from None

    def refusal(self, refused: RefusedFile) -> str:
        """A refused run in words, with the claim's number and what breaks the rule."""
        words = f"'{self.name}': {refused}"
        if refused.number == 14:
            return f"{words}: {too_many_words(record_count(self.file))}"
        if refused.block and refused.place:
            record = self.file.record(refused.block, refused.place)
            words += f" (claim number {record.number}: {broken_rule(record.claim, refused.number, self.rates)})"
        corrected = " --corrected" if self.corrected else ""
        words += f"; './ltd check{corrected}' names every claim that would be refused"
        return words + (", and --accepted leaves them out" if refused.number in OWN_REFUSALS else "")

    def counted(self) -> Iterator[Tuple[int, Record]]:
        """Each claim that counts, as it stands in the user's file, and how many stand before it there."""
        last: Optional[Dict[int, Tuple[int, int]]] = last_places(self.whole) if self.corrected else None
        without = {found.where for found in self.left_out}
        for i, record in enumerate(self.whole.records()):
            where = record.block, record.place
            if where not in without and (last is None or last[record.number] == where):
                yield i, record

    @property
    def lines(self) -> List[str]:
        """What was chosen, in words."""
        lines = [repeats.CORRECTED] * self.corrected
        if self.own_window:
            lines.append(f"another window than the file's, which is {self.own_window}")
        return lines

    @property
    def notes(self) -> List[str]:
        """What a reader must not miss."""
        return [note for note in (left_out_note(len(self.left_out), self.looked_at), repeats.note(self.repeated)) if note]


def choose(asked: Namespace) -> Chosen:
    """The claims asked for: CLAIMS, RATES, --corrected, --window and --accepted."""
    file, claims_source = read_claims(asked.claims)
    rates, rates_source = read_rates(asked.rates)
    own_window = ""
    if asked.window is not None:
        own_window = " to ".join(map(dates.iso, _window_of(asked.claims, file)))
        must_be_window(*asked.window)
        file = file.with_window(*asked.window)
    chosen = Chosen(asked.claims, file, file, rates, asked.corrected, (claims_source, rates_source), own_window, [], 0, [])
    chosen = _accepted(chosen) if asked.accepted else chosen
    return chosen if chosen.corrected else chosen._replace(repeated=sorted(repeated_numbers(chosen.file)))


def _window_of(name: str, file: ClaimFile) -> Tuple[dates.RecordDate, dates.RecordDate]:
    try:
        return file.window()
    except Refused as refused:
        raise DataRefused(f"'{name}': {refused}") from None


def _accepted(chosen: Chosen) -> Chosen:
    """The same without the claims that are refused for what they are."""
    checked = Checked(chosen.whole, chosen.rates, chosen.corrected)
    with Progress("checking", chosen.whole.last_block) as progress:
        found = list(checked.refusals(progress.at))
    for one in found:
        if one.refused not in OWN_REFUSALS:
            refused = Refused(one.refused, one.block, one.place)
            raise DataRefused(f"'{chosen.name}': {refused}: {one.why}. That is no claim's own, and --accepted doesn't pass over it")
    if not found:
        return chosen._replace(looked_at=checked.checked)
    without = chosen._replace(left_out=with_lines(chosen.sources[0], chosen.whole, found), looked_at=checked.checked)
    out = io.BytesIO()
    write_claims(out, *chosen.whole.window(), (record.data for _, record in without.counted()))
    return without._replace(file=ClaimFile(out.getvalue()))


def say_left_out(asked: Namespace, left_out: Sequence[Found]) -> None:
    """CSV has no place for the claims left out: they are told beside it."""
    for found in left_out if asked.csv else ():
        say(f"left out: claim number {found.number}, {Refused(found.refused, found.block, found.place)}: {found.why}")
