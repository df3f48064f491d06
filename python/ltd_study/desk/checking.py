"""Every claim of a file that a study would refuse."""

from collections import Counter
from typing import Callable, Dict, Iterator, NamedTuple, Optional, Tuple

from .. import dates
from ..claim_file import ClaimFile, Record, last_places, record_count, split, too_many_to_correct
from ..rates import Rates
from ..refusals import WORDS, Refused
from ..study import Study
from .broken_rules import broken_block, broken_rule, broken_window, too_many_words

OWN_REFUSALS = frozenset((2, 3, 4, 5, 7, 8, 16))
"""Those that a claim meets by its own fields and its cell's rates. The others are of the window, the table, the file or a full study."""


class Found(NamedTuple):
    """A refusal and where it was found; place 0 and no claim number for one of the block itself."""

    block: int
    place: int
    number: Optional[int]
    """The claim number."""
    refused: int
    why: str = ""
    """The rule, with the fields that break it."""
    line: Optional[int] = None
    """Of the CSV that the claim was packed from, where that was kept."""

    @property
    def word(self) -> str:
        """The refusal's word."""
        return WORDS[self.refused]

    @property
    def where(self) -> Tuple[int, int]:
        """Block and place."""
        return self.block, self.place


class Checked:
    """The refusals of a file in file order, and how many claims were looked at."""

    def __init__(self, file: ClaimFile, rates: Rates, corrected: bool = False) -> None:
        self._file, self._rates = file, rates
        self._last: Optional[Dict[int, Tuple[int, int]]] = last_places(file) if corrected else None
        self.checked = 0
        self.counts: "Counter[int]" = Counter()

    def refusals(self, seen: Callable[[int], None] = lambda block: None) -> Iterator[Found]:
        """Each refusal: of the window, of faulty blocks, and of each claim whose addition to the study of those accepted before is refused.

        A window that is refused doesn't hide the claims' own refusals: they are then looked for in the calendar's whole window.
        """
        for found in self._refusals(seen):
            self.counts[found.refused] += 1
            yield found

    def _refusals(self, seen: Callable[[int], None]) -> Iterator[Found]:
        study = Study.open(dates.FIRST, dates.LAST)
        try:
            study = Study.open(*self._file.window())
        except Refused as refused:
            why = broken_window(self._file) if refused.number == 1 else broken_block(self._file, 0)
            yield Found(0, 0, None, refused.number, why)
        if self._last is not None and too_many_to_correct(self._file):
            yield Found(0, 0, None, 14, too_many_words(record_count(self._file)))
        for block in range(1, self._file.last_block + 1):
            seen(block)
            try:
                records = self._file.records_of(block)
            except Refused as refused:
                yield Found(block, 0, None, refused.number, broken_block(self._file, block))
                continue
            for record in split(block, records):
                if self._counts(record):
                    self.checked += 1
                    answer = study.try_add(record.data, self._rates)
                    if answer != 0:
                        yield Found(*record[:2], record.number, answer, broken_rule(record.claim, answer, self._rates))

    def _counts(self, record: Record) -> bool:
        """With corrections, only the last record of a claim number."""
        return self._last is None or self._last[record.number] == (record.block, record.place)
