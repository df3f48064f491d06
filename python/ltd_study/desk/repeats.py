"""Claim numbers that stand more than once: without corrections each of their records counts."""

from typing import Collection, Iterable, Iterator, List, Set

from .figures import counted

CORRECTED = "with corrections: of each claim number only the last record counts"
_MOST_NAMED = 5


def note(numbers: Collection[int]) -> str:
    """What a user is told of such numbers; nothing where there are none."""
    if not numbers:
        return ""
    first = ", ".join(map(str, sorted(numbers)[:_MOST_NAMED])) + (", .." if len(numbers) > _MOST_NAMED else "")
    stand = counted(len(numbers), "claim number stands", "claim numbers stand")
    return f"{stand} more than once ({first}), and every record counts; with --corrected only the last"


class Repeats:
    """The numbers that stand more than once among records that pass through."""

    def __init__(self) -> None:
        self._seen: Set[bytes] = set()
        self._twice: Set[bytes] = set()

    def through(self, records: Iterable[bytes]) -> Iterator[bytes]:
        """The same records."""
        seen, twice = self._seen, self._twice
        for record in records:
            number = record[:4]
            if number in seen:
                twice.add(number)
            seen.add(number)
            yield record

    @property
    def numbers(self) -> List[int]:
        """In rising order."""
        return sorted(int.from_bytes(number, "little") for number in self._twice)
