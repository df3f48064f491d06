"""What a reader must not miss of the claims of one study, or of several together: those left out, and those that count more than once."""

from typing import List, Tuple

from .figures import counted, whole
from .tables import Column

COUNT_COLUMNS = (Column("numbers repeated"), Column("left out"))


def count_cells(repeated_numbers: int, left_out: int) -> Tuple[str, str]:
    """A study's counts under these columns."""
    return whole(repeated_numbers), whole(left_out)


def left_out_note(left_out: int, looked_at: int) -> str:
    """Of one study; nothing where no claim is left out."""
    are = "is" if left_out == 1 else "are"
    return f"{left_out:,} of {counted(looked_at, 'claim')} {are} refused and left out" if left_out else ""


def together_notes(repeated_numbers: int, left_out: int, again: int, together: str) -> List[str]:
    """Of several studies in a pool or a total, as 'together' says; 'again' are those whose claims are in it already."""
    notes = []
    if left_out:
        notes.append(f"{counted(left_out, 'claim is', 'claims are')} refused and left out, as its study lists")
    if repeated_numbers:
        notes.append(f"{counted(repeated_numbers, 'claim number stands', 'claim numbers stand')} more than once in one study, and every record counts")
    if again:
        studies = counted(again, "study is", "studies are")
        notes.append(f"{studies} of a claim file that is in the {together} already (--again), and its claims count again")
    return notes
