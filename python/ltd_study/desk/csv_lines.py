"""The lines of the CSV that a claim file was packed from, where 'pack --map' kept them beside it: block, place, line."""

import os
from typing import Dict, List, Tuple

from ..claim_file import ClaimFile, record_count
from .checking import Found
from .csv_rows import Faults, header_places, numbered_rows, text_of, whole_number
from .page import Source
from .side_files import LINES, belongs, beside
from .talk import say
from .whole_files import note_input

COLUMNS = ("block", "place", "line")
_HIGHEST = 0xFFFF_FFFF


def with_lines(claims: Source, file: ClaimFile, found: List[Found]) -> List[Found]:
    """The refusals of a claim file, each with its line if the lines were kept."""
    path = claims.name
    kept = beside(path, LINES)
    if not found or not os.path.isfile(kept):
        return found
    lines = _read(kept) if belongs(path, claims.sha256) else {}
    if len(lines) != record_count(file):
        say(f"note: '{kept}' is not of the claim file '{path}', and no lines are named")
        return found
    return [one._replace(line=lines.get(one.where)) for one in found]


def _read(kept: str) -> Dict[Tuple[int, int], int]:
    """Line by block and place; nothing of a file that isn't in this form."""
    faults, lines = Faults(0), {}
    with open(kept, "rb") as stream:
        note_input(stream, kept)
        rows = numbered_rows(text_of(stream), faults)
        if header_places(rows, COLUMNS, faults) != [0, 1, 2]:
            return {}
        for _, row in rows:
            try:
                block, place, line = (whole_number(text, _HIGHEST) for text in row)
            except ValueError:
                return {}
            lines[block, place] = line
    return lines if faults.count == 0 else {}
