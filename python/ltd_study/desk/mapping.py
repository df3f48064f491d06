"""pack --map and map: an extract packed by its map, and a first map of an extract."""

import os
from argparse import Namespace
from typing import Dict, List

from .csv_rows import Faults
from .extract_map import BadMap, read_map
from .figures import counted
from .first_map import Form, first_map
from .mapped_csv import MappedRows
from .side_files import HOW, MAP, beside, can_have_side_files, holds, map_files
from .talk import DONE, DataRefused, WrongUse, put, read_bytes
from .whole_files import write_whole


class Mapping:
    """A map that a CSV file is packed with, and what is left beside the claim file."""

    def __init__(self, asked: Namespace, faults: Faults) -> None:
        self._asked = asked
        self._data = read_bytes("map", asked.map)
        try:
            self.rows = MappedRows(read_map(self._data), faults)
        except BadMap as error:
            raise DataRefused(f"'{asked.map}': {error}") from None
        if not can_have_side_files(asked.out):
            raise WrongUse(f"--map writes files beside OUT, and '{asked.out}' is no file")

    @property
    def names(self) -> List[str]:
        """Of the side files."""
        found = self.rows.map
        return list(map_files(self._data, (), dict.fromkeys(found.keep, ()), found.originals))

    def stands_already(self, name: str) -> bool:
        """Whether a side file is the map itself, as an earlier run left it: that is not written over."""
        return name == MAP and holds(beside(self._asked.out, name), self._data)

    @property
    def files(self) -> Dict[str, bytes]:
        """The side files, once the rows are taken."""
        return map_files(self._data, self.rows.lines, self.rows.kept, self.rows.map.originals)

    @property
    def passed_over(self) -> List[str]:
        """Which rows are no claims, in words."""
        found = self.rows.map
        counts = [
            (found.title_lines, counted(found.title_lines, "title line")),
            (self.rows.passed_over, counted(self.rows.passed_over, "row") + " by [skip]"),
            (self.rows.totals_rows, counted(self.rows.totals_rows, "row") + " at the end"),
        ]
        said = [words for count, words in counts if count]
        return ["passed over as the map says: " + ", ".join(said)] if said else []

    @property
    def words(self) -> str:
        """What the map left out, and what stands beside the claim file."""
        names = ", ".join(beside(self._asked.out, name) for name in [*self.names, HOW])
        return "".join(f"{line}\n" for line in self.passed_over) + f"beside it: {names}\n"


def first(asked: Namespace) -> int:
    """A first map from an extract's header line."""
    try:
        text = first_map(read_bytes("CSV file", asked.claims), Form(asked.delimiter, asked.encoding, asked.title_lines))
    except ValueError as error:
        raise DataRefused(f"'{asked.claims}': {error}") from None
    if asked.out is None:
        put(text)
        return DONE
    if os.path.exists(asked.out):
        raise WrongUse(f"'{asked.out}' is there already; a map that was completed is not written over")
    write_whole(asked.out, text.encode())
    return DONE
