"""The rate table that is lent to the engine."""

import ctypes
import hashlib
import sys
from array import array
from functools import cached_property
from pathlib import Path
from typing import Iterable, List, Optional, Sequence, Tuple, Union

from .library import calls

FIRST_DURATION = 2
LAST_DURATION = 480
DURATIONS = LAST_DURATION - FIRST_DURATION + 1
CELL_LENGTH = 2 * DURATIONS
"""Numbers per cell: the recovery rates of durations 2 to 480, then their death rates."""
MOST_CELLS = 1024
MILLION = 1_000_000

_UNSOUND = 0xFFFF_FFFF
"""The first number of an unsound cell of a prepared table."""


class Rates:
    """Rates in millionths, for each cell the recovery rates of durations 2 to 480, then the death rates.

    Any list of numbers can be held; what is no table is refused by the calls that use it, under 6 to 8.

    >>> Rates.flat(10_000, 5_000).recovery(0, 24)
    10000
    """

    def __init__(self, numbers: Iterable[int]) -> None:
        try:
            self.numbers = array("I", numbers)
        except (OverflowError, TypeError):
            raise ValueError("a rate must be a whole number of millionths, 0 to 4294967295") from None

    @classmethod
    def of_cells(cls, cells: Iterable[Tuple[Sequence[int], Sequence[int]]]) -> "Rates":
        """A table from the recovery and the death rates of each cell, 479 of each."""
        numbers: List[int] = []
        for recovery, death in cells:
            if len(recovery) != DURATIONS or len(death) != DURATIONS:
                raise ValueError(f"a cell has {DURATIONS} recovery rates and as many death rates")
            numbers += [*recovery, *death]
        return cls(numbers)

    @classmethod
    def flat(cls, recovery: int, death: int, cells: int = 1) -> "Rates":
        """A table with the same two rates throughout."""
        return cls.of_cells([([recovery] * DURATIONS, [death] * DURATIONS)] * cells)

    @classmethod
    def of_bytes(cls, data: bytes) -> "Rates":
        """The rates of a rate file, four bytes each, low byte first; with a part number left over it is an empty table."""
        rates = cls(())
        if len(data) % 4 == 0:
            rates.numbers.frombytes(data)
            if sys.byteorder == "big":
                rates.numbers.byteswap()
        return rates

    @classmethod
    def read(cls, path: Union[str, Path]) -> "Rates":
        """The rates of a file."""
        return cls.of_bytes(Path(path).read_bytes())

    def to_bytes(self) -> bytes:
        """The bytes of a rate file."""
        numbers = self.numbers
        if sys.byteorder == "big":
            numbers = array("I", numbers)
            numbers.byteswap()
        return numbers.tobytes()

    def __len__(self) -> int:
        return len(self.numbers)

    def __eq__(self, other: object) -> bool:
        return self.numbers == other.numbers if isinstance(other, Rates) else NotImplemented

    def __repr__(self) -> str:
        return f"<Rates: {self.cells} cells>" if len(self) % CELL_LENGTH == 0 else f"<Rates: {len(self)} numbers, no table>"

    @property
    def cells(self) -> int:
        """How many whole cells there are."""
        return len(self) // CELL_LENGTH

    def recovery(self, cell: int, duration: int) -> int:
        """A cell's recovery rate; a duration after 480 has 480's."""
        return self._rate(cell, duration, 0)

    def death(self, cell: int, duration: int) -> int:
        """A cell's death rate; a duration after 480 has 480's."""
        return self._rate(cell, duration, DURATIONS)

    def _rate(self, cell: int, duration: int, kind: int) -> int:
        if not 0 <= cell < self.cells or duration < FIRST_DURATION:
            raise IndexError(f"no rate of cell {cell}, duration {duration}")
        return self.numbers[cell * CELL_LENGTH + kind + min(duration, LAST_DURATION) - FIRST_DURATION]

    @property
    def sha256(self) -> str:
        """A fingerprint, by which studies of one table are told from those of another."""
        return hashlib.sha256(self.to_bytes()).hexdigest()

    @property
    def lent(self) -> Tuple[int, int]:
        """Address and length, for a call."""
        return self.numbers.buffer_info()

    @cached_property
    def prepared(self) -> Optional["Rates"]:
        """The prepared table, or None where the engine refuses these rates under 6. The rates must not change after."""
        table = Rates(self.numbers)
        table.numbers.append(0)
        return table if calls().ltd_prepare(*table.lent) == 0 else None

    @property
    def unsound_cells(self) -> List[int]:
        """The cells whose claims are refused under 8, by the engine's word."""
        if self.prepared is None:
            return []
        return [cell for cell in range(self.cells) if self.prepared.numbers[cell * CELL_LENGTH] == _UNSOUND]


if array("I").itemsize != ctypes.sizeof(ctypes.c_uint32):  # pragma: no cover
    raise ImportError("this Python's array('I') has not 32 bits")
