"""A load that anyone can rebuild: the same claims from the same seed."""

import ctypes
from typing import Iterator

from .claim import RECORD_LENGTH, Claim
from .library import calls, fits
from .refusals import must_be_taken


def load(seed: int, size: int) -> Iterator[Claim]:
    """The claims of a load of 0 to 500,000, from a seed of 1 to 2,147,483,646, one after the other. Refused under 20 at once.

    >>> next(load(1, 10)).number
    1
    """
    return map(Claim.of_record, load_records(seed, size))


def load_records(seed: int, size: int) -> Iterator[bytes]:
    """As load, each claim as its record."""
    seed, size = fits("seed", seed, 32), fits("size", size, 32)
    # Seed and size are refused here and not at the first claim asked for; a load of no claims has no step of its own.
    _step(seed, max(size, 1), 1, (ctypes.c_uint32 * 1)(), ctypes.create_string_buffer(RECORD_LENGTH))
    return _records(seed, size)


def _records(x: int, size: int) -> Iterator[bytes]:
    reached, record = (ctypes.c_uint32 * 1)(x), ctypes.create_string_buffer(RECORD_LENGTH)
    for number in range(1, size + 1):
        _step(reached[0], size, number, reached, record)
        yield record.raw


def _step(x: int, size: int, number: int, reached: "ctypes.Array[ctypes.c_uint32]", record: "ctypes.Array[ctypes.c_char]") -> None:
    must_be_taken(calls().ltd_load_claim(x, size, number, reached, 1, record, RECORD_LENGTH))
