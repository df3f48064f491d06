"""What the valuation actuary's commands read: claims from CSV or a claim file, and the faults of a CSV file."""

import hashlib
import io
import struct
from typing import Dict, List, Set, Tuple

from ..claim_columns import Claims
from ..claim_file import ClaimFile
from ..refusals import Refused
from . import claims_csv
from .csv_rows import Faults
from .figures import counted
from .page import Source
from .side_files import made
from .talk import DataRefused, read_bytes, say

_BLOCK_0 = b"\0\0"
"""A claim file starts with its block's number, and no CSV file with such bytes."""


def say_faults(faults: Faults, name: str, so: str) -> None:
    """Each fault up to the limit, how many there are, and what follows from it."""
    # A map's rows are read many at once, and what is wrong with a row as a whole is found first.
    for fault in sorted(faults.first, key=lambda found: found.line):
        say(f"{name}: {fault}")
    more = faults.count - len(faults.first)
    say(counted(faults.count, "fault") + (f", {more:,} of them not named here" if more else "") + f"; {so}")


def must_be_sound(faults: Faults, name: str, so: str) -> None:
    """Raises DataRefused where there are faults, each named before."""
    if faults.count:
        say_faults(faults, name, so)
        raise DataRefused(f"'{name}' is no such CSV file")


def read_claim_list(path: str, limit: int, so: str) -> Tuple[List[bytes], Source]:
    """The records of a claim file or of a CSV file, in their order, and the file's fingerprint."""
    data = read_bytes("file of claims", path)
    sha256 = hashlib.sha256(data).hexdigest()
    source = Source("claims", path, sha256, *made(path, sha256))
    if data.startswith(_BLOCK_0):
        try:
            file = ClaimFile(data)
            return list(Claims.of_records(b"".join(map(file.records_of, range(1, file.last_block + 1))))), source
        except Refused as refused:
            raise DataRefused(f"'{path}': {refused}") from None
    faults = Faults(limit)
    records = list(claims_csv.read_records(io.BytesIO(data), faults))
    must_be_sound(faults, path, so)
    return records, source


def number_in(record: bytes) -> int:
    """A record's claim number."""
    return int.from_bytes(record[:4], "little")


def repeated_among(claims: Claims) -> List[int]:
    """The claim numbers that stand more than once, in rising order."""
    seen: Set[int] = set()
    twice: Set[int] = set()
    for (number,) in struct.iter_unpack("<I28x", claims.data):
        (twice if number in seen else seen).add(number)
    return sorted(twice)


def last_of_each(records: List[bytes]) -> List[bytes]:
    """Of each claim number the last record, where it stands."""
    last: Dict[int, int] = {number_in(record): i for i, record in enumerate(records)}
    return [record for i, record in enumerate(records) if last[number_in(record)] == i]
