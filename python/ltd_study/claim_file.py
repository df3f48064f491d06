"""The claim file: blocks of 512 bytes, read, written and studied."""

import ctypes
import io
import struct
from pathlib import Path
from typing import BinaryIO, Collection, Dict, Iterable, Iterator, NamedTuple, Tuple, Union

from .claim import RECORD_LENGTH, Claim, record_of
from .dates import DateLike, RecordDate, number_of, of_number
from .library import calls
from .rates import Rates
from .refusals import Refused, must_be_taken, taken
from .study import STUDY_LENGTH, Study

BLOCK_LENGTH = 512
MOST_IN_BLOCK = 15
MOST_BLOCKS = 65_535
"""Claim blocks: a block's number has two bytes."""
MOST_RECORDS_CORRECTED = 60_000
"""Of a file that is studied with corrections."""

_RECORDS_LENGTH = MOST_IN_BLOCK * RECORD_LENGTH
_RUN_LENGTH = 3 + STUDY_LENGTH


class RefusedFile(Refused):
    """A file run that was refused, with the study so far."""

    def __init__(self, number: int, block: int, place: int, study: Study) -> None:
        super().__init__(number, block, place)
        self.study = study


class Record(NamedTuple):
    """A claim's record, its 32 bytes, and where it stands: block and place, both from 1."""

    block: int
    place: int
    data: bytes

    @property
    def number(self) -> int:
        """The claim number."""
        return int.from_bytes(self.data[:4], "little")

    @property
    def claim(self) -> Claim:
        """The claim."""
        return Claim.of_record(self.data)


class ClaimFile:
    """The bytes of a claim file; they may be faulty, and what reads them says so."""

    def __init__(self, data: Union[bytes, bytearray]) -> None:
        self.data = bytes(data)

    @classmethod
    def read(cls, path: Union[str, Path]) -> "ClaimFile":
        """The file of a path."""
        return cls(Path(path).read_bytes())

    @classmethod
    def of(cls, first: DateLike, last: DateLike, claims: Iterable[Union[Claim, bytes]]) -> "ClaimFile":
        """The file of a window and claims, held in memory; Claims are taken as they are. Refused under 1 or 11."""
        out = io.BytesIO()
        write_claims(out, first, last, map(record_of, claims))
        return cls(out.getvalue())

    @property
    def last_block(self) -> int:
        """The last block's number; a part block at the end has one too. An empty file lacks block 0."""
        return max(0, (len(self.data) - 1) // BLOCK_LENGTH)

    def block(self, number: int) -> bytes:
        """The bytes of a block."""
        return self.data[number * BLOCK_LENGTH : (number + 1) * BLOCK_LENGTH]

    def window(self) -> Tuple[RecordDate, RecordDate]:
        """The dates of the window in block 0, which may be none. Refused under 11."""
        dates = (ctypes.c_uint32 * 2)()
        block = self.block(0)
        if calls().ltd_read_window(block, len(block), dates, len(dates)) != 0:
            raise Refused(11, 0, 0)
        return of_number(dates[0]), of_number(dates[1])

    def records_of(self, block: int) -> bytes:
        """The records of a claim block, one after the other. Refused under 11."""
        found = self.block(block)
        records = ctypes.create_string_buffer(_RECORDS_LENGTH)
        try:
            count = taken(calls().ltd_read_block(found, len(found), block, records, _RECORDS_LENGTH))
        except Refused as refused:
            raise Refused(refused.number, block, 0) from None
        return records.raw[: count * RECORD_LENGTH]

    def records(self) -> Iterator[Record]:
        """All records in file order. Refused under 11 at the first faulty block."""
        for block in range(1, self.last_block + 1):
            yield from split(block, self.records_of(block))

    def record(self, block: int, place: int) -> Record:
        """The record at a place, from 1. Refused under 11; raises IndexError where there is none."""
        if not 1 <= block <= self.last_block:
            raise IndexError(f"there is no claim block {block}: the file has claim blocks 1 to {self.last_block}")
        records = list(split(block, self.records_of(block)))
        if not 1 <= place <= len(records):
            raise IndexError(f"there is no place {place} in block {block}: it has {len(records)} claims")
        return records[place - 1]

    def with_window(self, first: DateLike, last: DateLike) -> "ClaimFile":
        """The same claims under another window."""
        return ClaimFile(window_block(first, last) + self.data[BLOCK_LENGTH:])


def split(block: int, records: bytes) -> Iterator[Record]:
    """Records of a block that stand one after the other, each with its place."""
    for place, start in enumerate(range(0, len(records), RECORD_LENGTH), 1):
        yield Record(block, place, records[start : start + RECORD_LENGTH])


def window_block(first: DateLike, last: DateLike) -> bytes:
    """Block 0."""
    block = ctypes.create_string_buffer(BLOCK_LENGTH)
    must_be_taken(calls().ltd_write_window(number_of(first), number_of(last), block, BLOCK_LENGTH))
    return block.raw


def claim_block(number: int, records: bytes) -> bytes:
    """A block of 0 to 15 records that stand one after the other. Refused under 11."""
    block = ctypes.create_string_buffer(BLOCK_LENGTH)
    must_be_taken(calls().ltd_write_block(number, records, len(records), block, BLOCK_LENGTH))
    return block.raw


def write_claims(out: BinaryIO, first: DateLike, last: DateLike, records: Iterable[bytes]) -> int:
    """Writes a claim file of full blocks, as many as the records fill, and answers how many claims it holds.

    Refused under 11 where the records are more than 65,535 blocks hold.
    """
    out.write(window_block(first, last))
    number, count, waiting = 0, 0, []
    for record in records:
        waiting.append(record)
        count += 1
        if len(waiting) == MOST_IN_BLOCK:
            number += 1
            out.write(claim_block(number, b"".join(waiting)))
            waiting.clear()
    if waiting:
        out.write(claim_block(number + 1, b"".join(waiting)))
    return count


def file_study(claims: Union[ClaimFile, bytes, str, Path], rates: Rates, corrected: bool = False) -> Study:
    """The study of a whole claim file, given by its path or its bytes; with ``corrected`` only the last record of each claim number counts.

    Raises RefusedFile, with block, place and the study so far.
    """
    file = claims if isinstance(claims, ClaimFile) else ClaimFile(claims) if isinstance(claims, bytes) else ClaimFile.read(claims)
    out = (ctypes.c_int64 * _RUN_LENGTH)()
    prepared_call, plain_call = calls().ltd_prepared_file_study, calls().ltd_file_study
    if corrected:
        prepared_call, plain_call = calls().ltd_prepared_corrected_study, calls().ltd_corrected_study
    # No table by its length: the run with the plain rates says at which claim.
    call, table = (plain_call, rates) if rates.prepared is None else (prepared_call, rates.prepared)
    call(file.data, len(file.data), *table.lent, out, _RUN_LENGTH)
    number, block, place = out[:3]
    study = Study(out[3:])
    if number != 0:
        raise RefusedFile(number, block, place, study)
    return study


def last_places(file: ClaimFile) -> Dict[int, Tuple[int, int]]:
    """Of each claim number block and place of its last record, in sound blocks: the record that counts with corrections on."""
    return {number: (block, place) for block, place, number in _numbers(file)}


def record_count(file: ClaimFile) -> int:
    """How many records there are in sound blocks."""
    return sum(1 for _ in _numbers(file))


def too_many_to_correct(file: ClaimFile) -> bool:
    """Whether the file has more records than a run with corrections takes."""
    return record_count(file) > MOST_RECORDS_CORRECTED


def repeated_numbers(file: ClaimFile) -> Collection[int]:
    """The claim numbers that stand more than once."""
    seen, twice = set(), set()
    for _, _, number in _numbers(file):
        (twice if number in seen else seen).add(number)
    return twice


def _numbers(file: ClaimFile) -> Iterator[Tuple[int, int, int]]:
    for block in range(1, file.last_block + 1):
        try:
            records = file.records_of(block)
        except Refused:
            continue
        for place, (number,) in enumerate(struct.iter_unpack("<I28x", records), 1):
            yield block, place, number
