"""pack, unpack, rates pack, rates unpack: between CSV and the engine's files."""

import io
import os
from argparse import Namespace
from contextlib import contextmanager
from typing import BinaryIO, Callable, Iterator, Optional, Sequence, TextIO

from .. import dates
from ..claim_file import MOST_BLOCKS, MOST_IN_BLOCK, repeated_numbers, write_claims
from ..refusals import Refused
from . import claims_csv, rates_csv
from .csv_rows import Faults
from .figures import counted
from .inputs import say_faults
from .mapping import Mapping
from .progress import Progress
from .repeats import Repeats, note
from .side_files import HOW, Hashed, HashedReader, Named, beside, can_have_side_files, remove_older, write_side_files
from .talk import DATA_REFUSED, DONE, DataRefused, WrongUse, must_be_window, put, put_bytes, read_claims, read_rates, say, say_note
from .whole_files import must_be_different, must_be_writable, note_input, whole_file, write_whole


class _Faulty(Exception):
    """Leaves a file unwritten."""


def pack(asked: Namespace) -> int:
    """A claim file from CSV; nothing is written where a row is bad."""
    first, last = asked.window
    must_be_window(first, last)
    faults, repeats = Faults(asked.limit), Repeats()
    mapping = Mapping(asked, faults) if asked.map is not None else None
    read = mapping.rows.records if mapping else lambda stream, seen: claims_csv.read_records(stream, faults, seen)
    try:
        with _opened("CSV file", asked.claims) as csv_file, whole_file(asked.out) as out:
            _look_at_outputs(asked, mapping)
            source, hashed = HashedReader(csv_file), Hashed(out)
            count = _pack(csv_file, hashed, asked.window, faults, lambda seen: repeats.through(read(io.BufferedReader(source), seen)))
            if can_have_side_files(asked.out):
                made = (mapping.files, mapping.passed_over) if mapping else ({}, [])
                write_side_files(asked.out, hashed.sha256, *made, Named(asked.claims, source.sha256))
    except _Faulty:
        return _name(faults, asked.claims)
    put(f"{asked.out}: {counted(count, 'claim')} of {first} to {last}\n" + (mapping.words if mapping else ""))
    say_note(note(repeats.numbers))
    return DONE


def _look_at_outputs(asked: Namespace, mapping: Optional[Mapping]) -> None:
    """No output is another one, and no side file a file that is read; but a map may be the one that stands there already."""
    names = [HOW, *(mapping.names if mapping else ())] if can_have_side_files(asked.out) else []
    must_be_different([asked.out, *(beside(asked.out, name) for name in names)])
    for name in names:
        if mapping is None or not mapping.stands_already(name):
            must_be_writable(beside(asked.out, name))


def _pack(csv_file: BinaryIO, out: Hashed, window: Sequence[str], faults: Faults, read: Callable[[Callable[[int], None]], Iterator[bytes]]) -> int:
    """The records that are read, with a function that is told the line, as a claim file; answers how many."""
    with Progress("packing", _size(csv_file)) as progress:
        records = read(lambda line: progress.at(csv_file.tell() if csv_file.seekable() else 0))
        try:
            count = write_claims(out, *window, records)
        except Refused:
            raise DataRefused(f"a claim file holds at most {MOST_BLOCKS * MOST_IN_BLOCK:,} claims") from None
    if faults.count:
        raise _Faulty
    return count


def _name(faults: Faults, name: str) -> int:
    say_faults(faults, name, "nothing is written")
    return DATA_REFUSED


def unpack(asked: Namespace) -> int:
    """The claims of a file as CSV."""
    file, _ = read_claims(asked.claims)
    try:
        window = " to ".join(map(dates.iso, file.window()))
        with _csv_out(asked.out) as text, Progress("unpacking", file.last_block) as progress:
            count = claims_csv.write_rows(file, text, progress.at)
    except Refused as refused:
        raise DataRefused(f"'{asked.claims}': {refused}") from None
    twice = len(repeated_numbers(file))
    say(f"{counted(count, 'claim')} of the window {window}" + (f"; {counted(twice, 'claim number')} more than once" if twice else ""))
    return DONE


def rates_pack(asked: Namespace) -> int:
    """A rate table from CSV; nothing is written where a row is missing, doubled or impossible."""
    if asked.round and not asked.decimal:
        raise WrongUse("--round goes with --decimal: millionths are whole numbers")
    faults = Faults(asked.limit)
    with _opened("CSV file", asked.rates) as csv_file:
        rates, notes = rates_csv.read_rates(csv_file, rates_csv.Form(asked.decimal, asked.round, asked.extend_last), faults)
    if faults.count:
        return _name(faults, asked.rates)
    # The rows were looked at here; the engine has the last word on the table.
    if rates.prepared is None or rates.unsound_cells:
        raise DataRefused(f"the engine refuses the table of '{asked.rates}'")
    if notes and not can_have_side_files(asked.out):
        raise WrongUse(f"--round and --extend-last write a file beside OUT, for the page to say so, and '{asked.out}' is no file")
    must_be_different([asked.out, *[beside(asked.out, HOW)] * bool(notes)])
    if notes:
        write_side_files(asked.out, rates.sha256, {}, notes)
    write_whole(asked.out, rates.to_bytes())
    if not notes:
        remove_older(asked.out)
    put("".join([f"{asked.out}: rates of {counted(rates.cells, 'cell')}\n", *(f"{note}\n" for note in notes)]))
    return DONE


def rates_unpack(asked: Namespace) -> int:
    """A rate table as CSV."""
    rates, _ = read_rates(asked.rates)
    if rates.prepared is None:
        raise DataRefused(f"'{asked.rates}': {Refused(6)}: {len(rates):,} numbers are no table; it has 958 for each of 1 to 1,024 cells")
    with _csv_out(asked.out) as text:
        rates_csv.write_rows(rates, asked.decimal, text)
    return DONE


@contextmanager
def _opened(what: str, path: str) -> Iterator[io.BufferedReader]:
    try:
        stream = open(path, "rb")
    except FileNotFoundError:
        raise WrongUse(f"there is no {what} '{path}'") from None
    except OSError as error:
        raise WrongUse(f"the {what} '{path}' can't be read: {error.strerror}") from None
    with stream:
        note_input(stream, path)
        yield stream


def _size(stream: BinaryIO) -> int:
    """In bytes; 0 for a pipe, which has no known one."""
    return os.fstat(stream.fileno()).st_size if stream.seekable() else 0


@contextmanager
def _csv_out(path: str) -> Iterator[TextIO]:
    """A CSV file to write, whole or not at all; without a path, standard output."""
    if path is None:
        kept = io.StringIO()
        yield kept
        put_bytes(kept.getvalue().encode())
        return
    with whole_file(path) as out:
        text = io.TextIOWrapper(out, encoding="utf-8", newline="")
        yield text
        text.flush()
        text.detach()
