"""What the command reads, says and ends with."""

import hashlib
import json
import os
import sys
from typing import Any, Dict, Tuple

from .. import dates
from ..claim_file import ClaimFile
from ..rates import Rates
from ..refusals import Refused
from ..study import Study
from .page import Source
from .side_files import made
from .whole_files import must_be_no_input, note_input

DONE, DATA_REFUSED, WRONG_USE = 0, 1, 2


class WrongUse(Exception):
    """The command ends with status 2 and this message."""


class DataRefused(Exception):
    """The command ends with status 1 and this message."""


def say(message: str) -> None:
    """A line on standard error, if there is one."""
    if sys.stderr is not None:
        plain = f"ltd: {message}\n".encode("utf-8", "backslashreplace").decode("utf-8")
        sys.stderr.write(plain)
        sys.stderr.flush()


def say_note(note: str) -> None:
    """What a user must not miss, if there is anything, on standard error."""
    if note:
        say(f"note: {note}")


def put(text: str) -> None:
    """Text on standard output, all of it."""
    put_bytes(text.encode("utf-8", "backslashreplace"))


def put_json(found: Dict[str, Any]) -> None:
    """JSON on standard output."""
    put(json.dumps(found, indent=2) + "\n")


def put_bytes(data: bytes) -> None:
    """Bytes on standard output, all of them."""
    if sys.stdout is None:
        raise WrongUse("the output was cut short")
    _must_not_append_to_an_input()
    try:
        sys.stdout.flush()
        sys.stdout.buffer.write(data)
        sys.stdout.buffer.flush()
    except OSError:
        # What is left would be tried again when Python ends.
        sys.stdout = None  # type: ignore[assignment]
        raise WrongUse("the output was cut short") from None


def _must_not_append_to_an_input() -> None:
    try:
        found = os.fstat(sys.stdout.fileno())
    except OSError:
        # Standard output is no file of the system.
        return
    must_be_no_input(found, "standard output")


def read_bytes(what: str, path: str) -> bytes:
    """A file that must be there."""
    try:
        with open(path, "rb") as stream:
            note_input(stream, path)
            return stream.read()
    except FileNotFoundError:
        raise WrongUse(f"there is no {what} '{path}'") from None
    except IsADirectoryError:
        raise WrongUse(f"the {what} '{path}' is a folder") from None
    except OSError as error:
        raise WrongUse(f"the {what} '{path}' can't be read: {error.strerror}") from None


def read_claims(path: str) -> Tuple[ClaimFile, Source]:
    """A claim file and its fingerprint."""
    data = read_bytes("claim file", path)
    return ClaimFile(data), _source("claims", path, data)


def read_rates(path: str) -> Tuple[Rates, Source]:
    """A rate table and its fingerprint."""
    data = read_bytes("rate table", path)
    if len(data) % 4:
        say(f"the rate table '{path}' has a part of a number at its end, and counts as an empty one")
    return Rates.of_bytes(data), _source("rates", path, data)


def _source(what: str, path: str, data: bytes) -> Source:
    """A file with its fingerprint, and what stands beside it of how it was made."""
    sha256 = hashlib.sha256(data).hexdigest()
    return Source(what, path, sha256, *made(path, sha256))


def must_be_window(first: dates.DateLike, last: dates.DateLike) -> None:
    """Tells the user of a window that the engine refuses."""
    try:
        Study.open(first, last)
    except Refused as refused:
        raise WrongUse(f"--window {first} {last}: {refused}; it runs from FIRST to LAST within {dates.FIRST} to {dates.LAST}") from None
