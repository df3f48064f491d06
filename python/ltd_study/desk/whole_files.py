"""Files that are written under a temporary name and renamed when they are whole, and never over a file that was read."""

import io
import os
import secrets
import stat
import sys
from contextlib import contextmanager, suppress
from pathlib import Path
from typing import BinaryIO, Dict, Iterable, Iterator, Tuple, Union

_inputs: Dict[Tuple[int, int], str] = {}
"""What the command has read: device and inode of each file, with the name that the user gave it."""


def note_input(stream: BinaryIO, path: Union[str, Path]) -> None:
    """A file that is read: from now on nothing is written over it."""
    found = os.fstat(stream.fileno())
    if stat.S_ISREG(found.st_mode):
        _inputs[found.st_dev, found.st_ino] = str(path)


def forget_inputs() -> None:
    """Before a command."""
    _inputs.clear()


def must_be_no_input(found: os.stat_result, name: str) -> None:
    """Raises FileExistsError for an output that is one of the files read."""
    if (found.st_dev, found.st_ino) in _inputs:
        read = _inputs[found.st_dev, found.st_ino]
        raise FileExistsError(f"{name} is the input '{read}' itself: it would be destroyed, and nothing is written there")


def must_be_writable(path: Union[str, Path]) -> None:
    """Raises OSError for an output that is a folder or one of the files read."""
    if os.path.isdir(path):
        raise IsADirectoryError(f"'{path}' is a folder")
    if os.path.exists(path):
        must_be_no_input(os.stat(path), f"'{path}'")


def must_be_different(outputs: Iterable[str]) -> None:
    """Raises FileExistsError where two of a command's outputs, or one and standard output, are one file."""
    seen: Dict[object, str] = {}
    for name, found in [("standard output", _stdout()), *((f"'{path}'", _identity(path)) for path in outputs)]:
        if found in seen:
            raise FileExistsError(f"{name} and {seen[found]} are one file: one output would destroy the other, and nothing is written")
        if found is not None:
            seen[found] = name


def _stdout() -> object:
    try:
        return _of_stat(os.fstat(sys.stdout.fileno()))
    except (AttributeError, OSError, ValueError):
        # There is none, or it is no file of the system.
        return None


def _identity(path: Union[str, Path]) -> object:
    """Device and inode, or the path in full of what isn't there yet; None of what may be written by two."""
    try:
        return _of_stat(os.stat(path))
    except OSError:
        return os.path.realpath(path)


def _of_stat(found: os.stat_result) -> object:
    return None if stat.S_ISCHR(found.st_mode) else (found.st_dev, found.st_ino)


class _Named(io.FileIO):
    """A file whose errors name the path that the user gave."""

    def __init__(self, opened: Union[str, Path], mode: str, path: Union[str, Path]) -> None:
        self._path = path
        with _naming(path):
            super().__init__(opened, mode, opener=lambda name, flags: os.open(name, flags, 0o600))

    def write(self, data: bytes) -> int:  # type: ignore[override]
        with _naming(self._path):
            return super().write(data)


@contextmanager
def _naming(path: Union[str, Path]) -> Iterator[None]:
    """Errors name the user's path, not the temporary one."""
    try:
        yield
    except OSError as error:
        raise OSError(error.errno, error.strerror, str(path)) from None


@contextmanager
def whole_file(path: Union[str, Path]) -> Iterator[BinaryIO]:
    """A file to write; the path has it once the block ends, and what stood there before if the block raises."""
    if _is_stream(path):
        with io.BufferedWriter(_Named(path, "wb", path)) as out:
            yield out
        return
    must_be_writable(path)
    target = Path(os.path.realpath(path))
    # Its name is known before it is there: whenever a signal comes, it is removed.
    unfinished = target.parent / f".ltd-{secrets.token_hex(8)}.part"
    try:
        with io.BufferedWriter(_Named(unfinished, "xb", path)) as out:
            yield out
        with _naming(path):
            os.chmod(unfinished, _mode(target))
            os.replace(unfinished, target)
    except BaseException:
        with suppress(OSError):
            unfinished.unlink()
        raise


def write_whole(path: Union[str, Path], data: bytes) -> None:
    """Writes a file at once, whole or not at all."""
    with whole_file(path) as out:
        out.write(data)


def _is_stream(path: Union[str, Path]) -> bool:
    """A device or a pipe, which can't be renamed to."""
    try:
        mode = os.stat(path).st_mode
    except OSError:
        return False
    return not (stat.S_ISREG(mode) or stat.S_ISDIR(mode))


def _mode(target: Path) -> int:
    """The file's own mode, or that of a new one."""
    if target.exists():
        return stat.S_IMODE(target.stat().st_mode)
    mask = os.umask(0)
    os.umask(mask)
    return 0o666 & ~mask
