"""The engine's calls, as ``include/ltd_study.h`` declares them.

The shared object is the one that the environment variable LTD_STUDY_LIBRARY names. Without it, it is the one of the release that this
module stands in: in ``lib/``, or beside the module's files where it was installed. In a clone it is linked with ``cc`` from the static library
in ``target/staticlib`` on first use, kept in ``target/desk/``, and linked again once that is newer.
"""

import ctypes
import functools
import os
import shutil
import subprocess
import tempfile
from operator import index
from pathlib import Path
from typing import Callable, Dict, Iterable, List, Optional, Tuple

VARIABLE = "LTD_STUDY_LIBRARY"
HERE = Path(__file__).resolve().parent
ROOT = HERE.parents[1]
SHARED_NAME = "libltd_study.so"
SONAME = f"{SHARED_NAME}.1"
STATIC_NAME = "libc_abi.a"
_EXPORTS = "{ global: ltd_*; local: *; };\n"

builder: Optional[Callable[[], None]] = None
"""What builds a missing static library: ./ltd sets it. Without it the library is asked for."""

_byte, _u32, _i64, _u64 = ctypes.c_uint8, ctypes.c_uint32, ctypes.c_int64, ctypes.c_uint64
_double, _size, _list = ctypes.c_double, ctypes.c_size_t, ctypes.c_void_p
_lent = (_list, _size)
_file_run = (*_lent, *_lent, *_lent)

# The answer and the arguments of each call; a lent list is a pointer and a length.
_CALLS: Dict[str, Tuple[type, Tuple[type, ...]]] = {
    "ltd_open": (_byte, (_u32, _u32, *_lent)),
    "ltd_add": (_byte, (*_lent, *_lent, *_lent)),
    "ltd_withdraw": (_byte, (*_lent, *_lent, *_lent)),
    "ltd_prepared_add": (_byte, (*_lent, *_lent, *_lent)),
    "ltd_prepared_withdraw": (_byte, (*_lent, *_lent, *_lent)),
    "ltd_join": (_byte, (*_lent, *_lent)),
    "ltd_listing": (_u64, (_u32, _u32, *_lent, *_lent)),
    "ltd_prepare": (_byte, _lent),
    "ltd_file_study": (_byte, _file_run),
    "ltd_prepared_file_study": (_byte, _file_run),
    "ltd_corrected_study": (_byte, _file_run),
    "ltd_prepared_corrected_study": (_byte, _file_run),
    "ltd_durations": (_byte, _file_run),
    "ltd_prepared_durations": (_byte, _file_run),
    "ltd_factor": (_byte, (_byte, _u32, _i64, *_lent)),
    "ltd_wanted_count": (_u64, (_byte, _i64, _u64)),
    "ltd_valuation_rate": (_u64, (*_lent, _u32, _u64, _u32)),
    "ltd_reserve_factor": (_byte, (*_lent, _u32, _u32, *_lent, _u32, _double, *_lent)),
    "ltd_reserve_limit": (_byte, (*_lent, *_lent, *_lent, _u64, _double, *_lent, *_lent)),
    "ltd_small_company": (_byte, (_u32, *_lent, *_lent, *_lent, *_lent)),
    "ltd_load_claim": (_byte, (_u32, _u32, _u32, *_lent, *_lent)),
    "ltd_read_window": (_byte, (*_lent, *_lent)),
    "ltd_read_block": (_u64, (*_lent, _u32, *_lent)),
    "ltd_write_window": (_byte, (_u32, _u32, *_lent)),
    "ltd_write_block": (_byte, (_u32, *_lent, *_lent)),
    "ltd_version": (_u32, ()),
}


class NoLibrary(RuntimeError):
    """The engine's calls can't be had; the message says what to do."""


@functools.lru_cache(maxsize=None)
def calls() -> ctypes.CDLL:
    """The engine's calls, loaded once."""
    return load(path_in_use())


def path_in_use(may_build: bool = True) -> Path:
    """The shared object that the calls come from: named, of a release, or linked."""
    named = os.environ.get(VARIABLE)
    if named:
        return Path(named)
    for folder in (ROOT / "lib", HERE):
        if (folder / SHARED_NAME).is_file():
            return folder / SHARED_NAME
    return linked(ROOT / "target" / "staticlib", ROOT / "target" / "desk", builder if may_build else None)


def load(path: Path) -> ctypes.CDLL:
    """The calls of a shared object, each with the types of its arguments and its answer."""
    try:
        library = ctypes.CDLL(str(path.resolve()))
    except OSError as error:
        raise NoLibrary(f"the engine's shared object '{path}' can't be loaded: {error}") from error
    for name, (answer, arguments) in _CALLS.items():
        try:
            call = getattr(library, name)
        except AttributeError:
            raise NoLibrary(f"'{path}' has no {name}: it isn't the engine of this version; build it anew") from None
        call.restype = answer
        call.argtypes = arguments
    engine, module = version_of(library), _module_version()
    if engine.split(".")[0] != module.split(".")[0]:
        raise NoLibrary(f"'{path}' is version {engine} of the engine, and this module is version {module}")
    return library


def version_of(library: ctypes.CDLL) -> str:
    """The version that a loaded engine says it is."""
    number = library.ltd_version()
    return f"{number >> 16}.{number >> 8 & 255}.{number & 255}"


def _module_version() -> str:
    from . import __version__

    return __version__


def linked(static: Path, folder: Path, build: Optional[Callable[[], None]] = None) -> Path:
    """The shared object in a folder, linked from the static library if it isn't there or is older."""
    archive, shared = static / STATIC_NAME, folder / SHARED_NAME
    if build is not None and not archive.is_file():
        build()
    if not archive.is_file():
        raise NoLibrary(
            f"the engine isn't built: there is no '{archive}'. Run '{ROOT / 'scripts' / 'build-calls'}' (all that it rests on is proved first, which "
            f"takes some minutes), or name the shared object of a release, lib/{SHARED_NAME}, in {VARIABLE}"
        )
    if not _is_newer(shared, archive):
        _link(archive, shared)
    return shared


def _is_newer(shared: Path, archive: Path) -> bool:
    return shared.is_file() and archive.stat().st_mtime_ns < shared.stat().st_mtime_ns


def _link(archive: Path, shared: Path) -> None:
    """Links under a temporary name, so that two first uses at once don't meet half an object; only the calls are exported."""
    compiler = shutil.which("cc")
    if compiler is None:
        raise NoLibrary(
            "the engine's calls are linked once with the C compiler 'cc', and there is none on the path: install one, "
            f"or name the shared object of a release, lib/{SHARED_NAME}, in {VARIABLE}"
        )
    shared.parent.mkdir(parents=True, exist_ok=True)
    with tempfile.TemporaryDirectory(dir=shared.parent) as work:
        made, exports = Path(work) / shared.name, Path(work) / "exports"
        exports.write_text(_EXPORTS, encoding="ascii")
        whole = ["-Wl,--whole-archive", str(archive), "-Wl,--no-whole-archive"]
        named = [f"-Wl,-soname,{SONAME}", f"-Wl,--version-script={exports}"]
        run = subprocess.run([compiler, "-shared", *named, "-o", str(made), *whole], capture_output=True, text=True, check=False)
        if run.returncode != 0:
            raise NoLibrary(f"'cc' couldn't link the engine's static library:\n{run.stderr.strip()}")
        os.replace(made, shared)


def fits(name: str, value: int, bits: int, signed: bool = False) -> int:
    """The value as Python's own number, if a C number of so many bits holds it; ctypes would cut it silently, and takes none of numpy's."""
    low, high = (-(1 << (bits - 1)), (1 << (bits - 1)) - 1) if signed else (0, (1 << bits) - 1)
    try:
        number = index(value)
    except TypeError:
        number = low - 1
    if not low <= number <= high:
        raise ValueError(f"{name} must be a whole number from {low} to {high}, not {value!r}")
    return number


def u64_list(name: str, values: Iterable[int]) -> "ctypes.Array[ctypes.c_uint64]":
    """Numbers of 64 bits, as a list to lend."""
    numbers = [fits(name, value, 64) for value in values]
    return (ctypes.c_uint64 * len(numbers))(*numbers)
