"""What 'pack' and 'rates pack' leave beside their file: how it was made, for a page to say."""

import hashlib
import io
import json
import os
import re
import tomllib
from itertools import chain, count, cycle, repeat
from pathlib import Path
from typing import Any, BinaryIO, Dict, Iterable, List, Mapping, NamedTuple, Optional, Sequence

from ..claim_file import MOST_IN_BLOCK
from .csv_rows import csv_bytes
from .whole_files import note_input, write_whole

HOW, MAP, LINES, NUMBERS = "how.toml", "map.toml", "lines.csv", "numbers.csv"
CSV_FILE, MAP_FILE = "csv", "map"
"""What a JSON calls the files that a claim file was packed from."""
_NO_TEXT = re.compile("[\ud800-\udfff]")


class Named(NamedTuple):
    """A file's name, as a user gave it, and its fingerprint."""

    name: str
    sha256: str

    def __str__(self) -> str:
        return f"{self.name}, sha256 {self.sha256}"


class Kept(NamedTuple):
    """A file that another was made from, as a JSON keeps it and a page says it: what it is, its name and its fingerprint."""

    what: str
    name: str
    sha256: str

    @property
    def named(self) -> Named:
        """The file without what it is."""
        return Named(self.name, self.sha256)

    def __str__(self) -> str:
        return f"{self.what}: {self.named}"


class Made(NamedTuple):
    """How a file was made: what was done to it in words, the text of its map, and the files that it was packed from: CSV and map."""

    notes: Sequence[str] = ()
    map_text: str = ""
    kept: Sequence[Kept] = ()
    """No CSV where an older 'pack' kept no hash of it."""


class HashedReader(io.RawIOBase):
    """A stream to read, with the fingerprint of what was read."""

    def __init__(self, stream: io.BufferedReader) -> None:
        super().__init__()
        self._stream, self._hash = stream, hashlib.sha256()

    def readable(self) -> bool:
        """It is."""
        return True

    def readinto(self, buffer: Any) -> int:
        """Reads what is there, and adds it to the fingerprint. It doesn't wait for more of a pipe: a signal would wait as well."""
        data = self._stream.read1(len(buffer))
        self._hash.update(data)
        buffer[: len(data)] = data
        return len(data)

    @property
    def sha256(self) -> str:
        """Of all that was read."""
        return self._hash.hexdigest()


class Hashed:
    """A stream to write, with the fingerprint of what was written."""

    def __init__(self, out: BinaryIO) -> None:
        self._out, self._hash = out, hashlib.sha256()

    def write(self, data: bytes) -> int:
        """Writes, and adds to the fingerprint."""
        self._hash.update(data)
        return self._out.write(data)

    @property
    def sha256(self) -> str:
        """Of all that was written."""
        return self._hash.hexdigest()


def beside(path: str, name: str) -> str:
    """The path of a side file."""
    return f"{path}.{name}"


def can_have_side_files(path: str) -> bool:
    """Whether a path is a file or will be one; nothing is put beside a device or a pipe."""
    return os.path.isfile(path) or not os.path.exists(path)


def map_files(map_data: bytes, lines: Sequence[int], kept: Mapping[str, Sequence[str]], originals: "Mapping[str, int] | None") -> Dict[str, bytes]:
    """The side files of a claim file that was packed with a map, by name."""
    files = {MAP: map_data, LINES: lines_csv(lines)}
    if originals is not None:
        files[NUMBERS] = csv_bytes(("number", "original"), list(zip(originals.values(), originals)))
    for name, texts in kept.items():
        files[f"{name}.csv"] = csv_bytes((name,), list(zip(texts)))
    return files


def lines_csv(lines: Sequence[int]) -> bytes:
    """Block, place and the extract's line of each claim."""
    blocks = chain.from_iterable(map(repeat, count(1), repeat(MOST_IN_BLOCK)))
    places = cycle(range(1, MOST_IN_BLOCK + 1))
    return b"block,place,line\n" + "".join(map("%d,%d,%d\n".__mod__, zip(blocks, places, lines))).encode()


def write_side_files(path: str, sha256: str, files: Mapping[str, bytes], notes: Iterable[str], csv: Optional[Named] = None) -> None:
    """Writes the side files, and which they are, with the fingerprints of the file they belong to and of the CSV that it was packed from."""
    how = {
        "sha256": sha256,
        **({} if csv is None else {"csv": csv.name, "csv_sha256": csv.sha256}),
        "notes": list(notes),
        "files": list(files),
        "map_sha256": hashlib.sha256(files[MAP]).hexdigest() if MAP in files else "",
    }
    for name, data in files.items():
        if not holds(beside(path, name), data):
            write_whole(beside(path, name), data)
    remove_older(path, files)
    # JSON's texts and lists of them are TOML's too, but for one sign. A name's byte that is no UTF-8 stands as its escape.
    text = "".join(f"{key} = {json.dumps(value, ensure_ascii=False)}\n" for key, value in how.items())
    text = _NO_TEXT.sub(lambda sign: f"\\\\u{ord(sign[0]):04x}", text.replace("\x7f", "\\u007f"))
    write_whole(beside(path, HOW), text.encode())


def holds(path: str, data: bytes) -> bool:
    """Whether a file has these bytes already: a map may be the copy that an earlier run left."""
    return os.path.isfile(path) and Path(path).read_bytes() == data


def remove_older(path: str, files: Iterable[str] = ()) -> None:
    """Removes what an older run left beside the file, but for these: side files of another claim file would mislead."""
    found = _how(path)
    if found:
        for name in {HOW, *_texts(found.get("files"))} - set(files):
            if os.path.basename(name) == name and os.path.isfile(beside(path, name)):
                os.unlink(beside(path, name))


def belongs(path: str, sha256: str) -> bool:
    """Whether what stands beside a path was written for the file of this fingerprint."""
    return _how(path).get("sha256") == sha256


def made(path: str, sha256: str) -> Made:
    """How the file of a path and fingerprint was made; nothing where it isn't said, or said of another file."""
    found = _table(_read(beside(path, HOW)))
    if found.get("sha256") != sha256:
        return Made()
    csv, notes, wanted = _csv(found), _texts(found.get("notes")), found.get("map_sha256")
    kept = () if csv is None else (Kept(CSV_FILE, *csv),)
    if csv is not None:
        notes = [f"packed from {csv}", *notes]
    if not isinstance(wanted, str) or not wanted:
        return Made(notes, "", kept)
    data, mapped = _read(beside(path, MAP)), Kept(MAP_FILE, beside(path, MAP), wanted)
    if hashlib.sha256(data).hexdigest() != wanted:
        return Made([*notes, f"map: sha256 {wanted}; the map beside the file is missing or another one"], "", (*kept, mapped))
    return Made([*notes, str(mapped)], data.decode("utf-8", "replace"), (*kept, mapped))


def _csv(found: Mapping[str, object]) -> Optional[Named]:
    """The CSV that is kept; an older 'pack' kept none."""
    name, sha256 = found.get("csv"), found.get("csv_sha256")
    return Named(name, sha256) if isinstance(name, str) and isinstance(sha256, str) else None


def _read(path: str) -> bytes:
    """A file that a page tells of: nothing is written over it. Nothing where it isn't there."""
    try:
        with open(path, "rb") as stream:
            note_input(stream, path)
            return stream.read()
    except OSError:
        return b""


def _how(path: str) -> Dict[str, object]:
    try:
        return _table(Path(beside(path, HOW)).read_bytes())
    except OSError:
        return {}


def _table(data: bytes) -> Dict[str, object]:
    try:
        return tomllib.loads(data.decode("utf-8"))
    except ValueError:
        return {}


def _texts(found: object) -> List[str]:
    return [text for text in found if isinstance(text, str)] if isinstance(found, list) else []
