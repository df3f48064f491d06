"""Which engine is in use: its version, the commit it was built of, and the shared object."""

import hashlib
import subprocess
from typing import List, Tuple

from . import __version__, library


def commit() -> str:
    """The commit of the release or the clone that this module stands in, or 'unknown'."""
    for release in (library.HERE / "VERSION", library.ROOT / "VERSION"):
        if release.is_file():
            rows = [line.partition(" ") for line in release.read_text(encoding="utf-8").splitlines()]
            return {name: value for name, _, value in rows}.get("commit", "unknown")
    if not (library.ROOT / "crates.txt").is_file():
        return "unknown"
    try:
        words = ["git", "-C", str(library.ROOT), "rev-parse", "HEAD"]
        return subprocess.run(words, capture_output=True, text=True, check=True).stdout.strip()
    except (OSError, subprocess.CalledProcessError):
        return "unknown"


def identity() -> List[Tuple[str, str]]:
    """Version, commit, shared object and its SHA-256, each under its name. Nothing is built for it."""
    found = [("version", __version__), ("commit", commit())]
    try:
        path = library.path_in_use(may_build=False)
        found.append(("engine", library.version_of(library.load(path))))
    except library.NoLibrary as error:
        return [*found, ("library", f"none: {error}")]
    return [*found, ("library", str(path)), ("sha256", hashlib.sha256(path.read_bytes()).hexdigest())]


def text() -> str:
    """The identity, a line for each part."""
    return "".join(f"{name} {value}\n" for name, value in identity())
