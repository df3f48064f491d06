"""Where a page or a JSON comes from: carrier, engine, command, day and files."""

import hashlib
import shlex
from argparse import ArgumentParser, Namespace
from datetime import date
from typing import Dict, List, Sequence, Tuple

from .. import version
from .page import Source
from .side_files import CSV_FILE, Kept
from .talk import DataRefused, read_bytes


def options(parser: ArgumentParser) -> None:
    """--carrier, and the files that the claim file was made from."""
    parser.add_argument("--carrier", metavar="NAME", default="", help="whose claims they are: stands in the JSON and on the page")
    says = "files that the claim file was made from (CSV, map): named on the page with their fingerprints; refused where 'pack' kept others"
    parser.add_argument("--made-from", nargs="+", metavar="FILE", default=[], help=says)


def made(asked: Namespace, sources: Sequence[Source], carrier: str) -> Tuple[List[Source], List[str]]:
    """The files that a page was made from, and by whom, when and how; the latter where a page is asked for."""
    return _sources(asked, sources), lines(asked, carrier) if asked.html is not None else []


def _sources(asked: Namespace, sources: Sequence[Source]) -> List[Source]:
    """The files of a page, with those that the claim file was made from."""
    more = [Source("made from", path, hashlib.sha256(read_bytes("file", path)).hexdigest()) for path in getattr(asked, "made_from", [])]
    for source in sources:
        for one in more if source.what == "claims" else ():
            _must_be_packed_from(source, one)
    return [*sources, *more]


def _must_be_packed_from(claims: Source, one: Source) -> None:
    """A page doesn't name another file than 'pack' kept; an older 'pack' kept no CSV, and any file may be named."""
    packed = any(found.what == CSV_FILE for found in claims.kept)
    if packed and one.sha256 not in [found.sha256 for found in claims.kept]:
        others = "; ".join(str(found.named) for found in claims.kept)
        raise DataRefused(f"--made-from '{one.name}', sha256 {one.sha256}: '{claims.name}' was packed from another file: {others}")


def kept(sources: Sequence[Source]) -> Tuple[Kept, ...]:
    """What a JSON keeps of a page's files: each, and after it those that it was made from itself."""
    return tuple(one for source in sources for one in (Kept(source.what, source.name, source.sha256), *source.kept))


def saved_source(what: str, name: str, sha256: str, sources: Sequence[Kept]) -> Source:
    """A saved JSON, with what it keeps of its sources for a page to say; an older one keeps none."""
    return Source(what, name, sha256, list(map(str, sources)), kept=sources)


def lines(asked: Namespace, carrier: str) -> List[str]:
    """Carrier, engine, command and day, for a page's footer."""
    found = [f"Carrier: {carrier}"] if carrier else []
    return [*found, engine_words(), f"Command: {shlex.join(['./ltd', *asked.words])}", f"Made on {date.today()}"]


def rates_line(sha256: str) -> str:
    """The rate table of saved files, which have its fingerprint and no name."""
    return f"Rate table: sha256 {sha256}"


def engine() -> Dict[str, str]:
    """The engine's version and the fingerprint of its shared object, for JSON."""
    found = dict(version.identity())
    return {"version": found["engine"], "sha256": found["sha256"]}


def engine_words() -> str:
    """The same in words."""
    found = engine()
    return f"Engine: version {found['version']}, sha256 {found['sha256']}"
