"""tests/wrong-versions/copies.txt: the crates whose functions' and statements' copies were all tried as they are, a line each. A line has the crate, a sum of
what its copies were made of, and the functions and files whose copy wasn't proved. While the sum holds, nothing is tried again; --copies writes the lines anew."""
import hashlib
import re
import subprocess
from concurrent.futures import ThreadPoolExecutor
from pathlib import Path

from . import copies, version
from .listed import COPIES, folder_of
from .prover import Prover, Proofs
from .trial import Trial
from .version import Crate

HEAD = "# By tools/wrong-versions --copies: a crate, a sum of what its copies were made of, and behind 'but' those that weren't proved as they are.\n"
LINE = re.compile(r"^(?P<crate>\w+) (?P<sum>[0-9a-f]{64})(?: but (?P<alone>.+))?$")


def path_of(repo):
    return folder_of(repo) / COPIES


def sum_of(crate):
    """What a copy rests on that isn't proved with the right function: the kit, how copies are made, and the crate's files."""
    made = hashlib.sha256(subprocess.run(["rt", "version"], capture_output=True, check=True).stdout)
    for part in copies, version:
        made.update(Path(part.__file__).read_bytes())
    files = [path for part in ("src", "specs", "proofs") for path in (crate.folder / part).rglob("*") if path.is_file()]
    for path in sorted(files):
        made.update(("\n%s\n" % path.relative_to(crate.folder)).encode() + path.read_bytes())
    return made.hexdigest()


def lines_of(repo):
    """The lines by crate."""
    text = path_of(repo).read_text() if path_of(repo).is_file() else ""
    found = [LINE.match(line) for line in text.splitlines() if not line.startswith("#")]
    if None in found:
        raise SystemExit("%s: a line isn't a crate, a sum and what is tried alone" % COPIES)
    return {m["crate"]: m for m in found}


def name_of(it):
    return ("%s %s" % (it.file, it.label)).strip()


def known(repo, crate):
    """Whether the copy of each function and statement is proved as it is, where the crate's line says so of today's files; else nothing."""
    line = lines_of(repo).get(crate.name)
    if line is None or line["sum"] != sum_of(crate):
        return {}
    alone = line["alone"].split(", ") if line["alone"] else []
    return {it: name_of(it) not in alone for it in crate.copyable()}


def tried(repo, proofs, name):
    """A crate, and for each function and statement that can be copied whether its copy is proved as it is."""
    crate, prover = Crate(repo, name), Prover(repo, name, proofs)
    trial = Trial(prover, crate, {})
    try:
        prover.prepare()
        trial.look_at_copies(crate.copyable())
    finally:
        prover.remove()
    proved = list(trial.has_copy.values())
    print("%s: %d of %d copies are proved as they are" % (name, proved.count(True), len(proved)), flush=True)
    return crate, trial.has_copy


def line_of(crate, has_copy):
    alone = ", ".join(sorted(name_of(f) for f, is_proved in has_copy.items() if not is_proved))
    return "%s %s" % (crate.name, sum_of(crate)) + (" but " + alone if alone else "")


def look(repo, names):
    """Tries the copies of some crates' functions and statements as they are, and writes these crates' lines anew."""
    proofs = Proofs(repo, names)
    with ThreadPoolExecutor(len(names)) as pool:
        new = {crate.name: line_of(crate, has_copy) for crate, has_copy in pool.map(lambda name: tried(repo, proofs, name), names)}
    lines = {**{name: m[0] for name, m in lines_of(repo).items()}, **new}
    path_of(repo).write_text(HEAD + "".join(line + "\n" for _, line in sorted(lines.items())))
