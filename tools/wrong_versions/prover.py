"""The prover over a crate's incremental folder: the fast way."""
import os
import re
import shutil
import subprocess
import tempfile
import threading
from pathlib import Path

from .version import changed

# Of the processor, for one run: a busy machine makes no verdict another.
SECONDS = 3600
# Runs side by side, of any crates: each takes a processor, and 1 to 4 GB.
AT_ONCE = min(4, len(os.sched_getaffinity(0)))
SIDE_BY_SIDE = threading.BoundedSemaphore(AT_ONCE)
# What is said of a function that isn't proved, and is no copy.
NOT_PROVED = re.compile(r"^fn (?!\S*_wrong_)\S+: (?!proved)", re.M)


class Listed:
    """A crate of crates.txt: its name, what it depends on, and whether it is a static library."""

    def __init__(self, words, others):
        self.name, self.others, self.is_static = words[0], others, "staticlib" in words[1:]


def crate_lines(repo):
    """The crates of a repository by name, lowest first, as crates.txt has them."""
    found = {}
    for line in Path(repo, "crates.txt").read_text().splitlines():
        words, colon, others = line.split("#")[0].partition(":")
        if colon:
            found[words.split()[0]] = Listed(words.split(), others.split())
    return found


def is_program(repo, name):
    return Path(repo, "crates", name, "src/main.rt").is_file()


def below(lines, name):
    """The repository's crates that one rests on, those below first."""
    found = []
    for other in lines[name].others:
        found += [it for it in [*below(lines, other), other] if it not in found] if other in lines else []
    return found


class Proofs:
    """Crates proved as they are, behind what they depend on, one after the other, beside what is tried of those that are. rt keeps what it proves in each crate's
    out/, and takes what has not changed from there."""

    def __init__(self, repo, crates):
        self.repo, lines = repo, crate_lines(repo)
        unknown = [name for name in crates if name not in lines]
        if unknown:
            raise SystemExit("crates.txt has no " + unknown[0])
        wanted = {it for name in crates for it in [*below(lines, name), name]}
        self.order = sorted(wanted, key=lambda it: (len(below(lines, it)), it))
        # Where several are asked for, the other processors have something to try.
        self.jobs = ["--jobs", "1"] if len(crates) > 1 else []
        self.ended, self.failed = {name: threading.Event() for name in self.order}, None
        threading.Thread(target=self.go, daemon=True).start()

    def go(self):
        for name in self.order:
            words = ["rt", "check" if is_program(self.repo, name) else "lib", *self.jobs]
            how = {"cwd": Path(self.repo, "crates", name), "stdin": subprocess.DEVNULL, "stdout": subprocess.PIPE, "stderr": subprocess.STDOUT}
            done = subprocess.run(words, text=True, **how) if self.failed is None else None
            if done and done.returncode != 0:
                self.failed = "%s isn't proved as it is:\n%s" % (name, done.stdout[-2000:])
            self.ended[name].set()

    def wait(self, name):
        self.ended[name].wait()
        if self.failed is not None:
            raise SystemExit(self.failed)


def linked(folder, to):
    """Copies an incremental folder. A module that was checked is written anew and never changed, so a hard link does where the file system can."""

    def copy(one, other):
        try:
            if one.endswith(".oantt"):
                return os.link(one, other)
        except OSError:
            pass
        return shutil.copy2(one, other)

    shutil.copytree(folder, to, copy_function=copy)


class Prover:
    def __init__(self, repo, crate, proofs):
        self.repo, self.crate, self.proofs = Path(repo).resolve(), crate, proofs
        self.kit = Path(os.environ.get("RATTLE_HOME") or Path(shutil.which("rt")).resolve().parent.parent)
        self.lines = crate_lines(repo)
        self.folder = self.repo / "crates" / crate
        # Beside the system's other temporary files: rt refuses a file of Rattle or antt of the repository that stands in no crate.
        self.room = Path(tempfile.mkdtemp(prefix="wrong-versions-%s-" % crate))
        self.kept, self.is_seen = self.room / "kept", False

    def words(self, copy):
        """As rt's own for `rattle check`, of a copy."""
        listed, home = self.lines[self.crate], self.kit / "rlibs"
        rlib = lambda name: self.repo / "crates" / name / "out/rlib" / (name + ".rlib")
        words = [self.kit / "bin/rattle", "check", "--crate-name", self.crate, "src/%s.rt" % ("main" if is_program(self.repo, self.crate) else "lib")]
        for name in ["std", *(it for it in listed.others if it not in self.lines)]:
            words += ["--extern", "%s=%s" % (name, home / (name + ".rlib"))]
        words += ["-L", "dependency=%s" % home]
        for name in listed.others:
            words += ["--extern", "%s=%s" % (name, rlib(name))] if name in self.lines else []
        for name in below(self.lines, self.crate):
            words += ["-L", "dependency=%s" % rlib(name).parent]
        words += ["--antt-project", self.kit / "rattle/logic/antt-project.json", "--logic-built", self.kit / "logic_built", "--jobs", "1"]
        words += ["--crate-type", "staticlib"] if listed.is_static else []
        return [str(word) for word in words + ["--incremental", copy / "inc"]]

    def prepare(self):
        """Takes what rt has kept of the crate as it is, once that is proved."""
        self.proofs.wait(self.crate)
        if (self.folder / "out/incremental").is_dir():
            linked(self.folder / "out/incremental", self.kept)
        self.kept.mkdir(exist_ok=True)

    def seen(self, said):
        """Notes that a run proves what it leaves as it is. Without that no verdict over what was kept says anything."""
        if "logic=" not in said or NOT_PROVED.search(said):
            raise SystemExit("%s isn't proved as it is:\n%s" % (self.crate, said[-2000:]))
        self.is_seen = True

    def see(self):
        """Checks the crate as it is, unless a run of copies has shown that it is proved."""
        if not self.is_seen:
            self.seen(self.run([])[1])

    def remove(self):
        shutil.rmtree(self.room, ignore_errors=True)

    def write_copy(self, changes):
        """A copy of the crate with some changes, beside a copy of what was kept: its folder. A file that isn't there is a new one."""
        copy = Path(tempfile.mkdtemp(dir=self.room))
        for part in ("src", "specs", "proofs"):
            if (self.folder / part).is_dir():
                shutil.copytree(self.folder / part, copy / part)
        for file in {change.file for change in changes}:
            path = copy / file
            path.parent.mkdir(parents=True, exist_ok=True)
            path.write_text(changed(path.read_text() if path.is_file() else "", [change for change in changes if change.file == file]))
        linked(self.kept, copy / "inc")
        return copy

    def checked(self, copy):
        words = ["prlimit", "--cpu=%d" % SECONDS, *self.words(copy)]
        how = {"cwd": copy, "stdin": subprocess.DEVNULL, "stdout": subprocess.PIPE, "stderr": subprocess.STDOUT}
        done = subprocess.run(words, text=True, errors="replace", **how)
        return done.returncode, done.stdout.replace(str(copy) + "/", "")

    def run(self, changes):
        """Checks the crate with some changes: its exit status, below 0 where it ran out of time, and what was said."""
        with SIDE_BY_SIDE:
            copy = self.write_copy(changes)
            try:
                return self.checked(copy)
            finally:
                shutil.rmtree(copy, ignore_errors=True)
