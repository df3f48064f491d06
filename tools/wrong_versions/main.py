"""The command line."""
import argparse
import collections
import sys
import threading
from concurrent.futures import ThreadPoolExecutor
from pathlib import Path

from . import __doc__ as how, record
from .listed import EQUIVALENT, computes_the_same, edits, listed, listed_crates
from .made_up import in_order, made_up
from .prover import Prover, Proofs, crate_lines
from .trial import Trial
from .version import Crate

USAGE = """tools/wrong-versions [--listed] [--sample N [--seed S] | --all] [CRATE..]
tools/wrong-versions --copies [CRATE..]

--listed    every wrong version of tests/wrong-versions/CRATE.txt; what has a contract, or states something, and has none fails
--sample    N single errors made up in the bodies of the functions of all library crates, chosen by the seed
--all       all of them
--copies    a copy of each function and statement as it is, and writes tests/wrong-versions/copies.txt: what else is tried has no need to look at these again

The last line is 'N passed, M failed'. What is refused by a fact passes, and so does a made-up error that tests/wrong-versions/equivalent.txt has as one that
computes the same, if it is proved. Misfits among made-up errors are counted apart, and fail where more than a tenth are. A table by crate stands before the
last line. --repo names the folder with crates.txt, where rt proves the crates first."""
VERDICTS = ("numbers", "goal", "misfit", "same", "survived", "invalid", "unknown")
MOST_MISFITS = 0.1


class Work:
    """What is tried of a crate: the listed wrong versions, and so many of the made-up errors from the start on."""

    def __init__(self, crate, listed_versions, made):
        self.crate, self.listed, self.made, self.number = crate, listed_versions, made, 0

    def tried(self):
        return [v for v in self.made if v.verdict is not None]

    def size(self):
        return len(self.listed) + self.number

    def bare(self):
        """The functions with a contract and the statements of which no wrong version is listed, an edit, or made up, as they are told of."""
        changes = [change for v in [*self.listed, *self.made, *edits(self.crate)] for change in v.changes]
        functions = [f for f in self.crate.functions if f.has_contract and not any(c.file == f.file and f.holds(c.start, c.end) for c in changes)]
        files = {change.file for change in changes}
        return ["%s/%s %s" % (self.crate.name, f.file, f.label) for f in functions] + ["%s/%s" % (self.crate.name, file) for file in self.crate.statements if file not in files]

    def row(self):
        counts = collections.Counter(v.verdict for v in self.tried())
        return [len(self.made), len(self.tried())] + [counts[verdict] for verdict in VERDICTS]


def passes(version):
    return version.refused_by_fact() or version.verdict == "same"


def teller(reasons):
    """Tells of each listed wrong version, and of what else is to be looked at. Whatever is proved and listed as the same has its reason from there."""
    one_at_a_time = threading.Lock()

    def tell(versions):
        with one_at_a_time:
            told(versions)

    def told(versions):
        for v in versions:
            if v.text in reasons and v.verdict == "survived":
                v.note("same", reasons[v.text])
            elif v.text in reasons and v.refused_by_fact():
                v.note("unknown", "%s has it as one that computes the same, and it is refused: %s" % (EQUIVALENT, v.why))
            if v.text is None or not v.refused_by_fact() and v.verdict != "invalid":
                print(line_of(v), flush=True)

    return tell


def line_of(v):
    why = "\n    " + v.why if v.why else ""
    if v.text is None:
        return "%s: %s: %s" % (v.place(), v.what.rstrip("."), "ok (%s)" % v.verdict if passes(v) else "FAILED, %s: %s" % (v.verdict, v.shown) + why)
    return "%s: %s [%s] %s" % (v.verdict.upper(), v.place(), v.what, v.shown) + why


def go(repo, proofs, work, tell):
    prover = Prover(repo, work.crate.name, proofs)
    try:
        prover.prepare()
        Trial(prover, work.crate, record.known(repo, work.crate)).some(work.listed, work.made, work.number, tell)
    finally:
        prover.remove()


def crates_of(given):
    """The names: those with a list, where it is asked for, and the library crates, where made-up errors are."""
    if given.crates:
        return given.crates
    with_lists = listed_crates(given.repo) if given.listed or given.copies else []
    libraries = [name for name in crate_lines(given.repo) if Path(given.repo, "crates", name, "src/lib.rt").is_file()]
    return sorted({*with_lists, *(libraries if given.sample or given.all or given.copies else [])})


def works_of(given):
    works = []
    with_lists = given.crates or listed_crates(given.repo)
    for name in crates_of(given):
        crate = Crate(given.repo, name)
        library = (crate.folder / "src/lib.rt").is_file()
        versions = listed(given.repo, crate) if given.listed and name in with_lists else []
        works.append(Work(crate, versions, in_order(made_up(crate), given.seed) if library else []))
    union = in_order([v for work in works for v in work.made], given.seed)
    chosen = collections.Counter(v.crate for v in (union if given.all else union[:given.sample or 0]))
    for work in works:
        work.number = chosen[work.crate.name]
    return works


def stale(given, works, reasons):
    """The entries of equivalent.txt for which no such error is made up any more."""
    made = {v.text for work in works for v in work.made}
    return [text for text in reasons if text not in made and (not given.crates or text[0] in given.crates)] if given.sample or given.all else []


def counted(works, gone, bare):
    """Prints the tables and the last line; whether all is well."""
    made = [v for work in works for v in work.tried() if v.verdict != "invalid"]
    misfits = sum(v.verdict == "misfit" for v in made)
    if made:
        for name, row in [("crate", ("made", "tried") + VERDICTS)] + [(work.crate.name, work.row()) for work in works]:
            print("%-14s" % name + "".join("%10s" % x for x in row))
        print("%d made-up errors judged, %d misfits" % (len(made), misfits) + (": FAILED, above a tenth" if misfits > MOST_MISFITS * len(made) else ""))
    for text in gone:
        print("%s: FAILED, no such error is made up: %s %s %s: %s  =>  %s" % (EQUIVALENT, *text))
    for place in bare:
        print("%s: FAILED, no wrong version of it" % place)
    judged = [v for work in works for v in work.listed] + [v for v in made if v.verdict != "misfit"]
    passed = sum(passes(v) for v in judged)
    failed = len(judged) - passed + len(gone) + len(bare) + (misfits if misfits > MOST_MISFITS * len(made) else 0)
    print("%d passed, %d failed" % (passed, failed))
    return failed == 0 and passed > 0


def main():
    parser = argparse.ArgumentParser(usage=USAGE, description=how, formatter_class=argparse.RawDescriptionHelpFormatter)
    parser.add_argument("crates", nargs="*", metavar="CRATE")
    parser.add_argument("--listed", action="store_true")
    parser.add_argument("--all", action="store_true")
    parser.add_argument("--copies", action="store_true")
    parser.add_argument("--sample", type=int)
    parser.add_argument("--seed", default="1")
    parser.add_argument("--repo", default=".")
    given = parser.parse_args()
    tries = given.listed or given.all or given.sample
    if given.all and given.sample or bool(tries) == given.copies:
        parser.print_usage(sys.stderr)
        return 2
    if given.copies:
        record.look(given.repo, crates_of(given))
        return 0
    works, reasons = works_of(given), computes_the_same(given.repo)
    gone, bare = stale(given, works, reasons), [place for work in works for place in work.bare()] if given.listed else []
    works = sorted((work for work in works if work.size()), key=lambda work: -work.size())
    proofs, tell = Proofs(given.repo, [work.crate.name for work in works]), teller(reasons)
    # All at once: how many runs go side by side is the prover's.
    with ThreadPoolExecutor(len(works) or 1) as pool:
        list(pool.map(lambda work: go(given.repo, proofs, work, tell), works))
    return 0 if counted(works, gone, bare) else 1
