"""Wrong versions tried, many in one run, and their verdicts."""
import itertools
import re
from concurrent.futures import ThreadPoolExecutor

from .copies import FunctionCopy, StatementCopy, is_proof_of, is_type_of, placed
from .names import ROUNDS, respelled
from .prover import AT_ONCE
from .version import Change, WrongVersion, one_line

# A run reads the crate once for all of them.
TOGETHER = 48
ERROR = re.compile(r"^(?:\./)?(?P<file>[^\s:]+):(?P<line>\d+):\d+: error(?:\[[\w-]+\])?: (?P<text>.*)$")
# A goal without an answer in a file, for which the prover's own search finds no proof but numbers.
FALSE = re.compile(r"^note: (?P<text>`[^`]+` of (?:\./)?(?P<file>\S+) may be false: .*)$")
NO_VERDICT = re.compile(r"^rattle: no verdict", re.M)
# Numbers at which what is asked is false.
NUMBERS = re.compile(r"and the (?:goal|part) fails, at|may be false: the known facts allow")
# An error that another one brings with it.
NOT_OWN = re.compile(r"was not admitted \(|is not admitted: rejected|cannot be checked|so this cannot|could not be checked|(?:was|were) not checked")
# The proof's text doesn't fit the code: a step, a field or a goal isn't there, or is of another kind.
MISFIT = re.compile(
    r"has no (?:field )?`|has no item|has no module|no field|not in scope|unknown name|no such|does not export|exports no|not exported|not declared|not defined"
    r"|already declared|this pattern needs|too many arguments|too few arguments|more arguments|fewer arguments|takes no|not a function|expected a function"
    r"|is applied to an argument but has type|a tuple is checked against|projects from a|is not a record|undetermined|could not determine|was not determined"
)
# The prover's search finds no proof of a goal that the function's proof files have no answer for, if there are any.
NO_PROOF = re.compile(r"^fn (?P<path>\S+): no proof: expected .*$", re.M)


def errors_of(said):
    """The errors: [file, line, text with the lines that go on]. The lines that go on behind a note are the note's."""
    found, goes_on = [], False
    for line in said.splitlines():
        m, false = ERROR.match(line), FALSE.match(line)
        if m:
            found.append([m["file"], int(m["line"]), m["text"]])
        elif false:
            found.append([false["file"], 0, false["text"]])
        elif goes_on and line[:1] in (" ", "\t"):
            found[-1][2] += "\n" + line
        goes_on = bool(m) or goes_on and line[:1] in (" ", "\t")
    return found


def said_of(said, function):
    """The lines about a function's proof, with the help that follows its own line."""
    own, on = [], False
    for line in said.splitlines():
        m = ERROR.match(line)
        if m:
            on = is_proof_of(m["file"], function)
        elif line.startswith("fn "):
            on = line.split(": ")[0].split("::")[-1] == function.name
        elif line[:1] not in (" ", "\t") and not line.startswith("help: "):
            on = False
        own += [line] if on else []
    return "\n".join(own)


def is_path_of(parts, function):
    """Whether the prover names a function so."""
    if function.owner:
        return len(parts) > 1 and parts[-1] == function.name and is_type_of(parts[-2], function)
    return parts[1:] == [part for part in (function.module, function.name) if part]


def without_proof(said, function):
    """What the prover says where it found no proof of a function, or of any where none is given; or None."""
    for m in NO_PROOF.finditer(said):
        if function is None or is_path_of(m["path"].split("::"), function):
            return one_line(m[0])[:300]
    return None


def verdict_of(errors, unproved=None):
    """numbers, goal or misfit, by errors that no other error brings with it and by what is said of a function without a proof, and what one of them says; or
    None."""
    own = [e for e in errors if not NOT_OWN.search(e[2])]
    with_numbers = [e for e in own if NUMBERS.search(e[2])]
    of_shape = [e for e in own if MISFIT.search(e[2].split("\n")[0][:500])]
    for verdict, found in ("numbers", with_numbers), ("misfit", of_shape), ("goal", own):
        if found:
            file, line, text = found[0]
            return verdict, "%s:%d %s" % (file, line, one_line(text)[:300])
    return ("goal", unproved) if unproved else None


def is_proved(said, function):
    """Whether the prover says of a copy, which has a name of its own, that it is proved."""
    return re.search(r"^fn \S*::%s: proved" % re.escape(function.name), said, re.M) is not None


def parts_of(things):
    """Parts of one size, of TOGETHER at the most: the last run takes no longer than others."""
    number = max(1, -(-len(things) // TOGETHER))
    size = max(1, -(-len(things) // number))
    return [things[k:k + size] for k in range(0, len(things), size)]


def own_errors(it, said):
    """The errors in a copy's proof, or in the statement that it proves."""
    return [e for e in errors_of(said) if it.owns(e[0])]


class Trial:
    def __init__(self, prover, crate, has_copy):
        """Beside prover and crate the functions and statements whose copies were looked at, and whether the copy as it is was proved."""
        self.prover, self.crate, self.has_copy = prover, crate, has_copy
        # Made-up errors that stand in for those that the compiler refuses, and those of them that no run of copies can take.
        self.spare, self.left_over = iter(()), []

    def copy_of(self, version, number):
        if version.right() is version.statement:
            return StatementCopy(version, number, self.crate.folder)
        return FunctionCopy(version, number, self.proofs_of(version.function))

    def alone(self, version):
        """One in a run of its own. Where the proof only misses names, which the prover makes of the code, the names are brought to the code's."""
        proofs = {**self.proofs_of(version.function), **self.proofs_of(version.function, "+")} if version.function else {}
        texts = dict(proofs)
        for _ in range(ROUNDS):
            said = self.judge(version, version.changes + [Change(file, 0, len(proofs[file]), text) for file, text in texts.items() if text != proofs[file]])
            new = respelled(texts, said) if version.verdict == "misfit" else texts
            if new == texts:
                break
            texts = new

    def proofs_of(self, function, sign=""):
        """The texts of a function's own proof files."""
        files = [path.relative_to(self.crate.folder) for path in sorted((self.crate.folder / "proofs").rglob("*.antt"))]
        return {str(file): (self.crate.folder / file).read_text() for file in files if is_proof_of(file, function, sign)}

    def judge(self, version, changes):
        """Notes the verdict of a version by itself, and gives what the prover says."""
        status, said = self.prover.run(changes)
        errors = errors_of(said)
        if status < 0 or NO_VERDICT.search(said):
            version.note("unknown", "out of time" if status < 0 else said[-200:])
        elif status == 0 and "logic=proved" in said:
            version.note("survived", "")
        elif "logic=not-proved" not in said:
            version.note("invalid", one_line(errors[0][2] if errors else said)[:200])
        else:
            version.note(*(verdict_of(errors, without_proof(said, version.function)) or ("misfit", "no error of its own: " + said[-200:])))
        return said

    def without_invalid(self, copies, lines, errors):
        """The copies without those that the compiler refuses."""
        left = []
        for it in copies:
            own = [e for e in errors if it in lines and e[0] == it.function.file and lines[it][0] <= e[1] <= lines[it][1]]
            if own:
                it.version.note("invalid", one_line(own[0][2])[:200])
            else:
                left.append(it)
        return left

    def judged(self, copies, said):
        """The copies without those that a fact refuses, by an error of their own: those whose proof has other names now, and the rest."""
        again, rest = [], []
        for it in copies:
            verdict = verdict_of(own_errors(it, said), without_proof(said, it.function) if it.function else None)
            if verdict and verdict[0] != "misfit":
                it.version.note(*verdict)
            else:
                (again if verdict and it.function and it.is_renamed(said_of(said, it.function)) else rest).append(it)
        return again, rest

    def one_run(self, copies):
        """Those that have to be tried in one run more, and those that it leaves without a verdict."""
        changes, lines = placed(copies)
        status, said = self.prover.run(changes)
        if status < 0 or NO_VERDICT.search(said):
            return [], copies
        if "logic=" in said:
            self.prover.seen(said)
            return self.judged(copies, said)
        left = self.without_invalid(copies, lines, errors_of(said))
        return (left, []) if len(left) < len(copies) else ([], copies)

    def stand_ins(self, refused):
        """The next made-up errors, one for each that the compiler refuses, in whose run they are."""
        drawn = list(itertools.islice(self.spare, sum(v.text is not None for v in refused)))
        taken = [v for v in drawn if self.has_copy.get(v.right())]
        self.left_over += [v for v in drawn if v not in taken]
        return taken

    def together(self, group):
        """Several in each run, and others in the place of those that the compiler refuses. Those that no fact refuses there are tried alone. Gives all that
        were tried."""
        those, single, copies = list(group), [], [self.copy_of(version, number) for number, version in enumerate(group)]
        while copies:
            left, rest = self.one_run(copies)
            single += rest
            more = self.stand_ins([it.version for it in copies if it.version.verdict == "invalid"])
            copies = left + [self.copy_of(version, len(those) + number) for number, version in enumerate(more)]
            those += more
        for it in single:
            self.alone(it.version)
        return those

    def look_at_copies(self, those):
        """A copy that isn't proved as it is would be refused for being a copy, whatever is wrong in it: such a function's or statement's versions are tried
        alone."""
        with ThreadPoolExecutor(AT_ONCE) as pool:
            list(pool.map(self.look_at_some, parts_of(those)))

    def as_it_is(self, it):
        of_file = it.file in self.crate.statements
        return WrongVersion(self.crate.name, "as it is", None if of_file else it, [], "", it if of_file else None)

    def look_at_some(self, those):
        copies = [self.copy_of(self.as_it_is(it), number) for number, it in enumerate(those)]
        left, said = copies, ""
        while left:
            changes, lines = placed(left)
            _, said = self.prover.run(changes)
            allowed = left if "logic=" in said else self.without_invalid(left, lines, errors_of(said))
            if len(allowed) == len(left):
                break
            left = allowed
        for it in copies:
            is_well = is_proved(said, it.function) if it.function else not own_errors(it, said)
            self.has_copy[it.version.right()] = it in left and is_well
            if not self.has_copy[it.version.right()]:
                print("%s: tried alone, as a copy isn't proved as it is" % it.version.place(), flush=True)

    def tried(self, group, tell):
        tell(self.together(group))

    def tried_alone(self, version, tell):
        self.alone(version)
        tell([version])

    def go(self, versions, tell):
        """Tries each that has no verdict yet, and tells of each group's."""
        tell([v for v in versions if v.verdict is not None])
        left = [v for v in versions if v.verdict is None]
        new = dict.fromkeys(v.right() for v in left if v.right() and v.right() not in self.has_copy)
        self.look_at_copies(list(new))
        single = [v for v in left if not v.right() or not self.has_copy[v.right()]]
        with ThreadPoolExecutor(AT_ONCE) as pool:
            list(pool.map(lambda group: self.tried(group, tell), parts_of([v for v in left if v not in single])))
        if single:
            self.prover.see()
        with ThreadPoolExecutor(AT_ONCE) as pool:
            list(pool.map(lambda version: self.tried_alone(version, tell), single))

    def some(self, versions, others, number, tell):
        """Tries all of the first ones, and of the others as many as the number from the start on, not counting those that the compiler refuses."""
        self.spare, those = iter(others[number:]), versions + others[:number]
        while those:
            self.go(those, tell)
            missing = number - sum(v.verdict not in (None, "invalid") for v in others)
            those = self.left_over + list(itertools.islice(self.spare, missing - len(self.left_over)))
            self.left_over = []
