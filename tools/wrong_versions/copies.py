"""A wrong version as a function of its own: it stands behind the right one, under another name, with the same contract and a copy of the proof. A wrong statement
stands so as a file of its own. Nothing calls or cites it, so many are judged in one run, also many of one function, and the proof of none waits for another."""
import collections
import copy
import re
from pathlib import PurePath

from .names import ROUNDS, respelled
from .version import Change, changed

# Nothing calls a copy, so it is in no cycle of calls, and the compiler refuses it where it says so.
CYCLE = re.compile(r"#\[cycle\(\w+\)\]\s*")


def item_start(f):
    """Where a function's lines begin, those of its attributes among them."""
    start = f.text.rfind("\n", 0, f.start) + 1
    while start:
        before = f.text.rfind("\n", 0, start - 1) + 1
        if not f.text[before:start].lstrip().startswith("#["):
            break
        start = before
    return start


def is_type_of(name, function):
    """Whether a method is one of the type with that name; the prover joins the trait's name to it, as in `RunEndFromOptionStop`."""
    return name.startswith(function.owner) if function.of_trait else name == function.owner


def is_proof_of(file, function, sign=""):
    """Whether a file is in the folder of a function's proof. Of a function that calls itself the folder's name begins with the sign +, and of its copy not."""
    parts = PurePath(file).parts
    if len(parts) < 3 or parts[0] != "proofs" or parts[-2] != sign + function.name:
        return False
    if function.owner:
        return any(is_type_of(part, function) for part in parts[1:-2])
    return parts[1:-2] == ((function.module,) if function.module else ())


class FunctionCopy:
    def __init__(self, version, number, proofs):
        """proofs has the texts of the right function's proof files."""
        right = version.function
        self.version, self.function = version, copy.copy(right)
        self.function.name = "%s_wrong_%d" % (right.name, number)
        named = right.tokens[right.at + 1]
        renamed = Change(right.file, named.start, named.end, self.function.name)
        start = item_start(right)
        text = changed(right.text[start:right.end()], [c._replace(start=c.start - start, end=c.end - start) for c in [renamed, *version.changes]])
        self.text, self.proofs, self.rounds = "\n" + CYCLE.sub("", text), proofs, 0

    def owns(self, file):
        return is_proof_of(file, self.function)

    def proof(self, file, text):
        """A proof file in the copy's folder, with the copy's name in that of its goals."""
        *folder, name, last = file.split("/")
        cited = re.compile(re.escape(".".join([*folder, name])) + r"(?=\.)")
        return Change("/".join([*folder, self.function.name, last]), 0, 0, cited.sub(".".join([*folder, self.function.name]), text))

    def is_renamed(self, said):
        """Whether what is said of its proof brings names to the code's; they stand in its proof then."""
        self.rounds += 1
        new = respelled(self.proofs, said) if self.rounds < ROUNDS else self.proofs
        is_new, self.proofs = new != self.proofs, new
        return is_new


class StatementCopy:
    function = None

    def __init__(self, version, number, folder):
        right = version.statement
        self.version, self.right, self.folder, self.name = version, right, folder, "%s_wrong_%d" % (right.name, number)
        self.files = [str(PurePath(file).with_stem(self.name)) for _, file in right.declared]

    def owns(self, file):
        return str(PurePath(file)) in self.files

    def changes(self):
        """Its two files, and a line beside the right one's that declares each."""
        module = ".".join(["Rattle", self.right.crate, *PurePath(self.right.file).with_suffix("").parts])
        cited = re.compile(re.escape(module) + r"(?=\.)")
        proof = (self.folder / self.right.proof).read_text()
        texts = changed((self.folder / self.right.file).read_text(), self.version.changes), cited.sub(module[:-len(self.right.name)] + self.name, proof)
        for (node, _), file, text in zip(self.right.declared, self.files, texts):
            line = self.right.line_in(self.folder, node)
            yield Change(file, 0, 0, text)
            yield Change(node, line.end(), line.end(), "\n" + line[0][:-len(self.right.name)] + self.name)


def placed(copies):
    """The changes that bring copies into a crate, and the first and last line of each function's."""
    changes, lines, added = [change for it in copies if not it.function for change in it.changes()], {}, collections.Counter()
    for it in sorted((it for it in copies if it.function), key=lambda it: (it.function.file, it.function.end())):
        f = it.function
        first, count = f.line(f.end()) + added[f.file] + 1, it.text.count("\n")
        lines[it] = first, first + count - 1
        added[f.file] += count
        # What is brought to one place last comes to stand first.
        changes = [Change(f.file, f.end(), f.end(), it.text), *changes, *(it.proof(file, text) for file, text in it.proofs.items())]
    return changes, lines
