"""A wrong version of a crate, and the crate that it is one of."""
import collections
import re
from pathlib import Path, PurePath

from .source import enums_of, functions_of, structs_of

# What is replaced in a file: from start to end by new.
Change = collections.namedtuple("Change", "file start end new")


def changed(text, changes):
    """A file's text with its changes."""
    for change in sorted(changes, key=lambda c: -c.start):
        text = text[:change.start] + change.new + text[change.end:]
    return text


def can_be_copied(function):
    """Whether a function can stand in its file under another name: a trait or the program asks for some by their names."""
    return not function.of_trait and function.name != "main"


class Statement:
    """A file of specs/ whose statement is proved in the file of that name in proofs/."""

    def __init__(self, crate, file):
        self.crate, self.file, self.name, self.label = crate, file, PurePath(file).stem, ""
        self.proof = "proofs/%s.antt" % self.name
        # Each of the two is declared by a line of the file that its folder is named by.
        at = PurePath(file).parent
        self.declared = [("specs/Lib.antt" if str(at) == "specs" else "%s.antt" % at, file), ("proofs/Lib.antt", self.proof)]

    def is_proved_in(self, folder):
        return all((folder / file).is_file() and self.line_in(folder, node) for node, file in self.declared)

    def line_in(self, folder, node):
        """Where a file declares it, or None."""
        path = folder / node
        return re.search(r"^(?:pub )?mod %s$" % self.name, path.read_text(), re.M) if path.is_file() else None


class WrongVersion:
    """What is wrong, the changes that make it so, and the function whose body holds them, or the statement whose file does, if one does. A made-up one has the
    text that it is listed by: crate, file, function, the line and the line with the error."""

    def __init__(self, crate, what, function, changes, shown, statement=None):
        self.crate, self.what, self.function, self.changes, self.shown, self.statement = crate, what, function, changes, shown, statement
        self.verdict, self.why, self.text = None, "", None

    def place(self):
        where = self.changes[0].file if self.changes else (self.function or self.statement).file if self.function or self.statement else "?"
        return "%s/%s%s" % (self.crate, where, " " + self.function.label if self.function else "")

    def right(self):
        """The right one, a copy of which can hold it: the function, the statement, or None."""
        return self.function if self.function and can_be_copied(self.function) else self.statement

    def note(self, verdict, why):
        self.verdict, self.why = verdict, why

    def refused_by_fact(self):
        return self.verdict in ("numbers", "goal")


def one_line(text):
    return re.sub(r"\s+", " ", text).strip()


class Crate:
    """The functions and statements of a crate, and what all crates declare."""

    def __init__(self, repo, name):
        self.name, self.folder = name, Path(repo, "crates", name)
        self.structs, self.enums, self.signatures, self.refusals = [], {}, collections.defaultdict(set), set()
        self.functions = []
        for path in sorted(Path(repo, "crates").glob("*/src/*.rt")):
            self.read(path)
        files = [str(path.relative_to(self.folder)) for path in sorted((self.folder / "specs").rglob("*.antt"))]
        self.statements = {file: it for file in files for it in [Statement(name, file)] if it.is_proved_in(self.folder)}

    def copyable(self):
        """The functions and statements that can stand beside themselves, as a copy."""
        return [f for f in self.functions if can_be_copied(f)] + [*self.statements.values()]

    def read(self, path):
        text = path.read_text()
        self.structs += structs_of(text).items()
        self.enums.update(enums_of(text))
        if path.name == "refusal.rt":
            self.refusals.update(re.findall(r"pub const (\w+): u8", text))
        functions = functions_of("src/" + path.name, text)
        for f in functions:
            self.signatures[f.name].add(tuple(kind for _, kind in f.parameters))
        if path.parent.parent == self.folder:
            self.functions += functions
