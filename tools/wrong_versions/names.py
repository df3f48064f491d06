"""Names that a proof cites and the prover makes of the code: those of goals and of steps, as `if-x-gt10` of `if x > 10`. A wrong version with another
condition has another name, and the proof that fits is the one that cites it."""
import difflib
import re

QUOTED = re.compile(r"`([^`]+)`")
FIELD = re.compile(r"has no field `(?P<name>[^`]+)`[^\n]*(?:\n +the fields that can be named here are (?P<there>[^\n]*))?")
GOALS = re.compile(r"^help: `Goals` has no (?P<names>[^;\n]*); rattle asks for (?P<goals>[^;\n]*)(?:; a `use` line of it can name these places: (?P<places>[^\n]*))?", re.M)
NAMED = re.compile(r"module `[^`]*Goals` has no `(?P<name>[^`]+)` that can be named from here \(did you mean `(?P<there>[^`]+)`\?\)")
# What stands before a condition in a name.
BEFORE = {"if", "then", "else", "Then", "Else", "returns"}
# How often the names of a version's proof are brought to the code's before it is a misfit.
ROUNDS = 3
# How much alike two names are at least.
ALIKE = 0.5


def missing(said):
    """Each name that isn't there, with those that are."""
    for m in FIELD.finditer(said):
        yield m["name"], QUOTED.findall(m["there"] or "")
    for m in NAMED.finditer(said):
        yield m["name"], [m["there"]]
    for m in GOALS.finditer(said):
        for name in QUOTED.findall(m["names"]):
            yield name, QUOTED.findall((m["places"] or "") if name[:1].isupper() else m["goals"])


def ends(old, new):
    """What differs in two names, with the words back to the condition's first. Behind one of BEFORE it starts with the hyphen there: the condition `if x` stands
    in `if-x`, and `x` by itself is another name."""
    a, b, start = old.split("-"), new.split("-"), 0
    for i, (x, y) in enumerate(zip(a, b)):
        if x != y:
            break
        start = i + 1 if x in BEFORE else start
    hyphen = "-" if start and a[start:] else ""
    return hyphen + "-".join(a[start:]), hyphen + "-".join(b[start:])


def kin(old, new):
    """Whether two names begin alike, or are of two calls whose results have one name, as `first-count` and `second-count`."""
    a, b = old.split("-"), new.split("-")
    return a[0] == b[0] or len(a) > 1 and a[1:] == b[1:]


def respelled(texts, said):
    """The texts of a function's proof files with each name that isn't there in the form of the one that is most like it, and isn't cited yet."""
    all_text, found = "\n".join(texts.values()), {}
    for name, there in missing(said):
        new = [it for it in there if kin(name, it) and not re.search(r"(?<![\w-])%s(?![\w-])" % re.escape(it), all_text)]
        best = max(new, key=lambda it: difflib.SequenceMatcher(None, name, it).ratio(), default=None)
        if best and difflib.SequenceMatcher(None, name, best).ratio() >= ALIKE:
            found.setdefault(*ends(name, best))
    found.pop("", None)
    if not found:
        return texts
    words = sorted(found, key=len, reverse=True)
    old = re.compile("(?:%s)(?!\\w)" % "|".join(("" if it[0] == "-" else r"(?<!\w)") + re.escape(it) for it in words))
    return {file: old.sub(lambda m: found[m[0]], text) for file, text in texts.items()}
