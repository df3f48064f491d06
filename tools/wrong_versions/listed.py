"""The wrong versions of tests/wrong-versions/CRATE.txt, and the made-up errors of equivalent.txt there, which compute the same.

An entry is a line '# what it is', then 'file:', 'old:' and 'new:' lines as in a must-fail edit; an empty line ends it. A 'file:' line holds for the pairs after
it. What is swapped, or wrong in two places alike, has several pairs. In equivalent.txt '# why it computes the same' is followed by 'crate:', 'file:',
'function:', and by pairs as the tool prints them: the line, and the line with the error.
"""
from pathlib import Path

from .version import Change, WrongVersion, one_line

EQUIVALENT, COPIES = "equivalent.txt", "copies.txt"


def entries_of(text, words=("file",)):
    """(what it is, [(file, old, new), ..]) for each entry; other words than file stand in its place."""
    for number, part in enumerate(text.strip("\n").split("\n\n"), 1):
        what, at, old, pairs = "", {}, None, []
        for line in part.strip("\n").splitlines():
            word, _, rest = line.partition(" ")
            if word == "#":
                what = (what + " " + rest).strip()
            elif word[:-1] in words and word[-1] == ":":
                at[word[:-1]] = rest
            elif word == "old:":
                old = rest
            elif word == "new:" and len(at) == len(words) and old:
                pairs.append((*(at[word] for word in words), old, rest))
                old = None
            else:
                raise ValueError("entry %d has the line '%s'" % (number, line))
        if not what or not pairs or old:
            raise ValueError("entry %d has no line that says what it is, or a pair isn't whole" % number)
        yield what, pairs


def changed_texts(folder, pairs):
    """Each file's text before and after, or None where an old text isn't in its file once."""
    texts = {}
    for file, old, new in pairs:
        before, text = texts.get(file) or 2 * ((folder / file).read_text() if (folder / file).is_file() else "",)
        if text.count(old) != 1:
            return None
        texts[file] = before, text.replace(old, new)
    return texts


def change_of(file, before, after):
    """What lies between the equal start and the equal end of two texts."""
    shorter, a, b = min(len(before), len(after)), 0, 0
    while a < shorter and before[a] == after[a]:
        a += 1
    while b < shorter - a and before[-1 - b] == after[-1 - b]:
        b += 1
    return Change(file, a, len(before) - b, after[a:len(after) - b])


def version_of(crate, what, pairs):
    shown = "; ".join("%s  =>  %s" % (one_line(old), one_line(new)) for _, old, new in pairs)
    texts = changed_texts(crate.folder, pairs)
    if texts is None:
        version = WrongVersion(crate.name, what, None, [], shown)
        version.note("invalid", "an old text isn't in its file once")
        return version
    changes = [change_of(file, before, after) for file, (before, after) in texts.items()]
    inside = [f for f in crate.functions if all(c.file == f.file and f.holds(c.start, c.end) for c in changes)]
    statement = crate.statements.get(changes[0].file) if len({c.file for c in changes}) == 1 else None
    return WrongVersion(crate.name, what, inside[0] if inside else None, changes, shown, statement)


def folder_of(repo):
    return Path(repo, "tests", "wrong-versions")


def listed_crates(repo):
    return sorted(path.stem for path in folder_of(repo).glob("*.txt") if path.name not in (EQUIVALENT, COPIES))


def entries_in(path, *words):
    try:
        return list(entries_of(path.read_text(), *words))
    except (OSError, ValueError) as why:
        raise SystemExit("%s: %s" % (path, why))


def listed(repo, crate):
    return [version_of(crate, what, pairs) for what, pairs in entries_in(folder_of(repo) / (crate.name + ".txt"))]


def edits(crate):
    """Those of a crate's must-fail/, which have the form of an entry."""
    return [version_of(crate, path.stem, pairs) for path in sorted((crate.folder / "must-fail").glob("*.edit")) for _, pairs in entries_in(path)]


def computes_the_same(repo):
    """The reason by the text of each made-up error in equivalent.txt."""
    path, reasons = folder_of(repo) / EQUIVALENT, {}
    for why, texts in entries_in(path, ("crate", "file", "function")) if path.is_file() else []:
        for text in texts:
            if text in reasons:
                raise SystemExit("%s: twice: %s" % (path, " ".join(text)))
            reasons[text] = why
    return reasons
