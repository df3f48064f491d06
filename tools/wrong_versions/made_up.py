"""Made-up errors in the bodies of a crate's functions. Contracts, comments, constants and types are left.

Each maker takes a crate, a function and the place of a token in its body, and gives (kind, start, end, new) for each error that it makes there.

Two things are left out. A function that is lent nothing to write and answers nothing, or only whether its writing failed, has no contract that decides: it
prints. And of a table, a match of more than 100 arms, whose rows are all read by one computation of the prover, only some errors are made.
"""
import collections
import hashlib
import random
import re

from .source import closing, deeper, next_of, split_commas
from .version import Change, WrongVersion, one_line

EDGES = {"<": "<=", "<=": "<", ">": ">=", ">=": ">", "==": "!=", "!=": "=="}
OTHER_WAY = {"<": ">", "<=": ">=", ">": "<", ">=": "<=", "==": ">=", "!=": "<"}
ARITHMETIC = {"+": "-", "-": "+", "*": "+", "/": "*", "%": "/", "+=": "-=", "-=": "+=", "*=": "+=", "|": "&", "&": "|", "|=": "&=", "^": "|"}
BEFORE_UNARY = {"(", "[", "{", ",", "=", "return", "<", ">", "<=", ">=", "==", "!=", "+", "-", "*", "/", "%", "&&", "||", "!", ";", "=>", ":",
                "+=", "-=", "|=", "&", "|", "}"}
STATEMENT_ENDS = (";", "{", "}")
NO_STATEMENT = ("let", "if", "while", "for", "match", "loop", "return", "}", "{", "=>", ",", ")", ";")
NO_CALL = ("return", "in", "if", "while", "else", "as")
MOST_ARMS, OF_A_TABLE = 100, 20


def comparisons(crate, f, k):
    """A comparison's edge or sense."""
    t = f.tokens[k]
    if t.text in EDGES:
        yield "edge", t.start, t.end, EDGES[t.text]
        yield "sense", t.start, t.end, OTHER_WAY[t.text]


def arithmetic(crate, f, k):
    """An operator for another, a sign left out, two sides of -, /, % swapped."""
    t = f.tokens[k]
    if t.kind != "mark" or t.text not in ARITHMETIC:
        return
    if f.tokens[k - 1].text in BEFORE_UNARY:
        if t.text == "-":
            yield "sign", t.start, t.end, ""
        return
    yield "arithmetic", t.start, t.end, ARITHMETIC[t.text]
    a, b = plain_before(f, k), plain_after(f, k)
    if t.text in ("-", "/", "%") and a is not None and b is not None:
        start, end = f.tokens[a].start, f.tokens[b - 1].end
        left, right = f.text[start:f.tokens[k - 1].end], f.text[f.tokens[k + 1].start:end]
        yield "sides", start, end, "%s %s %s" % (right, t.text, left)


def opening_before(f, j):
    """The index of the bracket that the one at j closes."""
    depth = 0
    while True:
        depth -= deeper(f.tokens[j])
        if depth == 0:
            return j
        j -= 1


def plain_before(f, i):
    """The first token of the plain expression that ends right before token i, or None."""
    ts, j = f.tokens, i - 1
    while j > f.first:
        if ts[j].text in (")", "]"):
            j = opening_before(f, j)
            if ts[j - 1].kind != "name" or ts[j - 1].text in NO_CALL:
                return j
            j -= 1
        elif ts[j].kind not in ("name", "number"):
            return None
        elif ts[j - 1].text in (".", "::", "as"):
            j -= 2
        else:
            return j
    return None


def plain_after(f, i):
    """The token after the plain expression that starts right after token i, or None."""
    ts, j = f.tokens, i + 1
    if ts[j].text == "(":
        j = closing(ts, j) + 1
    elif ts[j].kind in ("name", "number"):
        j += 1
    else:
        return None
    while True:
        if ts[j].text == "as" or ts[j].text in (".", "::") and ts[j + 1].kind in ("name", "number"):
            j += 2
        elif ts[j].text in ("(", "[") and ts[j].start == ts[j - 1].end:
            j = closing(ts, j) + 1
        else:
            return j


def numbers(crate, f, k):
    """A number plus or minus one."""
    t = f.tokens[k]
    if t.kind == "number" and f.tokens[k - 1].text not in (".", "let"):
        digits = re.match(r"[\d_]+", t.text).group()
        n, width = int(digits.replace("_", "")), t.text[len(digits):]
        for other in (n + 1, n - 1):
            if other >= 0:
                yield "number", t.start, t.end, str(other) + width


def logic(crate, f, k):
    """&& for ||, a Boolean for the other, a range's end taken in."""
    t, before, after = f.tokens[k], f.tokens[k - 1], f.tokens[k + 1]
    others = {"&&": "||", "||": "&&", "true": "false", "false": "true", "..": "..=", "..=": ".."}
    if t.text not in others or t.text == "||" and before.text in ("(", ",", "="):
        return
    if t.text in ("..", "..=") and (before.text == "[" or after.text in ("]", ")")):
        return
    yield "logic", t.start, t.end, others[t.text]


def never(f, a, b):
    """In the place of the comparison in the tokens from a to b, one that never holds, and reads as much: the proof's text fits it. Or None."""
    marks = [k for k in range(a, b) if f.tokens[k].text in EDGES]
    if len(marks) != 1 or plain_before(f, marks[0]) != a or plain_after(f, marks[0]) != b:
        return None
    left, right = f.tokens[a:marks[0]], f.tokens[marks[0] + 1:b]
    text = f.text[left[0].start:left[-1].end]
    if len(right) == 1 and (right[0].kind == "number" or right[0].text.isupper()):
        return "%s < 0" % text
    return "%s < %s" % (text, text) if sum(t.kind == "mark" for t in left) == sum(t.kind == "mark" for t in right) else None


def conditions(crate, f, k):
    """A condition negated, that of an arm too; an early return, or all that an if does, left out: by a condition that never holds, where there is one that the
    proof's text fits."""
    ts = f.tokens
    if ts[k].text not in ("if", "while") or ts[k + 1].text == "let":
        return
    body, depth = k + 1, 0
    while ts[body].text not in ("{", "=>") or depth:
        depth += deeper(ts[body])
        body += 1
    start, end = ts[k + 1].start, ts[body - 1].end
    yield "negated", start, end, f.text[ts[k + 2].start:end] if ts[k + 1].text == "!" else "!(%s)" % f.text[start:end]
    if ts[body].text == "=>":
        return
    last = closing(ts, body)
    alone = ts[last + 1].text != "else" and ts[k - 1].text in STATEMENT_ENDS and ts[last - 1].text in (";", "}")
    if ts[k].text == "if" and alone:
        condition = never(f, k + 1, body)
        if condition:
            yield "return left out" if ts[body + 1].text == "return" else "if left out", start, end, condition


def statements(crate, f, k):
    """A statement left out, unless it adds a number: that number plus or minus one is 0 or as wrong."""
    ts = f.tokens
    if ts[k - 1].text not in STATEMENT_ENDS or ts[k].text in NO_STATEMENT or ts[k].kind not in ("name", "mark"):
        return
    j, depth = k, 0
    while j < f.last and depth >= 0 and (ts[j].text != ";" or depth):
        depth += deeper(ts[j])
        j += 1
    adds = ts[j - 1].kind == "number" and ts[j - 2].text in ("+=", "-=")
    if ts[j].text == ";" and depth == 0 and not adds and not any(t.text in ("=>", ":") for t in ts[k:min(j, k + 3)]):
        yield "statement left out", ts[k].start, ts[j].end, ""


def named_values(crate, f, k):
    """A refusal or a unit variant for another."""
    t, name = f.tokens[k], f.tokens[min(k + 2, f.last)]
    if f.tokens[k + 1].text != "::":
        return
    if t.text == "refusal" and name.text in crate.refusals:
        yield "refusal", name.start, name.end, random.Random("%s %d" % (f.file, t.start)).choice(sorted(crate.refusals - {name.text}))
    for other in crate.enums.get(t.text, []):
        if name.text in crate.enums[t.text]:
            yield "variant", name.start, name.end, other


def swapped(f, one, other):
    """The texts of two token ranges in each other's place, with their start and end."""
    (a, b), (c, d) = one, other
    start, end = f.tokens[a].start, f.tokens[d - 1].end
    middle_from, middle_to = f.tokens[b - 1].end, f.tokens[c].start
    return start, end, f.text[middle_to:end] + f.text[middle_from:middle_to] + f.text[start:middle_from]


def pairs(items):
    return [(x, y) for i, x in enumerate(items) for y in items[i + 1:]]


def arguments(crate, f, k):
    """Two arguments of one type swapped."""
    ts = f.tokens
    if ts[k].kind != "name" or ts[k + 1].text != "(" or ts[k].text not in crate.signatures:
        return
    parts = split_commas(ts, k + 2, closing(ts, k + 1))
    for kinds in sorted(crate.signatures[ts[k].text]):
        kinds = kinds[1:] if ts[k - 1].text == "." and len(kinds) == len(parts) + 1 else kinds
        if len(kinds) == len(parts):
            for (kind, part), (other_kind, other) in pairs(list(zip(kinds, parts))):
                if kind == other_kind:
                    yield ("arguments",) + swapped(f, part, other)
            return


def fields(crate, f, k):
    """A field for another of its type."""
    t = f.tokens[k]
    if t.kind == "name" and f.tokens[k - 1].text == "." and f.tokens[k + 1].text != "(":
        for _, kinds in crate.structs:
            for other, kind in kinds.items():
                if kind == kinds.get(t.text):
                    yield "field", t.start, t.end, other


def local_kind(crate, f, j):
    """The type of the local that is named at j, as far as it is plain to see."""
    ts = f.tokens
    end = next_of(ts, j, ";", "{")
    if ts[j + 1].text == ":":
        return " ".join(t.text for t in ts[j + 2:next_of(ts, j, "=")])
    if ts[end - 2].text == "." and ts[end - 1].kind == "name":
        kinds = {kinds[ts[end - 1].text] for _, kinds in crate.structs if ts[end - 1].text in kinds}
        return kinds.pop() if len(kinds) == 1 else None
    if ts[j + 2].text == "[" and ts[end - 1].text == "]" and ts[end - 3].text == ";":
        return "array of " + ts[end - 2].text
    return None


def variables_of(crate, f):
    known = {name: kind for name, kind in f.parameters if name != "self"}
    for k in range(f.first, f.last):
        if f.tokens[k].text == "let":
            j = k + 2 if f.tokens[k + 1].text == "mut" else k + 1
            kind = local_kind(crate, f, j) if f.tokens[j].kind == "name" and f.tokens[j + 1].text in (":", "=") else None
            if kind:
                known[f.tokens[j].text] = kind
    return known


def names_field(f, k):
    """Whether a name stands alone for a field of a struct that is made."""
    ts, j, depth = f.tokens, k - 1, 0
    if ts[j].text not in ("{", ",") or ts[k + 1].text not in (",", "}"):
        return False
    while depth <= 0 and j > f.first:
        depth += deeper(ts[j])
        j -= 1
    return ts[j + 1].text == "{" and ts[j].kind == "name" and ts[j].text[0].isupper()


def variables(crate, f, k):
    """A parameter or a local for another of its type."""
    t, before, after = f.tokens[k], f.tokens[k - 1], f.tokens[k + 1]
    if t.kind != "name" or before.text in (".", "::", "let", "mut") or after.text in ("(", "::", ":") or names_field(f, k):
        return
    known = variables_of(crate, f)
    for other, kind in known.items():
        if kind == known.get(t.text):
            yield "variable", t.start, t.end, other


def values(crate, f, k):
    """The values of two fields of one type swapped where a struct is made."""
    ts = f.tokens
    kinds = dict(crate.structs).get(ts[k].text)
    if kinds is None or ts[k + 1].text != "{":
        return
    for (a, b), (c, d) in pairs(split_commas(ts, k + 2, closing(ts, k + 1))):
        if kinds.get(ts[a].text, 0) == kinds.get(ts[c].text, 1):
            first, second = (f.text[ts[x if y == x + 1 else x + 2].start:ts[y - 1].end] for x, y in ((a, b), (c, d)))
            between = f.text[ts[b - 1].end:ts[c].start]
            yield "values", ts[a].start, ts[d - 1].end, "%s: %s%s%s: %s" % (ts[a].text, second, between, ts[c].text, first)


MAKERS = (comparisons, arithmetic, numbers, logic, conditions, statements, named_values, arguments, fields, variables, values)


def line_with(text, start, end, new):
    """The line or the lines around a change, with it, in one line."""
    a, b = text.rfind("\n", 0, start) + 1, text.find("\n", end)
    return one_line(text[a:start] + new + text[end:b])


def digest(*words):
    return hashlib.sha256("\n".join(words).encode()).hexdigest()


def tables_of(f):
    """Where a body's tables start and end."""
    ts = f.tokens
    for k in range(f.first, f.last):
        if ts[k].text == "match":
            opened = next_of(ts, k, "{")
            closed = closing(ts, opened)
            if sum(t.text == "=>" for t in ts[opened:closed]) > MOST_ARMS:
                yield ts[opened].start, ts[closed].end


def errors_in(crate, f):
    """Each error once: its kind by start, end and new text."""
    found = {}
    for k in range(f.first + 1, f.last):
        for maker in MAKERS:
            for kind, start, end, new in maker(crate, f, k):
                if f.text[start:end] != new:
                    found.setdefault((start, end, new), kind)
    for a, b in tables_of(f):
        rows = sorted((e for e in found if a <= e[0] and e[1] <= b), key=lambda e: digest(f.label, f.text[e[0]:e[1]], e[2]))
        for error in rows[OF_A_TABLE:]:
            del found[error]
    return found


def of_function(crate, f):
    """The second error of the same text in a function has (2) behind its line, and so on: a survivor is listed by its text."""
    times = collections.Counter()
    for (start, end, new), kind in errors_in(crate, f).items():
        old, new_line = line_with(f.text, start, end, f.text[start:end]), line_with(f.text, start, end, new)
        times[old, new_line] += 1
        nth = times[old, new_line]
        old += " (%d)" % nth if nth > 1 else ""
        version = WrongVersion(crate.name, kind, f, [Change(f.file, start, end, new)], "line %d: %s  =>  %s" % (f.line(start), old, new_line))
        version.text = crate.name, f.file, f.label, old, new_line
        yield version


def made_up(crate):
    return [version for f in crate.functions if f.can_decide for version in of_function(crate, f)]


def in_order(versions, seed):
    """An order that the seed and each one's text give: a change of one function moves no error of another one."""
    return sorted(versions, key=lambda v: digest(seed, *v.text))
