"""Reading .rt files: tokens, functions with their parameters and bodies, structs and enums."""
import collections
import re
from pathlib import Path

TOKEN = re.compile(
    r"""(?P<comment>//[^\n]*)|(?P<space>\s+)|(?P<string>b?"(?:\\.|[^"\\])*")|(?P<char>b'(?:\\.|[^'\\])')|(?P<label>'[a-z_]\w*)"""
    r"""|(?P<number>\d[\d_]*(?:[iu](?:8|16|32|64|size))?)|(?P<name>[A-Za-z_]\w*)"""
    r"""|(?P<mark>\.\.=|\.\.|::|->|=>|<<=|>>=|<<|>>|<=|>=|==|!=|&&|\|\||\+=|-=|\*=|/=|%=|\|=|&=|\^=|.)""",
    re.S,
)
Token = collections.namedtuple("Token", "kind text start end")
OPENING, CLOSING = ("(", "[", "{"), (")", "]", "}")
# The answer of what only writes.
WRITES = ["io", "::", "Result", "<", "(", ")", ">"]


def tokens_of(text):
    return [Token(m.lastgroup, m.group(), m.start(), m.end()) for m in TOKEN.finditer(text) if m.lastgroup not in ("comment", "space")]


def deeper(token):
    """1 for an opening bracket, −1 for a closing one."""
    return (token.text in OPENING) - (token.text in CLOSING)


def closing(tokens, i):
    """The index of the bracket that closes the one at i."""
    depth = 0
    for j in range(i, len(tokens)):
        depth += deeper(tokens[j])
        if depth == 0:
            return j
    raise ValueError("a bracket isn't closed")


def next_of(tokens, i, *texts):
    """The index of the first of some marks from i on."""
    while tokens[i].text not in texts:
        i += 1
    return i


def split_commas(tokens, i, j):
    """The token ranges between the commas of i..j, at the bracket depth of its start."""
    parts, depth, start = [], 0, i
    for k in range(i, j):
        depth += deeper(tokens[k])
        if tokens[k].text == "," and depth == 0:
            parts.append((start, k))
            start = k + 1
    return parts + ([(start, j)] if start < j else [])


class Function:
    """A function of a file: the type that it is a method of, whether it is one of a trait's, its name, its parameters' names and types, the tokens of its
    body."""

    def __init__(self, file, text, tokens, owner, of_trait, at):
        self.file, self.text, self.tokens, self.owner, self.of_trait, self.at, self.start = file, text, tokens, owner, of_trait, at, tokens[at].start
        self.name = tokens[at + 1].text
        self.label = (owner + "::" if owner else "") + self.name
        self.module = "" if Path(file).stem in ("lib", "main") else Path(file).stem
        opened = next_of(tokens, at, "(")
        closed = closing(tokens, opened)
        self.parameters = [p for a, b in split_commas(tokens, opened + 1, closed) for p in self.parameter(a, b)]
        self.first = body_from(tokens, closed + 1)
        # A contract can say what it does: it is lent something to write, or answers more than whether its writing failed.
        behind = [t.text for t in tokens[closed + 1:self.first]]
        self.has_contract = "ensures" in behind
        lent = any(a.text == "&" and b.text == "mut" for a, b in zip(tokens[opened:closed], tokens[opened + 1:]))
        self.can_decide = lent or behind[:1] == ["->"] and behind[1:] != WRITES
        self.last = closing(tokens, self.first) if tokens[self.first].text == "{" else self.first

    def parameter(self, a, b):
        words = [t.text for t in self.tokens[a:b] if t.text != "mut" and t.kind != "label"]
        if words[0] == "self":
            return [("self", self.owner)]
        return [(words[0], " ".join(words[2:]))] if ":" in words else []

    def has_body(self):
        return self.first != self.last

    def end(self):
        return self.tokens[self.last].end

    def holds(self, start, end):
        return self.has_body() and self.tokens[self.first].start <= start and end <= self.end()

    def line(self, at):
        return self.text.count("\n", 0, at) + 1


def body_from(tokens, j):
    """The bracket that opens a body, or the semicolon in its place: behind the answer's type and the clauses."""
    while tokens[j].text not in ("{", ";"):
        if tokens[j].text in ("requires", "ensures", "ghost"):
            # A clause may have a name, as `ensures low { .. }`.
            j = closing(tokens, next_of(tokens, j, "{")) + 1
        elif tokens[j].text == "[":
            j = closing(tokens, j) + 1
        else:
            j += 1
    return j


def name_before(tokens, i):
    """The name that stands before a token, with or without parameters in angle brackets."""
    i, deep = i - 1, 0
    while deep or tokens[i].text in ("<", ">"):
        deep += (tokens[i].text == ">") - (tokens[i].text == "<")
        i -= 1
    return tokens[i].text


def owner_of(tokens, i, opened):
    """The type that an impl is for, as the prover names it: one of the impl's own parameters stands for any type, as in `impl<R: Read> Source for R`."""
    name, parameters, k, deep = name_before(tokens, opened), [], i + 1, 0
    while tokens[k].text in ("<", ">") or deep:
        deep += (tokens[k].text == "<") - (tokens[k].text == ">")
        parameters += [tokens[k].text] if deep == 1 and tokens[k - 1].text in ("<", ",") else []
        k += 1
    return "Any" if name in parameters else name


def functions_of(file, text):
    tokens = tokens_of(text)
    found, owner, of_trait, owner_end, i = [], "", False, -1, 0
    while i < len(tokens):
        owner, of_trait = (owner, of_trait) if i <= owner_end else ("", False)
        if tokens[i].kind == "name" and tokens[i].text in ("impl", "trait"):
            opened = next_of(tokens, i, "{")
            of_trait = tokens[i].text == "trait" or any(t.text == "for" for t in tokens[i:opened])
            owner = owner_of(tokens, i, opened) if tokens[i].text == "impl" else ""
            owner_end, i = closing(tokens, opened), opened + 1
        elif tokens[i].text == "extern" and tokens[i + 2].text == "{":
            i = closing(tokens, i + 2) + 1
        elif tokens[i].text == "fn" and tokens[i + 1].kind == "name":
            function = Function(file, text, tokens, owner, of_trait, i)
            found += [function] if function.has_body() else []
            i = function.last + 1
        else:
            i += 1
    return found


def bodies_of(text, word):
    """The token ranges between the brackets of each struct or enum, by name."""
    tokens = tokens_of(text)
    for i, t in enumerate(tokens[:-2]):
        if t.text == word and tokens[i + 2].text == "{":
            yield tokens[i + 1].text, tokens, split_commas(tokens, i + 3, closing(tokens, i + 2))


def structs_of(text):
    """The structs' fields with their types."""
    structs = {}
    for name, tokens, parts in bodies_of(text, "struct"):
        fields = [[t.text for t in tokens[a:b] if t.text != "pub"] for a, b in parts]
        structs[name] = {words[0]: " ".join(words[2:]) for words in fields}
    return structs


def enums_of(text):
    """The enums' variants that hold nothing."""
    return {name: [tokens[a].text for a, b in parts if b == a + 1] for name, tokens, parts in bodies_of(text, "enum")}
