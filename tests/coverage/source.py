"""The branches of the bridge's code, as its source has them.

`functions(crates)` gives every function of the named crates by the name that the compiler gives it (`crate::module::function`), each with its
tests and its joins. Tests are the `if`s, `while`s, `match`es and `let .. else`s of its body, in the order of the text, which is the order in which
the compiler numbers them. Joins are its `&` and `|`, in the order in which they are computed.
"""
import dataclasses
import hashlib
import pathlib
import re

ROOT = pathlib.Path(__file__).resolve().parents[2]
TOKEN = re.compile(r"b?\"(?:\\.|[^\"\\])*\"|b'(?:\\.|[^'\\])'|//[^\n]*|\w+|\.\.=|=>|->|::|<=|>=|==|!=|\S")
CLAUSES = ("requires", "ensures")
APART = {";", ",", "=", "=>", ":", "->", "return", "let", "mut", "if", "else", "while", "match", "for", "in"}
OPEN, SHUT = "([{", ")]}"


class Unread(Exception):
    """A text that is not as this file takes it to be."""


@dataclasses.dataclass
class Test:
    """An `if`, `while` or `match`: where it stands, what it asks, and its branches' names in the compiler's order."""
    line: int
    text: str
    branches: list
    ranges: bool = False


@dataclasses.dataclass
class Join:
    """`left & right` or `left | right`."""
    line: int
    sign: str
    text: str


@dataclasses.dataclass
class Function:
    crate: str
    file: str
    line: int
    mark: str
    tests: list
    joins: list


def tokens(text):
    """(word, line) without comments, attributes and `ghost use`."""
    text = re.sub(r"^ghost use[^;]*;|#!?\[[^\]]*\]", lambda found: re.sub(r"[^\n]", " ", found[0]), text, flags=re.M)
    for found in TOKEN.finditer(text):
        if not found[0].startswith("//"):
            yield found[0], text.count("\n", 0, found.start()) + 1


def closing(words, at):
    """The place of the bracket that closes the one at `at`."""
    depth = 0
    for i in range(at, len(words)):
        depth += (words[i][0] in OPEN) - (words[i][0] in SHUT)
        if depth == 0:
            return i
    raise Unread(f"line {words[at][1]}: a bracket is not closed")


def until(words, at, ends):
    """The place of the first of `ends` from `at` on that stands in no bracket."""
    i = at
    while i < len(words):
        if words[i][0] in ends:
            return i
        i = closing(words, i) + 1 if words[i][0] in OPEN else i + 1
    raise Unread(f"line {words[at][1]}: expected one of {ends}")


def spelled(words):
    """Words as a reader would write them."""
    text = " ".join(word for word, _ in words)
    text = re.sub(r" ?(::|\.\.=|\.) ?", r"\1", text)
    text = re.sub(r"(?<=\w) (?<!\bif )(?<!\bmatch )(?<!\bwhile )([(\[])", r"\1", text)
    text = re.sub(r"([(\[]) | ([)\],;])", lambda found: found[1] or found[2], text)
    return re.sub(r"! (?=[\w(])", "!", text)


def patterns(words, at):
    """The patterns of the match whose body opens at `at`."""
    end, i = closing(words, at), at + 1
    while i < end:
        arrow = until(words, i, ("=>",))
        yield words[i:arrow]
        if words[arrow + 1][0] == "{":
            i = closing(words, arrow + 1) + 1
        else:
            i = min(until(words, arrow + 1, (",", "}")), end)
        i += i < end and words[i][0] == ","


def arm_names(found):
    """A name for each pattern: what stands before its fields, or all of it where that is not enough."""
    short = [spelled(pattern[:next((i for i, (word, _) in enumerate(pattern) if word in "{("), len(pattern))]) for pattern in found]
    return short if len(set(short)) == len(short) else [spelled(pattern) for pattern in found]


def is_test(words, i):
    """A test begins at `i`: one of three words, or a `let` with an `else` of its own (not that of an `if`)."""
    if words[i][0] != "let":
        return words[i][0] in ("if", "while", "match")
    end = until(words, i, (";", "else", "if"))
    return words[end][0] == "else"


def test_at(words, i):
    """The test whose word stands at `i`."""
    if words[i][0] == "let":
        return Test(words[i][1], spelled(words[i:until(words, i, ("else",))]), ["yes", "no"])
    body = until(words, i + 1, ("{",))
    text = spelled(words[i:body])
    if words[i][0] != "match":
        return Test(words[i][1], text, ["yes", "no"])
    found = list(patterns(words, body))
    ranges = any(word == "..=" for pattern in found for word, _ in pattern)
    return Test(words[i][1], text, arm_names(found), ranges)


def split(words, signs):
    """The parts of an expression between the signs that join two of them, outside brackets, and those signs."""
    parts, start, i = [], 0, 0
    while i < len(words):
        if words[i][0] in signs and i > start:
            parts += [words[start:i], words[i]]
            start = i + 1
        i = closing(words, i) + 1 if words[i][0] in OPEN else i + 1
    return parts + [words[start:]]


def expression_joins(words):
    """The joins of one expression. `&` binds closer than `|`; both bind to the left; what stands in brackets comes first."""
    for sign in "|&":
        parts = split(words, sign)
        if len(parts) > 1:
            yield from expression_joins(parts[0])
            for i in range(2, len(parts), 2):
                yield from expression_joins(parts[i])
                left = [word for part in parts[:i - 1] for word in (part if isinstance(part, list) else [part])]
                yield Join(parts[i - 1][1], sign, spelled(left + [parts[i - 1]] + parts[i]))
            return
    i = 0
    while i < len(words):
        if words[i][0] in OPEN:
            end = closing(words, i)
            yield from joins(words[i + 1:end])
            i = end
        i += 1


def joins(words):
    """The joins of a piece of code: of its expressions, one after the other, and of the blocks between them."""
    start, i = 0, 0
    while i <= len(words):
        if i == len(words) or words[i][0] in APART or words[i][0] == "{":
            yield from expression_joins(words[start:i])
            if i < len(words) and words[i][0] == "{":
                end = closing(words, i)
                yield from joins(words[i + 1:end])
                i = end
            start = i + 1
        elif words[i][0] in OPEN:
            i = closing(words, i)
        i += 1


def function_at(words, i, crate, file):
    """The function whose `fn` stands at `i`, and the place of its end."""
    at = i + 2
    while words[at][0] != "{":
        at = until(words, at, ("{", *CLAUSES))
        if words[at][0] in CLAUSES:
            at = closing(words, until(words, at, ("{",))) + 1
    end = closing(words, at)
    tests = [test_at(words, k) for k in range(at, end) if is_test(words, k)]
    mark = hashlib.sha256(spelled(words[at:end + 1]).encode()).hexdigest()[:8]
    return Function(crate, file, words[i][1], mark, tests, list(joins(words[at + 1:end]))), end


def file_functions(path, crate):
    """(name, function) of one source file."""
    file = str(path.relative_to(ROOT))
    prefix = crate if path.stem in ("lib", "main") else f"{crate}::{path.stem}"
    words, i, owner, owner_end = list(tokens(path.read_text())), 0, "", 0
    while i < len(words):
        if words[i][0] == "impl":
            owner, owner_end = words[i + 1][0] + "::", closing(words, until(words, i, ("{",)))
        if words[i][0] == "fn":
            function, end = function_at(words, i, crate, file)
            yield f"{prefix}::{owner if i < owner_end else ''}{words[i + 1][0]}", function
            i = end
        i += 1


def functions(crates):
    """Every function of these crates, by its name."""
    found = {}
    for crate in crates:
        for path in sorted((ROOT / "crates" / crate / "src").rglob("*.rt")):
            try:
                found.update(file_functions(path, crate))
            except Unread as reason:
                raise SystemExit(f"coverage: {path.relative_to(ROOT)}: {reason}")
    return found
