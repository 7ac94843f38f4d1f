#!/usr/bin/env python3
"""Spells the names that this repository's .antt files declare as today's Rattle does: words in snake case.

usage: tools/respell.py [--look]        at the top of the repository, once, after the toolchain's port.py

What turns: definitions, lemmas, fields, constructors of antt and the aliases of their imports, as txSize to tx_size and at-case to at_case;
in .antt files, in clauses of .rt files, in must-fail edits. Types keep their capitals. Strings and the names of Rust stay. A name that
Rattle makes (invariant-loop, a goal, a field behind a step) stays. --look writes nothing and lists names that fall together.
"""

import collections
import os
import re
import sys

WORD = r"[^\s(){}.;,@\"«»:]+"
HEAD = re.compile(r"^( *)((?:(?:abbrev|pub|unfoldable|ruleset|opaque) )*)(" + WORD + r"(?: " + WORD + r")*)((?: ?[({][^\n]*?[)}])*) :(?: |$)(.*)$", re.M)
AT_START = re.compile(r"^((?:(?:abbrev|pub|unfoldable|ruleset|opaque) )*)(" + WORD + r")", re.M)
ALIAS = re.compile(r"\bas (\w[\w'-]*)")
MADE = re.compile(r"^(invariant|decreases)-|^mathlib|^Rattle")
# Behind these a name is Rattle's.
OF_RATTLE = ("tie", "goal")
# Fields that may be spelled like a definition: a field stands behind a dot.
FIELDS = ("all-sent", "check-bit", "in-tx", "is-forward")


def snake(name):
    if name[:1].isupper():
        return name
    words = re.sub(r"(?<=[a-z0-9])[A-Z]", lambda m: "_" + m[0].lower(), name)
    return re.sub(r"(?<=[\w'₀-₉])-(?=[\w'])", "_", words)


def files(root):
    for folder, dirs, names in os.walk(os.path.join(root, "crates")):
        dirs[:] = sorted(d for d in dirs if d != "out")
        for name in sorted(names):
            if name.endswith((".antt", ".rt", ".edit")):
                yield os.path.join(folder, name)


def declared(text):
    for m in HEAD.finditer(text):
        if m[2].startswith(("use", "open")) or m[3].startswith(("use ", "--", "let ", "where ")):
            continue
        for name in m[3].split():
            yield name, m[5]
    for m in AT_START.finditer(text):
        if m[2] not in ("use", "mod", "unfolding", "open", "where", "--", "record", "data", "infix", "infixl", "infixr", "mutual", "package"):
            yield m[2], ""
    for m in re.finditer(r"^(?:pub )?use .*$|^ghost use .*$", text, re.M):
        for a in ALIAS.findall(m[0]):
            yield a, ""


def own_names(texts):
    names = collections.defaultdict(set)
    for path, text in texts.items():
        if path.endswith(".edit"):
            continue
        for name, of in declared(text):
            if MADE.search(name) or not re.match(r"[a-z]", name):
                continue
            if snake(name) != name:
                names[name].add(path)
    return names


def spellings(texts, names):
    """Old name to new. A lemma that would meet a definition is called so with _lem."""
    table = {name: snake(name) for name in names}
    defined = {table[name] for name in table if "-" not in name}
    codes = {}
    for path, text in texts.items():
        if not path.endswith(".edit"):
            code = re.sub(r"--[^\n]*|//[^\n]*", "", text)
            code = re.sub(r"Rattle\.[\w.'+]*(?=[{*])", "", code)
            codes[path] = set(re.findall(WORD, re.sub(r"Rattle\.[\w.'+]*", "", code)))
    for name in names:
        if "-" in name and name not in FIELDS:
            new = table[name]
            if new in defined or any(name in words and new in words for words in codes.values()):
                table[name] = new + "_lem"
    return table


def turn_code(code, table, hyphens):
    def word(m):
        name = m[0]
        if name not in table or (not hyphens and "-" in name):
            return name
        before = code[: m.start()]
        head = re.search(r"([^\s(){};,.]*)\.$", before)
        if head and head[1] in OF_RATTLE:
            return name
        return table[name]

    return re.sub(WORD, word, code)


def turn_prose(text, table):
    text = re.sub(r"`[^`\n]*`", lambda m: turn_code(m[0].replace("`", " ` "), table, True).replace(" ` ", "`"), text)
    return re.sub(r"(?<![\w-])[a-z]+[A-Za-z0-9]*[A-Z]\w*(?![\w-])", lambda m: table.get(m[0], m[0]), text)


def turn_antt(text, table):
    out = []
    for line in text.split("\n"):
        code, mark, prose = line.partition("-- ") if line.lstrip().startswith("-- ") or " -- " in line else (line, "", "")
        out.append(turn_code(code, table, True) + mark + turn_prose(prose, table))
    return "\n".join(out)


def turn_rt(text, table):
    parts = re.split(r'("(?:\\.|[^"\\\n])*"|//[^\n]*)', text)
    for i, part in enumerate(parts):
        if part.startswith("//"):
            parts[i] = turn_prose(part, table)
        elif not part.startswith('"'):
            parts[i] = turn_code(part, table, True)
    return "".join(parts)


def turn_edit(text, table):
    out, antt = [], False
    for line in text.split("\n"):
        if line.startswith("file: "):
            antt = line.endswith(".antt")
        if line.startswith(("old: ", "new: ")):
            rest = line[5:]
            line = line[:5] + (turn_antt(rest, table) if antt else turn_rt(rest, table))
        elif line.startswith("#"):
            line = turn_prose(line, table)
        out.append(line)
    return "\n".join(out)


def together(texts, names, table):
    """Names that would read alike in one file where they did not."""
    found = []
    for path, text in texts.items():
        words = set(re.findall(WORD, text))
        here = collections.defaultdict(set)
        for w in words:
            here[table.get(w, w)].add(w)
        for new, olds in here.items():
            if len(olds) > 1:
                found.append((path, new, sorted(olds)))
    return found


def main(argv):
    texts = {}
    for path in files("."):
        with open(path, encoding="utf-8") as f:
            texts[path] = f.read()
    names = own_names(texts)
    table = spellings(texts, names)
    if argv == ["--look"]:
        for path, new, olds in together(texts, names, table):
            print(f"together: {path}: {new}: {' '.join(olds)}")
        print(f"{len(table)} names")
        return 0
    if argv:
        print(__doc__)
        return 2
    changed = 0
    for path, text in texts.items():
        turn = {"antt": turn_antt, "rt": turn_rt, "edit": turn_edit}[path.rsplit(".", 1)[1]]
        new = turn(text, table)
        if new != text:
            changed += 1
            with open(path, "w", encoding="utf-8") as f:
                f.write(new)
    print(f"{len(table)} names, {changed} files")
    return 0


if __name__ == "__main__":
    raise SystemExit(main(sys.argv[1:]))
