#!/usr/bin/env python3
"""Candidates for plainer forms in src/, by pattern: what docs/DESIGN-PASS.md counts.

places.py [ROOT]     a line `point kind: count` for each kind, and indented below it the places

A candidate is a place to look at; which of them are places of a point, the page says.
"""
import collections
import itertools
import pathlib
import re
import sys

HERE = pathlib.Path(__file__).resolve().parents[1]
FUNCTION = re.compile(r"^(?P<indent> *)(?:pub )?(?:extern \"C\" )?fn (?P<name>\w+)", re.M)
BOOLS = re.compile(r"=>\s*(?:true|false),?$")


def bare(text):
    """The text without comments and strings, of the same lines."""
    text = re.sub(r"//.*", "", text)
    return re.sub(r'"(?:\\.|[^"\\])*"', '""', text)


def functions(text):
    """Name, line, head (parameters and clauses) and body of each function."""
    lines = text.split("\n")
    for found in FUNCTION.finditer(text):
        first = text.count("\n", 0, found.start())
        indent = found["indent"]
        opened = next((n for n in range(first, len(lines)) if lines[n] == indent + "{" or lines[n].endswith(" {") and "}" not in lines[n]), None)
        if opened is None:
            continue
        closed = next(n for n in range(opened + 1, len(lines)) if lines[n] == indent + "}")
        yield found["name"], first + 1, "\n".join(lines[first:opened + 1]), "\n".join(lines[opened + 1:closed])


def enums(text):
    for found in re.finditer(r"^(?:pub )?enum (\w+)[^{]*\{\n(.*?)^\}", text, re.M | re.S):
        variants = re.findall(r"^    (\w+)(.)", found[2], re.M)
        yield found[1], text.count("\n", 0, found.start()) + 1, variants


def skeleton(body):
    """The words of a body, with each number, constant, type and field's own name as one sign."""
    words = re.findall(r"\w+|[^\s\w]", body)
    return tuple("#" if re.fullmatch(r"\d\w*|[A-Z]\w*", word) else word for word in words)


def renamed(body):
    """The words of a body, each name by the order in which it comes and each number as one sign."""
    seen = {}
    words = re.findall(r"\w+|[^\s\w]", body)
    keep = {"let", "mut", "if", "else", "match", "return", "while", "for", "in", "as", "true", "false"}
    return tuple("#" if word[0].isdigit() else word if word in keep or not re.match(r"\w", word) else seen.setdefault(word, f"n{len(seen)}") for word in words)


def parameters(head):
    listed = head[head.index("(") + 1:]
    depth, end = 1, 0
    for end, sign in enumerate(listed):
        depth += (sign in "([{<") - (sign in ")]}>" and listed[end - 1] != "-")
        if depth == 0:
            break
    names = re.findall(r"(?:^|,|\n)\s*(?:mut )?(\w+):", listed[:end])
    return [name for name in names if name not in ("rt", "self")]


def collect(root):
    found = collections.defaultdict(list)
    named = collections.defaultdict(list)
    skeletons, facts, together = collections.defaultdict(list), collections.defaultdict(set), collections.Counter()
    for file in sorted(root.glob("crates/*/src/**/*.rt")):
        text = bare(file.read_text())
        place = str(file.relative_to(root / "crates")).replace("/src/", "/")
        for name, line, variants in enums(text):
            plain = [v for v, sign in variants if sign == ","]
            held = [v for v, sign in variants if sign != ","]
            if plain and len(held) == 1 or any(v in ("Done", "Taken", "Refused", "Unknown", "Nothing", "Outside") for v, _ in variants):
                found["1 enums that may be an Option or a Result"].append(f"{place}:{line} {name}")
        for number, line in enumerate(text.split("\n"), 1):
            if re.match(r"(pub )?const \w+: (u8|u16|u32|u64|usize) = (0x)?[0-9A-F]+;", line) and "0x" not in line:
                found["1 numbers with names"].append(f"{place}:{number} {line.split(':')[0].split()[-1]}")
            if re.match(r"\s*while ", line):
                found["3 loops by while"].append(f"{place}:{number}")
            if re.match(r"\s+(pub )?\w+: \[[^;]+; \w+\],", line):
                found["6 arrays in a struct"].append(f"{place}:{number} {line.strip()}")
            if re.search(r"\bmatch (kind|act|mode|call|name|number|field|place|reason|command|sign|seventh)\b", line):
                found["7 matches on a number for a kind"].append(f"{place}:{number}")
            if re.search(r"\b(\w+): \1\b,?$", line):
                found["0 a field written twice"].append(f"{place}:{number}")
            if re.search(r"\w+: _\b", line):
                found["0 a field passed over by name"].append(f"{place}:{number}")
        for found_struct in re.finditer(r"^(?:pub )?struct (\w+) \{\n(.*?)^\}", text, re.M | re.S):
            for flag in re.findall(r"^    (?:pub )?(\w+): bool,", found_struct[2], re.M):
                found["1 flags in a struct"].append(f"{place} {found_struct[1]}.{flag}")
        for name, line, head, body in functions(text):
            at = f"{place}:{line} {name}"
            arms = [arm for arm in body.split("\n") if "=>" in arm]
            if arms and all(BOOLS.search(arm) for arm in arms):
                found["4 tests by a match of true and false"].append(at)
            if arms and all(re.search(r"=>\s*(0x)?\d\w*,?$", arm) for arm in arms):
                found["4 numbers by a match"].append(at)
            if re.search(r"\bhex\b|\bdigit\b", name):
                found["4 digits by hand"].append(at)
            shape = skeleton(body)
            if len(shape) >= 12:
                skeletons[shape].append(at)
            if len(shape) >= 24:
                named[renamed(body)].append(at)
            for clause in re.findall(r"requires\b[^{]*\{(.*)\}", head):
                for fact in re.findall(r"\b([A-Z]\w+)\b (?=\w|\()", clause):
                    facts[fact].add(at)
            names = parameters(head)
            for group in itertools.combinations(names, 3):
                together[group] += 1
    for places in skeletons.values():
        if len(places) > 1:
            found["2 functions of one shape"].append("; ".join(places))
    for places in named.values():
        if len(places) > 1:
            found["2 functions of one shape but for names"].append("; ".join(places))
    for fact, places in sorted(facts.items()):
        if len(places) > 2:
            found["5 facts required three times or more"].append(f"{fact}: {len(places)}")
    for group, count in together.most_common():
        if count > 3:
            found["5 three parameters together in four functions or more"].append(f"{' '.join(group)}: {count}")
    return found


def main():
    root = pathlib.Path(sys.argv[1]).resolve() if len(sys.argv) > 1 else HERE
    for kind, places in sorted(collect(root).items()):
        print(f"{kind}: {len(places)}")
        for place in places:
            print(f"    {place}")


if __name__ == "__main__":
    main()
