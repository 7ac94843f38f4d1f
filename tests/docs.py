#!/usr/bin/env python3
"""Every definition, function, must-fail edit and file that a page names exists.

docs.py    `docs: N names hold`, or the names that do not and exit status 1

Looked at, between backquotes: `Module.name` (a definition or lemma of specs/ or proofs/), `crate::function`, paths of the repository (of what is
built, crates/NAME/out/.., the crate), and in docs/PROMISES.md the names of edits after `crate/must-fail`; without backquotes too, pages of docs/.
"""
import pathlib
import re
import sys

ROOT = pathlib.Path(__file__).resolve().parent.parent
PAGES = [ROOT / "README.md", ROOT / "CONTRIBUTING.md", *sorted((ROOT / "docs").rglob("*.md"))]
EXAMPLE = "nearly"  # the crate that CONTRIBUTING.md makes up
PLACES = ("crates/", "docs/", "tests/", "examples/", "tools/", ".ci/")
CODE = re.compile(r"`([^`\n]+)`")


def modules():
    """Module name: the names at the start of a line of its text, `pub` and the like taken off."""
    found = {}
    for file in ROOT.glob("crates/*/*/*.antt"):
        words = re.findall(r"^(?:(?:pub|unfoldable|abbrev|record|data|instance) )*([^\s({:]+)", file.read_text(), re.M)
        found.setdefault(file.stem, set()).update(words)
    return found


def functions():
    for file in ROOT.glob("crates/*/src/**/*.rt"):
        crate = file.relative_to(ROOT / "crates").parts[0]
        for name in re.findall(r"\b(?:fn|enum|struct|trait|const) (\w+)", file.read_text()):
            yield f"{crate}::{name}"


def edits(text):
    """The edits that a page names after `crate/must-fail`, up to the end of the table's cell."""
    for crate, names in re.findall(r"`(\w+)/must-fail` ([^|(\n`;]*)", text):
        for name in re.findall(r"\b[a-z]+(?:_[a-z0-9]+)+\b", names):
            yield ROOT / "crates" / crate / "must-fail" / f"{name}.edit"


def wrong(text, known, calls):
    for name in CODE.findall(text):
        if EXAMPLE in name:
            continue
        dotted = re.fullmatch(r"([A-Z][A-Za-z]+)\.([^\s.]+)", name)
        if dotted and not name.endswith((".md", ".antt")):
            if dotted[2] not in known.get(dotted[1], ()):
                yield name
        elif re.fullmatch(r"[a-z][a-z0-9_]*::\w+", name) and name not in calls:
            yield name
        elif name.startswith(PLACES) and "NAME" not in name and not (ROOT / name.split()[0].partition("/out/")[0]).exists():
            yield name
    yield from (page for page in re.findall(r"\bdocs/[\w/-]+\.md\b", text) if not (ROOT / page).exists())
    yield from (edit.name for edit in edits(text) if not edit.exists())


def main():
    known, calls = modules(), set(functions())
    bad = [f"{page.relative_to(ROOT)}: {name}" for page in PAGES for name in wrong(page.read_text(), known, calls)]
    if bad:
        print(*bad, sep="\n")
        sys.exit(f"docs: {len(bad)} names do not exist")
    print("docs:", sum(len(CODE.findall(page.read_text())) for page in PAGES), "names hold")


if __name__ == "__main__":
    main()
