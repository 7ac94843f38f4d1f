#!/usr/bin/env python3
"""The lists of wrong changes fit the code: each text that one replaces stands once in its file, and docs/MUTATION.md is what the lists give.

changes.py    `changes: N edits and M small changes fit`, or those that do not and exit status 1
"""
import pathlib
import re
import sys

TESTS = pathlib.Path(__file__).resolve().parent
ROOT = TESTS.parent
sys.dont_write_bytecode = True
sys.path.insert(0, str(TESTS / "mutation"))
import page  # noqa: E402
from listed import changes  # noqa: E402


def edits():
    """Each text that a must-fail edit replaces: the edit's name, the file, the text."""
    for edit in sorted(ROOT.glob("crates/*/must-fail/*.edit")):
        file = ""
        for key, value in re.findall(r"^(file|old): (.*)$", edit.read_text(), re.M):
            file = value if key == "file" else file
            if key == "old":
                yield edit.relative_to(ROOT), edit.parents[1] / file, value


def small_changes():
    for change in changes():
        yield f"{change.crate}::{change.function}, `{change.before}`", ROOT / "crates" / change.crate / "src" / change.file, change.before


def wrong(found):
    for name, file, text in found:
        count = file.read_text().count(text) if file.is_file() and text else 0
        if count != 1:
            yield f"{name}: the text that it replaces stands {count} times in {file.relative_to(ROOT)}"


def main():
    by_edit, by_list = list(edits()), list(small_changes())
    bad = [*wrong(by_edit), *wrong(by_list)]
    if page.PAGE.read_text() != page.text():
        bad.append("docs/MUTATION.md is not what the list and its verdicts give: python3 tests/mutation/page.py")
    if bad:
        print(*bad, sep="\n")
        sys.exit(f"changes: {len(bad)} do not fit")
    print(f"changes: {len({edit for edit, *_ in by_edit})} edits and {len(by_list)} small changes fit")


if __name__ == "__main__":
    main()
