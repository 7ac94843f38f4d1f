#!/usr/bin/env python3
"""Tries every small wrong change of changes.tsv, one at a time, as a must-fail edit: the prover must refuse each.

run.py [--write] [CRATE..]    all of the list, or those of the named crates; --write keeps the verdicts and makes docs/MUTATION.md anew

A line of the list: crate, file under its src/, function, kind of change, the text before and after; the text before stands once in the file. A
seventh part says why the change is none: then the prover must take it. An eighth says why no run can tell it (outside.py). A change of the kind
`turned` leaves the meaning: the prover may take it or not. The crates must prove; what was checked here before (`rt check` in a crate's folder) is
not checked again. The changes are tried in a copy of the repository in place of its own edits; what a verdict means says `tried` (tools/scratch.py).
"""
import shutil
import sys

from listed import ROOT, changes, store
from page import PROVER, write_page

sys.path.insert(0, str(ROOT / "tools"))
import scratch  # noqa: E402


def as_edits(place, todo):
    """Makes the changes the only must-fail edits of the copy: each by its crate and the edit's name."""
    for folder in place.glob("crates/*/must-fail"):
        shutil.rmtree(folder)
    named = {}
    for number, change in enumerate(todo):
        folder = place / "crates" / change.crate / "must-fail"
        folder.mkdir(exist_ok=True)
        (folder / f"change{number}.edit").write_text(f"file: src/{change.file}\nold: {change.before}\nnew: {change.after}\n")
        named[change.crate, f"change{number}"] = change
    return named


def verdicts_on(todo):
    """Each change with its verdict and why, those of one crate together."""
    with scratch.copied() as place:
        named = as_edits(place, todo)
        for crate in dict.fromkeys(change.crate for change in todo):
            found, said = scratch.tried(place, [crate])
            wanted = [change for (name, _), change in named.items() if name == crate]
            if len(found) != len(wanted):
                sys.exit(f"mutation: {crate}: {len(found)} of {len(wanted)} changes have a verdict\n{said[-1500:]}")
            yield from ((named[crate, edit], verdict, why) for _, edit, verdict, why in found)


def is_expected(change, verdict):
    if change.kind == "turned":
        return verdict in ("refused", "taken", "unfit")
    return verdict == ("taken" if change.same else "refused")


def main():
    words = [word for word in sys.argv[1:] if word != "--write"]
    todo = changes(words)
    results = []
    for change, verdict, why in verdicts_on(todo):
        results.append((change, verdict))
        print(f"{len(results)}/{len(todo)}", verdict, *change[:3], change.before, "->", change.after, flush=True)
        if not is_expected(change, verdict):
            print(why)
    if "--write" in sys.argv:
        store(PROVER, results)
        write_page()
    wrong = sum(not is_expected(change, verdict) for change, verdict in results)
    print(f"mutation: {len(results)} tried, {wrong} not as expected")
    sys.exit(wrong != 0)


if __name__ == "__main__":
    main()
