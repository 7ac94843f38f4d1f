#!/usr/bin/env python3
"""Makes docs/MUTATION.md of the list and the stored verdicts (changes.tsv, prover.tsv, outside.tsv); runs nothing.

page.py           writes the page
page.py --check   exit status 1 where the page is not what the files give
"""
import sys

from listed import HERE, ROOT, changes, key, verdicts

PAGE = ROOT / "docs/MUTATION.md"
PROVER, OUTSIDE = HERE / "prover.tsv", HERE / "outside.tsv"
NOT_RUN = "not run"
HEAD = """\
# Small wrong changes

Each changes one place of the code of the bridge, of the host frames or of the call-up board and leaves the rest: another operand, constant, order or branch. The list is
`tests/mutation/changes.tsv`. Each has two verdicts, which know nothing of each other:

- **The prover's.** `refused`: the code no longer meets its contract by the proof that stands. This does not tell wrong from merely unfit: a
  change that leaves the meaning can be refused too, because the proof follows the code as it is written. Those that exchange a CRC and the word
  that goes into it are such, and were refused; the changes of kind `turned`, two operands of an `&` turned round, are there to show it. `unfit`: not
  even the proof's form fits the changed code. `taken`: the prover found nothing wrong.
- **A run's.** The changed code is compiled without its proof and with the compiler's assumptions checked, and run until something tells it:
  `told by` the examples, the guide's texts (`examples/host`), the texts of `tests/edges`, the broken scripts of `tests/broken.py`, a random script of the gate (all of these against the
  independent program of the same rules), a program of the gate against its stored output, or the filter of host frames on orders at both sides of their limits (`tests/frames_text.py`). They are tried in this order, and the first that
  tells the change is named. `not told`: none of them does, and below stands why no run can.

`python3 tests/mutation/run.py --write` asks the prover again (the crates must be proved), `python3 tests/mutation/outside.py --write` runs again
(nothing need be proved); each keeps its verdicts and writes this page. The prover's verdicts below are those of the older kit, before the port (docs/PORT.md). Neither is part of the gate; the must-fail edits of the crates are, and so
is all that tells a change here.
"""


def counted(names):
    return ", ".join(f"{name} {names.count(name)}" for name in sorted(set(names)))


def told(verdict):
    """The verdict without the seed."""
    return verdict.partition(" seed")[0]


def shown(text):
    return "`" + text.strip().replace("|", "\\|") + "`"


def reason(change):
    return change.same or change.untold or "NO REASON IS KNOWN."


def listed_with(rows):
    """The changes of these rows, each with its reason on a line of its own."""
    for change, _, _ in rows:
        yield f"- `{change.crate}::{change.function}`, `{change.before.strip()}` to `{change.after.strip()}`.\n  {reason(change)}"


def exceptions(rows):
    """What the prover took, and what no run told."""
    yield "## Taken by the prover\n"
    yield from listed_with(row for row in rows if row[1] == "taken")
    yield "\n## Not told by a run\n"
    yield from listed_with(row for row in rows if row[2] != NOT_RUN and not row[2].startswith("told"))
    yield "\n## All of them\n"


def page():
    by_prover, by_run = verdicts(PROVER), verdicts(OUTSIDE)
    rows = [(change, by_prover.get(key(change), NOT_RUN), by_run.get(key(change), NOT_RUN)) for change in changes()]
    bare = sum(run == "not told" and not (change.same or change.untold) for change, _, run in rows)
    yield HEAD
    yield f"{len(rows)} changes: {counted([change.kind for change, _, _ in rows])}.\n"
    yield f"- The prover: {counted([prover for _, prover, _ in rows])}."
    yield f"- A run: {counted([told(run) for _, _, run in rows])}. Not told and without a reason: {bare}.\n"
    yield from exceptions(rows)
    yield "| crate | function | kind | before | after | the prover | a run |\n|---|---|---|---|---|---|---|"
    for change, prover, run in rows:
        yield f"| {change.crate} | {change.function} | {change.kind} | {shown(change.before)} | {shown(change.after)} | {prover} | {run} |"


def text():
    return "\n".join(page()) + "\n"


def write_page():
    PAGE.write_text(text())


def main():
    if sys.argv[1:] == ["--check"]:
        if PAGE.read_text() != text():
            sys.exit("page: docs/MUTATION.md is not what the list and the verdicts give")
        print("page: docs/MUTATION.md holds")
    elif sys.argv[1:]:
        sys.exit(__doc__)
    else:
        write_page()


if __name__ == "__main__":
    main()
