"""The list of small changes and the verdicts stored beside it.

changes.tsv is the list. prover.tsv and outside.tsv have the last verdict of each change, the prover's (run.py) and that of a run from outside
(outside.py); page.py makes docs/MUTATION.md of the three. A change is known by crate, function, the text before and the text after.
"""
import collections
import pathlib
import sys

HERE = pathlib.Path(__file__).resolve().parent
ROOT = HERE.parents[1]
LIST = HERE / "changes.tsv"
PARTS = "crate file function kind before after same untold"
Change = collections.namedtuple("Change", PARTS)


def rows(file, least, most):
    """The lines of a table as lists of `most` parts; comments are skipped."""
    for number, line in enumerate(file.read_text().splitlines(), 1):
        if line and not line.startswith("#"):
            parts = line.split("\t")
            if not least <= len(parts) <= most:
                sys.exit(f"{file.name}:{number}: expected {least} to {most} parts between tabs, found {len(parts)}")
            yield parts + [""] * (most - len(parts))


def changes(crates=()):
    """The list, or its part of the named crates."""
    found = [Change(*parts) for parts in rows(LIST, 6, 8)]
    unknown = set(crates) - {change.crate for change in found}
    if unknown:
        sys.exit(f"no change of the list is in: {', '.join(sorted(unknown))}")
    if len(set(map(key, found))) != len(found):
        sys.exit(f"{LIST.name}: a change stands there twice")
    return [change for change in found if not crates or change.crate in crates]


def key(change):
    return change.crate, change.function, change.before, change.after


def verdicts(file):
    """Stored verdicts by the change's key."""
    if not file.exists():
        return {}
    return {tuple(parts[:4]): parts[4] for parts in rows(file, 5, 5)}


def store(file, results):
    """Writes these verdicts and keeps those of other changes of the list, in the list's order."""
    known = verdicts(file)
    known.update({key(change): verdict for change, verdict in results})
    lines = ["\t".join((*key(change), known[key(change)])) for change in changes() if key(change) in known]
    file.write_text("\n".join(["# crate\tfunction\tbefore\tafter\tverdict", *lines]) + "\n")


def changed(file, change):
    """Makes the change in a copy's file; the text before, for putting it back, or None where it does not stand there once."""
    good = file.read_text()
    if good.count(change.before) != 1:
        return None
    file.write_text(good.replace(change.before, change.after))
    return good
