#!/usr/bin/env python3
"""Holds what the gate runs of the bench's two programs to examples/.

crates/bench/stdin is all of examples/*.txt, turned into one script by tools/script.py, and a record that is no event at its end;
crates/bench/stdout is examples/expected/*.out and `bad record`. crates/states has the same input; the front of what it prints is the bench's,
and tools/explain.py makes examples/explained/*.out of it. `rt ci` runs both programs on the first and compares with the second.

examples.py          `examples: N scripts stand in the programs' input`, or what differs and exit status 1
examples.py --write  writes the programs' files and the words; needs crates/states/out/states (tools/build states)
"""
import pathlib
import subprocess
import sys

TOP = pathlib.Path(__file__).resolve().parent.parent
BENCH, STATES = TOP / "crates/bench", TOP / "crates/states"
EXAMPLES = sorted((TOP / "examples").glob("*.txt"))
HEAD = b"CWB\x00\x01"
NO_EVENT = bytes([9, 0, 0])
sys.dont_write_bytecode = True
sys.path.insert(0, str(TOP / "tools"))
import explain  # noqa: E402
import programs  # noqa: E402


def script(text):
    """A text as the tool turns it, or None where it is refused."""
    done = subprocess.run([sys.executable, str(TOP / "tools/script.py"), "-"], input=text, capture_output=True)
    return done.stdout if done.returncode == 0 else None


def wanted():
    """The bench's input and output, from the examples."""
    stdin, stdout = HEAD, b""
    for text in EXAMPLES:
        made = script(text.read_bytes())
        if made is None or not made.startswith(HEAD):
            sys.exit("examples: %s is refused" % text.name)
        stdin += made[len(HEAD) :]
        stdout += (TOP / "examples/expected" / (text.stem + ".out")).read_bytes()
    return stdin + NO_EVENT, stdout + b"bad record\n"


def fronts(states):
    """The lines of the bench in what `states` prints."""
    lines = [b" ".join(line.split(b" ")[:5]) for line in states.splitlines()]
    return b"\n".join(line for line in lines if not line.startswith(b"start")) + b"\n"


def changes(before, after):
    """The columns of one state that are not those of another, as `states` prints them."""
    return ["%d=%d" % (column, after[name]) for column, name in enumerate(explain.COLUMNS) if after[name] != before[name]]


def explained(states):
    """Each example's words, as the tool says them of it alone: its first event is a power-up, whose state does not depend on what was before."""
    start, *lines = states.decode().splitlines()
    began = state = explain.changed(dict.fromkeys(explain.COLUMNS, 0), start.split()[1:])
    for text in EXAMPLES:
        events = (TOP / "examples/expected" / (text.stem + ".out")).read_text().count("\n")
        first, *rest = lines[:events]
        lines = lines[events:]
        if not first.startswith(("0 0001 ", "0 0003 ")):
            sys.exit("examples: %s does not begin with `power good` or `power good makers`" % text.name)
        state = explain.changed(state, first.split()[5:])
        alone = " ".join([*first.split()[:5], *changes(began, state)])
        for line in rest:
            state = explain.changed(state, line.split()[5:])
        told = explain.told([start, alone, *rest])
        yield TOP / "examples/explained" / (text.stem + ".out"), "".join(line + "\n" for line in told).encode()


def write(stdin, stdout):
    try:
        program = programs.command("states")
    except programs.Failed as reason:
        sys.exit("examples: %s" % reason)
    states = subprocess.run(program, input=stdin, capture_output=True, check=True).stdout
    for place, text in ((BENCH / "stdin", stdin), (BENCH / "stdout", stdout), (STATES / "stdin", stdin), (STATES / "stdout", states), *explained(states)):
        place.parent.mkdir(exist_ok=True)
        place.write_bytes(text)


def wrong(stdin, stdout):
    for bad in (b"word 20000\n", b"tick 2\n", b"hello\n"):
        if script(bad) is not None:
            yield "a bad text was taken: %r" % bad
    states = (STATES / "stdout").read_bytes()
    same = fronts(states) == stdout
    if not same:
        yield "crates/states/stdout has other events than the bench's"
    held = [(BENCH / "stdin", stdin), (BENCH / "stdout", stdout), (STATES / "stdin", stdin), *(explained(states) if same else ())]
    for place, want in held:
        if not place.exists() or place.read_bytes() != want:
            yield "%s is not what examples/ gives" % place.relative_to(TOP)
    known = {text.stem for text in EXAMPLES}
    for out in TOP.glob("examples/ex*/*.out"):
        if out.stem not in known:
            yield "%s has no text" % out.relative_to(TOP)


def main():
    stdin, stdout = wanted()
    if sys.argv[1:] == ["--write"]:
        write(stdin, stdout)
        return 0
    if sys.argv[1:]:
        sys.exit(__doc__)
    bad = list(wrong(stdin, stdout))
    print(*("examples: " + what for what in bad), sep="\n", end="\n" if bad else "")
    if not bad:
        print("examples: %d scripts stand in the programs' input" % len(EXAMPLES))
    return bool(bad)


sys.exit(main())
