#!/usr/bin/env python3
"""The proved list call (02, item 6) and the independent program of the same rules (model/list_model.c) on files of calls, every byte equal.

lists.py [SEEDS CALLS [PROGRAM]]    the files of the seeds 1 to SEEDS (model/make_lists.py), of CALLS calls each; 6 of 400 without arguments. PROGRAM is a
                                    built one, as crates/lists_main/out/lists_main of `tools/build lists_main`

Without PROGRAM, crates/lists_main is compiled from its source without its proof (tests/mutation/outside.py), since the gate has built nothing yet. A
shorter file of each seed is also cut and spoiled in many places, and some files were worked out on paper (PAPER). `lists: N calls, M events agree` and
how often each outcome came, or the first difference and exit status 1. Every outcome but 2 (crates/refusals has that one) and every note must come.
"""
import collections
import concurrent.futures
import os
import pathlib
import random
import subprocess
import sys
import tempfile

TESTS = pathlib.Path(__file__).resolve().parent
sys.dont_write_bytecode = True
sys.path[:0] = [str(TESTS / "model"), str(TESTS / "mutation")]
import outside  # noqa: E402
from make_lists import HEAD, MOST_RESULTS, RECORD, RX, TX  # noqa: E402
from pair import built_model  # noqa: E402

NAME = "lists_main"
SEEDS, CALLS = 6, 400
LONGEST = 60  # seconds of a run
MOST_BYTES = 3000
SHORT = 14  # calls of a file that is cut and spoiled
CUTS, SPOILED = 40, 60  # of each seed
OUTCOMES = (0, 22, 23, 1)
NOTES = (0, *range(3, 16))  # 1 and 2 cannot come inside a list
BAD = b"bad file\n"


class Wrong(Exception):
    """The programs differ, or one does what neither should."""


def call(records, results, tx=TX, rx=RX, size=None):
    """A call's bytes; `size` is what it says of its records."""
    size = len(records) if size is None else size
    return b"".join(number.to_bytes(2, "big") for number in (size, results, tx, rx)) + records


POWER, TICK, NONE = bytes([0, 0, 1]), bytes([3, 0, 1]), bytes([2, 0, 1])
EMPTY = call(b"", 0)
PAPER = [  # calls, what is printed
    (b"", b""),
    (EMPTY, b"0 0\n\n"),
    (EMPTY + EMPTY[:7], b"0 0\n\n" + BAD),
    (call(POWER, 4), b"0 1\n00FFFF01\n"),
    (call(POWER + TICK, 9), b"0 2\n00FFFF0100FFFF01A5\n"),
    (call(POWER, 4, size=4), BAD),
    (call(b"", 2, TX - 1), b"1 0\nA5A5\n"),
    (call(POWER, 4, TX, RX - 1), b"1 0\nA5A5A5A5\n"),
    (call(POWER, 3), b"23 0\nA5A5A5\n"),
    (call(POWER, 3, 0, 0), b"23 0\nA5A5A5\n"),
    (call(NONE, 4), b"22 0\nA5A5A5A5\n"),
    (call(POWER + NONE, 4), b"22 0\nA5A5A5A5\n"),
    (call(NONE, 3, 0, 0), b"22 0\nA5A5A5\n"),
    (call(POWER[:2], 0, 0, 0), b"22 0\n\n"),
    (call(TICK * (MOST_BYTES // RECORD), MOST_RESULTS), b"0 1000\n" + b"00FFFF01" * 1000 + b"A5" * 400 + b"\n"),
    (call(TICK * (MOST_BYTES // RECORD + 1), MOST_RESULTS), BAD),
    (call(b"", MOST_RESULTS + 1), BAD),
    (call(b"", 0, TX + 1), BAD),
    (call(b"", 0, TX, RX + 1), BAD),
]


# ---- Both programs. ----

def run(program, given, *words):
    """What a program, given by the words that call it, prints."""
    try:
        done = subprocess.run([*program, *words], input=given, capture_output=True, timeout=LONGEST)
    except (OSError, subprocess.TimeoutExpired) as error:
        raise Wrong(str(error)) from None
    if done.returncode or done.stderr:
        raise Wrong(f"{program[-1]}: exit status {done.returncode}, says {done.stderr[-300:]!r}")
    return done.stdout


def check_same(expected, found):
    """Two lines a call."""
    if expected == found:
        return
    pairs = zip([*expected.split(b"\n"), b"(nothing)"], [*found.split(b"\n"), b"(nothing)"])
    at, pair = next((at, pair) for at, pair in enumerate(pairs) if pair[0] != pair[1])
    first = len(os.path.commonprefix(pair))
    cut = [line.decode(errors="replace")[max(first - 60, 0):first + 60] for line in pair]
    line = "results" if at % 2 else "outcome and events done"
    raise Wrong("call %d, its %s, from byte %d on:\nexpected %s\nfound    %s" % (at // 2 + 1, line, max(first - 60, 0) + 1, *cut))


def met(printed):
    """How many calls, events, outcomes and notes are in what was printed."""
    seen = collections.Counter()
    lines = printed.removesuffix(BAD).split(b"\n")
    for outcome, results in zip(lines[::2], lines[1::2]):
        number, done = map(int, outcome.split())
        seen.update({"calls": 1, "events": done, f"outcome {number}": 1})
        seen.update(f"note {note}" for note in bytes.fromhex(results[:8 * done].decode())[::4])
    return seen


def compared(model, program, given):
    expected = run(model, given)
    check_same(expected, run(program, given))
    return met(expected)


# ---- The files. ----

def made(seed, calls):
    return subprocess.check_output([sys.executable, "-B", TESTS / "model/make_lists.py", str(seed), str(calls)])


def ends(file):
    """Where the file's calls end."""
    at = len(HEAD)
    while at < len(file):
        at += 8 + int.from_bytes(file[at:at + 2], "big")
        yield at


def cuts(draw, file):
    """The file up to some of its bytes: within the head and a call's numbers, next to a call's end, or anywhere."""
    near = {end + off for end in ends(file) for off in (-1, 0, 1, 2, 7, 8, 9)}
    places = {*range(len(HEAD) + 9), *draw.sample(sorted(near), min(CUTS, len(near))), *(draw.randrange(len(file)) for _ in range(CUTS))}
    return [file[:at] for at in sorted(places) if at < len(file)]


def spoiled(draw, file):
    """A bit or a byte changed, one lost, one too many; and bytes that are no calls, behind the head or without one."""
    heads = [0, *ends(file)][:-1]
    for _ in range(SPOILED):
        at = draw.choice([draw.randrange(len(file)), draw.choice(heads) + draw.randrange(5 + 8)]) % len(file)
        other = draw.choice([file[at] ^ 1 << draw.randrange(8), draw.randrange(256)])
        yield file[:at] + draw.choice([bytes([other]), bytes([other]), b"", bytes([file[at], other])]) + file[at + 1:]
    for size in (0, 1, 8, 9, 40, 400):
        noise = draw.randbytes(size)
        yield from (noise, HEAD + noise, HEAD + bytes(byte & 3 for byte in noise))


def from_seed(model, program, work, seed, calls):
    """What was met in the seed's files, on which both programs print the same; the long one is named, not given."""
    draw = random.Random(f"spoiled {seed}")
    file, short, seen = made(seed, calls), made(seed, SHORT), collections.Counter()
    path = work / f"{seed}.cwl"
    path.write_bytes(file)
    what = f"the file of make_lists.py {seed} {calls}"
    try:
        expected = run(model, b"", path)
        check_same(expected, run(program, b"", path))
        seen.update(met(expected))
        if seen["calls"] != calls:
            raise Wrong(f"{seen['calls']} calls were printed")
        for number, given in enumerate([short, *cuts(draw, short), *spoiled(draw, short)]):
            what = f"the file of make_lists.py {seed} {SHORT}, cut or spoiled ({number}), {given[:60].hex()} .."
            seen.update({"files": 1, "calls of those": compared(model, program, given)["calls"]})
    except Wrong as wrong:
        sys.exit(f"lists: {what}: {wrong}")
    return seen


def on_paper(model, program):
    for calls, expected in PAPER:
        for one in (model, program):
            try:
                check_same(expected, run(one, HEAD + calls))
            except Wrong as wrong:
                sys.exit(f"lists: {one[-1].name} on the calls {calls[:40].hex()} ..: {wrong}")


# ---- What is run. ----

def built_lists(work):
    model = work / "list_model"
    subprocess.check_call(["gcc", "-std=c11", "-O2", "-o", model, TESTS / "model/list_model.c"])
    return [model]


def built_program(work):
    place = outside.copies(work, 1).get()
    if not outside.compiled(place, NAME):
        sys.exit(f"lists: crates/{NAME} is not compiled: " + (place / "said").read_text()[-1000:])
    return place / "program"


def asked(words):
    """Seeds, calls and program of the command line."""
    numbers = words[:2]
    if len(words) not in (0, 2, 3) or not all(word.isascii() and word.isdigit() and int(word) for word in numbers):
        sys.exit(f"lists.py [SEEDS CALLS [PROGRAM]]: expected two numbers from 1 on and a program, found `{' '.join(words)}`")
    program = pathlib.Path(words[2]).resolve() if words[2:] else None
    if program and not os.access(program, os.X_OK):
        sys.exit(f"lists: no program at {program}: `tools/build {NAME}` makes crates/{NAME}/out/{NAME}; without PROGRAM it is compiled here, without its proof")
    return *(map(int, numbers) if numbers else (SEEDS, CALLS)), program


def main():
    seeds, calls, program = asked(sys.argv[1:])
    seen = collections.Counter()
    with tempfile.TemporaryDirectory() as folder:
        work = pathlib.Path(folder)
        built_model(work)
        model = built_lists(work)
        program = [program or built_program(work)]
        on_paper(model, program)
        with concurrent.futures.ThreadPoolExecutor(os.cpu_count()) as pool:
            for one in pool.map(lambda seed: from_seed(model, program, work, seed, calls), range(1, seeds + 1)):
                seen.update(one)
    outcomes = ", ".join("%d: %d" % (number, seen[f"outcome {number}"]) for number in OUTCOMES)
    print(f"lists: {seen['calls']} calls, {seen['events']} events agree ({outcomes}) in {seeds} files; so do {seen['calls of those']} calls",
          f"in {seen['files']} short, cut or spoiled files, and {len(PAPER)} files worked out on paper")
    missing = [name for name in (*(f"outcome {number}" for number in OUTCOMES), *(f"note {note}" for note in NOTES)) if not seen[name]]
    if missing:
        sys.exit("lists: never met: " + ", ".join(missing))


if __name__ == "__main__":
    main()
