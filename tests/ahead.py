#!/usr/bin/env python3
"""How many words must be ahead when a command begins: the rule of docs/HOST-GUIDE.md, tried by brute force.

ahead.py    `ahead: ..` and what was counted, or the first disagreement by n, p, a and tick, and exit status 1

A host gives a FWD_WR of n words: a of them are in TX when the start bit goes out, at tick 0, and a word comes after every p ticks, tick 0 counted as
the first. Word k (from 0) is taken at tick 17 k + 1, and (17 k + 1) / p words, division down, have come since the start. The rule: all n are in time
exactly when a >= n - (17 (n - 1) + 1) / p; a is at least 1, for no command begins before one of its words is in TX. Where they are not, note 13 comes
at tick 17 k + 1 for the first k with a + (17 k + 1) / p < k + 1, and at no other.

For every p to 64 and every n to 512: a as the rule has it, by TXFFLVL = a - 1; one word fewer; and TXFFLVL as it powers up, 64 words. A tick before
the last of the a words, tick -1, shows that nothing begins without it. All of these go through the independent program (model/ahead_grid.c). A sample
of them, with those at the edges, goes through the bench program too, as scripts: every line is foretold by the rule, and both programs print it.
The table of docs/HOST-GUIDE.md 4 is computed anew.
"""
import collections
import concurrent.futures
import functools
import os
import pathlib
import random
import re
import subprocess
import sys
import tempfile

TESTS = pathlib.Path(__file__).resolve().parent
sys.dont_write_bytecode = True
sys.path.insert(0, str(TESTS / "model"))
from make_scripts import POWER, RELEASE, TICK, WORD, crc16  # noqa: E402
from pair import EVENTS, HEAD, built_model, differences  # noqa: E402

PERIODS, WORDS = range(1, 65), range(1, 513)
AT_POWER_UP = 64  # words in TX that release a forward where TXFFLVL is not written
EDGES = [(n, p) for p in (17, 18, 32, 64) for n in (64, 65, 512)]
SEED, SCRIPTS, MOST_EVENTS = 2, 8, min(30_000, EVENTS)  # of the sample; a script's output has to stay under pair.MOST_OUTPUT
GUIDE = TESTS.parent / "docs/HOST-GUIDE.md"
MOST_AHEAD, LONGEST = 512, 4096  # what TX holds; the words of a FWD_WR
GROUP, END = 17, 18
REG_WR, FWD_WR = 0xB000, 0x3000
TXFFLVL, STATUS, CLEAR_FLAGS, NO_FLAG = 3, 7, 0x8000, 0x0400
FILLER = 0xFFFF
DONE, BLOCKED, CUT_FRAME, STARVED = 0, 5, 12, 13

Case = collections.namedtuple("Case", "n p a level late")  # level None: not written; late: the tick of note 13, None: it never comes


# ---- The rule. ----

def ahead(n, p):
    return n - (17 * (n - 1) + 1) // p


def taken(k):
    return 17 * k + 1


@functools.cache
def first_late(p, a):
    """The first word that has not come when it is taken, of as many as there are."""
    return next((k for k in range(WORDS.stop) if a + taken(k) // p < k + 1), None)


def foretold(n, p, a, level):
    if a >= ahead(n, p):
        return Case(n, p, a, level, None)
    k = first_late(p, a)
    if k is None or k >= n:
        sys.exit(f"ahead: n {n}, p {p}, a {a}, tick {taken(n - 1)}: the rule asks for {ahead(n, p)} words ahead, and none is late with {a}")
    return Case(n, p, a, level, taken(k))


def sides(n, p):
    """Just enough, one fewer where that is a command, and the power-up level."""
    a = max(1, ahead(n, p))
    yield foretold(n, p, a, a - 1)
    if a > 1:
        yield foretold(n, p, a - 1, a - 2)
    yield foretold(n, p, min(n, AT_POWER_UP), None)


# ---- The guide's table. ----

def cells(line):
    return [cell.strip() for cell in line.strip().strip("|").split("|")]


def row_of(p, lengths):
    """A row as it should stand: the words ahead for each length, and the longest forward that the power-up level carries."""
    for n in lengths:
        a = max(1, ahead(n, p))
        yield str(a) if a <= MOST_AHEAD else "-"
    late = next((n for n in range(1, LONGEST + 1) if ahead(n, p) > AT_POWER_UP), None)
    yield "any length" if late is None else f"{late - 1:,} words"


def guide_rows():
    """The number of rows of the guide's table, each as the rule has it."""
    lines = GUIDE.read_text().splitlines()
    start = next((i for i, line in enumerate(lines) if line.startswith("| p | n = ")), None)
    if start is None:
        sys.exit(f"ahead: {GUIDE.name}: the table that begins with `| p | n = ` is not there")
    lengths = [int(cell.removeprefix("n = ").replace(",", "")) for cell in cells(lines[start])[1:-1]]
    for number, line in enumerate(lines[start + 2:], start + 3):
        if not line.startswith("|"):
            return number - start - 3
        p, *found = cells(line)
        if found != list(row_of(int(p.split()[0]), lengths)):
            sys.exit(f"ahead: {GUIDE.name}:{number}: expected {' | '.join(row_of(int(p.split()[0]), lengths))}, found {' | '.join(found)}")
    return len(lines) - start - 2


# ---- The whole grid, through the independent program. ----

def built_grid(work):
    program = work / "ahead_grid"
    subprocess.check_call(["gcc", "-std=c11", "-O2", "-o", program, TESTS / "model/ahead_grid.c"])
    return program


def grid(program, periods):
    """How many commands were sent whole, how many starved, and the events, for these p and every n."""
    cases = [case for p in periods for n in WORDS for case in sides(n, p)]
    trials = "".join("%d %d %d %d %d\n" % (c.n, c.p, c.a, -1 if c.level is None else c.level, c.late or 0) for c in cases)
    ran = subprocess.run([program], input=trials, capture_output=True, text=True)
    if ran.returncode:
        sys.exit(f"ahead: the independent program: {ran.stdout or ran.stderr}".rstrip())
    whole, starved, events = map(int, ran.stdout.split())
    if whole + starved != len(cases):
        sys.exit(f"ahead: {len(cases)} commands were asked for, {whole + starved} run")
    return collections.Counter(whole=whole, starved=starved, events=events)


# ---- A sample, through both programs. ----

class Run:
    """A case's events as records, what is to be printed of each, and the last tick made at each (-2: none)."""

    def __init__(self, case):
        self.case, self.records, self.lines, self.ticks = case, [], [], []
        self.tick = -2
        self.words = random.Random(f"{case.n} {case.p} {case.a}").choices(range(0x10000), k=case.n)
        self.event(POWER, 1)
        self.write(STATUS, CLEAR_FLAGS)
        if case.level is not None:
            self.write(TXFFLVL, case.level)
        self.forward()

    def event(self, kind, value, note=DONE, sdo=FILLER, sout=1):
        self.tick += kind == TICK
        self.ticks.append(self.tick)
        self.records.append(bytes((kind, value >> 8, value & 0xFF)))
        self.lines.append(b"%d %04X %d %04X %d\n" % (kind, value, note, sdo, sout))

    def finish(self, words):
        """The CRC word of a frame, the answer without a flag, chip select released."""
        self.event(WORD, crc16(words))
        self.event(WORD, FILLER, sdo=NO_FLAG)
        self.event(WORD, FILLER, sdo=crc16([NO_FLAG]))
        self.event(RELEASE, 0)

    def write(self, address, value):
        words = [REG_WR | address, value]
        for word in words:
            self.event(WORD, word)
        self.finish(words)

    def forward(self):
        n, p, a, _, late = self.case
        words = [FWD_WR | n - 1, *self.words]
        for word in words[:a]:
            self.event(WORD, word)
        self.event(TICK, 1)
        self.event(WORD, words[a])
        sent = n if late is None else late // GROUP
        line = [0, *(int(bit) for word in self.words[:sent] for bit in f"{word:016b}{~word & 1}"), *[1] * END]
        for tick, bit in enumerate(line):
            self.event(TICK, 1, STARVED if tick == late else DONE, sout=bit)
            came = a + tick // p
            if (tick + 1) % p == 0 and came < n:
                self.event(WORD, self.words[came], DONE if late is None or tick < late else BLOCKED)
        if late is None:
            self.finish(words)
        else:
            self.event(RELEASE, 0, CUT_FRAME)

    def __str__(self):
        n, p, a, level, _ = self.case
        return f"n {n}, p {p}, a {a}" + (" (TXFFLVL as it powers up)" if level is None else "")


def sample():
    """Cases without end, those at the edges first."""
    for n, p in EDGES:
        yield from sides(n, p)
    rng = random.Random(SEED)
    while True:
        yield rng.choice(list(sides(rng.randint(1, rng.choice([66, 130, WORDS[-1]])), rng.choice(PERIODS))))


def scripts():
    """The runs of the sample, as many scripts as are asked for, each as long as it may be."""
    cases, packed = sample(), [[]]
    while True:
        run = Run(next(cases))
        if sum(len(one.lines) for one in packed[-1]) + len(run.lines) > MOST_EVENTS:
            if len(packed) == SCRIPTS:
                return packed
            packed.append([])
        packed[-1].append(run)


def place_of(runs, event):
    """The run and the tick of an event of these runs, by its number."""
    for run in runs:
        if event < len(run.lines):
            return f"{run}, tick {run.ticks[event]}"
        event -= len(run.lines)
    return "behind the last event"


def script_of(model, runs):
    """The runs as a script, on which the rule and the independent program agree."""
    expected = [line for run in runs for line in run.lines]
    script = HEAD + b"".join(record for run in runs for record in run.records)
    found = subprocess.run([model], input=script, capture_output=True, check=True).stdout.splitlines(keepends=True)
    for event, (one, other) in enumerate(zip([*expected, None], [*found, None])):
        if one != other:
            sys.exit(f"ahead: the independent program: {place_of(runs, event)}: expected {one}, found {other}")
    return script


def compared(model, packed):
    """The number of runs and events, on which the rule and both programs agree."""
    met = collections.Counter()
    for runs, said in zip(packed, differences(model, [script_of(model, runs) for runs in packed])):
        expected = [line for run in runs for line in run.lines]
        if said:
            at = re.search(r"at byte (\d+)", said)
            where = place_of(runs, b"".join(expected)[:int(at[1])].count(b"\n")) if at else "one of " + "; ".join(map(str, runs))
            sys.exit(f"ahead: the bench program: {where}:\n{said}")
        met.update(runs=len(runs), lines=len(expected))
    return met


def main():
    rows = guide_rows()
    with tempfile.TemporaryDirectory() as folder:
        work = pathlib.Path(folder)
        model, program = built_model(work), built_grid(work)
        with concurrent.futures.ThreadPoolExecutor(os.cpu_count()) as pool:
            jobs = [pool.submit(grid, program, PERIODS[half::2]) for half in range(2)]
            jobs.append(pool.submit(compared, model, scripts()))
            met = sum((job.result() for job in jobs), collections.Counter())
    print(f"ahead: {len(PERIODS)} x {len(WORDS)} pairs, {met['whole']} commands in time and {met['starved']} starved as the rule says,",
          f"{met['events']} events; {met['runs']} of them and {met['lines']} events through the bench program too, all alike;",
          f"{rows} rows of the guide's table")


if __name__ == "__main__":
    main()
