#!/usr/bin/env python3
"""The yard loop of docs/HOST-GUIDE.md 9, run against the independent program (model/): what the guide says of such runs, run again.

run.py [--every N] [EXPERIMENT ..]    sound, stuck, slow, hundredth, one-bit; none named: all. A line each: what was run, how many, what was seen

`Host` follows the guide's text line by line, with its names. The boards are a reader of the line's bits, written by 01 The line. Exit status 1 where
a claim of the guide fails, or where the numbers that it quotes are not those seen. --every N makes every Nth run only, for a short look; then no
number is held to the guide. Needs gcc; half a minute in all. Not part of the gate.
"""
import argparse
import collections
import ctypes
import itertools
import pathlib
import random
import subprocess
import sys
import tempfile
import time

HERE = pathlib.Path(__file__).resolve().parent
GUIDE = HERE.parents[1] / "docs/HOST-GUIDE.md"
sys.dont_write_bytecode = True
sys.path.insert(0, str(HERE.parents[1] / "tools"))
import frames  # noqa: E402

WORD, RELEASE = 1, 2                        # kinds of events, 01 The bench program
WHOLE, STUCK_AT_0, STUCK_AT_1 = range(3)    # the return wire, as in chain.c
TO_BRIDGE, TO_HOST = range(2)               # directions of the wire to the host
FILLER = 0xFFFF
LONGEST = 563                               # ticks of a call-up of 32 words: 19 + 17 x 32
END = "1" * 18
READING = 40000                             # the first clock reading: a clock that runs already


class Fault(Exception):
    """The guide's fault: a wrong CRC, no answer, or an answer that is not as it must be."""


class Stopped(Exception):
    """The host stopped, since it took OTP for bad, or would go on for ever."""


def must(holds):
    if not holds:
        raise Fault


def built(folder):
    """The independent program with its chain, as a library."""
    library = pathlib.Path(folder) / "chain.so"
    try:
        subprocess.run(["gcc", "-std=c11", "-O2", "-shared", "-fPIC", "-o", library, HERE / "chain.c"], check=True)
    except (OSError, subprocess.CalledProcessError) as error:
        raise SystemExit(f"yard: chain.c is not built: {error}") from error
    chain = ctypes.CDLL(str(library))
    chain.yard_start.argtypes = [ctypes.c_long] * 3
    chain.yard_ticks.argtypes = [ctypes.c_long]
    chain.yard_now.restype = ctypes.c_long
    chain.yard_line.restype = ctypes.c_void_p
    return chain


# Damage of words: called with direction, number of the word in the run, word.

def unharmed(_direction, _number, word):
    return word


def turned_bit(direction, number, bit):
    """One bit of one word turned."""
    return lambda way, count, word: word ^ 1 << bit if (way, count) == (direction, number) else word


def one_in_a_hundred(seed):
    """A bit turned in one word of a hundred, each way."""
    chance = random.Random(seed)
    return lambda _way, _count, word: word ^ 1 << chance.getrandbits(4) if chance.random() < 0.01 else word


class Wire:
    """A yard from power-up on: bridge, chain and clock, and the host's end of its full-duplex wire, on time or one word late (guide, section 1)."""

    def __init__(self, chain, delay=40, ticks_a_word=8, late=False, damage=unharmed, ticks_a_ms=1000):
        self.chain, self.delay, self.ticks_a_word, self.late, self.damage, self.ticks_a_ms = chain, delay, ticks_a_word, late, damage, ticks_a_ms
        self.words, self.kept = 0, FILLER
        chain.yard_start(delay, ticks_a_ms, READING)

    def now(self):
        return self.chain.yard_now()

    def ticks(self, count):
        if not self.chain.yard_ticks(count):
            raise Stopped("came to no end")

    def release(self):
        self.chain.yard_event(RELEASE, 0)
        self.kept = FILLER

    def word(self, word):
        """A word each way; what the host received."""
        came = self.damage(TO_BRIDGE, self.words, word)
        out = self.kept if self.late else FILLER
        early = not self.late and self.chain.yard_answering()
        if early:
            out = self.chain.yard_event(WORD, FILLER)
        self.ticks(self.ticks_a_word)
        if not early:
            self.kept = self.chain.yard_event(WORD, came)
        out = self.damage(TO_HOST, self.words, out)
        self.words += 1
        return out

    def line(self):
        """The line's bits up to now."""
        return ctypes.string_at(self.chain.yard_line(), self.now()).decode()


class Host:
    """The guide's host. Beside it, for the report: recoveries, crew (times it was called), shown (came back), unseen (taken for shown by time)."""

    def __init__(self, wire):
        self.wire, self.limit = wire, 7 * LONGEST + wire.delay + 18
        self.waiting, self.turns, self.since = [], 0, {}
        self.recoveries, self.crew, self.shown, self.unseen = 0, 0, [], []
        self.recover()                                          # start-up

    def frame(self, name, words=(), answer=1, **fields):
        """An order's frame, its answer fetched and checked; the answer's words. Up to its own CRC word SDO must be FFFF."""
        for word in (*frames.frame(name, words, **fields), *[FILLER] * self.wire.late):
            if self.wire.word(word) != FILLER:
                self.wire.release()                             # at once, before a word of this frame can be a command word
                raise Fault
        *came, check = [self.wire.word(FILLER) for _ in range(answer + 1)]
        self.wire.release()
        must(check == frames.crc(came))
        return tuple(came)

    def call_up(self, c):
        return self.frame("FWD_RD_END_CRC", c, ends=0)[0]

    def fetch(self, c):
        return self.frame("DATA_RD_CRC", count=len(c), answer=len(c))

    def look(self):
        return self.frame("REG_RD_CRC", address=7, count=4, answer=4)

    def wait(self, ticks):
        """With filler for the watchdog, if that is 98 ms or more."""
        while ticks >= 98 * self.wire.ticks_a_ms:
            self.wire.ticks(50 * self.wire.ticks_a_ms)
            self.wire.word(FILLER)
            self.wire.release()
            ticks -= 50 * self.wire.ticks_a_ms
        self.wire.ticks(ticks)

    def loop(self, call_ups):
        """The guide's loop, until all call-ups are shown, or unseen."""
        there = collections.deque(call_ups)
        while there or self.waiting:
            try:
                self.loop_once(there)
            except Fault:
                self.recover()                                  # then begin the loop anew

    def loop_once(self, there):
        while there and len(self.waiting) < 7:
            c = there.popleft()
            self.waiting.append(c)
            s = self.call_up(c)
            must(s & 0xFBFF == 0)
            self.since[c] = self.wire.now()
        asked = self.wire.now()
        status, _ifst, _tx, rx = self.look()
        must(status & 0xFBFF == 0)
        if not self.waiting and self.turns < 10:
            self.turns = 0
        count = rx & 0x00FF
        while self.waiting and count >= len(self.waiting[0]):
            back = self.fetch(self.waiting[0])
            must(back == self.waiting[0])
            count -= len(self.waiting[0])
            self.shown.append(self.waiting.pop(0))
            self.turns = 0
        must(not self.waiting or asked - self.since[self.waiting[0]] <= self.limit)

    def recover(self):
        ended_well = False
        while not ended_well:
            try:
                ended_well = self.turn()
            except Fault:
                pass                                            # a new turn, from the top

    def turn(self):
        """Steps 1 to 5; whether the turn ended well."""
        self.recoveries += 1
        self.turns += 1
        if self.turns == 10:
            self.crew += 1
        self.wire.release()                                     # 1
        s, = self.frame("REG_WR_CRC", [0x6400, 0x0000, 0x01FF, 0x00FF, 0x0004], address=1)
        if s & 0x0030 == 0x0010:
            raise Stopped("took OTP for bad")
        must(s & 0x0030 == 0x0030)                              # 2
        self.wait(LONGEST + self.wire.delay)
        s, = self.frame("REG_WR_CRC", [0x6400, 0x0000, 0x81FF, 0x80FF, 0x0001, 0x0000, 0x8000], address=1)
        must(s == 0x0400)                                       # 3
        for c in self.waiting:                                  # 4
            s = self.call_up(c)
            self.since[c] = self.wire.now()
            must(s & (0x13FA if self.turns >= 10 else 0xFBFF) == 0)
        return self.turns < 10 or not self.waiting or self.by_time()

    def by_time(self):
        """Step 5: call-ups taken for shown by time; whether the return wire is whole again."""
        self.wait(self.limit)
        status, ifst, tx, rx = self.look()
        must(status & 0x13FA == 0 and ifst & 0x0010 == 0 and tx == 0)
        c = self.waiting[0]
        if rx & 0x00FF >= len(c) and self.fetch(c) == c:
            self.shown.append(self.waiting.pop(0))
            self.turns = 0
            return True
        self.unseen += self.waiting
        self.waiting = []
        return False


def commands(line):
    """What the boards read (01 The line): for each command the tuple of its words, or None: a check error, or no END."""
    at = line.find("0")
    while at >= 0:
        words, end = one_command(line, at + 1)
        yield words
        at = line.find("0", end)


def one_command(line, at):
    """The command whose start bit is before `at`: words or None, and where its END ends."""
    words = []
    while True:
        group = line[at:at + 17]
        if group == END[:17] and line[at - 1] == "1":
            return tuple(words), at + 17
        if line.startswith(END, at):
            return tuple(words), at + 18
        if len(group) < 17 or group[15] == group[16]:
            end = line.find(END, at)
            return None, len(line) if end < 0 else end + 18
        words.append(int(group[:16], 2))
        at += 17


Seen = collections.namedtuple("Seen", "commands missing other ordered")
ALL_WELL = 0, 0, True       # of Seen but the first


def seen(wire, call_ups):
    """What the boards got, held to the call-ups: how many commands, call-ups missing, other commands, and whether each was last shown in order."""
    wire.ticks(LONGEST + wire.delay + 200)
    got, known = list(commands(wire.line())), set(call_ups)
    last = {words: at for at, words in enumerate(got)}
    places = [last[c] for c in call_ups if c in last]
    return Seen(len(got), len(call_ups) - len(places), sum(words not in known for words in got), places == sorted(places))


def any_words(i, count):
    """Words of call-up i, spread over all sixteen bits: some would be command words, if one were looked for among them."""
    return [(i * 0x9E37 + j * 0x61C9 ^ 0x5A5A) & 0xFFFF for j in range(1, count + 1)]


def same_size(count, size):
    """Call-ups of `size` words, no two alike. The first word is an FC write (01 The line: the CRC is compared); there are 16 of these."""
    if size == 1:
        return [(0xAA00 | i if i < 16 else 0x1000 | i,) for i in range(count)]
    return [(0xAA00 | i % 16, *any_words(i, size - 1)) for i in range(count)]


def mixed(count):
    """Call-ups of 4, 1, 8, 3 and 32 words by turns, no two alike up to eighty."""
    return [(0xAA00 | i % 16, *any_words(i, (4, 1, 8, 3, 32)[i % 5] - 1)) for i in range(count)]


class Experiments:
    """Each gives what was run and seen, what of it the guide must say, and how many runs broke a claim."""

    def __init__(self, chain, every):
        self.chain, self.every = chain, every

    def each(self, name, cases, run):
        """Runs the cases, with progress: how many there were, and how many were not as the guide says. Those are named."""
        chosen, bad, told = list(cases)[::self.every], 0, time.monotonic()
        for i, case in enumerate(chosen):
            if time.monotonic() - told > 5:
                told = time.monotonic()
                print(f"{name}: {i} of {len(chosen)} runs", file=sys.stderr, flush=True)
            try:
                why = "" if run(*case) else "not as the guide says"
            except Stopped as stopped:
                why = str(stopped)
            if why:
                bad += 1
                print(f"{name}: run {case}: {why}", file=sys.stderr, flush=True)
        return len(chosen), bad

    def sound(self):
        """A sound chain: no recovery but the start-up, each call-up on the line once."""
        def run(delay, ticks_a_word, size):
            wire, call_ups = Wire(self.chain, delay=delay, ticks_a_word=ticks_a_word), same_size(40, size)
            host = Host(wire)
            host.loop(call_ups)
            return host.recoveries == 1 and host.shown == call_ups and seen(wire, call_ups) == Seen(40, 0, 0, True)
        runs, bad = self.each("sound", itertools.product(
            (0, 1, 40, 300, 1500, 3000, 3900), (1, 2, 4, 8, 16, 17, 24, 32, 64, 120, 200), (1, 2, 16, 32)), run)
        return (f"{runs} runs of forty call-ups on a sound chain, D 0 to 3,900, 1 to 200 ticks a host word, 1 to 32 words a call-up: in {runs - bad} "
                "no recovery but the start-up, and each call-up on the line once, in order", [f"in {runs} runs on a sound chain"], bad)

    def broken(self, wire, stuck):
        """Twenty call-ups with SIN stuck, then nine with it mended: whether all is as the guide says."""
        host, call_ups, after = Host(wire), mixed(20), same_size(9, 2)
        self.chain.yard_sin(stuck)
        host.loop(call_ups)
        if seen(wire, call_ups)[1:] != ALL_WELL or host.unseen != call_ups or host.crew != 1:
            return False
        self.chain.yard_sin(WHOLE)
        host.loop(after)
        return host.shown == after and host.turns == 0 and seen(wire, call_ups + after)[1:] == ALL_WELL

    def stuck(self):
        """SIN stuck: nothing comes back."""
        def run(stuck, ticks_a_word, delay):
            return self.broken(Wire(self.chain, delay=delay, ticks_a_word=ticks_a_word), stuck)
        runs, bad = self.each("stuck", itertools.product((STUCK_AT_0, STUCK_AT_1), (1, 8, 32, 100), (0, 40, 2000)), run)
        return (f"{runs} runs with SIN stuck at 0 or 1: in {runs - bad} all of twenty call-ups on the line, in order, no other command, crew called "
                "once; with the wire mended nine more, all back", [f"In {runs} runs with SIN stuck"], bad)

    def slow(self):
        """The same at a line clock of 10 kHz, where step 5 needs filler for the watchdog."""
        def run(stuck, ticks_a_word):
            return self.broken(Wire(self.chain, delay=20, ticks_a_word=ticks_a_word, ticks_a_ms=10), stuck)
        runs, bad = self.each("slow", itertools.product((STUCK_AT_0, STUCK_AT_1), (1, 2)), run)
        return f"{runs} runs with SIN stuck at 0 or 1, line clock 10 kHz: {runs - bad} as in `stuck`", [], bad

    def hundredth(self):
        """A bad wire to the host."""
        call_ups, count = mixed(20), collections.Counter()

        def run(seed):
            wire = Wire(self.chain, damage=one_in_a_hundred(seed))
            host = Host(wire)
            host.loop(call_ups)
            got = seen(wire, call_ups)
            count.update(crew=host.crew > 0, other=got.other > 0, order=not got.ordered)
            return not got.missing
        runs, bad = self.each("hundredth", zip(range(1, 300)), run)
        return (f"{runs} runs of twenty call-ups of up to 32 words, one word in a hundred damaged each way: in {runs - bad} every call-up on the "
                f"line; crew called in {count['crew']}, another command in {count['other']}, last shown out of order in {count['order']}",
                [f"{count['crew']} of {runs} runs", f"In all {runs} every call-up was on the line"], bad)

    def one_bit(self):
        """Any one bit turned, from the start-up on, on both kinds of wire."""
        call_ups, turned, count = mixed(9), [], collections.Counter()

        def run(late, *where):
            wire = Wire(self.chain, late=late, damage=turned_bit(*where))
            host = Host(wire)
            host.loop(call_ups)
            count.update(met=host.recoveries > 1)
            return seen(wire, call_ups)[1:] == ALL_WELL
        for late in (False, True):
            wire = Wire(self.chain, late=late)
            Host(wire).loop(call_ups)
            turned += itertools.product((late,), (TO_BRIDGE, TO_HOST), range(wire.words), range(16))
        runs, bad = self.each("one-bit", turned, run)
        return (f"{runs:,} runs of nine call-ups with any one bit turned, to or from the host, on both kinds of wire: in {runs - bad:,} none "
                f"missing, no other command, last shown in order; a recovery in {count['met']:,}",
                [f"(section 1; {runs:,} runs, a recovery in {count['met']:,})"], bad)


EXPERIMENTS = {"sound": Experiments.sound, "stuck": Experiments.stuck, "slow": Experiments.slow, "hundredth": Experiments.hundredth,
               "one-bit": Experiments.one_bit}


def tell(experiments, name):
    """Runs one and tells of it; whether the guide is right."""
    text, said, bad = EXPERIMENTS[name](experiments)
    print(f"{name}: {text}", flush=True)
    guide = " ".join(GUIDE.read_text().split())
    unsaid = [words for words in said if words not in guide] if experiments.every == 1 else []
    for words in unsaid:
        print(f"{name}: docs/HOST-GUIDE.md does not say: {words}", flush=True)
    return not bad and not unsaid


def main():
    parser = argparse.ArgumentParser(description=__doc__.split("\n")[0])
    parser.add_argument("--every", type=int, default=1, metavar="N", help="every Nth run only")
    parser.add_argument("names", nargs="*", metavar="EXPERIMENT", help=", ".join(EXPERIMENTS))
    asked = parser.parse_args()
    unknown = [name for name in asked.names if name not in EXPERIMENTS]
    if unknown:
        parser.error(f"no experiment {unknown[0]}; there are {', '.join(EXPERIMENTS)}")
    if asked.every < 1:
        parser.error(f"--every {asked.every}: 1 or more")
    with tempfile.TemporaryDirectory() as folder:
        experiments = Experiments(built(folder), asked.every)
        right = [tell(experiments, name) for name in asked.names or EXPERIMENTS]
    return 0 if all(right) else 1


if __name__ == "__main__":
    sys.exit(main())
