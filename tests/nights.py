#!/usr/bin/env python3
"""The call-up board's program and the independent program of the same rules (model/board_model.c) on nights, every byte equal.

nights.py [N [PROGRAM]]    the nights of the seeds 1 to N (model/make_nights.py), 400 without; PROGRAM is one that is built already

Without PROGRAM it is compiled from its source without its proof (tests/mutation/outside.py). Each night is run with and without --line. `nights: ..
all alike` and what was met; every refusal and every reason that a text can meet must be. Each night is also held to its own text: the commands on the
line are read off the bits and must be the call-ups taken, in that order, each with its VSYNC; ticks, panel and sums are counted again. Some nights
were worked out on paper (PAPER), and come first, with those of examples/nights and what is to be printed of them (examples/nights/expected).
"""
import collections
import concurrent.futures
import os
import pathlib
import re
import subprocess
import sys
import tempfile

TESTS = pathlib.Path(__file__).resolve().parent
sys.dont_write_bytecode = True
sys.path[:0] = [str(TESTS / "model"), str(TESTS / "mutation")]
import make_nights  # noqa: E402
import outside  # noqa: E402

EXAMPLES = TESTS.parent / "examples/nights"
NAME = "board_main"
NIGHTS = 400
LINES = (12, 40, 80, 120, 160)  # lines of a night, in turn
LONGEST = 60  # seconds of a run
VSYNC, END, GROUP = 0xAAF0, 18, 17
SLOTS, ROW, MOST_WORDS = 40, 8, 30
MOST = {b"tick": 1_000_000, b"shift": 1_000_000, b"clock": 65535, b"delay": 4096}
BARE = (b"clear", b"force", b"exit", b"end")
NOT_READY = b"the bridge is not ready: "
NO_ROOM = re.compile(rb"no room: ([78]) of 8 places and (\d+) of 512 words of TX are in use")
TOLD = re.compile(rb"tick (\d+): call-up (\d+), slot (\d+), reading (\d+), (\d+ words?): (taken|refused \((\d+)\), (.*))")
SHOWN = re.compile(rb"tick (\d+): call-up (\d+), slot (\d+): shown")
BAD = re.compile(rb"bad line (\d+): expected (.*)", re.S)
LATE = b"delay before the first tick"
TO_MEET = {
    "refusal 32", "refusal 33", "refusal 34, it is in FAILSAFE", "refusal 34, POR is set", "refusal 35", "7 places in use", "8 places in use",
    "refusal 35 in a shift", "waited", "all shown", "not all shown", "no bad line", "found nothing", "CRLF", "LF", "last line without end",
    *("bad: " + reason for reason in (
        "call, tick, clock, clear, force, exit, delay, shift or end", "a number from 0 to 65535 as the slot",
        "a number from 0 to 65535 as the reading", "a word of four hex digits", "a number from 0 to 1000000 as the ticks",
        "a number from 0 to 4096 as the delay", "nothing more", "end before the next shift", "shift before end", LATE.decode())),
    *("delay %d" % delay for delay in (0, 1, 2, 17, 18, 36, 4096)),
}

CallUp = collections.namedtuple("CallUp", "number slot reading words")
Told = collections.namedtuple("Told", "tick number slot reading words verdict refusal reason")


class Wrong(Exception):
    """A night's output is not what its text asks for."""


def must(holds, what, *of):
    if not holds:
        raise Wrong(what % of)


def plural(count, thing):
    return b"%d %s%s" % (count, thing, b"" if count == 1 else b"s")


# ---- The text. ----

def is_number(part, most):
    return re.fullmatch(rb"[0-9]+", part) is not None and int(part) <= most


def well_formed(name, *rest):
    if name == b"call":
        words = all(re.fullmatch(rb"[0-9A-Fa-f]{4}", word) for word in rest[2:])
        return len(rest) >= 2 and words and all(is_number(part, 65535) for part in rest[:2])
    if name in MOST:
        return len(rest) == 1 and is_number(rest[0], MOST[name])
    return name in BARE and not rest


def lines_of(text):
    """Number and parts of each line that is not blank."""
    for number, line in enumerate(text.split(b"\n"), 1):
        line = line.partition(b"#")[0] if b"#" in line else line.removesuffix(b"\r")
        parts = re.findall(rb"[^ \t]+", line)
        if parts:
            yield number, parts


# ---- The line. ----

def encoded(words):
    """A command's bits: 01 The line."""
    return "0" + "".join(f"{word:016b}{~word & 1}" for word in words) + "1" * END


def commands(bits):
    """Each command on the line: its first bit, how many bits there are with the one that makes END (None: it has none yet), its words so far."""
    start = bits.find("0")
    while start >= 0:
        words, at = [], start + 1
        while "0" in bits[at:at + GROUP] and at + GROUP <= len(bits):
            must(bits[at + GROUP - 2] != bits[at + GROUP - 1], "a bad check bit at bit %d of the line", at + GROUP)
            words.append(int(bits[at:at + GROUP - 1], 2))
            at += GROUP
        end = at + END - (bits[at - 1] == "1")  # the check bit may be the first of the eighteen 1s
        if "0" in bits[at:at + GROUP] or end > len(bits):
            yield start, None, words
            return
        must("0" not in bits[at:at + END], "fewer than eighteen 1s behind bit %d of the line", at)
        yield start, end, words
        start = bits.find("0", end)


def check_line(bits, taken, shown):
    """The line has the taken call-ups, as many as there are, and nothing else; `shown` tells each VSYNC's end. True where all is sent."""
    wanted = [words for call_up, _ in taken for words in (call_up.words, [VSYNC])]
    ends, sent = [], 0
    for at, (start, end, words) in enumerate(commands(bits)):
        must(at < len(wanted), "command %d on the line is no call-up's: %s", at + 1, words)
        call_up, tick = taken[at // 2]
        must(start >= tick, "call-up %d is on the line before it was taken", call_up.number)
        must(encoded(wanted[at]).startswith(bits[start:end]), "call-up %d is not on the line as its text has it, or its VSYNC is not", call_up.number)
        must(end is None or words == wanted[at], "command %d on the line has the words %s", at + 1, words)
        sent += start + len(encoded(wanted[at])) <= len(bits)
        if at % 2 and end:
            ends.append((end, call_up.number, call_up.slot))
    must(ends == shown, "shown should be (tick, call-up, slot) %s, found %s", ends, shown)
    return sent == len(wanted)


# ---- What is printed. ----

def panel(slots):
    """The panel of slot: (reading, words)."""
    def upper(slot):
        return "%3d  %5s " % (slot, slots[slot][0] if slot in slots else "")

    def lower(slot):
        words = slots[slot][1] if slot in slots else ()
        return "   %04X%-4s" % (words[0], " +%d" % (len(words) - 1) if len(words) > 1 else "") if words else " " * 11

    rule = "+" + ("-" * 11 + "+") * ROW + "\n"
    rows = [range(first, first + ROW) for first in range(0, SLOTS, ROW)]
    return (rule + "".join("|%s|\n|%s|\n%s" % ("|".join(map(upper, row)), "|".join(map(lower, row)), rule) for row in rows)).encode()


class Printed:
    """What was printed with --line, taken apart."""

    def __init__(self, printed):
        head, gap, self.tail = printed.partition(b"\n\n") if not printed.startswith(b"\n") else (b"", b"\n", printed[1:])
        must(gap, "no empty line before the panel")
        self.told, self.shown, self.bad, bits, fresh = [], [], {}, [], False
        ticks = 0
        for line in head.split(b"\n") if head else []:
            if line.startswith(b"line "):
                must(re.fullmatch(rb"line [01]+", line) and not fresh, "no line of bits: %r", line[:80])
                bits.append(line[5:].decode())
                ticks += len(bits[-1])
                fresh = True
                continue
            fresh = False
            tick = self.one(line)
            must(tick in (None, ticks), "%r, with %d bits on the line", line[:80], ticks)
        self.bits = "".join(bits)

    def one(self, line):
        """Keeps a line; the tick that it names."""
        told, shown, bad = TOLD.fullmatch(line), SHOWN.fullmatch(line), BAD.fullmatch(line)
        must(told or shown or bad, "no line of docs/BOARD.md: %r", line[:80])
        if told:
            tick, number, slot, reading, words, verdict, refusal, reason = told.groups()
            self.told.append(Told(*map(int, (tick, number, slot, reading)), words, verdict, int(refusal or 0), reason))
            return self.told[-1].tick
        if shown:
            self.shown.append(tuple(map(int, shown.groups())))
            return self.shown[-1][0]
        must(int(bad[1]) not in self.bad, "line %d is told as bad twice", int(bad[1]))
        self.bad[int(bad[1])] = bad[2]
        return None


# ---- A night's text beside what was printed. ----

class Night:
    """Walks the text and holds each line to what was told of it."""

    def __init__(self, text, printed):
        self.out = Printed(printed)
        self.waiting = collections.deque(self.out.told)
        self.calls, self.taken, self.slots, self.bad = 0, [], {}, set()
        self.por, self.failsafe, self.delayed = True, False, 0
        self.asked = 0  # ticks of `tick` lines
        self.made, self.exact = 0, True  # ticks of shifts so far; exact: none since it was last known
        self.budget, self.budgets, self.base = None, 0, None
        self.met = collections.Counter()
        for number, parts in lines_of(text):
            self.line(number, *parts)
        self.finish()

    def line(self, number, name, *rest):
        found = self.out.bad.get(number)
        if not well_formed(name, *rest):
            must(found is not None, "line %d is bad, and not told", number)
        elif name == b"shift" and self.budget is not None:
            must(found == b"end before the next shift", "line %d is a shift in a shift", number)
        elif name == b"end" and self.budget is None:
            must(found == b"shift before end", "line %d is an end without a shift", number)
        elif name == b"delay" and found == LATE:
            must(self.asked or self.budgets, "line %d is told as late, and no tick was made before", number)
        else:
            must(found is None, "line %d is not bad, and told as bad", number)
            getattr(self, name.decode())(*rest)
        if found is not None:
            self.bad.add(number)

    def delay(self, ticks):
        must(not self.asked, "a delay behind a tick is not told")
        self.delayed = int(ticks)

    def tick(self, ticks):
        self.asked += int(ticks)

    def clock(self, _):
        pass

    def clear(self):
        self.por = False

    def force(self):
        self.failsafe = True

    def exit(self):
        self.failsafe = False

    def shift(self, ticks):
        self.budget = int(ticks)
        self.budgets += self.budget
        self.base = self.made if self.exact else None

    def end(self):
        self.budget, self.exact = None, False

    def call(self, slot, reading, *words):
        self.calls += 1
        call_up = CallUp(self.calls, int(slot), int(reading), [int(word, 16) for word in words])
        must(self.waiting, "call-up %d is not told", self.calls)
        told = self.waiting.popleft()
        same = (told.number, told.slot, told.reading, told.words) == (*call_up[:3], plural(len(words), b"word"))
        must(same, "call-up %d is told as another: %s", self.calls, told)
        self.check_ticks(told)
        self.check_verdict(told, call_up)
        if told.verdict == b"taken":
            self.taken.append((call_up, told.tick))
            self.slots[call_up.slot] = (call_up.reading, call_up.words)

    def check_ticks(self, told):
        """Ticks are those asked for and, in shifts, those made for waiting: no more than the shift has."""
        made = told.tick - self.asked
        must(self.made <= made <= self.budgets, "call-up %d: %d ticks were asked for, %d given to shifts", told.number, self.asked, self.budgets)
        if self.exact:
            must(made == self.made or self.budget is not None, "call-up %d: ticks that nothing asked for", told.number)
            waited = self.budget is not None and made > self.made
            self.met["waited"] += waited
            must(not waited or told.verdict == b"taken" or told.refusal == 35, "call-up %d waited, and not for room", told.number)
        if self.base is not None and self.budget is not None:
            must(made - self.base <= self.budget, "call-up %d: more ticks than the shift has", told.number)
            must(told.refusal != 35 or made - self.base == self.budget, "call-up %d is refused, and the shift has ticks left", told.number)
        self.made, self.exact = made, True

    def check_verdict(self, told, call_up):
        """What the text alone says of a refusal."""
        ready = b"it is in FAILSAFE" if self.failsafe else b"POR is set" if self.por else None
        if call_up.slot >= SLOTS:
            wanted = 32, b"there is no slot %d: slots are 0 to 39" % call_up.slot
        elif not 1 <= len(call_up.words) <= MOST_WORDS:
            wanted = 33, b"a call-up has 1 to 30 words"
        elif ready:
            wanted = 34, NOT_READY + ready
            self.met["refusal 34, " + ready.decode()] += 1
        else:
            room = NO_ROOM.fullmatch(told.reason) if told.refusal == 35 else None
            wanted = (35, told.reason) if room and int(room[2]) <= 512 else (0, None)
            self.met["%s places in use" % (room[1].decode() if room else "fewer")] += 1
            self.met["refusal 35 in a shift"] += room is not None and self.budget is not None
        must((told.refusal, told.reason) == wanted, "call-up %d: expected %s, found %s", told.number, wanted, told)
        self.met["refusal %d" % told.refusal if told.refusal else "taken"] += 1

    def finish(self):
        out = self.out
        must(not self.waiting, "more call-ups are told than there are")
        must(set(out.bad) == self.bad, "lines told as bad that are not: %s", set(out.bad) - self.bad)
        ticks = len(out.bits)
        open_end = self.budget is not None or not self.exact
        made = ticks - self.asked
        must(made >= self.made if open_end else made == self.made, "%d ticks in all, %d asked for", ticks, self.asked)
        must(made <= self.budgets, "%d ticks in all, %d asked for and %d given to shifts", ticks, self.asked, self.budgets)
        sent = check_line(out.bits, self.taken, out.shown)
        if self.budget is not None and self.base is not None and not self.failsafe and not self.por:
            must(sent or made - self.base == self.budget, "the shift ended with ticks left, and not all is sent")
        sums = b"%s: %d taken, %d refused, %d shown; %s; %s\n" % (
            plural(self.calls, b"call-up"), len(self.taken), self.calls - len(self.taken), len(out.shown), plural(len(self.bad), b"bad line"),
            plural(ticks, b"tick"))
        wanted = panel(self.slots) + b"\n" + sums
        must(out.tail == wanted, "panel and sums should be\n%s\nfound\n%s", wanted.decode(), out.tail.decode("latin-1"))
        self.count(ticks)

    def count(self, ticks):
        met, out = self.met, self.out
        met.update({"call-ups": self.calls, "shown": len(out.shown), "ticks": ticks})
        met["all shown"] += len(out.shown) == len(self.taken) > 0
        met["not all shown"] += len(out.shown) < len(self.taken)
        met["no bad line"] += not self.bad
        met["delay %d" % self.delayed] += ticks > 0
        for reason in out.bad.values():
            met["bad: " + reason.partition(b", found ")[0].decode("latin-1")] += 1
            met["found nothing"] += reason.endswith(b", found nothing")


# ---- Nights worked out on paper. ----

WORDS = "0" + "1010101000000000" + "1"      # start bit, AA00, check bit
VSYNCS = "0" + "1010101011110000" + "1"     # start bit, AAF0, check bit
ENDS = "1" * END

# 2 words and VSYNC: 19 + 17 x 2 + 36 = 89 ticks. The check bit of AAF0 is a 1, so the 17th 1 behind it makes END: tick 88.
FIRST = b"clear\ncall 5 21600 AA05 1234\ncall 40 21600 AA05 1234\nshift 1000\nend\ncall x\n", b"""\
tick 0: call-up 1, slot 5, reading 21600, 2 words: taken
tick 0: call-up 2, slot 40, reading 21600, 2 words: refused (32), there is no slot 40: slots are 0 to 39
tick 88: call-up 1, slot 5: shown
bad line 6: expected a number from 0 to 65535 as the slot, found `x`

+-----------+-----------+-----------+-----------+-----------+-----------+-----------+-----------+
|  0        |  1        |  2        |  3        |  4        |  5  21600 |  6        |  7        |
|           |           |           |           |           |   AA05 +1 |           |           |
+-----------+-----------+-----------+-----------+-----------+-----------+-----------+-----------+
|  8        |  9        | 10        | 11        | 12        | 13        | 14        | 15        |
|           |           |           |           |           |           |           |           |
+-----------+-----------+-----------+-----------+-----------+-----------+-----------+-----------+
| 16        | 17        | 18        | 19        | 20        | 21        | 22        | 23        |
|           |           |           |           |           |           |           |           |
+-----------+-----------+-----------+-----------+-----------+-----------+-----------+-----------+
| 24        | 25        | 26        | 27        | 28        | 29        | 30        | 31        |
|           |           |           |           |           |           |           |           |
+-----------+-----------+-----------+-----------+-----------+-----------+-----------+-----------+
| 32        | 33        | 34        | 35        | 36        | 37        | 38        | 39        |
|           |           |           |           |           |           |           |           |
+-----------+-----------+-----------+-----------+-----------+-----------+-----------+-----------+

2 call-ups: 1 taken, 1 refused, 1 shown; 1 bad line; 89 ticks
"""

# POR first, FAILSAFE before it in the order of reasons. FAILSAFE holds back the start; between words and VSYNC it holds back VSYNC.
HELD = b"call 0 1 AA00\r\nforce\r\ncall 0 2 AA00\r\nclear # POR\r\nexit\r\ncall 0 3 aa00\r\nforce\r\ntick 10\r\nexit\r\ntick 5\r\nforce\r\n" \
    b"tick 36\r\nend\r\nexit\r\ntick 37\r\ntick 3", f"""\
tick 0: call-up 1, slot 0, reading 1, 1 word: refused (34), the bridge is not ready: POR is set
tick 0: call-up 2, slot 0, reading 2, 1 word: refused (34), the bridge is not ready: it is in FAILSAFE
tick 0: call-up 3, slot 0, reading 3, 1 word: taken
line {"1" * 10 + WORDS + ENDS + "1" * 5}
bad line 13: expected shift before end
line {VSYNCS + "1" * 17}
tick 86: call-up 3, slot 0: shown
line {"1" * 5}

""".encode() + panel({0: (3, [0xAA00])}) + b"\n3 call-ups: 1 taken, 2 refused, 1 shown; 1 bad line; 91 ticks\n"

# Each line and why it is bad; "" where it is not.
SLIPS = [
    ("call", "a number from 0 to 65535 as the slot, found nothing"),
    ("call x y z", "a number from 0 to 65535 as the slot, found `x`"),
    ("call 65536 0 AA00", "a number from 0 to 65535 as the slot, found `65536`"),
    ("call 5", "a number from 0 to 65535 as the reading, found nothing"),
    ("call 5 -1 AA0", "a number from 0 to 65535 as the reading, found `-1`"),
    ("call 0005 000007 aA00 12345 x", "a word of four hex digits, found `12345`"),
    ("call 40 7 AA0#0", "a word of four hex digits, found `AA0`"),
    ("tick", "a number from 0 to 1000000 as the ticks, found nothing"),
    ("tick 1000001 x", "a number from 0 to 1000000 as the ticks, found `1000001`"),
    ("tick 0 0", "nothing more, found `0`"),
    ("tick 0", ""),
    ("clock 65536", "a number from 0 to 65535 as the reading, found `65536`"),
    ("clock 65535", ""),
    ("clock 1 2 3", "nothing more, found `2`"),
    ("clear x", "nothing more, found `x`"),
    ("force force", "nothing more, found `force`"),
    ("exit 1", "nothing more, found `1`"),
    ("end 1", "nothing more, found `1`"),
    ("end", "shift before end"),
    ("delay", "a number from 0 to 4096 as the delay, found nothing"),
    ("delay 4097", "a number from 0 to 4096 as the delay, found `4097`"),
    ("delay 4096 1", "nothing more, found `1`"),
    ("delay 04096", ""),
    ("shift", "a number from 0 to 1000000 as the ticks, found nothing"),
    ("shift 5 x", "nothing more, found `x`"),
    ("shift 1000000 # a comment", ""),
    ("shift 1000001", "a number from 0 to 1000000 as the ticks, found `1000001`"),
    ("shift 1", "end before the next shift"),
    ("delay 1", ""),
    ("tick 1", ""),
    ("delay 1", "delay before the first tick"),
    ("delay 5000", "a number from 0 to 4096 as the delay, found `5000`"),
    ("end", ""),
    ("Clear", "call, tick, clock, clear, force, exit, delay, shift or end, found `Clear`"),
    ("z" * 41, "call, tick, clock, clear, force, exit, delay, shift or end, found `" + "z" * 40 + "`"),
]


def slips():
    told = "".join(f"bad line {number}: expected {reason}\n" for number, (_, reason) in enumerate(SLIPS, 1) if reason)
    sums = f"\n0 call-ups: 0 taken, 0 refused, 0 shown; {sum(bool(reason) for _, reason in SLIPS)} bad lines; 1 tick\n"
    return "\n".join(line for line, _ in SLIPS).encode(), told.encode() + b"\n" + panel({}) + sums.encode()


# Eight places are four call-ups of 36 + 36 ticks. The first VSYNC is read back at tick 71 + the delay, and sent at tick 72: then two places are free.
FULL = b"clear\n" + b"call 7 9 AA00\n" * 4 + b"call 8 65535 AA01 0001\nshift %d\ncall 39 0 FFFF\n"


def full(delay, budget, rest, end):
    four = "".join(f"tick 0: call-up {number}, slot 7, reading 9, 1 word: taken\n" for number in range(1, 5))
    refused = "tick 0: call-up 5, slot 8, reading 65535, 2 words: refused (35), no room: 8 of 8 places and 8 of 512 words of TX are in use\n"
    return b"delay %d\n" % delay + FULL % budget, (four + refused + rest).encode() + end


def shown(*numbers):
    """Lines of those of one word, sent without a gap: 72 ticks each, the last but one makes END."""
    return "".join(f"tick {72 * number - 1}: call-up {number}, slot 7: shown\n" for number in numbers)


def edge(delay, *places):
    """AA01 is sent at tick 36 and its END read back at tick 36 + the delay: places in use after each of five ticks."""
    taken = "".join(f"tick 0: call-up {number}, slot 0, reading 0, 1 word: taken\n" for number in range(1, 5))
    refused = "tick %d: call-up %d, slot 0, reading 0, 1 word: refused (35), no room: %d of 8 places and %d of 512 words of TX are in use\n"
    told = "".join(refused % (at + 35, at + 5, used, 7 - (at + 35 >= 38)) for at, used in enumerate(places))  # VSYNC is taken at tick 38
    sums = b"\n9 call-ups: 4 taken, 5 refused, 0 shown; 0 bad lines; 39 ticks\n"
    text = b"delay %d\nclear\n%stick 34\n%s" % (delay, b"call 0 0 AA01\n" * 4, b"tick 1\ncall 0 0 AA01\n" * 5)
    return text, (taken + told).encode() + b"\n" + panel({0: (0, [0xAA01])}) + sums


SIX, NO_MORE = "call-up 6, slot 39, reading 0, 1 word", "%d of 8 places and %d of 512 words of TX are in use\n"
LAST = shown(2, 3, 4) + "tick 359: call-up 6, slot 39: shown\n"
ALL = b"\n" + panel({7: (9, [0xAA00]), 39: (0, [0xFFFF])}) + b"\n6 call-ups: 5 taken, 1 refused, 5 shown; 0 bad lines; 360 ticks\n"
SHORT = b"\n" + panel({7: (9, [0xAA00])}) + b"\n6 call-ups: 4 taken, 2 refused, %d shown; 0 bad lines; %d ticks\n"
PAPER = [  # text, what is printed; with --line where it has bits
    FIRST,
    HELD,
    slips(),
    (b"", b"\n" + panel({}) + b"\n0 call-ups: 0 taken, 0 refused, 0 shown; 0 bad lines; 0 ticks\n"),
    (b"tick 1", b"\n" + panel({}) + b"\n0 call-ups: 0 taken, 0 refused, 0 shown; 0 bad lines; 1 tick\n"),
    edge(0, 8, 7, 7, 7, 7),
    edge(1, 8, 8, 7, 7, 7),
    edge(3, 8, 8, 8, 8, 7),
    edge(4, 8, 8, 8, 8, 8),
    full(0, 5000, shown(1) + f"tick 72: {SIX}: taken\n" + LAST, ALL),
    full(1, 5000, shown(1) + f"tick 72: {SIX}: taken\n" + LAST, ALL),
    full(2, 5000, shown(1) + f"tick 73: {SIX}: taken\n" + LAST, ALL),
    full(18, 360, shown(1) + f"tick 89: {SIX}: taken\n" + LAST, ALL),
    # one tick short of room: END of the first VSYNC was on the line and its last 1 was not
    full(0, 71, shown(1) + f"tick 71: {SIX}: refused (35), no room: {NO_MORE % (7, 6)}", SHORT % (1, 71)),
    full(4096, 0, f"tick 0: {SIX}: refused (35), no room: {NO_MORE % (8, 8)}", SHORT % (0, 0)),
]


# ---- Both programs. ----

def run(program, text, *words):
    """What a program, given by the words that call it, prints of a text."""
    try:
        done = subprocess.run([*program, *words], input=text, capture_output=True, timeout=LONGEST)
    except (OSError, subprocess.TimeoutExpired) as error:
        raise Wrong(str(error)) from None
    must(done.returncode == 0 and not done.stderr, "exit status %d, says %r", done.returncode, done.stderr[-300:])
    return done.stdout


def without_bits(printed):
    return b"".join(line + b"\n" for line in printed.split(b"\n")[:-1] if not line.startswith(b"line "))


def check_same(expected, found):
    if expected == found:
        return
    pairs = zip([*expected.split(b"\n"), None], [*found.split(b"\n"), None])
    number, pair = next((at, pair) for at, pair in enumerate(pairs, 1) if pair[0] != pair[1])
    first = len(os.path.commonprefix([line or b"" for line in pair]))
    cut = [line and line[:20] + b" .. " + line[first - 40:first + 120] if first > 100 else line and line[:250] for line in pair]
    raise Wrong("output line %d, from byte %d on:\nexpected %r\nfound    %r" % (number, first + 1, *cut))


def compared(model, program, text):
    """What was met in a night on which both programs print the same."""
    expected, bare = run(model, text, "--line"), run(model, text)
    check_same(expected, run(program, text, "--line"))
    check_same(bare, run(program, text))
    check_same(without_bits(expected), bare)
    met = Night(text, expected).met
    met["CRLF"] += b"\r\n" in text
    met["LF"] += re.search(rb"[^\r]\n", text) is not None
    met["last line without end"] += not text.endswith(b"\n")
    return met


def on_paper(model, program, text, expected):
    for one in (model, program):
        check_same(expected, run(one, text, *(["--line"] if b"\nline " in expected else [])))
    return compared(model, program, text)


def from_seed(model, program, seed):
    lines = LINES[seed % len(LINES)]
    try:
        return compared(model, program, make_nights.night(seed, lines))
    except Wrong as wrong:
        sys.exit(f"nights: the night of make_nights.py {seed} {lines}: {wrong}")


def built_model(work):
    model = work / "board_model"
    subprocess.check_call(["gcc", "-std=c11", "-O2", "-o", model, TESTS / "model/board_model.c"])
    return [model]


def built_program(work):
    place = outside.copies(work, 1).get()
    if not outside.compiled(place, NAME):
        sys.exit("nights: the program is not compiled: " + (place / "said").read_text()[-1000:])
    return place / "program"


def examples():
    """The nights of examples/ with what is to be printed of each."""
    for text in sorted(EXAMPLES.glob("*.txt")):
        yield text.read_bytes(), (EXAMPLES / "expected" / (text.stem + ".out")).read_bytes()


def asked(words):
    """Number of nights and program of the command line."""
    if len(words) > 2 or (words and not (words[0].isascii() and words[0].isdigit() and int(words[0]))):
        sys.exit(f"nights.py [N [PROGRAM]]: expected a number from 1 on and a program, found `{' '.join(words)}`")
    return int(words[0]) if words else NIGHTS, pathlib.Path(words[1]).resolve() if words[1:] else None


def main():
    many, program = asked(sys.argv[1:])
    with tempfile.TemporaryDirectory() as folder:
        work = pathlib.Path(folder)
        model = built_model(work)
        program = [program or built_program(work)]
        met = collections.Counter()
        known = [*PAPER, *examples()]
        for number, (text, expected) in enumerate(known, 1):
            try:
                on_paper(model, program, text, expected)
            except Wrong as wrong:
                sys.exit(f"nights: night {number} of those on paper and the examples, {text}: {wrong}")
        with concurrent.futures.ThreadPoolExecutor(os.cpu_count()) as pool:
            for one in pool.map(lambda seed: from_seed(model, program, seed), range(1, many + 1)):
                met.update(one)
    delays = [int(name.split()[1]) for name in met if name.startswith("delay ")]
    print(f"nights: {many} nights, {len(known)} on paper and of the examples, {met['call-ups']} call-ups ({met['taken']} taken,",
          ", ".join(f"{number}: {met['refusal %d' % number]}" for number in range(32, 36)) + f"), {met['waited']} waited, {met['shown']} shown,",
          f"{met['ticks']} ticks, delays {min(delays, default=0)} to {max(delays, default=0)}, all alike")
    missing = sorted(name for name in TO_MEET if not met[name])
    if missing:
        sys.exit("nights: never met: " + "; ".join(missing))


if __name__ == "__main__":
    main()
