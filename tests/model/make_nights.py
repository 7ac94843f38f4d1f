#!/usr/bin/env python3
"""make_nights.py SEED LINES > night.txt

A random night for the call-up board (docs/BOARD.md), the same for the same seed. Nothing here knows what the board does with it: budgets and waits
are guessed, some too short on purpose.
"""
import random
import sys

MOST_SLOT, MOST_16, MOST_TICKS, MOST_DELAY = 39, 65535, 1_000_000, 4096
TELLING = [0xFFFF, 0x0000, 0x7FFF, 0xFFFE, 0x8000, 0x0001, 0xFFFD, 0xAAF0, 0xAA0F]  # long runs of 1s, both last bits, heads that are compared
NAMES = ["call", "tick", "clock", "clear", "force", "exit", "delay", "shift", "end"]
NO_NUMBER = ["x", "-1", "+1", "1.0", "0x10", "1e3", "12a", "a12", "4294967296", "18446744073709551616", "99999999999999999999", "`", "9" * 50]
NO_WORD = ["AA0", "AA051", "AA0G", "0xAA", "g000", "+123", "12 4", "A", "-001", "`AA0", "12:4", "/000", "@@@@", "AA05AA05" * 6,
           "\xe4\xf6\xfc\xdf", "AA\x7f5", "\x0012"]
NO_NAME = ["Call", "CALL", "calls", "cal", "ticks", "tic", "Clear", "ends", "en", "5", "AA05", "call,", "exit.", "delay=3", "forces", "shift:", "`",
           "x" * 40, "x" * 41, "y" * 300, "\xef\xbb\xbfclear", "\xff\xfe", "\x00", "clock\x0b"]
MOODS = {  # how often each line comes: call-up, tick, clock, clear, force or exit, bad line, blank or comment, shift or end
    "creep": [50, 40, 1, 1, 1, 2, 2, 3],  # tick by tick: when exactly a place is free
    "rush": [80, 10, 2, 1, 1, 2, 2, 3],
    "steady": [40, 40, 4, 1, 1, 4, 4, 4],
    "shift": [70, 6, 3, 1, 1, 3, 3, 14],
    "troubled": [45, 18, 4, 4, 12, 6, 3, 8],
    "sloppy": [35, 15, 5, 3, 4, 28, 12, 8],
}


class Night:
    def __init__(self, seed, lines):
        self.draw = random.Random(seed)
        self.lines = lines
        self.mood = self.draw.choice(list(MOODS))
        self.delay = 0
        self.forced = self.in_shift = False
        self.said = []  # slot and reading of earlier call-ups
        self.ticks = (1, 2) if self.mood == "creep" else self.draw.choice([(1, 20), (1, 120), (30, 300), (100, 900)])
        self.longest = self.draw.choice([1, 4, 4, 12, 30])  # words of most call-ups
        self.slots = self.draw.choice([MOST_SLOT, MOST_SLOT, 3])

    def number(self, value):
        return "%s%d" % ("0" * self.draw.choice([0] * 30 + [1, 2, 40]), value)

    def word(self):
        draw = self.draw
        value = draw.choice([draw.randrange(0xAA00, 0xAA10), draw.choice(TELLING), draw.getrandbits(16)])
        return draw.choice(["%04X", "%04X", "%04x"]) % value

    def count(self):
        draw = self.draw
        odd = draw.random()
        if odd < 0.04:
            return draw.choice([0, 31, 32, 33])
        if odd < 0.044:
            return draw.choice([34, 64, 255, 256, 257, 600])
        if odd < 0.09:
            return draw.choice([1, 29, 30])
        return draw.randint(1, self.longest)

    def slot_and_reading(self):
        draw = self.draw
        if self.said and draw.random() < 0.15:
            return draw.choice(self.said)
        slot = draw.randint(0, self.slots)
        if draw.random() < 0.06:
            slot = draw.choice([40, 41, 64, 100, 255, 256, 296, 65535, draw.randint(40, MOST_16)])
        self.said.append((slot, draw.choice([0, 1, MOST_16, draw.randint(0, MOST_16), draw.randint(0, 1440)])))
        return self.said[-1]

    def call(self):
        slot, reading = self.slot_and_reading()
        return ["call", self.number(slot), self.number(reading), *(self.word() for _ in range(self.count()))]

    def tick(self):
        draw = self.draw
        most = draw.random()
        if most < 0.05:
            return ["tick", self.number(draw.choice([0, 0, 1, 17, 18, 35, 36, 72]))]
        if most < 0.07:
            return ["tick", self.number(draw.randint(1000, 3000))]
        return ["tick", self.number(draw.randint(*self.ticks))]

    def clock(self):
        return ["clock", self.number(self.draw.choice([0, 5, MOST_16, self.draw.randint(0, MOST_16)]))]

    def force(self):
        """Mostly in turns, so that the night does not stay in FAILSAFE."""
        if self.draw.random() < 0.1:
            self.forced = not self.forced
        self.forced = not self.forced
        return ["force" if self.forced else "exit"]

    def budget(self):
        draw = self.draw
        kind = draw.random()
        if kind < 0.12:
            return draw.choice([0, 1, 2, 35, 36, 71, 72, 73])
        if kind < 0.4:
            return draw.randint(3, 400)
        if kind < 0.65:
            return draw.randint(400, 3000)
        return draw.choice([9000, 20000, MOST_TICKS]) if self.delay < 500 else draw.randint(4000, 12000)

    def shift(self):
        self.in_shift = not self.in_shift
        return ["shift", self.number(self.budget())] if self.in_shift else ["end"]

    def bad(self):
        draw = self.draw
        most = {"tick": MOST_TICKS, "shift": MOST_TICKS, "clock": MOST_16, "delay": MOST_DELAY}
        kind = draw.randrange(9)
        if kind == 0:
            return [draw.choice(NO_NAME), *draw.choice([[], ["1"], ["5", "21600", "AA05"]])]
        if kind == 1:
            return ["call", *draw.choice([[], [draw.choice(NO_NUMBER + ["65536", "070000"]), "1", "AA05"]])]
        if kind == 2:
            return ["call", "5", *draw.choice([[], [draw.choice(NO_NUMBER + ["65536", "100000"]), "AA05"]])]
        if kind == 3:
            words = [self.word() for _ in range(draw.choice([0, 1, 2, 30, 31, 40]))]
            words.insert(draw.randint(0, len(words)), draw.choice(NO_WORD))
            return ["call", "5", "21600", *words]
        if kind in (4, 5):
            name = draw.choice(list(most))
            return [name, *draw.choice([[], [draw.choice([*NO_NUMBER, str(most[name] + 1), "00%d" % (most[name] + 1)])]])]
        if kind == 6:
            name = draw.choice(NAMES[1:])
            right = [str(draw.choice([0, 1, most[name]]))] if name in most else []
            return [name, *right, draw.choice([*NO_NUMBER, *NO_WORD, *NAMES, "0", "7"])]
        if kind == 7:
            return ["shift", str(self.budget())] if self.in_shift else ["end"]
        return ["delay", self.number(draw.choice([0, 1, 18, MOST_DELAY]))]

    def nothing(self):
        return [self.draw.choice(["", "", "# a truck", "#call 5 21600 AA05", "#\xe4#\x01", "\t# call"])]

    def body(self):
        makers = [self.call, self.tick, self.clock, lambda: ["clear"], self.force, self.bad, self.nothing, self.shift]
        while True:
            if self.forced and self.draw.random() < 0.15:
                yield self.force()
            yield self.draw.choices(makers, MOODS[self.mood])[0]()

    def head(self):
        """Mostly `clear` first; some call-ups find POR, some FAILSAFE too."""
        draw = self.draw
        if draw.random() < 0.75:
            far = [36, draw.randint(0, 100), draw.randint(0, 1000), draw.randint(0, MOST_DELAY), MOST_DELAY]
            self.delay = draw.choice([0, 1, 2, 17, 18] + (far if self.mood != "creep" else [1]))
            if draw.random() < 0.2:
                yield ["delay", self.number(draw.randint(0, MOST_DELAY))]
            yield ["delay", self.number(self.delay)]
        if draw.random() < 0.1:
            yield from ([draw.choice(["force", "tick 0", "tick 3", "clock 7"])] for _ in range(2))
            self.forced = draw.random() < 0.5
        if draw.random() < 0.2:
            yield from (self.call() for _ in range(draw.randint(1, 6)))
        if draw.random() < 0.96:
            yield ["clear"]
        if self.mood == "shift" and draw.random() < 0.8:
            yield self.shift()

    def tail(self):
        """Some nights run out at the end, so that all is shown."""
        draw = self.draw
        if draw.random() < 0.6:
            return []
        return [["exit"], ["clear"], *([["end"]] if self.in_shift else []), draw.choice([["tick", "2500"], ["shift", "20000"], ["tick", "700"]])]

    def made(self):
        """One thing a line, in all its lines."""
        found = []
        for maker in (self.head(), self.body()):
            for line in maker:
                if len(found) == self.lines:
                    break
                found.append(line)
        tail = self.tail()
        return found[:max(0, self.lines - len(tail))] + tail[:self.lines]

    def printed(self):
        """With blanks, tabs, comments and line ends that do no harm."""
        draw = self.draw
        ends = draw.choice([["\n"], ["\n"], ["\r\n"], ["\n", "\r\n"]])
        wide = draw.random() < 0.3
        text = end = ""
        for line in self.made():
            end = draw.choice(ends)
            if wide:
                gap = draw.choice([" ", "  ", "\t", " \t "])
                text += draw.choice(["", "", " ", "\t"]) + gap.join(line) + draw.choice(["", "", "", " ", " # slot 5", "#", "\t#\t# x"]) + end
            else:
                text += " ".join(line) + end
        return (text.removesuffix(end) if draw.random() < 0.1 else text).encode("latin-1")


def night(seed, lines):
    return Night(seed, lines).printed()


def main():
    if len(sys.argv) != 3 or not all(word.isascii() and word.isdigit() for word in sys.argv[1:]):
        sys.exit("make_nights.py SEED LINES: expected two numbers, found `%s`" % " ".join(sys.argv[1:]))
    sys.stdout.buffer.write(night(int(sys.argv[1]), int(sys.argv[2])))


if __name__ == "__main__":
    main()
