#!/usr/bin/env python3
"""make_lists.py SEED CALLS > file.cwl

Random calls for list_model.c (02, item 6), the same for the same seed. The good lists, one behind the other, are a script of make_scripts.py, so
the state goes on as in one. A list that is to be refused shows the events that come next, with one fault or several (a record, the result slice,
the stores), and the script goes on where it was. BRIDGE_MODEL as in make_scripts.py.
"""
import random
import sys

from make_scripts import POWER, RELEASE, TICK, Maker

HEAD, SCRIPT_HEAD = b"CWL\x00\x01", b"CWB\x00\x01"
RECORD, RESULT = 3, 4  # bytes of an event and of what it gives
MOST_RECORDS, MOST_RESULTS = 400, 4400
TX, RX = 512, 256
# which of records, result slice and stores are wrong; several at once tell the order 22, 23, 1
FAULTS = {"": 60, "e": 9, "r": 7, "s": 7, "er": 5, "es": 5, "rs": 5, "ers": 6}


class Lists:
    def __init__(self, seed, calls):
        self.draw = random.Random(f"lists {seed}")
        plan = [(self.size(), self.faults()) for _ in range(calls)]
        events = sum(size for size, faults in plan if not faults) + MOST_RECORDS
        self.plan = plan
        self.script = Maker(seed, events).run().removeprefix(SCRIPT_HEAD)
        self.at = 0

    def size(self):
        draw = self.draw
        return draw.choice([0, 1, 1, 2, 3, draw.randint(4, 20), draw.randint(20, 120), draw.randint(20, 120),
                            draw.randint(0, MOST_RECORDS), draw.randint(0, MOST_RECORDS), MOST_RECORDS])

    def faults(self):
        return self.draw.choices(list(FAULTS), list(FAULTS.values()))[0]

    # ---- the records ----
    def bad_kind(self, record):
        return bytes([self.draw.choice([5, 5, 6, 7, 8, 16, 127, 128, 131, 255, self.draw.randint(5, 255)])]) + record[1:]

    def bad_value(self, record):
        """The low byte alone, or the high byte alone, may be that of an event."""
        draw = self.draw
        kind = record[0] if record[0] in (POWER, RELEASE, TICK) and draw.random() < 0.7 else draw.choice([POWER, RELEASE, TICK])
        least = {POWER: 4, RELEASE: 1, TICK: 2}[kind]
        value = draw.choice([least, least, least + 1, 5, 0x80, 0x0100, 0x0101, 0x0103, 0x8001, 0xFF00, 0xFFFF, draw.randint(least, 0xFFFF)])
        return bytes([kind]) + value.to_bytes(2, "big")

    def spoiled(self, records):
        """One record or some that are no events, or the last is cut, or both."""
        draw = self.draw
        ways = draw.choice(["k", "k", "v", "v", "v", "c", "c", "kv", "vv", "kc", "vc"])
        if not records and ways != "c":
            records = [bytes([draw.choice([TICK, RELEASE, POWER]), 0, 0])]
        for way in ways.removesuffix("c"):
            place = draw.choice([0, len(records) - 1, draw.randrange(len(records)), draw.randrange(len(records))])
            records[place] = (self.bad_kind if way == "k" else self.bad_value)(records[place])
        if not ways.endswith("c"):
            return b"".join(records)
        if not records:
            return bytes([TICK, 0])[:draw.choice([1, 2])]
        return b"".join(records)[:-draw.choice([1, 2])]

    # ---- what is lent ----
    def enough(self, need):
        draw = self.draw
        return draw.choice([need, need, need, need + 1, need + 3, need + 4, need + draw.randint(1, 64), draw.randint(need, MOST_RESULTS),
                            MOST_RESULTS])

    def short(self, need):
        """One cell, one event or more; no events need no cells, so there it is enough."""
        draw = self.draw
        cells = draw.choice([need - 1, need - 1, need - 1, need - 4, need // RESULT * RECORD, 0, draw.randint(0, max(need - 1, 0))])
        return max(cells, 0)

    def wrong_stores(self):
        draw = self.draw
        tx = draw.choice([TX - 1, TX - 1, 0, 1, RX, RX - 1, draw.randrange(TX)])
        rx = draw.choice([RX - 1, RX - 1, 0, 1, draw.randrange(RX)])
        return draw.choice([(tx, rx), (tx, RX), (TX, rx)])

    # ---- the calls ----
    def call(self, size, faults):
        records = [self.script[at:at + RECORD] for at in range(self.at, self.at + RECORD * size, RECORD)]
        listed = self.spoiled(records) if "e" in faults else b"".join(records)
        need = RESULT * (len(listed) // RECORD)
        results = self.short(need) if "r" in faults else self.enough(need)
        tx, rx = self.wrong_stores() if "s" in faults else (TX, RX)
        if not faults:
            self.at += len(listed)
        return b"".join(number.to_bytes(2, "big") for number in (len(listed), results, tx, rx)) + listed

    def run(self):
        return HEAD + b"".join(self.call(size, faults) for size, faults in self.plan)


def main():
    if len(sys.argv) != 3 or not all(word.isascii() and word.isdigit() for word in sys.argv[1:]):
        sys.exit("use: make_lists.py SEED CALLS > file.cwl")
    sys.stdout.buffer.write(Lists(int(sys.argv[1]), int(sys.argv[2])).run())


if __name__ == "__main__":
    main()
