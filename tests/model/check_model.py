#!/usr/bin/env python3
"""check_model.py - hand-checked small scripts for bridge_model, with 01's own numbers, and 02's where it changes them.

Every expected value below is a literal from the documents or is worked out in the comment
beside it; nothing is taken from the model. CRC words are computed by binascii (CRC-CCITT,
start 0xFFFF; XMODEM, start 0), not by the model's or the generator's code. "sheet" is document 001.
"""
import binascii
import os
import subprocess
import sys

HERE = os.path.dirname(os.path.abspath(__file__))
MODEL = os.path.join(HERE, "bridge_model")
failures = []


def crc_from(start, *words):
    return binascii.crc_hqx(b"".join(w.to_bytes(2, "big") for w in words), start)


def crc(*words):
    return crc_from(0xFFFF, *words)


def xmodem(*words):
    return crc_from(0, *words)


def raw(data):
    return subprocess.run([MODEL], input=data, capture_output=True, check=True).stdout.decode()


def expect(name, got, want):
    if got != want:
        failures.append(name)
        print(f"FAIL {name}: got {got!r}, want {want!r}")


class Script:
    """Events in order; the results are asked for afterwards by event number."""

    def __init__(self):
        self.data = bytearray(b"CWB\x00\x01")
        self.count = 0
        self.layout(False)

    def add(self, kind, value=0):
        self.data += bytes((kind, value >> 8, value & 255))
        self.count += 1
        return self.count - 1

    def layout(self, makers):
        """How the frames from here on are written: where an address stands, SOFTRESET_CRC, and the start of the CRC."""
        self.address_at, self.reset_word, self.start = (6, 0xE1E1, 0xFFFF) if makers else (0, 0xE000, 0xFFFF)

    def power(self, value):
        """02 item 7: 0 and 1 our layout, 2 and 3 the maker's; bad and good."""
        self.layout(value >= 2)
        return self.add(0, value)

    def word(self, *values):
        return [self.add(1, v) for v in values][-1]

    def release(self):
        return self.add(2)

    def ticks(self, bits):
        return [self.add(3, b) for b in bits]

    def clock(self, value):
        return self.add(4, value)

    def frame(self, *words):
        """Command, data and right CRC word; gives the event of the CRC word."""
        return self.word(*words, crc_from(self.start, *words))

    def answer(self, count=2):
        """Clocks out an answer; gives its first event."""
        return [self.word(0xFFFF) for _ in range(count)][0]

    def write(self, address, value):
        """REG_WR of one register with its answer; the event of the data word."""
        self.frame(0xB000 | address << self.address_at, value)
        here = self.count - 2
        self.answer()
        return here

    def read(self, address):
        """REG_RD of one register; the event whose SDO is the value."""
        self.frame(0xD000 | address << self.address_at)
        return self.answer()

    def algorithm(self, value, start):
        """SPICTRL written; the frames behind it with this start."""
        self.write(1, value)
        self.start = start

    def reset(self):
        here = self.frame(self.reset_word)
        self.answer()
        return here

    def run(self):
        self.lines = [line.split() for line in raw(bytes(self.data)).splitlines()]
        assert len(self.lines) == self.count
        return self

    def note(self, event):
        return int(self.lines[event][2])

    def sdo(self, event):
        return int(self.lines[event][3], 16)

    def sout(self, events):
        return [int(self.lines[e][4]) for e in events]


def powered(value=3):
    s = Script()
    s.power(value)
    return s


def cleared(s=None):
    s = s or Script()
    s.write(7, 0x8000)
    return s


def bits(word):
    """Sixteen bits high first and the check bit, by text."""
    text = format(word, "016b")
    return [int(c) for c in text] + [int(text[-1] == "0")]


def command(*words):
    line = [0]
    for word in words:
        line += bits(word)
    return line + [1] * 18


# ---- the bench program ----
def check_bench():
    example = bytes.fromhex("4357420001000001" "01FFFF" "030001")
    lines = "0 0001 0 FFFF 1\n1 FFFF 0 FFFF 1\n3 0001 0 FFFF 1\n"
    expect("example", raw(example), lines)
    expect("head only", raw(b"CWB\x00\x01"), "")
    for head in (b"", b"C", b"CWB", b"CWB\x00", b"CWB\x01\x00", b"CWB\x00\x02", b"cwb\x00\x01"):
        expect(f"head {head!r}", raw(head), "bad script\n")
    for bad in ("050000", "000004", "000005", "000101", "000103", "008003", "0000FF", "020001", "030002", "030003", "01FF", "01", "FF"):
        expect(f"record {bad}", raw(example + bytes.fromhex(bad)), lines + "bad record\n")
    # 02 item 7: power-ups of 0 to 3
    powers = bytes.fromhex("000000" "000002" "000003" "000001")
    expect("powers", raw(b"CWB\x00\x01" + powers), "".join(f"0 000{value} 0 FFFF 1\n" for value in (0, 2, 3, 1)))
    expect("stops", raw(example + bytes.fromhex("050000030001")), lines + "bad record\n")
    expect("capitals", raw(b"CWB\x00\x01" + bytes.fromhex("04ABCD")), "4 ABCD 0 FFFF 1\n")


# ---- numbers on both sides ----
def check_crc():
    expect("crc FFFF", crc(0xFFFF), 0x0000)
    expect("crc FFFE", crc(0xFFFE), 0x1021)
    expect("crc FFFD", crc(0xFFFD), 0x2042)
    s = Script()
    s.frame(0x9000)
    empty = s.answer()                      # RX is empty: 0xFFFF, whose CRC is 0x0000
    s.run()
    expect("note 15", s.note(empty), 15)
    expect("note 15 word", (s.sdo(empty), s.sdo(empty + 1)), (0xFFFF, 0x0000))


def accepted(word):
    """01's layout table with the address limit of 02 item 4, written down apart from the model."""
    number, low = word >> 12, word & 0xFFF
    if number in (3, 4, 5, 6, 7):
        return True
    if number == 2:
        return low < 512
    if number in (8, 9):
        return low < 256
    if number in (10, 11, 12, 13):
        return low // 16 % 16 == 0 and low % 16 + low // 256 + 1 <= 12
    return word in (0xE000, 0xFFFF)


def check_words():
    s = Script()
    first = {}
    for word in range(0x10000):
        s.power(1)
        first[word] = s.word(word)
    s.run()
    for word, want in ((0x21FF, 0), (0x2200, 3), (0xA10A, 0), (0xA10B, 3), (0xF000, 3)):
        expect(f"word {word:04X}", s.note(first[word]), want)
    # 02 item 4, address + count at most 12: 10 + 2, 11 + 1, 0 + 12; 11 + 2, 12 + 1, 0 + 13 are over it
    for low, want in ((0x10A, 0), (0x00B, 0), (0xB00, 0), (0x10B, 3), (0x00C, 3), (0xC00, 3)):
        for number in (10, 11, 12, 13):
            expect(f"limit, word {number << 12 | low:04X}", s.note(first[number << 12 | low]), want)
    wrong = [w for w, e in first.items() if s.note(e) != (0 if accepted(w) else 3)]
    expect("all command words", wrong, [])


def check_status():
    s = Script()
    up = s.read(7)
    s.frame(0xB007, 0x8000)
    after = s.answer()
    s.frame(0xB005, 0x0004)
    forced = s.answer()
    s.power(0)
    bad = s.read(7)
    s.run()
    expect("status up", s.sdo(up), 0x0403)
    expect("status crc", s.sdo(up + 1), crc(0x0403))
    expect("status clear", s.sdo(after), 0x0400)
    expect("status forced", s.sdo(forced), 0x0431)
    expect("status bad OTP", s.sdo(bad), 0x041B)


def check_reset_values():
    s = Script()
    s.frame(0xDB00)                         # twelve registers and their CRC
    first = s.answer(13)
    s.run()
    want = [0, 0, 0, 0x003F, 0x00FF, 0, 0, 0x0403, 0, 0, 0, 0]
    expect("reset values", [s.sdo(first + i) for i in range(13)], want + [crc(*want)])
    s = cleared()
    for address in (0, 1, 2, 3, 4, 6, 8, 9, 10, 11):
        s.write(address, 0x7FFF)
    s.frame(0xDB00)
    first = s.answer(13)
    s.run()
    want = [0, 0x7F01, 0x7FFF, 0x01FF, 0x00FF, 0, 0x0B01, 0x0400, 0, 0, 0, 0]
    expect("writable bits", [s.sdo(first + i) for i in range(12)], want)


# ---- the line ----
def sent_word(word, ticks):
    """One FWD_RD_END word looped straight back for so many ticks, then STATUS and a reset."""
    s = cleared()
    s.frame(0x7000, word)
    s.answer()
    out = s.ticks((command(word) + [1] * 4)[:ticks])
    status, busy, reset = s.read(7), s.write(2, 0x1234), s.reset()
    s.run()
    return s.sout(out), s.sdo(status) >> 10 & 1, s.note(busy), s.note(reset)


def check_line():
    for word, end in ((0xAAF0, 35), (0xAA0F, 36)):
        for ticks in range(30, 41):
            out, drdy, busy, reset = sent_word(word, ticks)
            name = f"{word:04X} after {ticks}"
            expect(name + " SOUT", out, (command(word) + [1] * 4)[:ticks])
            expect(name + " DRDY", drdy, 0 if ticks >= end else 1)   # END read at 35, 36
            expect(name + " busy", busy, 0 if ticks >= 36 else 10)
            expect(name + " reset", reset, 0 if ticks >= 36 else 11)  # sent at 36


def check_ends():
    for ticks, want in ((1, 11), (53, 11), (54, 0)):
        s = cleared()
        s.frame(0x5060)                     # no words, 3 extra ENDs: 54 ticks
        s.answer()
        out = s.ticks([1] * ticks)
        reset = s.reset()
        s.run()
        expect(f"3 ENDs after {ticks}", (s.sout(out), s.note(reset)), ([1] * ticks, want))
    s = cleared()
    s.frame(0x5062, 0x8001, 0x7FFE)         # 19 + 17 x 2 + 18 x 3 = 107
    s.answer()
    out = s.ticks([1] * 107)
    late = s.ticks([1])
    reset = s.reset()
    s.run()
    expect("2 words 3 ENDs", s.sout(out), command(0x8001, 0x7FFE) + [1] * 54)
    expect("2 words 3 ENDs over", (s.sout(late), s.note(reset)), ([1], 0))


def check_next_start():
    s = cleared()
    for word in (0xAAF0, 0x5555):
        s.frame(0x3000, word)
        s.answer()
    out = s.ticks([1] * 72)
    s.run()
    expect("start follows END at once", s.sout(out), command(0xAAF0) + command(0x5555))


# ---- 02 item 2: TXFFLVL powers up at 63 ----
def check_start_level():
    """The word that releases a FWD_WR of so many words: one earlier nothing begins. Level None: not written."""
    for level, count, first in ((None, 1, 1), (None, 63, 63), (None, 64, 64), (None, 65, 64), (None, 66, 64), (None, 512, 64),
                                (None, 513, 64), (0x003F, 65, 64), (62, 65, 63), (64, 65, 65), (64, 66, 65), (0x01FF, 65, 65),
                                (0x01FF, 511, 511), (0x01FF, 512, 512), (0x01FF, 513, 512)):
        s = cleared()
        if level is not None:
            s.write(3, level)
        given = [s.word(word) for word in (0x3000 | count - 1, *range(first - 1))]
        held = s.ticks([1] * 40)
        given.append(s.word(first - 1))
        out = s.ticks([1] * 2)              # a word is taken at the second: room for a 513th
        given += [s.word(word) for word in range(first, count)]
        out += s.ticks([1] * (17 * count + 18))
        given.append(s.word(crc(0x3000 | count - 1, *range(count))))
        status = s.answer()
        s.run()
        name = f"level {level}, {count} words: "
        expect(name + f"{first - 1} stored", s.sout(held), [1] * 40)
        expect(name + f"{first} stored", s.sout(out), command(*range(count)) + [1])
        expect(name + "notes", {s.note(e) for e in held + out + given}, {0})
        expect(name + "status", s.sdo(status), 0x0400)


def check_level_counts_the_fifo():
    for own, left in ((3, 60), (4, 0)):
        s = Script()                        # POR is up: 60 words of a first forward wait in TX
        s.frame(0x303B, *range(60))
        s.answer()
        s.word(0x3009, *range(own))
        cut = s.release()                   # 63 words: taken back; 64: released, data missing, a transmit clear
        fifo = s.read(9)
        s.run()
        expect(f"60 words and {own}", (s.note(cut), s.sdo(fifo)), (12, left))


def check_level_stays():
    """Levels read back: a soft reset leaves them, a power-up of either kind gives 63 and 255."""
    for good in (1, 0):
        s = Script()
        levels, resets = [(s.read(3), s.read(4))], [s.reset()]
        levels.append((s.read(3), s.read(4)))
        for level in (0x01FF, 0x003E, 0x0040):
            s.write(3, level)
            s.write(4, 3)
            resets.append(s.reset())
            levels.append((s.read(3), s.read(4)))
            s.power(good)
            levels.append((s.read(3), s.read(4)))
        s.run()
        up = (0x003F, 0x00FF)
        want = [up, up, (0x01FF, 3), up, (0x003E, 3), up, (0x0040, 3), up]
        expect(f"levels, power {good}", [(s.sdo(tx), s.sdo(rx)) for tx, rx in levels], want)
        expect(f"levels, resets, power {good}", [s.note(e) for e in resets], [0] * 4)


def paced(count, period):
    """FWD_WR at the power-up level: 64 words at once, then one every so many ticks, the start bit's tick the first of them.

    The ticks with a note; how many later words were stored, how many dropped; whether SOUT has the words taken, END and 1s.
    """
    s = cleared()
    s.word(0x3000 | count - 1, *range(64))
    out, later = [], []
    while len(out) < 1 + 17 * count + 18:
        out += s.ticks([1])
        if len(out) % period == 0 and 64 + len(later) < count:
            later.append(s.word(64 + len(later)))
    s.run()
    notes = {tick: s.note(e) for tick, e in enumerate(out) if s.note(e)}
    line = command(*range(min(notes, default=17 * count + 1) // 17))
    given = [s.note(e) for e in later]
    return notes, given.count(0), given.count(5), s.sout(out) == line + [1] * (len(out) - len(line))


def check_level_starves():
    """Word k is taken 17 k + 1 ticks after the start bit's tick; 64 words and (17 k + 1) / period have come by then."""
    expect("65 words, 64 come", paced(65, 9999), ({17 * 64 + 1: 13}, 0, 0, True))
    # one in 34 ticks: word 126 at tick 2,143 is the last of 64 + 63; word 127, at tick 2,160, comes 16 ticks later and is dropped
    expect("127 words, one in 34 ticks", paced(127, 34), ({}, 63, 0, True))
    expect("128 words, one in 34 ticks", paced(128, 34), ({2160: 13}, 63, 1, True))
    # one in 18 ticks: word 1,135 at tick 19,296 is the last of 64 + 1,072, come just before it; word 1,136 at tick 19,313 comes a tick later
    expect("1136 words, one in 18 ticks", paced(1136, 18), ({}, 1072, 0, True))
    expect("1137 words, one in 18 ticks", paced(1137, 18), ({19313: 13}, 1072, 1, True))
    expect("1137 words, one in 17 ticks", paced(1137, 17), ({}, 1073, 0, True))


# ---- 02 item 3: a forward with words and extra ENDs has two places ----
ENDS = 0x5020                               # FWD_WR_END of no words and one END: one place, released at the command word
BOTH = 0x5021                               # of one word and one END: two places, released at the data word


def looped_back(line, delay, ticks):
    """SIN of so many ticks where this line comes back with a delay; None: it never does."""
    if delay is None:
        return [1] * ticks
    return ([1] * delay + line + [1] * ticks)[:ticks]


def offer(s, *words):
    """One more forward; the event at which it is released. Its frame is finished."""
    here = s.word(*words)
    s.word(crc(*words))
    s.answer()
    return here


def check_pair_needs_two():
    """Nothing starts, POR is up. Four forwards with both fill the eight places; _CRC forms are released at the CRC word."""
    for both in ((0x5021, 1), (0x7020, 1), (0x4021, 1, crc(0x4021, 1)), (0x6020, 1, crc(0x6020, 1))):
        for more in ((ENDS,), (0x3000, 7), both):
            s = Script()
            notes, fifo = [], []
            for _ in range(4):
                notes.append(s.word(*both))
                s.word(*([] if both[0] in (0x4021, 0x6020) else [crc(*both)]), 0xFFFF, 0xFFFF)
            fifo.append(s.read(9))
            ninth = s.word(*more)
            s.release()                     # cut or not: nothing was queued, nothing is taken back
            fifo.append(s.read(9))
            faces = s.read(8)
            s.run()
            name = f"four of {both[0]:04X}, then {more[0]:04X}"
            expect(name, [s.note(e) for e in notes + [ninth]], [0, 0, 0, 0, 9])
            expect(name + ": TXFFST", [s.sdo(e) for e in fifo], [4, 0])
            expect(name + ": QUEUE_OVF", s.sdo(faces) & 0x0010, 0x0010)


def seven_places(*last):
    """In FAILSAFE, where all is queued and nothing starts: three forwards with both and one of words alone, then this one; a script."""
    s = cleared()
    s.write(5, 4)
    for word in (0x8001, 0x8002, 0x8003):
        offer(s, BOTH, word)
    offer(s, 0x3000, 0x8004)
    return s, offer(s, *last)


def check_pair_and_one_place():
    """Seven places used: room for a forward that needs one, and then for none; not for one with both, of which nothing is queued."""
    queued = [bit for word in (0x8001, 0x8002, 0x8003) for bit in command(word) + [1] * 18] + command(0x8004)
    for last, line in (((ENDS,), [1] * 18), ((0x5001, 5), command(5)), ((0x3000, 6), command(6)), ((0x7000, 7), command(7)),
                       ((0x3002, 1, 2, 3), command(1, 2, 3))):
        s, asked = seven_places(*last)
        s.write(5, 1)
        out = s.ticks([1] * 300)
        s.run()
        expect(f"one place free, then {last[0]:04X}", s.note(asked), 0)
        expect(f"one place free, then {last[0]:04X}: SOUT", s.sout(out), (queued + line + [1] * 300)[:300])
        s, asked = seven_places(*last)
        again = s.word(ENDS)
        s.run()
        expect(f"one place free, then {last[0]:04X} and an END", (s.note(asked), s.note(again)), (0, 9))
    for last in ((BOTH, 8), (0x7020, 8), (0x7021, 8, 9), (0x5FE2, 8, 9)):
        s, asked = seven_places(*last)
        faces, fifo = s.read(8), s.read(9)
        s.write(7, 0x8000)
        s.write(5, 1)
        out = s.ticks([1] * 300)            # the owed END, and nothing
        s.run()
        expect(f"one place free, then {last[0]:04X}", (s.note(asked), s.sdo(faces), s.sdo(fifo)), (9, 0x0010, 0))
        expect(f"one place free, then {last[0]:04X}: SOUT", s.sout(out), [1] * 300)


def check_pair_released_early():
    """Level 0, POR up: the first data word releases, both places or none."""
    for singles, notes, want in ((0, [0, 0, 0], 0x0403), (1, [9, 5, 5], 0x4403)):
        s = Script()
        for word in range(3):
            offer(s, BOTH, word)
        for _ in range(singles):
            offer(s, ENDS)
        s.write(3, 0)
        s.word(0x5023)
        given = [s.word(word) for word in (7, 8, 9)]
        s.word(crc(0x5023, 7, 8, 9))
        status = s.answer()
        s.run()
        expect(f"released early, {6 + singles} places used", ([s.note(e) for e in given], s.sdo(status)), (notes, want))
    s = cleared()
    s.write(3, 0)
    s.word(0x5022, 7)                       # released, one word missing
    cut = s.release()                       # a transmit clear takes both places
    notes = [offer(s, BOTH, 1) for _ in range(4)]
    ninth = s.word(ENDS)
    s.run()
    expect("released early and cut", [s.note(e) for e in [cut, *notes, ninth]], [12, 0, 0, 0, 0, 9])


def freed_at(word, ends, delay, last):
    """A forward with this word and ENDs, six ENDs behind it: all places used; FAILSAFE from its first bit on, so only it is sent.

    The first ticks after which one place is free, and two (None: not up to tick `last`).
    """
    line = command(word) + [1] * 18 * ends
    s = Script()
    asked = {}
    for ticks in range(1, last + 1):
        for more in ((ENDS,), (BOTH, 0x1111)):
            s.power(1)
            s.write(7, 0x8000)
            offer(s, 0x5001 | ends << 5, word)
            for _ in range(6):
                offer(s, ENDS)
            sin = looped_back(line, delay, ticks)
            s.ticks(sin[:1])
            s.write(5, 4)
            s.ticks(sin[1:])
            asked[ticks, len(more)] = s.word(*more)
    s.run()
    found = []
    for needed in (1, 2):
        good = [ticks for ticks in range(1, last + 1) if s.note(asked[ticks, needed]) == 0]
        found.append(good[0] if good else None)
        refused = [s.note(asked[ticks, needed]) for ticks in range(1, good[0] if good else last + 1)]
        expect(f"{word:04X}, {ends} ENDs, delay {delay}: note 9 before, 0 from then on", (set(refused), len(refused) + len(good)), ({9}, last))
    return tuple(found)


def check_pair_freed():
    """One word: its own END is sent with tick 36, the extra ENDs with tick 36 + 18 each, in FAILSAFE too.

    Straight back END of 0xAAF0 is read at tick 35, of 0xAA0F at tick 36, and later by the delay. The words' place is freed when both are so.
    """
    for word, ends, delay, want in ((0xAAF0, 1, 0, (36, 54)), (0xAA0F, 1, 0, (36, 54)), (0xAAF0, 2, 0, (36, 72)), (0xAAF0, 1, 1, (36, 54)),
                                    (0xAAF0, 1, 2, (37, 54)), (0xAA0F, 1, 1, (37, 54)), (0xAA0F, 2, 10, (46, 72)),
                                    (0xAA0F, 1, 17, (53, 54)), (0xAA0F, 1, 18, (54, 54)),   # both with the last 1
                                    (0xAA0F, 1, 19, (54, 55)), (0xAAF0, 1, 40, (54, 75)),   # the ENDs' place first
                                    (0xAAF0, 2, None, (72, None)), (0x1234, 1, 0, (36, 54))):
        expect(f"{word:04X}, {ends} ENDs, delay {delay}: freed", freed_at(word, ends, delay, 80), want)


def check_pair_compared():
    """Two words and three ENDs: sent at tick 1 + 34 + 18 = 53 and 107. END of a word with last bit 0 is read a bit early, at 52.

    The CRCs are compared when the words' place is freed; the ENDs still go out.
    """
    right = (0xAA00, 0x1234)
    for sent, read, delay, at in ((right, (0xAA00, 0x1236), 0, 53), (right, (0xAA00, 0x1236), 10, 62), (right, (0xAA00, 0x1236), 60, 112),
                                  (right, (0xAA00,), 0, 53), (right, right, 0, None), (right, right, 10, None), (right, (), None, None),
                                  ((0xAB00, 0x1234), (0xAB00, 0x1236), 0, None)):
        for ticks in (1, 36, 51, 52, 53, 54, 61, 62, 70, 106, 107, 111, 112, 130):
            s = cleared()
            offer(s, 0x5062, *sent)
            out = s.ticks(looped_back(command(*read), delay, ticks))
            faces, reset = s.read(8), s.reset()
            s.run()
            name = f"words {sent} read as {read}, delay {delay}, tick {ticks}"
            expect(name + ": IFST", s.sdo(faces), 2 if at is not None and ticks >= at else 0)
            expect(name + ": sending", s.note(reset), 11 if ticks < 107 else 0)
            expect(name + ": SOUT", s.sout(out), (command(*sent) + [1] * 130)[:ticks])


def check_pair_stored():
    """FWD_RD_END of two words and an END: stored as before."""
    good = command(0xAA00, 0x1234)
    expect("pair, stored", looped(0x7021, [0xAA00, 0x1234], good), (0, 2))
    bad = [0] + bits(0xAA00) + bits(0x1234)[:16] + [0] + [1] * 18
    expect("pair, check error", looped(0x7021, [0xAA00, 0x1234], bad), (8, 1))


def check_pairs_follow():
    """Two forwards with both, looped: ENDs behind each, the second start bit at once; then the queue is empty."""
    line = command(0xAA01, 0x5555) + [1] * 36 + command(0xAAF0) + [1] * 18
    for delay in (0, 5, 40):
        s = cleared()
        offer(s, 0x5042, 0xAA01, 0x5555)
        offer(s, 0x7020, 0xAAF0)
        out = s.ticks(looped_back(line, delay, len(line) + 40))
        faces, fifo = s.read(8), s.read(10)
        notes = [offer(s, BOTH, 3) for _ in range(4)]
        ninth = s.word(ENDS)
        s.run()
        expect(f"pairs, delay {delay}", s.sout(out), line + [1] * 40)
        expect(f"pairs, delay {delay}: read", (s.sdo(faces), s.sdo(fifo)), (0, 1))
        expect(f"pairs, delay {delay}: queue", [s.note(e) for e in notes + [ninth]], [0] * 4 + [9])


def starved(ticks, sin, *more, fill=6):
    """Two words and two ENDs, but one word comes: note 13 at tick 19, its 1s to tick 36. After tick 19 the host gives the late word, clears
    the flags and queues so many ENDs; after so many ticks one forward more. Its note; IFST before it; a soft reset's note before it."""
    answers = []
    for ask in ("more", "reset"):
        s = cleared()
        s.write(3, 0)
        s.word(0x5042, 0xAA00)
        out = s.ticks(sin[:19])
        late = s.word(0x1111)
        s.word(crc(0x5042, 0xAA00, 0x1111))
        s.answer()
        s.write(7, 0x8000)
        if ask == "reset":
            s.write(5, 4)                   # so that nothing begins behind
        filled = [offer(s, ENDS) for _ in range(fill)]
        out += s.ticks(sin[19:ticks])
        faces = s.read(8)
        last = s.word(*more) if ask == "more" else s.reset()
        s.run()
        expect("starved pair: SOUT", s.sout(out), (command(0xAA00) + [1] * ticks)[:ticks])
        expect("starved pair: notes", [s.note(e) for e in out[:19] + [late] + filled], [0] * 18 + [13, 5] + [0] * fill)
        answers.append(s.note(last))
    return answers[0], s.sdo(faces), answers[1]


def check_pair_underflow():
    """Note 13 ends both, no extra ENDs: with the 1 of tick 36 the words are sent and the ENDs' place is freed.

    Straight back END is read at tick 35 (0xAA00 ends in 0).
    """
    never, back, other = [1] * 60, command(0xAA00) + [1] * 60, command(0xAA02) + [1] * 60
    slow = [1] * 5 + back                   # END read at tick 40
    for name, sin, ticks, more, want in (
            ("never", never, 35, (ENDS,), (9, 0, 11)), ("never", never, 36, (ENDS,), (0, 0, 0)), ("never", never, 36, (BOTH, 1), (9, 0, 0)),
            ("back", back, 34, (ENDS,), (9, 0, 11)), ("back", back, 35, (ENDS,), (9, 0, 11)), ("back", back, 36, (BOTH, 1), (0, 0, 0)),
            ("other", other, 35, (ENDS,), (9, 0, 11)), ("other", other, 36, (BOTH, 1), (0, 2, 0)),
            ("slow", slow, 36, (ENDS,), (0, 0, 0)), ("slow", slow, 39, (BOTH, 1), (9, 0, 0)), ("slow", slow, 40, (BOTH, 1), (0, 0, 0))):
        expect(f"starved pair, {name}, tick {ticks}, then {more[0]:04X}", starved(ticks, sin, *more), want)
    # seven places with the pair: at tick 35 no two are free, at tick 36 two, read back or not
    for ticks, want in ((35, 9), (36, 0)):
        expect(f"starved pair, seven places, tick {ticks}", starved(ticks, never, BOTH, 1, fill=5)[0], want)


def check_pair_cleared():
    """One word and two ENDs, and another pair behind: a transmit clear takes all places, and one END is owed from the next tick on."""
    line = command(0xAAF0) + [1] * 36
    for ticks in (1, 10, 18, 19, 30, 35, 36, 37, 54, 71):
        for delay in (0, None):
            s = cleared()
            offer(s, 0x5041, 0xAAF0)
            offer(s, BOTH, 0x5555)
            sin = looped_back(line, delay, ticks)
            before = s.ticks(sin)
            s.write(3, 0x803F)
            fifo = s.read(9)
            owed = s.ticks([1] * 17)
            busy = s.reset()
            owed += s.ticks([1])
            notes = [offer(s, BOTH, 0x8000) for _ in range(4)]
            out = s.ticks([1] * 2)
            ninth = s.word(ENDS)
            s.run()
            name = f"pair cleared after tick {ticks}, delay {delay}"
            expect(name + ": SOUT", s.sout(before + owed + out), line[:ticks] + [1] * 18 + [0, 1])
            expect(name + ": empty", (s.sdo(fifo), s.note(busy)), (0, 11))
            expect(name + ": eight free", [s.note(e) for e in notes + [ninth]], [0] * 4 + [9])


def check_pair_after_underflow():
    """Note 13 ended a command, by its own END or by a clear's: the next one has its extra ENDs."""
    line = command(0xAAF0) + [1] * 36
    for clears, owed in ((False, 17), (True, 18)):
        for ticks, want in ((71, 11), (72, 0)):
            s = cleared()
            s.write(3, 0)
            s.word(0x5042, 0xAA00)
            s.ticks([1] * 19)
            s.word(0x1111, crc(0x5042, 0xAA00, 0x1111))
            s.answer()
            s.write(7, 0x8000)
            if clears:
                s.write(3, 0x8000)
            offer(s, 0x5041, 0xAAF0)
            out = s.ticks([1] * (owed + ticks))
            reset = s.reset()
            s.run()
            expect(f"pair after an underflow, cleared {clears}, {ticks}", (s.sout(out), s.note(reset)), ([1] * owed + line[:ticks], want))


def check_pair_busy():
    """Notes 10 and 11 from the first bit to the last 1 of the ENDs (tick 72); they change nothing of it, nor does FAILSAFE or a flag."""
    line = command(0xAAF0) + [1] * 36 + command(0x5555)
    for ticks in (1, 30, 35, 36, 37, 54, 71, 72):
        for trouble in ("none", "FAILSAFE", "flag"):
            s = cleared()
            offer(s, 0x5041, 0xAAF0)
            out = s.ticks(line[:1])
            if trouble == "FAILSAFE":
                s.write(5, 4)
            elif trouble == "flag":
                s.word(0xE000, 0, 0xFFFF, 0xFFFF)  # wrong CRC word: note 6, SPI_CRC
            out += s.ticks(line[1:ticks])
            control, reset = s.write(2, 0x1234), s.reset()
            offer(s, 0x3000, 0x5555)
            out += s.ticks((line + [1] * 20)[ticks:108])
            s.run()
            name = f"pair busy after tick {ticks}, {trouble}"
            expect(name, (s.note(control), s.note(reset)), (10, 11) if ticks < 72 else (0, 0))
            expect(name + ": SOUT", s.sout(out), line[:72] + [1] * 36 if trouble == "FAILSAFE" else line)


def check_pair_longest():
    """32 words and 127 ENDs: 19 + 17 x 32 + 18 x 127 = 2,849 ticks."""
    words = range(0x8000, 0x8020)
    for ticks, want in ((2848, 11), (2849, 0)):
        s = cleared()
        offer(s, 0x7FFF, *words)
        out = s.ticks([1] * ticks)
        reset = s.reset()
        s.run()
        expect(f"longest pair, {ticks}", (s.sout(out), s.note(reset)), ((command(*words) + [1] * 18 * 127)[:ticks], want))


def check_reset_takes_pairs():
    s = Script()                            # POR is up: all wait
    notes = [offer(s, BOTH, 1) for _ in range(4)]
    reset, fifo = s.reset(), s.read(9)
    notes += [offer(s, BOTH, 1) for _ in range(4)]
    ninth = s.word(ENDS)
    s.run()
    expect("pairs reset", [s.note(e) for e in [*notes, reset, ninth]], [0] * 9 + [9])
    expect("pairs reset: TXFFST", s.sdo(fifo), 0)


# ---- 02 item 4: the number of the word with the bad check bit, register 11 ----
RIGHT = (0x1234, 0xFFFF, 0x0000, 0x8001, 0x7FFE)    # words before the bad one, over and over
CLEAR = (7, 0x8000)


def bad(word):
    """Sixteen bits high first and the wrong check bit."""
    return bits(word)[:16] + [word & 1]


def opened(right):
    """The start bit and so many words with a right check bit."""
    return [0] + [bit for at in range(right) for bit in bits(RIGHT[at % len(RIGHT)])]


def damaged(right):
    """A command with so many right words, a bad one and END. 0x1234 ends in 0 and is given the check bit 0: END is the eighteen 1s behind."""
    return opened(right) + bad(0x1234) + [1] * 18


def numbers(*actions):
    """From power-up, where nothing is sent, so that no command on the line has a place. A list is ticks, a pair a register write, "reset"
    a soft reset, "good" and "bad" a power-up; after each the number and CHECK_BIT are read."""
    s = Script()
    seen = []
    for action in actions:
        if isinstance(action, list):
            s.ticks(action)
        elif isinstance(action, tuple):
            s.write(*action)
        elif action == "reset":
            s.reset()
        else:
            s.power(int(action == "good"))
        seen.append((s.read(11), s.read(8)))
    s.run()
    return [(s.sdo(number), s.sdo(faces) >> 3 & 1) for number, faces in seen]


def check_number():
    """No error: 0. The number is there with the check bit, not a bit earlier; 300 words is more than RX holds."""
    expect("number, no error", numbers([1], command(), command(1, 2, 3), [1] * 40), [(0, 0)] * 4)
    for right in (0, 1, 2, 3, 17, 300):
        before = opened(right) + bad(0x1234)[:16]
        expect(f"number {right}", numbers(before, [0], [1] * 17, [1]), [(0, 0)] + [(right, 1)] * 3)
    # a last bit of 1 and the check bit 1 are two of the eighteen
    expect("number, odd word", numbers(opened(4) + bad(0x8001), [1] * 16, command(1)), [(4, 1)] * 3)


def check_number_begins_anew():
    """Each command is counted from 0, also behind one of no words, one of right words, and behind a bad one."""
    for before in (command(), command(*RIGHT), command(0xFFFF), command() + command(7) + [1] * 50):
        expect(f"anew after {len(before)} bits", numbers(before, damaged(2)), [(0, 0), (2, 1)])
    expect("anew after a bad one", numbers(damaged(5), CLEAR, damaged(2)), [(5, 1), (0, 0), (2, 1)])


def check_number_of_seventeen():
    """Seventeen 1s and a 0: those seventeen are the bad word; the 0 tells, and is no start bit."""
    seventeen = [1] * 17
    expect("seventeen first", numbers([0] + seventeen, [0], [1] * 18, damaged(1)), [(0, 0), (0, 1), (0, 1), (0, 1)])
    for right in (1, 2, 5):
        line = [0] + bits(1) * right + seventeen    # 0x0001 has check bit 0, so the run is the seventeen
        expect(f"seventeen, {right} before", numbers(line, [0], [1] * 17, [1]), [(0, 0)] + [(right, 1)] * 3)
        expect(f"eighteen, {right} before", numbers(line, [1], damaged(3)), [(0, 0), (0, 0), (3, 1)])
    # behind a check bit 1 seventeen are END: the 0 then starts a command, whose first word is bad
    expect("END, a start", numbers([0] + bits(2) + seventeen, [0] + bad(0x1234)), [(0, 0), (0, 1)])
    # flags cleared while the next bit is awaited: the error is still to come
    expect("seventeen, cleared", numbers([0] + bits(1) * 2 + seventeen, CLEAR, [0], [1] * 18), [(0, 0), (0, 0), (2, 1), (2, 1)])


def check_number_of_ones():
    """Sixteen 1s and their right check bit 0 are a word like any other; with the check bit 1 and a 0 they are the bad one."""
    expect("sixteen 1s", numbers([0] + bits(0xFFFF) * 2, bad(0x1234)), [(0, 0), (2, 1)])
    expect("sixteen 1s, bad", numbers([0] + bits(0xFFFF) * 2 + bad(0xFFFF), [0]), [(0, 0), (2, 1)])


def check_number_first():
    """With the flag up a later error changes nothing, 0 stays too; after a clear the next one counts."""
    for right in (3, 0):
        seen = numbers(damaged(right), damaged(1), damaged(0), damaged(5), command(1, 2), (7, 0x7FFF), CLEAR, damaged(1), damaged(4), CLEAR)
        expect(f"first of many is {right}", seen, [(right, 1)] * 6 + [(0, 0), (1, 1), (1, 1), (0, 0)])


def check_number_discarded():
    """Cleared while the command is discarded: bad groups, seventeen 1s and a 0 give no second number, nor does its END; the next command does."""
    rest = [bad(0x8001), bad(0x1234), [1] * 17 + [0], [0] * 40, bits(0x5555) * 3, [1] * 18]     # no eighteen 1s but the last
    seen = numbers(opened(2) + bad(0x1234), CLEAR, *rest, damaged(4))
    expect("cleared in a bad command", seen, [(2, 1)] + [(0, 0)] * 7 + [(4, 1)])


def check_number_stays():
    """A soft reset leaves it (and ends the command being read); so do the other clears and FAILSAFE. A power-up does not."""
    expect("reset leaves", numbers(damaged(2), "reset", damaged(1), "reset"), [(2, 1)] * 4)
    expect("reset in a command", numbers(opened(3), "reset", damaged(1)), [(0, 0), (0, 0), (1, 1)])
    expect("reset in a bad command", numbers(opened(3) + bad(2), "reset", CLEAR, damaged(1)), [(3, 1), (3, 1), (0, 0), (1, 1)])
    expect("others leave", numbers(damaged(2), (3, 0x803F), (4, 0x80FF), (5, 4), damaged(1), (5, 1), (6, 0)), [(2, 1)] * 7)
    expect("FAILSAFE", numbers(CLEAR, (5, 4), damaged(2), CLEAR, damaged(1)), [(0, 0), (0, 0), (2, 1), (0, 0), (1, 1)])
    for power in ("good", "bad"):
        expect(f"power-up, {power}", numbers(damaged(2), power, damaged(1), CLEAR), [(2, 1), (0, 0), (1, 1), (0, 0)])
        expect(f"power-up in a command, {power}", numbers(opened(3), power, damaged(1)), [(0, 0), (0, 0), (1, 1)])
        expect(f"power-up in a bad command, {power}", numbers(opened(3) + bad(2), power, damaged(1)), [(3, 1), (0, 0), (1, 1)])


def check_number_masked():
    """DIAGMASK bit 11 takes ERR from CHECK_BIT, and nothing from register 11. STATUS: CCSI, DRDY; ERR where not masked."""
    for mask, status in ((0x0800, 0x4400), (0x0B01, 0x4400), (0x0000, 0x4401), (0x0301, 0x4401)):
        s = cleared()
        s.write(6, mask)
        s.ticks(damaged(6))
        number, sum_up = s.read(11), s.read(7)
        s.run()
        expect(f"mask {mask:04X}", (s.sdo(number), s.sdo(sum_up)), (6, status))


def check_number_not_written():
    """Writes to 11, alone or behind 10, with the flag up or down; the writes are taken."""
    for value in (0xFFFF, 0x0000, 0x8000, 0x0001):
        expect(f"11 written {value:04X}", numbers((11, value), damaged(2), (11, value), CLEAR, (11, value)), [(0, 0), (2, 1), (2, 1), (0, 0), (0, 0)])
    for right, want in ((2, 0x4403), (None, 0x0403)):
        for frame in ((0xA00B, 0x1234), (0xB00B, 0x1234), (0xA10A, 0xFFFF, 0xFFFF), (0xB10A, 0xFFFF, 0xFFFF)):
            s = Script()
            s.ticks([1] if right is None else damaged(right))
            given = [s.word(word) for word in (*frame, crc(*frame))]
            status = s.answer()
            number = s.read(11)
            s.run()
            expect(f"frame {frame[0]:04X}, {right}", ({s.note(e) for e in given}, s.sdo(status), s.sdo(number)), ({0}, want, right or 0))


def check_twelve_written():
    """REG_WR_CRC and REG_WR of twelve words from address 0, that of STATUS clears the flags; with a wrong CRC word the first writes nothing.

    A wrong CRC word raises SPI_CRC, 0x0040. Note 6: with what stood, CCSI, DRDY, POR, ERR. Note 7: DRDY alone, the new mask takes ERR away.
    """
    values = (0x1111, 0x2001, 0x5555, 0x0010, 0x0020, 0, 0x0B01, 0x8000, 0xFFFF, 0xFFFF, 0xFFFF, 0xFFFF)
    written = [0, 0x2001, 0x5555, 0x0010, 0x0020, 0, 0x0B01, 0x0400, 0, 0, 0, 0]
    spoilt = [0x0440 if word == 0x0400 else word for word in written]
    untouched = [0, 0, 0, 0x003F, 0x00FF, 0, 0, 0x4443, 8, 0, 0, 2]
    for command_word, wrong, note, want in ((0xAB00, 0, 0, written), (0xBB00, 0, 0, written), (0xAB00, 1, 6, untouched), (0xBB00, 1, 7, spoilt)):
        s = Script()
        s.ticks(damaged(2))
        given = [s.word(word) for word in (command_word, *values, crc(command_word, *values) ^ wrong)]
        s.release()                         # any answer is dropped
        s.frame(0xDB00)
        first = s.answer(13)
        s.run()
        name = f"twelve written, {command_word:04X}, note {note}"
        expect(name, [s.note(e) for e in given], [0] * 13 + [note])
        expect(name + ": registers", [s.sdo(first + i) for i in range(13)], want + [crc(*want)])


def check_number_in_blocks():
    """Register 11 at the end of a read of 12, of 5 and of 2: each word is what stands when it is fetched."""
    for command_word, count in ((0xCB00, 12), (0xDB00, 12), (0xD407, 5), (0xC10A, 2), (0xD10A, 2), (0xC00B, 1), (0xD00B, 1)):
        s = Script()
        s.frame(command_word)
        zero = s.answer(count + 1)
        s.frame(command_word)
        for _ in range(count - 1):
            s.word(0xFFFF)
        s.ticks(damaged(9))                 # between the words before and register 11
        nine = s.answer(2)
        s.ticks(damaged(1))
        s.frame(command_word)
        again = s.answer(count + 1)
        s.run()
        got = [s.sdo(e) for e in (zero + count - 1, nine, again + count - 1)]
        expect(f"read by {command_word:04X}", got, [0, 9, 9])
        words = [s.sdo(again + at) for at in range(count + 1)]
        expect(f"read by {command_word:04X}: CRC", words[-1], crc(*words[:-1]))


def check_number_with_a_place():
    """A command that was sent: read into RX or not, the first word or the last bad. IFST is CHECK_BIT alone: nothing is compared.

    At most sixteen 1s meet before END: a bad 0x7FFF has fifteen and its check bit. The last case is seventeen 1s between two 0s.
    """
    plain, ones = (0xAA00, 0x1235, 0x7FFF, 0x4001), (0xAA00, 0xAA01, 0xFFFF, 0x4001)
    for number in (0x3003, 0x5004, 0x5024, 0x7003, 0x7023):
        for words, at in ((plain, 0), (plain, 1), (plain, 2), (plain, 3), (ones, 2)):
            line = [0] + [bit for i, word in enumerate(words) for bit in (bad(word) if i == at else bits(word))] + [1] * 60
            s = cleared()
            s.frame(number, *words)
            s.answer()
            s.ticks(line)
            got, faces, fifo = s.read(11), s.read(8), s.read(10)
            s.run()
            stored = at if number & 0xF000 == 0x7000 else 0
            expect(f"{number:04X}, word {at} of {words}", (s.sdo(got), s.sdo(faces), s.sdo(fifo)), (at, 8, stored))


def check_number_not_of_storing():
    """The count goes on where storing ended: place cleared away, RX cleared, RX read empty, RX full, an RX flag up at the start."""
    for trouble in ("none", "transmit", "receive", "empty", "flag"):
        s = cleared()
        if trouble == "flag":
            s.frame(0x9000)
            s.answer(2)                     # RX is empty: RXFFUVF
        s.frame(0x7003, 1, 2, 3, 4)
        s.answer()
        s.ticks([0] + bits(1) + bits(2)[:5])
        if trouble == "transmit":
            s.write(3, 0x803F)
        elif trouble == "receive":
            s.write(4, 0x80FF)
        elif trouble == "empty":
            s.frame(0x9001)
            s.answer(3)
        s.ticks(bits(2)[5:] + bits(3) + bad(4) + [1] * 40)
        got = s.read(11)
        s.run()
        expect(f"storing ended by {trouble}", s.sdo(got), 3)
    s = cleared()
    s.frame(0x7000, 0xAAF0)
    s.answer()
    events = s.ticks(damaged(260))
    got, fifo = s.read(11), s.read(10)
    s.run()
    expect("RX full", ([s.note(e) for e in events].count(14), s.sdo(got), s.sdo(fifo)), (1, 260, 0x80FF))


def after_many(right):
    """The numbers after a command of so many right words and a bad one, and after one of two right words, with the flag up and cleared."""
    s = Script()
    ticks = bytes(byte for bit in bits(0x1234) for byte in (3, 0, bit)) * right
    s.ticks([0])
    s.data += ticks
    s.count += 17 * right
    s.ticks(bad(0x1234) + [1] * 18)
    asked = [s.read(11)]
    s.ticks(damaged(2))
    asked.append(s.read(11))
    s.write(*CLEAR)
    s.ticks(damaged(2))
    asked.append(s.read(11))
    tail = raw(bytes(s.data)).rsplit("\n", 200)[1:-1]   # without the lines of the many words
    return [int(tail[event - s.count].split()[3], 16) for event in asked]


def check_number_stops():
    """It stops at 65,535."""
    for right, want in ((65534, 65534), (65535, 65535), (65536 + 5, 65535)):
        expect(f"{right} right words", after_many(right), [want, want, 2])


# ---- 02 item 7: the maker's layout, words of sheet table 7-2, registers of sheet 7.6 ----
XMODEM = 0x00A4                             # SPICTRL as it resets, and SPI_CRC_ALG
RESETS = [0xED99, 0x00A0, 0x0000, 0x01FF, 0x00FF, 0x0000, 0x0000, 0x0403, 0x0000, 0x0000, 0x0000]   # sheet 7.6.1 to 7.6.11


def makers_accept(word):
    """Sheet table 7-2 with the address limit of 02 item 4, and filler; written down apart from the model."""
    number, low = word // 4096, word % 4096
    if number in (3, 4, 5, 6, 7):
        return True                         # all twelve bits are fields
    if number == 2:
        return low // 512 == 0
    if number in (8, 9):
        return low // 256 == 0
    if number in (10, 11, 12, 13):
        return low // 1024 == 0 and low // 16 % 4 == 0 and low // 64 % 16 + low % 16 + 1 <= 12
    return word in (0xE1E1, 0xFFFF)


def check_makers_words():
    s = Script()
    first = {}
    for word in range(0x10000):
        s.power(3)
        first[word] = s.word(word)
    s.run()
    edges = {0x21FF: 0, 0x2200: 3, 0x2400: 3, 0x2800: 3, 0x3FFF: 0, 0x4000: 0, 0x5FFF: 0, 0x7FFF: 0, 0x80FF: 0, 0x8100: 3, 0x9800: 3,
             0xE1E1: 0, 0xE000: 3, 0xE1E0: 3, 0xE0E1: 3, 0xEFFF: 3, 0x01E1: 3, 0x11E1: 3, 0xF1E1: 3, 0xF000: 3, 0xFFFE: 3, 0xFFFF: 0}
    # address 10, 11, 12 is 0x280, 0x2C0, 0x300. Address + count 10 + 2, 11 + 1, 0 + 12; 10 + 3, 11 + 2, 12 + 1, 0 + 13, 15 + 1 are over 12.
    # Bits 11, 10, 5 and 4 are fixed.
    for low, want in ((0x281, 0), (0x2C0, 0), (0x00B, 0), (0x282, 3), (0x2C1, 3), (0x300, 3), (0x00C, 3), (0x3C0, 3),
                      (0x800, 3), (0x400, 3), (0x020, 3), (0x010, 3)):
        edges.update({number << 12 | low: want for number in (10, 11, 12, 13)})
    for word, want in edges.items():
        expect(f"maker's word {word:04X}", s.note(first[word]), want)
    wrong = [w for w, e in first.items() if s.note(e) != (0 if makers_accept(w) else 3)]
    expect("all the maker's command words", wrong, [])


def check_makers_resets():
    """Each register by itself and all with register 11, POR up; with good and bad OTP (01: INIT and its flag). After a clear POR is down."""
    for power, status in ((3, 0x0403), (2, 0x041B)):
        want = [status if value == 0x0403 else value for value in RESETS] + [0]
        s = powered(power)
        alone = [s.read(address) for address in range(12)]
        s.frame(0xD00B)                     # address 0, twelve registers
        first = s.answer(13)
        s.write(7, 0x8000)
        after = s.read(7)
        s.run()
        name = f"maker's reset values, power {power}"
        expect(name, [(s.sdo(e), s.sdo(e + 1)) for e in alone], [(value, crc(value)) for value in want])
        expect(name + ": in one read", [s.sdo(first + i) for i in range(13)], want + [crc(*want)])
        expect(name + ": cleared", s.sdo(after), 0x0400 if power == 3 else 0x0419)


def check_makers_fields():
    """Sheet 7.5.3: address 0 is 0x00; data_length 0 is one word. The word after the last answer word opens a frame again."""
    for word, values in ((0xD000, RESETS[:1]), (0xC000, RESETS[:1]), (0xD040, RESETS[1:2]), (0xD0C0, RESETS[3:4]), (0xD001, RESETS[:2]),
                         (0xC0C4, RESETS[3:8]), (0xD2C0, [0]), (0xD281, [0, 0])):
        s = powered()
        s.frame(word)
        first = s.answer(len(values) + 1)
        over = s.word(0x0000)
        s.run()
        got = [s.sdo(first + i) for i in range(len(values) + 1)]
        expect(f"maker's read {word:04X}", (got, s.note(over)), (values + [crc(*values)], 3))
    # DATA_RD of an empty RX: one word, and 256
    for word, count in ((0x9000, 1), (0x8000, 1), (0x90FF, 256), (0x80FF, 256)):
        s = powered()
        s.frame(word)
        first = s.answer(count + 1)
        over = s.word(0x0000)
        s.run()
        got = [(s.note(first + i), s.sdo(first + i)) for i in range(count + 1)]
        want = [(15, 0xFFFF)] * count + [(0, crc(*[0xFFFF] * count))]
        expect(f"maker's read {word:04X}", (got, s.note(over)), (want, 3))


def check_makers_forwards():
    """Sheet 7.5.3: words and ENDs by their fields, the ticks by 01: 19 + 17 x words + 18 x ENDs, or 18 x ENDs. A soft reset one tick before
    the last is note 11. opt_data_length 0: no words. At most 127 ENDs."""
    for word, words, ends, ticks in ((0x2000, 1, 0, 36), (0x2003, 4, 0, 87), (0x3000, 1, 0, 36), (0x3013, 20, 0, 359),
                                     (0x4001, 0, 1, 18), (0x5003, 0, 3, 54), (0x507F, 0, 127, 2286), (0x4080, 1, 0, 36), (0x5102, 2, 2, 89),
                                     (0x5F80, 31, 0, 546), (0x5FFF, 31, 127, 2832), (0x4FFF, 31, 127, 2832),
                                     (0x7000, 1, 0, 36), (0x6001, 1, 1, 54), (0x7F80, 32, 0, 563), (0x6FFF, 32, 127, 2849)):
        data = range(0x8000, 0x8000 + words)
        for made, note in ((ticks - 1, 11), (ticks, 0)):
            s = cleared(powered())
            given = s.frame(word, *data)
            s.answer()
            fifo = s.read(9)
            out = s.ticks([1] * made)
            reset = s.reset()
            s.run()
            line = (command(*data) if words else []) + [1] * 18 * ends
            name = f"maker's forward {word:04X}, {made} ticks"
            expect(name, (s.note(given), s.sdo(fifo), s.note(reset)), (0, words, note))
            expect(name + ": SOUT", s.sout(out), line[:made])
    for word in (0x4000, 0x5000):           # neither: nothing is queued
        s = cleared(powered())
        s.frame(word)
        s.answer()
        out = s.ticks([1] * 40)
        s.run()
        expect(f"maker's forward {word:04X}", s.sout(out), [1] * 40)


def check_makers_lengths():
    """The words of a frame up to its CRC word, by the longest fields. POR is up, so TX is full with 512 (01: note 8, then 5)."""
    for word, count, notes in ((0x21FF, 512, [0] * 512), (0x3FFF, 4096, [0] * 512 + [8] + [5] * 3583), (0x31FF, 512, [0] * 512)):
        s = powered()
        s.word(word)
        given = [s.word(at) for at in range(count)]
        close = s.word(crc(word, *range(count)))
        status = s.answer()
        s.run()
        full = 0x0403 if count == 512 else 0x1403   # TXFF
        expect(f"maker's longest {word:04X}", ([s.note(e) for e in given], s.note(close), s.sdo(status)), (notes, 0, full))
    values = (0x1111, 0x00A0, 0x5555, 0x0010, 0x0020, 0, 0x0B01, 0x8000, 0xFFFF, 0xFFFF, 0xFFFF, 0xFFFF)
    for word in (0xA00B, 0xB00B):           # twelve registers from address 0
        s = powered()
        given = [s.word(w) for w in (word, *values, crc(word, *values))]
        s.answer()
        s.frame(0xD00B)
        first = s.answer(12)
        s.run()
        want = [0xED99, 0x00A0, 0x5555, 0x0010, 0x0020, 0, 0x0B01, 0x0400, 0, 0, 0, 0]
        expect(f"maker's longest {word:04X}", ({s.note(e) for e in given}, [s.sdo(first + i) for i in range(12)]), ({0}, want))


def check_makers_writable():
    """Sheet table 7-6: 13..12, 7..4, 2, 1, 0 of SPICTRL; the reserved bits read 0. With bit 0 no STATUS comes, with bit 2 the next CRC starts
    at 0."""
    for value, kept in ((0xFFFF, 0x30F7), (0xCF08, 0x0000), (0x3000, 0x3000), (0x0050, 0x0050), (0x0004, 0x0004), (0x0002, 0x0002),
                        (0x0001, 0x0001)):
        s = powered()
        s.frame(0xB040, value)
        if not value & 1:
            s.answer()
        s.start = 0 if value & 4 else 0xFFFF
        got = s.read(1)
        s.run()
        expect(f"maker's SPICTRL {value:04X}", (s.sdo(got), s.sdo(got + 1)), (kept, crc_from(s.start, kept)))
    s = cleared(powered())
    for address in (0, 2, 3, 4, 6, 8, 9, 10, 11):
        s.write(address, 0x7FFF)
    s.frame(0xD00B)
    first = s.answer(13)
    s.run()
    want = [0xED99, 0x00A0, 0x7FFF, 0x01FF, 0x00FF, 0, 0x0B01, 0x0400, 0, 0, 0, 0]
    expect("maker's writable bits", [s.sdo(first + i) for i in range(13)], want + [crc(*want)])


def check_makers_softreset():
    """Sheet 7.5.4: the CRC of the command is 0xD383, and 0xCE8C by XMODEM. The other one is note 6."""
    expect("E1E1", (crc(0xE1E1), xmodem(0xE1E1)), (0xD383, 0xCE8C))
    for value, right, wrong in ((0x00A0, 0xD383, 0xCE8C), (XMODEM, 0xCE8C, 0xD383)):
        s = powered()
        s.algorithm(value, 0xFFFF if value == 0x00A0 else 0)
        good = s.word(0xE1E1, right)
        status = s.answer()
        bad = s.word(0xE1E1, wrong)
        after = s.answer()
        s.run()
        expect(f"maker's reset by {right:04X}", [s.note(e) for e in (good, bad)], [0, 6])
        expect(f"maker's reset by {right:04X}: STATUS", [(s.sdo(e), s.sdo(e + 1)) for e in (status, after)],
               [(0x0403, crc_from(s.start, 0x0403)), (0x0443, crc_from(s.start, 0x0443))])


def check_makers_algorithm():
    """Sheet 7.3.4.4.3: the next command uses the new algorithm. The frame that turns it, with words before and behind SPICTRL, has the old one
    for its CRC word and its answer's; a CRC word by the new one is wrong. REG_WR writes all the same (note 7), REG_WR_CRC nothing (note 6)."""
    for old, new in (((0x00A0, 0xFFFF), (XMODEM, 0)), ((XMODEM, 0), (0x00A0, 0xFFFF))):
        for words in ((0xB040, new[0]), (0xA040, new[0]), (0xB001, 0, new[0]), (0xA001, 0, new[0]),
                      (0xB042, new[0], 0x1234, 0x00FF), (0xA042, new[0], 0x1234, 0x00FF)):
            for right in (True, False):
                s = cleared(powered())
                s.algorithm(*old)
                given = [s.word(word) for word in words]
                close = s.word(crc_from(old[1] if right else new[1], *words))
                status = s.answer()
                turned = right or words[0] & 0xF000 == 0xB000
                s.start = new[1] if turned else old[1]
                got = s.read(1)
                s.run()
                name = f"maker's algorithm {old[0]:04X} to {new[0]:04X} by {words[0]:04X}, {right}"
                want = 0 if right else 7 if turned else 6
                expect(name, ([s.note(e) for e in given], s.note(close)), ([0] * len(words), want))
                said = 0x0400 if right else 0x0441      # SPI_CRC, ERR
                expect(name + ": STATUS", (s.sdo(status), s.sdo(status + 1)), (said, crc_from(old[1], said)))
                kept = new[0] if turned else old[0]
                expect(name + ": next", (s.sdo(got), s.sdo(got + 1)), (kept, crc_from(s.start, kept)))


def check_makers_algorithm_cut():
    """REG_WR cut behind the word that turned it: the word stands (01 note 12), and the next frame is by the new one. REG_WR_CRC wrote
    nothing."""
    for word, start in ((0xB042, 0), (0xA042, 0xFFFF)):
        s = cleared(powered())
        s.word(word, XMODEM, 0x1234)
        cut = s.release()
        s.start = start
        got = s.read(0)
        s.run()
        expect(f"maker's algorithm, {word:04X} cut", (s.note(cut), s.sdo(got), s.sdo(got + 1)), (12, 0xED99, crc_from(start, 0xED99)))


def check_makers_xmodem():
    """All kinds of frames by XMODEM: 0xFFFF has the CRC 0x1D0F, from 0 on a word of zeros leaves 0. A soft reset leaves registers (01)."""
    expect("XMODEM of FFFF, of 0", (xmodem(0xFFFF), xmodem(0x0000)), (0x1D0F, 0x0000))
    s = cleared(powered())
    s.algorithm(XMODEM, 0)
    reset = s.reset()
    s.frame(0x9000)
    empty = s.answer()
    s.write(7, 0x8000)
    first = s.frame(0x7000, 0xAAF0)         # FWD_RD_END of VSYNC
    s.answer()
    s.ticks(command(0xAAF0) + [1] * 4)
    s.frame(0x8000)                         # DATA_RD_CRC
    data = s.answer()
    wrong = s.word(0xC000, crc(0xC000))     # REG_RD_CRC by the other one: no answer
    after = s.read(7)
    s.run()
    expect("maker's XMODEM", [s.note(e) for e in (reset, empty, first, data, wrong, after)], [0, 15, 0, 0, 6, 0])
    expect("maker's XMODEM: answers", [(s.sdo(e), s.sdo(e + 1)) for e in (empty, data, after)],
           [(0xFFFF, 0x1D0F), (0xAAF0, xmodem(0xAAF0)), (0x0441, xmodem(0x0441))])


def check_makers_line_crc():
    """The line's CRC starts at 0xFFFF whatever SPI_CRC_ALG says: VSYNC that comes back behind a word of zeros has another. From a start of 0 it
    would have the same, since zeros in front leave 0. The same words back are no error in either."""
    for value, start in ((0x00A0, 0xFFFF), (XMODEM, 0)):
        for back, want in (((0x0000, 0xAAF0), 2), ((0xAAF0,), 0), ((0xAAF2,), 2), ((0x0000, 0x0000, 0xAAF0), 2)):
            s = cleared(powered())
            s.algorithm(value, start)
            s.frame(0x3000, 0xAAF0)
            s.answer()
            s.ticks(command(*back) + [1] * 20)
            faces = s.read(8)
            s.run()
            expect(f"maker's line CRC, SPICTRL {value:04X}, back {back}", s.sdo(faces), want)


def check_makers_watchdog():
    """Sheet table 7-6: 40, 20, 10 ms and off, by the code; each word marks, so the last filler does. At or over the limit: FAILSAFE, 0x0431."""
    for value, limit in ((0x00A0, 40), (0x0000, 40), (0x10A0, 20), (0x20A4, 10), (0x1000, 20), (0x20F6, 10)):
        for mark in (0, 1000, 65530):       # the last goes over the end of the clock
            s = cleared(powered())
            s.algorithm(0x30A0, 0xFFFF)     # off, so that the clock can go there
            s.clock(mark)
            s.algorithm(value, 0 if value & 4 else 0xFFFF)
            s.clock((mark + limit - 1) % 65536)
            near = s.read(7)                # and marks there
            s.clock((mark + 2 * limit - 2) % 65536)
            again = s.read(7)
            s.clock((mark + 3 * limit - 2) % 65536)
            over = s.read(7)
            s.run()
            expect(f"maker's watchdog {value:04X} from {mark}", [s.sdo(e) for e in (near, again, over)], [0x0400, 0x0400, 0x0431])
    for value in (0x30A0, 0x3000):
        s = cleared(powered())
        s.write(1, value)
        for reading in (10, 50, 1000, 65535, 40):
            s.clock(reading)
        off = s.read(7)
        s.run()
        expect(f"maker's watchdog {value:04X}", s.sdo(off), 0x0400)


def check_makers_watchdog_at_power_up():
    """It is on, 40 ms, and the mark is 0, before any word and whatever the clock said before. In INIT nothing comes of it (01). Ours is off."""
    for power, before, reading, want in ((3, 0, 39, 0x0403), (3, 0, 40, 0x0433), (3, 60000, 39, 0x0403), (3, 60000, 40, 0x0433),
                                         (3, 0, 65535, 0x0433), (2, 0, 65535, 0x041B), (1, 0, 40, 0x0403), (1, 0, 65535, 0x0403)):
        s = powered()
        s.clock(before)
        s.power(power)
        s.clock(reading)
        status = s.read(7)
        s.run()
        expect(f"watchdog from power {power}, {before}, {reading}", s.sdo(status), want)


def check_makers_marks():
    """Every word marks (01; the sheet's 7.3.4.3 asks for a valid command): filler, a malformed word, one discarded, each word of a frame and of
    its answer. A release does not. From 30 ms a word, then 39 ms: NORMAL; where nothing marked it is FAILSAFE."""
    frame = (0xB0C0, 0x01FF, crc(0xB0C0, 0x01FF), 0xFFFF, 0xFFFF)
    for words in ((0xFFFF,), (0x2200,), (0x2200, 0xFFFF), (0x2200, 0x1234), *(frame[:length] for length in range(1, 6)), ()):
        s = cleared(powered())
        for word in words[:-1]:
            s.word(word)
        s.clock(30)
        if words:
            s.word(words[-1])
        s.release()
        s.clock(69)
        status = s.read(7)
        s.run()
        expect(f"maker's marks, {len(words)} from {words[:1]}", s.sdo(status) >> 4 & 3, 0 if words else 3)


def check_makers_failsafe():
    """As 01 has it and not as sheet 7.4.4: what is under way finishes, what waits keeps waiting, forwards are stored and queued, and a soft
    reset leaves FAILSAFE and the registers. 0x0431: DRDY, FAILSAFE, ERR; with SIN still for 40 ms behind a start bit CCSI too."""
    s = cleared(powered())
    s.write(2, 0x1234)
    offer(s, 0x3000, 0x8001)
    offer(s, 0x3000, 0x8002)
    out = s.ticks([1])
    s.clock(40)                             # in the middle of the first
    s.word(0x3000, 0x8003, crc(0x3000, 0x8003))
    status = s.answer()
    fifo = s.read(9)                        # the start bit is out, and no word taken yet
    out += s.ticks([1] * 70)
    s.write(5, 1)
    out += s.ticks([1] * 72)
    s.run()
    expect("maker's FAILSAFE by the watchdog", (s.sdo(status), s.sdo(fifo)), (0x4431, 3))
    expect("maker's FAILSAFE: SOUT", s.sout(out), command(0x8001) + [1] * 35 + command(0x8002) + command(0x8003))
    s = cleared(powered())
    s.write(2, 0x1234)
    s.write(5, 4)
    reset = s.reset()
    status, rate = s.read(7), s.read(2)
    s.run()
    expect("maker's FAILSAFE, reset", (s.note(reset), s.sdo(status), s.sdo(rate)), (0, 0x0431, 0x1234))


def check_makers_timeout_and_sdo():
    """Kept without effect: the shortest timeout (sheet table 7-6, 500 us) ends no frame and raises nothing, SDO answers all the same."""
    s = cleared(powered())
    s.write(1, 0x3012)
    s.word(0xB0C0)
    s.clock(1000)
    s.word(0x0010)
    s.clock(30000)
    close = s.word(crc(0xB0C0, 0x0010))
    status = s.answer()
    faces, level, control = s.read(8), s.read(3), s.read(1)
    s.run()
    expect("maker's timeout and SDO", (s.note(close), *(s.sdo(e) for e in (status, faces, level, control))), (0, 0x0400, 0, 0x0010, 0x3012))


def check_makers_no_answer():
    """SPI_ACK_DIS as our bit 0: looked at after the CRC word; reads answer."""
    s = cleared(powered())
    s.frame(0xB040, 0x00A1)
    plain_word = s.word(0x0000)             # no answer: a malformed command word
    four = s.word(0xFFFF)
    s.release()
    s.frame(0xE1E1)
    filler = s.word(0xFFFF)
    read = s.read(1)
    s.frame(0xA040, 0x00A0)
    answer = s.answer()
    s.run()
    expect("maker's no answer", ([s.note(e) for e in (plain_word, four, filler)], s.sdo(filler)), ([3, 4, 0], 0xFFFF))
    expect("maker's no answer, reads", (s.sdo(read), s.sdo(read + 1), s.sdo(answer)), (0x00A1, crc(0x00A1), 0x0400))


def check_makers_level():
    """Sheet 7.6.4: TXFFLVL resets to 511, so a FWD_WR begins with its 512th word or its last. Ours begins with its 64th (02 item 2)."""
    for power, count, first in ((3, 64, 64), (3, 100, 100), (3, 512, 512), (3, 513, 512), (1, 100, 64), (1, 513, 64)):
        s = cleared(powered(power))
        s.word(0x3000 | count - 1, *range(first - 1))
        held = s.ticks([1] * 20)
        s.word(first - 1)
        out = s.ticks([1])
        s.run()
        expect(f"level at power {power}, {count} words", (s.sout(held), s.sout(out)), ([1] * 20, [0]))


def check_makers_chosen_anew():
    """By each power-up, whatever was before; the script begins in ours. DEVID tells, and the other layout's reset is malformed. The algorithm
    and the watchdog are those of a power-up again."""
    for powers in ((3, 1, 3), (2, 0, 3), (3, 3, 2, 2, 1, 1), (1, 2, 1, 3, 0), (0, 3, 0, 2)):
        s = Script()
        seen = [(s.read(0), s.read(1), s.word(0xE1E1), s.release())]
        for power in powers:
            if s.address_at:
                s.algorithm(XMODEM | 0x2000, 0)
            else:
                s.write(1, 0x3001)          # 48 ms, no answer
            s.word(0x3001, 5)               # a frame is open
            s.power(power)
            seen.append((s.read(0), s.read(1), s.word(0xE000 if power >= 2 else 0xE1E1), s.release()))
        s.run()
        want = [(0xED99, 0x00A0, 3, 0) if power >= 2 else (0, 0, 3, 0) for power in (1, *powers)]
        got = [(s.sdo(devid), s.sdo(control), s.note(other), s.note(release)) for devid, control, other, release in seen]
        expect(f"layouts by powers {powers}", got, want)


def check_makers_filler_and_discard():
    """0xFFFF is filler outside a frame, a data word or a CRC word within; a malformed word discards to chip select, a right frame too."""
    s = cleared(powered())
    filler = s.word(0xFFFF)
    three = s.word(0x2200)
    four = [s.word(word) for word in (0xFFFF, 0xE1E1, 0xD383, 0xFFFF)]
    s.release()
    s.frame(0x3000, 0xFFFF)                 # a data word
    s.answer()
    fifo = s.read(9)
    bad = s.word(0xE1E1, 0xFFFF)            # a CRC word
    s.run()
    expect("maker's filler", (s.note(filler), s.note(three), [s.note(e) for e in four]), (0, 3, [4] * 4))
    expect("maker's 0xFFFF in a frame", (s.sdo(fifo), s.note(bad)), (1, 6))


def check_makers_behind():
    """What lies behind is one: places, note 9, register 11. 0x5081 is FWD_WR_END of one word and one END, 0x5001 of an END."""
    for last, want in (((0x5001,), 9), ((0x3000, 7), 9), ((0x5081, 8), 9), ((0x5000,), 0)):
        s = powered()
        notes = [offer(s, 0x5081, word) for word in range(4)]
        asked = s.word(*last)
        s.run()
        expect(f"maker's four pairs, then {last[0]:04X}", [s.note(e) for e in notes + [asked]], [0] * 4 + [want])
    s = powered()
    s.ticks(damaged(3))
    number, written = s.read(11), s.write(11, 0xFFFF)
    s.write(7, 0x8000)
    zero = s.read(11)
    s.run()
    expect("maker's register 11", (s.sdo(number), s.note(written), s.sdo(zero)), (3, 0, 0))


def check_ours_has_one_algorithm():
    """Bit 2 of our SPICTRL is not writable, and no frame of ours is by XMODEM."""
    for value, kept in ((0x0004, 0), (0xFFFE, 0xFF00), (0x00F6, 0)):
        s = cleared()
        s.write(1, value)
        control = s.read(1)
        wrong = s.word(0xE000, xmodem(0xE000))
        s.run()
        expect(f"our SPICTRL {value:04X}", (s.sdo(control), s.note(wrong)), (kept, 6))


# ---- clock ----
def check_clock():
    s = cleared()
    s.clock(65533)
    s.frame(0x3000, 0xAAF0)
    s.answer()
    s.ticks([1, 1])                         # the start bit marks 65,533; SIN does not change
    s.clock(1)
    four = s.read(8)
    s.clock(2)
    five = s.read(8)
    s.run()
    expect("4 ms", s.sdo(four), 0x0000)
    expect("5 ms", s.sdo(five), 0x0001)
    s = cleared()
    s.clock(65533)
    s.write(1, 0x0500)                      # watchdog 5 ms, marked by its last answer word
    s.clock(1)
    s.frame(0x5000)                         # marks again, at 1
    four = s.answer()
    s.clock(5)
    near = s.read(7)                        # reading marks at 5
    s.clock(10)
    over = s.read(7)
    s.run()
    expect("watchdog", [s.sdo(e) for e in (four, near, over)], [0x0400, 0x0400, 0x0431])


def check_watch_once():
    s = cleared()
    for word in (1, 2, 3):
        s.frame(0x3000, word)
        s.answer()
    s.clock(10)
    s.ticks([1] * 36)                       # first start bit marks 10
    s.clock(13)
    s.ticks([1] * 36)                       # the second must not mark again
    s.clock(15)
    fired = s.read(8)
    s.run()
    expect("watch not restarted", s.sdo(fired), 0x0001)


# ---- notes ----
def check_underflow():
    s = cleared()
    s.write(3, 0)                           # level 0: released at the first word
    s.word(0x3001, 0xAA00)
    out = s.ticks([1] * 36)                 # 0, 17 bits, note 13 at tick 19, 18 ones
    idle = s.ticks([1])
    dropped = s.word(0x1111)
    end = s.word(crc(0x3001, 0xAA00, 0x1111))
    answer = s.answer()
    fifo = s.read(9)
    reset = s.reset()
    s.run()
    expect("underflow SOUT", s.sout(out + idle), command(0xAA00) + [1])
    expect("underflow notes", [s.note(e) for e in out], [0] * 18 + [13] + [0] * 17)
    expect("underflow drops", (s.note(dropped), s.note(end)), (5, 0))
    expect("underflow status", s.sdo(answer), 0x1401)
    expect("underflow TXFFST", s.sdo(fifo), 0x4000)
    expect("underflow idle", s.note(reset), 0)


def check_overflow():
    s = Script()                            # POR is up: nothing starts
    s.word(0x3000 | 599)
    stored = [s.word(i) for i in range(512)]
    over, more = s.word(512), s.word(513)
    cut = s.release()                       # released at the 64th word: a second clear, no tick after the first
    fifo = s.read(9)
    s.ticks([1] * 17)
    busy = s.reset()
    s.ticks([1])
    idle = s.reset()
    s.run()
    expect("512 words", {s.note(e) for e in stored}, {0})
    expect("note 8, 5, 12", (s.note(over), s.note(more), s.note(cut)), (8, 5, 12))
    expect("overflow TXFFST", s.sdo(fifo), 0x8000)
    expect("owed END", (s.note(busy), s.note(idle)), (11, 0))
    s = Script()
    s.frame(0x21FF, *range(512))
    s.answer()
    full = s.read(9)
    s.run()
    expect("512 reads 511", s.sdo(full), 0x01FF)


def check_queue():
    s = Script()
    notes = []
    for _ in range(8):
        notes.append(s.word(0x5020))
        s.word(crc(0x5020))
        s.answer()
    ninth = s.word(0x5020)
    s.word(crc(0x5020))
    answer = s.answer()
    tenth = s.word(0x5020)
    end = s.word(crc(0x5020))
    s.answer()
    none = s.word(0x5000)                   # no words, no ENDs: never 5 or 9
    s.release()
    faces = s.read(8)
    s.run()
    expect("8 places", [s.note(e) for e in notes], [0] * 8)
    expect("note 9, 5, 0", [s.note(e) for e in (ninth, tenth, end, none)], [9, 5, 0, 0])
    expect("queue status", s.sdo(answer), 0x4403)
    expect("queue IFST", s.sdo(faces), 0x0210)
    s = Script()
    s.write(3, 3)
    for i in range(8):
        s.frame(0x3000, i)
        s.answer()
    s.word(0x3001)
    last = s.word(9)                        # level 3, TX holds 9 words: releases, note 9
    s.release()
    fifo = s.read(9)
    s.run()
    expect("note 9 by the FIFO's level", (s.note(last), s.sdo(fifo)), (9, 0))


def check_crc_notes():
    s = cleared()
    right = crc(0x2001, 5, 6)
    six = s.word(0x2001, 5, 6, right ^ 1)
    answer = s.answer()
    fifo = s.read(9)
    seven = s.word(0x3001, 5, 6, crc(0x3001, 5, 6) ^ 0x8000)
    s.answer()
    two = s.read(9)
    silent = s.word(0xC007, 0)              # REG_RD_CRC, wrong: answers nothing
    after = s.word(0x3000)                  # so this is a command word
    cut = s.release()
    s.run()
    expect("note 6, 7, 6", [s.note(e) for e in (six, seven, silent)], [6, 7, 6])
    expect("note 6 status", s.sdo(answer), 0x0441)
    expect("taken back, kept", (s.sdo(fifo), s.sdo(two)), (0, 2))
    expect("frame over", (s.note(after), s.sdo(after), s.note(cut)), (0, 0xFFFF, 12))


def check_cut():
    s = cleared()
    s.word(0x3003, 1, 2)
    cut = s.release()                       # not released: two words taken back
    fifo, reset = s.read(9), s.reset()
    s.write(3, 0)
    s.word(0x3003, 1, 2)                    # level 0: released at the first word
    cut2 = s.release()                      # data missing: transmit clear, END owed
    fifo2, busy = s.read(9), s.reset()
    s.ticks([1] * 18)
    s.word(0x3001, 1, 2)
    cut3 = s.release()                      # all data: stands
    fifo3 = s.read(9)
    s.run()
    expect("note 12", [s.note(e) for e in (cut, cut2, cut3)], [12] * 3)
    expect("note 12 TXFFST", [s.sdo(e) for e in (fifo, fifo2, fifo3)], [0, 0, 2])
    expect("note 12 clear", (s.note(reset), s.note(busy)), (0, 11))


def looped(number, words, line, ticks=None):
    """A forward, its line and then IFST, RXFFST."""
    s = cleared()
    s.frame(number, *words)
    s.answer()
    s.ticks(line if ticks is None else line[:ticks])
    faces, fifo = s.read(8), s.read(10)
    s.run()
    return s.sdo(faces), s.sdo(fifo)


def check_reader():
    good = command(0xAA00, 0x1234)
    expect("right", looped(0x7001, [0xAA00, 0x1234], good), (0, 2))
    other = command(0xAA00, 0x1236)
    expect("line CRC", looped(0x7001, [0xAA00, 0x1234], other), (2, 2))
    expect("not compared", looped(0x7001, [0xAB00, 0x1234], other), (0, 2))
    longer = command(0xAA00, 0x1234, 0)
    expect("longer, late", looped(0x7001, [0xAA00, 0x1234], longer), (2, 3))
    expect("not a read form", looped(0x3001, [0xAA00, 0x1234], good), (0, 0))
    bad = [0] + bits(0xAA00) + bits(0x1234)[:16] + [0] + [1] * 18
    expect("check error", looped(0x7001, [0xAA00, 0x1234], bad), (8, 1))
    # 0xAA01 ends in check bit 0: seventeen 1s wait for the next bit, a 0 is the error
    seventeen = [0] + bits(0xAA01) + [1] * 17
    expect("seventeen 1s", looped(0x7001, [0xAA01, 0], seventeen), (0, 1))
    expect("and a 0", looped(0x7001, [0xAA01, 0], seventeen + [0]), (8, 1))
    # 0x7FFF with check bit 1 is a run of 16: two more 1s are END, then a 0 starts anew
    odd = [0] + bits(0x7FFF)[:16] + [1] + [1, 1] + [1] * 36
    expect("run of 16", looped(0x7000, [0x7FFF], odd), (8, 0))
    for more, want in (([1], 10), ([1, 1], 0)):
        s = Script()
        s.ticks([0] + bits(0x7FFF)[:16] + [1] + more)
        busy = s.write(2, 1)
        s.run()
        expect(f"run of 16 and {len(more)}", s.note(busy), want)


def check_receive_full():
    s = cleared()
    s.frame(0x7000, 0xAAF0)
    s.answer()
    line = [0]
    for i in range(257):
        line += bits(i)
    events = s.ticks(line + [1] * 18)
    fifo = s.read(10)
    s.frame(0x90FF)
    first = s.answer(257)
    empty = s.read(7)
    s.run()
    notes = {i: s.note(e) for i, e in enumerate(events) if s.note(e)}
    expect("note 14 at the 257th word", notes, {17 * 257: 14})
    expect("256 reads 255", s.sdo(fifo), 0x80FF)
    expect("RX words", [s.sdo(first + i) for i in range(256)], list(range(256)))
    # RXFF, DRDY 1 (empty), ERR; line CRC too, one word was sent and 257 were read
    expect("RX status", s.sdo(empty), 0x4C01)


def check_answers():
    s = cleared()
    s.frame(0xB001, 0x0001)                 # no answer, looked at after the CRC word
    plain = s.word(0x0000)                  # so this is a malformed command word
    four = s.word(0xFFFF)
    s.release()
    read = s.read(1)                        # reads answer all the same
    late = s.word(0xFFFF)
    s.run()
    expect("no answer", (s.note(plain), s.note(four)), (3, 4))
    expect("reads answer", (s.sdo(read), s.sdo(read + 1), s.sdo(late)), (1, crc(1), 0xFFFF))


def main():
    subprocess.check_call(["gcc", "-std=c11", "-O2", "-Wall", "-Wextra", "-o", MODEL, MODEL + ".c"])
    checks = [f for name, f in sorted(globals().items()) if name.startswith("check_")]
    for check in checks:
        check()
    print(f"{len(checks)} checks, {len(failures)} failures")
    sys.exit(bool(failures))


if __name__ == "__main__":
    main()
