#!/usr/bin/env python3
"""make_scripts.py SEED EVENTS > file.cwb

Meaningful random CWB scripts for the bridge of document 01 with items 2, 3, 4 and 7 of 02, the same for the same seed.
A script of an odd seed stays in our layout; in one of an even seed every power-up chooses, mostly the maker's (02 item 7).
The SIN bits are mostly a loop-back of SOUT, so the C model is driven through a pipe
(`bridge_model -i`), which also tells the SOUT bit of the next tick, and the layout and the CRC
of the next frame. Nothing the model says decides more than SIN bits, a few waits and how a frame
is written: a script is good for any other implementation.
The environment variable BRIDGE_MODEL names a model already built; without it one is built
beside this file, and again where its source is newer.
"""
import os
import random
import subprocess
import sys
from collections import deque

HERE = os.path.dirname(os.path.abspath(__file__))
POWER, WORD, RELEASE, TICK, CLOCK = range(5)
TELLING = [0xFFFF, 0x0000, 0x7FFF, 0xFFFE, 0x8000, 0x0001, 0xFFFD, 0xAAF0, 0xAA0F]
AT_POWER_UP = 0x003F  # TXFFLVL in our layout
MAKERS_LEVEL = 0x01FF  # TXFFLVL at power-up in the maker's
MAKERS_RESET = 0x00A0  # SPICTRL at power-up in the maker's
CODES = {40: 0x0000, 20: 0x1000, 10: 0x2000, 0: 0x3000}  # its watchdog in ms, 0 is off
ALGORITHM, SILENT = 0x0004, 0x0001  # its SPI_CRC_ALG; no STATUS answered, in both layouts
CCITT, XMODEM = 0xFFFF, 0x0000  # starts of the CRC
PLACES = 8
REGISTERS = 12  # the address limit of 02 item 4
NUMBER = 11  # the register of the word that went bad
END = 18  # ticks of one END, extra or not


def crc16(words, start=CCITT):
    crc = start
    for word in words:
        crc ^= word
        for _ in range(16):
            crc = (crc << 1 ^ 0x1021) & 0xFFFF if crc & 0x8000 else crc << 1
    return crc


def command_word(makers, number, words=1, ends=0, address=0):
    """By 01's table, or by the sheet's table 7-2 (02 item 7). `words` are a forward's, those to be read, or registers."""
    if number == 14:
        low = 0x1E1 if makers else 0
    elif number in (2, 3, 8, 9):
        low = words - 1
    elif number <= 7:
        field = words if number <= 5 else words - 1
        low = field << 7 | ends if makers else ends << 5 | field
    else:
        low = address << 6 | words - 1 if makers else words - 1 << 8 | address
    return number << 12 | low


# the bits of fixed fields, ours and the maker's; of the reset all are
FIXED = tuple({2: (9, 10, 11), 8: (8, 9, 10, 11), 9: (8, 9, 10, 11), **dict.fromkeys((10, 11, 12, 13), bits), 14: range(12)}
              for bits in ((4, 5, 6, 7), (4, 5, 10, 11)))


def word_bits(word):
    bits = [word >> i & 1 for i in range(15, -1, -1)]
    return bits + [1 - bits[-1]]


def bad_bits(word):
    """A word with the wrong check bit."""
    bits = word_bits(word)
    return bits[:16] + [1 - bits[16]]


class Done(Exception):
    """The asked number of events is made."""


class Bench:
    """The model at the other end of a pipe; keeps the script."""

    def __init__(self, limit):
        path = os.environ.get("BRIDGE_MODEL") or os.path.join(HERE, "bridge_model")
        if not os.path.exists(path) or os.path.exists(path + ".c") and os.path.getmtime(path) < os.path.getmtime(path + ".c"):
            subprocess.check_call(["gcc", "-std=c11", "-O2", "-o", path, path + ".c"])
        self.proc = subprocess.Popen([path, "-i"], stdin=subprocess.PIPE,
                                     stdout=subprocess.PIPE, bufsize=-1)
        self.fd = self.proc.stdin.fileno()
        self.script = bytearray(b"CWB\x00\x01")
        os.write(self.fd, bytes(self.script))
        self.limit, self.events = limit, 0
        self.note, self.sdo, self.sout, self.next_sout = 0, 0xFFFF, 1, 1
        self.makers, self.start = False, CCITT  # of the next frame
        self.blocked = False

    def event(self, kind, value=0):
        if self.events >= self.limit:
            raise Done
        record = bytes((kind, value >> 8, value & 255))
        self.script += record
        os.write(self.fd, record)
        part = self.proc.stdout.readline().split()
        self.note, self.sdo = int(part[2]), int(part[3], 16)
        self.sout, self.next_sout = int(part[4]), int(part[5])
        self.makers, self.start = part[6] != b"0", XMODEM if part[6] == b"2" else CCITT
        self.events += 1
        self.blocked = self.blocked or self.note == 5


class Line:
    """Makes SIN from SOUT: loop with delay, flips, changed, added or damaged words, stuck, its own commands or given bits."""

    def __init__(self, rng):
        self.rng = rng
        self.set("loop", 0)

    def set(self, mode, delay=0, rate=0.0, bad=()):
        """In mode "damage" the check bits of these words of each command are turned, and others at a rate."""
        self.mode, self.delay, self.rate, self.bad = mode, delay, rate, bad
        self.fifo = deque([1] * delay)
        self.own = deque()
        self.run, self.pos, self.group, self.number = 18, -1, 0, 0

    def choose(self):
        rng = self.rng
        mode = rng.choices(["loop", "flip", "change", "insert", "lead", "stuck1", "stuck0", "own", "noise", "damage"],
                           [60, 12, 6, 12, 4, 3, 2, 8, 3, 8])[0]
        delay = rng.choice([0, 0, 1, 2, 17, 18, 19, rng.randint(0, 40)])
        self.set(mode, delay, rng.choice([0.003, 0.01, 0.03]))

    def follow(self, bit):
        """True after the last bit of a group that was a word."""
        self.run = self.run + 1 if bit else 0
        if self.pos < 0:
            if bit == 0:
                self.pos, self.group, self.number = 0, 0, 0
            return False
        self.pos, self.group = self.pos + 1, self.group << 1 | bit
        if self.run >= 18:
            self.pos = -1
            return False
        if self.pos < 17:
            return False
        word = self.group != 0x1FFFF
        self.pos, self.group = 0, 0
        self.number += word
        return word

    def looped(self, sout):
        after_word = self.follow(sout)
        # a 0, so not in an END, and before the word's last bit: another word is read, with no check error
        changed = self.mode == "change" and sout == 0 and 1 <= self.pos <= 15 and self.rng.random() < self.rate
        turned = self.mode == "damage" and after_word and (self.number - 1 in self.bad or self.rng.random() < 10 * self.rate)
        if not (self.run > 18 and len(self.fifo) > self.delay):
            self.fifo.append(1 if changed else sout ^ turned)
        if self.mode == "lead" and self.pos == 0 and sout == 0 and not after_word and self.rng.random() < 0.5:
            self.fifo.extend(word_bits(0))  # behind the start bit: a CRC that started at 0 would not see it
        if self.mode == "insert" and after_word and self.rng.random() < 0.3:
            for _ in range(self.rng.choice([1, 1, 1, 2, 4])):
                self.fifo.extend(word_bits(self.rng.choice(TELLING + [0x1234, 0xC0DE])))
        return self.fifo.popleft() if len(self.fifo) > self.delay else 1

    def own_command(self):
        rng = self.rng
        bits = [1] * rng.choice([0, 0, 1, 5, 30]) + [0]
        for _ in range(rng.choice([0, 1, 1, 2, 3, 8])):
            bits += word_bits(rng.choice(TELLING + [rng.getrandbits(16)]))
        odd = rng.random()
        if odd < 0.15:
            bits += [1] * 17 + [0]
        elif odd < 0.25:
            bits += [0] + [1] * 16
        elif odd < 0.35:
            bits += [rng.getrandbits(1) for _ in range(17)]
        self.own.extend(bits + [1] * rng.choice([16, 17, 18, 18, 18, 19, 36]))

    def sin(self, sout):
        if self.mode == "stuck1":
            return 1
        if self.mode == "stuck0":
            return 0
        if self.mode == "noise":
            return int(self.rng.random() < 0.8)
        if self.mode == "own":
            if not self.own:
                self.own_command()
            return self.own.popleft()
        if self.mode == "given":
            return self.own.popleft() if self.own else 1
        bit = self.looped(sout)
        if self.mode == "flip" and self.rng.random() < self.rate:
            bit ^= 1
        return bit


class Host:
    """Frames and programs of the host: generators of ('w', word), ('r',), ('t', ticks),
    ('c', step), ('n', ms before the clock's wrap) and ('p', value)."""

    def __init__(self, rng, bench, line, share):
        """`share`: of the power-ups, those that choose the maker's layout."""
        self.rng, self.bench, self.line, self.share = rng, bench, line, share
        self.wrong, self.cut = 0.04, 0.03
        self.foreign = False                # frames are written in the layout that is not in force

    def chance(self, p):
        return self.rng.random() < p

    # ---- the layout (02 item 7) ----
    def makers(self):
        return self.bench.makers != self.foreign

    def command(self, number, words=1, ends=0, address=0):
        return command_word(self.makers(), number, words, ends, address)

    def power_up(self, good=1):
        return "p", int(good) + 2 * self.chance(self.share)

    def limits(self):
        """The watchdog's, in ms."""
        return [40, 40, 20, 20, 10, 10, 0] if self.bench.makers else [1, 2, 3, 5, 10, 255]

    def control(self, limit=None):
        """SPICTRL with this limit, or the one of power-up; in the maker's layout with one algorithm or the other."""
        if not self.bench.makers:
            return (limit or 0) << 8
        return MAKERS_RESET | CODES[40 if limit is None else limit] | self.rng.choice([0, ALGORITHM])

    def near_wrap(self):
        """The clock, which the maker's watchdog does not let go far by itself: mostly it is off meanwhile."""
        guarded = self.bench.makers and self.chance(0.8)
        if guarded:
            yield ("r",)
            yield from self.reg_write(1, [self.control(0)], wrong=0, cut=0)
        yield "n", self.rng.randint(1, 8)
        if guarded:
            yield from self.reg_write(1, [self.control()], wrong=0, cut=0)

    # ---- frames ----
    def wrong_crc(self, words, start):
        """Of the right one a bit or all turned; by the other algorithm; any word."""
        rng, crc = self.rng, crc16(words, start)
        other = crc16(words, start ^ CCITT)
        return rng.choice([crc ^ 1 << rng.randint(0, 15), crc ^ 0xFFFF, other, other, rng.getrandbits(16)])

    def frame(self, words, answers, wrong=None, cut=None):
        """By the algorithm that is in force before its command word, whatever its own data words do to SPICTRL."""
        rng, start = self.rng, self.bench.start
        if self.chance(self.cut if cut is None else cut):
            for word in words[:rng.randint(1, len(words))]:
                yield "w", word
            yield ("r",)
            return
        spoilt = self.chance(self.wrong if wrong is None else wrong)
        for word in words + [self.wrong_crc(words, start) if spoilt else crc16(words, start)]:
            yield "w", word
        more = answers if self.chance(0.9) else rng.randint(0, answers + 2)
        for _ in range(more):
            yield "w", 0xFFFF if self.chance(0.9) else rng.getrandbits(16)
        if self.chance(0.75):
            yield ("r",)

    def some_words(self, count):
        rng = self.rng
        words = [rng.choice(TELLING + [rng.getrandbits(16)] * 6) for _ in range(count)]
        if words and self.chance(0.6):
            words[0] = rng.choice([0xAAF0] + [0xAA00 + rng.randint(0, 15)])
        return words

    def forward(self, number=None, count=None, ends=None, **how):
        rng = self.rng
        number = number or rng.randint(2, 7)
        small = rng.choice([1, 1, 1, 2, 2, 3, 4, 8])
        ends = rng.choice([0, 0, 0, 1, 2, 3, 9]) if ends is None else ends
        if number <= 3:
            count = count or small
        elif number <= 5:
            count = rng.choice([0, 0, small, small, 31]) if count is None else count
        else:
            count = count or rng.choice([small, small, small, 32])
        yield from self.frame([self.command(number, count, ends)] + self.some_words(count), 2, **how)

    def data_read(self, count=None, **how):
        count = count or self.rng.choice([1, 1, 2, 3, 5, 17, self.rng.randint(1, 256)])
        number = self.rng.choice([8, 9])
        yield from self.frame([self.command(number, count)], count + 1, **how)

    def reg_write(self, address, values, number=None, **how):
        number = number or self.rng.choice([10, 11])
        yield from self.frame([self.command(number, len(values), address=address)] + list(values), 2, **how)

    def reg_read(self, address=None, count=None, **how):
        rng = self.rng
        address = rng.randrange(REGISTERS) if address is None else address
        count = count or rng.randint(1, REGISTERS - address)
        number = rng.choice([12, 13])
        yield from self.frame([self.command(number, count, address=address)], count + 1, **how)

    def observe(self):
        yield from self.reg_read(*self.rng.choice([(0, REGISTERS), (7, 5), (7, 5), (7, 4), (7, 1), (1, 8), (10, 2), (NUMBER, 1)]))

    def soft_reset(self, **how):
        yield from self.frame([self.command(14)], 2, **how)

    def register_value(self, address):
        rng = self.rng
        any_word = rng.getrandbits(16)
        choice = {
            1: [0, 0, any_word & 0x00FE, 0x0001, 0x0300, 0x0A00, 0x0500, any_word & 0xFF00, 0] if not self.bench.makers else
               [MAKERS_RESET, self.control(), self.control(), self.control(rng.choice(self.limits())), self.control() | SILENT,
                self.control(rng.choice(self.limits())) | SILENT, any_word & ~SILENT, any_word & ~SILENT, any_word],
            3: [0x01FF, 0x01FF, AT_POWER_UP, AT_POWER_UP, 62, 64, 0, 1, 3, 0x8000, 0x81FF, 0x803F, 0x8003, any_word],
            4: [0x00FF, 0, 1, 3, 0x8000, 0x80FF, 0x8002, any_word, 0x00FE],
            5: [0, 1, 4, 5, 1, any_word],
            6: [0, 0x0B01, any_word, 0x0800, 0x0200, 0x0100, 1],
            7: [0x8000, 0x8000, 0xFFFF, 0x7FFF, any_word],
        }
        return rng.choice(choice.get(address, [any_word, 0, 0xFFFF]))

    def recover(self):
        """Chip select up, out of failsafe, flags cleared."""
        rng = self.rng
        yield ("r",)
        yield from self.reg_write(5, [1, rng.choice([0, 0, 0x0B01]), 0x8000], wrong=0, cut=0)
        yield from self.empty(0.3)
        if self.chance(0.3):
            level = rng.choice([0x01FF, 0x01FF, AT_POWER_UP, 62, 64, 0, 2])
            yield from self.reg_write(3, [level, rng.choice([0xFF, 0, 2])], wrong=0, cut=0)
        if self.chance(0.5):
            value = rng.choice([self.control(), self.control(), self.control(0)]) if self.bench.makers else rng.choice([0, 0, 0x2000])
            yield from self.reg_write(1, [value], wrong=0, cut=0)

    def empty(self, p):
        """Queue and stores emptied, with chance p."""
        if self.chance(p):
            yield "t", 20
            yield from self.soft_reset(wrong=0, cut=0)
        elif self.chance(p):
            yield from self.reg_write(3, [self.rng.choice([0x81FF, 0x803F])], wrong=0, cut=0)

    def start_over(self, levels):
        """TX and queue empty, NORMAL, no flag, at one of these levels: by a power-up where it can be, half the time."""
        level = self.rng.choice(levels)
        power = self.power_up()
        yield ("r",)
        if level == (AT_POWER_UP if power[1] < 2 else MAKERS_LEVEL) and self.chance(0.5):
            yield power
            if power[1] >= 2 and self.chance(0.4):
                yield from self.reg_write(1, [self.control()], wrong=0, cut=0)
            yield from self.reg_write(7, [0x8000], wrong=0, cut=0)
        else:
            yield from self.reg_write(5, [1, 0, 0x8000], wrong=0, cut=0)
            yield from self.reg_write(3, [0x8000 | level], wrong=0, cut=0)

    def paced(self, number, count, early, period):
        """A forward with so many ticks behind each word, `early` behind the first 64, and then until it is sent; none once it is blocked."""
        self.bench.blocked = False
        yield ("r",)
        for at, action in enumerate(self.forward(number, count)):
            yield action
            yield "t", 0 if self.bench.blocked else early if at < 64 else period
        made = max(0, at - 64) * period
        yield "t", 40 if self.bench.blocked else max(40, 17 * min(at, count) + 40 - made)

    # ---- forwards by the places they need (02 item 3) ----
    def pair(self, count=None, ends=None):
        """Words and extra ENDs: two places."""
        rng = self.rng
        yield ("r",)
        yield from self.forward(rng.randint(4, 7), count or rng.choice([1, 1, 1, 2, 3]), ends or rng.choice([1, 1, 1, 2, 3]), wrong=0, cut=0)

    def single(self):
        """Words or extra ENDs: one place."""
        rng = self.rng
        number, count, ends = rng.choice([(2, 1, 0), (3, 2, 0), (4, 0, 1), (5, 0, 1), (5, 0, 2), (rng.randint(4, 7), 1, 0)])
        yield ("r",)
        yield from self.forward(number, count, ends, wrong=0, cut=0)

    def fill(self, used, full):
        """From so many places used to so many, mostly by pairs."""
        while used < full:
            both = full - used > 1 and self.chance(0.8)
            yield from self.pair() if both else self.single()
            used += 1 + both

    def quiet(self, levels):
        """The line gives back what it gets, soon, late, changed or never; queue and TX empty, sender idle, mostly the reader too."""
        rng = self.rng
        mode = rng.choice(["loop", "loop", "loop", "loop", "change", "change", "change", "stuck1", "insert", "lead", "own"])
        self.line.set(mode, rng.choice([0, 0, 0, 0, 1, 2, 17, 18, 19, 36, 40, 60]), 0.05)
        yield from self.start_over(levels)
        yield "t", 40

    def held(self):
        """Nothing starts: by POR, in FAILSAFE, or because no tick comes."""
        how = self.rng.choice(["power", "force", "no tick"])
        if how == "power":
            yield self.power_up()
        elif how == "force":
            yield from self.reg_write(5, [4], wrong=0, cut=0)

    def let_go(self):
        yield ("r",)
        yield from self.reg_write(5, [1, 0, 0x8000], wrong=0, cut=0)

    def into_pair(self, words, ends):
        """Ticks from a pair's first bit into its words, their END, up to the edge between or into the extra ENDs."""
        rng = self.rng
        sent = 1 + 17 * words + END
        return rng.choice([rng.randint(1, sent - END), sent - rng.randint(1, END), sent - rng.randint(1, END), sent - 1, sent, sent, sent,
                           sent + 1, sent + rng.randint(1, END * ends), sent + END * ends - 1, sent + END * ends])

    # ---- bad check bits, and the number of the word (02 item 4) ----
    def read_number(self):
        """Register 11, alone or at the end of a block."""
        block = self.rng.choice([(NUMBER, 1), (NUMBER, 1), (NUMBER, 1), (10, 2), (10, 2), (0, REGISTERS), (7, 5), (8, 4)])
        yield ("r",)
        yield from self.reg_read(*block, wrong=0, cut=0)

    def write_number(self):
        """A write that must not change it."""
        address = self.rng.choice([NUMBER, NUMBER, NUMBER, 10, 8, 0])
        yield ("r",)
        yield from self.reg_write(address, [self.register_value(at) for at in range(address, REGISTERS)], wrong=0)

    def limit_word(self):
        """A frame of a register command with address + count 12, or 13, which is over the limit."""
        rng = self.rng
        number, (address, count) = rng.randint(10, 13), rng.choice([(10, 2), (11, 1), (0, 12), (11, 2), (12, 1), (0, 13)])
        words = [self.register_value(address + i) for i in range(count)] if number <= 11 else []
        yield ("r",)
        yield from self.frame([self.command(number, count, address=address)] + words, 2 if words else count + 1)
        yield ("r",)

    def bad_line(self, right):
        """A command of so many right words and then a bad one: a wrong check bit, or seventeen 1s and a 0. More groups, to be discarded; END."""
        rng = self.rng
        words = [rng.choice(TELLING + [rng.getrandbits(16)] * 4) for _ in range(right)]
        seventeen = self.chance(0.3)
        if seventeen and words:
            words[-1] |= 1                  # check bit 0, or the seventeen would be END
        bits = [0]
        for word in words:
            bits += word_bits(word)
        bits += [1] * 17 + [0] if seventeen else bad_bits(rng.choice([0x1234, 0x8001, 0x7FFF, rng.getrandbits(16)]))
        for _ in range(rng.choice([0, 0, 1, 2, 4])):
            bits += rng.choice([word_bits(rng.getrandbits(16)), bad_bits(rng.getrandbits(16)), [1] * 17 + [0]])
        return bits + [1] * rng.choice([18, 18, 18, 19, 36])

    def ticks_with_trouble(self, ticks, bad):
        """So many ticks; half the time something comes after some of them, at the bit that is bad, about it, behind it or anywhere."""
        rng = self.rng
        cut = ticks
        if self.chance(0.5):
            cut = rng.choice([bad - 1, bad, bad, bad + 1, rng.randint(bad, ticks), rng.randint(bad, ticks), rng.randint(0, ticks)])
        yield "t", cut
        if cut < ticks:
            yield from self.between()
            yield "t", ticks - cut

    def bad_given(self):
        """On SIN alone, while nothing is sent: no place's command."""
        rng = self.rng
        right = rng.choice([0, 1, 1, 2, 2, 3, rng.randint(4, 9), rng.randint(4, 9), rng.randint(10, 30)])
        bits = [1] * rng.choice([0, 0, 1, 20]) + self.bad_line(right)
        self.line.set("given")
        self.line.own.extend(bits)
        yield from self.ticks_with_trouble(len(bits), min(bits.index(0) + 17 * (right + 1) + 1, len(bits)))

    def bad_back(self):
        """A forward that comes back with one of its words damaged, or two; a damaged 0xFFFF is seventeen 1s."""
        rng = self.rng
        number, count = rng.randint(2, 7), rng.choice([1, 2, 2, 3, 3, 4, 6, rng.randint(7, 20)])
        ends = rng.choice([0, 0, 1, 2]) if number >= 4 else 0
        at, delay = rng.randrange(count), rng.choice([0, 0, 0, 1, 17, 40])
        words = self.some_words(count)
        if self.chance(0.3):
            words[at] = 0xFFFF
            if at > 0:
                words[at - 1] |= 1          # check bit 0
            if at + 1 < count:
                words[at + 1] &= 0x7FFF     # the 0 behind the seventeen
        self.line.set("damage", delay, 0, {at, rng.choice([at, rng.randrange(count)])})
        yield ("r",)
        yield from self.frame([self.command(number, count, ends)] + words, 2, wrong=0, cut=0)
        yield from self.ticks_with_trouble(1 + 17 * count + END * (1 + ends) + delay + 2, 1 + 17 * (at + 1) + delay)

    def between(self):
        """What comes between bad words, and in the middle of a command."""
        rng = self.rng
        kind = rng.choices("cnwsmtvp", [9, 6, 3, 4, 2, 2, 1, 1])[0]
        yield ("r",)
        if kind == "c":
            yield from self.reg_write(7, [rng.choice([0x8000, 0x8000, 0xFFFF])], wrong=0, cut=0)
        elif kind == "n":
            yield from self.read_number()
        elif kind == "w":
            yield from self.write_number()
        elif kind == "s":
            yield from self.soft_reset(wrong=0, cut=0)
        elif kind == "m":
            yield from self.reg_write(6, [rng.choice([0x0800, 0x0B01, 0])], wrong=0, cut=0)
        elif kind == "t":
            yield from self.reg_write(3, [rng.choice([0x81FF, 0x803F])], wrong=0, cut=0)
        elif kind == "v":
            yield from self.reg_write(7, [rng.choice([0x7FFF, 0, rng.getrandbits(15)])], wrong=0, cut=0)
        else:
            yield self.power_up(self.chance(0.7))

    # ---- programs, one a phase ----
    def one_frame(self):
        rng = self.rng
        pick = rng.choices("fdwrosm", [50, 10, 12, 8, 10, 4, 3])[0]
        if pick == "f":
            yield from self.forward()
        elif pick == "d":
            yield from self.data_read()
        elif pick == "w":
            yield from self.random_write()
        elif pick == "r":
            yield from self.reg_read()
        elif pick == "o":
            yield from self.observe()
        elif pick == "s":
            yield from self.soft_reset()
        else:
            yield "w", 0xFFFF

    def random_write(self):
        address = self.rng.randrange(REGISTERS)
        count = min(self.rng.choice([1, 1, 1, 2, 4, REGISTERS]), REGISTERS - address)
        yield from self.reg_write(address, [self.register_value(address + i) for i in range(count)])

    def unblock(self):
        """A host that saw note 5 clears the flags, mostly."""
        if self.bench.blocked and self.chance(0.4):
            self.bench.blocked = False
            yield ("r",)
            yield from self.reg_write(7, [0x8000], wrong=0, cut=0)

    def traffic(self):
        while True:
            yield from self.one_frame()
            yield from self.unblock()
            if self.chance(0.3):
                yield "t", self.rng.choice([1, 2, 17, 18, 36, 37, 60])

    def clean_forwards(self):
        self.wrong = self.cut = 0
        if self.chance(0.6):
            self.line.set("loop", self.rng.choice([0, 0, 1, self.rng.randint(0, 40)]))
        while True:
            number = self.rng.randint(2, 7)
            yield from self.forward(number, self.rng.choice([None, 1, 2, 3]))
            yield from self.unblock()
            yield "t", self.rng.choice([0, 1, 36, 37, 55, 100])
            if self.chance(0.2):
                yield from self.observe()

    def overflow(self):
        rng = self.rng
        yield from self.reg_write(3, [rng.choice([0x01FF, 0x81FF, AT_POWER_UP, 5])], wrong=0, cut=0)
        if self.chance(0.4):
            yield from self.forward(2, rng.choice([511, 512, 300]), wrong=0, cut=0)
            yield from self.reg_read(9, 1)
        how = {"cut": rng.choice([0, 0, 1]), "wrong": rng.choice([0, 0.3])}
        for _ in range(2):
            yield from self.forward(rng.choice([2, 3, 3]), rng.choice([250, 300, 512]), **how)
        yield from self.forward(3, rng.randint(513, 560), **how)
        yield from self.observe()

    def underflow(self):
        rng = self.rng
        while True:
            yield from self.empty(0.6)
            yield from self.reg_write(3, [rng.choice([0, 0, 1])], wrong=0, cut=0)
            number = rng.choice([3, 5, 7])
            count = rng.randint(3, 12)
            ends = rng.choice([0, 0, 2]) if number > 3 else 0
            words, start = [self.command(number, count, ends)] + self.some_words(count), self.bench.start
            early = rng.randint(2, 4)
            for word in words[:early]:
                yield "w", word
            yield "t", 17 * early + rng.choice([-17, -16, -15, 0, 20, 40])
            for word in words[early:]:
                yield "w", word
            if self.chance(0.3):
                yield ("r",)
            else:
                yield "w", crc16(words, start)
                yield "w", 0xFFFF
                yield "w", 0xFFFF
            yield "t", rng.choice([0, 10, 40])
            yield from self.observe()
            if self.chance(0.8):
                yield from self.reg_write(7, [0x8000], wrong=0)

    def near_level(self):
        """Forwards of 60 to 70 words, into an empty TX or behind one another."""
        rng = self.rng
        levels = [AT_POWER_UP, AT_POWER_UP, AT_POWER_UP, 62, 64, 0x01FF]
        yield from self.start_over(levels)
        while True:
            period = rng.choice([0, 1, 16, 18, 60, 400, 1200, 1200])
            yield from self.paced(rng.choice([3, 3, 3, 3, 2]), rng.randint(60, 70), rng.choice([0, 0, 0, 1, 17]), period)
            if self.bench.blocked or self.chance(0.5):
                yield from self.start_over(levels)
            if self.chance(0.3):
                yield from self.observe()

    def long_forward(self):
        """A long FWD_WR at the power-up level, by a host slower or faster than the line."""
        rng = self.rng
        yield from self.start_over([AT_POWER_UP])
        count = rng.choice([128, rng.randint(128, 200), rng.randint(128, 300), rng.randint(300, 600)])
        period = rng.choice(rng.choice([[1, 4, 9, 15, 16, 17], [18, 20, 24, 28, 34, 40, 50]]))
        yield from self.paced(3, count, rng.choice([0, 0, 1, period]), period)
        yield from self.observe()

    def queue(self):
        rng = self.rng
        self.wrong = self.cut = 0.01
        if self.chance(0.4):
            yield self.power_up()
        elif self.chance(0.3):
            yield from self.reg_write(5, [4], wrong=0, cut=0)
        ahead = rng.choice([7, 8, 8, 9, 12])
        for i in range(ahead):
            last = i >= 8
            yield from self.forward(rng.choice([4, 5, 5, 3, 2, 6, 7]),
                                    rng.choice([0, 1, 1, 2]) if last or i % 3 else 1,
                                    rng.choice([1, 0, 2]))
            if self.chance(0.2):
                yield from self.observe()
        yield from self.recover()
        yield "t", rng.choice([40, 300, 600])

    def pair_queue(self):
        """Queue filled by forwards with both; then more, with one place free, none or two."""
        rng = self.rng
        while True:
            yield from self.quiet([AT_POWER_UP, 0x01FF, 0])
            yield from self.held()
            yield from self.fill(0, rng.choice([6, 7, 7, 7, 7, 8, 8]))
            for _ in range(rng.randint(1, 2)):
                yield from rng.choice([self.pair, self.pair, self.single])()
            if self.chance(0.3):
                yield from self.observe()
            if self.chance(0.3):
                yield ("r",)
                yield from self.soft_reset(wrong=0, cut=0)
            yield from self.let_go()
            yield "t", rng.choice([20, 60, 120])

    def pair_freed(self):
        """A full queue with a pair in front, ticks up to one that frees a place or near it, and more forwards."""
        rng = self.rng
        while True:
            yield from self.quiet([AT_POWER_UP, 0x01FF, 0])
            yield from self.held()
            words, ends = rng.choice([1, 1, 2]), rng.choice([1, 2, 3])
            yield from self.pair(words, ends)
            yield from self.fill(2, rng.choice([PLACES - 1, PLACES, PLACES]))
            yield from self.let_go()
            yield "t", 1 + 17 * words + END + rng.choice([-1, 0, 0, 1, END * ends - 1, END * ends, rng.choice([-1, 0, 1]) + self.line.delay])
            for _ in range(rng.randint(1, 3)):
                yield from rng.choice([self.pair, self.single])()
                yield "t", rng.choice([0, 0, 1, END, END * ends])
            if self.chance(0.5):
                yield from self.observe()

    def long_ends(self):
        """Many extra ENDs, with words or alone, and something at their end or near it."""
        rng = self.rng
        while True:
            yield from self.quiet([AT_POWER_UP, 0x01FF])
            number, ends = rng.randint(4, 7), rng.choice([15, 16, 32, 63, 64, 65, 96, 126, 127])
            count = rng.choice([0, 1]) if number <= 5 else 1
            yield from self.forward(number, count, ends, wrong=0, cut=0)
            if self.chance(0.5):
                yield from self.single()
            yield "t", (1 + 17 * count + END) * (count > 0) + END * ends + rng.choice([-1, 0, 0, 1])
            yield ("r",)
            yield from rng.choice([self.soft_reset(), self.soft_reset(), self.reg_write(2, [rng.getrandbits(16)]), self.single()])
            yield "t", rng.choice([1, 20])

    def pair_trouble(self):
        """Something comes in the middle of a pair; its bits, and what waits behind it, then."""
        rng = self.rng
        while True:
            yield from self.quiet([AT_POWER_UP, 0x01FF])
            words, ends = rng.choice([1, 1, 2, 3]), 127 if self.chance(0.03) else rng.choice([1, 1, 2, 5])
            yield from self.pair(words, ends)
            for _ in range(rng.choice([0, 1, 1, 2])):
                yield from rng.choice([self.pair, self.single])()
            yield "t", self.into_pair(words, ends)
            yield from self.trouble()
            yield "t", rng.choice([1, END - 1, END, END * (1 + ends) + 2])
            yield from rng.choice([self.observe, self.pair, self.single, self.let_go])()
            yield "t", rng.choice([1, 40, 80])

    def trouble(self):
        """Clear, reset, FAILSAFE or a flag."""
        rng = self.rng
        yield ("r",)
        kind = rng.choices("trdfwclsp", [6, 3, 3, 8, 4, 3, 3, 2, 1])[0]
        if kind == "t":
            yield from self.reg_write(3, [rng.choice([0x81FF, 0x803F])], wrong=0, cut=0)
        elif kind == "r":
            yield from self.soft_reset(wrong=0, cut=0)
        elif kind == "d":
            yield from self.reg_write(2, [rng.getrandbits(16)], wrong=0, cut=0)
        elif kind == "f":
            yield from self.reg_write(5, [4], wrong=0, cut=0)
        elif kind == "w":
            limit = min(limit for limit in self.limits() if limit)
            yield from self.reg_write(1, [self.control(limit)], wrong=0, cut=0)
            yield "c", limit + rng.choice([0, 1])
            yield from self.reg_write(1, [self.control()], wrong=0, cut=0)
        elif kind == "c":
            yield "c", rng.choice([4, 5, 6])
        elif kind == "l":
            yield from rng.choice([self.single, self.pair])()
            yield from self.cut_released()
        elif kind == "s":
            yield from self.soft_reset(wrong=1, cut=0)
        else:
            yield from self.fill(0, PLACES + 2)

    def pair_underflow(self):
        """A forward with both whose words come too late; more forwards while its END goes out, and about its last 1."""
        rng = self.rng
        while True:
            yield from self.quiet([0])
            number, count = rng.choice([5, 5, 7]), rng.randint(2, 5)
            early = rng.randint(1, count - 1)
            words, start = [self.command(number, count, rng.choice([1, 2, 3]))] + self.some_words(count), self.bench.start
            for word in words[:1 + early]:
                yield "w", word
            ones = rng.choice([0, 1, rng.randint(1, 16), rng.randint(1, 16), END - 1, END, END + 2])
            yield "t", 1 + 17 * early + ones
            for word in words[1 + early:] + [crc16(words, start)] if self.chance(0.85) else []:
                yield "w", word
            yield ("r",)
            if self.chance(0.85):
                yield from self.reg_write(7, [0x8000], wrong=0, cut=0)
            yield from self.fill(2, rng.choice([2, PLACES - 2, PLACES - 1, PLACES - 1, PLACES, PLACES, PLACES, PLACES + 1]))
            if self.chance(0.3):
                yield from self.pair()
            yield "t", END - ones + rng.choice([-1, -1, 0, 0, 1, 30]) if ones < END else 1
            yield from rng.choice([self.pair, self.single, self.observe])()
            yield "t", rng.choice([0, 1, 40, 80])

    def bad_words(self):
        """Commands with a bad word, come back or no place's, one or some before a clear; register 11 read behind them."""
        rng = self.rng
        while True:
            yield from self.start_over([AT_POWER_UP, 0x01FF])
            yield "t", 40
            for _ in range(rng.randint(2, 6)):
                for _ in range(rng.choice([1, 1, 1, 2, 3])):
                    yield from rng.choice([self.bad_given, self.bad_back])()
                    if self.chance(0.8):
                        yield from self.read_number()
                yield from self.between()
                if self.chance(0.15):
                    yield from self.limit_word()
                yield from self.read_number()
                if self.chance(0.4):
                    yield from self.let_go()

    def receive_fill(self):
        self.wrong = self.cut = 0
        rng = self.rng
        self.line.set("stuck1")
        yield from self.recover()
        yield from self.reg_write(3, [0x81FF])
        yield "t", 40                       # sender and reader come to their END
        yield from self.soft_reset()
        yield from self.reg_write(7, [0x8000])
        if self.chance(0.5):                # one command, a long answer
            yield from self.forward(rng.choice([6, 7]), 1, 0)
            self.line.set("own")
            bits = [1] * 20 + [0]
            for _ in range(rng.choice([40, 256, 257, 262, 262])):
                bits += word_bits(rng.getrandbits(16))
            if self.chance(0.5):
                bits += bad_bits(rng.getrandbits(16))
            self.line.own.extend(bits + [1] * 18)
            yield "t", len(bits) + 18
            yield from rng.choice([self.observe, self.read_number])()
        else:
            self.line.set("loop", rng.choice([0, 0, 3, 25]))
            for _ in range(rng.choice([3, 9, 9, 9])):
                yield from self.forward(rng.choice([6, 7]), 32, rng.choice([0, 0, 1]))
                yield "t", rng.choice([560, 600])
                if self.chance(0.2):
                    yield from self.observe()
        for _ in range(rng.choice([0, 2, 4])):  # mostly RX is full, and with the flag down storing begins anew
            self.line.set("loop", rng.choice([0, 0, 3]))
            yield from self.reg_write(7, [0x8000])
            yield from self.forward(rng.choice([6, 7]), rng.choice([1, 1, 2]), 0)
            yield "t", 80
        if self.chance(0.5):
            yield from self.data_read(rng.choice([5, 200, 255, 256]))

    def registers(self):
        while True:
            yield from self.limit_word() if self.chance(0.2) else self.random_write()
            if self.chance(0.4):
                yield from self.reg_read()
            if self.chance(0.3):
                yield from self.forward(count=1)
                yield "t", self.rng.choice([1, 20, 35, 36, 37, 50])

    def resets(self):
        while True:
            yield from self.forward()
            yield "t", self.rng.choice([0, 1, 18, 35, 36, 37, 80])
            yield from self.soft_reset(wrong=self.rng.choice([0, 0, 0.5]))
            if self.chance(0.4):
                yield from self.observe()

    def malformed_word(self):
        """A number that is no command's; a bit turned in a fixed field, or two; registers over the limit."""
        rng, fixed = self.rng, FIXED[self.makers()]
        kind = rng.choice("nfffl")
        if kind == "n":
            return rng.choice([0x0000, 0x1234, 0xF000, 0xFFFE, 0x01E1, 0x11E1, 0xF1E1, rng.choice([0, 1, 15]) << 12 | rng.randrange(0xFFF)])
        if kind == "l":
            address, count = rng.choice([(11, 2), (12, 1), (0, 13), (15, 1), (0, 16), (15, 16), (10, 3), (1, 12)])
            return self.command(rng.randint(10, 13), count, address=address)
        number = rng.choice([2, 8, 9, 10, 11, 12, 13, 14, 14, 14, 14])
        address = rng.randrange(REGISTERS)
        word = self.command(number, rng.randint(1, REGISTERS - address), address=address)
        for bit in rng.sample(fixed[number], rng.choice([1, 1, 1, 2])):
            word ^= 1 << bit
        return word

    def edge_word(self):
        """The longest of their kind."""
        number, words, address = self.rng.choice([(2, 512, 0), (3, 4096, 0), (8, 256, 0), (9, 256, 0), (10, 12, 0), (10, 1, 11), (11, 2, 10),
                                                  (12, 12, 0), (12, 11, 1), (13, 1, 11), (14, 0, 0)])
        return self.command(number, words, address=address)

    def malformed(self):
        rng = self.rng
        while True:
            for _ in range(rng.choice([1, 1, 4, 12])):
                yield "w", self.malformed_word() if self.chance(0.8) else self.edge_word()
                for _ in range(rng.choice([0, 0, 1, 3])):
                    yield "w", rng.choice([0xFFFF, 0xE000, 0xE1E1, rng.getrandbits(16)])
                yield ("r",)
            if self.chance(0.5):
                yield from self.limit_word()
            if self.chance(0.5):
                yield from self.one_frame()
            yield from self.frame([rng.choice([0x4000, 0x5000])], 2)

    def watch(self):
        rng = self.rng
        if self.chance(0.8):
            self.line.set(rng.choice(["stuck1", "stuck1", "stuck0", "loop"]), rng.randint(0, 40))
        while True:
            yield from self.forward(count=rng.randint(1, 3), cut=0)
            yield "t", rng.choice([1, 2, 20, 60])
            for _ in range(rng.randint(1, 9)):
                yield "c", rng.choice([0, 1, 1, 1, 2])
                yield "t", rng.choice([0, 0, 1, 3])
            if self.chance(0.4):
                yield from self.reg_read(7, 2)
            if self.chance(0.3):
                yield from self.recover()

    def marking_words(self):
        """Words of which the last is filler, malformed, discarded, or any of a frame and of its answer: every one marks."""
        rng, bad, frame = self.rng, self.malformed_word(), [self.command(3), 0x1234]
        frame += [crc16(frame, self.bench.start), 0xFFFF, 0xFFFF]
        return rng.choice([[0xFFFF], [bad], [bad, 0xFFFF], [bad, rng.getrandbits(16)], *(frame[:length] for length in range(1, 6))])

    def up_to_limit(self, limit):
        """Some time, a word that marks, and from there readings to just under the limit, to it or over; nothing between them marks."""
        rng = self.rng
        *words, last = self.marking_words()
        yield ("r",)
        yield from (("w", word) for word in words)
        yield "c", rng.randint(0, limit - 1)
        yield "w", last
        left = limit + rng.choice([-1, -1, 0, 0, 1])
        while left > 0:
            step = rng.choice([left, left, rng.randint(0, left)])
            yield "c", step
            left -= step
            if self.chance(0.3):
                yield rng.choice([("r",), ("t", 2)])

    def some_readings(self, limit):
        rng = self.rng
        for _ in range(rng.randint(1, 8)):
            yield "c", rng.choice([0, 1, 1, 2, *([limit - 1, limit] if limit > 0 else [9, 10, 19, 20, 39, 40])])
            if self.chance(0.2):
                yield rng.choice([("w", 0xFFFF), ("r",)])

    def watchdog(self):
        rng = self.rng
        while True:
            if self.bench.makers and self.chance(0.25):
                yield self.power_up(self.chance(0.85))  # the maker's is on from here, the mark 0
                yield "c", rng.choice([1, 20, 39, 39, 40, 40, 41])
            else:
                limit = rng.choice(self.limits())
                yield from self.reg_write(1, [self.control(limit)], wrong=0, cut=0)
                yield from self.up_to_limit(limit) if limit > 0 and self.chance(0.6) else self.some_readings(limit)
                yield ("r",)
            yield from self.reg_read(7, 1)
            if self.chance(0.85 if self.bench.makers else 0.6):
                yield from self.reg_write(5, [1])
            if self.chance(0.5):
                yield from self.forward()
            if self.chance(0.3):
                yield "t", rng.choice([1, 20, 40])

    def compared(self):
        """A word whose CRC is compared, and what became of it: the line's CRC has its own start."""
        yield ("r",)
        yield from self.reg_write(5, [1, 0, 0x8000], wrong=0, cut=0)
        yield from self.frame([self.command(3), self.rng.choice([0xAAF0, 0xAA01])], 2, wrong=0, cut=0)
        yield "t", 75
        yield ("r",)
        yield from self.reg_read(8, 1, wrong=0, cut=0)

    def algorithms(self):
        """SPICTRL by REG_WR and REG_WR_CRC, alone or among others, mostly with its algorithm turned: the frame keeps the one that its command
        word found, also for its answer, and a host that forgets so uses the other. Then a frame by the new one, or by the one before."""
        rng = self.rng
        if self.chance(0.5):
            self.line.set("lead", rng.choice([0, 0, 1, 17]))
        while True:
            before, number, address = self.bench.start, rng.choice([10, 11, 11]), rng.choice([0, 1, 1, 1])
            count = rng.choice([2 - address, 2, 3, 4, 6, REGISTERS - address])
            values = [self.register_value(address + at) for at in range(count)]
            turned = ALGORITHM if before == CCITT else 0
            if self.chance(0.6):
                values[1 - address] = self.control(rng.choice([40, 40, 20, 0]) if self.bench.makers else None) & ~ALGORITHM | turned
            yield ("r",)
            yield from self.reg_write(address, values, number, wrong=rng.choice([0, 0, 0.5]), cut=rng.choice([0, 0, 0, 0.3]))
            if self.chance(0.25):
                words = [rng.choice([self.command(14), self.command(13, 1, address=1), self.command(12, 1, address=7), self.command(8, 1)])]
                for word in words + [crc16(words, before)] + [0xFFFF] * 2:
                    yield "w", word
            yield from rng.choice([self.forward(), self.soft_reset(), self.data_read(1), self.observe(), self.reg_read(1, 1), self.reg_read(1, 1)])
            yield from self.compared() if self.chance(0.2) else self.let_go() if self.chance(0.3) else ()
            if self.chance(0.3):
                yield "t", rng.choice([1, 36, 60])

    def other_layout(self):
        """A host that takes the board for one of the other layout: its words, with a CRC of either start; chip select behind each frame."""
        rng = self.rng
        while True:
            self.foreign = self.chance(0.6)
            self.wrong = 0.3 if self.foreign else 0.04
            yield from self.one_frame()
            yield ("r",)
            self.foreign = False
            if self.chance(0.2):
                yield from self.reg_write(5, [1, 0, 0x8000], wrong=0, cut=0)
                yield from self.reg_write(1, [self.control()], wrong=0, cut=0)
            if self.chance(0.2):
                yield "t", rng.choice([1, 20, 60])

    def failsafe(self):
        rng = self.rng
        while True:
            for _ in range(rng.randint(1, 3)):
                yield from self.forward()
            yield "t", rng.choice([0, 1, 17, 19, 36, 50])
            yield from self.reg_write(5, [rng.choice([4, 4, 5, 1])])
            yield "t", rng.choice([1, 36, 80])
            yield from self.one_frame()
            yield from self.reg_write(5, [rng.choice([1, 1, 5])])
            yield "t", rng.choice([1, 36, 80])
            if self.chance(0.3):
                yield from self.reg_write(7, [0x8000])

    def clears(self):
        rng = self.rng
        while True:
            kind = rng.choice("trbc")
            for _ in range(rng.randint(1, 3)):
                yield from self.forward(cut=0)
            yield "t", rng.choice([0, 1, 5, 18, 19, 30, 35, 36, 37, 50, 70])
            if kind == "t":
                yield from self.reg_write(3, [rng.choice([0x81FF, 0x803F, 0x8000, 0x8002])])
            elif kind == "r":
                yield from self.reg_write(4, [rng.choice([0x80FF, 0x8000, 0x8001])])
            elif kind == "b":
                yield from self.reg_write(2, [rng.getrandbits(16), 0x8000, 0x8000])
            else:
                yield from self.cut_released()
            yield "t", rng.choice([0, 1, 17, 18, 19, 40])
            if self.chance(0.4):
                yield from self.observe()

    def cut_released(self):
        """Level 0, a released forward cut with its data missing or whole."""
        yield from self.reg_write(3, [0], wrong=0, cut=0)
        count = self.rng.randint(2, 6)
        words = [self.command(3, count)] + self.some_words(count)
        for word in words[:self.rng.randint(2, count + 1)]:
            yield "w", word
            yield "t", self.rng.choice([0, 0, 5, 17])
        yield ("r",)

    def power(self):
        while True:
            yield self.power_up(self.chance(0.7))
            if self.chance(0.3):
                yield from self.reg_read(0, REGISTERS, wrong=0, cut=0)
            if self.chance(0.2):
                yield "c", self.rng.choice([1, 5, 39, 40])
            for _ in range(self.rng.randint(1, 6)):
                yield from self.one_frame()
            if self.chance(0.7):
                yield from self.reg_write(7, [0x8000])
            yield "t", self.rng.choice([5, 40, 100])
            yield from self.observe()

    def chaos(self):
        rng = self.rng
        while True:
            word = rng.choice([rng.getrandbits(16), 0xFFFF, rng.randint(2, 14) << 12, self.edge_word(),
                               rng.randint(2, 14) << 12 | rng.randint(0, 3)])
            yield "w", word
            if self.chance(0.15):
                yield ("r",)


DECK = (["traffic"] * 7 + ["clean_forwards"] * 8 + ["overflow"] * 3 + ["underflow"] * 4
        + ["near_level"] * 2 + ["long_forward"] + ["queue"] * 4 + ["receive_fill"] + ["registers"] * 3 + ["resets"] * 2
        + ["malformed"] + ["watch"] * 3 + ["watchdog"] * 2 + ["failsafe"] * 2 + ["clears"] * 4
        + ["power"] + ["chaos"] + ["pair_queue"] * 4 + ["pair_freed"] * 6 + ["pair_trouble"] * 7 + ["pair_underflow"] * 5
        + ["bad_words"] * 14 + ["long_ends"] + ["algorithms"] * 2 + ["other_layout"] * 2)
# more of these in a script that has the maker's layout
MAKERS_DECK = DECK + ["algorithms"] * 8 + ["watchdog"] * 4 + ["malformed"] * 3 + ["other_layout"] + ["power"] * 2 + ["long_ends"]
SPAN = {"clean_forwards": 900, "overflow": 1500, "receive_fill": 6500, "queue": 900, "power": 250, "chaos": 150,
        "malformed": 250, "near_level": 2000, "long_forward": 12000, "pair_queue": 600, "pair_freed": 900, "pair_trouble": 700,
        "pair_underflow": 700, "bad_words": 900, "long_ends": 500, "algorithms": 350, "other_layout": 250}
# with hardly a tick that the program does not ask for
PACED = ("overflow", "queue", "near_level", "long_forward", "pair_queue", "pair_freed", "pair_trouble", "pair_underflow", "bad_words",
         "long_ends")


class Maker:
    def __init__(self, seed, limit):
        # of the power-ups, those that choose the maker's layout
        self.share = (0.9, 0, 0.6, 0)[seed % 4]
        self.deck = MAKERS_DECK if self.share else DECK
        self.rng = random.Random(seed)
        self.bench = Bench(limit)
        self.line = Line(self.rng)
        self.reading = 0

    def tick(self):
        self.bench.event(TICK, self.line.sin(self.bench.next_sout))

    def clock(self, step):
        self.reading = (self.reading + step) & 0xFFFF
        self.bench.event(CLOCK, self.reading)

    def act(self, action):
        kind = action[0]
        if kind == "w":
            self.bench.event(WORD, action[1])
        elif kind == "r":
            self.bench.event(RELEASE)
        elif kind == "t":
            for _ in range(action[1]):
                self.tick()
        elif kind == "c":
            self.clock(action[1])
        elif kind == "n":
            self.clock(65536 - self.reading - action[1])
        else:
            self.bench.event(POWER, action[1])
            if action[1] >= 2 and self.rng.random() < 0.9:
                self.reading = 0            # the last reading is 0, and the maker's watchdog is on: a later clock is FAILSAFE at once

    def before(self, host):
        """What stands before a phase."""
        rng = self.rng
        if self.share and rng.random() < 0.4:
            yield host.power_up(rng.random() < 0.97)
        if rng.random() < 0.3:
            yield from host.near_wrap()
        if rng.random() < 0.85:
            yield from host.recover()

    def phase(self, name):
        rng = self.rng
        host = Host(rng, self.bench, self.line, self.share)
        self.line.choose()
        for action in self.before(host):
            self.act(action)
        ticks = rng.choice([0, 0, 0.02]) if name in PACED else rng.choice([0, 0, 0.3, 1, 3, 8])
        clocks = rng.choice([0, 0.01, 0.1]) if name != "overflow" else 0
        stop = self.bench.events + SPAN.get(name, rng.randint(200, 600))
        for action in getattr(host, name)():
            if self.bench.events >= stop:
                return
            while rng.random() * (1 + ticks) > 1:
                self.tick()
            if rng.random() < clocks:
                self.clock(rng.choice([0, 1, 1, 1, 2, 3]))
            self.act(action)

    def run(self):
        try:
            while True:
                deck = self.deck[:]
                self.rng.shuffle(deck)
                for name in deck:
                    self.phase(name)
        except Done:
            pass
        self.bench.proc.stdin.close()
        self.bench.proc.wait()
        return bytes(self.bench.script)


def main():
    if len(sys.argv) != 3:
        sys.exit("use: make_scripts.py SEED EVENTS > file.cwb")
    sys.stdout.buffer.write(Maker(int(sys.argv[1]), int(sys.argv[2])).run())


if __name__ == "__main__":
    main()
