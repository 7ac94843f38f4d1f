"""Writes a run as VCD (IEEE 1364), for GTKWave, PulseView and other programs that show signals.

Words stand bit by bit, as in the dump of a netlist: libsigrok 0.5.2, which sigrok-cli and PulseView have, takes single wires, and leaves all that
follows unread where a value of several bits comes. GTKWave puts a word's bits together by itself. PulseView 0.4.2 draws more than 56 wires wrong and
ends itself at more than 64; but its reader passes over signals that are not called wire or reg. So numbers are reals, and SDO and the words of the line
are called tri, which is as good to GTKWave.
"""
import explain
from explain import TICK, WORD

SLOT, RISES, FALLS = 10, 5, 8  # units of a slot, and when its strobe rises and falls
# kinds of signals: how they are called, and how many wires
NUMBER, WIRE, STATE, WORD_BITS, OTHER_WORD = ("real", 0), ("wire", 1), ("wire", 2), ("wire", 16), ("tri", 16)
FIRST_CODE, CODES = 33, 94  # of a signal's short name: printable characters
NAMES = {"line_crc": "LINE_CRC", "sin": "SIN_FLAG"}  # of flags that are not named as their columns
FLAGS = [NAMES.get(column, column.upper()) for column in explain.FLAGS]
COMMENT = """A slot of %d units is one event of the script: slots count events, they are no measured time. In a slot everything stands as the event
left it. Read sout and sin where tick rises, host_word and sdo where host_strobe rises.""" % SLOT

STROBES = {  # by scope: high in the middle of slots of which this holds
    "line": {"tick": lambda slot: slot.kind == TICK, "sout_done": lambda slot: slot.sout_word is not None,
             "sin_done": lambda slot: slot.sin_word is not None, "sin_wrong": lambda slot: slot.sin_wrong},
    "host": {"host_strobe": lambda slot: slot.kind == WORD},
}
LEVELS = {  # by scope: kind and value; None is no value. A word of the line stays until the next one completes
    "line": {"sout": (WIRE, lambda slot: slot.sout), "sin": (WIRE, lambda slot: slot.sin),
             "sout_word": (OTHER_WORD, lambda slot: slot.last_sout_word), "sin_word": (OTHER_WORD, lambda slot: slot.last_sin_word)},
    "host": {"cs_n": (WIRE, lambda slot: slot.cs_n), "host_word": (WORD_BITS, lambda slot: slot.value if slot.kind == WORD else None),
             "sdo": (OTHER_WORD, lambda slot: slot.sdo if slot.kind == WORD else None), "note": (NUMBER, lambda slot: slot.note)},
    "status": {"state": (STATE, lambda slot: slot.state), "ERR": (WIRE, lambda slot: slot.err), "DRDY": (WIRE, lambda slot: slot.drdy),
               **{name: (WIRE, lambda slot, i=i: slot.flags[i]) for i, name in enumerate(FLAGS)},
               "tx_words": (NUMBER, lambda slot: slot.tx), "rx_words": (NUMBER, lambda slot: slot.rx), "places": (NUMBER, lambda slot: slot.places)},
    "script": {"line": (NUMBER, lambda slot: slot.line), "event": (NUMBER, lambda slot: slot.number)},
}


def short(count):
    """The short name of signal number `count`."""
    name = ""
    while True:
        name += chr(FIRST_CODE + count % CODES)
        count //= CODES
        if not count:
            return name


class Signal:
    """A signal that has a value in every slot: its wires with their short names, the high bit first."""

    def __init__(self, name, kind, of, codes):
        self.of, self.value = of, self  # no value is this one: the first is a change
        called, wires = kind
        self.codes = [next(codes) for _ in range(max(wires, 1))]
        self.is_number = kind == NUMBER
        titles = ["%s [%d]" % (name, bit) for bit in reversed(range(wires))] if wires > 1 else [name]
        self.declared = ["$var %s %d %s %s $end" % (called, 1 if wires else 64, code, title) for code, title in zip(self.codes, titles)]

    def levels(self, value):
        return "{:0{}b}".format(value, len(self.codes)) if isinstance(value, int) else len(self.codes) * ("z" if value is None else "-")

    def changes(self, slot):
        value, before = self.of(slot), self.value
        if value == before:
            return []
        self.value = value
        if self.is_number:
            return ["r%d %s" % (value, self.codes[0])]
        return [new + code for new, old, code in zip(self.levels(value), self.levels(before), self.codes) if new != old]


class Writer:
    """The text of a VCD, slot by slot."""

    def __init__(self, name):
        self.signals, self.strobes, self.end = [], [], None
        self.text = ["$comment\n%s\n%s\n$end" % (name.replace("$", "_"), COMMENT), "$version Icelichen tools/wave $end", "$timescale 1 us $end",
                     "$scope module bridge $end"]
        codes = map(short, range(1 << 16))
        for scope, levels in LEVELS.items():
            self.text.append("$scope module %s $end" % scope)
            for title, holds in STROBES.get(scope, {}).items():
                self.strobes.append((next(codes), holds))
                self.text.append("$var wire 1 %s %s $end" % (self.strobes[-1][0], title))
            for title, (kind, of) in levels.items():
                self.signals.append(Signal(title, kind, of, codes))
                self.text += self.signals[-1].declared
            self.text.append("$upscope $end")
        self.text += ["$upscope $end", "$enddefinitions $end"]

    def put(self, slot):
        """A slot's changes; of the first slot all values."""
        time = SLOT * (slot.number - 1)
        changes = [change for signal in self.signals for change in signal.changes(slot)]
        if self.end is None:
            changes = ["$dumpvars", *("0" + code for code, _ in self.strobes), *changes, "$end"]
        high = [code for code, holds in self.strobes if holds(slot)]
        if changes:
            self.text += ["#%d" % time, *changes]
        if high:
            self.text += ["#%d" % (time + RISES), *("1" + code for code in high), "#%d" % (time + FALLS), *("0" + code for code in high)]
        self.end = time + SLOT

    def made(self):
        """The text, or None where no slot was put."""
        return None if self.end is None else "\n".join([*self.text, "#%d" % self.end, ""])
