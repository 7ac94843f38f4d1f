"""A run as slots, one for each event: what stands on the wires in it, and which part of a command a bit of the line is.

All of it is read off what the program `states` prints (tools/explain.py), so a part is what the bridge's own sender and reader take it for.
"""
import explain
from explain import NUMBER, POWER, RELEASE, TICK, WORD, is_in

START, WORD_BITS, CHECK, END, EXTRA, IDLE = "start bit", "word", "check bit", "END", "extra END", "idle"
WRONG, DROPPED = "wrong check bit", "dropped"  # of SIN alone
COMMAND, DATA, CRC, ANSWER, FILLER, MALFORMED, NO_WORD = "command", "data", "CRC", "answer", "filler", "malformed", "dropped"
LEAST = {WORD_BITS: explain.WORD_BITS, END: explain.END_BITS - 1, EXTRA: explain.END_BITS}  # ticks of a whole one; SIN's END may have a check bit's 1
STATES = {NUMBER[name]: number for name, number in (("normal", 0), ("init", 1), ("failsafe", 3))} if NUMBER else {}  # as STATUS says them
MASKS = {"check_bit": 11, "line_crc": 9, "sin": 8, "spi_crc": 0}  # bits of DIAGMASK, by flag


class Part:
    """Ticks that are one part of a command. A word of SIN has its value once its check bit has come."""

    def __init__(self, kind, first, value=None):
        self.kind, self.first, self.value, self.ticks, self.cut = kind, first, value, 0, False

    def name(self):
        return self.kind + (" %04X" % self.value if self.value is not None else "") + (", cut" if self.cut else "")


class Frame:
    """A host's frame by its command word: the command's name, and in words."""

    def __init__(self, word, said):
        self.name, self.said = explain.NAMES[word >> 12], said


class Slot:
    """An event. Where it is no tick, `tick`, `sout` and `sin` are those of the last one: the line keeps its bit."""

    def __init__(self, number, line, step):
        event = step.event
        self.number, self.line, self.kind, self.value, self.note, self.sdo, self.said = (
            number, line, event.kind, event.value, event.note, event.sdo, step.said)
        self.tick, self.sout, self.sin, self.cs_n = 0, 1, 1, 1
        self.sout_part = self.sin_part = self.frame = self.role = None
        self.sout_word = self.sin_word = self.last_sout_word = self.last_sin_word = None  # the one that this tick completes, and the last one
        self.sin_wrong = False
        self.queued = explain.in_use(step.after) > explain.in_use(step.before) and event.kind != POWER
        self.state = STATES[step.after["mode"]]
        self.flags = [step.after[column] for column in explain.FLAGS]
        self.drdy, self.err = step.after["drdy"], int(is_wrong(step.after))
        self.tx, self.rx, self.places = step.after["tx.count"], step.after["rx.count"], explain.in_use(step.after)


def is_wrong(state):
    """ERR of STATUS (01 Registers)."""
    up = (state[flag] and not (flag in MASKS and state["diagmask"] >> MASKS[flag] & 1) for flag in explain.FLAGS)
    return any(up) or is_in(state, "mode", "failsafe")


def role(step):
    """What a host word is to the bridge."""
    before, after = step.before, step.after
    if is_in(before, "phase", "answering"):
        return ANSWER
    if is_in(before, "phase", "discarding"):
        return NO_WORD
    if is_in(before, "phase", "collecting"):
        return DATA if before["phase.got"] < explain.data_words(before) else CRC
    if step.event.value == explain.FILLER:
        return FILLER
    return COMMAND if is_in(after, "phase", "collecting") else MALFORMED


# ---- the line ----

class Line:
    """One wire of the line: the part that its last bit was of."""

    def __init__(self):
        self.part = Part(IDLE, 1)

    def goes_on(self, kind, tick):
        if self.part.kind != kind:
            self.begins(kind, tick)

    def begins(self, kind, tick, value=None):
        self.part.cut = self.part.ticks < LEAST.get(self.part.kind, 0)
        self.part = Part(kind, tick, value)


def sent(line, step, slot):
    """SOUT's part, by the sender's piece and how much of it is gone."""
    before, after, tick = step.before, step.after, slot.tick
    first = after["sender.gone"] == 1
    if is_in(after, "sender.piece", "start_bit"):
        line.begins(START, tick)
    elif is_in(after, "sender.piece", "word_piece"):
        if first:
            line.begins(WORD_BITS, tick, after["sender.word"])
        elif after["sender.gone"] > explain.WORD_BITS:
            line.begins(CHECK, tick)
            slot.sout_word = after["sender.word"]
    elif is_in(after, "sender.piece", "end_piece"):
        own = explain.is_owing(before) or is_in(before, "sender.piece", "start_bit") or is_in(before, "sender.piece", "word_piece")
        if first:
            line.begins(END if own else EXTRA, tick)
    else:
        line.goes_on(IDLE, tick)
    line.part.ticks += 1
    slot.sout_part = line.part


def heard(line, step, slot, last):
    """SIN's part, by the reader's state before and after the bit. Which word its bits are, or that they are END, is known at their end only."""
    before, after, tick = step.before, step.after, slot.tick
    was, now = before["reader.ear"], after["reader.ear"]
    quiet, group, lost = NUMBER["quiet"], NUMBER["group"], NUMBER["lost"]
    if (was, now) == (quiet, quiet):
        line.goes_on(IDLE, tick)
    elif was == quiet:
        line.begins(START, tick)
    elif (was, now) == (group, quiet):
        line.goes_on(WORD_BITS, tick)
        line.part.kind = END
    elif (was, now) == (group, group):
        if before["reader.bits"] == 0:
            line.begins(WORD_BITS, tick)
        elif after["reader.bits"] == 0:
            slot.sin_word = line.part.value = before["reader.value"]
            line.begins(CHECK, tick)
    elif now == lost and was == group:
        slot.sin_wrong, line.part.value = True, before["reader.value"]
        if before["reader.bits"] > explain.WORD_BITS and last is not None:  # seventeen 1s: the check bit was the bit before
            line.part.ticks -= 1
            last.sin_part = Part(WRONG, last.tick)
            last.sin_part.ticks = 1
            line.begins(DROPPED, tick)
        else:
            line.begins(WRONG, tick)
    else:
        line.goes_on(DROPPED, tick)
    line.part.ticks += 1
    slot.sin_part = line.part


# ---- the run ----

class Wires:
    """What stands on the wires, from slot to slot."""

    def __init__(self):
        self.sout, self.sin = Line(), Line()
        self.last = self.frame = self.sout_word = self.sin_word = None  # the last tick's slot, the open frame, the last words of the line
        self.cs_n = 1
        self.tick = 0

    def put(self, step, slot):
        if slot.kind == TICK:
            self.tick += 1
            slot.tick, slot.sout, slot.sin = self.tick, step.event.sout, slot.value
            sent(self.sout, step, slot)
            heard(self.sin, step, slot, self.last)
            self.last = slot
            self.sout_word = self.sout_word if slot.sout_word is None else slot.sout_word
            self.sin_word = self.sin_word if slot.sin_word is None else slot.sin_word
        elif self.last is not None:
            slot.tick, slot.sout, slot.sin = self.tick, self.last.sout, self.last.sin
        slot.last_sout_word, slot.last_sin_word = self.sout_word, self.sin_word
        if slot.kind == WORD:
            slot.role, self.cs_n = role(step), 0
            if slot.role == COMMAND:
                self.frame = Frame(slot.value, explain.command(slot.value, step.after))
        elif slot.kind in (RELEASE, POWER):
            self.cs_n, self.frame = 1, None
        slot.cs_n, slot.frame = self.cs_n, self.frame
        if is_in(step.after, "phase", "no_frame"):
            self.frame = None


def slots(steps, places):
    """The slots of a run; `places` has the line of each event of a text."""
    wires = Wires()
    for number, step in enumerate(steps, 1):
        try:
            slot = Slot(number, places[number - 1] if places else 0, step)
            wires.put(step, slot)
        except (IndexError, KeyError) as error:
            raise explain.NotTold("event %d is none of this script, or not what `states` prints" % number) from error
        yield slot


def parts(some, wire):
    """The parts of SOUT or SIN in these slots, in order."""
    found = []
    for slot in some:
        part = slot.sout_part if wire == "SOUT" else slot.sin_part
        if part is not None and not (found and found[-1] is part):
            found.append(part)
    return found
