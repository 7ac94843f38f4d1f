#!/usr/bin/env python3
"""Says in words what each event of a script did.

    tools/bench --explain FILE        runs the script and says it
    crates/states/out/states <FILE.cwb | tools/explain.py

Input: what the program `states` (crates/states) prints, the bench's line of each event and the columns of the state that it changed. So the
words are about the state of the proved bridge; nothing here works out what it should be. The columns' names are those of
crates/refusals/stdin.
"""
import pathlib
import re
import sys

sys.dont_write_bytecode = True
sys.path.insert(0, str(pathlib.Path(__file__).resolve().parent))
from ends import ended  # noqa: E402
from frames import NAMES, crc  # noqa: E402

TABLE = pathlib.Path(__file__).resolve().parent.parent / "crates/refusals/stdin"
POWER, WORD, RELEASE, TICK, CLOCK = range(5)
FILLER = 0xFFFF
PLACES, END_BITS, WORD_BITS = 8, 18, 16
REGISTERS = ("DEVID", "SPICTRL", "CCSICTRL", "TXFFLVL", "RXFFLVL", "DEVCTRL", "DIAGMASK", "STATUS", "IFST", "TXFFST", "RXFFST",
             "BADWORD")
READ_ONLY = ("DEVID", "IFST", "TXFFST", "RXFFST", "BADWORD")
HELD = {"SPICTRL": "spictrl", "CCSICTRL": "ccsictrl", "TXFFLVL": "txfflvl", "RXFFLVL": "rxfflvl", "DIAGMASK": "diagmask"}  # by their columns
FULL = {"TXFFST": (0x1FF, "TX"), "RXFFST": (0xFF, "RX")}  # a count that can also mean one more
BITS = {
    "STATUS": {14: "CCSI", 12: "TXFF", 11: "RXFF", 9: "SRST", 8: "SPI", 7: "REG_WRITE", 6: "SPI_CRC", 3: "OTP", 1: "POR", 0: "ERR"},
    "IFST": {9: "SPI_CS", 4: "QUEUE_OVF", 3: "CHECK_BIT", 1: "line CRC", 0: "SIN"},
    "TXFFST": {15: "TXFFOVF", 14: "TXFFUVF"},
    "RXFFST": {15: "RXFFOVF", 14: "RXFFUVF"},
}
ALGORITHMS = ("CCITT-FALSE", "CRC-16/XMODEM")  # of the maker's layout, by SPICTRL's bit 2
WATCHDOG = ("40 ms", "20 ms", "10 ms", "off")  # by its bits 13..12
MODES = ("NORMAL", "INIT", "FAILSAFE")
READY = ("words ready in RX", "nothing ready in RX")  # by DRDY
STATES = {0: "NORMAL", 1: "INIT", 3: "FAILSAFE"}  # as bits 5..4 of STATUS say it
FLAGS = {"otp": "OTP", "por": "POR", "srst": "SRST", "reg_write": "REG_WRITE", "spi_crc": "SPI_CRC", "spi_cs": "SPI_CS", "queue_ovf": "QUEUE_OVF",
         "check_bit": "CHECK_BIT", "line_crc": "line CRC", "sin": "SIN", "txffovf": "TXFFOVF", "txffuvf": "TXFFUVF", "rxffovf": "RXFFOVF",
         "rxffuvf": "RXFFUVF"}
BLOCKING = ("queue_ovf", "txffovf", "txffuvf")
NOTES = {
    1: "a store of wrong length was lent: nothing was done",
    2: "a record that breaks the rules was lent: nothing was done",
    3: "no command word: all is dropped until chip select is released",
    4: "dropped: chip select has to be released first",
    5: "dropped: a blocking flag is up, or was in this frame",
    6: "wrong CRC word: nothing of this frame is queued, written or read",
    7: "wrong CRC word: what this frame did before it stands",
    8: "TX is full: the word is dropped, what was not sent is lost",
    9: "too few free places in the queue: this forward is refused, what was not sent is lost",
    10: "CCSICTRL is not written: the line is busy",
    11: "no soft reset: the bridge is still sending",
    12: "chip select released before the CRC word",
    13: "TX ran dry: the command is cut short, one END ends it",
    14: "RX is full: the word read back is dropped",
    15: "RX is empty: this FFFF is no word of the line",
}
MAKERS_NOTES = {**NOTES, 3: "no command word of the maker's layout: all is dropped until chip select is released"}


CUT = "cut"  # beside the columns: the command under way met note 13


class NotTold(Exception):
    """Input that is not what `states` prints."""


def names():
    """The columns' names in order, and the numbers of variants by name."""
    text = TABLE.read_text()
    columns = re.search(r"columns \{(.*?)\}", text, re.S)[1].split()
    numbers = dict(pair.split("=") for pair in re.search(r"numbers \((.*?)\)", text, re.S)[1].split())
    return columns, {name: int(value) for name, value in numbers.items()}


COLUMNS, NUMBER = names() if TABLE.exists() else ([], {})


def changed(state, parts):
    """The state after these COLUMN=VALUE."""
    after = dict(state)
    for part in parts:
        column, value = part.split("=")
        after[COLUMNS[int(column)]] = int(value)
    return after


def many(count, what):
    return "%d %s%s" % (count, what, "" if count == 1 else "s")


def is_in(state, column, name):
    return state[column] == NUMBER[name]


def is_makers(state):
    return is_in(state, "layout", "makers")


# ---- frames ----

def registers(address, count):
    last = REGISTERS[address + count - 1]
    return REGISTERS[address] if count == 1 else "%s to %s" % (REGISTERS[address], last)


def command(word, state):
    """A command word in words, by the command that the bridge opened."""
    name, kind = NAMES[word >> 12], state["open"]
    if kind == NUMBER["forward"]:
        ends = ", " + many(state["open.ends"], "extra END") if state["open.ends"] else ""
        return "%s of %s%s" % (name, many(state["open.words"], "word"), ends)
    if kind == NUMBER["data_read"]:
        return "%s: %s of RX" % (name, many(state["open.words"], "word"))
    if kind in (NUMBER["register_write"], NUMBER["register_read"]):
        return "%s: %s" % (name, registers(state["open.address"], state["open.count"]))
    return name


def data_words(state):
    """How many data words the open frame has."""
    if is_in(state, "open", "forward"):
        return state["open.words"]
    return state["open.count"] if is_in(state, "open", "register_write") else 0


def value_of(name, value):
    """A register's value with its flags by name."""
    said = [flag for bit, flag in BITS.get(name, {}).items() if value >> bit & 1]
    if name == "STATUS":
        said = [STATES.get(value >> 4 & 3, "state 2")] + (said or ["no flag"])
        said.append(READY[value >> 10 & 1])
    if name in FULL:
        most, store = FULL[name]
        count = value & most
        said.append("%s in %s" % ("%d or %d words" % (most, most + 1) if count == most else many(count, "word"), store))
    return "%s %04X%s" % (name, value, " (%s)" % ", ".join(said) if said else "")


def bad_word(value, state):
    """Register 11: 0 is a word's number only where CHECK_BIT is up."""
    return "BADWORD %04X (%s)" % (value, "the bad check bit came on word %d" % value if state["check_bit"] else "CHECK_BIT is down")


def control(value, state):
    """The fields of SPICTRL in the maker's layout (001 table 7-6), or nothing in ours. An algorithm is for frames that open from then on."""
    if not is_makers(state):
        return ""
    later = " from the next frame on" if (value >> 2 & 1) != state["xmodem"] else ""
    said = ["watchdog " + WATCHDOG[value >> 12 & 3], ALGORITHMS[value >> 2 & 1] + later, "timeout code %d without effect" % (value >> 4 & 15)]
    return " (%s)" % ", ".join(said + ["SDO bit without effect"] * (value >> 1 & 1) + ["no STATUS answered"] * (value & 1))


def register(name, value, state):
    """A register's value as it is answered."""
    if name == "BADWORD":
        return bad_word(value, state)
    return value_of(name, value) + (control(value, state) if name == "SPICTRL" else "")


def by(state):
    """The frame's algorithm, where it is not the one of power-up."""
    return " by " + ALGORITHMS[1] if state["xmodem"] else ""


def opened(event, before, after):
    if event.value == FILLER:
        yield "filler, outside a frame"
    elif is_in(after, "phase", "collecting"):
        yield "frame opened: " + command(event.value, after) + (", CRC" + by(after) if after["xmodem"] else "")


def written(first, count, note, after):
    """What these registers are after a write, as the state holds them. STATUS and DEVCTRL act, and hold nothing of it."""
    for name in REGISTERS[first : first + count]:
        if name in READ_ONLY:
            yield "%s cannot be written" % name
        elif name in HELD and not (name == "CCSICTRL" and note == 10):
            yield "%s is %04X%s" % (name, after[HELD[name]], control(after["spictrl"], after) if name == "SPICTRL" else "")
        elif name not in HELD:
            yield "%s written" % name


def data(event, before, after):
    """A data word of the open frame."""
    number = "word %d of %d" % (before["phase.got"] + 1, data_words(before))
    if is_in(before, "open", "forward"):
        stored = event.note not in (5, 8)
        yield number + (" stored, %s in TX" % many(after["tx.count"], "word") if stored and event.note != 9 else "")
        return
    address = before["open.address"] + before["phase.got"]
    if before["open.crc"]:
        yield "%s, for %s, kept until the CRC word" % (number, REGISTERS[address])
    else:
        yield ": ".join([number, *written(address, 1, event.note, after)])


def other_crc(state):
    """What the open frame's CRC word would be by the other algorithm: the two differ by what their starts make of as many words 0."""
    return state["phase.crc"] ^ crc([0] * (state["phase.got"] + 1))


def closed(event, before, after):
    """The CRC word."""
    if event.note in (6, 7) and is_makers(before) and event.value == other_crc(before):
        yield "CRC word of %s, and this frame's is of %s" % (ALGORITHMS[1 - before["xmodem"]], ALGORITHMS[before["xmodem"]])
    if event.note == 6 and before["phase.mine"]:
        yield "%s taken back" % many(before["phase.mine"], "word")
    if event.note not in (6, 7):
        yield "CRC word, right" + by(before)
        if is_in(before, "open", "register_write") and before["open.crc"]:
            yield from written(before["open.address"], before["open.count"], event.note, after)
        if is_in(before, "open", "soft_reset") and not event.note:
            yield "soft reset: TX, queue and RX emptied%s" % ("" if is_in(before, "reader.ear", "quiet") else ", the command coming back dropped")
            yield from lost(before)
    if is_in(after, "phase", "no_frame"):
        yield "no answer, the frame is over"


def answered(event, before, after):
    reply = before["open"]
    if reply == NUMBER["check"]:
        yield "answer: CRC %04X%s, the frame is over" % (event.sdo, by(before))
    elif reply == NUMBER["status"]:
        yield "answer: " + value_of("STATUS", event.sdo)
    elif reply == NUMBER["registers"]:
        yield "answer: " + register(REGISTERS[before["open.address"]], event.sdo, before)
    elif event.note != 15:
        yield "answer: word %04X taken from RX, %s left there" % (event.sdo, after["rx.count"] or "none")


def host_word(event, before, after):
    if is_in(before, "phase", "no_frame"):
        yield from opened(event, before, after)
    elif is_in(before, "phase", "answering"):
        yield from answered(event, before, after)
    elif is_in(before, "phase", "collecting"):
        due = before["phase.got"] < data_words(before)
        yield from (data if due else closed)(event, before, after)


def released(event, before, after):
    if is_in(before, "phase", "no_frame"):
        yield "chip select released"
    elif is_in(before, "phase", "answering"):
        yield "chip select released, the rest of the answer is dropped"
    elif is_in(before, "phase", "discarding"):
        yield "chip select released, the next word may open a frame"
    elif before["phase.mine"]:
        yield "%s taken back" % many(before["phase.mine"], "word")
    elif before["phase.released"] and not before["phase.blocked"] and before["phase.got"] == data_words(before):
        yield "the forward was queued with all its words, and stands"


# ---- the line ----

def why_waiting(state):
    reasons = [] if is_in(state, "mode", "normal") else ["state " + MODES[state["mode"]]]
    return " and ".join(reasons + [FLAGS[flag] + " up" for flag in ("por", *BLOCKING) if state[flag]])


def under_way(state):
    """The command that is being sent, by its columns, or None."""
    place = "place%d." % state["begun"]
    return place if state["begun"] and (not state[place + "sent"] or state[place + "ends"]) else None


def queued(state):
    return ["place%d." % i for i in range(1, state["used"] + 1)]


def in_use(state):
    """The places in use: a command with words and extra ENDs has two."""
    return sum(2 if state[place + "words"] and state[place + "ends"] else 1 for place in queued(state))


def freed(before, after):
    fewer = in_use(before) - in_use(after)
    if fewer > 0:
        yield "%s freed, %d of %d in use" % ("place" if fewer == 1 else "both places", in_use(after), PLACES)


def words_out(state):
    """Whether the command under way has all its words on the line, and only its ENDs are left."""
    return is_in(state, "sender.piece", "end_piece") and not state[CUT]


def cut_off(state):
    """What becomes of the command under way where the line is cleared."""
    if not under_way(state):
        return ""
    return ", the command under way cut in its ENDs, all its words out" if words_out(state) else ", the command under way cut"


def speaks(state, place):
    """Whether a command has words that are not sent yet."""
    return state[place + "words"] and not state[place + "sent"]


def over(state):
    """What the last 1 of an END ends."""
    place = under_way(state)
    if place is None:
        return "the END that was owed is sent"
    if state[CUT]:
        return "the command is over, cut short: the boards have not got all of it"
    return "the command is sent" if speaks(state, place) else "its ENDs are sent"


def to_go(before, after):
    """An END's last 1, with others to follow."""
    place = under_way(before)
    yield ("its words are sent, " if place and speaks(before, place) else "") + many(after["sender.ends"], "END") + " to go"


def sent(event, before, after):
    """What the sender did in a tick."""
    gone = after["sender.gone"]
    if is_in(after, "sender.piece", "start_bit"):
        yield "SOUT: start bit, a command of %s begins" % many(after["sender.left"], "word")
    elif is_in(after, "sender.piece", "word_piece"):
        word = after["sender.word"]
        if gone > WORD_BITS:
            yield "SOUT: check bit, word %04X is sent" % word
        else:
            yield "SOUT: bit %d of word %04X" % (WORD_BITS - gone, word)
    elif is_in(after, "sender.piece", "end_piece"):
        yield "SOUT: END, bit %d of %d" % (gone, END_BITS)
        if gone == END_BITS and after["sender.ends"]:
            yield from to_go(before, after)
        elif gone == END_BITS:
            yield over(before)
    elif after["used"] > after["begun"]:
        yield "SOUT: idle, %s to send and none may start: %s" % (many(after["used"] - after["begun"], "command"), why_waiting(before))
    else:
        yield "SOUT: idle"


def unstored(event, before):
    """Why a word read back is not stored, where its command asked for that."""
    places = ["place%d." % i for i in range(1, before["begun"] + 1)]
    its = next((place for place in places if before[place + "words"] and not before[place + "read"]), None)
    if before["reader.stored"] and not before["reader.belongs"]:
        return ", not stored: its place was cleared away"
    if not before["reader.belongs"] or its is None or not before[its + "store"] or event.note == 14:
        return ""
    up = [FLAGS[flag] for flag in ("rxffovf", "rxffuvf") if before[flag]]
    return ", not stored: %s" % (" and ".join(up) + " up" if up else "RX was cleared, or a flag of it was up, since the command began")


def read(event, before, after):
    """What the reader found in a tick."""
    if is_in(before, "reader.ear", "quiet") and not is_in(after, "reader.ear", "quiet"):
        yield "SIN: a command begins" + ("" if after["reader.belongs"] else ", which belongs to no place of the queue")
    elif is_in(before, "reader.ear", "group") and is_in(after, "reader.ear", "group") and after["reader.bits"] == 0 < before["reader.bits"]:
        more = after["rx.count"] > before["rx.count"]
        stored = ", stored, %s in RX" % many(after["rx.count"], "word") if more else unstored(event, before)
        yield "SIN: word %04X read%s" % (before["reader.value"], stored)
    elif is_in(before, "reader.ear", "group") and is_in(after, "reader.ear", "lost"):
        first = "" if not before["check_bit"] else "; BADWORD stays %d" % after["bad_word"]
        yield "SIN: wrong check bit on word %d, dropped from here to END%s" % (before["reader.number"], first)
    elif is_in(after, "reader.ear", "quiet") and not is_in(before, "reader.ear", "quiet"):
        yield "SIN: END"


def ticked(event, before, after):
    yield from sent(event, before, after)
    yield from read(event, before, after)
    yield from freed(before, after)


def clocked(event, before, after):
    yield "clock reading %d ms" % event.value


def flags_up(state):
    return ", ".join(flag for column, flag in FLAGS.items() if state[column])


def powered(event, before, after):
    layout = ", the maker's layout" if is_makers(after) else ""
    state = "power-up, %s OTP%s: state %s, %s up" % ("good" if event.value % 2 else "bad", layout, MODES[after["mode"]], flags_up(after))
    yield state + cut_off(before)
    if layout:
        yield "SPICTRL is %04X%s" % (after["spictrl"], control(after["spictrl"], after))
    yield from lost(before)
    if before["rx.count"]:
        yield "%s in RX lost" % many(before["rx.count"], "word")
    if is_in(before, "phase", "collecting"):
        yield "an open frame dropped"
    elif is_in(before, "phase", "answering"):
        yield "the rest of the answer is dropped"


# ---- what any event can do ----

def is_owing(state):
    return is_in(state, "sender.piece", "pause") and state["sender.ends"] > 0


def lost(state, more=0):
    """What goes with TX and the queue of this state, and so many commands besides."""
    speaking = under_way(state) is not None and not words_out(state)
    unsent = state["used"] - state["begun"] + speaking
    gone = sum(state[place + "words"] > 0 for place in queued(state)[:state["begun"]]) - speaking
    if unsent + more:
        yield "%s not sent, lost" % many(unsent + more, "command")
    if gone:
        yield "%s gone out and not read back, no longer waited for" % many(gone, "command")


def is_clear(event, before, after):
    """A transmit clear: an END is owed, or is owed still and the queue was emptied."""
    return event.kind in (WORD, RELEASE) and is_owing(after) and (not is_owing(before) or after["used"] < before["used"])


def beside(event, before, after):
    """What is said of every event but a power-up, behind its own words."""
    more = in_use(after) - in_use(before)
    if more > 0:
        yield "queued%s, %d of %d places in use" % (" in two places" if more == 2 else "", in_use(after), PLACES)
    if is_clear(event, before, after):
        yield "transmit clear: TX and queue emptied%s, one END owed" % cut_off(before)
        if before["reader.belongs"]:
            yield "what comes back of the command being read is no longer stored or compared"
        yield from lost(before, event.note in (8, 9) and not before["phase.released"])
    reset = is_in(before, "phase", "collecting") and is_in(before, "open", "soft_reset")
    if after["rx.count"] == 0 < before["rx.count"] and not is_in(before, "phase", "answering") and not reset:
        yield "RX emptied"
    for column, flag in FLAGS.items():
        if after[column] > before[column]:
            yield "flag %s up" % flag
    down = [flag for column, flag in FLAGS.items() if after[column] < before[column]]
    if down:
        yield "down: " + ", ".join(down)
    if after["drdy"] != before["drdy"]:
        yield "DRDY %d: %s" % (after["drdy"], READY[after["drdy"]])
    if after["mode"] != before["mode"]:
        yield "state " + MODES[after["mode"]]


KINDS = {POWER: powered, WORD: host_word, RELEASE: released, TICK: ticked, CLOCK: clocked}


class Event:
    """A line of the bench."""

    def __init__(self, parts):
        self.kind, self.value, self.note, self.sdo, self.sout = int(parts[0]), int(parts[1], 16), int(parts[2]), int(parts[3], 16), int(parts[4])


def words(event, before, after):
    own = list(KINDS[event.kind](event, before, after))
    notes = MAKERS_NOTES if is_makers(before) else NOTES
    note = ["note %d, %s" % (event.note, notes[event.note])] if event.note else []
    return "; ".join(own + note + ([] if event.kind == POWER else list(beside(event, before, after))))


class Step:
    """An event of a run: its words, and the state before and after it."""

    def __init__(self, event, said, before, after):
        self.event, self.said, self.before, self.after = event, said, before, after


def steps(lines):
    """Each line without its columns, and its step; None for a line that is no event."""
    if not COLUMNS:
        raise NotTold("the names of the state's columns are not there: %s" % TABLE)
    state = {**dict.fromkeys(COLUMNS, 0), CUT: False}
    for number, line in enumerate(lines, 1):
        parts = line.split()
        try:
            if parts[:1] == ["start"]:
                state = changed(state, parts[1:])
            elif len(parts) < 5:
                yield line.rstrip("\n"), None
            else:
                event, after = Event(parts), changed(state, parts[5:])
                yield " ".join(parts[:5]), Step(event, words(event, state, after), state, after)
                after[CUT] = (event.note == 13 or state[CUT]) and under_way(after) is not None
                state = after
        except (ValueError, IndexError, KeyError) as error:
            raise NotTold("line %d is not what `states` prints: %s" % (number, line.strip())) from error


def told(lines):
    """Each of the bench's lines with its words beside it; a line that is no event stays as it is."""
    for line, step in steps(lines):
        yield line if step is None else "%-16s  %s" % (line, step.said)


def main():
    if len(sys.argv) != 1:
        sys.exit(__doc__)
    try:
        for line in told(sys.stdin or []):
            print(line)
    except NotTold as error:
        sys.exit("explain: %s" % error)


if __name__ == "__main__":
    ended("tools/explain.py", main)
