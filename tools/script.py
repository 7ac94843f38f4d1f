#!/usr/bin/env python3
"""Turns a text into a script of the bench program (01 The bench program).

    tools/script.py examples/first-light.txt > first-light.cwb      FILE `-` is standard input

One event a line. `#` begins a comment, blank lines are skipped. UTF-8, with or without a byte-order mark.

    power good          power-up in our layout; `power bad` with bad OTP
    power good makers   power-up in the maker's layout (02 item 7); `power bad makers` with bad OTP
    word 2000           host word, four hex digits; several stand for as many, as `word 2000 AAF0 AE24` does, which tools/frame prints
    release             chip select released
    tick 1              line tick with SIN 1; `tick 0` with SIN 0
    clock 5             clock reading, decimal, 0 to 65535

Several events a line:

    ticks 36            as many ticks with SIN 1, 1 to 65535
    bits 0 1010 1       a tick for each SIN bit; spaces between bits mean nothing
    answer 3            as many host words FFFF, each fetches one answer word; 1 to 65535

A frame (01 Frames), of an order by name with its CRC word, or of bare words:

    frame FWD_WR_CRC AAF0       command word, data words and CRC word of this order
    frame 2000 AAF0             these host words, then their CRC word: for frames that no order gives
    badframe FWD_WR_CRC AAF0    as `frame`, the lowest bit of the CRC word turned
    crc FWD_WR_CRC AAF0         the CRC word alone, where a frame's words are written one by one

Command words are those of the layout that the last `power` line chose; before the first it is ours. In the maker's layout a CRC is CCITT-FALSE, as
after power-up, and CRC-16/XMODEM in a line that says so, as the host does once SPICTRL's bit 2 is set by an earlier frame:

    frame xmodem FWD_WR_CRC AAF0    so in `badframe` and `crc` lines too, and before bare words

The two never give the same word: in a run the wrong one is note 6 or 7. In our layout `xmodem` is refused.

Any other text: `FILE:LINE: expected .., found ..` on standard error, exit status 1, nothing written. Status 2: the command line is wrong.

Orders: a name, its fields (decimal, in any order), its data words (four hex digits each):
"""
import codecs
import pathlib
import re
import sys

sys.dont_write_bytecode = True
sys.path.insert(0, str(pathlib.Path(__file__).resolve().parent))
from ends import ended, put  # noqa: E402
from frames import COMMAND, LAYOUTS, MAKERS, OURS, ROWS, XMODEM, closed, hex_words, is_hex, listed, order  # noqa: E402
from refused import Refused, refuse  # noqa: E402

MARK = b"CWB"
HEAD = MARK + b"\x00\x01"
POWER, WORD, RELEASE, TICK, CLOCK = range(5)
POWER_UPS = {"good": 1, "bad": 0, "good makers": 3, "bad makers": 2}
BITS = {"0": 0, "1": 1}
FILLER = 0xFFFF


def records(kind, values):
    return b"".join(bytes([kind]) + value.to_bytes(2, "big") for value in values)


def chosen(arguments, choices):
    """The value of the arguments, which are a key of `choices`."""
    if " ".join(arguments) not in choices:
        *front, last = ("`%s`" % name for name in choices)
        refuse("%s or %s" % (", ".join(front), last), arguments)
    return choices[" ".join(arguments)]


def decimal(arguments, least):
    if len(arguments) != 1 or not re.fullmatch("[0-9]{1,5}", arguments[0]) or not least <= int(arguments[0]) <= 65535:
        refuse("one decimal number from %d to 65535" % least, arguments)
    return int(arguments[0])


def algorithm(arguments, layout):
    """The layout with the CRC that the line asks for, and what stands behind the word that asks."""
    if arguments[:1] == [MAKERS]:
        refuse("the layout in a `power` line alone", arguments[:1])
    if arguments[:1] != [XMODEM]:
        return layout, arguments
    if layout == OURS:
        refuse("no `xmodem` in our layout, which has one CRC (`power good makers` chooses the maker's)", arguments[:1])
    return XMODEM, arguments[1:]


def frame_words(arguments, in_force):
    """A frame's words, its CRC word too: of an order by name, or as they stand in hex."""
    layout, arguments = algorithm(arguments, in_force)
    if arguments and arguments[0] in ROWS:
        return order(arguments if layout == OURS else [layout, *arguments])
    if not arguments or not is_hex(arguments[0]):
        refuse("%s, or words of four hex digits" % COMMAND, arguments[:1])
    words = hex_words(arguments)
    if len(words) > 1 and any(words == closed(words[:-1], each) for each in ([OURS] if layout == OURS else LAYOUTS)):
        refuse("words without their CRC word, which is added (`word` sends words as they are)", arguments[-1:])
    return closed(words, layout)


def power(arguments):
    return records(POWER, [chosen(arguments, POWER_UPS)])


def word(arguments):
    if not arguments:
        refuse("words of four hex digits", arguments)
    return records(WORD, hex_words(arguments))


def release(arguments):
    if arguments:
        refuse("nothing after `release`", arguments)
    return records(RELEASE, [0])


def tick(arguments):
    return records(TICK, [chosen(arguments, BITS)])


def clock(arguments):
    return records(CLOCK, [decimal(arguments, 0)])


def ticks(arguments):
    return records(TICK, [1] * decimal(arguments, 1))


def bits(arguments):
    if not re.fullmatch("[01]+", "".join(arguments)):
        refuse("bits 0 and 1", arguments)
    return records(TICK, [int(bit) for bit in "".join(arguments)])


def answer(arguments):
    return records(WORD, [FILLER] * decimal(arguments, 1))


FORMS = {"power": power, "word": word, "release": release, "tick": tick, "clock": clock, "ticks": ticks, "bits": bits, "answer": answer}
# of a frame's words, those that the line sends
FRAMES = {"frame": lambda words: words, "badframe": lambda words: [*words[:-1], words[-1] ^ 1], "crc": lambda words: words[-1:]}


def events(line, layout):
    """The records of one line, where this layout is in force."""
    parts = re.findall(r"[^ \t]+", line.split("#")[0])
    if not parts:
        return b""
    name, *arguments = parts
    if name in FRAMES:
        return records(WORD, FRAMES[name](frame_words(arguments, layout)))
    if name not in FORMS:
        refuse("an event (%s)" % ", ".join([*FORMS, *FRAMES]), parts[:1])
    return FORMS[name](arguments)


def layout_after(made, layout):
    """The layout in force behind a line's records: a power-up chooses it."""
    if made[:1] != bytes([POWER]):
        return layout
    return MAKERS if made[-1] in (POWER_UPS["good makers"], POWER_UPS["bad makers"]) else OURS


def source(name):
    """A file as it is called where something is wrong in it."""
    return "standard input" if name == "-" else name


def by_line(name, text):
    """Number and records of each line."""
    layout = OURS
    for number, line in enumerate(re.split("\r\n|\n|\r", text), 1):
        try:
            made = events(line, layout)
        except Refused as refused:
            raise Refused("%s:%d: %s" % (source(name), number, refused)) from None
        layout = layout_after(made, layout)
        yield number, made


def script(name, text):
    return HEAD + b"".join(made for _, made in by_line(name, text))


def is_wide(data):
    """UTF-16: by its byte-order mark, or a 0 at every second byte."""
    return data[:2] in (codecs.BOM_UTF16_LE, codecs.BOM_UTF16_BE) or (len(data) > 3 and (not any(data[1:64:2]) or not any(data[0:64:2])))


def is_text(data):
    """Whether a file that has 0 bytes is a text all the same: up to the first of them it reads as one."""
    before = data[: data.index(0)]
    return len(before) > 3 and all(byte in b"\t\r\n" or 32 <= byte < 127 for byte in before)


def decoded(name, data):
    """The text of a file. What is not UTF-8 may stand in comments."""
    if data.startswith(MARK + b"\x00"):
        raise Refused("%s: a script's bytes (CWB), not a text: the bench program reads it as it is" % name)
    if is_wide(data):
        raise Refused("%s: the text is UTF-16: save it as UTF-8" % name)
    if b"\0" in data:
        raise Refused("%s:%d: expected a text, found a byte 0" % (name, data[: data.index(0)].count(b"\n") + 1))
    return data.decode("utf-8-sig", errors="replace")


def read(name):
    try:
        if name == "-" and sys.stdin is None:
            raise Refused("standard input: it is closed")
        if name == "-":
            return sys.stdin.buffer.read()
        with open(name, "rb") as file:
            return file.read()
    except OSError as error:
        raise Refused("%s: %s" % (name, error.strerror)) from None


def main():
    if sys.argv[1:] in (["--help"], ["-h"]):
        print(__doc__.strip(), "", *("    " + line for line in listed()), sep="\n")
        return
    if len(sys.argv) != 2:
        print("tools/script.py: one FILE, not %d; see tools/script.py --help" % (len(sys.argv) - 1), file=sys.stderr)
        sys.exit(2)
    name = sys.argv[1]
    try:
        put(script(name, decoded(source(name), read(name))))
    except Refused as refused:
        sys.exit(str(refused))


if __name__ == "__main__":
    ended("tools/script.py", main)
