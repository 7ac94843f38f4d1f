#!/usr/bin/env python3
"""Holds the orders of tools/frames.py to 01's table (Frames) and to the maker's (001 table 7-2), and the texts to orders.

orders.py    `orders: ..`, how much was compared, or what is wrong and exit status 1

Compared with command.py's decoding of all 65,536 words and model/'s CRC, which are of other hands: in each layout the orders that are taken give each
well-formed command word once and no other; the text of an order gives command word, data words and CRC word. In examples/, examples/host and
tests/edges a `frame` or `badframe` line in hex is one that no order gives in the layout of its last `power` line: a malformed word, or data words of
another number.
"""
import itertools
import pathlib
import re
import sys

TESTS = pathlib.Path(__file__).resolve().parent
ROOT = TESTS.parent
sys.dont_write_bytecode = True
sys.path[:0] = [str(TESTS), str(TESTS / "model"), str(ROOT / "tools")]
import frames  # noqa: E402
from command import NAMES, decode, decode_makers  # noqa: E402
from make_scripts import CCITT, XMODEM, crc16  # noqa: E402
from refused import Refused  # noqa: E402

TEXTS = sorted([*ROOT.glob("examples/*.txt"), *ROOT.glob("examples/host/*.txt"), *ROOT.glob("tests/edges/*.txt")])
TRIED = {"ends": range(130), "address": range(17), "count": range(259)}  # each beyond all limits
FIELDS = {"forward": ("ends",), "data read": ("count",), "register write": ("address",), "register read": ("address", "count"), "soft reset": ()}
DECODED = {frames.OURS: decode, frames.MAKERS: decode_makers}
STARTS = {frames.OURS: CCITT, frames.MAKERS: CCITT, frames.XMODEM: XMODEM}  # of the CRC, by the words that stand before an order's name, or none
FRAMES = ("frame", "badframe")  # lines that are one
LONG = 4098  # data words, beyond all limits
FEW = 32  # frames of so many data words, and the longest, are compared as text too
# a line, and whether an order gives it in our layout and in the maker's
SLIPS = {"frame 2000 AAF0": (True, True), "badframe e000": (True, False), "badframe E1E1": (False, True), "frame 4000": (True, True),
         "frame 4041 AAF0": (True, False), "frame 4082 AAF0": (False, True), "frame A007 8000 # clear": (True, False), "frame A1C0 8000": (False, True),
         "frame C307": (True, False), "frame xmodem C1C3": (False, True), "badframe xmodem 2000 AAF0": (True, True),
         **dict.fromkeys(("frame 2200 AAF0", "frame 2001 AAF0", "frame D3C7", "frame FFFF", "frame F000", "frame", "frame xmodem", "", "word 2000",
                          "crc 2000 AAF0", "frame FWD_WR_CRC AAF0", "frame xmodem FWD_WR_CRC AAF0", "# frame 2000 AAF0"), (False, False))}
POWER = {"power good": frames.OURS, "power bad": frames.OURS, "power good makers": frames.MAKERS, "power bad makers": frames.MAKERS}


def wanted(word, layout):
    """A well-formed command word's order, by the layout's table: name, fields, number of data words. None: the word is malformed, or filler."""
    kind, _, values = DECODED[layout](word)
    if kind not in FIELDS:
        return None
    name = NAMES[word >> 12]
    size = values["words"] if kind == "forward" else values["count"] if kind == "register write" else 0
    values = {**values, "count": values["words"]} if kind == "data read" else values
    own = [] if name in ("FWD_WR_CRC", "FWD_WR") else FIELDS[kind]
    return name, {field: values[field] for field in own}, size


def tried(layout):
    """Orders within the limits and beyond them, with the command word that is given, or None where it is refused."""
    for name in NAMES.values():
        own = frames.fields_of(name)
        sizes = range(LONG if name in ("FWD_WR_CRC", "FWD_WR") else FEW + 2)
        for *values, size in itertools.product(*(TRIED[field] for field in own), sizes):
            fields = dict(zip(own, values))
            try:
                yield name, fields, size, frames.command(name, size, fields, layout)
            except Refused:
                yield name, fields, size, None


def wrong_words(layout, given):
    """Command words that are not those of the layout's table. `given` gets the order of each."""
    for name, fields, size, word in tried(layout):
        if word is None:
            continue
        if word in given:
            yield "%s: %04X comes of two orders: %s and %s" % (layout, word, given[word], (name, fields, size))
        given[word] = name, fields, size
    for word in range(1 << 16):
        if given.get(word) != wanted(word, layout):
            yield "%s: %04X: expected %s, found %s" % (layout, word, wanted(word, layout), given.get(word))


def made(text):
    """The frame of an order's text, or why there is none."""
    try:
        return frames.order(text)
    except Refused as refused:
        return str(refused)


def wrong_frames(way, compared):
    """Orders as text whose frame is not command word, data words and CRC word. `compared` gets their command words."""
    layout = frames.OURS if way == frames.OURS else frames.MAKERS
    for word in range(1 << 16):
        name, fields, size = wanted(word, layout) or ("", {}, LONG)
        if size > FEW and size not in (512, 4096):
            continue
        data = [(word * 40503 + 4099 * i) & 0xFFFF for i in range(size)]
        text = [name, *("%s=%d" % field for field in sorted(fields.items(), reverse=word % 2)), *("%04X" % each for each in data)]
        text = text if way == frames.OURS else [way, *text]
        if made(text) != [word, *data, crc16([word, *data], STARTS[way])]:
            yield "wrong frame: %s: %s" % (" ".join(text)[:80], str(made(text))[:80])
        compared.append(word)


def is_slip(line, layout):
    """Whether a line is a frame in hex that an order gives."""
    kind, *words = line.split("#")[0].split() or [""]
    words = words[1:] if words[:1] == [frames.XMODEM] else words
    if kind not in FRAMES or not words or not all(re.fullmatch("[0-9A-Fa-f]{4}", word) for word in words):
        return False
    asked = wanted(int(words[0], 16), layout)
    return asked is not None and asked[2] == len(words) - 1


def texts():
    """The lines of the texts that are a frame: text, number, line and the layout in force."""
    for text in TEXTS:
        layout = frames.OURS
        for number, line in enumerate(text.read_text().splitlines(), 1):
            layout = POWER.get(" ".join(line.split("#")[0].split()), layout)
            if line.split()[:1] and line.split()[0] in FRAMES:
                yield text.relative_to(ROOT), number, line, layout


def wrong_lines(lines):
    for line, slips in SLIPS.items():
        for slip, layout in zip(slips, DECODED):
            if is_slip(line, layout) != slip:
                yield "`%s` is %s for a frame that an order gives, layout %s" % (line, "not taken" if slip else "taken", layout)
    for text, number, line, layout in lines:
        if is_slip(line, layout):
            yield "%s:%d: an order by name gives this frame: %s" % (text, number, line[:80])


def main():
    given, compared, lines = {layout: {} for layout in DECODED}, [], list(texts())
    bad = [what for layout in DECODED for what in wrong_words(layout, given[layout])]
    bad += [what for way in STARTS for what in wrong_frames(way, compared)]
    bad += wrong_lines(lines)
    for layout in DECODED:
        if not any(line[-1] == layout for line in lines):
            bad.append("no text with a frame was found, layout %s" % layout)
    if bad:
        print(*bad[:20], sep="\n")
        sys.exit("orders: %d not as they should be" % len(bad))
    print("orders: %d command words, %d frames by their text, %d lines of %d texts" % (
        sum(map(len, given.values())), len(compared), len(lines), len(TEXTS)))


if __name__ == "__main__":
    main()
