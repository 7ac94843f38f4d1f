#!/usr/bin/env python3
"""Holds docs/HOST-GUIDE.md to its examples (examples/host), and those to both programs.

guide.py    `guide: N frames of the guide stand in its T texts, M orders give theirs`, or what is wrong and exit status 1

Every [name] of the guide is a text and every text is named; every frame with a CRC word in the guide has the right one and stands in a run;
where the guide's table of commands gives an answer, that run has it; behind every order in the guide stands its frame (tools/frames.py), with the CRC
word or without; the frames of its tables in the maker's words are those of the orders, and run without a note behind a maker's power-up; on all texts
together the bench program and the independent program (model/) print the same.
"""
import pathlib
import re
import subprocess
import sys
import tempfile

TESTS = pathlib.Path(__file__).resolve().parent
ROOT = TESTS.parent
sys.dont_write_bytecode = True
sys.path[:0] = [str(TESTS / "model"), str(ROOT / "tools")]
from frames import MAKERS, ROWS, XMODEM, order  # noqa: E402
from make_scripts import RELEASE, WORD, crc16  # noqa: E402
from pair import EVENTS, HEAD, POWER_UP, RECORD, built_model, differences  # noqa: E402
from refused import Refused  # noqa: E402

GUIDE = (ROOT / "docs/HOST-GUIDE.md").read_text()
HEX = r"(?:[0-9A-F]{4} ?)+"
ORDER = rf"`((?:{'|'.join(ROWS)})(?: [a-z]+=\d+)*(?: [0-9A-F]{{4}})*)`"
MAKERS_UP = b"\x00\x00\x03"
CHOOSE_XMODEM = f"{MAKERS} REG_WR_CRC address=1 00A4"


def words(text):
    return [int(word, 16) for word in text.split()]


def frames():
    """Frames of the guide: host words with the CRC word at the end, and the answer where it is given."""
    for sent, crc, answer in re.findall(rf"`({HEX})` \*\*`([0-9A-F]{{4}})`\*\*(?:[^|`\n]*\| `({HEX})` \|)?", GUIDE):
        yield words(sent) + words(crc), words(answer)
    for sent in re.findall(rf"`({HEX})` \+ \d", GUIDE):
        yield words(sent), []


def wrong_orders():
    """Orders of the guide that the tools refuse, or that have another frame behind them."""
    for text, sent, crc in re.findall(rf"{ORDER}(?:[^`]{{0,60}}`({HEX})`(?: \*\*`([0-9A-F]{{4}})`\*\*)?)?", GUIDE):
        try:
            made = order(text.split())
        except Refused as refused:
            yield f"{text}: {refused}"
            continue
        if words(f"{sent} {crc}") not in (made, made[:-1]):
            yield f"{text}: its frame is {shown(made)}, found {sent} {crc}"


def makers_tables():
    """Frames of the guide's tables in the maker's words: an order or none, our frame or none, the maker's, and the maker's by CRC-16/XMODEM."""
    for text, ours, makers, crc in re.findall(rf"{ORDER} \| `({HEX})` \| `({HEX})` \| `([0-9A-F]{{4}})` \|", GUIDE):
        yield text, words(ours), words(makers), words(makers)[:-1] + words(crc)
    for makers, xmodem in re.findall(rf"^\| [^|]+ \| `({HEX})` \| `({HEX})` \|$", GUIDE, re.M):
        yield None, None, words(makers), words(xmodem)


def shown(*sent):
    return ", ".join(" ".join(f"{word:04X}" for word in frame) for frame in sent)


def is_noted(model, *sent):
    """Whether these frames, each then released, meet a note behind a maker's power-up."""
    script = HEAD + MAKERS_UP
    for frame in sent:
        script += b"".join(bytes([WORD]) + word.to_bytes(2, "big") for word in frame) + bytes([RELEASE, 0, 0])
    lines = subprocess.run([model], input=script, capture_output=True, check=True).stdout.decode().splitlines()
    return any(line.split()[2] != "0" for line in lines)


def wrong_makers(model):
    """What of the tables in the maker's words is not as it should be. An order that is refused is told by `wrong_orders`."""
    rows = list(makers_tables())
    for text, *found in rows:
        try:
            made = [order([*way, *text.split()]) for way in ([], [MAKERS], [XMODEM])] if text else found
        except Refused:
            continue
        if found != made:
            yield f"{text}: its frames in both layouts are {shown(*made)}, found {shown(*found)}"
        if is_noted(model, found[1]) or is_noted(model, order(CHOOSE_XMODEM.split()), found[2]):
            yield f"of {shown(*found[1:])} one meets a note in the maker's layout"
    if len({text.split()[0] for text, *_ in rows if text}) != len(ROWS):
        yield "the guide's table of both layouts has not all commands"


def scripts():
    for text in sorted((ROOT / "examples/host").glob("*.txt")):
        made = subprocess.check_output([sys.executable, ROOT / "tools/script.py", text])
        yield text.stem, made[len(HEAD):]


def heard(lines):
    """The host's words of a run, each with the SDO word beside it."""
    return [(int(part[1], 16), int(part[3], 16)) for part in map(str.split, lines.splitlines()) if int(part[0]) == WORD]


def stands(frame, answer, run):
    size = len(frame) + len(answer)
    for i in range(len(run) - size + 1):
        if [word for word, _ in run[i:i + len(frame)]] == frame and [sdo for _, sdo in run[i + len(frame):i + size]] == answer:
            return True
    return False


def wrong(model, texts):
    yield from wrong_orders()
    yield from wrong_makers(model)
    named = set(re.findall(r"\[([a-z][a-z-]+)\]", GUIDE))
    yield from (f"no text: {name}" for name in named - texts.keys())
    yield from (f"not named in the guide: {name}" for name in texts.keys() - named)
    runs = [heard(subprocess.run([model], input=HEAD + script, capture_output=True, check=True).stdout.decode()) for script in texts.values()]
    for frame, answer in frames():
        if crc16(frame[:-1]) != frame[-1]:
            yield f"wrong CRC word: {shown(frame)}"
        elif not any(stands(frame, answer, run) for run in runs):
            yield f"in no run: {shown(frame)}, answer {answer}"


def batches(texts):
    """Scripts of the texts one behind another, each text from a power-up, EVENTS events at most."""
    batch = HEAD
    for text in texts:
        if batch != HEAD and len(batch) + len(text) > EVENTS * RECORD:
            yield batch
            batch = HEAD
        batch += POWER_UP + text
    yield batch


def main():
    texts = dict(scripts())
    with tempfile.TemporaryDirectory() as folder:
        model = built_model(pathlib.Path(folder))
        bad = list(wrong(model, texts))
        bad += [f"the programs differ\n{found}" for found in differences(model, list(batches(texts.values()))) if found]
    if bad:
        print(*bad, sep="\n")
        sys.exit("guide: it does not hold")
    print(f"guide: {len(list(frames()))} frames of the guide stand in its {len(texts)} texts, {len(re.findall(ORDER, GUIDE))} orders give theirs")


if __name__ == "__main__":
    main()
