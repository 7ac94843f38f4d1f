#!/usr/bin/env python3
"""Scripts that are none: the bench program and the independent program (model/) print the same of each, `bad script` or `bad record` last.

broken.py    `broken: N scripts end alike`, or what differs and exit status 1

Each has one thing wrong (01 The bench program; docs/DECISIONS.md, Bench), and good records before it, whose lines are printed.
"""
import pathlib
import subprocess
import sys
import tempfile

TESTS = pathlib.Path(__file__).resolve().parent
sys.path.insert(0, str(TESTS / "model"))
from pair import built_model, differences  # noqa: E402

HEAD = b"CWB\x00\x01"
GOOD = HEAD + bytes.fromhex("000001 01C000 030001")
SCRIPTS = {
    "a head of four bytes": HEAD[:4],
    **{f"byte {i} of the head": GOOD[:i] + bytes([GOOD[i] + 1]) + GOOD[i + 1:] for i in range(len(HEAD))},
    "a power-up of 4": GOOD + bytes.fromhex("000004 030001"),
    "a release of 1": GOOD + bytes.fromhex("020001 030001"),
    "a tick of 2": GOOD + bytes.fromhex("030002 030001"),
    "a record cut after two bytes": GOOD + bytes.fromhex("0300"),
}


def wrong(model):
    """What is wrong with the scripts' runs."""
    for name, script in SCRIPTS.items():
        printed = subprocess.run([model], input=script, capture_output=True, check=True).stdout
        if not printed.endswith((b"bad script\n", b"bad record\n")):
            yield f"{name}: the independent program takes it"
    for name, found in zip(SCRIPTS, differences(model, list(SCRIPTS.values()))):
        if found:
            yield f"{name}: the programs differ\n{found}"


def main():
    with tempfile.TemporaryDirectory() as folder:
        bad = list(wrong(built_model(pathlib.Path(folder))))
    if bad:
        print(*bad, sep="\n")
        sys.exit("broken: it does not hold")
    print(f"broken: {len(SCRIPTS)} scripts end alike")


if __name__ == "__main__":
    main()
