#!/usr/bin/env python3
"""The firmware of examples/firmware, linked with the proved library, beside the proved bench program and the independent program (model/): on every
script all three print the same, byte for byte.

firmware.py [SEEDS EVENTS]    random scripts of EVENTS events for the seeds 1 to SEEDS (model/make_scripts.py); 20 of 60,000 without arguments

It runs twice, plain and with gcc's sanitizers, which watch the C side. Further scripts are the texts of examples/, examples/host and tests/edges, and the
scripts of broken.py, which are none. Every note that a script can meet must come. Then what no script can show: memory that was damaged
(damaged.c), a script that cannot be read, and examples/firmware/shortest.c. It needs crates/bench/out/bench, which tools/build makes.
"""
import collections
import concurrent.futures
import os
import pathlib
import subprocess
import sys
import tempfile

TESTS = pathlib.Path(__file__).resolve().parents[1]
ROOT = TESTS.parent
sys.dont_write_bytecode = True
sys.path[:0] = [str(TESTS / "model"), str(TESTS), str(ROOT / "tools")]
import programs  # noqa: E402
from archives import BRIDGE, C, FRAMES, PLAIN, SANITIZED, Wrong, compiled, made, printed, tried  # noqa: E402
from broken import GOOD, HEAD, SCRIPTS as BROKEN  # noqa: E402
from pair import EVENTS, built_model  # noqa: E402
from random_scripts import REACHABLE  # noqa: E402

FIRMWARE = ROOT / "examples/firmware"
SEEDS = 20
# beside broken.py's
CUT = {"no byte": b"", "a record cut after a byte": GOOD + b"\x03", "a kind of 5": GOOD + b"\x05\0\0", "a kind of 255": GOOD + b"\xff\xff\xff", "a head alone": HEAD}
# start bit, AAF0, check bit, END (01 The line)
SHORTEST = b"0" + b"1010101011110000" + b"1" + b"1" * 18 + b"\n"


def built(work):
    """The programs that must print the same: the firmware twice, the bench program, the independent program."""
    parts = [FIRMWARE / "firmware.c", FIRMWARE / "script_board.c", made(BRIDGE)]
    firmware = compiled(work / "firmware", C, *PLAIN, *parts)
    watched = compiled(work / "firmware_watched", C, *SANITIZED, *parts)
    try:
        bench = programs.command("bench")
    except programs.Failed as reason:
        raise Wrong(reason) from None
    return {"the independent program": [built_model(work)], "the bench program": bench, "the firmware": [firmware], "the firmware with sanitizers": [watched]}


def check_same(name, expected, found, who):
    if expected == found:
        return
    pairs = zip([*expected.split(b"\n"), b"(nothing)"], [*found.split(b"\n"), b"(nothing)"])
    at, pair = next((at, pair) for at, pair in enumerate(pairs) if pair[0] != pair[1])
    raise Wrong("%s, line %d: the independent program has `%s`, %s `%s`" % (name, at + 1, pair[0].decode(), who, pair[1].decode(errors="replace")))


def notes(ways, name, script):
    """How often each note came on a script of which all programs print the same."""
    expected, *others = ((who, printed(*program, given=script)) for who, program in ways.items())
    for who, found in others:
        check_same(name, expected[1], found, who)
    return collections.Counter(int(line.split()[2]) for line in expected[1].splitlines() if line[:1].isdigit())


def texts():
    return [text for folder in ("examples", "examples/host", "tests/edges") for text in sorted((ROOT / folder).glob("*.txt"))]


def script_of(text):
    return str(text.relative_to(ROOT)), printed(sys.executable, ROOT / "tools/script.py", text)


def random_script(seed, events):
    return f"seed {seed}", printed(sys.executable, TESTS / "model/make_scripts.py", str(seed), str(events))


def compared(ways, seeds, events):
    """The notes of all scripts, and how many scripts these are."""
    given = {**BROKEN, **CUT}
    with concurrent.futures.ThreadPoolExecutor(os.cpu_count()) as pool:
        met = sum(pool.map(lambda seed: notes(ways, *random_script(seed, events)), range(1, seeds + 1)), collections.Counter())
        if sum(met.values()) != seeds * events:
            raise Wrong(f"{seeds * events} events were asked for, {sum(met.values())} run")
        met += sum(pool.map(lambda text: notes(ways, *script_of(text)), texts()), collections.Counter())
    met += sum((notes(ways, *one) for one in given.items()), collections.Counter())
    unseen = [note for note in REACHABLE if not met[note]]
    if unseen:
        raise Wrong(f"never seen: note {unseen}")
    return met, seeds + len(texts()) + len(given)


def check_refused(program, work):
    """A script that cannot be read, or output that cannot be written, has its reason and status 2."""
    for words, why in ((["absent.cwb"], b"absent.cwb: "), ([str(work)], b"cannot be read"), (["a", "b"], b"expected one script at most")):
        ran = subprocess.run([*program, *words], cwd=work, capture_output=True)
        if ran.returncode != 2 or why not in ran.stderr or ran.stdout:
            raise Wrong(f"the firmware on {words}: status {ran.returncode}, says {ran.stdout + ran.stderr!r}")
    with open("/dev/full", "wb") as full:
        ran = subprocess.run(program, input=b"", stdout=full, stderr=subprocess.PIPE)
    if ran.returncode != 2 or b"cannot be written" not in ran.stderr:
        raise Wrong(f"the firmware with a full disk: status {ran.returncode}, says {ran.stderr!r}")


def check_page():
    """README has the shortest program as it stands, and what it prints."""
    page = (ROOT / "README.md").read_text()
    for text in ("```c\n" + (FIRMWARE / "shortest.c").read_text() + "```\n", f"`{SHORTEST.decode().strip()}`"):
        if text not in page:
            raise Wrong(f"README does not have this of examples/firmware/shortest.c:\n{text}")


def check_programs(work):
    """The shortest program's line, and what the firmware does with damaged memory."""
    bridge, frames = made(BRIDGE), made(FRAMES)
    for how in (PLAIN, SANITIZED):
        line = printed(compiled(work / "shortest", C, *how, FIRMWARE / "shortest.c", bridge, frames))
        if line != SHORTEST:
            raise Wrong(f"examples/firmware/shortest.c prints {line!r}, expected {SHORTEST!r}")
        printed(compiled(work / "damaged", C, *how, TESTS / "linked/damaged.c", bridge))


def asked(words):
    """Seeds and events of the command line."""
    if not words:
        return SEEDS, EVENTS
    if len(words) != 2 or not all(word.isascii() and word.isdigit() and int(word) for word in words):
        sys.exit(f"firmware.py [SEEDS EVENTS]: expected two numbers from 1 on, found `{' '.join(words)}`")
    return int(words[0]), int(words[1])


def test():
    seeds, events = asked(sys.argv[1:])
    with tempfile.TemporaryDirectory() as folder:
        work = pathlib.Path(folder)
        ways = built(work)
        met, scripts = compared(ways, seeds, events)
        check_refused(ways["the firmware with sanitizers"], work)
        check_programs(work)
        check_page()
    print(f"firmware: {scripts} scripts, {sum(met.values())} events alike with the bench program;", ", ".join(f"note {note}: {met[note]}" for note in REACHABLE))


if __name__ == "__main__":
    tried("firmware", ["gcc"], test)
