#!/usr/bin/env python3
"""`step`, one event a call, and a round's events in one list, beside the plain C program of the same rules (speed/plain.c), on random scripts.

steps.py [SEEDS EVENTS]    scripts of EVENTS events, 21,845 at most, for the seeds 1 to SEEDS; 8 of 20,000 without arguments

The bench program gives its events to `whole_night`, so `step` has its comparison here, by the program that is timed (crates/speed): it prints how many
events were done and a sum over every note, SDO word and SOUT bit. It is compiled from source and run without its proof, as random_scripts.py does it.
"""
import concurrent.futures
import os
import pathlib
import subprocess
import sys
import tempfile

TESTS = pathlib.Path(__file__).resolve().parent
sys.dont_write_bytecode = True
sys.path.insert(0, str(TESTS / "model"))
from pair import built_model, tried  # noqa: E402

MOST = 65535 // 3  # the events that crates/speed takes of a script
SEEDS, EVENTS = 8, 20_000
MODES = ("step", "list")


def case(plain, seed, events, mode):
    """This seed's script in this mode, and what the plain C program prints of it."""
    script = subprocess.check_output([sys.executable, TESTS / "model/make_scripts.py", str(seed), str(events)])
    expected = subprocess.run([plain, "1", mode], input=script, capture_output=True, check=True).stdout
    if expected.split()[0] != str(events).encode():
        sys.exit(f"steps: seed {seed}, {mode}: plain.c did {expected.split()[0].decode()} events of {events}")
    return script, ("1", mode), expected


def asked(words):
    """Seeds and events of the command line."""
    if not words:
        return SEEDS, EVENTS
    if len(words) != 2 or not all(word.isascii() and word.isdigit() and int(word) for word in words) or int(words[1]) > MOST:
        sys.exit(f"steps.py [SEEDS EVENTS]: expected two numbers from 1 on, the second {MOST} at most, found `{' '.join(words)}`")
    return int(words[0]), int(words[1])


def main():
    seeds, events = asked(sys.argv[1:])
    with tempfile.TemporaryDirectory() as folder:
        work = pathlib.Path(folder)
        built_model(work)
        plain = work / "plain"
        subprocess.check_call(["gcc", "-std=c11", "-O2", "-o", plain, TESTS / "speed/plain.c"])
        todo = [(seed, mode) for seed in range(1, seeds + 1) for mode in MODES]
        with concurrent.futures.ThreadPoolExecutor(os.cpu_count()) as pool:
            cases = list(pool.map(lambda one: case(plain, one[0], events, one[1]), todo))
        bad = [f"steps: seed {seed}, {mode}: the programs differ\n{found}" for (seed, mode), found in zip(todo, tried("speed", cases)) if found]
    if bad:
        sys.exit("\n".join(bad))
    print(f"steps: {seeds * events} events agree one by one, and as many in lists")


if __name__ == "__main__":
    main()
