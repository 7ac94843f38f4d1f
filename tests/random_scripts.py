#!/usr/bin/env python3
"""The bench program and the independent program of the same rules (model/) on random scripts, every byte equal.

random_scripts.py [SEEDS EVENTS]    scripts of EVENTS events for the seeds 1 to SEEDS; 35 of 60,000 without arguments

`random_scripts: N events agree` and how often each note came; every note that a script can meet must. compare.sh does the same with the proved
program and names the line that differs.
"""
import collections
import concurrent.futures
import os
import pathlib
import subprocess
import sys
import tempfile

TESTS = pathlib.Path(__file__).resolve().parent
sys.path.insert(0, str(TESTS / "model"))
from pair import EVENTS, SEEDS, built_model, differences  # noqa: E402

REACHABLE = [0, *range(3, 16)]  # notes 1 and 2 need wrong stores or a broken record: crates/refusals


def made(seed, events):
    return subprocess.check_output([sys.executable, TESTS / "model/make_scripts.py", str(seed), str(events)])


def compared(model, first, scripts):
    """How often each note came in these scripts, on which both programs print the same; their seeds are from `first` on."""
    for seed, found in enumerate(differences(model, scripts), first):
        if found:
            raise SystemExit(f"random_scripts: seed {seed} differs\n{found}")
    counts = collections.Counter()
    for script in scripts:
        printed = subprocess.run([model, "-c", "/dev/stdin"], input=script, capture_output=True, check=True).stdout
        counts.update(dict(map(int, line.split()) for line in printed.splitlines()))
    return counts


def asked(words):
    """Seeds and events of the command line."""
    if not words:
        return SEEDS, EVENTS
    if len(words) != 2 or not all(word.isascii() and word.isdigit() and int(word) for word in words):
        sys.exit(f"random_scripts.py [SEEDS EVENTS]: expected two numbers from 1 on, found `{' '.join(words)}`")
    return int(words[0]), int(words[1])


def main():
    seeds, events = asked(sys.argv[1:])
    with tempfile.TemporaryDirectory() as folder:
        work = pathlib.Path(folder)
        model = built_model(work)
        with concurrent.futures.ThreadPoolExecutor(os.cpu_count()) as pool:
            scripts = list(pool.map(lambda seed: made(seed, events), range(1, seeds + 1)))
            many = -(-seeds // os.cpu_count())  # scripts of one compiled program
            counts = sum(pool.map(lambda at: compared(model, at + 1, scripts[at:at + many]), range(0, seeds, many)), collections.Counter())
    seen = {note: counts[note] for note in REACHABLE}
    if sum(seen.values()) != seeds * events:
        raise SystemExit(f"random_scripts: {seeds * events} events were asked for, {sum(seen.values())} run")
    print(f"random_scripts: {seeds * events} events agree;", ", ".join(f"note {note}: {seen[note]}" for note in REACHABLE))
    missing = [note for note in REACHABLE if not seen[note]]
    if missing:
        raise SystemExit(f"random_scripts: never seen: {missing}")


if __name__ == "__main__":
    main()
