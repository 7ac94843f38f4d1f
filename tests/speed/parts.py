#!/usr/bin/env python3
"""What an event through include/icelichen_bridge.h goes into, in instructions (valgrind): one event a call, of a second round over its events.

parts.py    needs the archive (`rt lib` in crates/icelichen_bridge, or ICELICHEN_ARCHIVES), gcc, valgrind and an x86-64 machine; half a minute

all       with the calling program (header.c)
read      `cells::lent` by itself: the record read from the lent cells, compared with what the next column makes, handed on
again     the cells made of that record, to test that they are a record's
rules     the record rules of note 2
written   the cells made of the new record, behind the event
rest      the event itself, with the calls and copies between, and what the compiler took into other functions
"""
import collections
import os
import pathlib
import re
import signal
import subprocess
import sys
import tempfile

sys.dont_write_bytecode = True
from measure import ARCHIVE, HEAD, HERE, asked_for_help, check_machine, compiled, workloads  # noqa: E402

EVENT, LENT, CELLS, RULES = "icelichen_event", "cells::lent", "cells::cells_of", "rules::sound"
PARTS = {"read": LENT, "again": (LENT, CELLS), "rules": (EVENT, RULES), "written": (EVENT, CELLS)}


def costs(file):
    """What callgrind has of each function by itself, and of each pair of a function and one that it calls. Names have a number from their first line on."""
    names, found, own, called, is_call = {}, collections.Counter(), None, None, False

    def named(text):
        number, name = re.match(r"\((\d+)\) ?(.*)", text).groups()
        return names.setdefault(number, name)

    for line in file.read_text().splitlines():
        key, _, text = line.partition("=")
        if key == "fn":
            own = named(text)
        elif key == "cfn":
            called = named(text)
        elif key == "calls":
            is_call = True
        elif re.match(r"[-+*\d]", line):
            found[(own, called) if is_call else own] += int(line.split()[-1])
            is_call = False
    return found


def counted(work, program, rounds, script):
    """The costs of so many rounds, what they took in all, and how many events they had."""
    out = work / "callgrind.out"
    command = ["valgrind", "--tool=callgrind", f"--callgrind-out-file={out}", program, str(rounds), "step"]
    ran = subprocess.run(command, stdin=open(script, "rb"), capture_output=True, check=True, text=True)
    return costs(out), int(re.search(r"Collected : (\d+)", ran.stderr)[1]), int(ran.stdout.split()[0])


def print_parts(work, program, name, records):
    script = work / "script.cwb"
    script.write_bytes(HEAD + records)
    (once, one, done), (twice, two, done_twice) = (counted(work, program, rounds, script) for rounds in (1, 2))
    events = done_twice - done
    each = [(twice[part] - once[part]) / events for part in PARTS.values()]
    total = (two - one) / events
    print(f"{name:58}" + "".join(f"{number:8.0f}" for number in (total, *each, total - sum(each))), flush=True)


def main():
    if len(sys.argv) > 1:
        asked_for_help(sys.argv[1:], __doc__)
    check_machine(("gcc", "valgrind"), True)
    with tempfile.TemporaryDirectory() as folder:
        work = pathlib.Path(folder)
        program = compiled(work / "header", HERE / "header.c", ARCHIVE)
        os.environ["BRIDGE_MODEL"] = str(compiled(work / "bridge_model", HERE.parent / "model/bridge_model.c"))
        print(f"{'workload':58}" + "".join(f"{name:>8}" for name in ("all", *PARTS, "rest")))
        for name, _, mode, records in workloads(work):
            if mode == "step" and "ten times" not in name:
                print_parts(work, program, name, records)


if __name__ == "__main__":
    signal.signal(signal.SIGPIPE, signal.SIG_DFL)  # a reader that has seen enough is no fault
    main()
