#!/usr/bin/env python3
"""The bridge's speed beside a plain C program of the same rules that tests the same record rules (plain.c), in one run.

measure.py                   needs the proved program (`tools/build speed`), gcc, and an x86-64 machine, where both run natively
measure.py --instructions    counts instructions instead, with valgrind: the same whatever else the machine does; one event's are those of a
                             second round over its events
measure.py --header          the library for programs in C in place of the proved program, through include/icelichen_bridge.h (header.c): it needs the
                             archive (`rt lib` in crates/icelichen_bridge) and no proved program; with --instructions too. ICELICHEN_ARCHIVES in the
                             environment names a folder with an archive that was made elsewhere

Each workload runs in both programs by turns, nine times; the least processor time of each counts, user's and system's together, since the kernel
measures only their sum. `step` is one event a call, `list` a round's events in one call, `drain` one event a call and a drain. Both print how much was done and a sum of all answers; they must print the same. Nanoseconds are for one event, for one tick
of a drain, or for one word of a CRC. What the CRC's table costs by itself is counted by tables.py.
"""
import os
import pathlib
import platform
import re
import resource
import shutil
import subprocess
import sys
import tempfile

HERE = pathlib.Path(__file__).resolve().parent
ROOT = HERE.parents[1]
OURS = ROOT / "crates/speed/out/speed"
ARCHIVE = pathlib.Path(os.environ.get("ICELICHEN_ARCHIVES") or ROOT / "crates/icelichen_bridge/out") / "libicelichen_bridge.a"
IN_HEADER = ("step", "list", "drain")  # modes that include/icelichen_bridge.h has functions for
sys.dont_write_bytecode = True
sys.path[:0] = [str(HERE.parent / "model"), str(ROOT / "tools")]
import frames  # noqa: E402
from make_scripts import POWER, WORD, RELEASE, TICK, CLOCK  # noqa: E402

HEAD = b"CWB\x00\x01"
ROUND = 65535 // 3  # the events that crates/speed takes of a script
TIMES = 9


def event(kind, value=0):
    return bytes((kind, value >> 8, value & 255))


def frame(name, words, **fields):
    return b"".join(event(WORD, word) for word in frames.frame(name, words, **fields)) + event(RELEASE)


def forwards(commands, words):
    """So many FWD_WR_CRC of so many words each."""
    return b"".join(frame("FWD_WR_CRC", [(1000 * i + 77 * j) & 0xFFFF for j in range(words)]) for i in range(commands))


CLEAR_POR = frame("REG_WR", [0x8000], address=7)
POWER_UP = event(POWER, 1)
FULL = POWER_UP + CLEAR_POR + forwards(8, 64)  # all eight places and all of TX


def answered(name, words, fillers, **fields):
    """A frame with the words that take its answer."""
    return frame(name, words, **fields)[:-3] + event(WORD, 0xFFFF) * fillers + event(RELEASE)


def mixed_frames():
    """Frames of every kind with their answers, none longer than four words, and a soft reset that empties all, round after round."""
    frames_once = (answered("FWD_WR_CRC", [1, 2, 3, 4], 2) + answered("REG_WR", [0x20], 2, address=1) + answered("REG_RD", [], 4, address=2, count=3)
                   + answered("FWD_RD_END_CRC", [5], 2, ends=1) + answered("DATA_RD_CRC", [], 3, count=2) + answered("REG_WR_CRC", [3, 4], 2, address=1)
                   + answered("FWD_WR", [9, 8], 2) + answered("REG_RD_CRC", [], 3, address=5, count=2) + answered("SOFTRESET_CRC", [], 2))
    return POWER_UP + frames_once * (3 * (ROUND - 1) // len(frames_once))


def steady(before, kind, value):
    """A state that stands still under the events measured: POR is up, so that nothing begins."""
    return POWER_UP + before + event(kind, value) * (ROUND - len(POWER_UP + before) // 3)


def asked_for_help(words, text):
    """Ends the run: the text where it was asked for, else what is wrong."""
    if words in (["--help"], ["-h"]):
        print(text)
        sys.exit(0)
    print(f"speed: {' '.join(words)!r} is no argument here; --help says what is", file=sys.stderr)
    sys.exit(2)


def echoed(script, ticks):
    """The script, and so many ticks whose SIN bits are the SOUT bits of the tick before: what was sent is read back. SOUT by the independent program."""
    silent = subprocess.run([os.environ["BRIDGE_MODEL"], "/dev/stdin"], input=HEAD + script + event(TICK, 1) * ticks, capture_output=True, check=True).stdout
    sout = [int(line.split()[-1]) for line in silent.splitlines()]
    return script + b"".join(event(TICK, bit) for bit in sout[-ticks - 1:-1])


def random_script(work):
    made = subprocess.check_output([sys.executable, HERE.parent / "model/make_scripts.py", "1", str(ROUND)])
    return made[len(HEAD):]


def spent():
    used = resource.getrusage(resource.RUSAGE_CHILDREN)
    return used.ru_utime + used.ru_stime


def timed(program, rounds, mode, script):
    before = spent()
    said = subprocess.run([program, str(rounds), mode], stdin=open(script, "rb"), capture_output=True, check=True, text=True).stdout
    return spent() - before, said


def differ(name, said):
    sys.exit(f"speed: {name}: the programs differ: {said}")


def measured(work, pair, name, rounds, mode, records):
    """Nanoseconds of one event in either program of a pair, ours and C's."""
    script = work / "script.cwb"
    script.write_bytes(HEAD + records)
    best = dict.fromkeys(pair, 1e9)
    for _ in range(TIMES):
        said = set()
        for program in best:
            seconds, text = timed(program, rounds, mode, script)
            best[program] = min(best[program], seconds)
            said.add(text)
        if len(said) != 1:
            differ(name, said)
    done = int(text.split()[0])
    ours, theirs = (1e9 * best[program] / done for program in pair)
    print(f"{name:58} {done:>9} {ours:7.1f} {theirs:7.1f} {ours / theirs:6.2f}", flush=True)


def instructions(program, rounds, mode, script):
    """What valgrind counts of a run, and how much was done."""
    command = ["valgrind", "--tool=callgrind", "--callgrind-out-file=/dev/null", program, str(rounds), mode]
    ran = subprocess.run(command, stdin=open(script, "rb"), capture_output=True, check=True, text=True)
    return int(re.search(r"Collected : (\d+)", ran.stderr)[1]), int(ran.stdout.split()[0])


def counted(work, pair, name, rounds, mode, records):
    """Instructions of one event in either program."""
    script = work / "script.cwb"
    script.write_bytes(HEAD + records)
    said = {timed(program, 2, mode, script)[1] for program in pair}
    if len(said) != 1:
        differ(name, said)
    each = []
    for program in pair:
        took, done = second_round(program, rounds, mode, script)
        each.append(took / done)
    print(f"{name:58} {done:>9} {each[0]:7.0f} {each[1]:7.0f} {each[0] / each[1]:6.2f}", flush=True)


def by_itself(work, pair, name, rounds, records, costs):
    """A drain without the events before it: those alone are taken off. `costs` answers what a mode takes of either program, and how much was done."""
    script = work / "script.cwb"
    script.write_bytes(HEAD + records)
    each = []
    for program in pair:
        (all_of_it, done), (before, events) = (costs(program, rounds, mode, script) for mode in ("drain", "step"))
        each.append((all_of_it - before) / (done - events))
    ours, theirs = each
    width = ".0f" if costs is second_round else ".1f"
    print(f"{name:58} {done - events:>9} {ours:7{width}} {theirs:7{width}} {ours / theirs:6.2f}", flush=True)


def second_round(program, rounds, mode, script):
    """The instructions of a second round, and how much it did."""
    (once, done), (twice, done_twice) = (instructions(program, many, mode, script) for many in (1, 2))
    return twice - once, done_twice - done


def least_time(program, rounds, mode, script):
    """The least nanoseconds of nine runs, and how much was done."""
    runs = [timed(program, rounds, mode, script) for _ in range(TIMES)]
    return 1e9 * min(seconds for seconds, _ in runs), int(runs[0][1].split()[0])


def compiled(program, *parts):
    """A program in C, of the parts; gcc says itself what is wrong with one."""
    if subprocess.run(["gcc", "-std=c11", "-O2", f"-I{ROOT / 'include'}", "-o", program, *parts]).returncode:
        sys.exit(f"speed: {program.name} is not compiled")
    return program


def workloads(work):
    """Name, rounds for a time, mode, records."""
    ticks = FULL + event(TICK, 1) * 9000
    return [
        ("step: random events of all kinds", 100, "step", random_script(work)),
        ("step: eight commands of 64 words, then ticks", 200, "step", ticks),
        ("drain: the same, drained", 200, "drain", FULL),
        ("step: the ticks again, ten times as many rounds", 2000, "step", ticks),
        ("step: ticks, queue and TX empty", 100, "step", steady(b"", TICK, 1)),
        ("step: ticks, 1 place, 1 word in TX", 100, "step", steady(forwards(1, 1), TICK, 1)),
        ("step: ticks, 8 places, 8 words in TX", 100, "step", steady(forwards(8, 1), TICK, 1)),
        ("step: ticks, 8 places, 512 words in TX", 100, "step", steady(forwards(8, 64), TICK, 1)),
        ("step: host words, queue and TX empty", 100, "step", steady(b"", WORD, 0xFFFF)),
        ("step: host words, 8 places, 512 words in TX", 100, "step", steady(forwards(8, 64), WORD, 0xFFFF)),
        ("step: clock readings, queue and TX empty", 100, "step", steady(b"", CLOCK, 7)),
        ("step: clock readings, 8 places, 512 words in TX", 100, "step", steady(forwards(8, 64), CLOCK, 7)),
        ("step: forwards of 512 words, POR up", 100, "step", (POWER_UP + forwards(1, 512)) * 42),
        ("step: eight commands of 64 words, then ticks, read back", 200, "step", echoed(FULL, 9000)),
        ("step: mixed frames", 100, "step", mixed_frames()),
        ("list: random events of all kinds", 100, "list", random_script(work)),
        ("list: eight commands of 64 words, then ticks", 200, "list", ticks),
        ("list: ticks, queue and TX empty", 100, "list", steady(b"", TICK, 1)),
        ("list: ticks, 8 places, 512 words in TX", 100, "list", steady(forwards(8, 64), TICK, 1)),
        ("list: host words, queue and TX empty", 100, "list", steady(b"", WORD, 0xFFFF)),
        ("list: clock readings, queue and TX empty", 100, "list", steady(b"", CLOCK, 7)),
        ("list: forwards of 512 words, POR up", 100, "list", (POWER_UP + forwards(1, 512)) * 42),
        ("list: mixed frames", 100, "list", mixed_frames()),
        ("list: eight commands of 64 words, then ticks, read back", 200, "list", echoed(FULL, 9000)),
        ("CRC of a word, table of 16", 200, "crc", forwards(42, 512)),
        ("CRC of a word, table of 256", 200, "wide", forwards(42, 512)),
    ]


def check_machine(tools, header):
    """Ends the run where something that it needs is not there."""
    for tool in tools:
        if not shutil.which(tool):
            sys.exit(f"speed: {tool} is not found")
    if header and not ARCHIVE.exists():
        print(f"speed: there is no {ARCHIVE.name}: run `rt lib` in crates/icelichen_bridge", file=sys.stderr)
        sys.exit(2)
    if not header and not OURS.exists():
        sys.exit("speed: crates/speed/out/speed is not built: run `tools/build speed`")
    if platform.machine() != "x86_64":
        sys.exit("speed: both programs are measured natively on x86-64 only")


def main():
    words = sys.argv[1:]
    if len(set(words)) < len(words) or not set(words) <= {"--header", "--instructions"}:
        asked_for_help(words, __doc__)
    header = "--header" in words
    measure, unit = (counted, "instr") if "--instructions" in words else (measured, "ns")
    check_machine(("gcc", "valgrind") if measure is counted else ("gcc",), header)
    with tempfile.TemporaryDirectory() as folder:
        work = pathlib.Path(folder)
        ours = compiled(work / "header", HERE / "header.c", ARCHIVE) if header else OURS
        pair = ours, compiled(work / "plain", HERE / "plain.c")
        os.environ["BRIDGE_MODEL"] = str(compiled(work / "bridge_model", HERE.parent / "model/bridge_model.c"))
        print(f"{'workload':58} {'done':>9} {'header' if header else 'ours':>7} {'C ' + unit:>7} {'ratio':>6}")
        for workload in workloads(work):
            if not header or workload[2] in IN_HEADER:
                measure(work, pair, *workload)
        by_itself(work, pair, "drain: its ticks alone, eight commands of 64 words", 200, FULL, second_round if measure is counted else least_time)


if __name__ == "__main__":
    main()
