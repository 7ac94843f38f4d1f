#!/usr/bin/env python3
"""What the CRC's table costs (02 item 5): the code with the table of sixteen entries, and with that of 256 in its place, in one run.

tables.py    needs the proved program (`tools/build speed`), gcc, valgrind and an x86-64 machine; the time of two checks of the crates behind it

For the second the calls of `crc16` in a copy of the crates are made calls of `crc16_wide`, whose contract is the same. Both are proved and compiled by the
kit; the first must have the proved program's code, function by function. Printed are
- bytes of code and of constants: of a program that hands events to `step` and drains, and does nothing else, which is what a controller takes, as an
  object and linked; and of the library for C (`rt lib` in crates/icelichen_frames);
- instructions (valgrind) and nanoseconds (the least of nine, by turns, processor time) of a forward's data word, of a word on the line drained, and of a
  word on the line with one tick a call, sent and read back; each beside the plain C program (plain.c). A word's cost is that of many words less that of
  the rest of the script by itself.
"""
import pathlib
import platform
import re
import shutil
import subprocess
import sys
import tempfile

from measure import FULL, HEAD, POWER_UP, TIMES, asked_for_help, echoed, forwards, instructions, timed

HERE = pathlib.Path(__file__).resolve().parent
ROOT = HERE.parents[1]
sys.path.insert(0, str(ROOT / "tests/coverage"))
from controller import LINKED  # noqa: E402
from pair import built_model  # noqa: E402

WORDS = 512  # of the commands on the line, and of the longest forward
TICKS = 9000  # more than their bits
LIBRARY = "icelichen_frames"
CONTROLLER = """#![tactic(auto)]

use state::Bridge;
use std::io;
use std::io::{Print, Read};

fn stepped(rt: &impl Print, bridge: Bridge, tx: &mut [u16], rx: &mut [u16], bytes: [u8; 3]) -> io::Result<Bridge> {
    let Some(event) = script::read(bytes[0], script::value(bytes[1], bytes[2])) else {
        return Ok(bridge);
    };
    let answer = bridge::step(bridge, tx, rx, event);
    print!(rt; "{}", answer.sdo)?;
    Ok(answer.state)
}

fn run(rt: &impl Print, input: &mut impl Read) -> io::Result<()> {
    let mut tx = [0u16; 512];
    let mut rx = [0u16; 256];
    let mut bytes = [0u8; 3];
    let mut bridge = Bridge::good();
    for _ in 0..u64::MAX {
        if console::read_full(input, &mut bytes)? < 3 {
            break;
        }
        bridge = stepped(rt, bridge, &mut tx, &mut rx, bytes)?;
    }
    let answer = drain::drain(bridge, &mut tx, &mut rx, 1000000);
    print!(rt; "{}", answer.ticks)
}

fn main(rt: HostRuntime) -> io::Result<()> {
    run(&rt, &mut rt.stdin())
}
"""
WIDE = "crc16_wide"
FROM = """
// A list of words, from a CRC so far.
pub fn crc_from(start: u16, words: &[u16]) -> u16
    ensures { result ≡ crc_from start words.now }
{
    Wide::words(start, words)
}
"""


def told(text):
    print(f"tables: {text} ..", file=sys.stderr, flush=True)


def copied(place, wide):
    """The crates, whose calls of the CRC go to the table of 256 entries where `wide`."""
    shutil.copytree(ROOT / "crates", place / "crates", ignore=shutil.ignore_patterns("out"))
    text = (ROOT / "crates.txt").read_text()
    text += f"controller: {' '.join(LINKED)} script console\n"
    (place / "crates.txt").write_text(re.sub(r"^(?!crc16)(.*) crc16(?= |$)(?! crc16_wide)", rf"\1 crc16 {WIDE}", text, flags=re.M) if wide else text)
    (place / "crates/controller/src").mkdir(parents=True)
    (place / "crates/controller/src/main.rt").write_text(CONTROLLER)
    if wide:
        root = place / "crates" / WIDE / "src/lib.rt"
        root.write_text(root.read_text().replace("specs.Crc.{", "specs.Crc.{crc_from, ", 1) + FROM)
        for name in (*LINKED, "frames"):
            for file in (place / "crates" / name / "src").glob("*.rt") if name != "crc16" else ():
                file.write_text(file.read_text().replace("crc16::crc_", f"{WIDE}::crc_"))


def made(command, folder):
    ran = subprocess.run(["rt", command], cwd=folder, stdin=subprocess.DEVNULL, capture_output=True, text=True)
    if ran.returncode:
        sys.exit(f"tables: {folder.name} is not proved\n" + (ran.stdout + ran.stderr)[-1000:])


def built(place, wide):
    """The program that is timed, the controller's and the library for C with one of the tables."""
    place.mkdir()
    copied(place, wide)
    for name in ("controller", "speed"):
        told(f"proving and compiling {name} with the table of {256 if wide else 16}")
        made("run", place / "crates" / name)
        shutil.copy(place / "crates" / name / "out" / f"{name}.o", place)
        shutil.copy(place / "crates" / name / "out" / name, place)
    told(f"proving the library for C with the table of {256 if wide else 16}")
    made("lib", place / "crates" / LIBRARY)


def listed(file):
    """Name and size of each section of code or constants in an object or archive."""
    return re.findall(r"^(\.(?:text|rodata)\S*)\s+([1-9]\d*)\s", subprocess.check_output(["size", "-A", "-d", file], text=True), re.M)


def code(file):
    """Name and bytes of each section of an object's code; its functions stand in any order."""
    found = {}
    with tempfile.NamedTemporaryFile() as part:
        for name in (name for name, _ in listed(file) if name.startswith(".text")):
            subprocess.check_call(["objcopy", "-O", "binary", f"--only-section={name}", file, part.name])
            found[name] = pathlib.Path(part.name).read_bytes()
    return found


def bytes_of(file):
    """Code and constants."""
    return [sum(int(size) for name, size in listed(file) if name.startswith(kind)) for kind in (".text", ".rodata")]


def workloads():
    """(name, mode, script, its rest without the words that are measured, how many these are, rounds for a time). The rest goes one event a call."""
    frames = 42  # of 512 words, in a round
    yield "a forward's data word", "step", (POWER_UP + forwards(1, WORDS)) * frames, (POWER_UP + forwards(1, 1)) * frames, frames * (WORDS - 1), 400
    yield "a word on the line, drained", "drain", FULL, FULL, WORDS, 2000
    yield "a word on the line, one tick a call, read back", "step", echoed(FULL, TICKS), FULL, WORDS, 1000


def counts(program, work, mode, words):
    """Instructions of a word in a program: of a second round."""
    rounds = [instructions(program, many, how, work / file)[0] for how, file in ((mode, "script"), ("step", "rest")) for many in (1, 2)]
    return (rounds[1] - rounds[0] - rounds[3] + rounds[2]) / words


def times(programs, work, mode, words, rounds):
    """Nanoseconds of a word in each program, the least of nine of script and rest."""
    best = {}
    for _ in range(TIMES):
        for program in programs:
            for how, file in ((mode, "script"), ("step", "rest")):
                seconds = timed(program, rounds, how, work / file)[0]
                best[program, file] = min(best.get((program, file), 1e9), seconds)
    found = [1e9 * (best[program, "script"] - best[program, "rest"]) / rounds / words for program in programs]
    if min(found) <= 0 or min(best[program, "script"] for program in programs) < 0.05:
        sys.exit("tables: the times are too short to be told apart on this machine")
    return found


def print_bytes(large, small):
    print(f"{'bytes':50} {'':>8} {'256':>8} {'16':>8} {'saved':>8}")
    library = f"crates/{LIBRARY}/out/lib{LIBRARY}.a"
    for name, file in (("a program that steps and drains: its object", "controller.o"), ("the same, linked", "controller"), ("the library for C", library)):
        for what, before, after in zip(("code", "constants"), bytes_of(large / file), bytes_of(small / file)):
            print(f"{name:50} {what:>9} {before:>7} {after:>8} {before - after:>8}", flush=True)


def print_words(work, programs):
    print(f"{'of a word':50} {'':>8} {'256':>8} {'16':>8} {'C':>8}")
    for name, mode, script, rest, words, rounds in workloads():
        told(name)
        (work / "script").write_bytes(HEAD + script)
        (work / "rest").write_bytes(HEAD + rest)
        counted = [counts(program, work, mode, words) for program in programs]
        print(f"{name:50} {'instr':>8} " + " ".join(f"{number:8.0f}" for number in counted), flush=True)
        print(f"{name:50} {'ns':>8} " + " ".join(f"{number:8.1f}" for number in times(programs, work, mode, words, rounds)), flush=True)


def main():
    if len(sys.argv) > 1:
        asked_for_help(sys.argv[1:], __doc__)
    missing = [tool for tool in ("rt", "gcc", "valgrind", "size", "objcopy") if not shutil.which(tool)]
    if missing or platform.machine() != "x86_64":
        sys.exit(f"tables: not found: {', '.join(missing)}" if missing else "tables: measured natively on x86-64 only")
    proved = ROOT / "crates/speed/out/speed.o"
    if not proved.exists():
        sys.exit("tables: crates/speed/out/speed.o is not built: run `tools/build speed`")
    with tempfile.TemporaryDirectory() as folder:
        work = pathlib.Path(folder)
        plain, large, small = work / "plain", work / "large", work / "small"
        subprocess.check_call(["gcc", "-std=c11", "-O2", "-o", plain, HERE / "plain.c"])
        built_model(work)
        built(large, True)
        built(small, False)
        if code(small / "speed.o") != code(proved) or sorted(listed(small / "speed.o")) != sorted(listed(proved)):
            sys.exit("tables: what was compiled here is not the proved program's code: run `tools/build speed` again")
        print_bytes(large, small)
        print_words(work, (large / "speed", small / "speed", plain))


if __name__ == "__main__":
    main()
