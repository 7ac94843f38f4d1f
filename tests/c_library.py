#!/usr/bin/env python3
"""The library for C (include/icelichen_frames.h), built, linked by the machine's C compiler and tried.

1. tests/frames/trial.c linked with the library and with tests/frames/model.c, a program of 02's item 1 by another hand, with another CRC: every
   byte that they print is equal. It goes through all command words that 01 allows (as many of each number as tests/command.py counts), limits,
   buffers with guards around them, answers right and wrong; what is only read ends at a page that cannot be. The driver and the other program run
   with gcc's sanitizers too, which do not see into the library.
2. tests/frames/sent.c: the library's frame for every command word that 01 allows goes to the bench program, in our layout and in the maker's by
   either CRC (02 item 7); its notes are none of a wrong frame's, and the library reads its answer as that order's. The bench program is compiled from its source without its proof
   (tests/mutation/outside.py), and the independent program (tests/model) prints the same of each script, byte for byte.
3. examples/c/call_up.c prints what examples/c/call_up.out says, and its frames are those of tools/frames.py.
4. The large table of the CRC (crates/crc16_wide) is not in the library: no eight of its entries stand there in a row (02 item 5).

The library is proved first, about a minute, unless ICELICHEN_ARCHIVES names a folder that has it. On another machine than x86-64, and without gcc, this says so and tries nothing.
"""
import concurrent.futures
import os
import pathlib
import platform
import re
import shutil
import struct
import subprocess
import sys
import tempfile

TESTS = pathlib.Path(__file__).resolve().parent
ROOT = TESTS.parent
sys.dont_write_bytecode = True
sys.path[:0] = [str(TESTS / "model"), str(TESTS / "mutation"), str(ROOT / "tools")]
import frames  # noqa: E402
import outside  # noqa: E402

sys.path.append(str(TESTS))
from command import decode  # noqa: E402
from pair import built_model  # noqa: E402

ARCHIVES = os.environ.get("ICELICHEN_ARCHIVES")  # as in model/archives.py: made already
LIBRARY = pathlib.Path(ARCHIVES or ROOT / "crates/icelichen_frames/out") / "libicelichen_frames.a"
MOST_EVENTS = 500_000  # of a script
LAYOUTS = {"0": "our layout", "1": "the maker's", "2": "the maker's with CRC-16/XMODEM"}  # by the header's numbers
STRICT = ["-std=c11", "-Wall", "-Wextra", "-Werror", "-O2", f"-I{ROOT / 'include'}"]
SANITIZED = ["-fsanitize=address,undefined", "-fno-sanitize-recover=all"]


def library():
    """Proves the library and makes its archive, where that is not done."""
    if ARCHIVES:
        return
    print("c_library: proving the library for C ..", flush=True)
    ran = subprocess.run(["rt", "lib"], cwd=ROOT / "crates/icelichen_frames", stdin=subprocess.DEVNULL, capture_output=True, text=True)
    if ran.returncode or not LIBRARY.exists():
        sys.exit("c_library: the library is not built\n" + (ran.stdout + ran.stderr)[-2000:])


def compiled(program, *parts):
    subprocess.check_call(["gcc", *STRICT, *parts, "-o", program])
    return program


def printed(*words):
    ran = subprocess.run(words, capture_output=True)
    if ran.returncode:
        sys.exit(f"c_library: {words[0].name} ended with status {ran.returncode}\n" + (ran.stdout[-1000:] + ran.stderr[-1000:]).decode(errors="replace"))
    return ran.stdout


def allowed():
    """How many command words of each number 01 allows, by the test of the command words (command.py)."""
    opens = [word >> 12 for word in range(65536) if decode(word)[0] not in ("filler", "malformed")]
    return [b"all number %d: %d distinct command words" % (number, opens.count(number)) for number in range(16)]


def tried(work):
    """The library and the other hand's program, line by line."""
    trial, model = TESTS / "frames/trial.c", TESTS / "frames/model.c"
    ours = printed(compiled(work / "trial", trial, LIBRARY)).splitlines()
    theirs = printed(compiled(work / "trial_model", *SANITIZED, trial, model)).splitlines()
    watched = printed(compiled(work / "trial_watched", *SANITIZED, trial, LIBRARY)).splitlines()
    for line in allowed():
        if not any(one.startswith(line + b" ") for one in ours):
            sys.exit(f"c_library: 01 has {line.decode().removeprefix('all ')}, the library wrote others")
    for name, other in (("the other program", theirs), ("itself with sanitizers", watched)):
        if ours != other:
            at = next((i for i, pair in enumerate(zip(ours, other)) if pair[0] != pair[1]), min(len(ours), len(other)))
            sys.exit(f"c_library: line {at + 1} differs from {name}: {ours[at:at + 1]}, {other[at:at + 1]}")
    words = next(line for line in ours if line.startswith(b"all: ")).decode()
    print(f"c_library: {len(ours)} lines of the library and of the other program agree, with {words.removeprefix('all: ')}", flush=True)


def sent_part(work, sent, programs, layout, part):
    """One part through both bridges: how many orders were judged."""
    first, last, command, _ = part
    script = work / f"part{layout}-{first}"
    script.write_bytes(printed(sent, "script", first, last, layout))
    ours, theirs = (subprocess.run([*program, *words], stdin=open(script, "rb"), capture_output=True, check=True).stdout
                    for program, words in ((programs[0], []), (programs[1], [script])))
    if ours != theirs:
        sys.exit(f"c_library: the bench and the independent program differ on orders {first} to {last}, of command {command}, layout {layout}")
    judged = subprocess.run([sent, "judge", first, last, layout], input=ours, capture_output=True)
    if judged.returncode:
        sys.exit("c_library: " + judged.stderr.decode())
    script.unlink()
    return int(judged.stdout.split()[0])


def sent_all(work):
    sent, model = compiled(work / "sent", TESTS / "frames/sent.c", LIBRARY), built_model(work)
    place = outside.copies(work, 1).get()
    if not outside.compiled(place, "bench"):
        sys.exit("c_library: the bench program is not compiled: " + (place / "said").read_text()[-1000:])
    programs = [place / "program"], [model]
    for layout, name in LAYOUTS.items():
        parts = [line.split() for line in printed(sent, "plan", str(MOST_EVENTS), layout).decode().splitlines()]
        with concurrent.futures.ThreadPoolExecutor(os.cpu_count()) as pool:
            orders = sum(pool.map(lambda part: sent_part(work, sent, programs, layout, part), parts))
        if orders != int(parts[-1][1]) + 1:
            sys.exit(f"c_library: {orders} of {int(parts[-1][1]) + 1} orders were judged")
        events = sum(int(part[3]) for part in parts)
        print(f"c_library: {name}: {orders} command words, {events} events of the bench program: no note of a wrong frame, every answer read", flush=True)


def example(work):
    """The example's words, and its frames by the tools' table."""
    text = printed(compiled(work / "call_up", ROOT / "examples/c/call_up.c", LIBRARY)).decode()
    if text != (ROOT / "examples/c/call_up.out").read_text():
        sys.exit("c_library: examples/c/call_up.c prints other words than examples/c/call_up.out:\n" + text)
    for order in ("FWD_WR_CRC AA05 1234 5678", "FWD_WR_CRC AAF0", "REG_RD_CRC address=3 count=2"):
        words = " ".join("%04X" % word for word in frames.order(order.split()))
        if f": {words}\n" not in text:
            sys.exit(f"c_library: the example does not print {words}, the frame of {order}")
    print("c_library: the example for C prints what it should")


def without_table(library):
    """The entries that the small table does not have, as the compiler lays constants out."""
    entries = [int(text, 16) for text in re.findall(r"0x([0-9A-F]{4}),", (ROOT / "crates/crc16_wide/src/lib.rt").read_text())]
    found = [at for at in range(16, len(entries), 8) if struct.pack("<8H", *entries[at:at + 8]) in library]
    if found or len(entries) != 256:
        sys.exit(f"c_library: the library has entries of the large CRC table, from {found[0]} on" if found else f"c_library: the large table has {len(entries)} entries")
    print("c_library: no part of the large CRC table is in the library")


def main():
    if platform.machine() not in ("x86_64", "AMD64"):
        print(f"c_library: skipped: the library for C is for x86-64, this machine is {platform.machine()}")
        return
    if not shutil.which("gcc"):
        print("c_library: skipped: there is no gcc")
        return
    library()
    with tempfile.TemporaryDirectory() as folder:
        work = pathlib.Path(folder)
        tried(work)
        sent_all(work)
        example(work)
    without_table(LIBRARY.read_bytes())


if __name__ == "__main__":
    main()
