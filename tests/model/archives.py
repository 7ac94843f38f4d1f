"""The proved libraries for C, and programs that are linked with them (tests/linked).

ICELICHEN_ARCHIVES in the environment names a folder with both archives; then nothing is proved: the gate has made them when these tests come. Else `rt lib`
makes each in its crate's folder.
"""
import functools
import os
import pathlib
import platform
import shutil
import subprocess
import sys

ROOT = pathlib.Path(__file__).resolve().parents[2]
BRIDGE, FRAMES = "icelichen_bridge", "icelichen_frames"
WARNINGS = ["-Wall", "-Wextra", "-Werror", "-Wconversion", f"-I{ROOT / 'include'}", f"-I{ROOT / 'examples/firmware'}"]
C = ["gcc", "-std=c11", *WARNINGS]
CPP = ["g++", "-std=c++17", *WARNINGS]
PLAIN = ["-O2"]
SANITIZED = ["-O1", "-g", "-fsanitize=address,undefined", "-fno-sanitize-recover=all"]


class Wrong(Exception):
    """What a test found."""


def missing(*tools):
    """Why the libraries cannot be linked on this machine, or nothing."""
    if platform.machine() not in ("x86_64", "AMD64"):
        return f"the libraries for C are for x86-64, this machine is {platform.machine()}"
    return next((f"there is no {tool}" for tool in tools if not shutil.which(tool)), None)


@functools.cache
def made(name):
    """A library's archive; `rt` proves what is not proved yet."""
    folder = os.environ.get("ICELICHEN_ARCHIVES")
    archive = pathlib.Path(folder or ROOT / "crates" / name / "out") / f"lib{name}.a"
    if not folder:
        ran = subprocess.run(["rt", "lib"], cwd=ROOT / "crates" / name, stdin=subprocess.DEVNULL, capture_output=True, text=True)
        if ran.returncode:
            raise Wrong(f"{name} is not built\n" + (ran.stdout + ran.stderr)[-2000:])
    if not archive.exists():
        raise Wrong(f"there is no {archive}")
    return archive


def compiled(program, compiler, *parts):
    ran = subprocess.run([*compiler, *parts, "-o", program], capture_output=True, text=True)
    if ran.returncode:
        raise Wrong(f"{program.name} is not compiled\n{ran.stderr[-2000:]}")
    return program


def printed(*words, given=None):
    """What a program prints; it ends with status 0 and says nothing else."""
    ran = subprocess.run(words, input=given, capture_output=True)
    if ran.returncode or ran.stderr:
        said = (ran.stdout[-1000:] + ran.stderr[-3000:]).decode(errors="replace")
        raise Wrong(f"{pathlib.Path(words[0]).name} ended with status {ran.returncode}\n{said}")
    return ran.stdout


def tried(name, tools, test):
    """Runs a test of tests/linked: its last line, what is wrong, or why it was not tried."""
    why = missing(*tools)
    if why:
        print(f"{name}: skipped: {why}")
        return
    try:
        test()
    except Wrong as wrong:
        sys.exit(f"{name}: {wrong}")
