#!/usr/bin/env python3
"""Every promise of include/icelichen_bridge.h, tried through the proved library by header.c, whose head says what is tried.

header.py    `header: N calls ..`, or what went wrong and exit status 1

Three times, with the same last line: compiled as C, as C with gcc's sanitizers, which watch the C side, and as C++ where there is g++. Both headers and
both libraries are in each. Random scripts (model/make_scripts.py) lead to the states; those of SEEDS meet every note.
"""
import concurrent.futures
import pathlib
import shutil
import sys
import tempfile

TESTS = pathlib.Path(__file__).resolve().parents[1]
sys.dont_write_bytecode = True
sys.path.insert(0, str(TESTS / "model"))
from archives import BRIDGE, C, CPP, FRAMES, PLAIN, SANITIZED, Wrong, compiled, made, printed, tried  # noqa: E402
from pair import built_model  # noqa: E402

SEEDS, EVENTS = (3, 4, 5, 6), 30_000
SOURCE = TESTS / "linked/header.c"
BUILDS = {"as C": [*C, *PLAIN, SOURCE], "as C with sanitizers": [*C, *SANITIZED, SOURCE], "as C++": [*CPP, *PLAIN, "-x", "c++", SOURCE, "-x", "none"]}


def script(work, seed):
    file = work / f"seed{seed}.cwb"
    file.write_bytes(printed(sys.executable, TESTS / "model/make_scripts.py", str(seed), str(EVENTS)))
    return file


def told(work, scripts, libraries, name):
    """The last line of one build's run."""
    program = compiled(work / name.replace(" ", "-"), BUILDS[name], *libraries)
    return printed(program, *scripts).decode().splitlines()[-1]


def test():
    libraries = made(BRIDGE), made(FRAMES)
    with tempfile.TemporaryDirectory() as folder, concurrent.futures.ThreadPoolExecutor() as pool:
        work = pathlib.Path(folder)
        built_model(work)
        scripts = list(pool.map(lambda seed: script(work, seed), SEEDS))
        names = [name for name, words in BUILDS.items() if shutil.which(words[0])]
        lines = dict(zip(names, pool.map(lambda name: told(work, scripts, libraries, name), names)))
    if len(set(lines.values())) != 1:
        raise Wrong("the builds differ\n" + "\n".join(f"{name}: {line}" for name, line in lines.items()))
    print(f"header: {lines['as C']}, alike {', '.join(lines)}")


if __name__ == "__main__":
    tried("header", ["gcc"], test)
