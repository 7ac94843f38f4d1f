#!/usr/bin/env python3
"""A second verdict for every change of changes.tsv, without the prover: does a run tell it?

outside.py [--write] [CRATE..]    all of the list, or those of the named crates; --write keeps the verdicts and makes docs/MUTATION.md anew

Each change is made in a copy, compiled without its proof and with the compiler's assumptions checked, and run until something tells it: the
examples, the guide's texts, the texts of tests/edges, the scripts of tests/broken.py and the random scripts of the gate (tests/random_scripts.py), all by
the bench program against the independent program; then every program of the gate against its stored output, and the filter of host frames on
orders at their limits (tests/frames_text.py). Told: another byte, another exit status, or no end. Every crate stands below the bench program but
`drain`, `frames` and those of the call-up board; a change is run only by programs whose code has its crate.
Where no run can tell a change, the list says why; exit status 1 where a change is not told and has no reason, or is told and has one.
"""
import concurrent.futures
import functools
import os
import pathlib
import queue
import resource
import shutil
import signal
import subprocess
import sys
import tempfile

from listed import HERE, ROOT, changed, changes, store
from page import OUTSIDE, write_page

sys.path.insert(0, str(HERE.parent / "model"))
from pair import EVENTS, SEEDS, built_model, joined  # noqa: E402

sys.path.insert(0, str(HERE.parent))
from broken import SCRIPTS as BROKEN  # noqa: E402

BENCH = "bench"
LONGEST = 60  # seconds of one run; the longest takes two
COMPILING = 600  # seconds of one compilation; on a busy machine it takes two minutes
MOST_WRITTEN = 1 << 26  # bytes of a file: a changed program may print without end
NO_PROGRAM = "does not compile"
NOT_TOLD = "not told"


def kit():
    """The kit that `rt` stands in."""
    found = shutil.which("rt") or sys.exit("outside: the Rattle kit's `rt` is not to be found")
    return pathlib.Path(found).resolve().parents[1]


def linked(real, shadow, *but):
    """A folder of links to all that `real` has, but some names."""
    shadow.mkdir(parents=True)
    for part in real.iterdir():
        if part.name not in but:
            (shadow / part.name).symlink_to(part)


def shadow_kit(shadow, **scripts):
    """The kit by links, but for these programs of its toolchain, each a script here; `rt` finds its kit by where its own files stand, so they are copied."""
    tools, own = pathlib.Path("toolchain/bin"), ("rt", "rtlib.py")
    missing = [name for name in scripts if not (kit() / tools / name).exists()]
    if missing:
        sys.exit(f"outside: the kit has no {tools}/{missing[0]}, for which a script stands in here")
    linked(kit(), shadow, "toolchain", "bin")
    linked(kit() / "toolchain", shadow / "toolchain", "bin")
    linked(kit() / tools, shadow / tools, *scripts)
    linked(kit() / "bin", shadow / "bin", *own)
    for name in own:
        shutil.copy(kit() / "bin" / name, shadow / "bin")
    for name, script in scripts.items():
        (shadow / tools / name).write_text("#!/bin/sh\n" + script)
        (shadow / tools / name).chmod(0o755)


def keeping_kit(place):
    """A kit whose linker leaves the program as place/program, and ends there.

    `rt try` compiles a program with its checks, runs it on one input and throws it away; so it is kept as it is linked, and is not run.
    """
    real = kit() / "toolchain/bin/ld.lld"
    shadow_kit(place / "kit", **{"ld.lld": f'"{real}" "$@" && /bin/cp program "{place}/program"\nexit 1\n'})


def copies(folder, many):
    """Copies of the crates' code, each with a kit, for one change at a time each."""
    free = queue.Queue()
    for i in range(many):
        place = pathlib.Path(folder) / f"copy{i}"
        unread = shutil.ignore_patterns("proofs", "specs", "must-fail", "stdin", "stdout", "args")
        shutil.copytree(ROOT / "crates", place / "crates", ignore=unread)
        shutil.copy(ROOT / "crates.txt", place)
        keeping_kit(place)
        free.put(place)
    return free


def ended(words, longest=LONGEST, **how):
    """Exit status of a command, None where it took too long; nothing that it started is left."""
    with subprocess.Popen(words, start_new_session=True, **how) as process:
        try:
            return process.wait(longest)
        except subprocess.TimeoutExpired:
            os.killpg(process.pid, signal.SIGKILL)
            return None


def compiled(place, name):
    """True where the program `name` of the copy was compiled, to place/program."""
    program = place / "program"
    program.unlink(missing_ok=True)
    with open(place / "said", "wb") as said:
        ended([place / "kit/bin/rt", "try"], COMPILING, cwd=place / "crates" / name, stdin=subprocess.DEVNULL, stdout=said, stderr=said)
    return program.exists()


def tells(place, case):
    """True where the copy's program does not print what is expected of it."""
    _, _, arguments, stdin, expected = case
    printed = place / "printed"
    with open(stdin, "rb") as given, open(printed, "wb") as out:
        status = ended([place / "program", *arguments], stdin=given, stdout=out, stderr=subprocess.DEVNULL)
    return status != 0 or printed.read_bytes() != expected.read_bytes()


def scripts():
    """What the bench program is run on: name and script, in the order in which they are tried."""
    yield "examples", joined((ROOT / "examples").glob("*.txt"))
    yield "guide", joined((ROOT / "examples/host").glob("*.txt"))
    yield "edges", joined((ROOT / "tests/edges").glob("*.txt"))
    yield from (("broken scripts", script) for script in BROKEN.values())
    for seed in range(1, SEEDS + 1):
        print(f"\rrandom script {seed} of {SEEDS}", end="", file=sys.stderr, flush=True)
        yield f"random seed {seed}", subprocess.check_output([sys.executable, HERE.parent / "model/make_scripts.py", str(seed), str(EVENTS)])
    print(file=sys.stderr)


def stored_cases():
    """Every program of the gate on its own input, the bench program first."""
    for main in sorted(ROOT.glob("crates/*/src/main.rt"), key=lambda main: (main.parts[-3] != BENCH, main)):
        crate = main.parents[1]
        args, stdin, stdout = (crate / part if (crate / part).exists() else pathlib.Path(os.devnull) for part in ("args", "stdin", "stdout"))
        yield crate.name, crate.name, args.read_text().splitlines(), stdin, stdout


def order_cases(work):
    """The filter of host frames on lines at both sides of each limit, one a text, since a wrong line leaves nothing printed."""
    import frames_text  # which uses this module's compiler

    for at, line in enumerate(frames_text.at_limits()):
        given, expected = work / f"order{at}", work / f"order{at}.out"
        given.write_bytes(line)
        expected.write_text(frames_text.expected(line)[0])
        yield "frames_main", "orders at their limits", [], given, expected


def cases(work):
    """All that is run: program, name, arguments, input, expected output. One program's cases stand together."""
    model = built_model(work)
    for name, script in scripts():
        made = len(list(work.glob("*.cwb")))
        given, expected = work / f"{made}.cwb", work / f"{made}.out"
        given.write_bytes(script)
        with open(expected, "wb") as out:
            subprocess.run([model, given], stdout=out, check=True)
        yield BENCH, name, [], given, expected
    yield from stored_cases()
    yield from order_cases(work)


def crates_below():
    """Each crate of crates.txt with all that its code has, itself too."""
    named = {}
    for line in (ROOT / "crates.txt").read_text().splitlines():
        name, _, deps = line.partition("#")[0].partition(":")
        if name.strip():
            named[name.split()[0]] = deps.split()

    @functools.cache
    def below(name):
        return {name}.union(*(below(dep) for dep in named.get(name, ())))

    return {name: below(name) for name in named}


def judged(place, change, todo):
    """The verdict on the copy as it stands."""
    made, below = None, crates_below()
    for case in todo:
        program, name = case[:2]
        if change.crate not in below[program]:
            continue
        if made != program:
            if not compiled(place, program):
                return NO_PROGRAM
            made = program
        if tells(place, case):
            return f"told by {name}"
    return NOT_TOLD


def tried(free, change, todo):
    place = free.get()
    file = place / "crates" / change.crate / "src" / change.file
    good = None
    try:
        good = changed(file, change)
        return "NOT FOUND ONCE" if good is None else judged(place, change, todo)
    finally:
        if good is not None:
            file.write_text(good)
        free.put(place)


def is_expected(change, verdict):
    """A run tells the change, or the list says why none can."""
    if change.same or change.untold:
        return verdict == NOT_TOLD
    return verdict.startswith("told by")


def counted(results):
    """How many were told by what, seeds taken together."""
    names = [" ".join(verdict.split()[:3]) for _, verdict in results]
    return ", ".join(f"{name} {names.count(name)}" for name in dict.fromkeys(names))


def sound(free, todo):
    """Every case passes on the code as it is: else no verdict means anything."""
    place, made = free.get(), None
    for case in todo:
        if case[0] != made and not compiled(place, case[0]):
            sys.exit(f"{case[0]} does not compile as it is:\n{(place / 'said').read_text()[-1500:]}")
        made = case[0]
        if tells(place, case):
            sys.exit(f"{case[1]} fails on the code as it is")
    free.put(place)


def main():
    words = [word for word in sys.argv[1:] if word != "--write"]
    wanted = changes(words)
    many = min(len(wanted), int(os.environ.get("RT_JOBS", os.cpu_count())))
    resource.setrlimit(resource.RLIMIT_FSIZE, (MOST_WRITTEN, MOST_WRITTEN))
    results = []
    with tempfile.TemporaryDirectory() as folder:
        work = pathlib.Path(folder)
        todo = list(cases(work))
        free = copies(work, many)
        sound(free, todo)
        with concurrent.futures.ThreadPoolExecutor(many) as pool:
            for change, verdict in zip(wanted, pool.map(lambda change: tried(free, change, todo), wanted)):
                results.append((change, verdict))
                marked = "" if is_expected(change, verdict) else "NOT AS EXPECTED "
                print(f"{len(results)}/{len(wanted)} {marked}{verdict}:", *change[:3], change.before, "->", change.after, flush=True)
    if "--write" in sys.argv:
        store(OUTSIDE, results)
        write_page()
    wrong = sum(not is_expected(change, verdict) for change, verdict in results)
    print(f"outside: {len(results)} tried ({counted(results)}), {wrong} not as expected")
    sys.exit(wrong != 0)


if __name__ == "__main__":
    main()
