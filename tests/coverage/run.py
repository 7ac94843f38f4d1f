#!/usr/bin/env python3
"""Which branches of the bridge's code the gate's runs take, counted in the compiled program.

run.py [--write]    the totals, and what is never taken without a reason; --write also writes docs/COVERAGE.md where there is nothing of that

A branch is one way out of an `if`, `while`, `match` or `let .. else` of the crates that a controller links, and of those that lists and the bench add. A
join is a `&` or `|` of two booleans, which the code computes whole; of it three ways are asked for, so that each side is seen to decide by itself.
Run are, with counters: the random scripts of tests/random_scripts.py and, one event a call, those of tests/steps.py, examples/, examples/host, tests/edges, the scripts of tests/broken.py, and the programs
with their own input. Each must print what the independent program prints, or its `stdout`; in the random scripts the counters of two functions are
held to the kinds and SOUT bits printed.

Each branch and way never taken, and each function never called, stands in never.tsv: function, mark, test, branch, reason. The mark is of the
function's code, so that a reason is read again when the function changes. Exit status 1 where a branch has neither run nor reason, or a reason no
longer fits. Needs the kit, gcc and an x86-64 machine; some four minutes. Not part of the gate.
"""
import collections
import concurrent.futures
import importlib.util
import os
import pathlib
import re
import subprocess
import sys
import tempfile

from controller import LINKED
from counting import ROOT, Counting
from source import functions

sys.path.insert(0, str(ROOT / "tests/model"))
from pair import built_model, joined  # noqa: E402

CRATES = LINKED + ["script", "listing", "pouring", "night_parts", "whole_night", "playing"]
GROUPS = ("random", "examples", "edges", "refusals", "others")
PROGRAMS = {"refusals": "refusals", "numbers_main": "others", "crc16_main": "others", "command_main": "others", "speed": "others", "lists_main": "others"}
NEVER = ROOT / "tests/coverage/never.tsv"
PAGE = ROOT / "docs/COVERAGE.md"
BRANCH, JOIN, CALL = "branch", "join", "call"
# By 2 * left + right: each side decides by itself, and the way that both make.
WAYS = {"&": {3: "both", 2: "left alone", 1: "right alone"}, "|": {0: "neither", 2: "left alone", 1: "right alone"}}


class Branch(collections.namedtuple("Branch", "kind function test name line")):
    """A branch, a way of a join, or the call of a function."""

    @property
    def key(self):
        return self.function, self.test, self.name


def told(text):
    print("coverage:", text, file=sys.stderr, flush=True)


def unfit(name, function):
    raise SystemExit(f"coverage: {function.file}:{function.line}: the compiled {name} has other tests than its source")


def numbered(texts):
    """Texts that stand twice get a number."""
    seen = collections.Counter()
    for text in texts:
        seen[text] += 1
        yield text if seen[text] == 1 else f"{text} ({seen[text]})"


def range_branches(name, function, tests):
    """The branches of a match over ranges, which the compiler makes a search of: by the numbers that it compares with."""
    test = function.tests[0]
    for blocks, bound in tests:
        ways = [f"value {i}" for i in range(1, len(blocks))] + ["no value"] if bound is None else [f"below 0x{bound:04X}", f"from 0x{bound:04X}"]
        yield from ((block, Branch(BRANCH, name, test.text, way, test.line)) for block, way in zip(blocks, ways))


def branches(name, function, tests, joins):
    """(block, branch) of a function: its tests and joins in the source beside those of the compiled code."""
    yield "start", Branch(CALL, name, "fn", "called", function.line)
    if len(function.tests) == 1 and function.tests[0].ranges:
        yield from range_branches(name, function, tests)
    else:
        shapes = [(len(test.branches), "arm" if test.text.startswith(("match", "let")) else "then") for test in function.tests]
        if shapes != [(len(blocks), blocks[0].split(".")[0]) for blocks, _ in tests]:
            unfit(name, function)
        texts = numbered(test.text for test in function.tests)
        for test, text, (blocks, _) in zip(function.tests, texts, tests):
            yield from ((block, Branch(BRANCH, name, text, way, test.line)) for block, way in zip(blocks, test.branches))
    if [join.sign for join in function.joins] != [sign for sign, _ in joins]:
        unfit(name, function)
    texts = numbered(join.text for join in function.joins)
    for k, (join, text, (_, kind)) in enumerate(zip(function.joins, texts, joins)):
        if kind == "i1":
            yield from ((f"join.{k}.{way}", Branch(JOIN, name, text, said, join.line)) for way, said in WAYS[join.sign].items())


def gate_test(name):
    """A test of the gate, for what it runs."""
    spec = importlib.util.spec_from_file_location(f"gate_{name}", ROOT / "tests" / f"{name}.py")
    test = importlib.util.module_from_spec(spec)
    spec.loader.exec_module(test)
    return test


def random_scripts():
    test, maker = gate_test("random_scripts"), ROOT / "tests/model/make_scripts.py"
    with concurrent.futures.ThreadPoolExecutor(os.cpu_count()) as pool:
        yield from pool.map(lambda seed: subprocess.check_output([sys.executable, maker, str(seed), str(test.EVENTS)]), range(1, test.SEEDS + 1))


def bench_runs():
    """(group, script) of every run of the bench program."""
    told("random scripts")
    yield from (("random", script) for script in random_scripts())
    told("texts")
    yield "examples", (ROOT / "crates/bench/stdin").read_bytes()
    yield "examples", joined((ROOT / "examples/host").glob("*.txt"))
    yield "edges", joined((ROOT / "tests/edges").glob("*.txt"))
    yield from (("edges", script) for script in gate_test("broken").SCRIPTS.values())


def step_runs(work):
    """Scripts of tests/steps.py, one event a call, and what the plain C program says of each."""
    test, maker, plain = gate_test("steps"), ROOT / "tests/model/make_scripts.py", work / "plain"
    subprocess.check_call(["gcc", "-std=c11", "-O2", "-o", plain, ROOT / "tests/speed/plain.c"])
    for seed in range(1, test.SEEDS + 1):
        script = subprocess.check_output([sys.executable, maker, str(seed), str(test.EVENTS)])
        yield script, subprocess.run([plain, "1", "step"], input=script, capture_output=True, check=True).stdout


def own_run(name):
    """A program's own input, arguments and output."""
    paths = [ROOT / "crates" / name / part for part in ("stdin", "args", "stdout")]
    script, arguments, printed = (path.read_bytes() if path.exists() else b"" for path in paths)
    return script, arguments.decode().splitlines(), printed


def alike(name, printed, wanted):
    if printed != wanted:
        raise SystemExit(f"coverage: with counters {name} prints something else")


def held(bench, counts, printed):
    """Holds the counters of one run to what it printed: events of each kind, looked at by the bench and by its list, a power-up once more to be made, and SOUT bits."""
    lines = [line.split() for line in printed.decode().splitlines()]
    known = {("script::read", i): (2 if i else 3) * sum(line[0] == str(i) for line in lines) for i in range(5)}
    known.update((("script::sign", i), sum(line[4] == str(1 - i) for line in lines)) for i in range(2))
    for (name, i), many in known.items():
        found = counts[name, bench.tests[name][0][0][i]]
        if found != many:
            raise SystemExit(f"coverage: branch {i} of {name} was counted {found} times, and taken {many} times")


def all_runs(work):
    """How often each (function, block) was met, by group of runs; and of each function the compiled tests and joins."""
    counting, met, shapes = Counting(work), {group: collections.Counter() for group in GROUPS}, {}
    told("bench")
    bench, model = counting.program("bench", CRATES), built_model(work)
    for group, script in bench_runs():
        counts, printed = counting.counts(bench, script)
        alike(f"bench ({group})", printed, subprocess.run([model], input=script, capture_output=True, check=True).stdout)
        if group == "random":
            held(bench, counts, printed)
        met[group].update(counts)
    for name, group in PROGRAMS.items():
        told(name)
        program, (script, arguments, wanted) = counting.program(name, CRATES), own_run(name)
        counts, printed = counting.counts(program, script, arguments)
        alike(name, printed, wanted)
        met[group].update(counts)
        for script, wanted in step_runs(work) if name == "speed" else ():
            counts, printed = counting.counts(program, script, ["1", "step"])
            alike("speed, one event a call,", printed, wanted)
            met["random"].update(counts)
        shapes.update((function, (program.tests[function], program.joins[function])) for function in program.tests)
    shapes.update((function, (bench.tests[function], bench.joins[function])) for function in bench.tests)
    return met, shapes


def judged(found, taken):
    """The reasons of never.tsv by branch, and what is wrong with them or missing."""
    reasons, wrong, never = {}, [], {branch.key: branch for branch in taken if not any(taken[branch])}
    known = {branch.key for branch in taken}
    for number, line in enumerate(NEVER.read_text().splitlines() if NEVER.exists() else [], 1):
        parts = line.split("\t")
        if not line or line.startswith("#"):
            continue
        key = (parts[0], *parts[2:4]) if len(parts) == 5 else None
        if key not in known:
            wrong.append(f"never.tsv:{number}: no such branch: {line}")
        elif found[parts[0]].mark != parts[1]:
            wrong.append(f"never.tsv:{number}: {parts[0]} has changed (mark {found[parts[0]].mark}): read the reason again")
        elif key not in never:
            wrong.append(f"never.tsv:{number}: taken now: {' | '.join(key)}")
        else:
            reasons[key] = parts[4]
    for key, branch in never.items():
        if key not in reasons:
            function = found[branch.function]
            wrong.append(f"never taken, no reason: {function.file}:{branch.line}: {branch.function}\t{function.mark}\t{branch.test}\t{branch.name}")
    return reasons, wrong


def rows(found, taken, kind):
    """By crate: how many of this kind, how many taken by each group of runs, and by any."""
    for crate in [*CRATES, "all"]:
        ways = [ways for branch, ways in taken.items() if branch.kind == kind and crate in ("all", found[branch.function].crate)]
        if ways:
            yield [crate, len(ways), *(sum(1 for way in ways if way[i]) for i in range(len(GROUPS))), sum(1 for way in ways if any(way))]


def table(head, body):
    return "\n".join("| " + " | ".join(str(part).replace("|", "\\|") for part in row) + " |" for row in [head, ["---"] * len(head), *body])


def never_table(taken, reasons, kind):
    """The reasons of this kind; branches of a function with the same reason stand together."""
    together = collections.defaultdict(list)
    for branch in taken:
        if branch.kind == kind and branch.key in reasons:
            together[branch.function, branch.test, reasons[branch.key]].append(branch.name)
    body = ([f"`{re.sub('::.*::', '::', name)}`", f"`{test}`", ", ".join(ways), why] for (name, test, why), ways in together.items())
    return table(["function", "test", "never", "why"], body)


def page(found, taken, reasons):
    calls = [any(ways) for branch, ways in taken.items() if branch.kind == CALL]
    luck = sum(1 for ways in taken.values() if ways[GROUPS.index("random")] and sum(map(bool, ways)) == 1)
    return (ROOT / "tests/coverage/page.md").read_text().format(
        called=sum(calls), functions=len(calls), luck=luck,
        branches=table(["crate", "branches", *GROUPS, "any"], rows(found, taken, BRANCH)),
        joins=table(["crate", "ways", *GROUPS, "any"], rows(found, taken, JOIN)),
        uncalled=never_table(taken, reasons, CALL), never=never_table(taken, reasons, BRANCH), alike=never_table(taken, reasons, JOIN))


def main():
    if sys.argv[1:] not in ([], ["--write"]):
        sys.exit("use: run.py [--write]")
    found = functions(CRATES)
    with tempfile.TemporaryDirectory() as folder:
        met, shapes = all_runs(pathlib.Path(folder))
    if not shapes.keys() <= found.keys():
        raise SystemExit(f"coverage: in the programs alone: {sorted(shapes.keys() - found.keys())}")
    taken = {}
    for name, function in found.items():
        if name in shapes:
            taken.update((branch, [met[group][name, block] for group in GROUPS]) for block, branch in branches(name, function, *shapes[name]))
        else:  # no program calls it, and none is compiled with it
            taken[Branch(CALL, name, "fn", "called", function.line)] = [0] * len(GROUPS)
    reasons, wrong = judged(found, taken)
    for kind in (CALL, BRANCH, JOIN):
        print(kind, "all", *GROUPS, "any", sep="\t")
        for row in rows(found, taken, kind):
            print(*row, sep="\t")
    if wrong:
        print(*wrong, sep="\n")
        sys.exit(f"coverage: {len(wrong)} things to see to")
    if sys.argv[1:]:
        PAGE.write_text(page(found, taken, reasons))


if __name__ == "__main__":
    main()
