"""The independent program and the bench program on the same script."""
import os
import pathlib
import subprocess
import sys
import tempfile

MODEL = pathlib.Path(__file__).resolve().parent
ROOT = MODEL.parents[1]
MOST_OUTPUT = 1 << 20  # bytes that `rt try` lets a program print
HEAD = b"CWB\x00\x01"
POWER_UP = b"\x00\x00\x01"
RECORD = len(POWER_UP)  # bytes of an event
SEEDS, EVENTS = 35, 60_000  # the gate's random scripts (make_scripts.py): seeds 1 to SEEDS, of EVENTS events each
ALIKE = "run=ended status=0 "  # how the line of a case goes on that ended by itself ..
SAME = " output=expected "  # .. and printed what was expected


def built_model(work):
    model = work / "bridge_model"
    subprocess.check_call(["gcc", "-std=c11", "-O2", "-o", model, MODEL / "bridge_model.c"])
    os.environ["BRIDGE_MODEL"] = str(model)  # for make_scripts.py
    return model


def joined(texts):
    """The texts (tools/script.py) as one script, each from a power-up."""
    script = HEAD
    for text in sorted(texts):
        made = subprocess.run([sys.executable, ROOT / "tools/script.py", text], capture_output=True)
        if made.returncode:
            raise SystemExit(made.stderr.decode(errors="replace").strip())
        script += POWER_UP + made.stdout[len(HEAD):]
    return script


def tried(program, cases):
    """Runs a program of the repository on each of the cases, (standard input, arguments, expected output): for each None where it prints what is
    expected and ends with status 0, else what was found.

    It is compiled once from its source and run without its proof, with the compiler's assumptions checked, so that nothing has to be built before.
    """
    for _, _, expected in cases:
        if len(expected) > MOST_OUTPUT:
            return [f"a script prints {len(expected)} bytes, and {MOST_OUTPUT} can be compared"] * len(cases)
    with tempfile.TemporaryDirectory() as folder:
        for number, (given, arguments, expected) in enumerate(cases):
            name = pathlib.Path(folder) / f"case{number}"
            name.write_bytes(given)
            name.with_suffix(".stdout").write_bytes(expected)
            if arguments:
                name.with_suffix(".args").write_text("".join(f"{word}\n" for word in arguments))
        ran = subprocess.run(["rt", "try", "--cases", folder], cwd=ROOT / "crates" / program, stdin=subprocess.DEVNULL, capture_output=True)
    lines, said = {}, []
    for line in ran.stderr.decode(errors="replace").splitlines():
        said.append(line)
        if line.startswith("case="):
            lines[line.split()[0]] = line, "\n".join(said[-20:])
            said = []
    found = []
    for number in range(len(cases)):
        line, words = lines.get(f"case=case{number}", ("", ran.stdout.decode(errors="replace")[-1000:] + "\n".join(said)[-1000:]))
        found.append(None if f" {ALIKE}" in line and SAME in line else words)
    return found


def differences(model, scripts):
    """For each script None where both programs print the same, else what was found."""
    printed = [subprocess.run([model], input=script, capture_output=True, check=True).stdout for script in scripts]
    return tried("bench", [(script, (), expected) for script, expected in zip(scripts, printed)])


def difference(model, script):
    """The same of one script."""
    return differences(model, [script])[0]
