#!/usr/bin/env python3
"""The CRC's large table stays with the bench (02 item 5): no library crate depends on `crc16_wide`, by itself or through others, none names it, and none
has its entries in its text; and of the programs only those named here depend on it.

bench_alone.py    `bench_alone: N library crates without the large table`, or what is wrong and exit status 1

Read are crates.txt, whose lines are all that the compiler is given of a crate, and the text of every crate. The test is first tried on wrong lists.
That the compiled library for C is without the table is tests/c_library.py's.
"""
import pathlib
import re
import sys

ROOT = pathlib.Path(__file__).resolve().parent.parent
WIDE = "crc16_wide"
BENCH = {"crc16_main", "speed"}
SMALL, LARGE = 16, 256  # entries
IN_A_ROW = 8  # entries by which the large table is known


def dependencies(text):
    """Of each crate, what its line names. Behind a crate's name words may say how it is built, as staticlib."""
    below = {}
    for number, line in enumerate(text.splitlines(), 1):
        line = line.partition("#")[0]
        if line.strip():
            front, colon, rest = line.partition(":")
            name = (front.split() or [""])[0]
            if not colon or not name or name in below:
                raise ValueError(f"crates.txt:{number}: {'no name, or listed twice' if colon else 'no colon behind the name'}: {front.strip()}")
            below[name] = rest.split()
    return below


def reached(below, name):
    """All that a crate depends on, through others too."""
    found, left = set(), [name]
    while left:
        new = [crate for crate in below.get(left.pop(), ()) if crate not in found]
        found.update(new)
        left += new
    return found


def numbers(text):
    return [int(digits, 16) for digits in re.findall(r"\b0x([0-9A-Fa-f]+)\b", text)]


def has_table(text, table):
    """Entries that only the large table has stand in the text, so many in a row."""
    row, found = table[SMALL:SMALL + IN_A_ROW], numbers(text)
    return any(found[at:at + IN_A_ROW] == row for at in range(len(found)))


def wrong(below, libraries, texts):
    """What is wrong with these dependencies, libraries and texts."""
    table = numbers(texts.get(WIDE, ""))
    if len(table) != LARGE:
        yield f"{WIDE}: {len(table)} entries in its text, not {LARGE}: this test would look for nothing"
    used = {crate for crates in below.values() for crate in crates}
    for name in below:
        uses = WIDE in reached(below, name)
        if name not in libraries | used:
            if uses != (name in BENCH):
                yield f"{name}: a program {'depends on' if uses else 'no longer depends on'} {WIDE}"
        elif name != WIDE:
            if uses or WIDE in texts[name]:
                yield f"{name}: a library crate {'depends on' if uses else 'names'} {WIDE}"
            if has_table(texts[name], table):
                yield f"{name}: a library crate has the large table in its text"


def tried():
    """The test tells each wrong list, and takes the right one."""
    entries = " ".join(f"0x{entry:04X}" for entry in range(LARGE))
    right = {"crc16": [], WIDE: ["crc16"], "state": ["crc16"], "bridge": ["state"], **{name: [WIDE] for name in BENCH}}
    cases = [({}, {}, False), ({"bridge": [WIDE]}, {}, True), ({"state": [WIDE]}, {}, True), ({"bridge": ["between"], "between": [WIDE]}, {}, True),
             ({"board_main": [WIDE]}, {}, True), ({"speed": []}, {}, True), ({}, {"state": WIDE}, True), ({}, {"crc16": entries}, True), ({}, {WIDE: ""}, True)]
    for other, text, told in cases:
        below = {**right, **other}
        texts = {**dict.fromkeys(below, ""), WIDE: entries, **text}
        if bool(list(wrong(below, {"crc16", WIDE, "bridge"}, texts))) != told:
            sys.exit(f"bench_alone: the test itself is wrong on {other or text}")


def text_of(folder):
    files = sorted(file for part in ("src", "specs", "proofs") for file in (folder / part).rglob("*") if file.suffix in (".rt", ".antt"))
    return "\n".join(file.read_text() for file in files)


def main():
    if len(sys.argv) > 1:
        sys.exit(f"bench_alone: it takes no argument, and was given {' '.join(sys.argv[1:])!r}")
    tried()
    try:
        below = dependencies((ROOT / "crates.txt").read_text())
        texts = {name: text_of(ROOT / "crates" / name) for name in below}
    except (OSError, ValueError) as error:
        sys.exit(f"bench_alone: {error}")
    libraries = {name for name in below if (ROOT / "crates" / name / "src/lib.rt").is_file()}
    faults = list(wrong(below, libraries, texts))
    if faults:
        print(*faults, sep="\n")
        sys.exit(f"bench_alone: the large table is not the bench's alone ({len(faults)})")
    print(f"bench_alone: {len(libraries) - 1} library crates without the large table")


main()
