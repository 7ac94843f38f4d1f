#!/usr/bin/env python3
"""Holds tools/wave to the bits and words of the bench, with eyes that are not ours: sigrok-cli and GTKWave's own reader (docs/BENCH.md).

wave.py [PROGRAM]          `wave: ..` and what was looked at, or what is not as it should be and exit status 1
wave.py --write [PROGRAM]  makes the pictures of docs/pictures anew

Nothing is built at this point of the gate, so `states` is compiled from its source without its proof (tests/mutation/outside.py); PROGRAM names a built
one. What a picture must have comes from examples/expected and from the independent program (model/), which prints what the bench does. sigrok-cli and
gtkwave are Debian packages: where they are missing and this is root they are installed. Where they cannot be had, one line says so, and the rest is
held all the same.
"""
import os
import pathlib
import re
import shutil
import subprocess
import sys
import tempfile

TESTS = pathlib.Path(__file__).resolve().parent
TOP = TESTS.parent
sys.dont_write_bytecode = True
sys.path[:0] = [str(TESTS / "mutation"), str(TESTS / "model"), str(TESTS / "waves")]
import outside  # noqa: E402
from debian import had  # noqa: E402
from drawings import Drawing, marked, of_marks, of_page  # noqa: E402
from dumps import Dump, by_gtkwave, by_sigrok, sampled  # noqa: E402
from pair import built_model, joined  # noqa: E402
from rules import due_marks, heard, read  # noqa: E402

TOOL = TOP / "tools/wave"
EXAMPLES = sorted((TOP / "examples").glob("*.txt"))
PICTURES = {"two-call-ups": ["--from", "8"], "word-between-bits": ["--from", "11"]}  # of the example of that name, the stretch
SEEDS, EVENTS = 4, 1500  # random scripts
POWER, WORD, RELEASE, TICK, CLOCK = range(5)
FENCE = 43690  # a reading that no example has
RESET = 0xE000  # the soft reset's command word
CLEARED = "power good\nframe REG_WR address=7 8000\nrelease\n"
MASKED = "frame REG_WR address=6 %04X\nrelease\n%s\nframe REG_RD address=7 count=2\nanswer 3\nrelease\n"  # DIAGMASK, then a flag, then STATUS and IFST
MASKS = (0x0000, 0x0001, 0x0100, 0x0200, 0x0800, 0x0A01, 0x0B00, 0x0B01)
RAISED = ("badframe FWD_WR_CRC AAF0\nrelease", "bits 0 1010101011110000 0 111111111111111111", "frame FWD_WR_CRC AAF0\nrelease\ntick 1\nclock 5",
          "frame FWD_WR_CRC AAF0\nrelease\nbits 0 1010101000000101 0 111111111111111111")  # SPI_CRC, CHECK_BIT, SIN and line CRC
CUTS = (8, 9, 12)  # notes that may cut a command short on the line
MOST_WIRES = 56  # that PulseView 0.4.2 draws right, as was looked at
SLOT, RISES = 10, 5  # units of a slot, and where its strobe rises
FLAGS = {7: {"ERR": 0, "POR": 1, "OTP": 3, "SPI_CRC": 6, "REG_WRITE": 7, "SRST": 9, "DRDY": 10},  # by register and bit (01 Registers)
         8: {"SIN_FLAG": 0, "LINE_CRC": 1, "CHECK_BIT": 3, "QUEUE_OVF": 4, "SPI_CS": 9},
         9: {"TXFFUVF": 14, "TXFFOVF": 15}, 10: {"RXFFUVF": 14, "RXFFOVF": 15}}


def called(work, words, given=b"", programs=None, **how):
    home = {**os.environ, "BENCH_BIN": str(programs or work)}
    return subprocess.run([TOOL, *words], input=given, stderr=subprocess.PIPE, cwd=work, env=home, **{"stdout": subprocess.PIPE, **how})


def events(printed):
    """The bench's lines: kind, value, note, SDO, SOUT."""
    return [(int(kind), int(value, 16), int(note), int(sdo, 16), int(sout)) for kind, value, note, sdo, sout in map(str.split, printed.splitlines())]


# ---- VCDs ----

def expected(lines, alone=True):
    """What a picture of these events must have, as `sampled` gives it.

    Words of SOUT are None where a command is cut short; of SIN where the script is not `alone`, since it may have resets of the reader.
    """
    bits = [(sout, value) for kind, value, _, _, sout in lines if kind == TICK]
    words = [(value, sdo) for kind, value, _, sdo, _ in lines if kind == WORD]
    cut = any(note in CUTS for _, _, note, _, _ in lines) or not alone
    sent = None if cut else [(tick, word) for word, tick in read([sout for sout, _ in bits]) if word is not None]
    return bits, words, sent, list(heard([sin for _, sin in bits])) if alone else None


def other(found, wanted, what):
    """Where bits or words are not the wanted ones."""
    for of, have, want in zip(("bits of SOUT and SIN", "host words with SDO", "words of SOUT", "words of SIN"), found, wanted):
        if want is not None and have != want:
            at = next((i for i, (one, two) in enumerate(zip(have, want)) if one != two), min(len(have), len(want)))
            yield "%s: %s: %d, expected %d; number %d is %s, expected %s" % (what, of, len(have), len(want), at + 1, have[at:at + 1], want[at:at + 1])


def scripts(work, model):
    """Name, file and the bench's lines of what is looked at: the examples, and random scripts."""
    for text in EXAMPLES:
        yield text.stem, text, events((TOP / "examples/expected" / (text.stem + ".out")).read_text())
    for seed in range(1, SEEDS + 1):
        script = work / ("random%d.cwb" % seed)
        script.write_bytes(subprocess.check_output([sys.executable, TESTS / "model/make_scripts.py", str(seed), str(EVENTS)]))
        yield script.stem, script, events(subprocess.check_output([model, script], text=True))


def beside(dump, lines, text):
    """The signals that are not bits or words: chip select, note, the place in the script, and that every slot has its length."""
    cs_n, place = 1, dump.at(range(RISES, SLOT * len(lines), SLOT))
    numbers = lines_of(text)
    for number, ((kind, _, note, _, _), at) in enumerate(zip(lines, place), 1):
        cs_n = 0 if kind == WORD else 1 if kind in (POWER, RELEASE) else cs_n
        wanted = [str(cs_n), note, number, numbers[number - 1] if numbers else 0]
        found = [at.get(name) for name in ("bridge.host.cs_n", "bridge.host.note", "bridge.script.event", "bridge.script.line")]
        if found != wanted:
            yield "event %d: chip select, note, event, line are %s, expected %s" % (number, found, wanted)
            return
    if dump.end != SLOT * len(lines):
        yield "it ends at %d, expected %d" % (dump.end, SLOT * len(lines))
    if set(dump.kinds) != {("wire", "1"), ("tri", "1"), ("real", "64")} or dump.kinds["wire", "1"] > MOST_WIRES:
        yield "it has signals of other kinds than single wires and reals, or too many for PulseView: %s" % sorted(dump.kinds.items())


def lines_of(text):
    """The line of each event of a text: a clock reading behind each line tells its events from those of the next. Of bytes none."""
    if text.suffix != ".txt":
        return []
    fenced = re.sub("$", "\nclock %d" % FENCE, text.read_text().rstrip("\n"), flags=re.M)
    made = subprocess.run([sys.executable, TOP / "tools/script.py", "-"], input=fenced.encode(), capture_output=True, check=True).stdout
    numbers, line = [], 1
    for at in range(5, len(made), 3):
        if made[at] == CLOCK and int.from_bytes(made[at + 1:at + 3], "big") == FENCE:
            line += 1
        else:
            numbers.append(line)
    return numbers


def of_vcd(name, vcd, lines, text, others):
    """What a VCD has otherwise than the bench, by whoever reads it."""
    dump, wanted = Dump(vcd.read_text()), expected(lines, text.suffix == ".txt")
    bad = [*other(sampled(dump), wanted, name), *("%s: %s" % (name, what) for what in beside(dump, lines, text))]
    yield from bad
    if bad or not others:
        return
    found, said = by_sigrok(vcd)
    bits, words, *done = wanted
    seen = bits, [word for word, _ in words], *(ticked and [tick for tick, _ in ticked] for ticked in done)
    yield from other(found, seen, name + " by sigrok-cli")
    again, told = by_gtkwave(vcd)
    yield from ("%s: %s says %s" % (name, who, what) for who, what in (("sigrok-cli", said), ("GTKWave's reader", told)) if what)
    if again.changes != dump.changes or again.end != dump.end:
        yield "%s: GTKWave's reader finds other changes: %s" % (name, [one for one in dump.changes if again.changes.get(one) != dump.changes[one]][:5])


def vcds(work, model, others):
    for name, text, lines in scripts(work, model):
        vcd = work / (name + ".vcd")
        done = called(work, ["-o", vcd, text])
        if done.returncode or done.stdout or done.stderr:
            yield "%s: status %d, %r" % (name, done.returncode, done.stderr.decode())
            continue
        yield from of_vcd(name, vcd, lines, text, others)


def states(work, model):
    """The flags against STATUS, IFST and the stores' registers, where a text of the guide reads them. Each must be seen up and down."""
    script, seen, masked = work / "guide.cwb", set(), work / "masks.txt"
    masked.write_text("".join(CLEARED + MASKED % (mask, raised) for raised in RAISED for mask in MASKS))
    script.write_bytes(joined([*(TOP / "examples/host").glob("*.txt"), masked]))
    lines = events(subprocess.check_output([model, script], text=True))
    asked = dict(registers_read(lines))
    dump = Dump(called(work, [script]).stdout.decode())
    for number, at in zip(asked, dump.at(SLOT * (number - 1) + RISES for number in asked)):
        register, value = asked[number], lines[number - 1][3]
        wanted = {flag: value >> bit & 1 for flag, bit in FLAGS.get(register, {}).items()}
        wanted.update({"state[1]": value >> 5 & 1, "state[0]": value >> 4 & 1} if register == 7 else {})
        found = {flag: int(at["bridge.status." + flag]) for flag in wanted}
        seen.update(found.items())
        if found != wanted:
            yield "guide, event %d: register %d is %04X, and the flags are %s" % (number, register, value, found)
    names = [flag for flags in FLAGS.values() for flag in flags if flag != "OTP"] + ["state[1]"]  # no text of the guide has bad OTP
    yield from ("no text of the guide shows %s as %d" % (flag, level) for flag in names for level in (0, 1) if (flag, level) not in seen)


def registers_read(lines):
    """The events that answer a register, with its address: of reads, and of soft resets, whose first answer is STATUS.

    Frames of our layout alone, and those that begin behind a release or a power-up.
    """
    due, fresh, command = [], True, None
    for number, (kind, value, note, _, _) in enumerate(lines, 1):
        if kind in (POWER, RELEASE):
            due, fresh, command = [], not (kind == POWER and value > 1), None
        elif kind == WORD and command is not None:
            address, count = (7, 1) if command == RESET else (command & 15, (command >> 8 & 15) + 1)
            due, command = list(range(address, address + count)) if note in (0, 11) else [], None
        elif kind == WORD and due:
            yield number, due.pop(0)
        elif kind == WORD and fresh:
            command, fresh = (value if (value >> 12 in (12, 13) or value == RESET) and note == 0 else None), False


# ---- drawings ----

def of_drawing(name, text, lines):
    """What a drawing of a whole script has otherwise than its bits."""
    drawing, bits = Drawing(text), [sout for kind, _, _, _, sout in lines if kind == TICK]
    found, wanted = marked(drawing, "SOUT"), list(due_marks(bits))
    cut = any(note in CUTS for _, _, note, _, _ in lines)
    owed = [part for before, part in zip([["idle"], *found], found) if cut and part[0] == "END" and before[0] not in ("check bit", "start bit")]
    rest = [part for part in found if part[0] not in ("idle", "extra END") and part not in owed]
    if rest != wanted:
        at = next((i for i, (one, two) in enumerate(zip(rest, wanted)) if one != two), min(len(rest), len(wanted)))
        yield "%s: mark %d of SOUT is %s, expected %s" % (name, at + 1, rest[at:at + 1], wanted[at:at + 1])
    if "".join(bits_under for _, _, _, bits_under in found) != "".join(map(str, bits)):
        yield "%s: the bits drawn under the marks of SOUT are not the bench's" % name
    said = [text for *_, text in drawing.texts]
    for what, have, want in (
            ("host words", [one for _, _, size, _, one in drawing.texts if size == 12 and re.fullmatch("[0-9A-F]{4}", one)],
             ["%04X" % value for kind, value, _, _, _ in lines if kind == WORD]),
            ("answers", [one[4:] for one in said if re.fullmatch("SDO [0-9A-F]{4}", one) and one != "SDO FFFF"],
             ["%04X" % sdo for kind, _, _, sdo, _ in lines if kind == WORD and sdo != 0xFFFF]),
            ("notes", [title for *_, title in drawing.marks if re.fullmatch("note [0-9]+", title)], ["note %d" % note for _, _, note, _, _ in lines if note])):
        if have != want:
            yield "%s: the %s drawn are %s, expected %s" % (name, what, have[:20], want[:20])
    yield from ("%s: %s" % (name, what) for what in of_marks(drawing))
    yield from of_page(name, text, drawing)


MARKS = [  # a text, a wire, what is marked on it
    ("power good\nbits 0 1010101011110000 0 111111111111111111\n", "SIN",
     [["start bit", 1, 1], ["word AAF0", 2, 17], ["wrong check bit", 18, 18], ["dropped", 19, 36]]),
    ("power good\nbits 0 1111111111111111 1 0 111111111111111111\n", "SIN",  # seventeen 1s, and no eighteenth
     [["start bit", 1, 1], ["word FFFF", 2, 17], ["wrong check bit", 18, 18], ["dropped", 19, 37]]),
    ("power good\nbits 0 1111111111111111 11 1\n", "SIN", [["start bit", 1, 1], ["END", 2, 19], ["idle", 20, 20]]),
    ("power good\nbits 0 1010101011110000 1 11111111111111111 1\n", "SIN",  # the check bit's 1 is the first of the eighteen
     [["start bit", 1, 1], ["word AAF0", 2, 17], ["check bit", 18, 18], ["END", 19, 35], ["idle", 36, 36]]),
    ("power good\nbits 0 101\npower good\ntick 1\n", "SIN", [["start bit", 1, 1], ["word, cut", 2, 4], ["idle", 5, 5]]),
    (CLEARED + "frame FWD_WR_CRC AAF0\nticks 5\npower good\nticks 2\n", "SOUT", [["start bit", 1, 1], ["word AAF0, cut", 2, 5], ["idle", 6, 7]]),
    (CLEARED + "frame FWD_WR_END_CRC ends=1 AAF0\nrelease\nframe FWD_WR_END_CRC ends=1\nticks 73\n", "SOUT",
     [["start bit", 1, 1], ["word AAF0", 2, 17], ["check bit", 18, 18], ["END", 19, 36], ["extra END", 37, 54], ["extra END", 55, 72], ["idle", 73, 73]]),
]


def marks(work):
    """Parts that the examples do not have."""
    for text, wire, wanted in MARKS:
        made = called(work, ["--svg"], text.encode()).stdout.decode()
        if [part[:3] for part in marked(Drawing(made), wire)] != wanted:
            yield "%r: the marks of %s are %s" % (text, wire, marked(Drawing(made), wire))


def drawings(work):
    """Drawings of the examples against their bits, and that each is the same twice."""
    for text in EXAMPLES:
        lines = events((TOP / "examples/expected" / (text.stem + ".out")).read_text())
        made = [called(work, ["--svg", text]).stdout.decode() for _ in range(2)]
        if made[0] != made[1]:
            yield "%s: two drawings of it differ" % text.name
        yield from of_drawing(text.name, made[0], lines)


def picture(work, name):
    return called(work, ["--svg", *PICTURES[name], TOP / "examples" / (name + ".txt")]).stdout


def kept(work):
    """The pictures of docs/pictures are those that the tool draws now, and pages show them."""
    folder = TOP / "docs/pictures"
    pages = "".join(page.read_text() for page in (TOP / "README.md", *(TOP / "docs").glob("*.md")))
    for name in PICTURES:
        place = folder / (name + ".svg")
        if not place.exists() or place.read_bytes() != picture(work, name):
            yield "docs/pictures/%s.svg is not what tools/wave draws: tests/wave.py --write" % name
        if "pictures/%s.svg)" % name not in pages:
            yield "no page shows docs/pictures/%s.svg" % name
    yield from ("docs/pictures/%s is no picture of this test" % one.name for one in folder.iterdir() if one.stem not in PICTURES)


def write(work):
    (TOP / "docs/pictures").mkdir(exist_ok=True)
    for name in PICTURES:
        (TOP / "docs/pictures" / (name + ".svg")).write_bytes(picture(work, name))


# ---- calls ----

SEE = "; see tools/wave --help$"
CALLS = [  # arguments, standard input, status, a pattern of standard error; nothing is on standard output
    (["none.txt"], b"", 1, r"^none\.txt: No such file or directory$"),
    (["folder"], b"", 1, "^folder: Is a directory$"),
    (["bad.txt"], b"", 1, r"^bad\.txt:3: expected an event \(power, .*\), found `hello`$"),
    (["--svg", "bad.txt"], b"", 1, r"^bad\.txt:3: expected"),
    ([], b"power good\nword 20\n", 1, "^standard input:2: expected four hex digits, found `20`$"),
    ([], "power good\n".encode("utf-16"), 1, "UTF-16: save it as UTF-8$"),
    ([], b"", 1, "^standard input: it is empty; expected a text of events or a script's bytes$"),
    ([], b"# nothing\n", 1, "^standard input: no events$"),
    (["--svg"], b"CWB\x00\x01", 1, "^standard input: no events$"),
    ([], b"CWB\x00\x02", 1, r"^standard input: behind the mark CWB stands 00 02, expected version 1 \(00 01\)$"),
    (["--from", "1"], b"CWB\x00\x01\x00\x00\x01", 1, "^standard input: a script's bytes have no lines: choose ticks, as tick=1$"),
    (["--from", "9", "small.txt"], b"", 1, r"^small\.txt: no event from line 9 on; the script has 6 events, lines 1 to 4, and 3 ticks$"),
    (["--svg", "--from", "2", "--to", "2", "small.txt"], b"", 1, r"^small\.txt: no event from line 2 to line 2; the script has 6 events"),
    (["--to", "tick=0", "small.txt"], b"", 2, "^tools/wave: --to needs a line of the text, as 9, or a tick, as tick=40, both from 1 on; not tick=0" + SEE),
    (["--from", "tick=4", "small.txt"], b"", 1, r"^small\.txt: no event from tick 4 on; the script has"),
    (["--from", "x", "small.txt"], b"", 2, "not x" + SEE),
    (["small.txt", "--from"], b"", 2, "not an empty word" + SEE),
    (["--from", "4", "--to", "3", "small.txt"], b"", 2, "^tools/wave: --from line 4 is behind --to line 3" + SEE),
    (["--svg"], b"ticks 5001\n", 1, "^standard input: more than 5000 events to draw: choose a stretch, with --from and --to$"),
    (["-o", "none/run.vcd", "small.txt"], b"", 1, r"^none/run\.vcd: the picture cannot be written: No such file or directory$"),
    (["-o", "small.txt", "folder/../small.txt"], b"", 2, r"^tools/wave: -o names the script itself, small\.txt" + SEE),
    (["small.txt", "-o"], b"", 2, "^tools/wave: -o needs a FILE to write the picture to" + SEE),
    (["small.txt", "small.txt"], b"", 2, "^tools/wave: one FILE, not 2" + SEE),
    (["--hlep"], b"", 2, r"^tools/wave: no option --hlep \(a file of that name: -- --hlep\)" + SEE),
    (["--", "--hlep"], b"", 1, "^--hlep: No such file or directory$"),
]


def calls(work):
    """Command lines and files that are wrong, scripts that end early, outputs that cannot be written."""
    (work / "folder").mkdir()
    (work / "small.txt").write_bytes(b"power good\n\nticks 3\nword FFFF FFFF\n")
    (work / "bad.txt").write_bytes(b"power good\n\nhello\n")
    for words, given, status, pattern in CALLS:
        done = called(work, words, given)
        if done.returncode != status or done.stdout or not re.search(pattern, done.stderr.decode()):
            yield "%s: status %d, %r" % (" ".join(words), done.returncode, done.stderr.decode())
    done = called(work, ["--help"])
    if done.returncode or done.stderr or not done.stdout.startswith(b"Makes a picture of a run"):
        yield "--help: status %d" % done.returncode
    for option in ([], ["--svg"]):
        whole = called(work, option, b"CWB\x00\x01\x00\x00\x01\x03\x00\x01")
        done = called(work, option, b"CWB\x00\x01\x00\x00\x01\x03\x00\x01\x09\x00\x00")
        if done.returncode != 1 or done.stdout != whole.stdout or done.stderr != b"standard input: record 3 (byte 11): kind 9 is no event, kinds are 0 to 4\n":
            yield "a bad record: status %d, %r" % (done.returncode, done.stderr)
    done = called(work, ["small.txt"], programs=work / "folder")
    if done.returncode != 1 or not done.stderr.endswith(b"/folder/states: there is no program that can be run: BENCH_BIN names that folder\n"):
        yield "not built: %r" % done.stderr
    strange = os.fsdecode(b"a$end <b>&\x01\xff.txt")
    shutil.copy(work / "small.txt", work / strange)
    if not Dump(called(work, [strange]).stdout.decode()).changes or not Drawing(called(work, ["--svg", strange]).stdout.decode()).texts:
        yield "a file of a strange name"
    yield from of_stand_ins(work)
    with open("/dev/full", "wb") as full:
        done = called(work, ["small.txt"], stdout=full)
    if done.returncode != 1 or b"cannot be written: No space left" not in done.stderr:
        yield "full disk: %r" % done.stderr


def of_stand_ins(work):
    """Programs that print what is not of this script: no picture of it, or none whole, and what is wrong."""
    fake = work / "fake"
    fake.mkdir()
    for printed, told in (((TOP / "crates/states/stdout").read_text(), "small.txt: event 7 is none of this script, or not what `states` prints"),
                          ("start 0=7\n0 0001 0 FFFF 1\n", "small.txt: "), ("hello\n", "small.txt: 1 of 6 events ran"),
                          ("\xff\n", "small.txt: 1 of 6 events ran")):
        (fake / "printed").write_bytes(printed.encode("latin-1"))
        (fake / "states").write_text("#!/bin/sh\ncat >/dev/null\ncat '%s'\n" % (fake / "printed"))
        (fake / "states").chmod(0o755)
        done = called(work, ["small.txt"], programs=fake)
        if done.returncode != 1 or done.stdout or not done.stderr.decode().startswith(told) or b"Traceback" in done.stderr:
            yield "a program that prints %r: status %d, %r" % (printed[:20], done.returncode, done.stderr.decode())


def stretches(work):
    """A stretch of a VCD is that part of the whole."""
    text = TOP / "examples/word-between-bits.txt"
    whole = Dump(called(work, [text]).stdout.decode())
    part = Dump(called(work, ["--from", "14", "--to", "tick=12", text]).stdout.decode())
    times = part.rising("bridge.line.tick") + part.rising("bridge.host.host_strobe")
    if len(times) != 3 or list(whole.at(sorted(times))) != list(part.at(sorted(times))):
        yield "the stretch from line 14 to tick 12 is not that part of the whole"


# ---- whether this test has eyes ----

def spoiled(work):
    """Wrong pictures that the comparisons must tell."""
    text = TOP / "examples/word-between-bits.txt"
    lines = events((TOP / "examples/expected/word-between-bits.out").read_text())
    vcd, svg = called(work, [text]).stdout.decode(), called(work, ["--svg", text]).stdout.decode()
    code = {name: re.search(r"\$var (?:wire|tri) 1 (\S+) %s \$end" % re.escape(name), vcd)[1] for name in ("tick", "sout", "host_word [5]", "sout_word [0]")}

    def turned(name):
        return re.sub("^([01])%s$" % re.escape(code[name]), lambda found: "10"[int(found[1])] + code[name], vcd, flags=re.M)
    wrong = {"SOUT turned": turned("sout"), "a host word's bit turned": turned("host_word [5]"), "a sent word's bit turned": turned("sout_word [0]"),
             "a tick left out": vcd.replace("\n1%s\n" % code["tick"], "\n", 1)}
    for what, changed in wrong.items():
        if changed == vcd or not list(other(sampled(Dump(changed)), expected(lines), what)):
            yield "not told: " + what
    drawn = {"a word's value": svg.replace("word AAF0, ticks", "word AAF1, ticks"), "a mark a tick off": svg.replace("ticks 2 to 17", "ticks 3 to 18"),
             "a bit": re.sub('(monospace">)0<', r"\g<1>1<", svg, count=1), "a host word": svg.replace(">3000<", ">3001<"),
             "a label": svg.replace(">word 5555<", ">word 5554<")}
    for what, changed in drawn.items():
        if changed == svg or not list(of_drawing(what, changed, lines)):
            yield "not told in a drawing: " + what


# ---- the whole ----

def built(work, program):
    """Puts the program where tools/wave is to find it."""
    if not program:
        place = outside.copies(work / "copies", 1).get()
        if not outside.compiled(place, "states"):
            sys.exit("wave: the program is not compiled: " + (place / "said").read_text()[-1000:])
        program = place / "program"
    shutil.copy(program, work / "states")


def main():
    words = sys.argv[1:]
    writing = words[:1] == ["--write"]
    program = words[1:] if writing else words
    if len(program) > 1:
        sys.exit("wave.py [--write] [PROGRAM]: found `%s`" % " ".join(words))
    with tempfile.TemporaryDirectory() as folder:
        work = pathlib.Path(folder)
        built(work, *program or [None])
        if writing:
            write(work)
        model = built_model(work)
        others = had(("sigrok-cli", "vcd2fst", "fst2vcd"), ("sigrok-cli", "gtkwave"))
        bad = [*vcds(work, model, others), *states(work, model), *drawings(work), *marks(work), *kept(work), *calls(work), *stretches(work), *spoiled(work)]
    if bad:
        print(*bad[:20], sep="\n")
        sys.exit("wave: %d not as they should be" % len(bad))
    eyes = "by sigrok-cli and GTKWave's reader too" if others else "not by sigrok-cli and GTKWave: they are not here, and cannot be installed"
    print("wave: %d VCDs hold the bench's bits and words, %s; %d drawings, %d pictures kept, %d calls" % (
        len(EXAMPLES) + SEEDS, eyes, len(EXAMPLES), len(PICTURES), len(CALLS) + 11))


if __name__ == "__main__":
    main()
