#!/usr/bin/env python3
"""Holds tools/panel to its page, its statuses and its words (docs/BOARD.md), and opens the page in a browser.

panel.py [PROGRAM]          `panel: ..` and what was looked at, or what is not as it should be and exit status 1
panel.py --write [PROGRAM]  makes docs/panel.png anew: the heavy shift as it stood at tick 2150

Nothing is built at this point of the gate, so `board_main` is compiled from its source without its proof (tests/mutation/outside.py); PROGRAM names a
built one. What the page has is compared with what the program prints, read here once more and in another way. The browser is Debian's Chromium: where
it is missing and this is root it is installed. Where it cannot be had, one line says so, and the rest is held all the same.
"""
import html.parser
import os
import pathlib
import re
import shutil
import signal
import struct
import subprocess
import sys
import tempfile
import zlib

TESTS = pathlib.Path(__file__).resolve().parent
TOP = TESTS.parent
sys.dont_write_bytecode = True
sys.path[:0] = [str(TESTS / "mutation"), str(TESTS / "model")]
import outside  # noqa: E402
from debian import had  # noqa: E402

TOOL = TOP / "tools/panel"
HEAVY = TOP / "examples/nights/heavy-shift.txt"
PICTURE = TOP / "docs/panel.png"
PICTURE_AT, SIZE, MOST_PICTURE = 2150, (1200, 900), 200_000
SLOTS = 40
LONGEST = 25  # seconds of one look by the browser; it takes one or two
# a trap for this test's own eyes: a page that asks the net for a picture and fails
TRAP = '<!doctype html><title>trap</title><img src="http://elsewhere.invalid/x.png"><script>notThere();</script>'
EMPTY_TAGS = {"meta", "link", "input", "rect"}  # of those in the page: without an end

# every refusal; bad lines with what a page must not take for its own; a slot called up twice; a shift that runs out; a command that the end cuts
TROUBLE = b"""call 5 21600 AA05 1234  # POR is set
clear
call 5 21600 AA05 1234 5678 9ABC DEF0
call 40 21600 AA05 1234
call 6 21600
call x 21600 AA07
call 7 21600 <script>alert(1)</script>
call 8 21610 AA08
call 9 21610 AA09 0001
call 10 21610 AA0A""" + b" 00ff" * 29 + b"""
call 11 21611 AA0B
tick 150
call 5 21620 AA05 0002
tick 40
shift 200
call 12 21700 AA0C 0001
call 13 21700 AA0D 0001
call 14 21700 AA0E 0001
end
<b>"hello" & \x1b[1m</b>
force
call 16 21700 AA0F 0001
exit
tick 137
"""
BAD_LINES = [6, 7, 20]
SMALL = b"clear\ncall 0 21600 AA05 1234\ncall 40 1 AA00\nhello\ntick 120\n"


# ---- the page, read ----

class Page(html.parser.HTMLParser):
    """Slots, rows of the table and texts of a page, and what should not be in it."""

    def __init__(self, text):
        super().__init__()
        self.open, self.wrong, self.ids = [], [], []
        self.slots, self.rows, self.texts, self.tick, self.rule = [], [], {}, None, ""
        self.feed(text)
        self.close()
        self.wrong += ["<%s> is not closed" % tag for tag, _ in self.open]
        self.wrong += ["the id %s stands twice" % one for one in set(self.ids) if self.ids.count(one) > 1]

    def handle_starttag(self, tag, attributes):
        given = dict(attributes)
        if tag not in EMPTY_TAGS:
            self.open.append((tag, given))
        self.ids += [given["id"]] if "id" in given else []
        self.wrong += ["<%s %s=%s>" % (tag, name, value) for name, value in attributes
                       if name in ("src", "style", "srcset") or name.startswith("on") or name == "href" and not re.match("#|data:,$", value)]
        if tag == "li" and given.get("id", "").startswith("slot-"):
            self.slots.append([given["id"], given["data-state"], ""])
        if tag == "tr":
            self.rows.append([])
        if tag in ("td", "th"):
            self.rows[-1].append("")
        if tag == "body":
            self.tick = given.get("data-tick")
        if given.get("http-equiv") == "Content-Security-Policy":
            self.rule = given["content"]

    def handle_startendtag(self, tag, attributes):
        self.handle_starttag(tag, attributes)
        if tag not in EMPTY_TAGS:
            self.handle_endtag(tag)

    def handle_endtag(self, tag):
        if not self.open or self.open[-1][0] != tag:
            self.wrong.append("</%s> closes nothing" % tag)
        else:
            self.open.pop()

    def handle_data(self, data):
        for tag, given in self.open:
            if given.get("id", "").startswith("slot-"):
                self.slots[-1][2] += data
            if tag in ("td", "th"):
                self.rows[-1][-1] += data
            for name in (given.get("id"), given.get("class"), tag):
                self.texts[name] = self.texts.get(name, "") + data


def states(page):
    return [state for _, state, _ in page.slots]


def facts(printed):
    """Call-ups as the program printed them: number, slot, reading, tick and whether taken; the tick at which each was shown."""
    calls = [(int(number), int(slot), int(reading), int(tick), told == "taken", reason) for tick, number, slot, reading, told, reason in
             re.findall(r"^tick (\d+): call-up (\d+), slot (\d+), reading (\d+), \d+ words?: (taken|refused \(\d+\), (.*))$", printed, re.M)]
    shown = {int(number): int(tick) for tick, number in re.findall(r"^tick (\d+): call-up (\d+), slot \d+: shown$", printed, re.M)}
    return calls, shown


def of_page(text, night, printed):
    """What a page has otherwise than the program printed it."""
    page = Page(text)
    calls, shown = facts(printed)
    words = [line.split(b"#")[0].decode("latin-1").upper().split()[3:] for at, line in enumerate(night.split(b"\n"), 1)
             if line.startswith(b"call") and not re.search("^bad line %d:" % at, printed, re.M)]
    yield from page.wrong
    if not text.startswith('<!doctype html>\n<html lang="en">') or not page.texts.get("title"):
        yield "no doctype, lang or title"
    if not page.rule.startswith("default-src 'none';") or "unsafe" in page.rule:
        yield "its rule of what may run is %r" % page.rule
    if [one for one, _, _ in page.slots] != ["slot-%d" % slot for slot in range(SLOTS)]:
        yield "it has not the slots 0 to 39 in order"
    last = {slot: (number, reading) for number, slot, reading, _, taken, _ in calls if taken}
    for slot, (_, state, said) in enumerate(page.slots):
        number, reading = last.get(slot, (None, ""))
        expected = ["shown"] if number in shown else ["taken", "line"] if number else ["empty"]
        if state not in expected or said.split()[:1 + bool(number)] != ["%d" % slot, *([str(reading)] if number else [])]:
            yield "slot %d is %s and says %r, expected %s" % (slot, state, said, " or ".join(expected))
    if len(page.rows) != 1 + len(calls):
        yield "it has %d rows, expected %d" % (len(page.rows) - 1, len(calls))
    for row, (number, slot, reading, tick, taken, reason), said in zip(page.rows[1:], calls, words):
        head = [str(number), str(slot), str(reading), " ".join(said) or "none"]
        rest = [str(tick), str(shown.get(number, "not yet"))]
        if row[:4] != head or (row[5:7] != rest if taken else "at tick %d: " % tick not in row[5] or not row[5].endswith(reason)):
            yield "row %d is %r, expected %r" % (number, row, head + rest + [reason])
    sums = [len(calls), sum(call[4] for call in calls), sum(not call[4] for call in calls), len(shown)]
    if re.findall("[0-9]+", page.texts["sums"])[:4] != [str(one) for one in sums]:
        yield "its sums are %r, expected %r" % (page.texts["sums"], sums)


# ---- the tool ----

def called(work, words, given=b"", programs=None, **how):
    home = {**os.environ, "BENCH_BIN": str(programs or work)}
    return subprocess.run([TOOL, *words], input=given, stderr=subprocess.PIPE, cwd=work, env=home, **{"stdout": subprocess.PIPE, **how})


def of_heavy(text):
    rows = Page(text).rows[1:]
    if [row[4] for row in rows] != ["0"] + [row[5] for row in rows[:-1]]:
        yield "in a shift a call-up is called up when the one before it was taken"


def of_trouble(text):
    if "&lt;b&gt;&quot;hello&quot; &amp; \\x1b[1m&lt;/b&gt;" not in text or "<script>alert" in text:
        yield "its bad lines are not in the page as they should be"


NIGHTS = {  # text, its bad lines, what is asked of its page beside
    "heavy.txt": (HEAVY.read_bytes(), [], of_heavy),
    "trouble.txt": (TROUBLE, BAD_LINES, of_trouble),
    "crlf.txt": (TROUBLE.replace(b"\n", b"\r\n"), BAD_LINES, of_trouble),
    "empty.txt": (b"# nothing\n", [], lambda text: []),
    "small.txt": (SMALL, [4], lambda text: []),
}


def pages(work):
    """Pages of nights against what the program prints of them."""
    for name, (night, bad, more) in NIGHTS.items():
        (work / name).write_bytes(night)
        printed = subprocess.run([work / "board_main"], input=night, capture_output=True).stdout.decode()
        done = called(work, [name])
        said = re.findall(r"^%s:(\d+): expected .*$" % re.escape(name), done.stderr.decode(), re.M)
        if done.returncode != bool(bad) or [int(one) for one in said] != bad or not done.stdout:
            yield "%s: status %d, %r" % (name, done.returncode, done.stderr.decode())
            continue
        text = done.stdout.decode()
        yield from ("%s: %s" % (name, what) for what in (*of_page(text, night, printed), *more(text)))
        called(work, ["-o", name + ".html", name])
        if (work / (name + ".html")).read_bytes() != done.stdout or called(work, ["-"], b"\xef\xbb\xbf" + night).returncode != done.returncode:
            yield "%s: not the same with -o, or refused with a byte-order mark" % name


CALLS = [  # arguments, standard input, status, a pattern of standard error
    (["none.txt"], b"", 1, r"^none\.txt: No such file or directory$"),
    (["folder"], b"", 1, "^folder: Is a directory$"),
    (["-"], "clear\n".encode("utf-16"), 1, "^standard input: the text is UTF-16: save it as UTF-8$"),
    ([], b"\n" * (1 << 20) + b"\n", 1, r"^standard input: expected at most 1 MiB \(1048576 bytes\) of text, found more$"),
    (["-o", "none/night.html", "small.txt"], b"", 1, r"^none/night\.html: the page cannot be written: No such file or directory$"),
    (["-o", "small.txt", "folder/../small.txt"], b"", 2, r"^tools/panel: -o names the night's own text, small\.txt; see tools/panel --help$"),
    (["small.txt", "-o"], b"", 2, "^tools/panel: -o needs a FILE to write the page to; see"),
    (["small.txt", "small.txt"], b"", 2, "^tools/panel: one FILE, not 2; see"),
    (["--hlep"], b"", 2, r"^tools/panel: no option --hlep \(a file of that name: -- --hlep\); see"),
    (["--", "--hlep"], b"", 1, "^--hlep: No such file or directory$"),
]


def calls(work):
    """Command lines and files that are wrong, outputs that cannot be written."""
    (work / "folder").mkdir()
    for words, given, status, pattern in CALLS:
        done = called(work, words, given)
        if done.returncode != status or done.stdout or not re.search(pattern, done.stderr.decode()):
            yield "%s: status %d, %r" % (" ".join(words), done.returncode, done.stderr.decode())
    done = called(work, ["--help"])
    if done.returncode or done.stderr or not done.stdout.startswith(b"Makes of a night one page"):
        yield "--help: status %d" % done.returncode
    done = called(work, ["small.txt"], programs=work / "folder")
    if done.returncode != 1 or not done.stderr.endswith(b"/folder/board_main: there is no program that can be run: BENCH_BIN names that folder\n"):
        yield "not built: %r" % done.stderr
    with open("/dev/full", "wb") as full:
        done = called(work, ["small.txt"], stdout=full)
    if done.returncode != 1 or b"cannot be written: No space left" not in done.stderr:
        yield "full disk: %r" % done.stderr
    reader, writer = os.pipe()
    os.close(reader)
    done = called(work, ["small.txt"], stdout=writer)
    os.close(writer)
    if done.returncode != 141 or done.stderr:
        yield "a reader that has gone: status %d, %r" % (done.returncode, done.stderr)


def bit_turned(at):
    """Turns this bit of the line."""
    def turned(text):
        place = text.index("\nline ") + len("\nline ") + at
        return text[:place] + str(1 - int(text[place])) + text[place + 1:]
    return turned


def put_for(pattern, new):
    def replaced(text):
        return re.sub(pattern, new, text, count=1, flags=re.M)
    return replaced


NOT_UNDERSTOOD = "what the program printed is not understood, line "
OTHERWISE = [  # how the program's output of SMALL is changed, and what is said of it
    (lambda text: "", NOT_UNDERSTOOD + "1 of it: expected a whole line, found its end"),
    (lambda text: text[:-1], "expected a whole line, found `2 call-ups: 1 taken"),
    (lambda text: text[:text.index("+")], "expected a whole line, found its end"),
    (lambda text: text + "more\n", "expected nothing more, found `more`"),
    (lambda text: text + "more", "expected nothing more, found `more`"),
    (put_for("taken$", "token"), NOT_UNDERSTOOD + "1 of it: expected a call-up, `shown`, a bad line or the line's bits, found `tick 0: call-up 1"),
    (put_for("call-up 2,", "call-up 3,"), "line 2 of it: expected call-up 2, found"),
    (put_for("^tick 0: call-up 2", "tick 1: call-up 2"), "expected tick 0, the bits of the line so far, found"),
    (put_for(r"^tick [0-9]+: (.*shown)$", r"tick 7: \1"), "the bits of the line so far, found `tick 7: call-up 1, slot 0: shown`"),
    (put_for("slot 0: shown", "slot 1: shown"), "expected call-up 1, slot 0, the oldest that waits, found"),
    (put_for("(^tick .*shown$)", r"\1\n\1"), "expected no `shown`, since all that was taken is, found"),
    (put_for("^line 0", "line x"), "found `line x"),
    (put_for("slot 0, reading", "slot 40, reading"), "expected a slot from 0 to 39 and one word at least, found"),
    (put_for("slot 0, reading 21600", "slot 0, reading 21601"), "line 2 of the text is not call-up 1 as the program printed it"),
    (put_for("^tick 0: call-up 2.*\n", ""), "the text has 2 call-ups, and the program printed 1"),
    (put_for("^bad line 4", "bad line 99"), "the program tells of a bad line 99, and the text has 6 lines"),
    (put_for("^bad line 4.*\n", ""), "line 4 of the text is none of docs/BOARD.md, and the program does not call it a bad line"),
    (put_for("AA05 [+]1", "AA05 +2"), "expected `|   AA05 +1 |"),
    (put_for("1 taken", "2 taken"), "expected `2 call-ups: 1 taken, 1 refused, 1 shown; 1 bad line; 120 ticks`, found `2 call-ups: 2 taken"),
    (bit_turned(0), "the line from tick 2 on is not the words of call-up 1, taken at tick 0"),
    (bit_turned(30), "the line from tick 0 on is not the words of call-up 1, taken at tick 0"),
    (bit_turned(60), "the line from tick 53 on is not the VSYNC behind call-up 1, taken at tick 0"),
    (put_for("^(line 1+)1$", r"\g<1>0"), "the line shows a command at tick 119 that was not called up"),
    (lambda text: put_for("^tick .*shown\n", "")(text).replace("1 shown", "0 shown"),
     "call-up 1 is not told as shown, and the line has the whole of its VSYNC at tick 89"),
    (lambda text: re.sub(r"^(line [01]{40})([01]*)\ntick \d+(.*shown)$", r"\1\ntick 40\3\nline \2", text, flags=re.M),
     "call-up 1 is told as shown at tick 40, and the line has no END of its VSYNC there"),
]


def otherwise(work):
    """Outputs that are not what docs/BOARD.md says, or not of this night: no page, and what is wrong."""
    fake = work / "fake"
    fake.mkdir()
    program = fake / "board_main"
    program.write_text("#!/bin/sh\ncat >/dev/null\ncat '%s'\n" % (fake / "printed"))
    program.chmod(0o755)
    printed = subprocess.run([work / "board_main", "--line"], input=SMALL, capture_output=True).stdout.decode()
    (fake / "printed").write_text(printed)
    if called(work, ["small.txt"], programs=fake).stdout != (work / "small.txt.html").read_bytes():
        yield "the stand-in does not stand in"
    for change, told in OTHERWISE:
        (fake / "printed").write_text(change(printed))
        done = called(work, ["-o", "otherwise.html", "small.txt"], programs=fake)
        said = done.stderr.decode()
        if done.returncode != 1 or told not in said or not said.startswith("small.txt: ") or (work / "otherwise.html").exists():
            yield "expected %r, found %r, status %d" % (told, said, done.returncode)
    program.write_text("#!/bin/sh\necho 'no store' >&2\nexit 3\n")
    done = called(work, ["small.txt"], programs=fake)
    if done.stderr != b"small.txt: the program did not end well, status 3: no store\n":
        yield "a program that fails: %r" % done.stderr
    program.write_bytes(b"no program")
    done = called(work, ["small.txt"], programs=fake)
    if b"cannot be started: " not in done.stderr:
        yield "a damaged program: %r" % done.stderr


# ---- the browser ----

def chromium():
    """Chromium's command, or None."""
    return shutil.which("chromium") if had(("chromium",), ("chromium", "fonts-dejavu-core")) else None


def looked(browser, work, url, *more):
    """What the browser makes of a page: its document when the script has run, what stands on the console, what the page asked the net for.

    Chromium asks for things of its own; its log, an event a line, tells them apart by who began the request. No name is found here, so nothing leaves
    the machine.
    """
    log = work / "net.json"
    log.unlink(missing_ok=True)
    words = [browser, "--headless", "--no-sandbox", "--disable-gpu", "--disable-dev-shm-usage", "--no-first-run", "--disable-background-networking",
             "--disable-component-update", "--disable-sync", "--disable-extensions", "--hide-scrollbars", "--host-resolver-rules=MAP * ~NOTFOUND",
             "--user-data-dir=%s" % (work / "profile"), "--window-size=%d,%d" % SIZE, "--virtual-time-budget=2000", "--enable-logging=stderr",
             "--log-net-log=%s" % log, "--dump-dom", *more, url]
    with subprocess.Popen(words, stdin=subprocess.DEVNULL, stdout=subprocess.PIPE, stderr=subprocess.PIPE, env={**os.environ, "HOME": str(work)},
                          start_new_session=True) as run:
        try:
            dom, said = (part.decode(errors="replace") for part in run.communicate(timeout=LONGEST))
        except subprocess.TimeoutExpired:
            os.killpg(run.pid, signal.SIGKILL)  # with all that it started
            return "", ["no end after %d seconds" % LONGEST], []
    logged = log.read_text(errors="replace") if log.exists() else ""
    asked = re.findall(r'"initiator":"(?!not an origin").*"url":"((?!file:|data:)[^"]*)"', logged)
    return dom, re.findall("CONSOLE.*", said), asked


def is_blank(picture):
    """Whether a picture has next to nothing in it: rows that are all like the one before them are stored alike."""
    data, at, packed = picture.read_bytes(), 8, b""
    while at < len(data):
        size, kind = struct.unpack(">I4s", data[at:at + 8])
        packed += data[at + 8:at + 8 + size] if kind == b"IDAT" else b""
        at += size + 12
    lines = zlib.decompress(packed)
    height = struct.unpack(">I", data[20:24])[0]
    wide = len(lines) // height
    return len({lines[row * wide:(row + 1) * wide] for row in range(height)}) < height // 4


def photographed(browser, work, picture, url):
    dom, console, asked = looked(browser, work, url, "--screenshot=%s" % picture)
    if not picture.exists() or struct.unpack(">II", picture.read_bytes()[16:24]) != SIZE or is_blank(picture):
        yield "no picture, or a blank one"


# the heavy shift: a call-up and its VSYNC take 106 ticks and four find room at once, so with the tick that frees two places the fifth is taken, the
# sixth is called up, and the second has not begun
AT = {100: ["line"] + ["taken"] * 3 + ["called"] + ["empty"] * 35, 106: ["shown"] + ["taken"] * 4 + ["called"] + ["empty"] * 34}


def in_browser(browser, work):
    """The pages of the heavy shift and of the troubled night. The trap has shown that the browser runs, and that this test sees what it says."""
    for name, tick, expected in (*(("heavy.txt", *at) for at in AT.items()), ("heavy.txt", None, ["shown"] * SLOTS), ("trouble.txt", None, None)):
        made = Page((work / (name + ".html")).read_text())
        dom, console, asked = looked(browser, work, (work / (name + ".html")).as_uri() + ("" if tick is None else "#tick=%d" % tick))
        page = Page(dom)
        where = "%s at tick %s: " % (name, page.tick)
        if console or asked:
            yield where + "console %r, asked for %r" % (console, asked)
        if page.tick != (made.texts["sums"].split("ticks")[1] if tick is None else str(tick)):
            yield where + "it did not move there, or the script did not run"
        if len(page.slots) != SLOTS or expected and states(page) != expected:
            yield where + "the slots are %r" % states(page)
        if tick is None and page.slots != made.slots:
            yield where + "the script and the page as it was made have other slots"
        if not re.match(r"At tick %s\b" % page.tick, page.texts.get("status", "")) or "s" not in page.texts.get("strip", ""):
            yield where + "it says %r, and the strip %r" % (page.texts.get("status"), page.texts.get("strip"))
    yield from photographed(browser, work, work / "page.png", (work / "heavy.txt.html").as_uri() + "#tick=%d" % PICTURE_AT)


def seen(work):
    """What is wrong in the browser, and a few words on what was looked at."""
    browser = chromium()
    if not browser:
        return [], "the page was not opened: there is no chromium here, and it cannot be installed"
    (work / "trap.html").write_text(TRAP)
    dom, console, asked = looked(browser, work, (work / "trap.html").as_uri())
    if "trap" not in dom:
        return [], "the page was not opened: chromium is here and does not run"
    if not any("notThere" in line for line in console) or asked != ["http://elsewhere.invalid/x.png"]:
        return ["the trap's error and request are not seen: console %r, asked for %r" % (console, asked)], ""
    return list(in_browser(browser, work)), "in Chromium the slots, ticks 100 and 106, a quiet console, nothing asked of the net"


def of_picture():
    head = PICTURE.read_bytes()[:24] if PICTURE.exists() else b""
    if not head.startswith(b"\x89PNG") or struct.unpack(">II", head[16:24]) != SIZE or PICTURE.stat().st_size > MOST_PICTURE:
        yield "docs/panel.png is no picture of %d x %d below %d bytes: tests/panel.py --write" % (*SIZE, MOST_PICTURE)


def written(work):
    """Makes docs/panel.png; what is wrong with it."""
    browser = chromium() or sys.exit("panel: there is no chromium here, and it cannot be installed")
    called(work, ["-o", "heavy.html", HEAVY])
    PICTURE.unlink(missing_ok=True)
    yield from photographed(browser, work, PICTURE, (work / "heavy.html").as_uri() + "#tick=%d" % PICTURE_AT)
    yield from of_picture()


def built(work, program):
    """Puts the program where tools/panel is to find it."""
    if not program:
        place = outside.copies(work, 1).get()
        if not outside.compiled(place, "board_main"):
            sys.exit("panel: the program is not compiled: " + (place / "said").read_text()[-1000:])
        program = place / "program"
    shutil.copy(program, work / "board_main")


def main():
    words = sys.argv[1:]
    write = words[:1] == ["--write"]
    program = words[1:] if write else words
    if len(program) > 1:
        sys.exit("panel.py [--write] [PROGRAM]: found `%s`" % " ".join(words))
    with tempfile.TemporaryDirectory(ignore_cleanup_errors=True) as folder:  # the browser may still write to it
        work = pathlib.Path(folder)
        built(work, *program or [None])
        if write:
            bad, told = list(written(work)), "docs/panel.png is made"
        else:
            bad = list(pages(work)) or [*calls(work), *otherwise(work), *of_picture()]
            bad, looks = (bad, "") if bad else seen(work)
            told = "%d pages, %d calls, %d outputs that are refused; %s" % (len(NIGHTS), len(CALLS) + 4, len(OTHERWISE) + 2, looks)
    if bad:
        print(*bad[:20], sep="\n")
        sys.exit("panel: %d not as they should be" % len(bad))
    print("panel:", told)


if __name__ == "__main__":
    main()
