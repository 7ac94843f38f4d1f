#!/usr/bin/env python3
"""Holds the program `frames_main` and tools/frame to the lines of text that they take (02 items 1 and 7).

frames_text.py          `frames_text: N lines agree, M texts, K calls`, or what differs and exit status 1
frames_text.py --write  writes crates/frames_main/stdout, which `rt ci` compares with what the program prints of crates/frames_main/stdin

Frames, answers and reasons are made here from 01's table, the maker's (001 table 7-2) and the standard library's CRC-CCITT, by nothing of ours. The
program is compiled from its source without its proof (tests/mutation/outside.py), and with the compiler's assumptions checked. The tools' own table
(tools/frames.py) is held to the same lines.
"""
import binascii
import os
import pathlib
import random
import re
import subprocess
import sys
import tempfile

TESTS = pathlib.Path(__file__).resolve().parent
sys.dont_write_bytecode = True
sys.path[:0] = [str(TESTS / "mutation"), str(TESTS.parent / "tools")]
import frames  # noqa: E402
import outside  # noqa: E402
from refused import Refused  # noqa: E402

CRATE = TESTS.parent / "crates/frames_main"
TOOL = TESTS.parent / "tools/frame"
MOST_TEXT, MOST_WORDS, MOST_SHOWN, REGISTERS = 1 << 20, 4096, 40, 12
SEED, TEXTS = 2, 300  # random texts
LINES = 20_000  # of frames, more than a pipe holds

# 01 Frames (address limit: 02 item 4): number, fields, limits as they are told
ROWS = {
    "FWD_WR_CRC": (2, [], "1 to 512 words"),
    "FWD_WR": (3, [], "1 to 4096 words"),
    "FWD_WR_END_CRC": (4, ["ends"], "ends 0 to 127, 0 to 31 words"),
    "FWD_WR_END": (5, ["ends"], "ends 0 to 127, 0 to 31 words"),
    "FWD_RD_END_CRC": (6, ["ends"], "ends 0 to 127, 1 to 32 words"),
    "FWD_RD_END": (7, ["ends"], "ends 0 to 127, 1 to 32 words"),
    "DATA_RD_CRC": (8, ["count"], "count 1 to 256, no words"),
    "DATA_RD": (9, ["count"], "count 1 to 256, no words"),
    "REG_WR_CRC": (10, ["address"], "address 0 to 11, 1 to 12 words, address + words at most 12"),
    "REG_WR": (11, ["address"], "address 0 to 11, 1 to 12 words, address + words at most 12"),
    "REG_RD_CRC": (12, ["address", "count"], "address 0 to 11, count 1 to 12, address + count at most 12, no words"),
    "REG_RD": (13, ["address", "count"], "address 0 to 11, count 1 to 12, address + count at most 12, no words"),
    "SOFTRESET_CRC": (14, [], "no words"),
}


class Wrong(Exception):
    """A line is wrong: the reason."""


def crc(words, layout=""):
    """From 0xFFFF (01 Frames; 001 7.5.3, "the default algorithm"), or by XMODEM from 0."""
    return binascii.crc_hqx(b"".join(word.to_bytes(2, "big") for word in words), 0 if layout == "xmodem" else 0xFFFF)


def hexed(words):
    return " ".join("%04X" % word for word in words)


def low_bits(number, field, n, layout=""):
    """The low 12 bits of the command word with n data words, or None outside the limits (01 Frames; 001 table 7-2)."""
    ends, address, count = (field.get(name, 0) for name in ("ends", "address", "count"))
    if number in (2, 3):
        return n - 1 if 1 <= n <= (512 if number == 2 else MOST_WORDS) else None
    if number in (4, 5, 6, 7):
        size = n if number < 6 else n - 1
        return (size << 7 | ends if layout else ends << 5 | size) if ends <= 127 and 0 <= size <= 31 else None
    if number in (8, 9):
        return count - 1 if 1 <= count <= 256 and n == 0 else None
    if number in (10, 11, 12, 13):
        size = n if number < 12 else count
        right = size >= 1 and address + size <= REGISTERS and (number < 12 or n == 0)
        return (address << 6 | size - 1 if layout else size - 1 << 8 | address) if right else None
    return (0x1E1 if layout else 0) if n == 0 else None


def cut(part):
    """As a wrong line is told: 40 bytes, what is not printable as ?."""
    return "".join(chr(byte) if 32 <= byte < 127 else "?" for byte in part[:MOST_SHOWN])


def found(expected, part):
    return "%s, found `%s`" % (expected, cut(part))


def field_of(row, item, field):
    name, _, number = item.partition(b"=")
    name = name.decode("latin-1")
    if name not in ("ends", "address", "count"):
        raise Wrong(found("expected a field ends=, address= or count=", item))
    if name not in row[1]:
        raise Wrong(found("expected no such field in this command", item))
    if name in field:
        raise Wrong("expected each field once, found again `%s`" % cut(item))
    if not re.fullmatch(rb"[0-9]+", number) or int(number) > 65535:
        raise Wrong(found("expected a decimal number from 0 to 65535", item))
    field[name] = int(number)


def word_of(item, words):
    if not re.fullmatch(rb"[0-9A-Fa-f]{4}", item):
        raise Wrong(found("expected four hex digits", item))
    if len(words) == MOST_WORDS:
        raise Wrong("expected at most 4096 words, which is the most of any order, found one more, `%s`" % cut(item))
    words.append(int(item, 16))


def frame(row, field, words, layout):
    low = low_bits(row[0], field, len(words), layout)
    if low is None:
        count = "1 word" if len(words) == 1 else "%d words" % len(words)
        raise Wrong("expected %s, found %s with these fields: refusal 20" % (row[2], count))
    whole = [row[0] << 12 | low, *words]
    return hexed([*whole, crc(whole, layout)])


def answer(row, field, words, layout, last):
    if all(low_bits(row[0], field, n) is None for n in range(33)):
        raise Wrong("expected %s, found an order outside these limits: refusal 20" % row[2])
    due = field["count"] + 1 if "count" in row[1] else 2
    if len(words) != due:
        raise Wrong("expected an answer of %d words, and no data words of the order; found %d: refusal 20" % (due, len(words)))
    if crc(words[:-1], layout) != words[-1]:
        raise Wrong(found("expected the CRC of the words before it", last) + ": refusal 20")
    return ("data " if "count" in row[1] else "STATUS ") + hexed(words[:-1])


def judged(line):
    """What a line prints; None where it is blank."""
    line = line.partition(b"#")[0] if b"#" in line else line.removesuffix(b"\r")
    items = list(re.finditer(rb"[^ \t]+", line))
    if not items:
        return None
    answers = items[0][0] == b"answer"
    items = items[answers:]
    layout = items[0][0].decode() if items and items[0][0] in (b"makers", b"xmodem") else ""
    name, *rest = items[bool(layout):] or [None]
    row = ROWS.get(name[0].decode("latin-1")) if name else None
    if not name:
        raise Wrong("expected a command's name behind answer, makers or xmodem, found nothing")
    if not row:
        raise Wrong(found("expected a command's name in capitals, such as FWD_WR_CRC, or one behind answer, makers or xmodem", name[0]))
    field, words, end = {}, [], name.end()
    try:
        for item in rest:
            if b"=" not in item[0]:
                word_of(item[0], words)
            elif words:
                raise Wrong("expected fields before the words, found behind a word `%s`" % cut(item[0]))
            else:
                field_of(row, item[0], field)
                end = item.end()
        for lacking in (one for one in row[1] if one not in field):
            raise Wrong("expected the field %s=, found no such field" % lacking)
        return answer(row, field, words, layout, rest[-1][0] if rest else b"") if answers else frame(row, field, words, layout)
    except Wrong as wrong:
        raise Wrong("%s: %s" % (cut(line[name.start():end]), wrong)) from None


def expected(text):
    """Standard output and standard error of a text."""
    if len(text) > MOST_TEXT:
        return "", "expected at most 1 MiB (1048576 bytes) of text, found more\n"
    printed, told = [], []
    for number, line in enumerate(text.split(b"\n"), 1):
        try:
            printed.append(judged(line))
        except Wrong as wrong:
            told.append("line %d: %s\n" % (number, wrong))
    return ("" if told else "".join(line + "\n" for line in printed if line is not None)), "".join(told)


def some(n):
    return " ".join("%04X" % (i * 40503 % 65536) for i in range(n))


ALL = some(MOST_WORDS).encode()
TEXT = [  # text, what standard error has of it; "" where all is right
    (b"", ""),
    (b"\n\r\n \t\n# FWD\n", ""),
    (b"FWD_WR_CRC AAF0 FE0B", ""),
    (b"FWD_WR_CRC AAF0 FE0B\r\nSOFTRESET_CRC\r\n", ""),
    (b"SOFTRESET_CRC\r", ""),
    (b"\tREG_RD\tcount=2   address=009 # words 9 and 10\n", ""),
    (b"FWD_WR " + ALL, ""),
    (b"FWD_WR_CRC aaf0 # " + b"\0\xff" * 9, ""),
    (b"answer FWD_WR_END ends=127 0403 %04X" % crc([0x0403]), ""),
    (b"answer REG_RD_CRC address=10 count=1 12ab %04x" % crc([0x12AB]), ""),
    (b"#" + b"x" * (MOST_TEXT - 1), ""),
    (b"\n" * MOST_TEXT, ""),
    (b"\n" * (MOST_TEXT + 1), "expected at most 1 MiB (1048576 bytes) of text, found more\n"),
    (b"FWD_WR " + ALL + b" 1234", "line 1: FWD_WR: expected at most 4096 words, which is the most of any order, found one more, `1234`\n"),
    (b"makers FWD_WR_END ends=3 AAF0", ""),
    (b"xmodem SOFTRESET_CRC\nmakers SOFTRESET_CRC\r\nSOFTRESET_CRC", ""),
    (b"\tmakers  REG_WR_CRC\taddress=7 AAF0 # x", ""),
    (b"answer makers FWD_WR 0403 %04X" % crc([0x0403]), ""),
    (b"answer xmodem REG_RD address=0 count=1 ED99 %04X" % crc([0xED99], "xmodem"), ""),
    (b"answer \txmodem\tFWD_WR 0403 %04X" % crc([0x0403], "xmodem"), ""),
    (b"fwd_wr AAF0",
     "line 1: expected a command's name in capitals, such as FWD_WR_CRC, or one behind answer, makers or xmodem, found `fwd_wr`\n"),
    (b"FWD_W AAF0", "found `FWD_W`\n"),
    (b"FWD_WR_ AAF0", "found `FWD_WR_`\n"),
    (b"answer\n", "line 1: expected a command's name behind answer, makers or xmodem, found nothing\n"),
    (b"makers", "line 1: expected a command's name behind answer, makers or xmodem, found nothing\n"),
    (b"answer xmodem # x", "line 1: expected a command's name behind answer, makers or xmodem, found nothing\n"),
    (b"makers answer FWD_WR 0403 0000", "found `answer`\n"),
    (b"makers xmodem SOFTRESET_CRC", "found `xmodem`\n"),
    (b"xmodem makers SOFTRESET_CRC", "found `makers`\n"),
    (b"Makers SOFTRESET_CRC", "found `Makers`\n"),
    (b"makersSOFTRESET_CRC", "found `makersSOFTRESET_CRC`\n"),
    (b"maker SOFTRESET_CRC", "found `maker`\n"),
    (b"ours SOFTRESET_CRC", "found `ours`\n"),
    (b"SOFTRESET_CRC makers", "line 1: SOFTRESET_CRC: expected four hex digits, found `makers`\n"),
    (b"FWD_WR AAF0\nmakers FWD_WR_END ends=128",
     "line 2: FWD_WR_END ends=128: expected ends 0 to 127, 0 to 31 words, found 0 words with these fields: refusal 20\n"),
    (b"makers REG_WR address=11 AAF0 AAF0", "line 1: REG_WR address=11: expected address 0 to 11,"),
    (b"xmodem SOFTRESET_CRC 01E1", "line 1: SOFTRESET_CRC: expected no words, found 1 word with these fields: refusal 20\n"),
    (b"answer xmodem FWD_WR 0403 %04X" % crc([0x0403]), "line 1: FWD_WR: expected the CRC of the words before it, found `E1A8`: refusal 20\n"),
    (b"answer makers FWD_WR 0403 %04X" % crc([0x0403], "xmodem"), "line 1: FWD_WR: expected the CRC of the words before it, found "),
    (b"answer FWD_WR 0403 %04X" % crc([0x0403], "xmodem"), "line 1: FWD_WR: expected the CRC of the words before it, found "),
    (b"answer answer FWD_WR", "found `answer`\n"),
    (b"\0\n", "found `?`\n"),
    (b"\xef\xbb\xbfFWD_WR AAF0", "found `???FWD_WR`\n"),
    (b"A" * 41, "found `" + "A" * 40 + "`\n"),
    (b"FWD_WR_END AAF0", "line 1: FWD_WR_END: expected the field ends=, found no such field\n"),
    (b"REG_WR AAF0", "line 1: REG_WR: expected the field address=, found no such field\n"),
    (b"REG_RD address=0", "line 1: REG_RD address=0: expected the field count=, found no such field\n"),
    (b"DATA_RD", "line 1: DATA_RD: expected the field count=, found no such field\n"),
    (b"FWD_WR_END ends=1 ends=1", "line 1: FWD_WR_END ends=1: expected each field once, found again `ends=1`\n"),
    (b"FWD_WR_CRC ends=1 AAF0", "line 1: FWD_WR_CRC: expected no such field in this command, found `ends=1`\n"),
    (b"FWD_WR end=1", "line 1: FWD_WR: expected a field ends=, address= or count=, found `end=1`\n"),
    (b"FWD_WR =1", "expected a field ends=, address= or count=, found `=1`\n"),
    (b"DATA_RD count=", "line 1: DATA_RD: expected a decimal number from 0 to 65535, found `count=`\n"),
    (b"DATA_RD count=1x", "found `count=1x`\n"),
    (b"DATA_RD count=-1", "found `count=-1`\n"),
    (b"DATA_RD count=65536", "found `count=65536`\n"),
    (b"DATA_RD count=18446744073709551617", "found `count=18446744073709551617`\n"),
    (b"DATA_RD count=65535", "line 1: DATA_RD count=65535: expected count 1 to 256, no words, found 0 words with these fields: refusal 20\n"),
    (b"FWD_WR_END ends=1 AAF0 ends=1", "line 1: FWD_WR_END ends=1: expected fields before the words, found behind a word `ends=1`\n"),
    (b"FWD_WR AAF", "line 1: FWD_WR: expected four hex digits, found `AAF`\n"),
    (b"FWD_WR AAF00", "found `AAF00`\n"),
    (b"FWD_WR AAFG", "found `AAFG`\n"),
    (b"FWD_WR AAF0\rFE0B", "found `AAF0?FE0B`\n"),
    (b"FWD_WR AAF0 \x01\x7f\x80\xff", "found `????`\n"),
    (b"FWD_WR_CRC " + some(513).encode(), "line 1: FWD_WR_CRC: expected 1 to 512 words, found 513 words with these fields: refusal 20\n"),
    (b"FWD_WR", "line 1: FWD_WR: expected 1 to 4096 words, found 0 words with these fields: refusal 20\n"),
    (b"SOFTRESET_CRC 0000", "line 1: SOFTRESET_CRC: expected no words, found 1 word with these fields: refusal 20\n"),
    (b"answer FWD_WR 0403", "line 1: FWD_WR: expected an answer of 2 words, and no data words of the order; found 1: refusal 20\n"),
    (b"answer FWD_WR", "line 1: FWD_WR: expected an answer of 2 words, and no data words of the order; found 0: refusal 20\n"),
    (b"answer DATA_RD count=2 AAF0 FE0B", "line 1: DATA_RD count=2: expected an answer of 3 words, and no data words of the order; found 2: refusal 20\n"),
    (b"answer FWD_WR 0403 0000", "line 1: FWD_WR: expected the CRC of the words before it, found `0000`: refusal 20\n"),
    (b"answer FWD_WR_END ends=128 0403 %04X" % crc([0x0403]),
     "line 1: FWD_WR_END ends=128: expected ends 0 to 127, 0 to 31 words, found an order outside these limits: refusal 20\n"),
    (b"answer REG_WR address=12 0403 %04X" % crc([0x0403]), "line 1: REG_WR address=12: expected address 0 to 11,"),
    (b"answer REG_RD address=12 count=0 " + ALL, "line 1: REG_RD address=12 count=0: expected address 0 to 11,"),
    (b"SOFTRESET_CRC\nFWD\n\nFWD_WR xyz\r\nSOFTRESET_CRC\n# x\nDATA_RD", "line 2: "),
]


def at_limits(layout=""):
    """Lines just inside and just outside each limit of each row."""
    words = layout and layout + " "
    for name, (number, fields, _) in ROWS.items():
        edges = {"ends": (0, 127, 128, 65535), "address": (0, 1, 10, 11, 12, 65535), "count": (0, 1, 2, 10, 11, 12, 13, 256, 257, 65535)}
        told = [words + name]
        for field in fields:
            told = ["%s %s=%d" % (before, field, value) for before in told for value in edges[field]]
        counts = (0, 1, 2, 511, 512, 513, 4095, 4096) if number in (2, 3) else (0, 1, 2, 10, 11, 12, 13, 31, 32, 33)
        for order in told:
            yield from (("%s %s" % (order, some(n))).encode() for n in counts)
            yield from (("answer %s %s" % (order, hexed([*range(n), crc(range(n), layout)]))).encode() for n in (0, 1, 2, 12, 256, 257))


def in_makers(layout):
    """The lines at the limits in the maker's words: a text of those that are right, one of those that are not."""
    lines = list(at_limits(layout))
    right = [line for line in lines if not expected(line)[1]]
    yield b"\n".join(right)
    yield b"\n".join(line for line in lines if line not in right)[:MOST_TEXT]


def random_line(draw):
    name = draw.choice([*ROWS, *ROWS, *ROWS, "FWD_RD", "reg_wr", "answer"])
    row = ROWS.get(name, (0, [], ""))
    most = {"ends": 130, "address": 13, "count": draw.choice([13, 258])}
    field = {one: draw.randrange(most[one]) for one in row[1] if draw.random() < 0.95}
    items = ["%s=%d" % pair for pair in field.items()]
    draw.shuffle(items)
    items += ["%04x" % draw.randrange(65536) for _ in range(draw.choice([0, 1, 2, 3, 12, 31, 32, 33]) if row[0] not in (8, 9, 12, 13, 14) else 0)]
    layout = draw.choice(["", "", "makers", "xmodem"])
    name = layout + " " * bool(layout) + name
    if draw.random() < 0.3:
        n = field.get("count", 1)
        words = [draw.randrange(65536) for _ in range(n)]
        name, items = "answer " + name, items[:len(field)] + hexed([*words, crc(words, layout) ^ (draw.random() < 0.1)]).split()
    if draw.random() < 0.1:
        items.insert(draw.randrange(len(items) + 1), draw.choice(["ends=3", "count=x", "12", "12345", "ends", "address=70000", "\x7f", "=", "zzzz"]))
    gap = draw.choice([" ", " ", "\t", "  "])
    return draw.choice(["", "", " "]) + gap.join([name, *items]) + draw.choice(["", "", " ", "# x", "\r"])


def random_texts():
    draw = random.Random(SEED)
    for _ in range(TEXTS):
        good = []
        lines = [random_line(draw).encode("latin-1") for _ in range(draw.randrange(1, 12))]
        for line in lines:
            try:
                judged(line)
                good.append(line)
            except Wrong:
                pass
        yield b"\n".join(draw.choice([lines, good]))


def run(program, text):
    done = subprocess.run([program], input=text, capture_output=True)
    return done.stdout.decode("latin-1"), done.stderr.decode("latin-1"), done.returncode


def texts():
    """A text of one line each for all lines at the limits."""
    yield from (text for text, _ in TEXT)
    yield from at_limits()
    yield b"\n".join(at_limits())[:MOST_TEXT]
    yield from in_makers("makers")
    yield from in_makers("xmodem")
    yield from random_texts()


def differences(program):
    """What the program does otherwise."""
    for text, told in TEXT:
        printed, said = expected(text)
        if told not in said or bool(told) != bool(said):
            yield "this test expects %r of %r, and says %r" % (told, text[:60], said)
    for text in texts():
        printed, said = expected(text)
        out, err, status = run(program, text)
        if (out, err, status) != (printed, said, 0):
            yield "of %r expected %r %r, found %r %r, status %d" % (text[:100], printed[:200], said[:300], out[:200], err[:300], status)


def table_differences():
    """Orders that tools/frames.py, which the texts of the bench use, takes otherwise."""
    for line in [line for layout in ("", "makers", "xmodem") for line in at_limits(layout) if not line.startswith(b"answer")]:
        try:
            made = hexed(frames.order(line.decode().split()))
        except Refused:
            made = ""
        if made != expected(line)[0].rstrip("\n"):
            yield "tools/frames.py: of %r expected %r, found %r" % (line[:100], expected(line)[0][:100], made[:100])


CALLS = [  # arguments, standard input, status, standard output, standard error
    (["FWD_WR_CRC", "AAF0", "FE0B"], b"", 0, "2001 AAF0 FE0B 7163\n", ""),
    (["answer", "FWD_WR_CRC", "0400", "D1CB"], b"", 0, "STATUS 0400\n", ""),
    (["FWD_WR_END ends=3", " AAF0\n"], b"", 0, "5061 AAF0 %04X\n" % crc([0x5061, 0xAAF0]), ""),
    (["makers", "FWD_WR_END", "ends=3", "AAF0"], b"", 0, "5083 AAF0 %04X\n" % crc([0x5083, 0xAAF0]), ""),
    (["xmodem SOFTRESET_CRC"], b"", 0, "E1E1 CE8C\n", ""),
    (["answer", "xmodem", "REG_RD", "address=0", "count=1", "ED99", "747E"], b"", 0, "data ED99\n", ""),
    (["makers"], b"", 1, "", "tools/frame: expected a command's name behind answer, makers or xmodem, found nothing\n"),
    (["xmodem", "fwd_wr"], b"", 1, "",
     "tools/frame: expected a command's name in capitals, such as FWD_WR_CRC, or one behind answer, makers or xmodem, found `fwd_wr`\n"),
    (["good.txt"], b"", 0, "E000 %04X\n" % crc([0xE000]), ""),
    (["--", "FWD_WR"], b"", 0, "E000 %04X\n" % crc([0xE000]), ""),
    ([], b"SOFTRESET_CRC", 0, "E000 %04X\n" % crc([0xE000]), ""),
    (["-"], b"SOFTRESET_CRC", 0, "E000 %04X\n" % crc([0xE000]), ""),
    ([], b"", 0, "", "standard input: no orders\n"),
    (["-"], b"\xef\xbb\xbf# a mark\r\nSOFTRESET_CRC\r\n", 0, "E000 %04X\n" % crc([0xE000]), ""),
    (["-"], "SOFTRESET_CRC\n".encode("utf-16"), 1, "", "standard input: the text is UTF-16: save it as UTF-8\n"),
    (["FWD_WR"], b"", 1, "", "tools/frame: FWD_WR: expected 1 to 4096 words, found 0 words with these fields: refusal 20\n"),
    (["bad.txt"], b"", 1, "",
     "bad.txt:2: FWD_WR: expected four hex digits, found `line`\nbad.txt:3: DATA_RD: expected the field count=, found no such field\n"),
    (["-"], b"\nFWD_WR xyz", 1, "", "standard input:2: FWD_WR: expected four hex digits, found `xyz`\n"),
    (["long.txt"], b"", 1, "", "long.txt: expected at most 1 MiB (1048576 bytes) of text, found more\n"),
    (["none.txt"], b"", 1, "", "none.txt: No such file or directory, and it is no command's name\n"),
    (["folder"], b"", 1, "", "folder: Is a directory\n"),
    (["fwd_wr", "AAF0"], b"", 2, "", "tools/frame: `fwd_wr` is no command's name, and one FILE is expected, not 2; see tools/frame --help\n"),
    (["--hlep"], b"", 2, "", "tools/frame: no option --hlep (a file of that name: -- --hlep); see tools/frame --help\n"),
]


def called(work, words, given, **environment):
    done = subprocess.run([TOOL, *words], input=given, capture_output=True, cwd=work, env={**os.environ, "BENCH_BIN": str(work), **environment})
    return done.returncode, done.stdout.decode(), done.stderr.decode()


def lines_through_a_short_pipe(work):
    """How many lines come out unbuffered where one write takes 64 KiB at most, as on a disk that is nearly full."""
    (work / "many.txt").write_bytes(b"SOFTRESET_CRC\n" * LINES)
    reader, writer = os.pipe()
    os.set_blocking(writer, False)
    environment = {**os.environ, "BENCH_BIN": str(work), "PYTHONUNBUFFERED": "1"}
    with subprocess.Popen([TOOL, "many.txt"], stdout=writer, cwd=work, env=environment):
        os.close(writer)
        with open(reader, "rb") as out:
            return out.read().count(b"\n")


def tool_differences(work):
    (work / "good.txt").write_bytes(b"SOFTRESET_CRC\n")
    (work / "FWD_WR").write_bytes(b"SOFTRESET_CRC\n")
    (work / "bad.txt").write_bytes(b"SOFTRESET_CRC\nFWD_WR line\nDATA_RD\n")
    (work / "long.txt").write_bytes(b"\n" * 3 * MOST_TEXT)
    (work / "folder").mkdir()
    for words, given, *wanted in CALLS:
        if called(work, words, given) != tuple(wanted):
            yield "tools/frame %s: expected %r, found %r" % (" ".join(words), wanted, called(work, words, given))
    status, printed, said = called(work, ["--help"], b"")
    if status or said or not printed.startswith("Makes the words of frames"):
        yield "tools/frame --help: status %d, %r" % (status, said)
    if called(work, ["SOFTRESET_CRC"], b"", BENCH_BIN=str(work / "folder"))[0::2] != (
            1, "tools/frame: %s: there is no program that can be run: BENCH_BIN names that folder\n" % (work / "folder/frames_main")):
        yield "tools/frame: not told that the program is not built"
    if lines_through_a_short_pipe(work) != LINES:
        yield "tools/frame: of %d lines %d came out where a write takes less than all" % (LINES, lines_through_a_short_pipe(work))
    with open("/dev/full", "wb") as full:
        done = subprocess.run([TOOL, "SOFTRESET_CRC"], stdout=full, stderr=subprocess.PIPE, env={**os.environ, "BENCH_BIN": str(work)})
        direct = subprocess.run([work / "frames_main"], input=b"\nSOFTRESET_CRC\n\n", stdout=full, stderr=subprocess.PIPE)
    if done.returncode != 1 or b"cannot be written: No space left" not in done.stderr:
        yield "tools/frame: a full disk is not told: %r" % done.stderr
    if direct.stderr != b"line 2: SOFTRESET_CRC: the words cannot be written to standard output\n":
        yield "frames_main: a full disk is not told: %r" % direct.stderr
    with open(work / "good.txt", "wb") as closed:  # opened for writing: a read of it fails
        direct = subprocess.run([work / "frames_main"], stdin=closed, capture_output=True)
    if direct.stderr != b"standard input: Bad file descriptor\n":
        yield "frames_main: a failed read is not told: %r" % direct.stderr


def not_tried(text):
    """Which command is not at both ends of its limits in the crate's stdin, of which no answer is read, and what lacks in the maker's words."""
    orders, answers, makers = set(), set(), set()
    for line in filter(None, (line.partition(b"#")[0].decode().split() for line in text.split(b"\n"))):
        answers_it, line = line[0] == "answer", line[line[0] == "answer":]
        if line[0] in ("makers", "xmodem"):
            makers.add((answers_it, *line[:2]))
            continue
        name, *items = line
        words = sum("=" not in item for item in items)
        field = tuple(sorted((item.split("=")[0], int(item.split("=")[1])) for item in items if "=" in item))
        (answers if answers_it else orders).add((name, field, 0 if answers_it else words))
    for name, (number, fields, _) in ROWS.items():
        tried = [(dict(field), n) for one, field, n in orders if one == name]
        if not any(one == name for one, *_ in answers):
            yield "no answer to " + name
        if (False, "makers", name) not in makers:
            yield "makers " + name
        for field in fields:
            highest = max(value for value in range(300) if any(low_bits(number, {**other, field: value}, n) is not None for other, n in tried))
            lowest = min(value for value in range(300) if any(low_bits(number, {**other, field: value}, n) is not None for other, n in tried))
            yield from ("%s %s=%d" % (name, field, value) for value in (lowest, highest) if not any(other[field] == value for other, _ in tried))
        counts = [n for n in range(MOST_WORDS + 1) if any(low_bits(number, other, n) is not None for other, _ in tried)]
        yield from ("%s with %d words" % (name, n) for n in (counts[0], counts[-1]) if not any(n == one for _, one in tried))
    for answer_to, layout in ((False, "xmodem"), (True, "makers"), (True, "xmodem")):
        if (answer_to, layout) not in {each[:2] for each in makers}:
            yield "%s%s" % ("answer " * answer_to, layout)


def wrong(work, text):
    yield from ("crates/frames_main/stdin has not " + what for what in not_tried(text))
    printed, told = expected(text)
    if told:
        yield "crates/frames_main/stdin: " + told
    if (CRATE / "stdout").read_text() != printed:
        yield "crates/frames_main/stdout is not what its stdin should print"
    place = outside.copies(work, 1).get()
    if not outside.compiled(place, "frames_main"):
        yield "the program is not compiled: " + (place / "said").read_text()[-1000:]
        return
    (place / "program").rename(work / "frames_main")
    if run(work / "frames_main", text) != (printed, "", 0):
        yield "the program prints otherwise of crates/frames_main/stdin"
    yield from differences(work / "frames_main")
    yield from table_differences()
    yield from tool_differences(work)


def main():
    text = (CRATE / "stdin").read_bytes()
    if sys.argv[1:] == ["--write"]:
        (CRATE / "stdout").write_text(expected(text)[0])
        return
    if sys.argv[1:]:
        sys.exit("frames_text.py [--write]: found `%s`" % " ".join(sys.argv[1:]))
    with tempfile.TemporaryDirectory() as folder:
        bad = list(wrong(pathlib.Path(folder), text))
    if bad:
        print(*bad[:20], sep="\n")
        sys.exit("frames_text: %d not as they should be" % len(bad))
    print("frames_text: %d lines agree, %d texts, %d calls" % (
        len((CRATE / "stdout").read_text().splitlines()), len(list(texts())), len(CALLS) + 6))


if __name__ == "__main__":
    main()
