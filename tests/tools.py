#!/usr/bin/env python3
"""Holds tools/bench, tools/script.py, tools/explain.py, tools/status and tools/board to their statuses and their words on good and bad input.

tools.py    `tools: N calls as they should be, M lines in words`, or what went otherwise and exit status 1

Nothing is built at this point of the gate: the independent programs (model/), which print what the bench program and the board's do, stand in for them,
and for `states` what crates/states/stdout holds.
"""
import os
import pathlib
import re
import subprocess
import sys
import tempfile

TESTS = pathlib.Path(__file__).resolve().parent
TOP = TESTS.parent
sys.dont_write_bytecode = True
sys.path[:0] = [str(TESTS), str(TESTS / "model"), str(TOP / "tools")]
import explain  # noqa: E402
from command import decode  # noqa: E402
from make_scripts import CCITT, XMODEM, command_word, crc16  # noqa: E402
from pair import built_model  # noqa: E402

BENCH, SCRIPT, STATUS, BOARD = TOP / "tools/bench", TOP / "tools/script.py", TOP / "tools/status", TOP / "tools/board"
EXPLAIN = TOP / "tools/explain.py"
LIGHT = TOP / "examples/first-light.txt"
LINES = (TOP / "examples/expected/first-light.out").read_bytes()
MAKERS_LIGHT = TOP / "examples/makers-first-light.txt"
MAKERS_LINES = (TOP / "examples/expected/makers-first-light.out").read_bytes()
HEAVY = TOP / "examples/nights/heavy-shift.txt"
FORTY = (TOP / "examples/nights/expected/heavy-shift.out").read_bytes()
HEAD = b"CWB\x00\x01"
UP = b"0 0001 0 FFFF 1\n"
POWER = {"bad": b"\x00\x00\x00", "good": b"\x00\x00\x01", "bad makers": b"\x00\x00\x02", "good makers": b"\x00\x00\x03"}


def host(words, *powers):
    """The script of these power-ups, then these host words."""
    return HEAD + b"".join(POWER[power] for power in powers) + b"".join(b"\x01" + bytes.fromhex(word) for word in words.split())


def makers(words, start=CCITT):
    """The same of a frame behind a power-up in the maker's layout: these words and their CRC word."""
    return host("%s %04X" % (words, crc16([int(word, 16) for word in words.split()], start)), "good makers")


WELL = b"STATUS 0400 (NORMAL, no flag, nothing ready in RX)\n  All is well.\n"
OTHER_CRC = (b"The words are damaged: their CRC word is %s, expected %s. Read them again; if it comes often, look at the cable between host and bridge.\n"
             b"Or the host has the maker's layout and the other CRC: by `tools/status %s` the word is right.\n")
LOW = b"Every word is 0000, their CRC too: a wire that is stuck low reads so as well. Read DEVID (C000 1654): it is ED99.\n"
# tool, arguments, standard input, status, standard output (None: any), a pattern of standard error
CALLS = [
    (BENCH, [LIGHT], b"", 0, LINES, ""),
    (BENCH, [], LIGHT.read_bytes(), 0, LINES, ""),
    (BENCH, ["-"], LIGHT.read_bytes(), 0, LINES, ""),
    (BENCH, ["text-without-ending"], b"", 0, UP, ""),
    (BENCH, ["link"], b"", 0, UP, ""),
    (BENCH, ["script"], b"", 0, UP, ""),
    (BENCH, [], b"\xef\xbb\xbfpower good\r\n", 0, UP, ""),
    (BENCH, [], b"# nothing but a comment\n", 0, b"", "^standard input: no events$"),
    (BENCH, [], HEAD, 0, b"", "^standard input: no events$"),
    (BENCH, [], b"power good\rtick 1\r", 0, UP + b"3 0001 0 FFFF 1\n", ""),
    (BENCH, ["--", "-x.txt"], b"", 0, UP, ""),
    (BENCH, [], b"", 1, b"bad script\n", "^standard input: it is empty"),
    (BENCH, [], b"CW", 1, b"", "^standard input:1: expected an event .* found `CW`$"),
    (BENCH, [], b"CWB\x00", 1, b"bad script\n", "^standard input: the head is cut: 4 of 5 bytes$"),
    (BENCH, [], b"CWB\x00\x02", 1, b"bad script\n", r"^standard input: behind the mark CWB stands 00 02, expected version 1 \(00 01\)$"),
    (BENCH, [], b"\x7fELF\x00", 1, b"bad script\n", "begins with 7F 45 4C, a script with 43 57 42"),
    (BENCH, [], HEAD + b"\x00\x00\x01\x09\x00\x00\x03\x00\x01", 1, UP + b"bad record\n", r"record 2 \(byte 8\): kind 9 is no event"),
    (BENCH, [], HEAD + b"\x00\x00\x01\x03\x00", 1, UP + b"bad record\n", r"record 2 \(byte 8\) is cut: 2 of 3 bytes"),
    (BENCH, [], HEAD + b"\x03\x00\x02", 1, b"bad record\n", r"record 1 \(byte 5\): value 2 is too high for kind 3, at most 1"),
    (BENCH, [], HEAD + b"\x02\x01\x00", 1, b"bad record\n", r"record 1 \(byte 5\): value 256 is too high for kind 2, at most 0"),
    (BENCH, [], HEAD + POWER["bad makers"] + POWER["good makers"], 0, b"0 0002 0 FFFF 1\n0 0003 0 FFFF 1\n", ""),
    (BENCH, [], b"power bad makers\npower good makers\n", 0, b"0 0002 0 FFFF 1\n0 0003 0 FFFF 1\n", ""),
    (BENCH, [], HEAD + b"\x00\x00\x04", 1, b"bad record\n", r"record 1 \(byte 5\): value 4 is too high for kind 0, at most 3"),
    (BENCH, [MAKERS_LIGHT], b"", 0, MAKERS_LINES, ""),
    (BENCH, [], b"power good\nword 20\n", 1, b"", "^standard input:2: expected four hex digits, found `20`$"),
    (BENCH, [], b"power good\n\xe2\x80\x8btick 1\n", 1, b"", r"^standard input:2: expected an event .* found `\\u200btick`$"),
    (BENCH, [], "power good\n".encode("utf-16"), 1, b"", "UTF-16: save it as UTF-8"),
    (BENCH, [], "power good\n".encode("utf-16-le"), 1, b"", "UTF-16: save it as UTF-8"),
    (BENCH, [], b"power good\ntick\x00 1\n", 1, b"", "^standard input:2: expected a text, found a byte 0$"),
    (BENCH, ["bad.txt"], b"", 1, b"", "^bad.txt:3: expected"),
    (BENCH, ["none.txt"], b"", 1, b"", "^none.txt: No such file or directory$"),
    (BENCH, ["folder"], b"", 1, b"", "^folder: Is a directory$"),
    (BENCH, ["--help"], b"", 0, None, ""),
    (BENCH, ["--hlep"], b"", 2, b"", "no option --hlep .*; see tools/bench --help"),
    (BENCH, [LIGHT, LIGHT], b"", 2, b"", "one FILE, not 2; see tools/bench --help"),
    (SCRIPT, ["script"], b"", 1, b"", "not a text"),
    (SCRIPT, ["none.txt"], b"", 1, b"", "^none.txt: No such file or directory$"),
    (SCRIPT, ["--help"], b"", 0, None, ""),
    (SCRIPT, [], b"", 2, b"", "one FILE, not 0; see tools/script.py --help"),
    (STATUS, ["0400"], b"", 0, WELL, ""),
    (STATUS, ["0400", "D1CB"], b"", 0, WELL, ""),
    (STATUS, ["0000", "0000", "0000", "0000", "0000"], b"", 1, None, ""),
    (STATUS, ["0400", "D1CC"], b"", 1, None, ""),
    (STATUS, ["ffff"], b"", 1, None, ""),
    (STATUS, ["4401", "0010", "0000", "0000"], b"", 0, None, ""),
    (STATUS, ["4401", "0008", "0000", "0000", "0005", "163E"], b"", 1, None, ""),
    (STATUS, ["4401", "0008", "0000", "0000", "0005"], b"", 1, None, ""),
    (STATUS, 7 * ["0400"], b"", 2, b"", "or five and their CRC, not 7; see tools/status --help"),
    (STATUS, ["makers", "0400", "D1CB"], b"", 0, WELL, ""),
    (STATUS, ["xmodem", "0400", "CCC4"], b"", 0, WELL, ""),
    (STATUS, ["xmodem", "0400"], b"", 0, WELL, ""),
    (STATUS, ["makers", "0400", "CCC4"], b"", 1, OTHER_CRC % (b"CCC4", b"D1CB", b"xmodem"), ""),
    (STATUS, ["0400", "CCC4"], b"", 1, OTHER_CRC % (b"CCC4", b"D1CB", b"xmodem"), ""),
    (STATUS, ["xmodem", "0400", "D1CB"], b"", 1, OTHER_CRC % (b"D1CB", b"CCC4", b"makers"), ""),
    (STATUS, ["xmodem", "0000", "0000"], b"", 0, b"STATUS 0000 (NORMAL, no flag, words ready in RX)\n  All is well.\n" + LOW, ""),
    (STATUS, ["makers", "0000", "0000"], b"", 1, None, ""),
    (STATUS, ["xmodem", "FFFF", "FFFF"], b"", 1, None, ""),
    (STATUS, ["makers"], b"", 2, b"", "or five and their CRC, not 0; see tools/status --help"),
    (STATUS, ["xmodem", "makers", "0400"], b"", 2, b"", "expected four hex digits, found `makers`"),
    (STATUS, ["0400", "makers"], b"", 2, b"", "expected four hex digits, found `makers`"),
    (BOARD, [HEAVY], b"", 0, FORTY, ""),
    (BOARD, [], HEAVY.read_bytes(), 0, FORTY, ""),
    (BOARD, ["-"], b"\xef\xbb\xbf" + HEAVY.read_bytes().replace(b"\n", b"\r\n"), 0, FORTY, ""),
    (BOARD, ["--help"], b"", 0, None, ""),
    (BOARD, [], b"clear\nbell\ncall 40 1 AA00\ncall 1 1 AA00\n", 1, None,
     "^standard input:2: expected call, .* found `bell`\nstandard input: 1 call-up refused\nstandard input: 1 call-up taken and not shown\n$"),
    (BOARD, [], b"# nothing but a comment\n", 1, None, "^standard input: no call-ups$"),
    (BOARD, [], b"c\x00l\x00e\x00", 1, b"", "UTF-16"),
    (BOARD, [], b"#" * (1 << 20) + b"\n", 1, b"", "expected at most 1 MiB"),
    (BOARD, ["nowhere"], b"", 1, b"", "nowhere: .*No such file"),
    (BOARD, ["a", "b"], b"", 2, b"", "one FILE, not 2; see tools/board --help"),
    (BOARD, ["-x"], b"", 2, b"", "no option -x"),
    (STATUS, [], b"", 2, b"", "one to four words, or these and their CRC, or five and their CRC, not 0; see tools/status --help"),
    (STATUS, ["440"], b"", 2, b"", "expected four hex digits, found `440`"),
]
# lines of frames, by name and in hex: the script, or a pattern of what is said
LINES_OF_FRAMES = [
    (b"frame FWD_WR_CRC AAF0", host("2000 AAF0 AE24"), ""),
    (b"frame FWD_WR_CRC aaf0  # a comment", host("2000 AAF0 AE24"), ""),
    (b"badframe FWD_WR_CRC AAF0", host("2000 AAF0 AE25"), ""),
    (b"crc FWD_WR_CRC AAF0", host("AE24"), ""),
    (b"frame 2000 AAF0", host("2000 AAF0 AE24"), ""),
    (b"badframe 2000 AAF0", host("2000 AAF0 AE25"), ""),
    (b"crc 2000 AAF0", host("AE24"), ""),
    (b"frame F000", host("F000 0ECE"), ""),
    (b"frame FWD_WR_END_CRC ends=2 AAF0", host("4041 AAF0 DD6B"), ""),
    (b"frame FWD_WR_END ends=3", host("5060 7F16"), ""),
    (b"frame FWD_RD_END ends=1 AAF0", host("7020 AAF0 5DD9"), ""),
    (b"frame DATA_RD_CRC count=2", host("8001 16B6"), ""),
    (b"frame REG_WR_CRC address=3 003F 00FF", host("A103 003F 00FF B32E"), ""),
    (b"frame REG_RD_CRC address=7 count=4", host("C307 2EEF"), ""),
    (b"frame REG_RD_CRC count=4 address=7", host("C307 2EEF"), ""),
    (b"frame SOFTRESET_CRC", host("E000 0DBD"), ""),
    (b"frame", b"", r"^standard input:1: expected a command \(FWD_WR_CRC, .*, SOFTRESET_CRC\), or words of four hex digits, found nothing$"),
    (b"frame FWD_WR_CRD AAF0", b"", r"^standard input:1: expected a command \(.*\), or words of four hex digits, found `FWD_WR_CRD`$"),
    (b"frame fwd_wr_crc AAF0", b"", "found `fwd_wr_crc`$"),
    (b"badframe 200 AAF0", b"", "or words of four hex digits, found `200`$"),
    (b"crc", b"", "or words of four hex digits, found nothing$"),
    (b"power good\nframe FWD_WR_END_CRC AAF0", b"", "^standard input:2: expected ends=0 to 127 for FWD_WR_END_CRC, found none$"),
    (b"frame REG_RD_CRC address=7", b"", "^standard input:1: expected count=1 to 5 for REG_RD_CRC at address 7, found none$"),
    (b"frame REG_RD_CRC count=1", b"", "expected address=0 to 11 for REG_RD_CRC, found none$"),
    (b"frame FWD_WR_END_CRC ends=1 ends=2 AAF0", b"", "expected ends= once, found `ends=1 ends=2`$"),
    (b"frame FWD_WR_CRC ends=2 AAF0", b"", "expected no field for FWD_WR_CRC, found `ends=2`$"),
    (b"frame REG_WR_CRC address=7 count=1 8000", b"", "expected no field but address= for REG_WR_CRC, found `count=1`$"),
    (b"frame FWD_WR_CRC words=1 AAF0", b"", "expected no field for FWD_WR_CRC, found `words=1`$"),
    (b"frame FWD_WR_END ends=128", b"", "expected ends=0 to 127 for FWD_WR_END, found `ends=128`$"),
    (b"frame FWD_WR_END ends=-1", b"", "expected ends=0 to 127 for FWD_WR_END, found `ends=-1`$"),
    (b"frame FWD_WR_END ends=two", b"", "expected ends=0 to 127 for FWD_WR_END, found `ends=two`$"),
    (b"frame DATA_RD count=0", b"", "expected count=1 to 256 for DATA_RD, found `count=0`$"),
    (b"frame DATA_RD count=257", b"", "expected count=1 to 256 for DATA_RD, found `count=257`$"),
    (b"frame REG_WR address=12 0000", b"", "expected address=0 to 11 for REG_WR, found `address=12`$"),
    (b"frame REG_RD address=7 count=6", b"", "expected count=1 to 5 for REG_RD at address 7, found `count=6`$"),
    (b"frame REG_WR address=11 0000 0000", b"", "expected 1 word for REG_WR at address 11, found 2$"),
    (b"frame FWD_WR_CRC" + 513 * b" AAF0", b"", "expected 1 to 512 words for FWD_WR_CRC, found 513$"),
    (b"frame FWD_WR" + 4097 * b" AAF0", b"", "expected 1 to 4096 words for FWD_WR, found 4097$"),
    (b"badframe FWD_WR_END ends=0" + 32 * b" AAF0", b"", "expected 0 to 31 words for FWD_WR_END, found 32$"),
    (b"crc FWD_RD_END ends=0" + 33 * b" AAF0", b"", "expected 1 to 32 words for FWD_RD_END, found 33$"),
    (b"frame FWD_WR_CRC", b"", "expected 1 to 512 words for FWD_WR_CRC, found none$"),
    (b"frame SOFTRESET_CRC 0000", b"", "expected no words for SOFTRESET_CRC, found 1$"),
    (b"frame FWD_WR_CRC AAF", b"", "expected four hex digits, found `AAF`$"),
    (b"frame FWD_WR_CRC AAF0 0xAA", b"", "expected four hex digits, found `0xAA`$"),
    (b"frame 2000 AAG0", b"", "expected four hex digits, found `AAG0`$"),
    (b"frame FWD_WR_END_CRC AAF0 ends=2", b"", "expected fields before the words, found `ends=2`$"),
    (b"frame 2000 AAF0 AE24", b"", "expected words without their CRC word, which is added .*, found `AE24`$"),
    (b"word 2000 AAF0 AE24", host("2000 AAF0 AE24"), ""),
    (b"word", b"", "expected words of four hex digits, found nothing$"),
    (b"frame FWD_WR_CRC\x0bAAF0", b"", r"found `FWD_WR_CRC\\x0bAAF0`$"),
    (b"frame FWD_WR_CRC \x1b[1m", b"", r"found `\\x1b\[1m`$"),
]
NO_XMODEM = r"expected no `xmodem` in our layout, which has one CRC \(`power good makers` chooses the maker's\), found `xmodem`$"
UP_MAKERS = b"power good makers\n"
# the layout of `power` lines, and the CRC that a line says (02 item 7; docs/BENCH.md)
LINES_OF_LAYOUTS = [
    (b"power good", host("", "good"), ""),
    (b"power bad", host("", "bad"), ""),
    (b"power good makers", host("", "good makers"), ""),
    (b"power\tbad  makers # a comment", host("", "bad makers"), ""),
    (b"power", b"", "^standard input:1: expected `good`, `bad`, `good makers` or `bad makers`, found nothing$"),
    (b"power makers", b"", "found `makers`$"),
    (b"power makers good", b"", "found `makers good`$"),
    (b"power good maker", b"", "found `good maker`$"),
    (b"power good ours", b"", "found `good ours`$"),
    (b"power good makers xmodem", b"", "found `good makers xmodem`$"),
    (b"power 3", b"", "found `3`$"),
    (UP_MAKERS + b"frame FWD_WR_CRC AAF0", makers("2000 AAF0"), ""),
    (UP_MAKERS + b"frame FWD_WR_END_CRC ends=2 AAF0", makers("4082 AAF0"), ""),
    (UP_MAKERS + b"frame FWD_WR_END ends=3", makers("5003"), ""),
    (UP_MAKERS + b"frame FWD_RD_END ends=1 AAF0 FE0B", makers("7081 AAF0 FE0B"), ""),
    (UP_MAKERS + b"frame DATA_RD_CRC count=2", makers("8001"), ""),
    (UP_MAKERS + b"frame REG_WR_CRC address=3 003F 00FF", makers("A0C1 003F 00FF"), ""),
    (UP_MAKERS + b"frame REG_RD_CRC count=4 address=7", makers("C1C3"), ""),
    (UP_MAKERS + b"frame SOFTRESET_CRC", host("E1E1 D383", "good makers"), ""),
    (UP_MAKERS + b"frame E000", host("E000 0DBD", "good makers"), ""),
    (UP_MAKERS + b"badframe SOFTRESET_CRC", host("E1E1 D382", "good makers"), ""),
    (UP_MAKERS + b"crc SOFTRESET_CRC", host("D383", "good makers"), ""),
    (UP_MAKERS + b"frame xmodem SOFTRESET_CRC", host("E1E1 CE8C", "good makers"), ""),
    (UP_MAKERS + b"badframe xmodem SOFTRESET_CRC", host("E1E1 CE8D", "good makers"), ""),
    (UP_MAKERS + b"crc xmodem SOFTRESET_CRC", host("CE8C", "good makers"), ""),
    (UP_MAKERS + b"frame xmodem REG_RD_CRC address=7 count=4", makers("C1C3", XMODEM), ""),
    (UP_MAKERS + b"frame xmodem 2000 AAF0", makers("2000 AAF0", XMODEM), ""),
    (UP_MAKERS + b"frame xmodem SOFTRESET_CRC\nframe SOFTRESET_CRC", host("E1E1 CE8C E1E1 D383", "good makers"), ""),
    (b"frame SOFTRESET_CRC", host("E000 0DBD"), ""),
    (b"power bad makers\nframe SOFTRESET_CRC", host("E1E1 D383", "bad makers"), ""),
    (UP_MAKERS + b"power good\nframe SOFTRESET_CRC", host("E000 0DBD", "good makers", "good"), ""),
    (b"power bad\npower good makers\nframe SOFTRESET_CRC", host("E1E1 D383", "bad", "good makers"), ""),
    (b"frame xmodem SOFTRESET_CRC", b"", "^standard input:1: " + NO_XMODEM),
    (UP_MAKERS + b"power bad\ncrc xmodem 2000", b"", "^standard input:3: " + NO_XMODEM),
    (b"power good\nbadframe xmodem FWD_WR_CRC AAF0", b"", "^standard input:2: " + NO_XMODEM),
    (UP_MAKERS + b"frame makers SOFTRESET_CRC", b"", "^standard input:2: expected the layout in a `power` line alone, found `makers`$"),
    (b"frame makers SOFTRESET_CRC", b"", "^standard input:1: expected the layout in a `power` line alone, found `makers`$"),
    (UP_MAKERS + b"frame xmodem", b"", r"^standard input:2: expected a command \(.*\), or words of four hex digits, found nothing$"),
    (UP_MAKERS + b"frame xmodem xmodem SOFTRESET_CRC", b"", "found `xmodem`$"),
    (UP_MAKERS + b"frame XMODEM SOFTRESET_CRC", b"", "found `XMODEM`$"),
    (UP_MAKERS + b"frame ccitt SOFTRESET_CRC", b"", "found `ccitt`$"),
    (UP_MAKERS + b"frame SOFTRESET_CRC xmodem", b"", "expected four hex digits, found `xmodem`$"),
    (UP_MAKERS + b"word xmodem 2000", b"", "expected four hex digits, found `xmodem`$"),
    (UP_MAKERS + b"xmodem SOFTRESET_CRC", b"", r"^standard input:2: expected an event \(power, .*\), found `xmodem`$"),
    (UP_MAKERS + b"frame FWD_WR_END ends=128", b"", "expected ends=0 to 127 for FWD_WR_END, found `ends=128`$"),
    (UP_MAKERS + b"frame xmodem REG_WR address=11 0000 0000", b"", "expected 1 word for REG_WR at address 11, found 2$"),
    (UP_MAKERS + b"frame SOFTRESET_CRC 01E1", b"", "expected no words for SOFTRESET_CRC, found 1$"),
    (UP_MAKERS + b"frame 2000 AAF0 AE24", b"", "expected words without their CRC word, which is added .*, found `AE24`$"),
    (UP_MAKERS + b"frame 2000 AAF0 2AE4", b"", "expected words without their CRC word, which is added .*, found `2AE4`$"),
    (UP_MAKERS + b"frame xmodem 2000 AAF0 AE24", b"", "expected words without their CRC word, which is added .*, found `AE24`$"),
    (b"frame 2000 AAF0 2AE4", host("2000 AAF0 2AE4 %04X" % crc16([0x2000, 0xAAF0, 0x2AE4])), ""),
]
CALLS += [(SCRIPT, ["-"], line + b"\n", 1 if said else 0, made, said) for line, made, said in LINES_OF_FRAMES + LINES_OF_LAYOUTS]
STARTS = {"makers": CCITT, "xmodem": XMODEM}
ERR, INIT = 0x0001, 0x0010  # a flag comes with ERR, OTP with INIT
CREW = TOP / "docs/CREW.md"
FRAME = re.compile(r"\b[89A-E][0-9A-F]{3}(?: [0-9A-F]{4})+\b")  # with its CRC word, in a page


def prepared(work):
    """Files to name in a call, and the programs' stand-ins."""
    (work / "text-without-ending").write_bytes(b"power good\n")
    (work / "script").write_bytes(HEAD + b"\x00\x00\x01")
    (work / "bad.txt").write_bytes(b"power good\n\nhello\n")
    (work / "-x.txt").write_bytes(b"power good\n")
    (work / "folder").mkdir()
    (work / "link").symlink_to(work / "text-without-ending")
    (work / "bench").symlink_to(BENCH)
    programs = work / "programs"
    programs.mkdir()
    built_model(programs).rename(programs / "bench")
    subprocess.check_call(["gcc", "-std=c11", "-O2", "-o", programs / "board_main", TESTS / "model/board_model.c"])
    (programs / "states").write_text("#!/bin/sh\ncat >%s\ncat %s\n" % (work / "given", TOP / "crates/states/stdout"))
    (programs / "states").chmod(0o755)
    os.environ["BENCH_BIN"] = str(programs)


def called(tool, arguments, given, work, out=subprocess.PIPE, **environment):
    return subprocess.run([tool, *arguments], input=given, stdout=out, stderr=subprocess.PIPE, cwd=work, env={**os.environ, **environment})


def otherwise(done, status, stdout, stderr):
    """What is not as it should be."""
    said = done.stderr.decode()
    if done.returncode != status:
        yield "status %d, expected %d: %s" % (done.returncode, status, said)
    if stdout is not None and done.stdout != stdout:
        yield "standard output is %r" % done.stdout[:200]
    if stdout is None and not done.stdout:
        yield "nothing on standard output"
    if not re.search(stderr, said) or (not stderr and said) or "Traceback" in said:
        yield "standard error is %r, expected %s" % (said, stderr or "nothing")


def statuses():
    """Every flag of every word has its meaning; every frame that is told stands in the crew's page, whose frames have their right CRC words."""
    frames = set(FRAME.findall(STATUS.read_text() + subprocess.check_output([STATUS, "0431"]).decode()))  # 0431: FAILSAFE
    for place, (name, bits) in enumerate(explain.BITS.items()):
        for bit, flag in bits.items():
            words = ["0000"] * place + ["%04X" % (1 << bit | (ERR if place == 0 else 0) | (INIT if flag == "OTP" else 0))]
            told = subprocess.check_output([STATUS, *words]).decode()
            frames.update(FRAME.findall(told))
            if flag != "ERR" and not re.search(rf"^  {flag}: ", told, re.M):
                yield "status: %s of %s is not told" % (flag, name)
    known = FRAME.findall(CREW.read_text())
    yield from ("docs/CREW.md has no frame that status tells: %s" % frame for frame in frames - set(known))
    for frame in known:
        *words, crc = (int(word, 16) for word in frame.split())
        if crc16(words) != crc:
            yield "docs/CREW.md: wrong CRC word: %s" % frame


ALL_FLAGS = "5BC3 021B C000 C000".split()  # of the four words, and no state that is not NORMAL; all that can be told of them


def in_layout(frame, start):
    """A frame of ours as the maker's host sends it."""
    word, *data = [int(word, 16) for word in frame.split()[:-1]]
    fields = decode(word)[2]
    words = fields.get("count", fields.get("words", 0))
    sent = [command_word(True, word >> 12, words, fields.get("ends", 0), fields.get("address", 0)), *data]
    return " ".join("%04X" % each for each in (*sent, crc16(sent, start)))


def layouts():
    """What is told to a host of the maker's is what is told to ours, but for the frames: the same commands in its words, with its CRC."""
    for words in (ALL_FLAGS, ["0431"], [*ALL_FLAGS, "0005"]):
        sums = {layout: "%04X" % crc16([int(word, 16) for word in words], start) for layout, start in STARTS.items()}
        ours = subprocess.check_output([STATUS, *words, sums["makers"]]).decode()
        for layout, start in STARTS.items():
            told = subprocess.check_output([STATUS, layout, *words, sums[layout]]).decode()
            if told != FRAME.sub(lambda found: in_layout(found[0], start), ours) or told == ours:
                yield "status %s: %s is told otherwise" % (layout, " ".join(words))


NUMBERS = [  # IFST, BADWORD, what is said of the number
    (0x0008, 0, "came on word 0 of its command, the head word"),
    (0x0008, 1, "came on word 1 .* it is word 0 of driver 0,"),
    (0x0008, 3, "came on word 3 .* it is word 2 of driver 0,"),
    (0x0008, 4, "came on word 4 .* it is word 0 of driver 1,"),
    (0x0008, 0xFFFE, "came on word 65534 .* it is word 1 of driver 21844,"),
    (0x0008, 0xFFFF, "came on word 65535 of its command or a later one"),
    (0x0018, 4, "it is word 0 of driver 1,.*But QUEUE_OVF is up: .* no driver's"),
    (0x0208, 4, "it is word 0 of driver 1,.*But SPI_CS is up: .* no driver's"),
    (0x000A, 0, "the head word.*But line CRC is up too"),
    (0x0000, 0, "CHECK_BIT is down"),
    (0x0000, 7, "the words are not of one reading"),
]


def bad_words():
    """The number of a bad word is told with its driver, and only beside CHECK_BIT."""
    for ifst, number, said in NUMBERS:
        words = [0x0400 | (0x4001 if ifst else 0) | (0x0100 if ifst & 0x0200 else 0), ifst, 0, 0, number]
        told = subprocess.check_output([STATUS, *("%04X" % word for word in (*words, crc16(words)))]).decode()
        if not re.search(r"^BADWORD %04X\n  (?s:.*)%s" % (number, said.replace(".*", "(?s:.*)")), told, re.M):
            yield "status: BADWORD %04X with IFST %04X is told as %r" % (number, ifst, told[-150:])


START = "start " + " ".join("%d=%d" % (explain.COLUMNS.index(name), value) for name, value in (("txfflvl", 63), ("rxfflvl", 255), ("drdy", 1), ("por", 1)))
OURS_UP, MAKERS_UP = ("0 0001 0 FFFF 1", {}), ("0 0003 0 FFFF 1", {"spictrl": 0x00A0, "txfflvl": 511, "layout": 1})
RESET_CRC = {start: crc16([0xE1E1], start) for start in (CCITT, XMODEM)}


def asked(start, note, word):
    """A soft reset of the maker's by this algorithm, and a CRC word."""
    opened = {"phase": 1, "phase.crc": RESET_CRC[start], "open": 6, "xmodem": int(start == XMODEM)}
    return [MAKERS_UP, ("1 E1E1 0 FFFF 1", opened), ("1 %04X %d FFFF 1" % (word, note), {"phase": 2, "phase.crc": start, "open": 0})]


def wrote(value):
    """A REG_WR of SPICTRL in the maker's layout, of what is writable."""
    opened = {"phase": 1, "open": 4, "open.address": 1, "open.count": 1}
    return [MAKERS_UP, ("1 B040 0 FFFF 1", opened), ("1 %04X 0 FFFF 1" % value, {"phase.got": 1, "spictrl": value & 0x30F7})]


# lines of `states`, each with what it changed; what is said of the last
TOLD = [
    ([OURS_UP], "power-up, good OTP: state NORMAL, POR up"),
    ([MAKERS_UP], "power-up, good OTP, the maker's layout: state NORMAL, POR up; SPICTRL is 00A0 (watchdog 40 ms, CCITT-FALSE, timeout code 10 without effect)"),
    ([("0 0002 0 FFFF 1", {**MAKERS_UP[1], "mode": 1, "otp": 1})],
     "power-up, bad OTP, the maker's layout: state INIT, OTP, POR up; SPICTRL is 00A0 (watchdog 40 ms, CCITT-FALSE, timeout code 10 without effect)"),
    ([MAKERS_UP, ("0 0000 0 FFFF 1", {"spictrl": 0, "txfflvl": 63, "layout": 0, "mode": 1, "otp": 1})], "power-up, bad OTP: state INIT, OTP, POR up"),
    ([OURS_UP, ("1 E1E1 3 FFFF 1", {"phase": 3})], "note 3, no command word: all is dropped until chip select is released"),
    ([MAKERS_UP, ("1 E000 3 FFFF 1", {"phase": 3})], "note 3, no command word of the maker's layout: all is dropped until chip select is released"),
    ([OURS_UP, ("1 B001 0 FFFF 1", {"phase": 1, "open": 4, "open.address": 1, "open.count": 1}), ("1 3504 0 FFFF 1", {"phase.got": 1, "spictrl": 0x3500})],
     "word 1 of 1: SPICTRL is 3500"),
    (wrote(0x10A4), "word 1 of 1: SPICTRL is 10A4 (watchdog 20 ms, CRC-16/XMODEM from the next frame on, timeout code 10 without effect)"),
    (wrote(0x2000), "word 1 of 1: SPICTRL is 2000 (watchdog 10 ms, CCITT-FALSE, timeout code 0 without effect)"),
    (wrote(0xFFFF), "word 1 of 1: SPICTRL is 30F7 (watchdog off, CRC-16/XMODEM from the next frame on, timeout code 15 without effect, "
                    "SDO bit without effect, no STATUS answered)"),
    (asked(XMODEM, 0, RESET_CRC[XMODEM])[:2], "frame opened: SOFTRESET_CRC, CRC by CRC-16/XMODEM"),
    (asked(XMODEM, 0, RESET_CRC[XMODEM]), "CRC word, right by CRC-16/XMODEM; soft reset: TX, queue and RX emptied"),
    (asked(CCITT, 0, RESET_CRC[CCITT])[:2], "frame opened: SOFTRESET_CRC"),
    (asked(CCITT, 0, RESET_CRC[CCITT]), "CRC word, right; soft reset: TX, queue and RX emptied"),
    (asked(XMODEM, 6, RESET_CRC[CCITT]),
     "CRC word of CCITT-FALSE, and this frame's is of CRC-16/XMODEM; note 6, wrong CRC word: nothing of this frame is queued, written or read"),
    (asked(CCITT, 6, RESET_CRC[XMODEM]),
     "CRC word of CRC-16/XMODEM, and this frame's is of CCITT-FALSE; note 6, wrong CRC word: nothing of this frame is queued, written or read"),
    (asked(CCITT, 6, RESET_CRC[CCITT] ^ 1), "note 6, wrong CRC word: nothing of this frame is queued, written or read"),
    ([OURS_UP, ("1 E000 0 FFFF 1", {"phase": 1, "phase.crc": 0x0DBD, "open": 6}), ("1 %04X 6 FFFF 1" % crc16([0xE000], XMODEM), {"phase": 2})],
     "note 6, wrong CRC word: nothing of this frame is queued, written or read"),
]
NOT_STATES = ["9 0000 0 FFFF 1", "0 0003 16 FFFF 1", "0 0003 0 FFFF 1 999=1", "0 0003 0 FFFF 1 layout=1", "power good makers and more", "1 GGGG 0 FFFF 1"]


def in_words():
    """What tools/explain.py says of lines of `states`, in both layouts; and of lines that are none."""
    for lines, words in TOLD:
        given = [START, *(" ".join([line, *("%d=%d" % (explain.COLUMNS.index(name), value) for name, value in changed.items())]) for line, changed in lines)]
        *_, last = explain.told(given)
        if last != "%-16s  %s" % (lines[-1][0], words):
            yield "explain: %r is told as %r, expected %r" % (lines[-1][0], last, words)
    for line in NOT_STATES:
        done = subprocess.run([EXPLAIN], input=(START + "\n" + line + "\n").encode(), capture_output=True)
        yield from ("explain %r: %s" % (line, what) for what in otherwise(done, 1, b"", "^explain: line 2 is not what `states` prints: "))


def wrong(work):
    yield from statuses()
    yield from layouts()
    yield from bad_words()
    yield from in_words()
    for tool, arguments, given, status, stdout, stderr in CALLS:
        for what in otherwise(called(tool, arguments, given, work), status, stdout, stderr):
            yield "%s %s: %s" % (tool.name, " ".join(map(str, arguments)) or repr(given[:20]), what)
    for what in otherwise(called(work / "bench", [LIGHT], b"", work), 0, LINES, ""):
        yield "through a symbolic link: " + what
    for tool, arguments in ((BENCH, [LIGHT]), (BENCH, ["--help"]), (SCRIPT, [LIGHT]), (STATUS, ["0400"]), (BOARD, [HEAVY])):
        with open("/dev/full", "wb") as full:
            done = called(tool, arguments, b"", work, full)
        done.stdout = b""
        for what in otherwise(done, 1, b"", "cannot be written: No space left"):
            yield "full disk, %s: %s" % (tool.name, what)
    (work / "programs/damaged").mkdir()
    (work / "programs/damaged/bench").write_bytes(b"no program")
    (work / "programs/damaged/bench").chmod(0o755)
    for what in otherwise(called(BENCH, [LIGHT], b"", work, BENCH_BIN=str(work / "programs/damaged")), 1, b"", "cannot be started: .*; build it again"):
        yield "damaged program: " + what
    states = (TOP / "crates/states/stdout").read_text().splitlines()
    words = "".join(line + "\n" for line in explain.told(states)).encode()
    given = (TOP / "crates/states/stdin").read_bytes()
    for what in otherwise(called(BENCH, ["--explain"], given, work), 1, words, "kind 9 is no event"):
        yield "--explain: " + what
    if (work / "given").read_bytes() != given:
        yield "--explain: the program was given another script"
    os.environ["BENCH_BIN"] = str(work / "folder")
    for what in otherwise(called(BENCH, [LIGHT], b"", work), 1, b"", "bench: there is no program that can be run: BENCH_BIN names that folder$"):
        yield "not built: " + what


def main():
    with tempfile.TemporaryDirectory() as folder:
        work = pathlib.Path(folder)
        prepared(work)
        bad = list(wrong(work))
    if bad:
        print(*bad, sep="\n")
        sys.exit("tools: %d not as they should be" % len(bad))
    print("tools: %d calls as they should be, %d lines in words" % (len(CALLS) + 9, len(TOLD)))


if __name__ == "__main__":
    main()
