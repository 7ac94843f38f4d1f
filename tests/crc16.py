#!/usr/bin/env python3
"""Recomputes crates/crc16_main/stdout by the standard library's CRC-CCITT and compares, byte for byte. Each line has the same number twice: by the
table of sixteen entries, and by that of 256.

crc16.py          `crc16: N lines agree`, or the first line that differs and exit status 1
crc16.py --write  writes the file
"""
import binascii
import pathlib
import sys

STDOUT = pathlib.Path(__file__).resolve().parent.parent / "crates/crc16_main/stdout"
START = 0xFFFF


def crc(words):
    return binascii.crc_hqx(b"".join(w.to_bytes(2, "big") for w in words), START)


def block(high):
    """32-bit FNV-1a over the CRCs of the one-word lists whose word has this high byte."""
    digest = 2166136261
    for low in range(256):
        for byte in crc([high * 256 + low]).to_bytes(2, "big"):
            digest = (digest ^ byte) * 16777619 % 2**32
    return digest


def generated(seed, count):
    """The high halves of a linear congruential generator's states."""
    state = seed
    for _ in range(count):
        state = (state * 1664525 + 1013904223) % 2**32
        yield state >> 16


def expected():
    lines = ["%08x" % block(high) for high in range(256)]
    lines += ["%04x" % crc(generated(n, 8 * n)) for n in range(512)]
    return "".join(f"{line} {line}\n" for line in lines)


def main():
    want = expected()
    if sys.argv[1:] == ["--write"]:
        STDOUT.write_text(want)
        return 0
    have = STDOUT.read_bytes()
    if have == want.encode():
        print("crc16: %d lines agree" % want.count("\n"))
        return 0
    wants, haves = want.encode().split(b"\n"), have.split(b"\n")
    at = next((i for i, (w, h) in enumerate(zip(wants, haves)) if w != h), min(len(wants), len(haves)))
    print("crc16: line %d: expected %r, found %r" % (at + 1, wants[at : at + 1], haves[at : at + 1]))
    return 1


sys.exit(main())
