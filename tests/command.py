#!/usr/bin/env python3
"""The command words by another hand, in both layouts: what `command_main` must print, made from 01's table (Frames), 02 item 4's address limit
and document 001's table 7-2 (02 item 7) alone.

Our layout first: for each command number a digest of its 4,096 words, then how many words there are of each kind. Behind a line `maker's` the
same for the maker's layout. Compares with crates/command_main/stdout byte for byte; --write writes that file. The digest is described in
crates/command_main/src/main.rt.
"""
import sys
from pathlib import Path

EXPECTED = Path(__file__).resolve().parent.parent / "crates" / "command_main" / "stdout"
ALONE = ("filler", "malformed", "soft reset")
KINDS = ["filler", "malformed", "forward", "data read", "register write", "register read", "soft reset"]
NAMES = {
    2: "FWD_WR_CRC", 3: "FWD_WR", 4: "FWD_WR_END_CRC", 5: "FWD_WR_END", 6: "FWD_RD_END_CRC", 7: "FWD_RD_END", 8: "DATA_RD_CRC",
    9: "DATA_RD", 10: "REG_WR_CRC", 11: "REG_WR", 12: "REG_RD_CRC", 13: "REG_RD", 14: "SOFTRESET_CRC",
}
MALFORMED = ("malformed", False, {})


def bits(word, high, low):
    """Bits high..low, as the table writes them."""
    return word >> low & (1 << high - low + 1) - 1


def fields(name, word):
    """A command's kind, and its fields in the digest's order, by its row; None where the row does not allow the low bits."""
    if name == "FWD_WR":
        return "forward", {"words": bits(word, 11, 0) + 1, "ends": 0, "reads": 0}
    if name == "FWD_WR_END":
        return "forward", {"words": bits(word, 4, 0), "ends": bits(word, 11, 5), "reads": 0}
    if name == "FWD_RD_END":
        return "forward", {"words": bits(word, 4, 0) + 1, "ends": bits(word, 11, 5), "reads": 1}
    if name == "DATA_RD":
        return None if bits(word, 11, 8) else ("data read", {"words": bits(word, 7, 0) + 1})
    if name == "SOFTRESET":
        return None if bits(word, 11, 0) else ("soft reset", {})
    address, count = bits(word, 3, 0), bits(word, 11, 8) + 1
    if bits(word, 7, 4) or address + count > 12:
        return None
    return {"REG_WR": "register write", "REG_RD": "register read"}[name], {"address": address, "count": count}


def makers_fields(name, word):
    """The same by the row of document 001's table 7-2. Its fixed fields have the value that stands there; a length means one word more, but for
    opt_data_length (7.5.3). FWD_WR_CRC is no FWD_WR here: its length has nine bits."""
    plain = name.removesuffix("_CRC")
    if name == "FWD_WR_CRC":
        return None if bits(word, 11, 9) else ("forward", {"words": bits(word, 8, 0) + 1, "ends": 0, "reads": 0})
    if plain == "FWD_WR":
        return "forward", {"words": bits(word, 11, 0) + 1, "ends": 0, "reads": 0}
    if plain == "FWD_WR_END":
        return "forward", {"words": bits(word, 11, 7), "ends": bits(word, 6, 0), "reads": 0}
    if plain == "FWD_RD_END":
        return "forward", {"words": bits(word, 11, 7) + 1, "ends": bits(word, 6, 0), "reads": 1}
    if plain == "DATA_RD":
        return None if bits(word, 11, 8) else ("data read", {"words": bits(word, 7, 0) + 1})
    if plain == "SOFTRESET":
        return ("soft reset", {}) if bits(word, 11, 0) == 0x1E1 else None
    address, count = bits(word, 9, 6), bits(word, 3, 0) + 1
    if bits(word, 11, 10) or bits(word, 5, 4) or address + count > 12:
        return None
    return {"REG_WR": "register write", "REG_RD": "register read"}[plain], {"address": address, "count": count}


def decode(word):
    """A word's kind, whether its command is named _CRC, and its fields."""
    if word == 0xFFFF:
        return "filler", False, {}
    name = NAMES.get(bits(word, 15, 12))
    if name is None:
        return MALFORMED
    found = fields(name.removesuffix("_CRC"), word)
    if found is None or name == "FWD_WR_CRC" and found[1]["words"] > 512:
        return MALFORMED
    return found[0], name.endswith("_CRC"), found[1]


def decode_makers(word):
    """The same of a word in the maker's layout."""
    if word == 0xFFFF:
        return "filler", False, {}
    name = NAMES.get(bits(word, 15, 12))
    found = makers_fields(name, word) if name else None
    return (found[0], name.endswith("_CRC"), found[1]) if found else MALFORMED


def label(kind, crc, values):
    if kind in ALONE:
        return kind
    way = "" if kind != "forward" else " reads" if values["reads"] else " write"
    return f"{kind}{way} {'crc' if crc else 'plain'}"


def labels():
    yield "filler"
    yield "malformed"
    for kind in ("forward write", "forward reads", "data read", "register write", "register read"):
        yield f"{kind} crc"
        yield f"{kind} plain"
    yield "soft reset"


def lines(read):
    """What is printed of one layout, whose words `read` decodes."""
    counts = dict.fromkeys(labels(), 0)
    for number in range(16):
        digest = 0
        for low in range(4096):
            kind, crc, values = read(number << 12 | low)
            counts[label(kind, crc, values)] += 1
            # a soft reset has one form only, so it has no field that says _CRC
            named = [] if kind in ALONE else [int(crc)]
            for field in [KINDS.index(kind)] + named + list(values.values()):
                digest = (digest * 65599 + field + 1) % 4294967291
        yield f"number {number} digest {digest:08x}\n"
    for name, count in counts.items():
        yield f"{name} {count}\n"


def main():
    ours = [line.encode() for line in (*lines(decode), "maker's\n", *lines(decode_makers))]
    if "--write" in sys.argv[1:]:
        EXPECTED.write_bytes(b"".join(ours))
        return 0
    theirs = EXPECTED.read_bytes().splitlines(keepends=True)
    for at in range(max(len(ours), len(theirs))):
        mine, other = ours[at : at + 1], theirs[at : at + 1]
        if mine != other:
            print(f"command: line {at + 1} differs: expected {mine}, found {other}")
            return 1
    print(f"command: {len(ours)} lines agree")
    return 0


if __name__ == "__main__":
    sys.exit(main())
