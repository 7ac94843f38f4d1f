"""The host's frames, in the one place where the tools make them: command word, data words, CRC word (01 Frames; 02 items 1 and 7).

An order as text, and in Python:

    FWD_WR_END_CRC ends=2 AAF0          order("FWD_WR_END_CRC ends=2 AAF0".split()), frame("FWD_WR_END_CRC", [0xAAF0], ends=2)
    makers FWD_WR_END_CRC ends=2 AAF0   frame("FWD_WR_END_CRC", [0xAAF0], MAKERS, ends=2): in the maker's words (001 table 7-2)
    xmodem FWD_WR_END_CRC ends=2 AAF0   the same with the CRC from 0, where SPICTRL's bit 2 was set before

A name of 01's table in capitals; the row's fields, decimal, all of them and no others, in any order, none twice: ends= (extra ENDs), address=,
count=; the data words, four hex digits each. What is outside 01's limits, which are the maker's too, is refused (`Refused`), so that every order's
frame is well-formed.
"""
import binascii
import collections
import re

from refused import refuse

OURS, MAKERS, XMODEM = "ours", "makers", "xmodem"
STARTS = {OURS: 0xFFFF, MAKERS: 0xFFFF, XMODEM: 0}  # of the CRC: 01 Frames, 001 7.5.3
LAYOUTS = (MAKERS, XMODEM)  # the words before a name that say another layout than ours
ADDRESSES = 12  # address + count, or address + words, at most: 02 item 4
Row = collections.namedtuple("Row", "number parts makers", defaults=[0])  # makers: low bits that the maker's word has besides
Part = collections.namedtuple("Part", "least most place makers less")  # a value's limits; value - less stands from bit `place` on, in the maker's `makers`

ENDS, ADDRESS, REGISTERS = Part(0, 127, 5, 0, 0), Part(0, ADDRESSES - 1, 0, 6, 0), Part(1, ADDRESSES, 8, 0, 1)
WRITE_END, READ_END = {"ends": ENDS, "words": Part(0, 31, 0, 7, 0)}, {"ends": ENDS, "words": Part(1, 32, 0, 7, 1)}
FETCH, WRITE, READ = {"count": Part(1, 256, 0, 0, 1)}, {"address": ADDRESS, "words": REGISTERS}, {"address": ADDRESS, "count": REGISTERS}
ROWS = {
    "FWD_WR_CRC": Row(2, {"words": Part(1, 512, 0, 0, 1)}), "FWD_WR": Row(3, {"words": Part(1, 4096, 0, 0, 1)}),
    "FWD_WR_END_CRC": Row(4, WRITE_END), "FWD_WR_END": Row(5, WRITE_END),
    "FWD_RD_END_CRC": Row(6, READ_END), "FWD_RD_END": Row(7, READ_END),
    "DATA_RD_CRC": Row(8, FETCH), "DATA_RD": Row(9, FETCH),
    "REG_WR_CRC": Row(10, WRITE), "REG_WR": Row(11, WRITE),
    "REG_RD_CRC": Row(12, READ), "REG_RD": Row(13, READ),
    "SOFTRESET_CRC": Row(14, {}, 0x1E1),
}
NAMES = {row.number: name for name, row in ROWS.items()}
COMMAND = "a command (%s)" % ", ".join(ROWS)


def crc(words, layout=OURS):
    return binascii.crc_hqx(b"".join(word.to_bytes(2, "big") for word in words), STARTS[layout])


def closed(words, layout=OURS):
    """These words and their CRC word, whatever they are."""
    return [*words, crc(words, layout)]


def is_hex(text):
    return re.fullmatch("[0-9A-Fa-f]{4}", text) is not None


def hex_words(texts):
    for text in texts:
        if not is_hex(text):
            refuse("four hex digits", [text])
    return [int(text, 16) for text in texts]


def fields_of(name):
    """The row's fields. The number of data words is no field: the words give it."""
    if name not in ROWS:
        refuse(COMMAND, [name])
    return [field for field in ROWS[name].parts if field != "words"]


def limits(name, part, values):
    """From what to what, and of what: 01's table, and address + count at most twelve."""
    least, most = ROWS[name].parts[part][:2]
    if part == "address" or "address" not in values:
        return least, most, name
    return least, ADDRESSES - int(values["address"]), "%s at address %d" % (name, int(values["address"]))


def span(least, most):
    return "%d to %d" % (least, most) if least < most else "%d" % least


def check_fields(name, fields):
    own = fields_of(name)
    for field in fields:
        if field not in own:
            refuse("no field%s for %s" % (" but " + ", ".join(part + "=" for part in own) if own else "", name), ["%s=%s" % (field, fields[field])])
    for field in own:
        least, most, where = limits(name, field, fields)
        value = str(fields.get(field, ""))
        if not re.fullmatch("[0-9]+", value) or not least <= int(value) <= most:
            refuse("%s=%s for %s" % (field, span(least, most), where), ["%s=%s" % (field, value)] if field in fields else "none")


def check_words(name, fields, size):
    if "words" not in ROWS[name].parts:
        if size:
            refuse("no words for %s" % name, str(size))
        return
    least, most, where = limits(name, "words", fields)
    if not least <= size <= most:
        refuse("%s word%s for %s" % (span(least, most), "s" if most > 1 else "", where), str(size or "none"))


def command(name, size, fields, layout=OURS):
    """The command word of an order with so many data words. The fields are numbers, or decimal text."""
    check_fields(name, fields)
    check_words(name, fields, size)
    number, parts, makers = ROWS[name]
    values = {**fields, "words": size}
    if layout == OURS:
        return number << 12 | sum(int(values[part]) - at.less << at.place for part, at in parts.items())
    return number << 12 | makers | sum(int(values[part]) - at.less << at.makers for part, at in parts.items())


def frame(name, words=(), layout=OURS, **fields):
    """The words of an order's frame."""
    return closed([command(name, len(words), fields, layout), *words], layout)


def parted(texts):
    """Fields and words of an order's text behind its name."""
    front = next((at for at, text in enumerate(texts) if "=" not in text), len(texts))
    fields = {}
    for text in texts[:front]:
        field, _, value = text.partition("=")
        if field in fields:
            refuse("%s= once" % field, ["%s=%s" % (field, fields[field]), text])
        fields[field] = value
    late = [text for text in texts[front:] if "=" in text]
    if late:
        refuse("fields before the words", late[:1])
    return fields, texts[front:]


def order(texts):
    """The words of the frame that an order's text asks for."""
    layout = texts[0] if texts and texts[0] in LAYOUTS else OURS
    texts = texts if layout == OURS else texts[1:]
    if not texts or texts[0] not in ROWS:
        refuse(COMMAND, texts[:1])
    fields, texts_of_words = parted(texts[1:])
    words = hex_words(texts_of_words)
    return closed([command(texts[0], len(words), fields, layout), *words], layout)


def shown(words):
    return " ".join("%04X" % word for word in words)


def listed():
    """01's table as orders are written: a line a command."""
    for name, (_, parts, _) in ROWS.items():
        fields = " ".join("%s=%d..%d" % (field, *parts[field][:2]) for field in fields_of(name))
        words = "%s words" % span(*parts["words"][:2]) if "words" in parts else "no words"
        both = ", address + %s at most %d" % ("words" if "words" in parts else "count", ADDRESSES) if "address" in parts else ""
        yield "%-16s%-29s%s%s" % (name, fields, words, both)
