"""A row of bits by 01's rules of the line alone, for comparison with what a picture says of it."""


def read(bits):
    """Words of a row of bits by 01's rules alone: value and the number of its check bit, counted from 1; None at the end of a command.

    Only for rows in which every command goes to its end.
    """
    at = 0
    while at < len(bits):
        if bits[at]:
            at += 1
            continue
        at += 1
        while at < len(bits) and not all(bits[at:at + 17]):
            group = bits[at:at + 17]
            at += 17
            if len(group) == 17:
                assert group[16] != group[15], "no check bit at %d" % at
                yield int("".join(map(str, group[:16])), 2), at
        yield None, at
        at += 18


def heard(bits):
    """Words that a row of bits brings by 01's rules of the reader: the number of the check bit, counted from 1, and value. For rows without a reset."""
    group, ones, lost = None, 0, False
    for number, bit in enumerate(bits, 1):
        ones = ones + 1 if bit else 0
        if group is None:
            group = None if bit else []
        elif ones == 18:
            group, lost = None, False
        elif not lost:
            group.append(bit)
            if len(group) == 17 and group[16] != group[15]:
                yield number, int("".join(map(str, group[:16])), 2)
                group = []
            elif len(group) >= 17:
                lost = len(group) > 17 or not all(group)


def due_marks(bits):
    """Start bits, words, check bits and first ENDs of a row of bits by 01's rules, as `marked` gives them."""
    row, at = "".join(map(str, bits)), 0
    for word, end in read(bits):
        start = row.find("0", at) + 1 if at is not None else None
        if start:
            yield ["start bit", start, start, "0"]
        if word is not None:
            yield ["word %04X" % word, end - 16, end - 1, "{:016b}".format(word)]
            yield ["check bit", end, end, row[end - 1]]
            at = None
        else:
            yield ["END", end + 1, min(end + 18, len(row)), row[end:end + 18]]
            at = end + 18
