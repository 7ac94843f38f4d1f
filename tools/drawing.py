"""Draws slots of a run as SVG: the line's bits with the parts of the command that they are, and the host's words where they came.

A column is an event, so widths are no times. The drawing loads nothing and runs nothing; a screen reader gets its title and a description.
"""
import textwrap
from xml.sax.saxutils import escape

from explain import CLOCK, POWER, RELEASE, TICK, WORD
from slots import ANSWER, CHECK, DROPPED, END, EXTRA, IDLE, START, WORD_BITS, WRONG, parts

WIDTH, LEFT, RIGHT = 940, 58, 20
ROOM = WIDTH - LEFT - RIGHT
WIDE = {TICK: 15, WORD: 52, RELEASE: 18, CLOCK: 52, POWER: 52}
LEAST_ROW = 0.6  # of the room that a row fills where it is broken between two parts
UPPER = {START: "start", CHECK: "check", WRONG: "wrong check bit"}  # parts of one tick, whose name stands above
FILLS = {START: "#ffd9a0", WORD_BITS: "#cfe4ff", CHECK: "#ffd9a0", END: "#d9ecd0", EXTRA: "#e9f4e3", IDLE: "#f3f3f3", WRONG: "#ffb3ad", DROPPED: "#f0dcdc"}
INK, GREY, BLUE, RED, HOST = "#1f2328", "#667078", "#0b57a4", "#b3261e", "#f1eafa"
LETTER = 0.6  # a letter's width, of its size
TICKS_TOLD = 5  # every so many ticks have their number


class Sheet:
    """The elements of the drawing, from top to bottom."""

    def __init__(self):
        self.made = []

    def text(self, x, y, said, size=10, anchor="middle", fill=INK, more=""):
        self.made.append('<text x="%g" y="%g" font-size="%g" text-anchor="%s" fill="%s"%s>%s</text>' % (x, y, size, anchor, fill, more, escape(said)))

    def code(self, x, y, said, size=11, **how):
        self.text(x, y, said, size, more=' font-family="monospace"', **how)

    def box(self, x, y, wide, high, fill, title="", edge=GREY, more=""):
        inner = "<title>%s</title>" % escape(title) if title else ""
        self.made.append('<rect x="%g" y="%g" width="%g" height="%g" fill="%s" stroke="%s" stroke-width="0.7"%s>%s</rect>' % (
            x, y, wide, high, fill, edge, more, inner))

    def path(self, points, ink, thick=1.5):
        self.made.append('<path d="%s" fill="none" stroke="%s" stroke-width="%g"/>' % (
            "M" + " L".join("%g %g" % point for point in points), ink, thick))


def fits(said, size, room):
    return len(said) * size * LETTER <= room


# ---- rows ----

def break_at(slots, at):
    """How well a row begins here: 2 where neither a part of a command nor a frame is cut, 1 where no part is."""
    before, here = slots[at - 1], slots[at]
    if before.kind == here.kind == TICK and before.sout_part is here.sout_part:
        return 0
    return 1 if here.frame is not None and here.frame is before.frame else 2


def rows(slots):
    """The slots, as many in a row as there is room for; broken where it is best, if the row is then not too short."""
    first = 0
    while first < len(slots):
        end, wide, breaks = first, 0, {}
        while end < len(slots) and wide + WIDE[slots[end].kind] <= ROOM:
            wide += WIDE[slots[end].kind]
            end += 1
            if end < len(slots) and wide >= LEAST_ROW * ROOM:
                breaks[break_at(slots, end)] = end
        if end < len(slots):
            end = breaks[max(breaks)]
        yield slots[first:end]
        first = end


def placed(row):
    """Each slot of a row with the left and the right end of its column."""
    x = LEFT
    for slot in row:
        yield slot, x, x + WIDE[slot.kind]
        x += WIDE[slot.kind]


def runs(columns, of):
    """The columns in runs of one and the same thing: the thing, and where it begins and ends; columns of which it is None are left out."""
    found = []
    for slot, x, end in columns:
        thing = of(slot)
        if thing is not None and found and found[-1][0] is thing:
            found[-1][2] = end
        elif thing is not None:
            found.append([thing, x, end])
    return found


# ---- a wire ----

def bit_of(slot, wire):
    return slot.sout if wire == "SOUT" else slot.sin


def part_of(slot, wire):
    return slot.sout_part if wire == "SOUT" else slot.sin_part


def told(part):
    """A part in words, with its ticks."""
    return "%s, %s" % (part.name(), "tick %d" % part.first if part.ticks == 1 else "ticks %d to %d" % (part.first, part.first + part.ticks - 1))


def marks(sheet, columns, wire, y):
    """The parts above a wire. A part that goes on behind other events, or in the next row, is one part."""
    for part, x, end in runs([column for column in columns if column[0].kind == TICK], lambda slot: part_of(slot, wire)):
        sheet.box(x, y, end - x, 15, FILLS[part.kind], "%s: %s" % (wire, told(part)))
        if part.kind in UPPER:
            sheet.text((x + end) / 2, y - 4, UPPER[part.kind], 9.5, fill=RED if part.kind == WRONG else INK)
        else:
            names = [part.name(), *(["%04X" % part.value] if part.value is not None and not part.cut else [])]
            said = next((name for name in names if fits(name, 10.5, end - x)), None)
            if said:
                sheet.text((x + end) / 2, y + 11, said, 10.5)


def wave(sheet, columns, level, high, low, ink):
    """A wire's levels, column by column."""
    points = []
    for slot, x, end in columns:
        y = high if level(slot) else low
        points += [(x, y), (end, y)]
    sheet.path(points, ink)


def line_wire(sheet, columns, wire, y):
    """A wire of the line with its marks; gives the height."""
    sheet.text(LEFT - 8, y + 46, wire, 11.5, "end", more=' font-weight="bold"')
    marks(sheet, columns, wire, y + 14)
    wave(sheet, columns, lambda slot: bit_of(slot, wire), y + 35, y + 55, BLUE)
    for slot, x, end in columns:
        if slot.kind == TICK:
            sheet.code((x + end) / 2, y + 49, str(bit_of(slot, wire)), 10.5)
    return 64


# ---- the host ----

def frames(sheet, columns, y):
    """A bracket over each frame, with its command where there is room."""
    for frame, x, end in runs(columns, lambda slot: slot.frame):
        sheet.path([(x + 2, y + 17), (x + 2, y + 13), (end - 2, y + 13), (end - 2, y + 17)], GREY, 1)
        said = next((name for name in (frame.said, frame.name) if fits(name, 9.5, end - x)), None)
        if said:
            sheet.text((x + end) / 2, y + 10, said, 9.5)


def below(slot):
    """What stands under an event's box: two lines."""
    if slot.kind == WORD:
        return slot.role, "SDO %04X" % slot.sdo if slot.role == ANSWER else "queued" if slot.queued else ""
    if slot.kind == POWER:
        return "power-up", ("good" if slot.value % 2 else "bad") + " OTP"
    return "clock", "reading"


def host(sheet, columns, y):
    """Chip select, frames and the host's words; gives the height."""
    sheet.text(LEFT - 8, y + 12, "CS", 11.5, "end", more=' font-weight="bold"')
    wave(sheet, columns, lambda slot: slot.cs_n, y + 3, y + 14, INK)
    frames(sheet, columns, y + 16)
    sheet.text(LEFT - 8, y + 49, "host", 11.5, "end", more=' font-weight="bold"')
    for slot, x, end in columns:
        if slot.kind in (TICK, RELEASE):
            continue
        sheet.box(x + 2, y + 35, end - x - 4, 19, "#e4d6f5" if slot.kind == WORD else "#ffffff", slot.said)
        value = {WORD: "%04X" % slot.value, POWER: "power"}.get(slot.kind, "%d" % slot.value)
        sheet.code((x + end) / 2, y + 49, value, 12)
        first, second = below(slot)
        sheet.text((x + end) / 2, y + 65, first, 9.5)
        if second:
            sheet.text((x + end) / 2, y + 76, second, 9, more=' font-weight="bold"' if slot.queued else "")
    return 82


def notes(sheet, columns, y):
    """The notes that are not 0; gives the height."""
    found = [(slot, (x + end) / 2) for slot, x, end in columns if slot.note]
    if not found:
        return 0
    sheet.text(LEFT - 8, y + 11, "note", 10, "end", fill=RED)
    for slot, x in found:
        sheet.box(x - 8, y, 16, 14, "#ffffff", "note %d" % slot.note, RED)
        sheet.text(x, y + 11, "%d" % slot.note, 10, fill=RED)
    return 18


# ---- the ruler ----

def ruler(sheet, columns, y):
    """Numbers of ticks and of the script's lines; gives the height."""
    free = 0
    ticks = [(slot, (x + end) / 2) for slot, x, end in columns if slot.kind == TICK]
    for at, (slot, x) in enumerate(ticks):
        if (at == 0 or slot.tick % TICKS_TOLD == 0) and x - 9 >= free:
            sheet.text(x, y + 9, "%d" % slot.tick, 9, fill=GREY)
            free = x + 3 * len("%d" % slot.tick) + 3
    if ticks:
        sheet.text(LEFT - 8, y + 9, "tick", 9, "end", GREY)
    high = 12 if ticks else 0
    if not any(slot.line for slot, _, _ in columns):
        return high
    sheet.text(LEFT - 8, y + high + 9, "text line", 9, "end", GREY)
    free, before = 0, None
    for slot, x, _ in columns:
        if slot.line != before and x >= free:
            sheet.path([(x + 0.5, y + high), (x + 0.5, y + high + 10)], GREY, 0.7)
            sheet.text(x + 3, y + high + 9, "%d" % slot.line, 9, "start", GREY)
            free = x + 3 + 5.5 * len("%d" % slot.line)
        before = slot.line
    return high + 14


def row_drawn(sheet, row, wires, y):
    """Draws a row at this height; gives the height below it."""
    columns = list(placed(row))
    bands, top = len(sheet.made), y
    for wire in wires:
        y += line_wire(sheet, columns, wire, y)
    if any(slot.kind != TICK for slot in row):
        y += host(sheet, columns, y)
    y += notes(sheet, columns, y)
    for slot, x, end in columns:
        if slot.kind not in (TICK, RELEASE):  # behind what is drawn there, so that a word between two bits is seen to be so
            sheet.made.insert(bands, '<rect x="%g" y="%g" width="%g" height="%g" fill="%s"/>' % (x, top + 12, end - x, y - top - 12, HOST))
    return y + ruler(sheet, columns, y) + 14


# ---- the whole ----

def described(slots, wires):
    """The drawing in words."""
    for wire in wires:
        yield "%s: %s." % (wire, ", ".join(part.name() for part in parts(slots, wire)) or "no tick")
    words = ["%04X (%s%s)" % (slot.value, slot.role, ", queued" if slot.queued else "") for slot in slots if slot.kind == WORD]
    if words:
        yield "Host words: %s." % ", ".join(words)
    for slot in slots:
        if slot.note:
            yield "%s: %s." % (where(slot), slot.said)


def where(slot):
    at = "tick %d" % slot.tick if slot.kind == TICK else "event %d" % slot.number
    return "%s, line %d" % (at, slot.line) if slot.line else at


def stretch(slots):
    """Which part of the run this is, in words."""
    first, last = slots[0], slots[-1]
    ticks = [slot.tick for slot in slots if slot.kind == TICK]
    of = "lines %d to %d" % (first.line, last.line) if first.line else "events %d to %d" % (first.number, last.number)
    return of + (", ticks %d to %d" % (ticks[0], ticks[-1]) if ticks else "")


def listed(sheet, slots, y):
    """The notes in words, below the rows; gives the height below them."""
    for slot in slots:
        for said in textwrap.wrap("%s: %s" % (where(slot), slot.said), int(ROOM / (10 * LETTER))) if slot.note else ():
            sheet.text(LEFT, y + 10, said, 10, "start", RED)
            y += 14
    return y


def drawn(name, slots):
    """The SVG of these slots, one at least."""
    heard = any(slot.sin_part and slot.sin_part.kind != IDLE for slot in slots)
    wires = (["SOUT"] if any(slot.kind == TICK for slot in slots) else []) + (["SIN"] if heard else [])
    title = "%s, %s" % (name, stretch(slots))
    sheet = Sheet()
    sheet.text(LEFT, 16, title, 12, "start", more=' font-weight="bold"')
    y = 26
    for row in rows(slots):
        y = row_drawn(sheet, row, wires, y)
    y = listed(sheet, slots, y - 4)
    sheet.text(LEFT, y + 10, "A column is an event: a bit of the line, a host word, chip select released. Time is not measured.", 9, "start", GREY)
    head = '<svg xmlns="http://www.w3.org/2000/svg" width="%d" height="%d" viewBox="0 0 %d %d" role="img" aria-labelledby="title desc"' % (
        WIDTH, y + 18, WIDTH, y + 18) + ' font-family="sans-serif">'
    return "\n".join([head, '<title id="title">%s</title>' % escape(title), '<desc id="desc">%s</desc>' % escape(" ".join(described(slots, wires))),
                      '<rect width="%d" height="%d" fill="#ffffff"/>' % (WIDTH, y + 18), *sheet.made, "</svg>", ""])
