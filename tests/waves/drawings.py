"""What a drawing has: its texts, its marks and the bits drawn under each."""
import re
import xml.etree.ElementTree

SVG = "{http://www.w3.org/2000/svg}"


def numbers(element, *names):
    return (float(element.get(name, 0)) for name in names)


class Drawing:
    """Marks, digits and texts of a drawing."""

    def __init__(self, text):
        self.root = xml.etree.ElementTree.fromstring(text)
        self.texts = [(*numbers(one, "x", "y", "font-size"), one.get("text-anchor"), one.text or "") for one in self.root.iter(SVG + "text")]
        self.marks = [(*numbers(one, "x", "y", "width"), one.find(SVG + "title").text)
                      for one in self.root.iter(SVG + "rect") if one.find(SVG + "title") is not None]
        self.paths = [[tuple(map(float, point.split())) for point in one.get("d").lstrip("M").split(" L")] for one in self.root.iter(SVG + "path")]

    def bits(self, x, y, wide):
        """Place and digit of the bits drawn under a mark, in order."""
        return [(at, height, said) for at, height, _, _, said in sorted(self.texts) if said in ("0", "1") and x < at < x + wide and y + 15 < height < y + 45]

    def digits(self, x, y, wide):
        return "".join(said for _, _, said in self.bits(x, y, wide))

    def is_high(self, x, y):
        """Whether the wire passes above this digit's foot by more than the digit is high, and not below it."""
        heights = {one[1] for path in self.paths for one, two in zip(path, path[1:]) if one[0] < x < two[0] and one[1] == two[1] and y - 20 < one[1] < y + 10}
        return min(heights) < y - 8 if len(heights) == 1 else None

    def said_in(self, x, y, wide, high):
        return [said for at, height, _, _, said in self.texts if x <= at <= x + wide and y <= height <= y + high]


def marked(drawing, wire):
    """The parts that are marked on a wire, with the bits drawn under each. A part that stands in two rows is one."""
    parts = []
    for x, y, wide, title in drawing.marks:
        if found := re.fullmatch(r"%s: (.*?), (?:tick (\d+)|ticks (\d+) to (\d+))" % wire, title):
            name, first, last = found[1], int(found[2] or found[3]), int(found[2] or found[4])
            if parts and parts[-1][:3] == [name, first, last]:
                parts[-1][3] += drawing.digits(x, y, wide)
            else:
                parts.append([name, first, last, drawing.digits(x, y, wide)])
    return parts


UPPER = {"start bit": "start", "check bit": "check"}
LEAST_NAMED = 70  # a mark as wide as this has its name in it


def of_marks(drawing):
    """Marks that do not say what they are, and wires that do not run as the bits under them."""
    for x, y, wide, title in drawing.marks:
        if found := re.fullmatch(r"S(?:OUT|IN): (.*?), ticks? .*", title):
            said = drawing.said_in(x, y - 8, wide, 8) if found[1] in UPPER else drawing.said_in(x, y, wide, 15)
            if said != [UPPER.get(found[1], found[1])] and (wide >= LEAST_NAMED or found[1] in UPPER):
                yield "the mark of %s says %s" % (title, said)
            yield from ("a wire does not run as its bit, a %s of %s" % (digit, title) for at, height, digit in drawing.bits(x, y, wide)
                        if drawing.is_high(at, height) is not (digit == "1"))


def of_page(name, text, drawing):
    """What no drawing may have, and texts that run into each other."""
    if re.search(r"<script|<style|href|url\(|@|<image|<foreignObject", text):
        yield "%s: it loads or runs something" % name
    if drawing.root.find(SVG + "title") is None or drawing.root.find(SVG + "desc") is None:
        yield "%s: it has no title or no description" % name
    rows = {}
    for x, y, size, anchor, said in drawing.texts:
        wide = 0.55 * size * len(said)
        left = {"start": x, "middle": x - wide / 2, "end": x - wide}[anchor]
        rows.setdefault(y, []).append((left, left + wide, said))
    for row in rows.values():
        row.sort()
        yield from ("%s: `%s` runs into `%s`" % (name, one[2], two[2]) for one, two in zip(row, row[1:]) if one[1] > two[0])
    wide = float(drawing.root.get("width"))
    yield from ("%s: `%s` runs over the edge" % (name, said) for row in rows.values() for left, right, said in row if left < 0 or right > wide)
