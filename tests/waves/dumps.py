"""What a VCD has: read here, by sigrok-cli and by GTKWave's reader."""
import re
import subprocess


class Dump:
    """A VCD's signals by their names, each with its changes (time, value); a word's wires by name[bit]."""

    def __init__(self, text):
        self.changes, codes, path, time, kinds = {}, {}, [], 0, {}
        head, _, body = text.partition("$enddefinitions")
        for keyword, rest in re.findall(r"\$(\w+)\s+(.*?)\s*\$end", head, re.S):
            if keyword == "scope":
                path.append(rest.split()[1])
            elif keyword == "upscope":
                path.pop()
            elif keyword == "var":
                kind, size, code, *name = rest.split()
                codes[code] = ".".join([*path, "".join(name)])
                self.changes[codes[code]] = []
                kinds[kind, size] = kinds.get((kind, size), 0) + 1
        self.kinds = kinds
        words = iter(body.split()[1:])
        for word in words:
            if word[0] == "#":
                time = int(word[1:])
            elif word[0] != "$":
                code, value = (next(words, ""), float(word[1:])) if word[0] == "r" else (word[1:], word[0])
                self.changes.setdefault(codes.get(code, "?"), []).append((time, value))
        self.end = time

    def at(self, times):
        """The values of all signals at these times, ascending, each as a dict."""
        names, values, place = list(self.changes), {}, dict.fromkeys(self.changes, 0)
        for time in times:
            for name in names:
                changes, at = self.changes[name], place[name]
                while at < len(changes) and changes[at][0] <= time:
                    values[name] = changes[at][1]
                    at += 1
                place[name] = at
            yield dict(values)

    def rising(self, name):
        return [time for time, value in self.changes[name] if value == "1"]


def word_in(values, name):
    """A word of these values by its sixteen wires; as they stand where one has no level."""
    levels = "".join(values.get("%s[%d]" % (name, bit), "?") for bit in range(15, -1, -1))
    return int(levels, 2) if re.fullmatch("[01]+", levels) else levels


def sampled(dump):
    """What a program finds in a VCD at its strobes: bits of SOUT and SIN, host words with SDO, words of SOUT and of SIN with their ticks."""
    ticks = dump.rising("bridge.line.tick")
    bits = [(int(at["bridge.line.sout"]), int(at["bridge.line.sin"])) for at in dump.at(ticks)]
    words = [(word_in(at, "bridge.host.host_word"), word_in(at, "bridge.host.sdo")) for at in dump.at(dump.rising("bridge.host.host_strobe"))]
    numbers = {time: number for number, time in enumerate(ticks, 1)}

    def done(wire):
        times = dump.rising("bridge.line.%s_done" % wire)
        return [(numbers.get(time), word_in(at, "bridge.line.%s_word" % wire)) for time, at in zip(times, dump.at(times))]
    return bits, words, done("sout"), done("sin")


# ---- a VCD, read by others ----

def by_sigrok(vcd):
    """What sigrok-cli finds in a VCD, as `sampled` gives it but without SDO and the values of the line's words, and what it says of it."""
    done = subprocess.run(["sigrok-cli", "-l", "2", "-I", "vcd", "-i", vcd, "-O", "csv"], capture_output=True, text=True)
    channels = re.search(r"^; Channels .*?: (.*)$", done.stdout, re.M)
    names = [name.rpartition(".")[2] for name in channels[1].split(", ")] if channels else []  # later versions put the scope before a name
    bits, words, done_words, before, tick = [], [], {"sout": [], "sin": []}, {}, 0
    for line in done.stdout.splitlines():
        levels = line.split(",")
        if len(levels) != len(names) or levels[0] not in ("0", "1"):
            continue
        now = dict(zip(names, levels))
        rises = {name for name in ("tick", "host_strobe", "sout_done", "sin_done") if before.get(name) == "0" and now.get(name) == "1"}
        tick += "tick" in rises
        if "tick" in rises:
            bits.append((int(now.get("sout", -1)), int(now.get("sin", -1))))
        if "host_strobe" in rises:
            words.append(word_in(now, "host_word"))
        for wire, found in done_words.items():
            if wire + "_done" in rises:
                found.append(tick)
        before = now
    return (bits, words, *done_words.values()), done.stderr.strip() or (done.returncode and "status %d" % done.returncode)


def by_gtkwave(vcd):
    """A VCD as GTKWave's reader took it, and what that says."""
    fst = vcd.with_suffix(".fst")
    first = subprocess.run(["vcd2fst", vcd, fst], capture_output=True, text=True, errors="replace")
    again = subprocess.run(["fst2vcd", fst], capture_output=True, text=True, errors="replace")
    said = first.stdout + first.stderr + again.stderr
    return Dump(again.stdout), said.strip() or (first.returncode or again.returncode) and "status %d, %d" % (first.returncode, again.returncode)
