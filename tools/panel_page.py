"""The page of a night that tools/panel makes: HTML with its style and its script in it, nothing from elsewhere.

Everything that comes from the text is escaped. And the page's own rule of what may run in it (Content-Security-Policy) has the digests of this style
and this script: nothing else would run, and nothing would be fetched, if something slipped through.
"""
import base64
import dataclasses
import hashlib
import html
import json
import typing

SLOTS = 40
HUES = 6  # colours by which neighbours on the line are told apart
MOST_WORDS = 3  # of a call-up in its slot; the table has all
WIDE = 1000  # width of what shows the whole night, in its own units
STATES = {  # of a slot: sign, word, what it means
    "empty": ("\N{EN DASH}", "empty", "nothing taken yet"),
    "called": ("\N{HORIZONTAL ELLIPSIS}", "called up", "waits for room"),
    "taken": ("\N{BLACK CIRCLE}", "taken", "waits for the line"),
    "line": ("\N{BLACK RIGHT-POINTING TRIANGLE}", "on the line", "goes out now"),
    "shown": ("\N{CHECK MARK}", "shown", "words and VSYNC out"),
}
GOOD, BAD = "\N{CHECK MARK}", "\N{MULTIPLICATION X}"


@dataclasses.dataclass
class CallUp:
    """A call-up as the program told it, and what text and line add. A tick is the number of ticks made before."""
    number: int
    slot: int
    reading: int
    count: int  # of words
    told: int  # the tick at which it was taken or refused
    refusal: typing.Optional[int]  # None where it was taken
    reason: typing.Optional[str]
    shown: typing.Optional[int] = None
    line: int = 0  # of the text
    words: list = dataclasses.field(default_factory=list)
    called: typing.Optional[int] = None  # None where the program's output does not tell it
    begun: typing.Optional[int] = None  # the tick before its start bit


@dataclasses.dataclass
class BadLine:
    number: int
    reason: str
    text: str = ""


@dataclasses.dataclass
class Command:
    """A command on the line: the words of a call-up, or the VSYNC behind them."""
    call: CallUp
    vsync: bool
    count: int  # of words
    at: int  # the tick before its start bit
    bits: str  # the last of a night may be cut


@dataclasses.dataclass
class Night:
    name: str
    calls: list
    bad: list
    ticks: int
    commands: list


def plain(text):
    """A text as it can be printed: what is no printable character by its number."""
    return "".join(one if one.isprintable() else one.encode("unicode_escape").decode() for one in text)


def many(count, what):
    return "%d %s%s" % (count, what, "" if count == 1 else "s")


def escaped(text):
    return html.escape(plain(text))


def since(call):
    """The tick from which a call-up is in the picture."""
    return call.told if call.called is None else call.called


def hexed(words):
    return " ".join("%04X" % word for word in words)


def brief(words):
    """Words as they stand in a slot."""
    return hexed(words) if len(words) <= MOST_WORDS else "%s +%d" % (hexed(words[:MOST_WORDS - 1]), len(words) - MOST_WORDS + 1)


# ---- the head ----

def named(call):
    return "call-up %d, slot %d, reading %d" % (call.number, call.slot, call.reading)


def refused(call):
    return "refused (%d), %s" % (call.refusal, call.reason)


def linked(tick):
    """A tick that the page can be moved to."""
    return '<a href="#tick=%d">%d</a>' % (tick, tick)


def counts(night):
    taken = sum(not call.refusal for call in night.calls)
    return {"due": len(night.calls), "taken": taken, "refused": len(night.calls) - taken,
            "shown": sum(call.shown is not None for call in night.calls), "ticks": night.ticks}


def verdict(night):
    """The night in a sentence, and whether it went well."""
    of = counts(night)
    missing = [(of["refused"], "%d refused" % of["refused"]),
               (of["taken"] - of["shown"], "%d taken and not finished on the line" % (of["taken"] - of["shown"])),
               (len(night.bad), many(len(night.bad), "bad line"))]
    parts = [part for count, part in missing if count]
    if not night.calls and not night.bad:
        return True, "The text has no call-ups."
    if not parts:
        return True, "The one call-up was shown." if of["due"] == 1 else "All %d call-ups were shown." % of["due"]
    return False, "%d of %s shown: %s." % (of["shown"], many(of["due"], "call-up"), ", ".join(parts))


def head(night):
    good, sentence = verdict(night)
    tiles = "".join('<div><dt>%s</dt><dd>%d</dd></div>' % item for item in counts(night).items())
    return """<header>
<div>
<h1>The night of <span class="name">%s</span></h1>
<p class="verdict %s"><span aria-hidden="true">%s</span> %s</p>
</div>
<dl class="sums">%s</dl>
</header>
""" % (escaped(night.name), "good" if good else "bad", GOOD if good else BAD, sentence, tiles)


def to_look_at(night):
    """Call-ups that were not shown, and bad lines: a truck may wait for each of them."""
    items = ["bad line %d, <code>%s</code>: %s" % (bad.number, escaped(bad.text), escaped(bad.reason)) for bad in night.bad]
    items += ['<a href="#call-up-%d">%s</a>: %s' % (call.number, named(call), escaped(refused(call)) if call.refusal else
                                                  "taken at tick %s, not finished on the line when the text ended" % linked(call.told))
              for call in night.calls if call.shown is None]
    if not items:
        return ""
    return """<section class="look" aria-labelledby="look-head">
<h2 id="look-head">Look at %s</h2>
<div class="list" tabindex="0" role="region" aria-labelledby="look-head"><ul>%s</ul></div>
</section>
""" % ("this" if len(items) == 1 else "these %d" % len(items), "".join("<li>%s</li>" % item for item in items))


# ---- the slots ----

def stood(calls, tick):
    """How a slot with these call-ups stood: the last that is not refused, its state, and a word more. The script has the same rule."""
    last, before, gone = None, None, None
    for call in calls:
        if since(call) > tick:
            break
        if call.refusal and call.told <= tick:
            gone = call
        else:
            before = last if last and state(last, tick) == "shown" else before
            last, gone = call, None
    more = ""
    if gone:
        more = "%s no. %d refused" % (BAD, gone.number)
    elif last and before and state(last, tick) != "shown":
        more = "shows no. %d" % before.number
    return last, state(last, tick) if last else "empty", more


def state(call, tick):
    if call.shown is not None and call.shown <= tick:
        return "shown"
    if call.begun is not None and call.begun < tick:
        return "line"
    return "taken" if not call.refusal and call.told <= tick else "called"


def slots(night):
    of = [[] for _ in range(SLOTS)]
    for call in night.calls:
        if call.slot < SLOTS:
            of[call.slot].append(call)
    for slot, calls in enumerate(of):
        last, name, more = stood(calls, night.ticks)
        yield ('<li id="slot-%d" data-state="%s"><span class="top"><span class="number">%d</span> <span class="reading">%s</span></span> '
               '<span class="words">%s</span> <span class="state">%s %s</span> <span class="more">%s</span></li>' % (
                   slot, name, slot, last.reading if last else "", brief(last.words) if last else "", *STATES[name][:2], more))


def board(night):
    legend = "".join('<li data-state="%s"><span class="state">%s %s</span>: %s</li>' % (name, sign, word, meaning)
                     for name, (sign, word, meaning) in STATES.items())
    return """<section id="board" aria-labelledby="board-head">
<div class="heads"><h2 id="board-head">The forty slots</h2> <p id="status" role="status">As they stood at the end of the night, tick %d.</p></div>
<div id="controls" class="controls" hidden>
<button type="button" data-go="first">Start</button>
<button type="button" data-go="earlier" aria-label="to the event before"><span aria-hidden="true">&#9664;</span> Event</button>
<button type="button" data-go="less" aria-label="one tick less">&minus;1</button>
<label><span>Tick</span> <input id="tick" type="number" inputmode="numeric" min="0" max="%d"></label>
<button type="button" data-go="more" aria-label="one tick more">+1</button>
<button type="button" data-go="later" aria-label="to the event after">Event <span aria-hidden="true">&#9654;</span></button>
<button type="button" data-go="last">End</button>
<button type="button" id="play">Play</button>
<input id="slider" type="range" min="0" max="%d" aria-label="Tick of the night">
<a id="link" href="#tick=%d">Link to this tick</a>
</div>
<ul class="slots" aria-label="Slots 0 to %d">
%s
</ul>
<ul class="legend" aria-label="What the signs mean">%s</ul>
</section>
""" % (night.ticks, night.ticks, night.ticks, night.ticks, SLOTS - 1, "\n".join(slots(night)), legend)


# ---- the line ----

def spans(night):
    """The whole night in the places of its strip: from, to, number of the command. In a long night a command has one place, if it is free."""
    end = 0
    for at, command in enumerate(night.commands):
        start = max(end, command.at * WIDE // night.ticks)
        end = max(end, -(-(command.at + len(command.bits)) * WIDE // night.ticks))
        if end > start:
            yield start, end, at


def on_the_line(night):
    marks = "".join('<rect class="hue%d%s" x="%d" width="%d" height="20"/>' % (
        at // 2 % HUES, " vsync" if night.commands[at].vsync else "", start, end - start) for start, end, at in spans(night))
    begun = many(sum(not command.vsync for command in night.commands), "call-up")
    return """<section id="line" aria-labelledby="line-head">
<div class="heads"><h2 id="line-head">The line</h2>
<p id="saying">%s on it in %s. <span class="script">To move along it the page needs JavaScript.</span></p></div>
<svg id="strip" class="strip" role="img" aria-label="The bits of the line around this tick" hidden></svg>
<svg id="whole" class="whole" viewBox="0 0 %d 20" preserveAspectRatio="none" role="img" aria-label="The line over the whole night: %s, in order">
%s<rect id="here" class="here" x="%d" y="0" width="2" height="20"/></svg>
<div class="ends"><span>tick 0</span> <span>the whole night</span> <span>tick %d</span></div>
<p class="legend" id="letters" hidden>A colour for each call-up, paler for the VSYNC behind it. s: start bit, c: check bit, END: eighteen 1s. Pale
bits are not yet sent.</p>
</section>
""" % (begun, many(night.ticks, "tick"), WIDE, begun, marks, WIDE - 2, night.ticks)


# ---- the table ----

def bar(kind, start, end, ticks):
    """A part of a call-up's night in its row's picture."""
    if end <= start or not ticks:
        return ""
    at = start * WIDE // ticks
    return '<rect class="%s" x="%d" width="%d" height="10"/>' % (kind, at, max(6, end * WIDE // ticks - at))


def picture(call, ticks):
    """When a call-up that was taken waited and when it was sent, over the whole night."""
    end = ticks if call.shown is None else call.shown
    begun = end if call.begun is None else call.begun
    parts = [("waits", since(call), call.told), ("queued", call.told, begun), ("sends", begun, end)]
    return '<svg viewBox="0 0 %d 10" preserveAspectRatio="none" aria-hidden="true">%s</svg>' % (WIDE, "".join(bar(*part, ticks) for part in parts))


def row(call, ticks):
    known = call.called is not None
    cells = [call.slot, call.reading, '<span class="words">%s</span>' % (hexed(call.words) or "none"), linked(call.called) if known else "not told"]
    if call.refusal:
        rest = '<td class="refused" colspan="5">%s at tick %s: %s</td>' % (BAD, linked(call.told), escaped(refused(call)))
    else:
        cells += [linked(call.told), "not yet" if call.shown is None else linked(call.shown), call.told - call.called if known else "",
                  call.shown - call.called if known and call.shown is not None else ""]
        rest = '<td class="picture">%s</td>' % picture(call, ticks)
    return '<tr id="call-up-%d"><th scope="row">%d</th>%s%s</tr>' % (call.number, call.number, "".join("<td>%s</td>" % cell for cell in cells), rest)


def table(night):
    rows = "\n".join(row(call, night.ticks) for call in night.calls)
    return """<section aria-labelledby="table-head">
<h2 id="table-head">All call-ups, as they stand in the text</h2>
<div class="scrolls" tabindex="0" role="region" aria-labelledby="table-head">
<table>
<thead><tr><th scope="col">No.</th><th scope="col">Slot</th><th scope="col">Reading</th><th scope="col">Words</th>
<th scope="col">Called up at tick</th><th scope="col">Taken at tick</th><th scope="col">Shown at tick</th>
<th scope="col">Ticks waited for room</th><th scope="col">Ticks from call-up to shown</th>
<th scope="col" class="picture">Over the night</th></tr></thead>
<tbody>
%s
</tbody>
</table>
</div>
<ul class="legend" aria-label="Colours of the last column"><li><span class="key waits"></span> waits for room</li>
<li><span class="key queued"></span> taken, waits for the line</li><li><span class="key sends"></span> on the line</li></ul>
</section>
""" % rows


FOOT = """<footer>
<p><b>In a slot:</b> its number, the clock reading and the words of its last call-up.
<b>Tick.</b> One bit of the line. &ldquo;At tick 100&rdquo; means: when 100 ticks were made.
<b>Called up.</b> When the line of the text before it was done.
<b>Taken.</b> The bridge has all its words; the line sends what is taken in that order, each call-up with a VSYNC behind it.
<b>Shown.</b> Words and VSYNC have both finished on the line.</p>
<p>When this page was made, every bit of the line was compared with the text: it carries the words of the call-ups taken, in order, each with its
VSYNC, as far as they were sent, and nothing else.</p>
</footer>
"""


def data(night):
    """What the script needs, as JSON that can stand in a page."""
    made = {
        "ticks": night.ticks, "hues": HUES, "wide": WIDE, "bad": BAD, "states": STATES,
        "calls": [[one.slot, one.reading, brief(one.words), since(one), one.told, not one.refusal, one.begun, one.shown] for one in night.calls],
        "commands": [[one.call.number, one.vsync, one.count, one.at, one.bits] for one in night.commands],
    }
    return json.dumps(made, separators=(",", ":")).replace("<", "\\u003c")


def digest(text):
    return "'sha256-%s'" % base64.b64encode(hashlib.sha256(text.encode()).digest()).decode()


def page(night):
    """The page, whole."""
    rule = "default-src 'none'; img-src data:; style-src %s; script-src %s" % (digest(STYLE), digest(SCRIPT))
    return """<!doctype html>
<html lang="en">
<head>
<meta charset="utf-8">
<meta http-equiv="Content-Security-Policy" content="%s">
<meta name="viewport" content="width=device-width, initial-scale=1">
<meta name="color-scheme" content="light dark">
<link rel="icon" href="data:,">
<title>The night of %s</title>
<style>%s</style>
</head>
<body>
%s<main>
%s</main>
%s<script type="application/json" id="night">%s</script>
<script>%s</script>
</body>
</html>
""" % (rule, escaped(night.name), STYLE, head(night), to_look_at(night) + board(night) + on_the_line(night) + table(night), FOOT, data(night), SCRIPT)


STYLE = """
:root {
  --ground: #eef1f4; --card: #ffffff; --ink: #14202b; --soft: #4a5965; --rule: #c9d2da; --link: #0b57a4; --slot: #f5f7f9;
  --good: #17692f; --good-back: #e0f3e4; --bad: #a11616; --bad-back: #fde7e5; --now: #8a4b00; --now-back: #ffedcc;
  --taken: #174f94; --taken-back: #e2eefb; --called: #6a2b8f; --called-back: #f3e6f9;
  --hue0: #b5d5f6; --hue1: #f8d49a; --hue2: #b9e3bd; --hue3: #e2c6ef; --hue4: #f6c1bd; --hue5: #b5e2e4;
}
@media (prefers-color-scheme: dark) {
  :root {
    --ground: #0c1217; --card: #151e26; --ink: #e8eef3; --soft: #a5b4c0; --rule: #33414d; --link: #7fbcff; --slot: #1b2630;
    --good: #82dd97; --good-back: #14321d; --bad: #ff9d94; --bad-back: #3f1816; --now: #ffc864; --now-back: #47300a;
    --taken: #8fc2ff; --taken-back: #162d48; --called: #dda8f5; --called-back: #341f41;
    --hue0: #1e4a78; --hue1: #684809; --hue2: #1f5a2e; --hue3: #573070; --hue4: #742f2c; --hue5: #155a60;
  }
}
* { box-sizing: border-box; }
[hidden] { display: none !important; }
body { margin: 0 auto; padding: 14px 18px; max-width: 1240px; background: var(--ground); color: var(--ink); }
body { font: 15px/1.4 system-ui, "Segoe UI", Roboto, "Liberation Sans", "DejaVu Sans", sans-serif; }
a { color: var(--link); }
:focus-visible { outline: 3px solid var(--link); outline-offset: 1px; }
h1 { margin: 0; font-size: 1.35rem; }
h2 { margin: 0; font-size: 1.05rem; }
p { margin: 0; }
.name { overflow-wrap: anywhere; }
code, .words { font-family: ui-monospace, "Liberation Mono", "DejaVu Sans Mono", Consolas, monospace; }
header { display: flex; flex-wrap: wrap; gap: 10px 24px; justify-content: space-between; align-items: center; }
section { margin-top: 12px; padding: 12px 14px; background: var(--card); border: 1px solid var(--rule); border-radius: 8px; }
.verdict { font-weight: 600; }
.verdict.good { color: var(--good); }
.verdict.bad { color: var(--bad); }
.sums { display: flex; flex-wrap: wrap; gap: 8px; margin: 0; }
.sums div { min-width: 74px; padding: 4px 12px; background: var(--card); border: 1px solid var(--rule); border-radius: 8px; text-align: center; }
.sums dt { color: var(--soft); font-size: .82rem; }
.sums dd { margin: 0; font-size: 1.3rem; font-weight: 650; line-height: 1.2; font-variant-numeric: tabular-nums; }
.look { background: var(--bad-back); border-color: var(--bad); }
.look .list { max-height: 12em; margin-top: 6px; overflow-y: auto; }
.look ul { margin: 0; padding-left: 20px; overflow-wrap: anywhere; }
.heads { display: flex; flex-wrap: wrap; gap: 2px 14px; align-items: baseline; }
.heads p { color: var(--soft); font-variant-numeric: tabular-nums; }
.controls { display: flex; flex-wrap: wrap; gap: 6px; align-items: center; margin-top: 8px; }
.controls button, .controls input[type=number] { min-height: 34px; padding: 3px 11px; font: inherit; color: var(--ink); background: var(--slot); }
.controls button, .controls input[type=number] { border: 1px solid var(--soft); border-radius: 6px; }
.controls button { cursor: pointer; }
.controls button:hover { border-color: var(--link); color: var(--link); }
.controls input[type=number] { width: 7.2em; font-variant-numeric: tabular-nums; }
.controls input[type=range] { flex: 1 1 260px; min-height: 34px; margin: 0; accent-color: var(--link); }
.slots { display: grid; grid-template-columns: repeat(8, minmax(0, 1fr)); gap: 6px; margin: 10px 0 8px; padding: 0; list-style: none; }
.slots li { display: flex; flex-direction: column; min-height: 68px; padding: 3px 8px 4px; line-height: 1.3; }
.slots li { background: var(--slot); border: 1px solid var(--rule); border-left-width: 5px; border-radius: 6px; }
.top { display: flex; justify-content: space-between; gap: 6px; }
.number { font-weight: 700; }
.reading { color: var(--soft); font-variant-numeric: tabular-nums; }
.slots .words { font-size: .82rem; overflow-wrap: anywhere; }
.state { font-size: .86rem; color: var(--soft); }
.slots .state { margin-top: auto; }
.more { font-size: .78rem; color: var(--soft); }
.more:empty { display: none; }
[data-state=shown] .state { color: var(--good); }
[data-state=line] .state { color: var(--now); font-weight: 700; }
[data-state=taken] .state { color: var(--taken); }
[data-state=called] .state { color: var(--called); }
.slots [data-state=shown] { border-color: var(--good); background: var(--good-back); }
.slots [data-state=line] { border-color: var(--now); background: var(--now-back); outline: 2px solid var(--now); }
.slots [data-state=taken] { border-color: var(--taken); background: var(--taken-back); }
.slots [data-state=called] { border-color: var(--called); background: var(--called-back); border-style: dashed; border-left-style: solid; }
.legend { display: flex; flex-wrap: wrap; gap: 1px 15px; margin: 0; padding: 0; list-style: none; font-size: .82rem; color: var(--soft); }
.legend .state { font-size: inherit; }
.strip { display: block; width: 100%; height: 132px; margin-top: 8px; cursor: pointer; touch-action: manipulation; }
.strip text { fill: var(--ink); font: 12px ui-monospace, "Liberation Mono", "DejaVu Sans Mono", Consolas, monospace; text-anchor: middle; }
.strip .soft { fill: var(--soft); text-anchor: start; }
.strip .name { text-anchor: start; font-weight: 600; }
.strip .part { stroke: var(--card); }
.strip .wave { fill: none; stroke: var(--ink); stroke-width: 2; }
.strip .mark { stroke: var(--rule); }
.strip .later { fill: var(--card); opacity: .4; }
.here { fill: var(--bad); }
.whole { display: block; width: 100%; height: 24px; margin-top: 6px; background: var(--slot); border: 1px solid var(--rule); cursor: pointer; }
.hue0 { fill: var(--hue0); } .hue1 { fill: var(--hue1); } .hue2 { fill: var(--hue2); }
.hue3 { fill: var(--hue3); } .hue4 { fill: var(--hue4); } .hue5 { fill: var(--hue5); }
.vsync { opacity: .5; }
.ends { display: flex; justify-content: space-between; font-size: .82rem; color: var(--soft); }
.scrolls { margin: 8px 0; overflow-x: auto; }
table { width: 100%; border-collapse: collapse; font-variant-numeric: tabular-nums; }
th, td { padding: 3px 10px; border-bottom: 1px solid var(--rule); text-align: right; vertical-align: top; }
thead th { font-size: .82rem; color: var(--soft); vertical-align: bottom; }
th:nth-child(4), td:nth-child(4), td.refused, th.picture { text-align: left; }
td .words { display: block; min-width: 20ch; max-width: 40ch; font-size: .86rem; }
td.refused { min-width: 16em; color: var(--bad); }
.picture { width: 24%; min-width: 150px; }
.picture svg { display: block; width: 100%; height: 12px; margin-top: 4px; background: var(--slot); }
.waits { fill: var(--called); background: var(--called); }
.queued { fill: var(--taken); background: var(--taken); }
.sends { fill: var(--now); background: var(--now); }
.picture .waits { opacity: .75; }
.key { display: inline-block; width: 22px; height: 9px; }
tr[aria-current] { background: var(--now-back); }
footer { margin: 14px 4px; font-size: .86rem; color: var(--soft); }
footer p + p { margin-top: 6px; }
@media (max-width: 700px) {
  body { padding: 10px; }
  section { padding: 10px; }
  .slots { grid-template-columns: repeat(4, minmax(0, 1fr)); gap: 5px; }
  .slots li { padding: 3px 5px 4px; }
  .slots .words { font-size: .76rem; }
  .slots .state, .reading { font-size: .82rem; }
  .top { flex-wrap: wrap; gap: 0 4px; align-items: baseline; }
  .sums { flex: 1 1 100%; gap: 5px; }
  .sums div { flex: 1; min-width: 0; padding: 3px 2px; }
  .sums dd { font-size: 1.1rem; }
  .controls { display: grid; grid-template-columns: repeat(4, minmax(0, 1fr)); }
  .controls button, .controls input[type=number] { padding: 3px 4px; min-height: 42px; }
  .controls input[type=number] { width: 100%; text-align: center; }
  .controls label span { position: absolute; clip-path: inset(50%); }
  .controls [data-go=later], .controls [data-go=last] { order: -1; }
  .controls [data-go=first], .controls [data-go=earlier] { order: -2; }
  .controls input[type=range], #link { grid-column: 1 / -1; }
}
@media print {
  :root {
    --ground: #ffffff; --card: #ffffff; --ink: #000000; --soft: #333333; --rule: #999999; --link: #000000; --slot: #ffffff;
    --good: #0d4f20; --good-back: #ffffff; --bad: #8b0000; --bad-back: #ffffff; --now: #6b3a00; --now-back: #ffffff;
    --taken: #103d75; --taken-back: #ffffff; --called: #54206f; --called-back: #ffffff;
    --hue0: #b5d5f6; --hue1: #f8d49a; --hue2: #b9e3bd; --hue3: #e2c6ef; --hue4: #f6c1bd; --hue5: #b5e2e4;
  }
  body { max-width: none; padding: 0; font-size: 10pt; }
  section { padding: 6px 0; border: 0; }
  .controls, .script { display: none; }
  .slots { grid-template-columns: repeat(8, minmax(0, 1fr)); gap: 3px; }
  .slots li, tr, .strip, .whole { break-inside: avoid; }
  .strip, .whole, .picture svg, .key { print-color-adjust: exact; -webkit-print-color-adjust: exact; }
  .scrolls, .look .list { max-height: none; overflow: visible; }
  table { font-size: 8.5pt; }
  th, td { padding: 2px 5px; }
  td .words { min-width: 14ch; max-width: 30ch; font-size: inherit; }
  td.refused, .picture { min-width: 0; }
  a { text-decoration: none; }
}
"""

SCRIPT = """
"use strict";
(() => {
  const $ = (id) => document.getElementById(id);
  const night = JSON.parse($("night").textContent);
  const WORD = 16, GROUP = WORD + 1, END = 18;  // bits; a group is a word and its check bit
  const STEP = 11, LETTER = 7.4;  // width of a bit in the strip, and of a letter
  const calls = night.calls.map(([slot, reading, words, called, told, taken, begun, shown], i) =>
    ({number: i + 1, slot, reading, words, called, told, taken, begun, shown}));
  const commands = night.commands.map(([call, vsync, count, at, bits], i) =>
    ({call: calls[call - 1], vsync, count, at, bits, end: at + bits.length, hue: (i >> 1) % night.hues}));
  const cells = [...document.querySelectorAll(".slots li")];
  const ofSlot = cells.map((_, slot) => calls.filter((call) => call.slot === slot));
  const changes = new Set([0, night.ticks]);
  for (const call of calls) {
    changes.add(call.called).add(call.told);
    if (call.begun !== null) changes.add(call.begun + 1);
    if (call.shown !== null) changes.add(call.shown);
  }
  const events = [...changes].filter((tick) => tick <= night.ticks).sort((a, b) => a - b);
  let now = night.ticks, playing = null, marked = null;

  // ---- the slots: `state` and `stood` are the rule of panel_page.py ----

  function state(call, tick) {
    if (call.shown !== null && call.shown <= tick) return "shown";
    if (call.begun !== null && call.begun < tick) return "line";
    return call.taken && call.told <= tick ? "taken" : "called";
  }

  function stood(ups, tick) {
    let last = null, before = null, gone = null, more = "";
    for (const call of ups) {
      if (call.called > tick) break;
      if (!call.taken && call.told <= tick) {
        gone = call;
      } else {
        if (last && state(last, tick) === "shown") before = last;
        last = call;
        gone = null;
      }
    }
    const name = last ? state(last, tick) : "empty";
    if (gone) more = night.bad + " no. " + gone.number + " refused";
    else if (before && name !== "shown") more = "shows no. " + before.number;
    return [last, name, more];
  }

  function showSlots(tick) {
    const count = {};
    cells.forEach((cell, slot) => {
      const [last, name, more] = stood(ofSlot[slot], tick);
      cell.dataset.state = name;
      cell.querySelector(".reading").textContent = last ? last.reading : "";
      cell.querySelector(".words").textContent = last ? last.words : "";
      cell.querySelector(".state").textContent = night.states[name][0] + " " + night.states[name][1];
      cell.querySelector(".more").textContent = more;
      count[name] = (count[name] || 0) + 1;
    });
    const told = Object.keys(night.states).reverse().filter((name) => count[name]).map((name) => count[name] + " " + night.states[name][1]);
    $("status").textContent = "At tick " + tick + (tick === night.ticks ? ", the end: " : ": ") + told.join(", ") + ".";
  }

  // ---- the line ----

  // number of the first command that is not over before this bit
  function from(bit) {
    let low = 0, high = commands.length;
    while (low < high) {
      const middle = (low + high) >> 1;
      if (commands[middle].end > bit) high = middle; else low = middle + 1;
    }
    return low;
  }

  // the command that this bit belongs to
  function commandOf(bit) {
    const command = commands[from(bit)];
    return command && command.at <= bit ? command : null;
  }

  // start bit, words, check bits and END: first bit, how many, label; the last command of a night may be cut
  function parts(command) {
    const all = [[0, 1, "s"]];
    for (let i = 0; i < command.count; i++) {
      const first = 1 + GROUP * i, word = command.bits.slice(first, first + WORD);
      all.push([first, WORD, word.length < WORD ? "" : parseInt(word, 2).toString(16).toUpperCase().padStart(4, "0")], [first + WORD, 1, "c"]);
    }
    all.push([1 + GROUP * command.count, END, "END"]);
    return all.filter(([first]) => first < command.bits.length)
      .map(([first, length, label]) => [first, Math.min(length, command.bits.length - first), label]);
  }

  function said(tick) {
    const command = tick ? commandOf(tick - 1) : null;
    if (!command) return tick ? "Idle at tick " + tick + ": nothing is being sent." : "No tick was made yet.";
    const gone = tick - 1 - command.at, part = parts(command).find(([first, length]) => gone < first + length), bit = gone - part[0] + 1;
    const what = {s: "start bit", c: "check bit", END: "END, bit " + bit + " of " + END}[part[2]] ||
      "word " + Math.ceil(gone / GROUP) + " of " + command.count + (part[2] && ", " + part[2]) + ", bit " + bit + " of " + WORD;
    return (command.vsync ? "The VSYNC behind call-up " : "Call-up ") + command.call.number + " for slot " + command.call.slot + ": " + what + ".";
  }

  function drawn(command, first, last) {
    const x = (bit) => (Math.min(Math.max(bit, first), last) - first) * STEP;
    const left = x(command.at), right = x(command.end);
    const names = [command.vsync ? "VSYNC" : "call-up " + command.call.number + ", slot " + command.call.slot, String(command.call.number)];
    const name = names.find((one) => right - left > LETTER * one.length + 6) || "";
    let made = `<text class="name" x="${left + 2}" y="12">${name}</text>`;
    made += `<rect class="hue${command.hue}" x="${left}" y="16" width="${right - left - 1}" height="4"/>`;
    for (const [at, length, label] of parts(command)) {
      const a = x(command.at + at), b = x(command.at + at + length);
      if (a < b) made += `<rect class="part hue${command.hue}${command.vsync ? " vsync" : ""}" x="${a}" y="22" width="${b - a}" height="20"/>`;
      if (b - a > LETTER * label.length) made += `<text x="${(a + b) / 2}" y="36">${label}</text>`;
    }
    return made;
  }

  function showLine(tick) {
    const strip = $("strip"), width = strip.clientWidth, fit = Math.floor(width / STEP);
    const first = Math.max(0, Math.min(tick - Math.round(fit * .6), night.ticks - fit)), last = Math.min(night.ticks, first + fit);
    const x = (bit) => (bit - first) * STEP, bits = [];
    let made = "";
    for (let bit = Math.ceil(first / 10) * 10; bit < last; bit += 10) {
      const label = x(bit) + LETTER * String(bit).length < width ? bit : "";
      made += `<path class="mark" d="M${x(bit)} 46V118"/><text class="soft" x="${x(bit) + 2}" y="128">${label}</text>`;
    }
    for (let i = from(first); i < commands.length && commands[i].at < last; i++) made += drawn(commands[i], first, last);
    for (let bit = first; bit < last; bit++) {
      const command = commandOf(bit);
      bits.push(command ? command.bits[bit - command.at] : "1");
    }
    made += `<path class="wave" d="${bits.map((bit, i) => (i ? "V" : "M0 ") + (bit === "1" ? 54 : 86) + "H" + (i + 1) * STEP).join("")}"/>`;
    made += `<text x="${bits.map((_, i) => (i + .5) * STEP).join(" ")}" y="106">${bits.join("")}</text>`;
    made += `<rect class="later" x="${x(tick)}" y="0" width="${x(last) - x(tick)}" height="112"/>`;
    made += `<rect class="here" x="${Math.max(0, x(tick) - 1)}" y="0" width="2" height="118"/>`;
    $("saying").textContent = said(tick);
    strip.setAttribute("viewBox", `0 0 ${width} 132`);
    strip.setAttribute("aria-label", "Ticks " + first + " to " + last + " of the line. " + said(tick));
    strip.dataset.first = first;
    strip.innerHTML = made;
    $("here").setAttribute("x", night.ticks ? (night.wide - 2) * tick / night.ticks : 0);
    const command = tick ? commandOf(tick - 1) : null;
    if (marked) marked.removeAttribute("aria-current");
    marked = command && $("call-up-" + command.call.number);
    if (marked) marked.setAttribute("aria-current", "true");
  }

  // ---- moving ----

  function go(tick) {
    now = Math.min(Math.max(Math.round(tick) || 0, 0), night.ticks);
    document.body.dataset.tick = $("tick").value = $("slider").value = now;
    $("link").href = "#tick=" + now;
    showSlots(now);
    showLine(now);
  }

  function stop() {
    clearInterval(playing);
    playing = null;
    $("play").textContent = "Play";
    $("status").setAttribute("aria-live", "polite");
  }

  function play() {
    if (playing) return stop();
    if (now === night.ticks) go(0);
    $("play").textContent = "Stop";
    $("status").setAttribute("aria-live", "off");
    playing = setInterval(() => {
      go(now + Math.max(1, Math.round(night.ticks / 600)));
      if (now === night.ticks) stop();
    }, 50);
  }

  function moved(tick) {
    stop();
    go(tick);
  }

  function visit(hash) {
    const found = /^#tick=([0-9]+)$/.exec(hash);
    if (found) moved(Number(found[1]));
    return found;
  }

  const ways = {
    first: () => 0,
    earlier: () => events.filter((tick) => tick < now).pop(),
    less: () => now - 1,
    more: () => now + 1,
    later: () => events.find((tick) => tick > now) ?? now,
    last: () => night.ticks,
  };
  for (const button of document.querySelectorAll("[data-go]")) button.addEventListener("click", () => moved(ways[button.dataset.go]()));
  $("play").addEventListener("click", play);
  $("slider").addEventListener("input", () => moved(Number($("slider").value)));
  $("tick").addEventListener("change", () => moved(Number($("tick").value)));
  $("strip").addEventListener("click", (event) =>
    moved(Number($("strip").dataset.first) + Math.floor((event.clientX - $("strip").getBoundingClientRect().left) / STEP) + 1));
  $("whole").addEventListener("click", (event) => {
    const box = $("whole").getBoundingClientRect();
    moved((event.clientX - box.left) / box.width * night.ticks);
  });
  document.addEventListener("click", (event) => {
    const link = event.target.closest("a");
    if (link && visit(link.hash)) $("board").scrollIntoView({block: "nearest"});
  });
  addEventListener("hashchange", () => visit(location.hash));
  addEventListener("resize", () => showLine(now));
  $("controls").hidden = false;
  $("strip").removeAttribute("hidden");
  $("letters").hidden = false;
  if (!visit(location.hash)) go(night.ticks);
})();
"""
