"""A script run by a program that tools/build made: its bytes, what the program prints, and why it did not run whole."""
import subprocess
import threading

import script
from programs import Failed, command

HEAD, RECORD = 5, 3
MOST_VALUE = {script.POWER: 3, script.RELEASE: 0, script.TICK: 1}  # of a record (01 The bench program, 02 item 7)


def made(name, data):
    """A script's bytes, and for each event of a text its line: of a text, or as they are. What is neither goes to the program, which says so."""
    if not data or data.startswith(script.MARK) or (b"\0" in data and not script.is_wide(data) and not script.is_text(data)):
        return data, []
    bytes_of, places = [script.HEAD], []
    for number, records in script.by_line(name, script.decoded(script.source(name), data)):
        bytes_of.append(records)
        places += [number] * (len(records) // RECORD)
    return b"".join(bytes_of), places


def feed(pipe, data):
    try:
        pipe.write(data)
        pipe.close()
    except OSError:
        pass  # the program ended before the script did, and its output says why


def lines(program, data):
    """What the program prints of the script, line by line."""
    try:
        run = subprocess.Popen(command(program), stdin=subprocess.PIPE, stdout=subprocess.PIPE)
    except OSError as error:
        raise Failed("the program `%s` cannot be started: %s; build it again: tools/build %s" % (program, error.strerror, program)) from error
    with run:
        threading.Thread(target=feed, args=(run.stdin, data), daemon=True).start()
        try:
            yield from run.stdout
        finally:
            run.stdout.close()
    if run.returncode:
        raise Failed("the program ended by itself, status %d" % run.returncode)


def head_wrong(data):
    if not data:
        return "it is empty; expected a text of events or a script's bytes"
    if not data.startswith(script.MARK):
        return "neither a text nor a script: it begins with %s, a script with %s (CWB)" % (data[:3].hex(" ").upper(), script.MARK.hex(" ").upper())
    if len(data) < HEAD:
        return "the head is cut: %d of %d bytes" % (len(data), HEAD)
    return "behind the mark CWB stands %s, expected version 1 (00 01)" % data[3:HEAD].hex(" ").upper()


def record_wrong(data, number):
    start = HEAD + RECORD * (number - 1)
    record = data[start : start + RECORD]
    where = "record %d (byte %d)" % (number, start)
    if len(record) < RECORD:
        return "%s is cut: %d of %d bytes" % (where, len(record), RECORD)
    if record[0] not in range(script.CLOCK + 1):
        return "%s: kind %d is no event, kinds are 0 to %d" % (where, record[0], script.CLOCK)
    return "%s: value %d is too high for kind %d, at most %d" % (
        where, int.from_bytes(record[1:], "big"), record[0], MOST_VALUE.get(record[0], 65535))


def judge(data, count, last):
    """Silent where the whole script ran: `count` lines, `last` the last of them."""
    if last == b"bad script\n":
        raise Failed(head_wrong(data))
    if last == b"bad record\n":
        raise Failed(record_wrong(data, count))
    events = (len(data) - HEAD) // RECORD
    if count != events:
        raise Failed("%d of %d events ran" % (count, events))
