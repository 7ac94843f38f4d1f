"""How a tool ends: with a sentence, never with a trace of itself."""
import os
import sys


def put(data):
    """Writes bytes to standard output, all of them: unbuffered, as PYTHONUNBUFFERED makes it, one write may take less."""
    rest = memoryview(data)
    while rest:
        rest = rest[sys.stdout.buffer.write(rest) or 0:]


def written(data, out, what):
    """Writes bytes to the file `out`, or to standard output where it is None."""
    if out is None:
        put(data)
        return
    try:
        with open(out, "wb") as file:
            file.write(data)
    except OSError as error:
        sys.exit("%s: the %s cannot be written: %s" % (out, what, error.strerror))


def ended(tool, main):
    """Runs a tool's `main`. A reader of the output that has gone, a full disk, a closed output and an interrupt end it in their own way."""
    if sys.stdout is None:
        sys.exit("%s: standard output is closed" % tool)
    try:
        main()
        sys.stdout.flush()
    except BrokenPipeError:
        os._exit(141)  # as `head` makes any program end
    except KeyboardInterrupt:
        os._exit(130)
    except MemoryError:
        sys.stderr.write("%s: the input is larger than the memory\n" % tool)
        os._exit(1)
    except OSError as error:
        sys.stderr.write("%s: the output cannot be written: %s\n" % (tool, error.strerror))
        sys.stderr.flush()
        os._exit(1)
