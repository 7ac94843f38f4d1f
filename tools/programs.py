"""How the tools start a program that tools/build made."""
import os
import pathlib
import platform

CRATES = pathlib.Path(__file__).resolve().parent.parent / "crates"
ELF, X86_64 = b"\x7fELF", 62  # how a program begins, and its machine: two bytes from 18 on, the low one first


class Failed(Exception):
    """A program did not do its work as a whole: the reason."""


def is_for_x86_64(program):
    try:
        with open(program, "rb") as file:
            head = file.read(20)
    except OSError:
        return False  # it cannot be read, so its start will say why
    return head.startswith(ELF) and int.from_bytes(head[18:20], "little") == X86_64


def command(name, build="tools/build"):
    """How to start a program here."""
    folder = os.environ.get("BENCH_BIN")
    program = pathlib.Path(folder or CRATES / name / "out") / name
    if not os.access(program, os.X_OK):
        raise Failed("%s: there is no program that can be run: BENCH_BIN names that folder" % program if folder else
                     "%s is not built: run `%s`" % (program, build))
    if platform.machine() not in ("x86_64", "AMD64") and is_for_x86_64(program):
        raise Failed("%s is for x86-64, this machine is %s" % (program, platform.machine()))
    return [str(program)]
