#!/usr/bin/env python3
"""What the proved libraries for C take of a controller: code, constants, names, state, stores and stack.

sizes.py    a line for each, or what is wrong and exit status 1

A test too: a library exports its header's functions and no other name, keeps no data of its own, asks for nothing but what a C compiler brings along
(MEMORY), and the bridge has 184 bytes. The stack is told twice: what calls wrote of it over the events of a random script (stack.c says how), and what they
can take at most by the code, which has frames of fixed size and no recursion; the first must not be more. Bytes are of x86-64, the kit's only target.
"""
import pathlib
import re
import subprocess
import sys
import tempfile

TESTS = pathlib.Path(__file__).resolve().parents[1]
ROOT = TESTS.parent
sys.dont_write_bytecode = True
sys.path.insert(0, str(TESTS / "model"))
from archives import BRIDGE, C, FRAMES, PLAIN, Wrong, compiled, made, printed, tried  # noqa: E402
from pair import built_model  # noqa: E402

MEMORY = {"memcpy", "memmove", "memset", "memcmp"}
SEED, EVENTS = 6, 60_000  # a script that meets every note but one, in both layouts
STATE, TX, RX = 184, 1024, 512  # bytes
MOST_STACK = 1 << 16  # of stack.c
KINDS = {"code": r"\.text", "constants": r"\.rodata", "data": r"\.(?:data|bss|tdata|tbss|init_array|ctors)"}
RETURN = 8  # bytes of a return address
BOUND_AT_START = "-Wl,-z,now"  # else the first memcpy is looked up on the stack that is measured
SIZES = """#include "icelichen_bridge.h"
#include <stdio.h>
int main(void)
{
    printf("%zu %zu %zu", sizeof(icelichen_bridge), ICELICHEN_TX * sizeof(uint16_t), ICELICHEN_RX * sizeof(uint16_t));
}
"""


def bytes_of(archive):
    """Bytes of each of KINDS in the archive."""
    sections = re.findall(r"^(\.\S+)\s+(\d+)\s", printed("size", "-A", "-d", archive).decode(), re.M)
    return {kind: sum(int(size) for name, size in sections if re.match(pattern, name)) for kind, pattern in KINDS.items()}


def names(archive, *which):
    """Names that the archive's objects define for others, or ask for."""
    return set(re.findall(r" [A-Za-z] (\S+)$", printed("nm", *which, archive).decode(), re.M))


def declared(library):
    return set(re.findall(r"^\w+ (icelichen_\w+)\(", (ROOT / f"include/{library}.h").read_text(), re.M))


def check_archive(library):
    archive = made(library)
    exported = names(archive, "-g", "--defined-only")
    asked = names(archive, "--undefined-only") - exported
    if exported != declared(library):
        raise Wrong(f"{archive.name} exports {sorted(exported)}, its header has {sorted(declared(library))}")
    if asked - MEMORY:
        raise Wrong(f"{archive.name} asks for {sorted(asked - MEMORY)}")
    found = bytes_of(archive)
    if found["data"]:
        raise Wrong(f"{archive.name} keeps {found['data']} bytes of its own")
    print(f"sizes: {archive.name}: {found['code']:,} bytes of code, {found['constants']:,} of constants, no data; {len(exported)} names; "
          f"asks for {', '.join(sorted(asked)) or 'nothing'}")


def check_state(work):
    (work / "sizes.c").write_text(SIZES)
    found = [int(text) for text in printed(compiled(work / "sizes", C, work / "sizes.c")).split()]
    if found != [STATE, TX, RX]:
        raise Wrong(f"bridge, TX and RX have {found} bytes, expected {[STATE, TX, RX]}")
    print(f"sizes: a bridge has {STATE} bytes, its stores {TX:,} and {RX}")


def check_dropped(work):
    """What a program links of the bridge that gives single events alone, where the linker drops what nobody calls."""
    given = work / "linked.map"
    compiled(work / "shortest", C, *PLAIN, ROOT / "examples/firmware/shortest.c", made(BRIDGE), made(FRAMES), "-Wl,--gc-sections", f"-Wl,-Map={given}")
    kept = re.findall(r"^ (\.\S+)\s+0x0*[1-9a-f][0-9a-f]*\s+0x([0-9a-f]+)\s\S*lib%s\.a\(" % BRIDGE, given.read_text(), re.M)
    found = {kind: sum(int(size, 16) for name, size in kept if re.match(pattern, name)) for kind, pattern in KINDS.items()}
    whole = bytes_of(made(BRIDGE))
    if not 0 < found["code"] < whole["code"]:
        raise Wrong(f"of {whole['code']} bytes of code {found['code']} are linked where events and power-up alone are called")
    print(f"sizes: events and power-up alone: {found['code']:,} bytes of code, {found['constants']:,} of constants (--gc-sections)")


def frames(archive):
    """Of each function the bytes that its own code takes of the stack, its return address too, those of them below its stack pointer, and the functions
    that it calls or goes on to."""
    own, below, goes_to, name = {}, {}, {}, None
    for line in printed("objdump", "-dr", "--no-show-raw-insn", archive).decode().splitlines():
        if head := re.match(r"[0-9a-f]+ <(.+)>:$", line):
            name = head[1]
            own[name], below[name], goes_to[name] = RETURN, 0, set()
        elif target := re.search(r"R_X86_64_PLT32\s+(?:\.text\.)?(\S+?)-0x4$", line):
            goes_to[name].add(target[1])
        elif reached := re.search(r"[ ,]-0x([0-9a-f]+)\(%rsp", line):
            below[name] = max(below[name], int(reached[1], 16))
        elif re.search(r"\tpush\b", line):
            own[name] += 8
        elif taken := re.search(r"\tsub +\$0x([0-9a-f]+),%rsp$", line):
            own[name] += int(taken[1], 16)
        elif re.search(r"\tcall +\*|,%rsp$", line) and not re.search(r"\t(?:add|cmp) ", line):
            raise Wrong(f"{archive.name}: {name} has no bound that is read here: {line.strip()}")
    return {name: own[name] + below[name] for name in own}, goes_to, max(below.values())


def bound(own, goes_to, name, above=()):
    """The most that a call takes of the stack; of a function that is not in the archive (MEMORY) its return address alone."""
    if name in above:
        raise Wrong(f"{name} comes back to itself")
    return own.get(name, RETURN) + max((bound(own, goes_to, next_, (*above, name)) for next_ in goes_to.get(name, ())), default=0)


def check_stack(work):
    built_model(work)
    script = work / "script.cwb"
    script.write_bytes(printed(sys.executable, TESTS / "model/make_scripts.py", str(SEED), str(EVENTS)))
    program = compiled(work / "stack", C, *PLAIN, TESTS / "linked/stack.c", made(BRIDGE), BOUND_AT_START)
    found = dict(line.split() for line in printed(program, script).decode().splitlines())
    own, goes_to, below = frames(made(BRIDGE))
    for name, size in found.items():
        most = bound(own, goes_to, name)
        if not RETURN <= int(size) <= most < MOST_STACK:
            raise Wrong(f"{name} wrote {size} bytes of its stack, and {most} are the most by its code")
        print(f"sizes: stack of {name}: {most:,} bytes at most by its code, {int(size):,} written over {EVENTS:,} events")
    if set(found) != declared(BRIDGE):
        raise Wrong(f"the stack of {sorted(found)} is measured")
    print(f"sizes: of these up to {below} lie below the stack pointer (the red zone of x86-64): an interrupt on the same stack must leave them")


def test():
    for library in (BRIDGE, FRAMES):
        check_archive(library)
    with tempfile.TemporaryDirectory() as folder:
        for check in (check_state, check_dropped, check_stack):
            check(pathlib.Path(folder))


if __name__ == "__main__":
    tried("sizes", ["gcc", "size", "nm", "objdump"], test)
