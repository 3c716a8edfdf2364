"""Adds up the stack that each export of libstation.a can need, from its machine code.

Usage: python3 tests/host/stack.py ARCHIVE

A function takes its return address, what it pushes and what it subtracts from the stack pointer, each instruction counted once and
none taken back, and 128 bytes that code may use below the stack pointer; then the most that a function which it calls takes. memset is the C
library's, and is measured by tests/host/stack.c alone. Prints a line for each export. The exit status is 1 if one needs as much as
include/station.h promises to stay under, or if the code cannot be added up: a call by address, or functions that call each other.
"""
import pathlib
import re
import subprocess
import sys

HEADER = pathlib.Path(__file__).resolve().parents[2] / "include/station.h"
PROMISED = 4096
BELOW = 128
FUNCTION = re.compile(r"^[0-9a-f]+ <(.+)>:$")
INSTRUCTION = re.compile(r"^\s*[0-9a-f]+:\t(\w+)\s*(.*)$")
RELOCATION = re.compile(r"R_X86_64_(?:PLT32|PC32)\s+(.+?)(?:-0x[0-9a-f]+)?$")


class Unclear(Exception):
    """Code whose stack cannot be added up."""


def functions(archive):
    """Of each function what it takes itself, and the names that it calls or jumps to."""
    listing = subprocess.run(["objdump", "-d", "-r", "--no-show-raw-insn", archive], capture_output=True, text=True, check=True).stdout
    sizes, called, name, leaving = {}, {}, None, False
    for line in listing.split("\n"):
        if start := FUNCTION.match(line):
            name = start[1]
            sizes[name], called[name] = 8 + BELOW, set()
        elif instruction := INSTRUCTION.match(line):
            word, rest = instruction.groups()
            leaving = word.startswith(("call", "j"))
            if word.startswith("call") and rest.startswith("*"):
                raise Unclear(f"{name} calls by address")
            sizes[name] += taken(name, word, rest)
        elif leaving and (target := RELOCATION.search(line)):
            called[name].add(target[1].removeprefix(".text."))
    return sizes, called


def taken(name, word, rest):
    """What an instruction takes of the stack; what gives stack back counts as nothing."""
    if word.startswith("push"):
        return 8
    if not rest.endswith(",%rsp"):
        return 0
    source = rest.removesuffix(",%rsp")
    if amount := re.fullmatch(r"\$(-?0x[0-9a-f]+)", source):
        value = (int(amount[1], 16) + (1 << 63)) % (1 << 64) - (1 << 63)
        if word.startswith("sub") and value > 0:
            return value
        if word.startswith("add"):
            return max(0, -value)
        if word.startswith("and") and value < 0:
            return -value
    if lowered := re.fullmatch(r"(-?)0x([0-9a-f]+)\(%rsp\)", source):
        return int(lowered[2], 16) if lowered[1] else 0
    if word.startswith(("mov", "lea")) and re.fullmatch(r"%rbp|-?0x[0-9a-f]+\(%rbp\)", source):
        return 0
    raise Unclear(f"{name} sets the stack pointer by {word} {rest}")


def needed(name, sizes, called, above=()):
    if name in above:
        raise Unclear(f"{name} calls itself")
    inner = [needed(other, sizes, called, (*above, name)) for other in called[name] if other in sizes and other != name]
    return sizes[name] + max(inner, default=0)


def main():
    if len(sys.argv) != 2:
        sys.exit("usage: python3 tests/host/stack.py ARCHIVE")
    try:
        sizes, called = functions(sys.argv[1])
        exports = sorted(set(re.findall(r"^\w+ (station_\w+)\(", HEADER.read_text(encoding="utf-8"), re.M)))
        sums = {name: needed(name, sizes, called) for name in exports}
    except (Unclear, KeyError) as error:
        sys.exit(f"stack: {error}")
    for name, size in sums.items():
        print(name, size)
    foreign = {other for name in sizes for other in called[name]} - set(sizes)
    if foreign - {"memset"}:
        sys.exit(f"stack: the archive calls {', '.join(sorted(foreign))}")
    return 1 if max(sums.values()) >= PROMISED else 0


if __name__ == "__main__":
    sys.exit(main())
