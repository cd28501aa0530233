#!/usr/bin/env python3
"""Finds how much of the stack each function of the library for C can use, from the machine code.

    packaging/depths.py OBJECT                  OBJECT is the relocatable object of the proved code; prints a line of C
    for each
                                                function fevstunik_*
    packaging/depths.py --chain NAME OBJECT     prints the deepest chain of calls from this function on: for each
    function its own
                                                bytes, those down to the end of the chain, and its name

Follows the stack pointer through each function, and the calls between functions. Ends with an error if it meets what it
can't bound: a stack pointer that is computed, a call by a pointer, or a recursion that it doesn't know; and if one
function has a frame of more than 24 KiB.
"""
import re
import subprocess
import sys
from dataclasses import dataclass, field

# What a function of the C library may use: memcpy and the like, malloc and free. None of them is given a key but to
# copy it.
OF_C_LIBRARY = 512
# Functions that call themselves: they walk the trees of what was seen, which have names, times and counts, but no keys.
# So what they leave deeper down isn't overwritten.
WALKS = ("std_collections::btree::node::Node::",)
# No frame may be larger. For a large one LLVM makes code that touches each of its pages first, which has overwritten a
# register in use.
LARGEST_FRAME = 24 * 1024
# For the frame of the caller, which may take back the arguments that lie on the stack before it overwrites what is
# below.
ARGUMENTS = 128
SECTION = re.compile(r"Disassembly of section (\S+):")
SYMBOL = re.compile(r"([0-9a-f]+) <(.+)>:$")
STEP = re.compile(r"\s+([0-9a-f]+):\s+(.+?)\s*$")
MOVED = re.compile(r"\s+([0-9a-f]+): (R_X86_64_\w+)\s+(\S+?)([+-]0x[0-9a-f]+)?$")
TARGET = re.compile(r"([0-9a-f]+)(?: <(.+?)(?:\+0x[0-9a-f]+)?>)?$")
BY = re.compile(r"\$(-?0x[0-9a-f]+),%rsp$")
NUMBER = re.compile(r"(-?0x[0-9a-f]+)\(%rsp\),%rsp$")
# where a loop ends that touches the pages of a large frame
BELOW = re.compile(r"-(0x[0-9a-f]+)\(%rsp\),%r\w+$")


class Unbounded(Exception):
    """What can't be bounded."""


@dataclass
class Step:
    """An instruction, and the name that the linker puts into it."""

    at: int
    name: str
    words: str
    moved: str = ""


@dataclass
class Function:
    name: str
    section: str
    steps: list = field(default_factory=list)


def read(text):
    """The functions of a disassembly, by section and address."""
    functions, section, last = [], "", None
    for line in text.splitlines():
        if found := SECTION.match(line):
            section = found[1]
        elif found := SYMBOL.match(line):
            functions.append(Function(found[2], section))
        elif (found := MOVED.match(line)) and last is not None:
            last.moved = found[3]
        elif (found := STEP.match(line)) and functions:
            name, _, words = found[2].partition(" ")
            if name in ("bnd", "notrack", "lock", "rep", "repz", "repnz", "data16", "cs"):
                name, _, words = words.strip().partition(" ")
            last = Step(int(found[1], 16), name, words.strip().split("  #")[0].strip())
            functions[-1].steps.append(last)
    return functions


def moved_by(step, depth):
    """How deep the stack is after an instruction."""
    name, words = step.name, step.words
    if name.startswith("push"):
        return depth + 8
    if name.startswith("pop"):
        return depth - 8
    if not words.endswith("%rsp") or name.startswith(("cmp", "test")):
        return depth
    if (found := BY.match(words)) and name.startswith(("sub", "add", "and")):
        by = int(found[1], 16)
        return depth + by if name.startswith("sub") else depth - by if name.startswith("add") else depth - by - 1
    if (found := NUMBER.match(words)) and name.startswith("lea"):
        return depth - int(found[1], 16)
    # (a frame that has a base pointer goes back to it)
    if name.startswith(("lea", "mov")) and "%rbp" in words:
        return None
    raise Unbounded(f"{name} {words}")


def below(step):
    """How far below the stack pointer an address is that an instruction takes."""
    found = BELOW.search(step.words) if step.name.startswith("lea") else None
    return int(found[1], 16) if found else 0


class Depths:
    """The depths of functions, each found once."""

    def __init__(self, functions):
        self.functions = {it.name: it for it in functions}
        self.known, self.under_way = {}, []
        # The function that the deepest chain of calls goes on with; "" if none.
        self.next = {}

    def of(self, name):
        """So many bytes below the return address, and with it."""
        if name not in self.functions:
            return OF_C_LIBRARY
        if name in self.under_way:
            if name.startswith(WALKS):
                return 0
            raise Unbounded(f"a recursion: {' '.join(self.under_way)} {name}")
        if name not in self.known:
            self.under_way.append(name)
            try:
                self.known[name] = 8 + self.frame(self.functions[name])
            except Unbounded as fault:
                raise Unbounded(f"{name}: {fault}") from None
            self.under_way.pop()
        return self.known[name]

    def frame(self, function):
        places = {step.at: at for at, step in enumerate(function.steps)}
        depths, deepest, left, body, own = {}, (0, ""), [(0, 0)], 0, 0
        while left or len(depths) < len(function.steps):
            if not left:
                # What only a table of jumps leads to: the frame is set up there.
                left.append((next(at for at in range(len(function.steps)) if at not in depths), body))
            at, depth = left.pop()
            while at < len(function.steps) and at not in depths:
                step = function.steps[at]
                depths[at] = depth
                after = moved_by(step, depth)
                depth = body if after is None else after
                deepest = max(deepest, (depth, ""))
                own = max(own, depth, depths[at] + below(step))
                if step.name.startswith("ret") or step.name in ("ud2", "hlt"):
                    break
                if step.name.startswith("call"):
                    deepest = max(deepest, self.through(depth, self.called(function, step)))
                elif step.name.startswith("jmp"):
                    body = max(body, depth)
                    inner = self.jump(function, step, places)
                    if inner is None:
                        break
                    if isinstance(inner, str):
                        deepest = max(deepest, self.through(depth, inner))
                        break
                    at = inner
                    continue
                elif step.name.startswith("j"):
                    body = max(body, depth)
                    inner = self.jump(function, step, places)
                    if isinstance(inner, str):
                        deepest = max(deepest, self.through(depth, inner))
                    elif inner is not None:
                        left.append((inner, depth))
                at += 1
        if own > LARGEST_FRAME:
            raise Unbounded(f"a frame of {own} bytes")
        self.next[function.name] = deepest[1]
        return deepest[0]

    def through(self, depth, name):
        """How deep the stack gets in a function that is called at this depth, and its name."""
        return depth + self.of(name), name

    def chain(self, name):
        """The deepest chain of calls: each function with its own bytes, and those from it on."""
        while name in self.functions:
            whole, below = self.of(name), self.next[name]
            yield name, whole - (self.of(below) if below else 0), whole
            name = below

    def called(self, function, step):
        if step.words.startswith("*") and not step.moved:
            raise Unbounded(f"a call by a pointer: {step.words}")
        return self.name_of(function, step)

    def name_of(self, function, step):
        # (each function has a section of its own, which calls of a private one name)
        if step.moved:
            return step.moved.removeprefix(".text.")
        found = TARGET.match(step.words)
        if not found or not found[2]:
            raise Unbounded(f"a call of what has no name: {step.words} {step.moved}")
        return found[2]

    def jump(self, function, step, places):
        """The place that a jump leads to in the function, the name of another function, or None for a table of
        jumps."""
        if step.words.startswith("*"):
            return None if not step.moved else step.moved
        if not step.moved and (found := TARGET.match(step.words)) and int(found[1], 16) in places:
            return places[int(found[1], 16)]
        name = self.name_of(function, step)
        return 0 if name == function.name else name


def depths_of(path):
    text = subprocess.run(["objdump", "-dr", "--no-show-raw-insn", path], capture_output=True, text=True,
                          check=True).stdout
    return Depths(read(text))


def depths(path):
    """The depth of each function that the object exports."""
    found = depths_of(path)
    return {name: found.of(name) + ARGUMENTS for name in sorted(found.functions) if name.startswith("fevstunik_")}


def main():
    try:
        if sys.argv[1] == "--chain":
            for name, own, whole in depths_of(sys.argv[3]).chain(sys.argv[2]):
                print(f"{own:7} {whole:7} {name}")
            return
        for name, depth in depths(sys.argv[1]).items():
            print(f"#define DEPTH_OF_{name.removeprefix('fevstunik_').upper()} {(depth + 15) // 16 * 16}")
    except Unbounded as fault:
        sys.exit(f"depths: {fault}")


if __name__ == "__main__":
    main()
