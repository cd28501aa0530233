"""What a call leaves behind: no key, and nothing that follows from one, in blocks that it freed, on the stack below its
caller's frame, or in registers."""
import re

import pytest

from support import TOP
from support.builds import CPUS
from support.c_header import INTERFACE
from support.c_programs import run, well

WRAPPED = ("-Wl,--wrap=malloc", "-Wl,--wrap=realloc", "-Wl,--wrap=free")


def lines(build, room, *more, over=None):
    """What the program writes."""
    program = build.linked("left", room / "left", *WRAPPED, *more, over=over)
    written = well(run(program, room)).stdout.splitlines()
    assert re.fullmatch(r"184 steps, \d+ secrets, 0 blocks held", written[-1]), written[-1]
    return written


def left(build, room, over=None):
    """The places in which secrets were found after a step, and the secrets."""
    found = lines(build, room, over=over)
    return [tuple(it.removeprefix("left ").split(" ", 1)) for it in found if it.startswith("left ")]


def places(found):
    return {place for place, _ in found}


@pytest.mark.parametrize("cpu", CPUS)
def test_nothing_is_left(built, room, cpu):
    assert left(built[cpu], room) == []


def test_what_is_left_without_wiping_is_found(built, room):
    """Otherwise the test above would show nothing."""
    build = built["x86-64-v2"]
    assert places(left(build, room, build.unwiped())) == {"freed", "stack", "registers"}


def test_each_call_with_a_key_or_a_handle_is_a_step():
    made = re.findall(r'^    {"(\w+)', (TOP / "tests/secrets/flow.h").read_text(), re.M)
    has_secrets = (it.name for it in INTERFACE.functions
                   if any(name == "key" or kind.startswith("handle ") for name, kind in it.parts))
    assert set(has_secrets) <= set(made)


# The frames of the program's own functions, above that of a function of the library.
OWN = 512


@pytest.mark.parametrize("cpu", CPUS)
def test_no_call_uses_more_of_the_stack_than_is_overwritten(built, room, checks, cpu):
    """packaging/depths.py bounds it. (The loader uses more, if it binds a function at its first call.)"""
    build = built[cpu]
    text = (build.folder / "depths.h").read_text()
    bounds = {name.lower(): int(depth) for name, depth in re.findall(r"DEPTH_OF_(\w+) (\d+)", text)}
    for line in lines(build, room, "-Wl,-z,now", over=build.unwiped()):
        if found := re.match(r"deep (\d+) (\w+)", line):
            checks.add(line, "is deeper" if int(found[1]) > bounds[found[2]] + OWN else None)


@pytest.mark.parametrize("file, line, place", [
    ("heap.c", "        wipe(block, room);\n", "freed"),
    ("wipe.S", "    rep stosq\n", "stack"),
], ids=["of the heap", "of the stack"])
def test_a_line_that_is_left_out_is_noticed(built, room, file, line, place):
    build = built["x86-64-v2"]
    assert places(left(build, room, build.planted(room, file, line, ""))) == {place}
