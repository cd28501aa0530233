"""Files that claim 16 MB by a length or a count, and have a few bytes (tests/support/drawn_files.py), are read with
little address space (setrlimit, as the shell's `ulimit -v`): by the program of the crate krb_calls_files with 512 KiB
more than it needs for small files, and by the library for C in Python with 4 MiB more than Python has, which asks for 1
MiB at a time.

The answer is the fault that is there: so nothing was reserved that the bytes don't bear out.
"""
import os
import resource
import subprocess
import sys

import pytest

from support import TESTS, TOP, calls, drawn_files
from support.checks import slug

STEP = 64 * 1024
MORE, MORE_IN_C = 512 * 1024, 4 * 1024 * 1024
# The program answers small files within this, so none of its calls asks for memory by a number of its own.
MOST = 16 * 1024 * 1024
SECONDS = 60

# Answers lines by the library for C. A small keytab and a small cache are read before there is a limit, and then what
# was claimed can't be had.
SCRIPT = """
import resource, sys
import fevstunik
from support import files_in_c

fevstunik.load(sys.argv[1])
lines = sys.stdin.read().splitlines()
print(*files_in_c.answers(sys.argv[3:]), file=sys.stderr)
with open("/proc/self/statm") as file:
    limit = int(file.read().split()[0]) * resource.getpagesize() + int(sys.argv[2])
resource.setrlimit(resource.RLIMIT_AS, (limit, limit))
try:
    bytes(16_000_000)
except MemoryError:
    print(*files_in_c.answers(lines), sep="\\n")
"""
KEYTAB, CACHE = "0502", "0504000000000001000000010000000245580000000561" + "6c696365"


def answered(lines, limit):
    """What the program answers within this address space, with its status."""

    def limited():
        resource.setrlimit(resource.RLIMIT_AS, (limit, limit))

    ran = subprocess.run([calls.built(drawn_files.PROGRAM)], input=calls.joined([lines]).encode(), capture_output=True,
                         preexec_fn=limited, timeout=SECONDS)
    return ran.returncode, ran.stdout.decode(errors="replace").splitlines()


def answered_in_c(lines, library):
    """What the library for C answers."""
    small = [f"keytab parse {KEYTAB}", f"cache parse {CACHE}"]
    ran = subprocess.run([sys.executable, "-c", SCRIPT, library, str(MORE_IN_C), *small],
                         input=calls.joined([lines]).encode(), capture_output=True, timeout=SECONDS,
                         env={**os.environ, "PYTHONPATH": f"{TESTS}:{TOP / 'python'}"})
    assert ran.stderr.decode() == "ok 0 ok 1/alice@EX none 0\n"
    return ran.returncode, ran.stdout.decode(errors="replace").splitlines()


def small():
    """A small file of each kind, and a reader of each."""
    back, name = "failures 0 left 0", "1/alice@EX none"
    yield [f"keytab piece:100 {KEYTAB}", f"entries piece:100 {KEYTAB} next"], [f"0 {back}", f"end {back}"]
    yield ([f"cache piece:100 {CACHE}", f"credentials piece:100 {CACHE} next"],
           [f"{name} 0 {CACHE} {back}", f"{name} end {back}"])


def least():
    """The least address space, in steps, in which small files are answered."""
    limit = STEP
    while limit < MOST and any(answered(lines, limit) != (0, right) for lines, right in small()):
        limit += STEP
    return limit


@pytest.fixture(scope="module")
def limit():
    found = least() + MORE
    assert found < MOST, "small files aren't answered"
    return found


@pytest.mark.parametrize("program, name, lines, answers",
                         [pytest.param(*it, id=slug(f"{it[1]} {it[0]}")) for it in drawn_files.claim_cases()])
def test_claimed(limit, library, program, name, lines, answers):
    is_in_c = program == drawn_files.IN_C
    assert (answered_in_c(lines, library) if is_in_c else answered(lines, limit)) == (0, answers)
