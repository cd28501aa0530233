"""Programs in C over the library: how they are built and run, and what is counted of them."""
import re
import struct
import subprocess
import time
from pathlib import Path

from support import TESTS, TOP, fixture
from support.c_header import HEADER, documented, header_codes

STRICT = ["-Wall", "-Wextra", "-Werror", "-pedantic"]
# Looks for errors and for leaks; its status is 9 then.
VALGRIND = ["valgrind", "-q", "--error-exitcode=9", "--leak-check=full", "--show-leak-kinds=all",
            "--errors-for-leak-kinds=all"]
KEYTAB, CACHE = TOP / "examples/service.keytab", TOP / "examples/client.ccache"
# The name of the fixture's request that asks for all.
KEYED = "mutual request with a subkey and a number"


def run(*words, **more):
    words, cwd = [str(word) for word in words], more.pop("cwd", TOP)
    return subprocess.run(words, capture_output=True, text=True, cwd=cwd, **more)


def well(ran):
    """A command that is to end well."""
    assert ran.returncode == 0, f"status {ran.returncode}: {(ran.stdout + (ran.stderr or ''))[-2000:]}"
    return ran


def message(name):
    """A message of the fixture, in hex."""
    return fixture.made()[name].hex()


def toolchain():
    """What the toolchain links to the proved code: the heap that overwrites nothing."""
    return Path(run("rt", "doc").stdout.strip()).parent / "c/liblibc_c.a"


def linked(archive, program, *words):
    """Builds a program over the archive."""
    well(run("gcc", "-std=c99", "-O1", *STRICT, f"-I{HEADER.parent}", *words, archive, "-o", program))
    return program


def of_tests(name):
    return TESTS / f"c/{name}.c"


def watch(room):
    """A header that notes what each function answers, and lets the program tell it at its end: lines `answered FUNCTION
    CODE`."""
    names = sorted(documented())
    listed = ", ".join(f'"{name}"' for name in names)
    calls = "".join(f"#define {name}(...) noted({index}, {name}(__VA_ARGS__))\n" for index, name in enumerate(names))
    (room / "watch.h").write_text(f"""#include <stdio.h>
#include <stdlib.h>
#include "fevstunik.h"
static const char *const watched[] = {{{listed}}};
static unsigned char answers[{len(names)}][1024];
static void tell_answers(void)
{{
    for (int function = 0; function < {len(names)}; function++)
        for (int code = 0; code < 1024; code++)
            if (answers[function][code])
                printf("answered %s %d\\n", watched[function], code);
}}
static inline fevstunik_answer noted(int function, fevstunik_answer answer)
{{
    static int is_first = 1;
    if (is_first)
        atexit(tell_answers);
    is_first = 0;
    answers[function][answer.code & 1023] = 1;
    return answer;
}}
{calls}""")


class Answered:
    """The codes that each function was seen to answer."""

    def __init__(self):
        self.codes = {}

    def read(self, output):
        """The other lines of a program's output."""
        names = {number: name for name, number in header_codes().items()}
        for function, code in re.findall(r"^answered (\w+) (\d+)$", output, re.M):
            self.codes.setdefault(function, set()).add(names.get(int(code), code))
        return re.sub(r"^answered .*\n", "", output, flags=re.M).splitlines()


def counted(checks, ran, answered=None):
    """Adds what a program of tests/c found, which prints each fault, and at its end how much it looked at."""
    lines = (answered or Answered()).read(ran.stdout)
    last = re.fullmatch(r"(\d+) passed, \d+ failed", lines[-1]) if lines else None
    for line in lines[:-1]:
        checks.add(line, "is wrong")
    assert last and ran.returncode in (0, 1), f"status {ran.returncode}: {(ran.stdout + ran.stderr)[-2000:]}"
    checks.count += int(last[1])


def current_cache(now):
    """The fixture's cache with a ticket that is valid now, for ten hours."""
    times = [time.strftime("%Y%m%d%H%M%SZ", time.gmtime(at)).encode() for at in (now, now + 36_000)]
    part = fixture.ticket_part().replace(b"20231114221320Z", times[0]).replace(b"20231115081320Z", times[1])
    cache = fixture.cache(fixture.ticket(fixture.sealed(19, fixture.SERVICE_KEY, 2, bytes(16), part)))
    return cache.replace(struct.pack(">4I", 1_700_000_000, 0, 1_700_036_000, 0),
                         struct.pack(">4I", now, 0, now + 36_000, 0))
