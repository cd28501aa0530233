#!/usr/bin/env python3
"""Compares this repository's library for C, its Python package and krbtool with MIT krb5 (python-gssapi, klist).

    bench/run.py [GROUP..]    prints the rows of these groups, or of all: services, logins, parts, python,
                              refused, clients, processes, sealing, messages, starts; or those of
                              bench/rattle.py, which rt builds: rattle, memory, greatest
      --no-time               leaves out the times
      --cpu KIND              the build for this kind of processor (x86-64, x86-64-v2 ..); else the one that the
                              loader takes here (krbtool has those for x86-64 and x86-64-v2)
      --json FILE             writes the numbers, too
      --write                 writes the tables into bench/README.md, and the sentence on speed into README.md

Each row has the instructions of a call, which other work on the machine doesn't change, and its processor time.
Instructions are counted by `perf stat`, or where that can't, by valgrind: runs of two numbers of calls are subtracted
from each other, or a whole process is counted. (They are the program's own; what the kernel does isn't counted.) For
times, both sides run in turn, in pairs: a row has the least time of each side, the median of the pairs' ratios, and the
least and the greatest of them; if these differ by more than a third, it says "too busy to tell".

Needs what `make` builds, a C compiler, valgrind, and Debian's packages krb5-user, libkrb5-dev, pkg-config and
python3-gssapi. Nothing here is a test: it asserts nothing but that all programs end well.
"""
import argparse
import contextlib
import json
import os
import re
import resource
import shlex
import subprocess
import sys
import tempfile
import time
from concurrent.futures import ThreadPoolExecutor
from pathlib import Path

import builds
import pairs
import written
from builds import HERE, TOP, said
from rows import GROUPS, Row, Side

PROGRAMS = {"client": "krb5", "service": "krb5-gssapi", "seal": "krb5", "messages": "krb5-gssapi",
            "mit_process": "krb5"}
# Short runs of each side, in turn, in so many pairs.
PAIRS, SHORT = 7, 3


class Bench:
    """The programs over one build of the library, and what runs them."""

    def __init__(self, folder, cpu, top=TOP, made=None):
        self.folder, self.cpu, self.made = Path(folder), cpu, made or builds.made_folder()
        archive = self.made / cpu / "libfevstunik.a"
        if not archive.exists():
            sys.exit(f"{archive} isn't there: run make")
        (library,) = archive.parent.glob("libfevstunik.so.*")
        self.programs = {"krbtool": self.made / "krbtool", "python": "/usr/bin/python3",
                         "in_python": HERE / "in_python.py"}
        for name, package in PROGRAMS.items():
            self.programs[name] = self.folder / name
            flags = said("pkg-config", "--cflags", "--libs", "krb5", package).split()
            said("cc", "-O2", f"-I{top / 'include'}", HERE / f"{name}.c", archive, *flags, "-o", self.programs[name])
        self.env = {**os.environ, "PYTHONPATH": str(top / "python"), "FEVSTUNIK_LIBRARY": str(library),
                    "PYTHONHASHSEED": "0", "PYTHONDONTWRITEBYTECODE": "1", "DEBUGINFOD_URLS": "", "LC_ALL": "C",
                    **(builds.OLDEST if cpu == builds.KINDS[0] else {})}

    def words(self, text, at, count=0):
        return text.format(at=at, count=count, now=int(time.time()), **self.programs).split()

    def run(self, text, at):
        return said(*self.words(text, at), env=self.env)

    def started(self, side: Side, at, count, before=()):
        """Runs a side over so many calls, with a replay cache that is empty."""
        cache = side.cache.format(at=at)
        Path(cache.partition(":")[2] or at / "rcache").unlink(missing_ok=True)
        env = {**self.env, "KRB5RCACHENAME": cache, **({"OPENSSL_ia32cap": side.processor} if side.processor else {})}
        with open(at / side.given if side.given else os.devnull, "rb") as given:
            words = [*before, *self.words(side.words, at, count)]
            done = subprocess.run(words, stdin=given, capture_output=True, text=True, env=env)
        if done.returncode:
            sys.exit(f"{side.words} ended with {done.returncode}: {(done.stdout[-500:] + done.stderr[-1500:])}")
        return done

    def time_of(self, row: Row, side: Side, at):
        """The nanoseconds of a call, or of a whole process."""
        if not row.is_process:
            return float(self.started(side, at, row.count).stdout.split()[0])
        before = resource.getrusage(resource.RUSAGE_CHILDREN)
        self.started(side, at, row.count)
        after = resource.getrusage(resource.RUSAGE_CHILDREN)
        return 1e9 * (after.ru_utime + after.ru_stime - before.ru_utime - before.ru_stime)

    def counted(self, row: Row, side: Side, count):
        """The instructions of a run of so many calls, with files of its own."""
        with laid_out(self, row, True) as at:
            return counted(lambda before: self.started(side, at, count, before).stderr)

    def instructions_of(self, row: Row, side: Side):
        """The instructions of a call, or of a whole process."""
        counts = [self.counted(row, side, count) for count in row.counted]
        return counts[0] if row.is_process else (counts[1] - counts[0]) / (row.counted[1] - row.counted[0])


def can_count():
    """Whether perf counts instructions on this machine."""
    try:
        ran = subprocess.run(["perf", "stat", "-x,", "-e", "instructions:u", "true"], capture_output=True, text=True)
    except FileNotFoundError:
        return False
    return ran.returncode == 0 and ran.stderr[:1].isdigit()


BY_PERF = can_count()


def counted(ran):
    """The instructions of a run, which is given the words before its own."""
    if BY_PERF:
        return int(ran(["perf", "stat", "-x,", "-e", "instructions:u"]).strip().rpartition("\n")[2].split(",")[0])
    words = ["valgrind", "--tool=cachegrind", "--cache-sim=no", "--cachegrind-out-file=/dev/null"]
    return int(re.search(r"I +refs: +([\d,]+)", ran(words))[1].replace(",", ""))


@contextlib.contextmanager
def laid_out(bench, row, counts):
    """The row's folder with its files, which are made now: requests are good for five minutes."""
    with tempfile.TemporaryDirectory(dir=bench.folder) as at:
        row.lay_out(Path(at), bench.run, counts)
        yield Path(at)


def counts_of(bench, row):
    """The instructions of both sides of a row, or None."""
    if not row.counted:
        return None
    return [bench.instructions_of(row, side) for side in (row.ours, row.theirs)]


def name_of(bench, row):
    """What the row is of, with the code of our refusal, if it is one."""
    if row.group != "refused":
        return row.what
    with laid_out(bench, row, True) as at:
        code = bench.started(row.ours, at, 1).stdout.split()[1]
    return f"{row.what} ({code.removeprefix('FEVSTUNIK_')})"


def times_of(bench, row):
    with laid_out(bench, row, False) as at:
        ours, theirs = (lambda side=side: bench.time_of(row, side, at) for side in (row.ours, row.theirs))
        return pairs.compared(ours, theirs, PAIRS, SHORT)


def numbers(bench, row, counts, times):
    """What is known of a row, for tables and for --json."""
    found = {"group": row.group, "what": name_of(bench, row), "beside": row.beside, "instructions": counts,
             "times": None, "ratio": None, "shown": None}
    return found | ({"times": [times.ours, times.theirs], "ratio": times.ratio, "shown": times.shown} if times else {})


def going(rows, what):
    """The rows, while standard error says how many are done."""
    for at, row in enumerate(rows, 1):
        yield row
        print(f"\r{what}: {at} rows", end="", file=sys.stderr, flush=True)
    print(file=sys.stderr)


def found_of(bench, rows, has_times=True):
    """The numbers of each row: first the times, one row after another, then the instructions, side by side."""
    times = [times_of(bench, row) if has_times else None for row in going(rows, "times")]
    with ThreadPoolExecutor(os.cpu_count()) as pool:
        counts = list(going(pool.map(lambda row: counts_of(bench, row), rows), "instructions"))
    return [numbers(bench, *it) for it in zip(rows, counts, times)]


def count_shown(number):
    return f"{number:,.0f}" if number < 1e7 else f"{number / 1e6:,.0f} million"


def line(it):
    """A row of a table: what calls are given, what they are beside, and the numbers of both sides."""
    counts, times = [""] * 3, [""] * 3
    if it["instructions"]:
        ours, theirs = it["instructions"]
        counts = [count_shown(ours), count_shown(theirs), f"{theirs / ours:.2f}"]
    if it["times"]:
        times = [*map(pairs.time_of, it["times"]), it["shown"]]
    return f"| {' | '.join([it['what'], it['beside'], *counts, *times])} |"


def tables_of(found):
    """A table for each group, by its name."""
    head = "| {} | beside | instructions | theirs | ratio | time | theirs | ratio |\n|---|---|---|---|---|---|---|---|"
    groups = dict.fromkeys(it["group"] for it in found)
    return {group: "\n".join([head.format(group), *(line(it) for it in found if it["group"] == group)])
            for group in groups}


def main():
    parser = argparse.ArgumentParser(usage=__doc__, add_help=False)
    parser.add_argument("groups", nargs="*")
    parser.add_argument("--no-time", action="store_true")
    parser.add_argument("--cpu", default=builds.supported()[-1])
    parser.add_argument("--json")
    parser.add_argument("--write", action="store_true")
    words = parser.parse_args()
    others = ("rattle", "memory", "greatest")
    unknown = set(words.groups) - {*GROUPS, *others}
    if unknown:
        sys.exit(f"no group {shlex.join(sorted(unknown))}: there are {' '.join([*GROUPS, *others])}")
    with tempfile.TemporaryDirectory() as folder:
        bench = Bench(folder, words.cpu)
        wanted = [it for it in words.groups if it in GROUPS] if words.groups else GROUPS
        found = found_of(bench, [row for group in wanted for row in GROUPS[group]()], not words.no_time)
        if set(words.groups) & set(others):
            import rattle
            found += rattle.found(Path(folder), bench, words.groups, not words.no_time)
    tables = tables_of(found)
    print("\n\n".join(tables.values()))
    if words.write:
        written.write(found, tables)
    if words.json:
        Path(words.json).write_text(json.dumps(found, indent=1))


if __name__ == "__main__":
    main()
