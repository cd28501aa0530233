#!/usr/bin/env python3
"""Times processes of a service that share a store, and prints two tables: logins a second with the processor time of
each, and what a store adds to one login.

    bench/stores.py [FOLDER]     FOLDER has libfevstunik.a and the shared library, as build/x86-64-v2 of `make`; else
                                 they are built
      --write                    writes the tables into bench/README.md, too

Each process is sent a part of the requests: examples/service/service in C over TCP, some at a time, and
examples/shared.py by lines, one at a time. Beside them are processes without a store, each of which remembers for
itself, and MIT krb5's krb5_rd_req with its replay cache in a file, which its processes share. Needs what tests/stores
and bench/from_c.py need; takes about two minutes. Nothing here is a test, but each request has to be accepted.
"""
import argparse
import contextlib
import os
import statistics
import subprocess
import sys
import tempfile
import time
from concurrent.futures import ThreadPoolExecutor
from pathlib import Path
from typing import NamedTuple

import builds
from builds import TOP

import exchange
import written
from support import c_programs, instances, store_servers
from fevstunik import Moment
from fevstunik.stores import File, PostgreSQL, Redis, SQLite

# How many processes; how many requests (a store that syncs gets a part); how often each is timed; and how many clients
# each process in C has at a time.
COUNTS, REQUESTS, SYNCED, RUNS, CLIENTS = (1, 2, 4), 2_000, 400, 2, 4
SOURCES = [TOP / f"examples/service/{it}.c" for it in ("store", "sqlite_store", "redis_store")]


class Rate(NamedTuple):
    """Logins a second, and microseconds of the processes' processor time for each."""

    logins: float
    micros: float

    def __str__(self):
        return f"{self.logins:,.0f} ({self.micros:,.0f} µs)"


class ThisBoot:
    """A file of this boot."""

    def boot(self):
        self.boot_file.write_text(Path("/proc/sys/kernel/random/boot_id").read_text())


class OfRecords(ThisBoot, store_servers.OfRecords):
    pass


class OfSQLite(ThisBoot, store_servers.OfSQLite):
    pass


# What the stores are named in the tables, how one is made, how it is opened in Python, whether it syncs, and whether
# there is one in C. (/run is in memory on most machines.)
STORES = (("a file in memory", lambda: OfRecords("/dev/shm"), File, False, False),
          ("a file on disk", lambda: OfRecords(TOP / "build"), File, False, False),
          ("SQLite in memory", lambda: OfSQLite("/dev/shm"), SQLite, False, True),
          ("SQLite on disk", lambda: OfSQLite(TOP / "build"), SQLite, False, True),
          ("Redis", store_servers.Redis, Redis, True, True),
          ("PostgreSQL", store_servers.Postgres, PostgreSQL, True, False))


def must(ran):
    if ran.returncode:
        sys.exit(f"{ran.args} ended with {ran.returncode}: {(ran.stdout + ran.stderr)[-2000:]}")
    return ran.stdout


def archive_of(folder):
    return builds.archive_of(folder, "x86-64-v2")


def shared_library(folder):
    """Builds the library, and returns the path of the shared one."""
    return shared_beside(archive_of(folder))


def shared_beside(archive):
    return next(it for it in archive.parent.glob("libfevstunik.so.*.*"))


def built(folder, archive):
    """Builds the service and what times it."""
    words, libraries = ["-O2", "-D_DEFAULT_SOURCE", "-pthread", "-DSECONDS=60"], ["-lsqlite3", "-lhiredis"]
    c_programs.linked(archive, folder / "service", *words, TOP / "examples/service/service.c", *SOURCES, *libraries)
    c_programs.linked(archive, folder / "adds", *words, TOP / "bench/adds.c", *SOURCES, *libraries)
    must(c_programs.run("gcc", "-O2", "-pthread", TOP / "bench/load.c", "-o", folder / "load"))
    flags = must(c_programs.run("pkg-config", "--cflags", "--libs", "krb5")).split()
    must(c_programs.run("gcc", "-O2", TOP / "bench/mit_exchange.c", *flags, "-o", folder / "mit"))


# ---------------------------------------------------------------- processes of ours


def processor_time(process):
    """In seconds: of all threads of a process, also of those that have ended (clock_getcpuclockid(3))."""
    return time.clock_gettime(~process.pid << 3 | 2)


def by_lines(instance, requests):
    """Sends requests, some at a time, and counts those that are accepted."""
    count = 0
    for at in range(0, len(requests), instances.BATCH):
        batch = requests[at:at + instances.BATCH]
        instance.send(batch)
        count += instance.answers(len(batch)).count(instances.ACCEPTED)
    return count


def rate_of(kind, words, count, requests, deliver):
    """What so many processes do, each with a part of the requests."""
    with contextlib.ExitStack() as stack:
        started = [stack.enter_context(contextlib.closing(kind(words))) for _ in range(count)]
        for it in started:
            if it.asked("00") is instances.ACCEPTED:
                sys.exit("a byte was accepted")
        parts = [requests[at::count] for at in range(count)]
        used = sum(processor_time(it.process) for it in started)
        with ThreadPoolExecutor(count) as pool:
            began = time.monotonic()
            accepted = sum(pool.map(deliver, started, parts))
            took = time.monotonic() - began
        used = sum(processor_time(it.process) for it in started) - used
    if accepted != len(requests):
        sys.exit(f"{accepted} requests were accepted of {len(requests)}")
    return Rate(len(requests) / took, 1e6 * used / len(requests))


def in_python(words, count, requests):
    return rate_of(instances.Instance, [instances.PYTHON, "-B", *words], count, requests, by_lines)


def in_c(folder, words, count, requests):
    def by_clients(instance, part):
        ran = subprocess.run([folder / "load", instance.port, str(CLIENTS)], input="\n".join(part) + "\n",
                             capture_output=True, text=True)
        return int(must(ran).split()[0])

    return rate_of(instances.Served, [folder / "service", *instances.SERVICE, *words], count, requests, by_clients)


# ---------------------------------------------------------------- MIT's


def with_file(folder, count):
    """The same for MIT's processes that share a replay cache; each times its own loop."""
    keys, tickets, _ = exchange.laid_out(folder, 19, 1, 0)
    cache = folder / "rcache"
    cache.unlink(missing_ok=True)
    env = {**os.environ, "KRB5RCACHENAME": f"file2:{cache}"}
    words = [str(folder / "mit"), "remember", keys, tickets, str(REQUESTS // count)]
    before = used_by_children()
    started = [subprocess.Popen(words, stdout=subprocess.PIPE, text=True, env=env) for _ in range(count)]
    seconds = [float(it.communicate()[0]) * (REQUESTS // count) / 1e9 for it in started]
    return Rate(REQUESTS / max(seconds), 1e6 * (used_by_children() - before) / REQUESTS)


def used_by_children():
    found = os.times()
    return found.children_user + found.children_system


# ---------------------------------------------------------------- tables


# The lines that were printed.
LINES = []


def show(line):
    LINES.append(line)
    print(line, flush=True)


def row(name, measured):
    """A row of the table; `measured` takes a number of processes, and which run of how many it is."""
    best = [max(measured(count, index * RUNS + run) for run in range(RUNS)) for index, count in enumerate(COUNTS)]
    show(f"| {name} | " + " | ".join(map(str, best)) + " |")


def requests_of(cache, library):
    """Requests for each run of a row, each of another second, far enough from the others for a busy machine."""
    with ThreadPoolExecutor(4) as pool:
        return list(pool.map(lambda run: instances.made_requests(cache, REQUESTS, library, 20 * run),
                             range(len(COUNTS) * RUNS)))


def over_a_store(name, make, many, measured):
    with contextlib.closing(make()) as store:
        store.start()
        store.age()
        row(name, lambda count, run: measured(store, count, many[run]))


def table(folder, archive):
    cache = folder / "cache"
    cache.write_bytes(c_programs.current_cache(int(time.time()) - 60))
    library = shared_beside(archive)
    os.environ["FEVSTUNIK_LIBRARY"] = str(library)
    many = requests_of(cache, library)
    few = [it[:SYNCED] for it in many]
    heads = " | ".join(f"{it} process{'es' * (it > 1)}" for it in COUNTS)
    show(f"\n| logins a second (processor time of each) | {heads} |\n|---|---|---|---|")
    row("C, no store", lambda count, run: in_c(folder, ["first"], count, many[run]))
    for name, make, _, syncs, is_in_c in STORES:
        if is_in_c:
            over_a_store(f"C, {name}", make, few if syncs else many,
                         lambda store, *it: in_c(folder, [store.in_c, 20], *it))
    row("Python, no store",
        lambda count, run: in_python([TOP / "examples/serve.py", *instances.SERVICE, "--first"], count, many[run]))
    for name, make, _, syncs, _ in STORES:
        words = [TOP / "examples/shared.py", *instances.SERVICE]
        over_a_store(f"Python, {name}", make, few if syncs else many,
                     lambda store, *it: in_python([*words, store.where, "--wait", 20], *it))
    row("MIT krb5 in C, a replay cache in a file", lambda count, run: with_file(folder, count))


def added(folder):
    """How long it takes in the median to add a stamp of a usual length, by one process."""
    show("\n| a store adds to one login | C | Python |\n|---|---|---|")
    for name, make, opened, _, is_in_c in STORES:
        with contextlib.closing(make()) as store:
            store.start()
            nanoseconds = must(c_programs.run(folder / "adds", store.in_c, SYNCED)) if is_in_c else None
            in_c = f"{int(nanoseconds) / 1000:,.0f} µs" if nanoseconds else ""
            where = store.where.removeprefix("sqlite:")
            show(f"| {name} | {in_c} | {micros_of(opened(where)):,.0f} µs |")


def micros_of(store):
    until, times = Moment(int(time.time()) + 600), []
    for number in range(SYNCED):
        stamp = b"%79d." % number
        began = time.perf_counter()
        if not store.add(stamp, until):
            sys.exit("a stamp isn't new")
        times.append(time.perf_counter() - began)
    return 1e6 * statistics.median(times)


def tables(folder, archive=None):
    """Builds what the tables time in this folder, and prints them."""
    archive = archive or archive_of(folder)
    built(folder, archive)
    table(folder, archive)
    added(folder)


def main():
    parser = argparse.ArgumentParser()
    parser.add_argument("folder", nargs="?", type=Path)
    parser.add_argument("--write", action="store_true")
    given = parser.parse_args()
    with tempfile.TemporaryDirectory() as name:
        tables(Path(name), given.folder and given.folder.resolve() / "libfevstunik.a")
    if given.write:
        written.replaced(TOP / "bench/README.md", "stores", "\n".join([written.setting(True), *LINES]))


if __name__ == "__main__":
    main()
