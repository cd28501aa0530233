#!/usr/bin/env python3
"""Checks that the time of each command, and of each call from C that has a size, grows with the size and no faster.

    bench/growth.py PROGRAM LIBRARY

PROGRAM is krbtool, LIBRARY the shared library for C. Each row has two sizes, one 16 times the other, and the least
processor time of some runs of each. Before each run the processor's caches are filled with other data, as they are when
a program reads a file once: what is repeated at once finds the smaller size in the caches, and the larger one not. The
time may grow by a factor of 24: what takes longer for its size is a fault to mend, and makes the script end with 1. The
last column is the factor of runs that are repeated at once; it decides nothing.
"""
import ctypes
import os
import sys
import tempfile
import time
from pathlib import Path

import exchange
import files
import fevstunik

FACTOR, MOST, RUNS = 16, 24, 5
# Options of mallopt (malloc.h), and the greatest size that malloc takes for one of them.
TRIM_THRESHOLD, TOP_PAD, MMAP_THRESHOLD = -1, -2, -3
KEPT = 32 << 20
# More than a processor's caches hold.
OTHER_DATA = ctypes.create_string_buffer(128 << 20)


def least(run):
    return min(run() for _ in range(RUNS))


def fill_caches():
    """Fills the processor's caches with other data."""
    ctypes.memset(OTHER_DATA, 1, ctypes.sizeof(OTHER_DATA))


def least_cold(run):
    def cold():
        fill_caches()
        return run()

    return least(cold)


def of_a_call(call):
    """The processor time of a call in this process, in nanoseconds."""
    def run():
        before = time.process_time_ns()
        call()
        return time.process_time_ns() - before

    return run


def row(name, small, run_of):
    """`run_of` makes a run of a size."""
    run = run_of(small)
    here, warm = least_cold(run), least(run)
    run = run_of(small * FACTOR)
    there, warm_there = least_cold(run), least(run)
    said = "" if there <= MOST * here else ": it grows faster than its size"
    print(f"| {name} | {small:,} | {shown(here)} | {shown(there)} | {there / here:.1f}{said} | {warm_there / warm:.1f} "
          f"|", flush=True)
    return not said


def shown(nanoseconds):
    return f"{nanoseconds / 1e6:.2f} ms"


def commands(program, folder):
    """Rows of commands on files of so many entries or credentials."""
    keys, tickets, out = folder / "keytab", folder / "ccache", folder / "out"

    def on_keytab(*words):
        def run_of(size):
            keys.write_bytes(files.keytab(size))
            return files.processor_time([program, words[0], str(keys),
                                         *(it.format(last=size - 1, out=out) for it in words[1:])])

        return run_of

    def adding(held_of, others_of):
        """A keytab is added to another; the two calls make them for a size."""
        def run_of(size):
            others = folder / "others"
            keys.write_bytes(held_of(size))
            others.write_bytes(others_of(size))
            return files.processor_time([program, "add-keys", str(keys), str(others), "--out", str(out)])

        return run_of

    def on_cache(*words):
        def run_of(size):
            tickets.write_bytes(files.cache(size))
            return files.processor_time([program, words[0], str(tickets), *(it.format(out=out) for it in words[1:])])

        return run_of

    yield "list-keytab, entries", 10_000, on_keytab("list-keytab")
    yield "check-keytab, entries", 10_000, on_keytab("check-keytab")
    yield "convert-keytab, entries", 10_000, on_keytab("convert-keytab", "{out}")
    yield "remove-key, entries", 10_000, on_keytab("remove-key", "{last}", "--out", "{out}")
    yield "add-keys, entries of other names", 1_000, adding(files.keytab, lambda size: files.keytab(size, size))
    yield "add-keys, the same entries", 1_000, adding(files.keytab, files.keytab)
    yield "add-keys, version numbers of one name", 1_000, adding(
        lambda size: files.keytab(size, name=0), lambda size: files.keytab(size, size, name=0))
    yield "add-keys, holes that take an entry each", 1_000, adding(lambda size: files.holes(size, 100), files.keytab)
    yield "add-keys, holes that are too short", 1_000, adding(lambda size: files.holes(size, 5), files.keytab)
    yield "pick-key, entries", 10_000, on_keytab("pick-key", "host/web{last}.example.test@EXAMPLE.TEST", "19")
    yield "list-ccache, credentials", 1_500, on_cache("list-ccache")
    yield "check-ccache, credentials", 1_500, on_cache("check-ccache")
    yield "convert-ccache, credentials", 1_500, on_cache("convert-ccache", "{out}")
    yield "accept, lines", 1_000, lines_of(program, folder)


def folder_in(folder, name):
    made = folder / name
    made.mkdir()
    return made


def lines_of(program, folder):
    """So many requests, each of a microsecond of its own."""
    folder = folder_in(folder, "requests")
    keys, tickets, _ = exchange.laid_out(folder, 19, 1, 0)
    cache = fevstunik.CredentialCache.read(tickets)
    now = int(time.time())

    def run_of(size):
        made = (fevstunik.make_request(cache, "host/web0.example.test@EXAMPLE.TEST", now=fevstunik.Moment(now, at))[0]
                for at in range(size))
        (folder / "lines").write_text("".join(f"{now} 0 {request.hex()}\n" for request in made))
        return files.processor_time(["sh", "-c", f"{program} accept {keys} < {folder}/lines"])

    return run_of


def requests_of(folder):
    """A request from a cache with so many other credentials before the one that fits."""
    _, tickets, now = exchange.laid_out(folder_in(folder, "cache"), 19, 1, 0)
    wanted = Path(tickets).read_bytes()
    head = 4 + len(files.principal(b"alice"))

    def run_of(size):
        others = b"".join(files.credential(index) for index in range(1, size))
        cache = fevstunik.CredentialCache(wanted[:head] + others + wanted[head:])
        return of_a_call(lambda: fevstunik.make_request(cache, "host/web0.example.test@EXAMPLE.TEST", now=int(now)))

    return run_of


def accepting(folder):
    """A new service accepts a request whose ticket has so many bytes of authorization data."""
    folder = folder_in(folder, "tickets")

    def run_of(size):
        keys, tickets, now = exchange.laid_out(folder, 19, 1, size)
        keytab = fevstunik.Keytab.read(keys)
        request, _ = fevstunik.make_request(fevstunik.CredentialCache.read(tickets),
                                            "host/web0.example.test@EXAMPLE.TEST", now=int(now))
        return of_a_call(
            lambda: fevstunik.Acceptor(keytab, None, any_name=True, first_life=True).accept(request, now=int(now)))

    return run_of


def calls(folder):
    """Rows of calls of the library."""
    key = fevstunik.Key(19, bytes(16))
    keytab_of = {}

    def keytab(size):
        if size not in keytab_of:
            keytab_of[size] = fevstunik.Keytab(files.keytab(size))
        return keytab_of[size]

    entry = fevstunik.KeytabEntry("host/web@EX", key, 3)
    yield ("fevstunik_keytab_check, entries", 10_000,
           lambda size: of_a_call(lambda data=files.keytab(size): fevstunik.Keytab(data)))
    yield "all of fevstunik_keytab_entry, entries", 500, lambda size: of_a_call(
        lambda data=files.keytab(size): fevstunik.Keytab(data).entries)
    yield "fevstunik_keytab_add, entries", 10_000, lambda size: of_a_call(lambda: keytab(size).added(entry))
    yield "fevstunik_keytab_remove, entries", 10_000, lambda size: of_a_call(lambda: keytab(size).removed(size - 1))
    yield "fevstunik_keytab_write, entries", 10_000, lambda size: of_a_call(keytab(size).compacted)
    yield ("fevstunik_acceptor_new, entries", 10_000, lambda size: of_a_call(
        lambda: fevstunik.Acceptor(keytab(size), None, any_name=True, first_life=True)))
    yield "fevstunik_acceptor_accept, bytes of a ticket's authorization data", 1 << 15, accepting(folder)
    yield "fevstunik_cache_new, credentials", 1_500, lambda size: of_a_call(
        lambda data=files.cache(size): fevstunik.CredentialCache(data))
    yield "all of fevstunik_cache_credential, credentials", 500, lambda size: of_a_call(
        lambda data=files.cache(size): fevstunik.CredentialCache(data).credentials)
    yield "fevstunik_request, credentials", 1_500, requests_of(folder)
    yield "fevstunik_name_check, components", 10_000, lambda size: of_a_call(
        lambda text="/".join(["part"] * size) + "@EX": fevstunik.check_name(text))
    yield "fevstunik_seal, bytes", 1 << 20, lambda size: of_a_call(lambda text=bytes(size): key.seal(7, text))
    yield "fevstunik_checksum, bytes", 1 << 20, lambda size: of_a_call(lambda text=bytes(size): key.checksum(7, text))
    yield ("fevstunik_open, bytes", 1 << 20,
           lambda size: of_a_call(lambda text=key.seal(7, bytes(size)): key.open(7, text)))
    yield "fevstunik_token_open, bytes", 1 << 15, lambda size: of_a_call(
        lambda token=fevstunik.wrap_request(bytes(size)): fevstunik.Token.open(token))


def keep_memory():
    """Makes malloc keep what is freed. To give it back to the system, and ask for it again, takes longer for some sizes
    than for others."""
    mallopt = ctypes.CDLL(None).mallopt
    kept = [mallopt(option, KEPT) for option in (TOP_PAD, MMAP_THRESHOLD)] + [mallopt(TRIM_THRESHOLD, 64 * KEPT - 1)]
    assert all(kept), "malloc refuses an option"


def main():
    program, library = map(os.path.abspath, sys.argv[1:])
    keep_memory()
    fevstunik.load(library)
    with tempfile.TemporaryDirectory() as name:
        print(f"| what | size | its time | {FACTOR} times the size | ratio | repeated at once "
              f"|\n|---|---|---|---|---|---|")
        rows = [*commands(program, Path(name)), *calls(Path(name))]
        is_well = [row(*it) for it in rows]
    sys.exit(0 if all(is_well) else 1)


if __name__ == "__main__":
    main()
