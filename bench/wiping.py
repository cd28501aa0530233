#!/usr/bin/env python3
"""Times what it costs that the library for C overwrites keys: calls of the library beside those of the proved code
alone, and prints a table of ratios of processor time.

    bench/wiping.py

Needs a C compiler. It proves and builds the library, which takes a while on a new clone. Nothing here is a test: it
asserts nothing but that the programs end well.
"""
import tempfile
from pathlib import Path

import builds
from pairs import time_of
from support import key_material
from support.c_programs import toolchain

# The pace of a machine changes from second to second. So both are run many times in turn, briefly, and the shortest run
# of each counts.
COUNT, RUNS = 300, 70
CALLS = ("fevstunik_request", "fevstunik_acceptor_accept", "the same and _accepted_known", "fevstunik_seal, 100 bytes",
         "fevstunik_open, 100 bytes", "fevstunik_checksum, 100 bytes")


def built(folder, cpu):
    """The programs over the library, and over the proved code with the toolchain's heap."""
    archive = builds.archive_of(folder, cpu)
    over = {"library": [archive], "proved": [archive.parent / "libkrb_c.a", toolchain()]}
    for name, files in over.items():
        builds.said("cc", "-O2", f"-I{builds.TOP}/include", f"-I{builds.TOP}/tests/secrets", "-Wno-unused",
                    builds.HERE / "wiping.c", *files, "-o", folder / f"wiping-{cpu}-{name}")
    return [folder / f"wiping-{cpu}-{name}" for name in over]


def table(folder):
    print("\n| call | build | its time | the proved code alone | time of the proved code alone / its time "
          "|\n|---|---|---|---|---|")
    key_material.made().write(folder)
    for cpu in builds.supported():
        programs = built(folder, cpu)
        for etype in key_material.ETYPES:
            runs = [[list(map(float, builds.said(it, folder, etype, COUNT).split())) for it in programs]
                    for _ in range(RUNS)]
            for call, ours, theirs in zip(CALLS, *([min(it) for it in zip(*of_one)] for of_one in zip(*runs))):
                print(f"| {call}, type {etype} | {cpu} | {time_of(ours)} | {time_of(theirs)} | {theirs / ours:.3f} |",
                      flush=True)


def main():
    with tempfile.TemporaryDirectory() as name:
        table(Path(name))


if __name__ == "__main__":
    main()
