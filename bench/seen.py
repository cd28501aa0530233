#!/usr/bin/env python3
"""Times requests that a service accepts while it remembers many, and prints a table: how long a call takes with
1,000, 100,000 and 1,000,000 remembered requests, of one client, of 1,000 clients, and of as many clients.

    bench/seen.py

Needs a C compiler and what `make` built. Nothing here is a test.
"""
import tempfile
from pathlib import Path

import builds
from pairs import time_of

REMEMBERED = (1_000, 100_000, 1_000_000)
# So many requests are timed.
COUNT = 20_000
# The clients whose requests are remembered, if they aren't as many as the requests, and how many of them send those
# that are timed, in turn.
SHAPES = ((1, 1, "one client"), (1_000, 1_000, "1,000 clients"),
          (None, 1_000, "as many clients, 1,000 of whom come in turn"),
          (None, COUNT, "as many clients, 20,000 of whom come in turn"))
RUNS = 3


def main():
    with tempfile.TemporaryDirectory() as name:
        program = Path(name) / "seen"
        archive = builds.archive_of(Path(name), builds.supported()[-1])
        folders = [f"-I{builds.TOP / it}" for it in ("include", "tests/c")]
        builds.said("cc", "-O2", *folders, builds.HERE / "seen.c", archive, "-o", program)
        files = builds.TOP / "examples/service.keytab", builds.TOP / "examples/client.ccache"
        print("| of | remembered | time of a call |\n|---|---|---|")
        for clients, callers, shown in SHAPES:
            for count in (it for it in REMEMBERED if clients or it >= callers):
                words = (clients or count, count, callers, COUNT)
                times = [float(builds.said(program, *files, *words)) for _ in range(RUNS)]
                print(f"| {shown} | {count:,} | {time_of(min(times))} |", flush=True)


if __name__ == "__main__":
    main()
