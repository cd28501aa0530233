#!/usr/bin/env python3
"""Builds the object file of krbtool for one processor. packaging/link-program makes the program of several.

    packaging/program.py CPU OUT     CPU is x86-64, x86-64-v2 or x86-64-v3; OUT is the object file

Takes the libraries that `rt ci` left, if it has just run, as packaging/archive.py does; else proves by `rt run`. The
program is checked for each processor; what an earlier check kept isn't proved again.
"""
import pathlib
import sys

import archive

CRATE = archive.ROOT / "crates/krbtool"


def build(cpu, out):
    """Returns what built the object file, or failed to."""
    out = pathlib.Path(out).resolve()
    out.parent.mkdir(parents=True, exist_ok=True)
    built = archive.over_ci(CRATE, cpu, out)
    if built is not None and built.returncode == 0:
        return built
    proved = archive.run("rt", "run", "--cpu", cpu, "--", "--version", at=CRATE)
    return proved if proved.returncode else archive.over_proved(CRATE, cpu, out)


def main():
    built = build(*sys.argv[1:])
    if built.returncode:
        print(built.stdout[-3000:], file=sys.stderr)
    return 1 if built.returncode else 0


if __name__ == "__main__":
    sys.exit(main())
