#!/usr/bin/env python3
"""Writes the licence notices of the toolchain's libraries that krbtool and the library for C are linked with.

    packaging/notices.py FILE

Which libraries these are is read from crates.txt and from the toolchain (`dep` lines of rlibs/NAME.rlib/format), their
notices from the files LICENSE* in its folder rattle/NAME. A notice that several libraries share is written once.
"""
import os
import re
import shutil
import sys
from collections import defaultdict
from pathlib import Path

TOP = Path(__file__).resolve().parent.parent
KIT = Path(os.path.realpath(shutil.which("rt") or "/opt/rattle/bin/rt")).parent.parent
# What is linked into what is packed.
PACKED = ("krbtool", "krb_c")

HEAD = """krbtool and libfevstunik are linked with these libraries of the Rattle toolchain.

With notices, which follow:
{named}

Without a notice in the toolchain:
{unnamed}
"""


def crates():
    """The crates of the repository, each with the names that its line in crates.txt has after the colon."""
    lines = [it.partition("#")[0] for it in (TOP / "crates.txt").read_text().splitlines()]
    return {it.split()[0].rstrip(":"): it.partition(":")[2].split() for it in lines if it.strip()}


def below(name, rows):
    """The libraries that a crate or a library of the toolchain uses itself."""
    if name in rows:
        return ["std", *rows[name]]
    found = (KIT / f"rlibs/{name}.rlib/format").read_text(errors="replace")
    return re.findall(r"^dep (\w+)$", found, re.M)


def linked():
    """The toolchain's libraries below what is packed."""
    rows, found, left = crates(), set(), list(PACKED)
    while left:
        name = left.pop()
        if name not in found:
            found.add(name)
            left += below(name, rows)
    return sorted(found - set(rows))


def notices(names):
    """The texts of the notices, each with the libraries that have it."""
    texts = defaultdict(list)
    for name in names:
        for file in sorted((KIT / "rattle" / name).glob("LICENSE*")):
            texts[file.read_text().strip("\n")].append(f"{name} ({file.name})")
    return texts


def wrapped(names):
    return "\n".join(f"  {it}" for it in names)


def main():
    names = linked()
    texts = notices(names)
    named = [it for it in names if any(row.startswith(f"{it} ") for rows in texts.values() for row in rows)]
    parts = [HEAD.format(named=wrapped(named), unnamed=wrapped(it for it in names if it not in named))]
    parts += [f"{'-' * 80}\n{', '.join(rows)}\n\n{text}\n" for text, rows in texts.items()]
    to = Path(sys.argv[1])
    to.parent.mkdir(parents=True, exist_ok=True)
    to.write_text("\n".join(parts))


if __name__ == "__main__":
    main()
