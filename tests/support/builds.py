"""The builds of the library for C for each kind of processor, and programs of tests/secrets over them."""
import functools
from dataclasses import dataclass
from pathlib import Path

import pytest

from support import TESTS, TOP
from support.c_header import HEADER
from support.c_programs import STRICT, run, toolchain, well

CPUS = ("x86-64", "x86-64-v2", "x86-64-v3")
SOURCES = TOP / "packaging/wiping"


@functools.cache
def supported():
    """The builds that this processor can run, by the dynamic loader."""
    said = run("/lib64/ld-linux-x86-64.so.2", "--help").stdout
    return {CPUS[0], *(cpu for cpu in CPUS if f"  {cpu} (supported, searched)" in said)}


@dataclass(frozen=True)
class Build:
    """A build of the library."""

    cpu: str
    folder: Path
    version: str

    @property
    def archive(self):
        return self.folder / "libfevstunik.a"

    @property
    def shared(self):
        return self.folder / f"libfevstunik.so.{self.version}"

    def linked(self, name, program, *words, over=None):
        """Builds a program over the archive, or over other files. Skips the test if this processor can't run it."""
        if self.cpu not in supported():
            pytest.skip(f"this processor isn't an {self.cpu}")
        source = TESTS / f"secrets/{name}.c"
        well(run("gcc", "-std=gnu99", "-O1", "-g", *STRICT[:3], f"-I{HEADER.parent}", source, *words,
                 *(over or [self.archive]), "-o", program))
        return program

    def unwiped(self):
        """The proved code with what the toolchain links to it, which overwrites nothing."""
        return [self.folder / "libkrb_c.a", toolchain()]

    def planted(self, room, file, old, new):
        """The archive with a part of a file of packaging/wiping changed."""
        sources = room / "wiping"
        sources.mkdir()
        for path in SOURCES.iterdir():
            text = path.read_text()
            assert path.name != file or text.count(old) == 1
            (sources / path.name).write_text(text.replace(old, new) if path.name == file else text)
        (room / "libkrb_c.a").symlink_to(self.folder / "libkrb_c.a")
        well(run(TOP / "packaging/link-library", self.cpu, room, self.version, sources))
        return [room / "libfevstunik.a"]
