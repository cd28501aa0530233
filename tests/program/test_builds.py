"""krbtool as it is installed: which of its builds of the proved code it takes, and that each answers as it should."""
import os

import pytest

from support import krbtool, program_builds
from support.c_programs import run, well
from support.program_builds import BUILDS

OLD, NEW = BUILDS
# What x86-64-v2 adds to every x86-64, as qemu names it.
ADDED = ("cx16", "lahf-lm", "popcnt", "sse3", "sse4.1", "sse4.2", "ssse3")
# Processors, each with the build that it is to take. A Nehalem has what x86-64-v2 has.
TAKEN = {"qemu64": OLD, "Nehalem": NEW, "Haswell": NEW, **{f"Nehalem,-{it}": OLD for it in ADDED}}


def builds_that_ran(program, room, cpu, **more):
    words = ["qemu-x86_64", "-cpu", cpu, "-d", "in_asm", "-D", room / "log", program, "--version"]
    assert well(run(*words, env={**os.environ, **more})).stdout.startswith("krbtool ")
    return program_builds.ran_builds((room / "log").read_text())


@pytest.mark.packages
@pytest.mark.parametrize("cpu", TAKEN)
def test_build_for_the_processor(installed_program, tmp_path, cpu):
    assert builds_that_ran(installed_program, tmp_path, cpu) == {TAKEN[cpu]}


@pytest.mark.packages
@pytest.mark.parametrize("build", BUILDS)
def test_build_by_what_the_c_library_uses(installed_program, tmp_path, build):
    """It takes no extension that the C library was told to do without."""
    assert builds_that_ran(installed_program, tmp_path, "Nehalem", **BUILDS[build]) == {build}


@pytest.mark.parametrize("build", BUILDS)
def test_stored_cases(installed_program, monkeypatch, checks, build):
    for name, value in program_builds.environment(build).items():
        monkeypatch.setenv(name, value)
    checks.all(krbtool.results(installed_program, (it for it in krbtool.stored_cases() if checks.word in it["name"])))
