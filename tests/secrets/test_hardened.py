"""How the library and krbtool are hardened: the list of SECURITY.md. What is proved has no memory faults; the list is
for the code around it."""
import re

import pytest

from support.builds import CPUS
from support.c_header import header_functions
from support.c_programs import run, well

# What the library may call of the C library.
CALLED = {"malloc", "free", "memcpy", "memmove", "memset"}


def said(*words):
    return well(run(*words)).stdout


def segments(path, kind):
    """What may be done with each segment of a kind: R, W and E."""
    found = re.findall(rf"^\s+{kind}(?:\s+0x\w+){{5}} ([RWE ]+?)\s+(?:0|0x\w+)$", said("readelf", "-lW", path), re.M)
    return [it.replace(" ", "") for it in found]


@pytest.fixture(scope="session")
def linked(built, installed_program):
    """The shared libraries and the program, by their names."""
    return {"krbtool": installed_program} | {cpu: built[cpu].shared for cpu in CPUS}


LINKED = ("krbtool", *CPUS)


@pytest.mark.parametrize("name", LINKED)
def test_no_segment_is_written_and_executed(linked, name):
    found = segments(linked[name], "LOAD")
    assert len(found) >= 3 and "RE" in found
    assert [it for it in found if "W" in it and "E" in it] == []
    assert segments(linked[name], "GNU_STACK") == ["RW"]


@pytest.mark.parametrize("name", LINKED)
def test_all_addresses_are_read_only_after_the_start(linked, name):
    """Full RELRO: every function is bound at the start, and the table of addresses is then read-only."""
    found = said("readelf", "-dlW", linked[name])
    assert "GNU_RELRO" in found and re.search(r"\(FLAGS(_1)?\).*\bNOW\b", found)


@pytest.mark.parametrize("name", LINKED)
def test_code_has_no_relocations(linked, name):
    found = said("readelf", "-dW", linked[name])
    assert "TEXTREL" not in found and "RPATH" not in found and "RUNPATH" not in found


def test_program_is_loaded_anywhere(linked):
    assert re.search(r"FLAGS_1.*\bPIE\b", said("readelf", "-dW", linked["krbtool"]))


@pytest.mark.parametrize("cpu", CPUS)
def test_symbols_are_hidden(built, cpu):
    lines = said("nm", "-D", "--defined-only", built[cpu].shared).splitlines()
    assert {it.split()[-1].split("@")[0] for it in lines} - {"FEVSTUNIK_0"} == header_functions()
    lines = said("nm", "--defined-only", "--extern-only", built[cpu].archive).splitlines()
    assert {it.split()[-1] for it in lines if len(it.split()) == 3} == header_functions()


@pytest.mark.parametrize("cpu", CPUS)
def test_calls_of_the_c_library(built, cpu):
    """Those that SECURITY.md and the header name. None of them checks the stack: the proved code has no checks, and
    the code around it has no array on the stack."""
    for words in (["-D", built[cpu].shared], [built[cpu].archive]):
        called = set(re.findall(r" U (\w+)", said("nm", "--undefined-only", *words)))
        assert called - {"_GLOBAL_OFFSET_TABLE_"} == CALLED


@pytest.mark.parametrize("cpu", CPUS)
def test_what_is_called_is_bound_when_the_library_is_loaded(built, cpu):
    """Also if a program that the static library is linked to leaves that to the loader."""
    code = said("objdump", "-dr", "--no-show-raw-insn", built[cpu].folder / "bound.o")
    assert set(re.findall(r"R_X86_64_PLT32\s+(\w+)", code)) == CALLED


@pytest.mark.parametrize("cpu", CPUS)
def test_code_in_c_marks_where_it_may_be_entered(built, cpu):
    """CET: each exported function begins with endbr64, and the objects say so."""
    for name in ("bound", "calls", "heap", "vectors", "wipe"):
        assert "x86 feature: IBT, SHSTK" in said("readelf", "-n", built[cpu].folder / f"{name}.o"), name
    code = said("objdump", "-d", "--no-show-raw-insn", built[cpu].shared)
    entered = set(re.findall(r"<(fevstunik_\w+)>:\n[^\n]*\tendbr64", code))
    assert entered == header_functions()


@pytest.mark.parametrize("cpu", CPUS)
def test_the_archive_asks_for_no_executable_stack(built, cpu):
    sections = said("readelf", "-SW", built[cpu].archive)
    (flags,) = re.findall(r"\.note\.GNU-stack\s+PROGBITS(?:\s+\w+){4}(.*)$", sections, re.M)
    assert "X" not in flags


@pytest.mark.parametrize("cpu", CPUS)
def test_stack_that_a_call_uses(built, cpu):
    """No call uses more than the 16 KiB that the header says."""
    text = (built[cpu].folder / "depths.h").read_text()
    depths = {name: int(it) for name, it in re.findall(r"^#define DEPTH_OF_(\w+) (\d+)$", text, re.M)}
    assert len(depths) == len(header_functions())
    assert max(depths.values()) <= 16 * 1024


# The bytes of an array in a function, flags of the compiler, and whether the function's frame is too large.
FRAMES = {
    "of 23 KiB": (23 * 1024, (), False),
    "of 25 KiB": (25 * 1024, (), True),
    "that a loop touches": (48 * 1024, ("-fstack-clash-protection",), True),
}


@pytest.mark.parametrize("size, flags, is_refused", FRAMES.values(), ids=FRAMES)
def test_a_large_frame_is_an_error(tmp_path, size, flags, is_refused):
    """packaging/depths.py finds the frame of each function that a call may reach."""
    source = tmp_path / "frame.c"
    source.write_text(f"void fevstunik_frame(void) {{ volatile char room[{size}]; room[0] = 1; }}\n")
    well(run("cc", "-O2", "-fno-stack-protector", *flags, "-c", source, "-o", tmp_path / "frame.o"))
    found = run("packaging/depths.py", tmp_path / "frame.o")
    assert (found.returncode != 0) == is_refused
    assert ("fevstunik_frame: a frame of " in found.stderr) == is_refused
