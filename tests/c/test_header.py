"""The header of the library for C, beside the crate that it is of and the archive (tests/support/c_header.py)."""
import pytest

from support import c_header, c_programs


def test_header(checks):
    """The header says what the crate does."""
    checks.all(c_header.header_checks())


def test_functions_are_the_archives(archive):
    lines = c_programs.run("nm", "--defined-only", "--extern-only", archive).stdout.splitlines()
    assert {words[-1] for words in map(str.split, lines) if len(words) == 3} == c_header.header_functions()


@pytest.mark.parametrize("language, compiler, standard", [("c", "gcc", "-std=c99"), ("c++", "g++", "-std=c++11")])
def test_header_alone(tmp_path, language, compiler, standard):
    words = [compiler, standard, *c_programs.STRICT, "-x", language, "-c", c_header.HEADER, "-o", tmp_path / "header.o"]
    c_programs.well(c_programs.run(*words))
