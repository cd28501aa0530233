"""Calls of keytabs, credential caches, names and lists: stored cases, and those that models draw."""
import pytest

from support import calls, drawn_files


@pytest.mark.parametrize("case", calls.stored("files"), ids=calls.title)
def test_call(case, checks, in_c):
    checks.all(calls.answered([case]))


@pytest.mark.slow
@pytest.mark.parametrize("part", drawn_files.PARTS, ids=lambda it: it.__name__)
def test_drawn(part, checks, in_c):
    checks.all(calls.answered(part(), checks.word))
