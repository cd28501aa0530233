"""Calls of the ciphers, of derivation and of sealing: stored cases, and those that models draw."""
import pytest

from support import aes, calls, codes, sealing, stealing

pytestmark = pytest.mark.usefixtures("in_c")


@pytest.mark.parametrize("case", calls.stored("crypto"), ids=calls.title)
def test_call(case, checks):
    checks.all(calls.answered([case]))


@pytest.mark.parametrize("model", [aes, codes, sealing, stealing], ids=lambda it: it.__name__.rpartition(".")[2])
def test_drawn(model, checks):
    checks.all(calls.answered(model.drawn(), checks.word))
