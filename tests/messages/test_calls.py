"""Calls of DER and of the messages' readers and writers: stored cases, and those that models draw."""
import pytest

from support import calls, der_rules, msg_rules


@pytest.mark.parametrize("case", calls.stored("messages"), ids=calls.title)
def test_call(case, checks):
    checks.all(calls.answered([case]))


@pytest.mark.slow
@pytest.mark.parametrize("model", [der_rules, msg_rules], ids=lambda it: it.__name__.rpartition(".")[2])
def test_drawn(model, checks):
    checks.all(calls.answered(model.drawn(), checks.word))
