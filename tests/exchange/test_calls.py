"""Calls of the exchange of both sides and of the memories: stored cases, and those that models draw."""
import pytest

from support import calls, drawn_exchange


@pytest.mark.parametrize("case", calls.stored("exchange"), ids=calls.title)
def test_call(in_c, case, checks):
    checks.all(calls.answered([case]))


@pytest.mark.slow
@pytest.mark.parametrize("part", drawn_exchange.PARTS)
def test_drawn(in_c, part, checks):
    checks.all(calls.answered(drawn_exchange.drawn(part), checks.word))
