"""Calls of the tokens of GSS-API: stored cases, and those that a model draws."""
import pytest

from support import calls, gss_rules

pytestmark = pytest.mark.usefixtures("in_c")


@pytest.mark.parametrize("case", calls.stored("tokens"), ids=calls.title)
def test_call(case, checks):
    checks.all(calls.answered([case]))


def test_drawn_tokens(checks):
    checks.all(calls.answered(gss_rules.drawn(), checks.word))
