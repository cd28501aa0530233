"""Calls of per-message tokens: stored tokens of MIT krb5 and Heimdal, and those that a model draws."""
import pytest

from support import calls, context

pytestmark = pytest.mark.usefixtures("in_c")


@pytest.mark.parametrize("case", calls.stored("context"), ids=calls.title)
def test_call(case, checks):
    checks.all(calls.answered([case]))


def test_drawn(checks):
    checks.all(calls.answered(context.drawn(), checks.word))
