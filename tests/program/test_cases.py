"""krbtool on the stored cases of this folder, and on those that are generated (tests/support/generated.py says
which)."""
import pytest

from support import generated, krbtool
from support.checks import slug


@pytest.mark.parametrize("case", [pytest.param(it, id=slug(it["name"])) for it in krbtool.stored_cases()])
def test_case(case, program, checks):
    checks.add(case["name"], krbtool.run(program, case))


@pytest.mark.slow
@pytest.mark.parametrize("cases", [pytest.param(cases, id=name) for name, cases in generated.pieces()])
def test_generated(cases, program, checks):
    checks.all(krbtool.results(program, (it for it in cases() if checks.word in it["name"])))
