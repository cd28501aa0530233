"""Files, messages and tokens, good and broken; some of them under valgrind, which looks for errors and for leaks."""
import pytest

from support.c_programs import CACHE, KEYTAB, VALGRIND, linked, message, of_tests, run, well

SEED = 20_261_123
# How many inputs valgrind watches.
WATCHED = 5_000
# How many microseconds of processor time a call may take that opens a token.
SLOW = 10_000


@pytest.fixture(scope="module")
def fuzz(archive, tmp_path_factory):
    return [linked(archive, tmp_path_factory.mktemp("fuzz") / "fuzz", "-g", of_tests("fuzz")), KEYTAB, CACHE,
            message("request"), message("reply")]


@pytest.fixture(scope="module")
def fuzz_tokens(archive, tmp_path_factory):
    return [linked(archive, tmp_path_factory.mktemp("fuzz") / "fuzz_tokens", "-g", of_tests("fuzz_tokens")), KEYTAB,
            message("request")]


@pytest.mark.slow
def test_inputs(fuzz, request):
    well(run(*fuzz, request.config.getoption("inputs"), SEED))


@pytest.mark.slow
def test_inputs_under_valgrind(fuzz):
    well(run(*VALGRIND, *fuzz, WATCHED, SEED))


@pytest.mark.slow
def test_tokens(fuzz_tokens, request):
    well(run(*fuzz_tokens, request.config.getoption("tokens"), SEED, SLOW))


@pytest.mark.slow
def test_tokens_under_valgrind(fuzz_tokens):
    """A call may take longer there."""
    well(run(*VALGRIND, *fuzz_tokens, WATCHED, SEED, 500 * SLOW))
