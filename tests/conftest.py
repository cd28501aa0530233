"""What all tests share: the built program and libraries, checks within a test, the order of tests, and how many there
have to be.

Fixtures that cost much are made once for all processes of pytest-xdist, and only if a test asks for them.
"""
import fcntl
import random
import subprocess

import fevstunik
import pytest

from support import TOP
from support.checks import Checks

TARGET = "build/x86-64-v2/libfevstunik.a"
# Instances of pytest that build or that download wait for each other here.
LOCK = TOP / "build/.lock"
# How many seconds a test may take that takes more than ten, or that starts or packs what packages need. (pyproject.toml
# has the limit of the others. Either is for what hangs: a busy machine may take ten times as long as another.)
SLOW = 1800


def pytest_addoption(parser):
    parser.addoption("--seed", type=int, help="the order of the tests: the seed that an earlier run printed")
    parser.addoption("--case", default="", metavar="WORD",
                     help="of tests that look at many cases, only cases whose names contain WORD")
    parser.addoption("--inputs", type=int, default=50_000, help="how many files and messages are drawn for fuzzing")
    parser.addoption("--tokens", type=int, default=1_000_000, help="how many tokens are drawn for fuzzing")
    parser.addini("least_tests", "how many tests a run of the whole suite has")
    parser.addini("least_checks", "how many checks these tests make")


# ---------------------------------------------------------------- order


def pytest_configure(config):
    seed = config.getoption("seed")
    given = getattr(config, "workerinput", {}).get("seed", seed)
    config.seed = random.SystemRandom().randrange(1_000_000) if given is None else given


def pytest_configure_node(node):
    """All processes of a run collect the tests in one order."""
    node.workerinput["seed"] = node.config.seed


def pytest_report_header(config):
    return f"order of the tests: --seed {config.seed}"


def pytest_collection_modifyitems(config, items):
    """Shuffles the modules, and the tests of each. Those that take long come first, so that no process is left with one
    at the end."""
    draw, modules = random.Random(config.seed), {}
    for it in items:
        modules.setdefault(it.path, []).append(it)
    blocks = list(modules.values())
    draw.shuffle(blocks)
    for block in blocks:
        draw.shuffle(block)
        block.sort(key=is_quick)
    blocks.sort(key=lambda block: is_quick(block[0]))
    items[:] = [it for block in blocks for it in block]
    for it in items:
        if not is_quick(it) or it.get_closest_marker("packages"):
            # (its own limit, if it has one, comes first)
            it.add_marker(pytest.mark.timeout(SLOW), append=True)


def is_quick(item):
    return item.get_closest_marker("slow") is None


# ---------------------------------------------------------------- checks


@pytest.fixture
def checks(request, record_property):
    """Collects checks; the test fails at its end if one of them is wrong."""
    found = Checks(request.config.getoption("case"))
    yield found
    record_property("checks", found.count)


@pytest.hookimpl(tryfirst=True)
def pytest_pyfunc_call(pyfuncitem):
    """Runs a test that collects checks, and fails it at its end if one of them is wrong."""
    found = pyfuncitem.funcargs.get("checks")
    if found is None:
        return None
    try:
        pyfuncitem.obj(**{name: pyfuncitem.funcargs[name] for name in pyfuncitem._fixtureinfo.argnames})
    except Exception:
        print(*found.wrong[:20], sep="\n")
        raise
    found.end()
    return True


# ---------------------------------------------------------------- counts


def pytest_runtest_logreport(report):
    count = dict(report.user_properties).get("checks", 1)
    if report.when == "call" and report.passed:
        TOTALS["passed"] += 1
    elif report.failed:
        TOTALS["failed"] += 1
    if report.when == "teardown":
        TOTALS["checks"] += count


TOTALS = {"passed": 0, "failed": 0, "checks": 0, "lacking": []}


def is_whole(config):
    """Whether all tests were asked for."""
    narrowed = ("keyword", "markexpr", "deselect", "lf", "failedfirst", "case", "collectonly")
    asked = {(config.invocation_params.dir / it).resolve() for it in config.args}
    return asked == {TOP / "tests"} and not any(config.getoption(it, None) for it in narrowed)


@pytest.hookimpl(trylast=True)
def pytest_sessionfinish(session):
    config = session.config
    if hasattr(config, "workerinput") or not is_whole(config):
        return
    ran = TOTALS["passed"] + TOTALS["failed"]
    for name, count in (("least_tests", ran), ("least_checks", TOTALS["checks"])):
        least = int(config.getini(name))
        if count < least:
            what = name.partition("_")[2]
            TOTALS["lacking"].append(f"FAILED: the whole suite has {least} {what} (pyproject.toml), and {count} ran")
            session.exitstatus = pytest.ExitCode.TESTS_FAILED


def pytest_unconfigure(config):
    """The last line."""
    if hasattr(config, "workerinput") or config.getoption("collectonly"):
        return
    print(*TOTALS["lacking"], f"{TOTALS['checks']} checks in {TOTALS['passed'] + TOTALS['failed']} tests", sep="\n")
    print(f"{TOTALS['passed']} passed, {TOTALS['failed'] + len(TOTALS['lacking'])} failed")


# ---------------------------------------------------------------- what is built


@pytest.fixture(scope="session")
def top():
    """The top of the repository."""
    return TOP


@pytest.fixture(scope="session")
def program():
    """The built krbtool: that of `./test`, or else of `make`."""
    for path in (TOP / "crates/krbtool/out/krbtool", TOP / "build/krbtool"):
        if path.is_file():
            return path
    pytest.fail("krbtool isn't built: run `make`")


def made(target):
    """The path of what `make` builds, which it builds again if a source is newer."""
    with locked():
        ran = subprocess.run(["make", "-s", target], cwd=TOP, capture_output=True, text=True)
    if ran.returncode:
        pytest.fail(f"make {target}: {(ran.stdout + ran.stderr)[-2000:]}")
    return TOP / target


@pytest.fixture(scope="session")
def installed_program():
    """krbtool as it is installed: it has several builds of the proved code, and picks one."""
    return made("build/krbtool")


@pytest.fixture(scope="session")
def library():
    """The built shared library for C and Python."""
    archive = made(TARGET)
    version = subprocess.run([TOP / "packaging/version"], capture_output=True, text=True).stdout.strip()
    return archive.with_suffix(f".so.{version}")


@pytest.fixture(scope="session")
def in_c(library):
    """The library for C, for the modules of tests/support that make calls by it."""
    fevstunik.load(library)


@pytest.fixture(scope="session")
def lock():
    """One process at a time has it, of all that run tests here."""
    return locked()


class locked:
    """One process at a time."""

    def __enter__(self):
        LOCK.parent.mkdir(exist_ok=True)
        self.file = open(LOCK, "w")
        fcntl.flock(self.file, fcntl.LOCK_EX)

    def __exit__(self, *_):
        self.file.close()
