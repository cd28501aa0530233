"""What the tests of stores share: the package runs over the built library, at the top of the repository."""
import contextlib

import fevstunik
import pytest

from support import TOP, c_programs, store_servers
from support.patience import let_stores_wait


@pytest.fixture(autouse=True)
def patient(monkeypatch):
    """What stores answer doesn't depend on the machine's load. Where the limit is tested, a test passes one."""
    let_stores_wait(monkeypatch)


@pytest.fixture(scope="session")
def loaded(library):
    fevstunik.load(library)


@pytest.fixture
def at_the_top(library, loaded, monkeypatch):
    """Programs find the library, too, and examples name their files from the top."""
    monkeypatch.setenv("FEVSTUNIK_LIBRARY", str(library))
    monkeypatch.setenv("PYTHONPATH", str(TOP / "python"))
    monkeypatch.chdir(TOP)


@pytest.fixture(scope="session")
def service_in_c(library, tmp_path_factory):
    """examples/service/service and its stores. A client has a quarter of an hour, and an environment variable names the
    file that names the boot."""
    program = tmp_path_factory.mktemp("service") / "service"
    sources = [TOP / f"examples/service/{it}.c" for it in ("service", "store", "sqlite_store", "redis_store")]
    words = "-D_DEFAULT_SOURCE", "-pthread", "-DSECONDS=900", '-DBOOT_FILE=getenv("BOOT_FILE")'
    return c_programs.linked(library.parent / "libfevstunik.a", program, *words, *sources, "-lsqlite3", "-lhiredis")


def started(kind):
    with contextlib.closing(kind()) as made:
        made.start()
        yield made


@pytest.fixture(scope="module")
def redis():
    yield from started(store_servers.Redis)


@pytest.fixture(scope="module")
def postgresql():
    yield from started(store_servers.Postgres)


@pytest.fixture(params=["redis", "postgresql"])
def server(request):
    """A server of each kind that has a store."""
    return request.getfixturevalue(request.param)
