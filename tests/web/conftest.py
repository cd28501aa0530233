"""What the tests of fevstunik.web share: they run over the built library, with a keytab of the project's fixture."""
import fevstunik
import pytest

from fevstunik.web import Negotiate
from support import TOP, fixture, web
from support.patience import PATIENT, let_stores_wait


@pytest.fixture(scope="session", autouse=True)
def loaded(library):
    fevstunik.load(library)


@pytest.fixture(autouse=True)
def at_the_top(library, monkeypatch):
    """Programs find the library, too, and examples name their files from the top."""
    monkeypatch.setenv("FEVSTUNIK_LIBRARY", str(library))
    monkeypatch.setenv("PYTHONPATH", str(TOP / "python"))
    monkeypatch.chdir(TOP)
    let_stores_wait(monkeypatch)
    # (the same for a client whose negotiation goes on; it has a minute)
    monkeypatch.setattr("fevstunik.web._serving._PATIENCE", PATIENT)


@pytest.fixture
def keytab(tmp_path):
    path = tmp_path / "web.keytab"
    path.write_bytes(fixture.keytab())
    return path


@pytest.fixture
def made(keytab):
    """Makes a Negotiate with other terms than those of the fixture."""
    return lambda **terms: Negotiate(**{"keytab": keytab, "service": web.NAME, "first_life": True, **terms})


@pytest.fixture(params=[web.by_wsgi, web.by_asgi], ids=["wsgi", "asgi"])
def over(request):
    """Gives what asks an application, over either interface."""
    return request.param


@pytest.fixture
def ask(over, made):
    return over(made())
