"""What the tests of the Python package share: they run over the built library, at the top of the repository."""
import fevstunik
import pytest

from support import TOP
from support.patience import let_stores_wait


@pytest.fixture(scope="session", autouse=True)
def loaded(library):
    fevstunik.load(library)


@pytest.fixture(autouse=True)
def at_the_top(library, monkeypatch):
    """Programs find the library, too, and examples name their files from the top."""
    monkeypatch.setenv("FEVSTUNIK_LIBRARY", str(library))
    monkeypatch.setenv("PYTHONPATH", str(TOP / "python"))
    monkeypatch.chdir(TOP)
    let_stores_wait(monkeypatch)
