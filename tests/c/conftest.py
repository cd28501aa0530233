"""The archive of the library, which programs in C are linked with."""
import pytest


@pytest.fixture(scope="session")
def archive(library):
    return library.parent / "libfevstunik.a"
