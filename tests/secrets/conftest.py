"""The builds of the library, and what a run of its calls is given."""
import pytest

from support import TOP, builds, key_material
from support.c_programs import run, well


@pytest.fixture(scope="session")
def built(lock):
    """The builds by their kinds of processor; `make` builds them if a source is newer."""
    with lock:
        well(run("make", "-s", *(f"build/{cpu}/libfevstunik.a" for cpu in builds.CPUS)))
    version = run("packaging/version").stdout.strip()
    return {cpu: builds.Build(cpu, TOP / f"build/{cpu}", version) for cpu in builds.CPUS}


@pytest.fixture(scope="session")
def material():
    return key_material.made()


@pytest.fixture
def room(material, tmp_path):
    """A folder with the files of a run."""
    material.write(tmp_path)
    return tmp_path
