"""What the tests of the packages share: what is built, installed into a folder and packed, and fresh Debian roots. Each is made once, for all
processes of a run."""
import fcntl
import os
from contextlib import contextmanager

import pytest

from support import packing, roots


@contextmanager
def locked(path):
    """One process at a time."""
    path.parent.mkdir(parents=True, exist_ok=True)
    with open(path, "w") as file:
        fcntl.flock(file, fcntl.LOCK_EX)
        yield


@pytest.fixture(scope="session")
def once(tmp_path_factory):
    """Makes a folder once for all processes of the run: once(NAME, MAKE) calls MAKE with its path, and returns the path."""
    base = tmp_path_factory.getbasetemp()
    base = base.parent if os.environ.get("PYTEST_XDIST_WORKER") else base

    def made(name, make):
        place, done = base / "packages" / name, base / "packages" / f"{name}.made"
        with locked(base / "packages" / f"{name}.lock"):
            if not done.exists():
                make(place)
                done.touch()
        return place

    return made


@pytest.fixture(scope="session")
def built():
    """The folder of what `make` built."""
    with locked(packing.ROOT / "build/.lock"):
        packing.well("make")
    return packing.ROOT / "build"


@pytest.fixture(scope="session")
def staged(built, once):
    """What `make install` puts into a folder, where Debian has its files."""
    return packing.Installed(once("staged", lambda at: packing.well("make", "install", f"DESTDIR={at}", "PREFIX=/usr", f"LIBDIR=/{packing.LIBDIR}")))


@pytest.fixture(scope="session")
def debs(built, once):
    """The Debian packages, by name. The folder that they were made from is `source`, beside them."""

    def make(at):
        ran, _ = packing.packed(at)
        assert ran.returncode == 0, packing.wrong(ran)

    return {it.name.split("_")[0]: it for it in sorted(once("debs", make).glob("*.deb"))}


@pytest.fixture(scope="session")
def unpacked(debs, once):
    """The files of the Debian packages, in a folder."""
    return packing.Installed(once("unpacked", lambda at: packing.unpacked(debs.values(), at)))


@pytest.fixture(scope="session")
def wheel(built, once):
    """The wheel, made in a copy of the repository."""

    def make(at):
        packing.copied(at)
        packing.well("make", "wheel", cwd=at, env=packing.WITHOUT_RATTLE)

    (found,) = (once("wheel", make) / "build").glob("*.whl")
    return found


@pytest.fixture
def fresh(once, tmp_path):
    """Makes fresh Debian roots: fresh(RELEASE, PACKAGES) is a new one that has apt and these packages."""

    def made(release, packages):
        name = f"{release}-{packages}"
        archive = once(name, lambda at: roots.archived(release, packages, at)) / "root.tar"
        return roots.Root(archive, tmp_path / release)

    return made
