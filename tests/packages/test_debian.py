"""The Debian packages: how they are made and cleaned up after, the source package, what lintian says, what each package has and needs."""
import hashlib
import re
import shutil

from support import packing
import pytest
from support.packing import (ANSWERS, BUILDS, DOCUMENTS, FROM_PYTHON, KEYTAB, LIBDIR, VERSION, WITHOUT_RATTLE, files_below, header_functions, run,
                     tracked, well, wrong)

pytestmark = pytest.mark.packages
PACKAGES = {
    "krbtool": {"usr/bin/krbtool", "usr/share/man/man1/krbtool.1.gz", "usr/share/zsh/vendor-completions/_krbtool",
                "usr/share/bash-completion/completions/krbtool", "usr/share/doc/krbtool/NOTICES.gz"},
    "libfevstunik0": {*(f"{folder}/libfevstunik.so.0" for folder in BUILDS.values()), "usr/share/doc/libfevstunik0/NOTICES.gz"},
    "libfevstunik-dev": {"usr/include/fevstunik.h", f"{LIBDIR}/libfevstunik.a", f"{LIBDIR}/libfevstunik.so", f"{LIBDIR}/pkgconfig/fevstunik.pc",
                         "usr/share/man/man3/fevstunik.3.gz", "usr/share/doc/libfevstunik-dev/NOTICES.gz"},
    "python3-fevstunik": {"usr/lib/python3/dist-packages/fevstunik/py.typed", "usr/lib/python3/dist-packages/fevstunik/__init__.py"},
    "fevstunik-doc": {f"usr/share/doc/fevstunik/{it}" for it in DOCUMENTS},
}
# What a package depends on: of these packages, and of Debian's.
DEPENDS = {
    "krbtool": ([], ["libc6"]),
    "libfevstunik0": ([], ["libc6"]),
    "libfevstunik-dev": ([f"libfevstunik0 (= {VERSION})"], []),
    "python3-fevstunik": ([f"libfevstunik0 (>= {VERSION})"], ["python3:any"]),
    "fevstunik-doc": ([], []),
}
# What proofs, builds, packing and tests may leave in a folder of the sources.
LEFT = ["crates/krb_aes/out/rlib/kept", "crates/krbtool/out/krbtool", "crates/krb_calls_wire/stdin", ".build-1/crates.txt", "build/kept",
        "build/x86-64/kept", ".pybuild/kept", "python/build/kept", "python/fevstunik.egg-info/kept", "python/fevstunik/__pycache__/kept.pyc",
        "tests/__pycache__/kept.pyc", "debian/.debhelper/kept", "debian/debhelper-build-stamp", "debian/krbtool.substvars",
        *(f"debian/{it}/kept" for it in ("tmp", *PACKAGES))]


def with_leavings(room):
    for name in LEFT:
        (room / name).parent.mkdir(parents=True, exist_ok=True)
        (room / name).write_text("kept")
    return room


# ---------------------------------------------------------------- sources


def test_clean_leaves_the_sources_alone(debs, tmp_path):
    """After packing, and also of what proofs and tests leave."""
    room = tmp_path / "source"
    shutil.copytree(next(iter(debs.values())).parent / "source", room, symlinks=True)
    with_leavings(room)
    well("debian/rules", "clean", cwd=room, env=WITHOUT_RATTLE)
    assert files_below(room) == tracked()
    assert [str(it) for it in room.rglob("*") if it.is_dir() and not any(it.iterdir())] == []


def source_package(room, *words):
    """Packs a folder of sources; the checksums of what was made."""
    well("dpkg-buildpackage", "-S", "-d", "-us", "-uc", *words, cwd=room, env=WITHOUT_RATTLE)
    return {it.name: hashlib.sha256(it.read_bytes()).hexdigest() for it in room.parent.glob("*") if it.suffix in (".dsc", ".xz")}


@pytest.fixture(scope="session")
def source(once):
    """The folder of the source package."""

    def make(at):
        source_package(packing.copied(at / "fevstunik", built=False))

    return once("source", make)


def test_source_package_has_the_same_bytes_again(source, tmp_path):
    """Later, and though proofs and builds lie there."""
    room = with_leavings(packing.copied(tmp_path / "fevstunik"))
    again = source_package(room)
    assert sorted(again) == [f"fevstunik_{VERSION}.dsc", f"fevstunik_{VERSION}.tar.xz"]
    assert again == {it: hashlib.sha256((source / it).read_bytes()).hexdigest() for it in again}


def test_source_package_has_the_sources_alone(tmp_path):
    """Also if it is made without cleaning."""
    room = with_leavings(packing.copied(tmp_path / "fevstunik"))
    source_package(room, "-nc")
    well("dpkg-source", "-x", f"fevstunik_{VERSION}.dsc", "unpacked", cwd=tmp_path)
    # (dpkg-source leaves out what is git's own)
    assert files_below(tmp_path / "unpacked") == tracked() - {".gitignore", ".gitattributes"}


# ---------------------------------------------------------------- packages


def test_names(debs):
    assert set(debs) == set(PACKAGES)


@pytest.mark.slow
def test_what_has_changed_is_packed_again(debs, tmp_path):
    """In the folder where packages were made before, also of Python's sources, which `make` doesn't build."""
    room = tmp_path / "source"
    shutil.copytree(next(iter(debs.values())).parent / "source", room, symlinks=True)
    changed = room / "python/fevstunik/_shown.py"
    changed.write_text(f"{changed.read_text()}# changed\n")
    well("dpkg-buildpackage", "-b", "-nc", "-us", "-uc", cwd=room, env=WITHOUT_RATTLE)
    package, = tmp_path.glob("python3-fevstunik_*.deb")
    well("dpkg-deb", "-x", package, tmp_path / "root")
    there = tmp_path / "root/usr/lib/python3/dist-packages/fevstunik"
    assert (there / "_shown.py").read_text() == changed.read_text()
    assert files_below(there) == files_below(room / "python/fevstunik")


def test_lintian(debs, source):
    """No error and no warning that isn't overridden; and each override has its reason above it, and is needed."""
    ran = run("lintian", "--fail-on", "error,warning", "--tag-display-limit", "0", "--allow-root", *debs.values(), source / f"fevstunik_{VERSION}.dsc")
    assert ran.returncode == 0, wrong(ran)
    assert "unused-override" not in run("lintian", "--info", "--display-info", "--allow-root", *debs.values()).stdout
    for file in (packing.ROOT / "debian").rglob("*lintian-overrides"):
        lines = ["", *file.read_text().splitlines()]
        bare = [it for before, it in zip(lines, lines[1:]) if it and not it.startswith("#") and not before.startswith("#")]
        assert bare == [], file


@pytest.mark.parametrize("name", PACKAGES)
def test_contents(debs, name):
    files = {line.split()[5].removeprefix("./") for line in well("dpkg-deb", "-c", debs[name]).splitlines()}
    assert PACKAGES[name] - files == set()
    assert f"usr/share/doc/{name}/copyright" in files


@pytest.mark.parametrize("name", PACKAGES)
def test_dependencies(debs, name):
    depends = [it for it in well("dpkg-deb", "-f", debs[name], "Depends").strip().split(", ") if it]
    own, others = DEPENDS[name]
    assert [it for it in depends if "fevstunik" in it] == own
    assert sorted({it.split()[0] for it in depends} - {it.split()[0] for it in own}) == others


def test_packages_have_the_same_bytes_again(debs, tmp_path):
    ran, again = packing.packed(tmp_path)
    assert ran.returncode == 0, wrong(ran)
    assert {it.name: hashlib.sha256(it.read_bytes()).hexdigest() for it in again} == \
        {it.name: hashlib.sha256(it.read_bytes()).hexdigest() for it in debs.values()}


def test_list_of_exports_is_the_headers():
    listed = (packing.ROOT / "debian/libfevstunik0.symbols").read_text()
    assert {it.split("@")[0] for it in re.findall(r"^ (\S+@\S+) ", listed, re.M)} - {"FEVSTUNIK_0"} == header_functions()


VERSION_LINE = re.compile(r"^ fevstunik_version@.*\n", re.M)


@pytest.mark.parametrize("change, is_refused", [
    (lambda text: text, False),
    (lambda text: VERSION_LINE.sub("", text), True),
    (lambda text: text + VERSION_LINE.search(text)[0].replace("_version@", "_virgin@"), True),
], ids=["as it is", "a function has no line", "a line has no function"])
def test_rules_refuse_a_list_of_exports_that_is_wrong(debs, tmp_path, change, is_refused):
    room = tmp_path / "source"
    shutil.copytree(next(iter(debs.values())).parent / "source", room, symlinks=True)
    listed = room / "debian/libfevstunik0.symbols"
    listed.write_text(change(listed.read_text()))
    ran = run("debian/rules", "override_dh_makeshlibs", cwd=room, env=WITHOUT_RATTLE)
    assert (ran.returncode != 0, "gensymbols" in ran.stderr) == (is_refused, is_refused), wrong(ran)


@pytest.mark.parametrize("service", ANSWERS)
def test_python_module_over_the_packed_library(unpacked, service):
    ran = unpacked.run("/usr/bin/python3", "-c", FROM_PYTHON, KEYTAB, service, packing.REQUEST)
    assert ran.stdout == f"{ANSWERS[service]}\n", wrong(ran)
