"""The tarballs that `make dist` and `make dist-src` make: the same bytes each time, what they have, and that a user can go by their INSTALL."""
import re
import shutil
import subprocess
import tarfile

from support import packing
import pytest
from support.packing import (ANSWERS, FROM_PYTHON, KEYTAB, LIBRARIES, OTHERS, REQUEST, ROOT, VERSION, WITHOUT_RATTLE, files_below, run, tracked,
                     well)

# (one process runs them: they share a repository, in which some of them pack while others copy it)
pytestmark = pytest.mark.xdist_group("dist")
NAME = f"fevstunik-{VERSION}-x86-64"
# The moment of the commit, before anything was built, and another one.
COMMITTED, MOMENT = 1_750_000_000, 1_700_000_000


def committed(room):
    """A copy of the repository with what was built, whose files are committed."""
    packing.copied(room)
    well("git", "init", "-q", cwd=room)
    well("git", "add", "-A", cwd=room)
    who = ["-c", "user.name=test", "-c", "user.email=test@localhost"]
    well("git", *who, "commit", "-q", "-m", "all", cwd=room, env={**WITHOUT_RATTLE, "GIT_COMMITTER_DATE": f"@{COMMITTED} +0000"})


@pytest.fixture(scope="session")
def repository(built, once):
    return once("repository", committed)


def copied_again(repository, room):
    """(Another process may ask git meanwhile, which then has a lock there.)"""
    shutil.copytree(repository, room, symlinks=True, ignore=shutil.ignore_patterns("index.lock"))


def made(room, target="dist", name=NAME, **environment):
    """Runs make in a copy, and returns the bytes of the tarball."""
    known = {it: value for it, value in WITHOUT_RATTLE.items() if it != "SOURCE_DATE_EPOCH"}
    well("make", target, cwd=room, env={**known, **environment})
    return (room / f"build/{name}.tar.gz").read_bytes()


def members(data, tmp_path):
    file = tmp_path / "members.tar.gz"
    file.write_bytes(data)
    with tarfile.open(file) as archive:
        return archive.getmembers()


@pytest.fixture(scope="session")
def tarball(repository, once):
    """The folder in which the tarball lies, and into which it is unpacked."""

    def make(at):
        at.mkdir()
        (at / f"{NAME}.tar.gz").write_bytes(made(repository))
        shutil.copy(repository / f"build/{NAME}.tar.gz.sha256", at)
        well("tar", "-xzf", f"{NAME}.tar.gz", cwd=at)

    return once("tarball", make)


def test_the_same_bytes_again_in_another_folder_by_another_user_mask(repository, tarball, tmp_path):
    other = tmp_path / "other"
    copied_again(repository, other)
    shutil.rmtree(other / "build" / NAME, ignore_errors=True)
    script = 'umask 077; cd "$1"; touch examples/*; exec make dist'
    well("sh", "-c", script, "sh", other, env={"PATH": "/usr/bin:/bin", "TZ": "Pacific/Apia", "LC_ALL": "C.UTF-8"})
    assert (other / f"build/{NAME}.tar.gz").read_bytes() == (tarball / f"{NAME}.tar.gz").read_bytes()


def test_times_owners_and_order(tarball, tmp_path):
    listed = members((tarball / f"{NAME}.tar.gz").read_bytes(), tmp_path)
    assert {(it.mtime, it.uid, it.gid) for it in listed} == {(COMMITTED, 0, 0)}
    assert {it.mode for it in listed if it.isfile()} == {0o644, 0o755} and {it.mode for it in listed if it.isdir()} == {0o755}
    assert [it.name.split("/") for it in listed] == sorted(it.name.split("/") for it in listed)


def test_source_date_epoch_is_taken(repository, tmp_path):
    copy = tmp_path / "copy"
    copied_again(repository, copy)
    assert {it.mtime for it in members(made(copy, SOURCE_DATE_EPOCH=str(MOMENT)), tmp_path)} == {MOMENT}


def test_what_it_has(repository, tarball):
    well("sha256sum", "-c", f"{NAME}.tar.gz.sha256", cwd=tarball)
    python = {it for it in tracked("python") if not it.startswith("python/tests")}
    wanted = {f"usr/lib/{it}" for it in LIBRARIES} | {f"usr/{it}" for it in OTHERS} | {"COMMIT", "INSTALL", "NOTICES", "SHA256SUMS", *python}
    assert files_below(tarball / NAME) == wanted
    sums = [line.split()[1].removeprefix("./") for line in (tarball / NAME / "SHA256SUMS").read_text().splitlines()]
    assert sorted(sums) == sorted({it for it in wanted if not (tarball / NAME / it).is_symlink()} - {"SHA256SUMS"})
    well("sha256sum", "--quiet", "-c", "SHA256SUMS", cwd=tarball / NAME)
    assert (tarball / NAME / "COMMIT").read_text() == well("git", "rev-parse", "HEAD", cwd=repository)


def test_changes_that_are_not_committed_are_named(repository, tmp_path):
    copy = tmp_path / "copy"
    copied_again(repository, copy)
    (copy / "examples/serve.py").write_text("changed\n")
    made(copy)
    assert (copy / f"build/{NAME}/COMMIT").read_text().splitlines()[1:] == ["with changes that are not committed"]


def test_what_install_says(tarball, tmp_path):
    """The tarball's files, used in place by the commands that its INSTALL gives, and then installed by its command below another folder."""
    root = tarball / NAME
    text = (root / "INSTALL").read_text()
    exports = "\n".join(re.findall(r"^    (export .*)$", text, re.M))

    def shell(script, *more):
        env = {"PATH": "/usr/bin:/bin", "PYTHONDONTWRITEBYTECODE": "1", "here": str(root)}
        return well("sh", "-ec", f"{exports}\n{script}", "sh", *more, env=env)

    assert shell('krbtool check-keytab "$1"', ROOT / "examples/mit-holes.keytab") == "ok 4\n"
    shell('cc -std=c99 "$1" $(pkg-config --cflags --libs fevstunik) -o "$2"', ROOT / "tests/c/installed.c", tmp_path / "program")
    for service, answer in ANSWERS.items():
        assert shell('"$@"', tmp_path / "program", KEYTAB, service, REQUEST) == f"{answer}\n"
        assert shell('/usr/bin/python3 -c "$@"', FROM_PYTHON, KEYTAB, service, REQUEST) == f"{answer}\n"
    (command,) = re.findall(r"^    (tar -C usr .*) && ldconfig$", text, re.M)
    (tmp_path / "local").mkdir()
    well("sh", "-ec", command.replace("/usr/local", str(tmp_path / "local")), cwd=root)
    assert well(tmp_path / "local/bin/krbtool", "check-keytab", ROOT / "examples/mit-holes.keytab") == "ok 4\n"


# ---------------------------------------------------------------- the sources


@pytest.fixture(scope="session")
def sources(repository, once):
    """The folder in which the tarball of the sources lies, and into which it is unpacked."""

    def make(at):
        at.mkdir()
        (at / "sources.tar.gz").write_bytes(made(repository, "dist-src", f"fevstunik-{VERSION}"))
        well("tar", "-xzf", "sources.tar.gz", cwd=at)

    return once("sources", make)


def test_sources_have_the_files_of_the_commit_alone(repository, sources):
    for name in ("crates/krb_aes/out/kept", "build/kept"):
        (repository / name).parent.mkdir(parents=True, exist_ok=True)
        (repository / name).write_text("kept")
    assert made(repository, "dist-src", f"fevstunik-{VERSION}") == (sources / "sources.tar.gz").read_bytes()
    assert files_below(sources / f"fevstunik-{VERSION}") == set(well("git", "ls-files", cwd=repository).splitlines())


def test_dist_from_the_sources_without_git_has_the_same_bytes(repository, sources, tarball, tmp_path):
    room = tmp_path / "unpacked"
    shutil.copytree(sources / f"fevstunik-{VERSION}", room, symlinks=True)
    shutil.copytree(repository / "build", room / "build", symlinks=True)
    # (the folder in which it lies is in no repository, as a user's isn't)
    assert run("git", "rev-parse", cwd=room).returncode != 0
    assert made(room) == (tarball / f"{NAME}.tar.gz").read_bytes()


def test_dist_of_a_copy_that_has_no_commit(built, tmp_path):
    """Its COMMIT says so, and its time is that of the last entry in Debian's changelog."""
    room = packing.copied(tmp_path / "copy")
    listed = members(made(room), tmp_path)
    written = re.search(r"^ -- .*>  (.*)$", (ROOT / "debian/changelog").read_text(), re.M)[1]
    assert {it.mtime for it in listed} == {int(subprocess.check_output(["date", "-d", written, "+%s"]))}
    assert (room / f"build/{NAME}/COMMIT").read_text() == "unknown\n"
