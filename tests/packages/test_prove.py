"""packaging/prove in a small repository, where rt is a stand-in: crates are proved in a folder of their own, and what
was built is brought back."""
import os
import shutil
import subprocess

import pytest

from support import TOP

# Notes each call, and builds what `rt ci` leaves of the crates of a folder. `rt lib` and `rt run` are those of an
# author.
RT = """#!/bin/sh
case $1 in
ci)
  echo "ci: $(cat HANDLES) $(cut -d: -f1 crates.txt | tr '\\n' ' ')$(find . -name old)" >>"$CALLS"
  [ -z "$FAILS" ] || { echo "rt: krb_name NOT PROVED"; exit 1; }
  for it in crates/*; do
    name=${it#crates/}
    if [ -f "$it/src/main.rt" ]; then
      mkdir -p "$it/out" && printf '#!/bin/sh\\n' >"$it/out/$name" && chmod +x "$it/out/$name"
    else
      mkdir -p "$it/out/rlib/$name.rlib" && cp "$it/src/lib.rt" "$it/out/rlib/$name.rlib/format"
    fi
    echo "rt: $name proved"
  done ;;
*) echo "${PWD##*/}: $*" >>"$CALLS" ;;
esac
"""
CRATES = """# a comment
krb_name: thiserror
krb_key: krb_name
krb_other:
krb_c staticlib: krb_name core
krbtool: krb_key krb_name clap
"""


@pytest.fixture
def room(tmp_path):
    (tmp_path / "packaging").mkdir()
    shutil.copy(TOP / "packaging/prove", tmp_path / "packaging/prove")
    (tmp_path / "kit/kit/bin").mkdir(parents=True)
    (tmp_path / "kit/kit/bin/rt").write_text(RT)
    (tmp_path / "kit/kit/bin/rt").chmod(0o755)
    (tmp_path / "HANDLES").write_text("none.")
    (tmp_path / "crates.txt").write_text(CRATES)
    for name in ("krb_name", "krb_key", "krb_other", "krb_c", "krbtool"):
        (tmp_path / f"crates/{name}/src").mkdir(parents=True)
        (tmp_path / f"crates/{name}/src/{'main' if name == 'krbtool' else 'lib'}.rt").write_text(name)
        (tmp_path / f"crates/{name}/out").mkdir()
        (tmp_path / f"crates/{name}/out/old").write_text("")
    return tmp_path


def proved(room, *words, **more):
    """The status of packaging/prove, what it says, and the calls of rt."""
    (room / "calls").write_text("")
    env = {**os.environ, "PATH": f"{room}/kit/kit/bin:{os.environ['PATH']}", "CALLS": str(room / "calls"), **more}
    ran = subprocess.run([room / "packaging/prove", *words], env=env, timeout=300, text=True, stdout=subprocess.PIPE,
                         stderr=subprocess.STDOUT, cwd="/")
    return ran.returncode, ran.stdout, (room / "calls").read_text().splitlines()


def library(room, name):
    return room / f"crates/{name}/out/rlib/{name}.rlib/format"


def test_program(room):
    status, said, calls = proved(room, "krbtool")
    assert (status, calls) == (0, ["ci: none. krb_name krb_key krbtool "]) and "prove: krb_key is proved" in said
    assert os.access(room / "crates/krbtool/out/krbtool", os.X_OK) and library(room, "krb_key").read_text() == "krb_key"
    assert not library(room, "krb_other").exists() and (room / "crates/krb_name/out/old").exists()


def test_below(room):
    status, _, calls = proved(room, "--below", "krbtool", "krb_c")
    assert (status, calls) == (0, ["ci: none. krb_name krb_key "])
    assert not (room / "crates/krbtool/out/krbtool").exists()


def test_program_is_older_than_a_change(room):
    """A source that is changed while its crate is proved makes the program stale."""
    changed = RT.replace("echo \"rt: $name proved\"", f"echo changed >{room}/crates/krb_name/src/lib.rt")
    (room / "kit/kit/bin/rt").write_text(changed)
    assert proved(room, "krbtool")[0] == 0
    assert (room / "crates/krbtool/out/krbtool").stat().st_mtime < (room / "crates/krb_name/src/lib.rt").stat().st_mtime


def test_library_that_is_there(room):
    """A library of `rt ci` that is the same stays, since another run may read it; one of an author's checks is
    replaced."""
    proved(room, "krbtool")
    mark = library(room, "krb_name").with_name("mark")
    mark.write_text("")
    proved(room, "krbtool")
    assert mark.exists()
    (room / "crates/krb_name/out/rlib/stamp").write_text("")
    proved(room, "krbtool")
    assert not mark.exists() and not (room / "crates/krb_name/out/rlib/stamp").exists()


def test_libraries_that_are_left(room):
    """What `rt ci` has just left isn't proved again, unless something has changed or it is an author's."""
    below = ("--below", "krbtool", "krb_c")
    assert len(proved(room, *below)[2]) == 1
    status, said, calls = proved(room, *below)
    assert (status, calls) == (0, []) and "rt ci has proved krb_name krb_key here" in said
    (room / "crates/krb_name/src/lib.rt").write_text("changed")
    assert len(proved(room, *below)[2]) == 1 and library(room, "krb_name").read_text() == "changed"
    assert proved(room, *below)[2] == []
    (room / "crates/krb_key/out/rlib/stamp").write_text("")
    assert len(proved(room, *below)[2]) == 1 and proved(room, *below)[2] == []
    (room / "crates/krb_key/src/other.rt").write_text("")
    assert len(proved(room, *below)[2]) == 1 and proved(room, *below)[2] == []
    (room / "crates/krb_key/src/other.rt").unlink()
    assert len(proved(room, *below)[2]) == 1


def test_failure(room):
    status, said, _ = proved(room, "krbtool", FAILS="yes")
    assert status == 1 and "NOT PROVED" in said and said.endswith("prove: not all crates are proved\n")
    assert not (room / "crates/krbtool/out/krbtool").exists() and not library(room, "krb_name").exists()


def test_where_nothing_can_be_kept(room):
    """The crates are then proved where they are."""
    (room / "kit/rattle-kept").write_text("no folder")
    status, _, calls = proved(room, "krbtool")
    assert (status, calls) == (0, ["krb_name: lib", "krb_key: lib", "krbtool: run -- --help"])
