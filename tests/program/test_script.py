"""The script krbtool in a small repository of its own, where the program and rt are stand-ins: it runs the proved program
if that is fresh, and else has rt compile one."""
import os
import pty
import re
import shutil
import subprocess

import pytest

from support import TOP
from tools import unproved

PROGRAM = "#!/bin/sh\necho \"the program got $*\"\n"
# Notes each call, and answers as `rt try` does: it says what the program's words and standard input were, and that the second word can't be
# opened.
RT = """#!/bin/sh
echo "${PWD##*/} $*" >>"$CALLS"
shift 2
echo "run with $(cat)"
if [ "$2" = long ]; then
  printf '| %s\\nchecked: no-answer: the program wrote more than 1048576 bytes\\nrun=no-answer proved=no\\n' "$1" >&2
  exit 6
fi
printf 'krbtool: %s: File\\nchecked: ended status=3\\nrun=ended status=3 runners=1 proved=no\\n' "$2" >&2
exit 3
"""
NOTICE = "krbtool: compiled for this run and not proved; for the proved program run `make`, which proves and builds the program\n"


def written(path, text, mode=0o644, age=0):
    path.parent.mkdir(parents=True, exist_ok=True)
    path.write_text(text)
    path.chmod(mode)
    os.utime(path, (path.stat().st_mtime - age,) * 2)


@pytest.fixture
def room(tmp_path):
    """A repository of krbtool, a crate below it and another, whose sources are two minutes old, and one link to another link to its script."""
    for name in ("krbtool", "tools/unproved.py", "crates/krb_command_line/commands.toml"):
        (tmp_path / name).parent.mkdir(parents=True, exist_ok=True)
        shutil.copy(TOP / name, tmp_path / name)
    written(tmp_path / "rt/rt", RT, 0o755)
    for path in ("crates.txt", "crates/krbtool/src/main.rt", "crates/krb_name/src/lib.rt", "crates/krb_name/specs/Lib.antt"):
        written(tmp_path / path, "krb_name:\nkrbtool: krb_name clap\n", age=120)
    for folder in tmp_path.glob("crates/*/s*"):
        os.utime(folder, (folder.stat().st_mtime - 120,) * 2)
    (tmp_path / "links/more").mkdir(parents=True)
    (tmp_path / "links/one").symlink_to("../krbtool")
    (tmp_path / "links/more/krbtool").symlink_to("../one")
    return tmp_path


class Ran:
    """What the script says when it is run in a folder, and the calls of rt."""

    def __init__(self, room, words, folder=None, script=None, **how):
        calls = room / "calls"
        calls.write_text("")
        more = {"PATH": f"{room}/rt:{os.environ['PATH']}", "CALLS": str(calls)}
        how = {"input": "", **how} if "stdin" not in how else how
        ran = subprocess.run([script or room / "krbtool", *words], cwd=folder or room, env={**os.environ, **more}, timeout=300,
                             stdout=subprocess.PIPE, stderr=subprocess.PIPE, text=True, **how)
        self.status, self.out, self.said, self.calls = ran.returncode, ran.stdout, ran.stderr, calls.read_text().splitlines()

    def is_of_program(self):
        return (self.status, self.out, self.said, self.calls) == (0, "the program got a b c\n", "", [])


@pytest.mark.parametrize("place", ["crates/krbtool/out/krbtool", "build/krbtool"])
def test_proved_program(room, place):
    written(room / place, PROGRAM, 0o755)
    assert Ran(room, ["a", "b c"]).is_of_program()
    assert Ran(room, ["a", "b c"], script="./links/one").is_of_program()
    assert Ran(room, ["a", "b c"], room / "links", "more/krbtool").is_of_program()
    assert Ran(room, ["a", "b c"], "/").is_of_program()
    written(room / "crates/hello/src/main.rt", "", age=-60)
    assert Ran(room, ["a", "b c"]).is_of_program(), "another crate is newer"


@pytest.mark.parametrize("path", ["crates/krb_name/specs/Lib.antt", "crates/krb_name/src/more.rt", "crates/krbtool/src/main.rt", "crates.txt"])
def test_stale_program(room, path):
    written(room / "crates/krbtool/out/krbtool", PROGRAM, 0o755)
    text = (room / path).read_text() if (room / path).exists() else ""
    written(room / path, text, age=-60)
    ran = Ran(room, ["a", "b c"])
    assert ran.calls == ["krbtool try -- a b c"] and ran.said.startswith(NOTICE)


def test_source_gone(room):
    written(room / "crates/krbtool/out/krbtool", PROGRAM, 0o755, age=60)
    (room / "crates/krb_name/src/lib.rt").unlink()
    assert Ran(room, ["a"]).calls


def test_names_of_files(room):
    """Files are found from the folder of rt, and faults name them as they were given."""
    ran = Ran(room, ["check-keytab", "a key"], room / "links")
    assert ran.calls == [f"krbtool try -- check-keytab {room}/links/a key"]
    assert (ran.status, ran.out, ran.said) == (3, "run with \n", NOTICE + "krbtool: a key: File\n")
    ran = Ran(room, ["add-keys", "--", "-k", "/b/../c"])
    assert ran.calls == [f"krbtool try -- add-keys -- {room}/-k /b/../c"]
    ran = Ran(room, ["remove-key", "k", "0", "--out", "o"])
    assert ran.calls == [f"krbtool try -- remove-key {room}/k 0 --out {room}/o"]
    assert Ran(room, ["remove-key", "--out=/o", "k", "0"]).calls == [f"krbtool try -- remove-key --out=/o {room}/k 0"]
    words = ["request", "--time", "5", "c", "--confounder=ab", "host/web@EX", "--usec", "6", "--mutual"]
    assert Ran(room, words).calls == [f"krbtool try -- request --time 5 {room}/c --confounder=ab host/web@EX --usec 6 --mutual"]
    assert Ran(room, ["list-keytab", ""]).calls == ["krbtool try -- list-keytab "]
    assert Ran(room, []).calls == ["krbtool try --"]


def test_pipes(room):
    """What is read from a pipe is copied for the program; standard input is that of `accept`, and of `explain` if the
    message isn't elsewhere."""
    ran = Ran(room, ["accept", "k", "--skew", "5"], input="a\nb\n")
    assert ran.calls == [f"krbtool try -- accept {room}/k --skew 5"] and ran.out == "run with a\nb\n"
    assert Ran(room, ["list-keytab", "k"], input="a\n").out == "run with \n"
    assert Ran(room, ["explain"], input="a\n").out == "run with a\n"
    assert Ran(room, ["explain", "6e"], input="a\n").out == "run with \n"
    ran = Ran(room, ["explain", "--file", "m"], input="a\n")
    assert ran.calls == [f"krbtool try -- explain --file {room}/m"] and ran.out == "run with \n"
    os.mkfifo(room / "pipe")
    with subprocess.Popen(["sh", "-c", f"echo text > {room}/pipe"]):
        ran = Ran(room, ["list-keytab", "pipe"])
    assert re.fullmatch(r"krbtool try -- list-keytab /\S+/1", ran.calls[0]) and ran.said == NOTICE + "krbtool: pipe: File\n"
    ran = Ran(room, ["list-keytab", "/dev/stdin"], input="text")
    assert re.fullmatch(r"krbtool try -- list-keytab /\S+/1", ran.calls[0]) and ran.said == NOTICE + "krbtool: /dev/stdin: File\n"


def test_what_it_cannot_run(room):
    main, terminal = pty.openpty()
    ran = Ran(room, ["accept", "k"], stdin=terminal)
    os.close(terminal)
    os.close(main)
    assert (ran.status, ran.out, ran.calls) == (3, "", []) and "line by line" in ran.said and "run `make`" in ran.said
    ran = Ran(room, ["convert", "long"])
    assert ran.status == 3 and ran.out == ""
    assert ran.said.startswith(NOTICE + "krbtool: this can't be run unproved (no-answer: the program wrote more than 1048576 bytes): run `make`")


def test_words(program):
    """What the script knows of commands is what the program says of them."""
    said = subprocess.run([program, "--help"], stdout=subprocess.PIPE, text=True, check=True).stdout
    commands = [it for it in re.findall(r"(?m)^  ([a-z-]+) ", said.partition("Commands:")[2]) if it != "help"]
    operands, valued = {}, set()
    for it in commands:
        said = subprocess.run([program, it, "--help"], stdout=subprocess.PIPE, text=True, check=True).stdout
        usage = re.search(r"(?m)^Usage: .*$", said)[0]
        operands[it] = re.findall(r"[<[](?!OPTIONS)([A-Z]+)[]>]", usage)
        valued |= {*re.findall(r"(?m)^ .*(--[a-z]+) <", said)}
    assert operands == unproved.OPERANDS
    assert valued == unproved.VALUED
