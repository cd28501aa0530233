"""OUT is replaced by a new file: what it may be, what it is after a command that failed, and after one that was killed.

`remove-key` and `add-keys` write OUT so, and the convert commands with --replace. OUT is then what it was, or all that
it is to be; and there is no other file, but after a kill the new one, whose name says what it is.
"""
import os
import re
import stat
import subprocess
import tempfile
from pathlib import Path

import pytest

from support import EXAMPLES, drawn_files, generated_edits, krbtool, reference
from support.checks import slug

KEYTAB = (EXAMPLES / "service.keytab").read_bytes()
REMOVED = drawn_files.removed(KEYTAB, 0)
OTHER = (EXAMPLES / "mit-holes.keytab").read_bytes()
ADDED, ADDED_TO_OTHER = generated_edits.extended(KEYTAB, OTHER), generated_edits.extended(OTHER, KEYTAB)
COMPACT = reference.convert_keytab(OTHER)
CACHE = (EXAMPLES / "client-0503.ccache").read_bytes()
NEWER = reference.convert_ccache(CACHE)
OLD, FAULTY = b"what OUT held", b"\x05\x01"
TO_OUT = ["remove-key", "k", "0", "--out", "out"]
# The name of a new file before it is in place.
NEW = re.compile(r"\.krbtool-[0-9a-f]{16}")


def wrote(data):
    return f"wrote {len(data)}\n"


def removing(out, name="out", **more):
    """`remove-key --out` that goes well, and what the file `name` holds then."""
    case = {"args": ["remove-key", "k", "0", "--out", out], "files": {"k": KEYTAB}, "stdout": wrote(REMOVED)}
    return {**case, "after": {"k": KEYTAB, name: REMOVED}, **more}


def printing(out, **more):
    """One that writes no file."""
    return removing(out, "k", stdout=REMOVED, after={"k": KEYTAB}, **more)


def refused(out, **more):
    """One that fails and leaves everything as it was."""
    files = {"k": KEYTAB, **more.pop("files", {})}
    case = {"args": ["remove-key", "k", "0", "--out", out], "files": files, "stderr": f"krbtool: {out}: File\n"}
    return {**case, "status": 3, "after": files, **more}


def over(mode, kept):
    return removing("out", files={"k": KEYTAB, "out": OLD}, set={"out": mode}, modes={"out": kept}, left=["k", "out"])


def changing(words, name, data, **files):
    """A command that changes one of these files, of mode 640, and nothing else."""
    case = {"args": words.split(), "files": files, "stdout": wrote(data), "modes": {name: "640"}, "left": [*files]}
    return {**case, "after": {**files, name: data}}


def faulty(words, said, status=1, **files):
    files = {**files, "out": OLD}
    case = {"args": words.split(), "files": files, "stderr": f"krbtool: {said}\n", "status": status}
    return {**case, "after": files, "left": [*files]}


ROWS = {
    # ---- OUT is an input
    "KEYTAB itself, without OUT": changing("remove-key k 0", "k", REMOVED, k=KEYTAB),
    "OUT is KEYTAB": changing("remove-key k 0 --out k", "k", REMOVED, k=KEYTAB),
    "OUT is KEYTAB by another name": changing("remove-key k 0 --out ./k", "k", REMOVED, k=KEYTAB),
    "OUT is a link to KEYTAB": {**changing("remove-key k 0 --out l", "k", REMOVED, k=KEYTAB), "links": {"l": "k"},
                                "left": ["k", "l"]},
    "KEYTAB is a link, without OUT": {**changing("remove-key l 0", "k", REMOVED, k=KEYTAB), "links": {"l": "k"},
                                      "left": ["k", "l"]},
    "keys are added to KEYTAB itself": changing("add-keys k o", "k", ADDED, k=KEYTAB, o=OTHER),
    "OUT is FROM": changing("add-keys o k --out k", "k", ADDED_TO_OTHER, k=KEYTAB, o=OTHER),
    "KEYTAB is FROM": changing("add-keys k k", "k", KEYTAB, k=KEYTAB),
    "a keytab is converted into itself": changing("convert-keytab o o --replace", "o", COMPACT, o=OTHER),
    "a cache is converted into itself": changing("convert-ccache --replace c c", "c", NEWER, c=CACHE),
    "another OUT of a conversion": changing("convert-keytab --replace o k", "k", COMPACT, o=OTHER, k=KEYTAB),
    # ---- where OUT is
    "a new OUT": removing("out", modes={"out": "600", "k": "640"}, left=["k", "out"]),
    "a new OUT that is closed to writing": removing("out", umask="277", modes={"out": "400"}),
    "OUT in another folder": removing("sub/out", "sub/out", folders=["sub"], left=["k", "sub"]),
    "OUT in the folder above": removing("sub/../out", folders=["sub"], left=["k", "sub", "out"]),
    "a link to a link": removing("a", links={"a": "b", "b": "./out"}, files={"k": KEYTAB, "out": OLD},
                                 left=["a", "b", "k", "out"]),
    "a link to a file that isn't there": removing("a", "sub/out", folders=["sub"], links={"a": "sub/out"},
                                                  modes={"sub/out": "600"}, left=["a", "k", "sub"]),
    "a link in another folder": removing("sub/a", "new/out", folders=["sub", "new"], links={"sub/a": "../new/out"},
                                         left=["k", "new", "sub"]),
    "a link below a folder that is a link": removing("d/a", folders=["sub"], links={"d": "sub", "sub/a": "../out"},
                                                     left=["d", "k", "out", "sub"]),
    "links without an end": refused("a", links={"a": "b", "b": "a"}, left=["a", "b", "k"]),
    "a link to a folder": refused("a", folders=["sub"], links={"a": "sub"}, left=["a", "k", "sub"]),
    "OUT in a folder that isn't there": refused("none/out", left=["k"]),
    "OUT below a file": refused("f/out", files={"f": OLD}, left=["f", "k"]),
    "OUT is a folder": refused("sub", folders=["sub"], left=["k", "sub"]),
    "OUT is a folder, with a slash": refused("sub/", folders=["sub"], left=["k", "sub"]),
    "OUT is this folder": refused(".", left=["k"]),
    "OUT is the folder above": refused("..", left=["k"]),
    "OUT is a file, with a slash": refused("out/", files={"out": OLD}, left=["k", "out"]),
    "OUT is a new file, with a slash": refused("out/", left=["k"]),
    "OUT has no name": refused("", left=["k"]),
    "as long a name as there may be": removing("o" * 255, "o" * 255, left=["k", "o" * 255]),
    "a longer name": refused("o" * 256, left=["k"]),
    # ---- what OUT is
    "an OUT that all may read": over("644", "640"),
    "an OUT that all may change": over("666", "660"),
    "an OUT of its owner alone": over("600", "600"),
    "an OUT that its owner may read": over("400", "400"),
    "an OUT that others alone may read": over("604", "600"),
    "an OUT that is a program": over("4755", "750"),
    "a longer OUT": removing("out", files={"k": KEYTAB, "out": 1000 * OLD}),
    "OUT is /dev/stdout": printing("/dev/stdout", left=["k"]),
    "OUT is a descriptor": printing("/dev/fd/1", left=["k"]),
    "OUT is a descriptor of this process": printing("/proc/self/fd/1", left=["k"]),
    "OUT is a link to /dev/stdout": printing("l", links={"l": "/dev/stdout"}, left=["k", "l"]),
    "OUT is a device": {**printing("/dev/null", left=["k"]), "stdout": ""},
    "OUT is a device that is full": refused("/dev/full", left=["k"]),
    "standard output can't be written": {**removing("out", output="full", stderr="krbtool: output: Write\n", status=3),
                                         "stdout": ""},
    "OUT is /dev/stdout, which can't be written": {**refused("/dev/stdout", output="full"), "left": ["k"]},
    "KEYTAB is a pipe, without OUT": {"args": ["remove-key", "/dev/stdin", "0"], "stdin": KEYTAB, "status": 3,
                                      "stderr": "krbtool: /dev/stdin: File\n", "left": []},
    "KEYTAB is a pipe": {**removing("out", after={"out": REMOVED}, left=["out"], files={}, stdin=KEYTAB),
                         "args": ["remove-key", "/dev/stdin", "0", "--out", "out"]},
    # ---- there is nothing to write
    "no such entry": faulty("remove-key k 1 --out out", "remove-key: NoSuchEntry", k=KEYTAB),
    "a faulty KEYTAB": faulty("add-keys k o --out out", "k: Version", k=FAULTY, o=OTHER),
    "a faulty FROM": faulty("add-keys k o", "o: Version", k=KEYTAB, o=FAULTY),
    "a FROM that isn't there": faulty("add-keys k o", "o: File", 3, k=KEYTAB),
    "a faulty keytab to be converted": faulty("convert-keytab k out --replace", "k: Version", k=FAULTY),
    "a faulty cache to be converted": faulty("convert-ccache c out --replace", "c: Version", c=b"\5\1"),
    # ---- without --replace, OUT is emptied first
    "an OUT that all may read, emptied": {**changing("convert-keytab o out", "out", COMPACT, o=OTHER, out=OLD),
                                          "set": {"out": "644"}},
}


@pytest.mark.parametrize("name", [pytest.param(name, id=slug(name)) for name in ROWS])
def test_replaced(program, name):
    wrong = krbtool.run(program, {"name": name, **ROWS[name]})
    assert wrong is None


def test_redirected(program, tmp_path):
    """/dev/stdout is written after what is there, also if it is a file."""
    (tmp_path / "k").write_bytes(KEYTAB)
    script = 'exec >out; printf before; "$1" remove-key k 0 --out /dev/stdout; printf after'
    subprocess.run(["sh", "-c", script, "sh", program], cwd=tmp_path, check=True)
    assert (tmp_path / "out").read_bytes() == b"before" + REMOVED + b"after"


def test_pipe(program, tmp_path):
    (tmp_path / "k").write_bytes(KEYTAB)
    os.mkfifo(tmp_path / "out")
    with subprocess.Popen(["cat", "out"], cwd=tmp_path, stdout=subprocess.PIPE) as reader:
        ran = subprocess.run([program, *TO_OUT], cwd=tmp_path, capture_output=True, timeout=300)
        assert (ran.returncode, ran.stdout, ran.stderr, reader.communicate()[0]) == (0, b"", b"", REMOVED)
    assert stat.S_ISFIFO((tmp_path / "out").stat().st_mode)


def test_another_name(program, tmp_path):
    """A second name of the file that OUT was keeps it."""
    (tmp_path / "k").write_bytes(KEYTAB)
    os.link(tmp_path / "k", tmp_path / "same")
    subprocess.run([program, "remove-key", "k", "0"], cwd=tmp_path, check=True)
    assert ((tmp_path / "k").read_bytes(), (tmp_path / "same").read_bytes()) == (REMOVED, KEYTAB)


@pytest.mark.parametrize("words", ['k same', 'same k', '/dev/stdin same <k'])
def test_converted_into_another_name(program, tmp_path, words):
    """A second name of FILE isn't emptied."""
    (tmp_path / "k").write_bytes(OTHER)
    os.link(tmp_path / "k", tmp_path / "same")
    ran = subprocess.run(["sh", "-c", f'"$1" convert-keytab {words}', "sh", program], cwd=tmp_path, capture_output=True)
    out = words.split()[1]
    assert (ran.returncode, ran.stdout, ran.stderr) == (3, b"", f"krbtool: {out}: SameFile\n".encode())
    assert (tmp_path / "k").read_bytes() == OTHER


# ---------------------------------------------------------------- owners and file systems


@pytest.fixture
def room(program):
    """A folder with KEYTAB, OUT and a copy of the program, which any user can reach."""
    with tempfile.TemporaryDirectory() as name:
        folder = Path(name)
        folder.chmod(0o755)
        for name, data in (("k", KEYTAB), ("out", OLD), ("krbtool", program.read_bytes())):
            (folder / name).write_bytes(data)
            (folder / name).chmod(0o755)
        yield folder


@pytest.mark.root
def test_owner(room):
    """Root keeps the owner and the group of OUT; another user who may replace it becomes its owner, and lets no group
    in."""
    os.chown(room / "out", 1234, 5678)
    (room / "out").chmod(0o664)
    subprocess.run(["./krbtool", *TO_OUT], cwd=room, check=True)
    found = (room / "out").stat()
    assert (found.st_uid, found.st_gid, stat.S_IMODE(found.st_mode)) == (1234, 5678, 0o660)
    os.chown(room, 4321, 4321)
    subprocess.run(["./krbtool", *TO_OUT], cwd=room, check=True, user=4321, group=4321, extra_groups=[])
    found = (room / "out").stat()
    assert (found.st_uid, found.st_gid, stat.S_IMODE(found.st_mode)) == (4321, 4321, 0o600)
    assert (room / "out").read_bytes() == REMOVED


@pytest.mark.root
def test_folder_of_another(room):
    """Who can't write to the folder of OUT can't replace it, even if OUT itself can be written."""
    (room / "out").chmod(0o666)
    ran = subprocess.run(["./krbtool", *TO_OUT], cwd=room, capture_output=True, user=4321, group=4321, extra_groups=[])
    assert (ran.returncode, ran.stdout, ran.stderr) == (3, b"", b"krbtool: out: File\n")
    assert (room / "out").read_bytes() == OLD and {it.name for it in room.iterdir()} == {"k", "out", "krbtool"}


# An entry that takes two pages of memory.
LONG = {**reference.keytab(KEYTAB)[0], "key": bytes(8_000)}
# A file system of its own for the folder `disk`, on which OUT is; what is there afterwards is copied to `after`.
MOUNTS = {
    "full": (["mount -t tmpfs -o size=12k none disk", "cp -p disk.in/* disk"], 2_000 * OLD[:4]),
    "read-only": (["cp -p disk.in/* disk", "mount --bind disk disk", "mount -o remount,ro,bind disk"], OLD),
    "mounted itself": (["cp -p disk.in/* disk", "mount --bind disk.in/out disk/out"], OLD),
}


@pytest.mark.root
@pytest.mark.parametrize("kind", MOUNTS, ids=slug)
def test_file_system(program, tmp_path, kind):
    """OUT stays as it was, and no other file is left."""
    mounting, old = MOUNTS[kind]
    (tmp_path / "disk").mkdir()
    (tmp_path / "disk.in").mkdir()
    (tmp_path / "disk.in/out").write_bytes(old)
    (tmp_path / "k").write_bytes(drawn_files.added(KEYTAB, reference.record_of(LONG)))
    script = " && ".join([*mounting, '{ "$1" remove-key k 0 --out disk/out; echo $? >status; cp -a disk after; }'])
    words = ["unshare", "-m", "sh", "-c", script, "sh", program]
    ran = subprocess.run(words, cwd=tmp_path, capture_output=True, timeout=300)
    assert (ran.returncode, ran.stdout, ran.stderr) == (0, b"", b"krbtool: disk/out: File\n")
    assert (tmp_path / "status").read_text() == "3\n"
    assert [it.name for it in (tmp_path / "after").iterdir()] == ["out"]
    assert (tmp_path / "after/out").read_bytes() == old


# ---------------------------------------------------------------- each call of the system


# A command, its files, and the name and content of the one that it replaces.
COMMANDS = {
    "remove-key": (["remove-key", "k", "0"], {"k": KEYTAB}, "k", REMOVED),
    "remove-key to OUT": (TO_OUT, {"k": KEYTAB, "out": OLD}, "out", REMOVED),
    "remove-key to a new OUT": (TO_OUT, {"k": KEYTAB}, "out", REMOVED),
    "add-keys": (["add-keys", "k", "o"], {"k": KEYTAB, "o": OTHER}, "k", ADDED),
    "convert-keytab": (["convert-keytab", "o", "o", "--replace"], {"o": OTHER}, "o", COMPACT),
    "convert-ccache": (["convert-ccache", "c", "c", "--replace"], {"c": CACHE}, "c", NEWER),
}
ON_FILES = """open openat read pread64 write close fsync chmod fchmod fchmodat chown fchown lchown fchownat rename
    renameat renameat2 unlink unlinkat stat fstat lstat newfstatat statx readlink readlinkat getcwd getrandom"""
TRACED = ["strace", "-f", "-o", "trace"]


def calls_of(program, room, words):
    """The calls that a run makes: the name of each, and how many of that name it is the last of."""
    subprocess.run([*TRACED, program, *words], cwd=room, check=True, capture_output=True)
    count = {}
    for name in re.findall(r"(?m)^\d+ +(\w+)\(", (room / "trace").read_text()):
        # (the first call starts the program)
        if name == "execve":
            continue
        count[name] = count.get(name, 0) + 1
        yield name, count[name]


def laid_out(room, files):
    for it in room.iterdir():
        it.unlink()
    for name, data in files.items():
        (room / name).write_bytes(data)


class Swept:
    """Runs of a command that are interfered with at each call in turn, and what they left."""

    def __init__(self, program, room, command, how, calls=""):
        words, self.files, self.name, self.made = COMMANDS[command]
        laid_out(room, self.files)
        self.runs = []
        for name, number in list(calls_of(program, room, words)):
            # (how often the program looks for the end of its stack depends on where that is)
            if name == "mincore" or (calls and name not in calls.split()):
                continue
            laid_out(room, self.files)
            inject = ["-e", f"trace={name}", "-e", f"inject={name}:{how}:when={number}"]
            ran = subprocess.run([*TRACED, *inject, program, *words], cwd=room, capture_output=True, timeout=300)
            self.runs.append((f"{name} {number}", ran, self.state(room)))

    def state(self, room):
        """`old` or `new`, and the names of other files; None if something else was changed."""
        found = {it.name: it.read_bytes() for it in room.iterdir() if it.name != "trace"}
        others = [name for name in found if name not in self.files and name != self.name]
        kept = {name: data for name, data in self.files.items() if name != self.name}
        if any(found.get(name) != data for name, data in kept.items()):
            return None
        which = {self.files.get(self.name): "old", self.made: "new"}.get(found.get(self.name))
        return which and (which, others)


@pytest.mark.packages
@pytest.mark.parametrize("command", COMMANDS, ids=slug)
def test_killed(checks, program, tmp_path, command):
    """A run that is killed at any call leaves the old file or the new one, whole; and if there is another, its name
    says what it is."""
    runs = Swept(program, tmp_path, command, "signal=KILL").runs
    for name, ran, state in runs:
        checks.equal(f"killed at {name}", ran.returncode, -9)
        others = state[1] if state else []
        is_right = bool(state) and len(others) <= 1 and all(map(NEW.fullmatch, others))
        checks.equal(f"after {name}: {state}", is_right, True)
    states = [state for _, _, state in runs]
    checks.equal("the first and the last", (states[0], states[-1]), (("old", []), ("new", [])))
    order = [it[0] for it in states]
    checks.equal("the old one comes first", order, sorted(order, reverse=True))
    checks.equal("a new file is left", {it[0] for it in states if it[1]}, {"old"})


@pytest.mark.packages
@pytest.mark.parametrize("command", COMMANDS, ids=slug)
def test_failing_calls(checks, program, tmp_path, command):
    """If any call on files fails, the file is replaced, or there is a fault and it is as it was; and there is no other
    file. (Some may fail without a fault: of the loader, and those that keep owner and mode, and sync the folder.)"""
    for name, ran, state in Swept(program, tmp_path, command, "error=EIO", ON_FILES).runs:
        told = ran.returncode == 3 and ran.stderr.startswith(b"krbtool: ") or ran.returncode in (1, 127, -11, -6)
        unprinted = ran.returncode == 3 and b"Write" in ran.stderr
        which = "new" if ran.returncode == 0 or unprinted else "old"
        checks.equal(f"{name} failed: {ran.returncode} {ran.stderr[:200]}", state, (which, []))
        checks.equal(f"{name} failed, and that is reported", told or ran.returncode == 0, True)


@pytest.mark.packages
@pytest.mark.parametrize("words", ["convert-keytab o out", "convert-ccache c out"])
def test_a_disk_without_room(program, tmp_path, words):
    """Without --replace, a fault that shows only when OUT is synced is reported, as that of a quota over NFS."""
    laid_out(tmp_path, {"o": OTHER, "c": CACHE})
    inject = ["-e", "trace=fsync", "-e", "inject=fsync:error=EDQUOT"]
    command = [*TRACED, *inject, program, *words.split()]
    ran = subprocess.run(command, cwd=tmp_path, capture_output=True, text=True, timeout=300)
    assert (ran.returncode, ran.stdout, ran.stderr) == (3, "", "krbtool: out: File\n")
