"""The memory of a whole process, as a debugger writes it down (gcore): once all handles are freed, and when krbtool
ends."""
import contextlib
import shlex
import subprocess

import pytest

from support import program_builds
from support.builds import CPUS
from support.c_programs import run, well
from support.key_material import NOW, PIECE
from support.program_builds import BUILDS


@contextlib.contextmanager
def waiting(program, room, *words):
    process = subprocess.Popen([program, room, *words], stdin=subprocess.PIPE, stdout=subprocess.PIPE, text=True)
    try:
        assert process.stdout.readline() == "ready\n"
        yield process
    finally:
        process.stdin.close()
        process.wait()
    assert process.returncode == 0


def secrets_in(memory, pieces):
    return {pieces[it] for at in range(len(memory) - PIECE + 1) if (it := memory[at : at + PIECE]) in pieces}


def found(program, room, material, *words):
    """The secrets that are somewhere in the memory of the program while it waits."""
    with waiting(program, room, *words) as process:
        well(run("gcore", "-o", room / "core", process.pid))
    return secrets_in((room / f"core.{process.pid}").read_bytes(), material.pieces())


@pytest.mark.parametrize("cpu", CPUS)
def test_static_library(built, room, material, cpu):
    assert found(built[cpu].linked("core", room / "program"), room, material) == set()


@pytest.mark.parametrize("cpu", CPUS)
def test_shared_library(built, room, material, cpu):
    program = built[cpu].linked("core", room / "program", over=[built[cpu].shared, f"-Wl,-rpath,{room}"])
    (room / "libfevstunik.so.0").symlink_to(built[cpu].shared)
    assert found(program, room, material) == set()


def test_what_a_service_holds_is_found(built, room, material):
    """Otherwise the tests above would show nothing."""
    program = built["x86-64-v2"].linked("core", room / "program")
    assert {"service key 20", "session key 20"} <= found(program, room, material, "held")


def test_what_is_left_without_wiping_is_found(built, room, material):
    build = built["x86-64-v2"]
    assert len(found(build.linked("core", room / "program", over=build.unwiped()), room, material)) > 10


# ---------------------------------------------------------------- krbtool


@pytest.fixture(params=BUILDS)
def krbtool(request, installed_program, monkeypatch):
    """krbtool, which takes this build of the proved code."""
    for name, value in program_builds.environment(request.param).items():
        monkeypatch.setenv(name, value)
    return installed_program


def left_by(krbtool, room, material, stop, *words, given=""):
    """The secrets that are in the memory of krbtool where it stops, and what it wrote."""
    (room / "stdin").write_text(given)
    args = shlex.join(map(str, words))
    commands = [f"set args {args} <{room}/stdin >{room}/stdout", f"catch syscall {stop}", "run", f"gcore {room}/core",
                "kill"]
    said = well(run("gdb", "-nx", "-batch", *(it for command in commands for it in ("-ex", command)), krbtool)).stdout
    assert f"Saved corefile {room}/core" in said, said
    return secrets_in((room / "core").read_bytes(), material.pieces()), (room / "stdout").read_text()


def accepts(material, room):
    """What `accept` is given, for a request of each type."""
    lines = (f"{NOW} 0 {material.files[f'request-{etype}'].hex()} {bytes(16).hex()}\n" for etype in (19, 20))
    return ("accept", room / "keytab", "--only", "host/web@EX"), "".join(lines)


def test_krbtool_accept(krbtool, room, material):
    words, given = accepts(material, room)
    found, wrote = left_by(krbtool, room, material, "exit_group", *words, given=given)
    assert wrote.count("accepted alice@EX") == 2
    assert found == set()


@pytest.mark.parametrize("etype", [19, 20])
def test_krbtool_request(krbtool, room, material, etype):
    words = ["request", room / f"cache-{etype}", "host/web@EX", "--time", NOW, "--usec", etype, "--mutual",
             "--confounder", bytes(16).hex()]
    found, wrote = left_by(krbtool, room, material, "exit_group", *words)
    assert wrote.startswith("6e")
    assert found == set()


def test_what_krbtool_holds_is_found(krbtool, room, material):
    """It still has its keys when it writes its first answer."""
    words, given = accepts(material, room)
    found, _ = left_by(krbtool, room, material, "write", *words, given=given)
    assert {"service key 19", "session key 19"} <= found
