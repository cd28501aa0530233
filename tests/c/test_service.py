"""The service and the client of examples/service talk to each other over TCP."""
import contextlib
import signal
import socket
import subprocess
import time

import pytest

from support import TOP, c_programs
from support.c_programs import KEYTAB, linked, run
from support.patience import least_seconds

SERVICE = "host/web@EX"
# How many seconds a client has of a hasty service, and of the other one (by itself ten), and how long a test waits.
HASTE, SECONDS = 2, 300


@pytest.fixture(scope="module")
def room(archive, tmp_path_factory):
    """A folder with both programs, and a cache with a ticket that is valid now."""
    folder = tmp_path_factory.mktemp("service")
    words = "-D_DEFAULT_SOURCE", "-pthread"
    service = [TOP / f"examples/service/{it}.c" for it in ("service", "store", "sqlite_store", "redis_store")]
    libraries = "-lsqlite3", "-lhiredis"
    linked(archive, folder / "client", *words, TOP / "examples/service/client.c")
    linked(archive, folder / "service", *words, f"-DSECONDS={SECONDS}", *service, *libraries)
    linked(archive, folder / "hasty", *words, f"-DSECONDS={HASTE}", *service, *libraries)
    (folder / "cache").write_bytes(c_programs.current_cache(int(time.time()) - 60))
    return folder


@contextlib.contextmanager
def serving(room, *words, program="service", name=SERVICE):
    pipe = subprocess.PIPE
    service = subprocess.Popen([room / program, KEYTAB, name, *words], stdout=pipe, stderr=pipe, text=True)
    try:
        yield service, service.stdout.readline().strip()
    finally:
        service.kill()
        service.wait()


def test_started_again(room):
    """A service that may have run before is quiet at first."""
    with serving(room, "1") as (service, port):
        run(room / "client", room / "cache", SERVICE, port, "hello", timeout=SECONDS)
        lines = service.communicate(timeout=SECONDS)[0].splitlines()
        assert lines == ["refused FEVSTUNIK_JUST_STARTED, ticket for host/web@EX"]


def test_exchange(room):
    """A request is accepted once, the same one is refused, and a second client is accepted."""
    with serving(room, "3", "first") as (service, port):
        twice = run(room / "client", room / "cache", SERVICE, port, "hello", "twice", timeout=SECONDS)
        assert twice.stdout == "agreed as alice@EX\nrefused 34\n", twice.stderr
        again = run(room / "client", room / "cache", SERVICE, port, "hello again", timeout=SECONDS)
        assert set(again.stdout.splitlines()) == {"agreed as alice@EX"}
        lines = service.communicate(timeout=SECONDS)[0].splitlines()
        assert lines == ["alice@EX: hello", "refused FEVSTUNIK_REPEAT, ticket for host/web@EX",
                         "alice@EX: hello again"]
        assert service.returncode == 0


def test_refusals_are_named(room):
    """A line has the service that the ticket is for, also if it is another than the one that is served; and no name if
    the client sent something else than a request."""
    with serving(room, "2", "first", name="host/mail@EX") as (service, port):
        ran = run(room / "client", room / "cache", SERVICE, port, "hello", timeout=SECONDS)
        assert ran.stdout == "refused 35\n"
        assert service.stdout.readline() == "refused FEVSTUNIK_NOT_US, ticket for host/web@EX\n"
        with socket.create_connection(("127.0.0.1", int(port))) as peer:
            peer.sendall(b"\0\0\0\5hello")
            assert service.stdout.readline() == "refused FEVSTUNIK_NOT_A_TOKEN\n"


def test_several_clients(room):
    """A client that sends nothing keeps no other waiting, and the keytab is read again at SIGHUP."""
    with serving(room, "2", "first") as (service, port):
        assert service.stderr.readline() == "keytab: success\n"
        with socket.create_connection(("127.0.0.1", int(port))):
            service.send_signal(signal.SIGHUP)
            assert service.stderr.readline() == "keytab: success\n"
            ran = run(room / "client", room / "cache", SERVICE, port, "hello", timeout=SECONDS)
            assert ran.stdout == "agreed as alice@EX\n"
        said, noted = service.communicate(timeout=SECONDS)
        assert sorted(said.splitlines()) == ["alice@EX: hello", "hung up"]
        assert noted == ""


def test_slow_client(room):
    """A client that sends byte after byte has no more time than one that is silent."""
    with serving(room, "5", "first", program="hasty") as (service, port):
        def slow():
            with socket.create_connection(("127.0.0.1", int(port))) as peer, contextlib.suppress(ConnectionError):
                for byte in b"\0\1\0\0" + bytes(100):
                    peer.sendall(bytes([byte]))
                    time.sleep(0.2)
            assert service.stdout.readline() == "hung up\n"

        assert HASTE <= least_seconds(slow, 15, tries=5) < 15
