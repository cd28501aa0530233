"""What a program may do wrong, by chance or on purpose: keys in logs and pickles, forks, signals, strange arguments."""
import array
import contextlib
import copy
import itertools
import json
import os
import pickle
import random
import signal
import subprocess
import sys
import threading
import time
from collections import Counter
from types import SimpleNamespace

from support import c_cases, der, fixture

import pytest
from fevstunik import (
    Acceptor, Client, Context, CredentialCache, Fault, Key, Keytab, KrbError, LibraryError, Moment, Negotiation,
    Refused, Stamp, TicketFlags, Token, TokenAnswer, TypedData, _library, _values, check_name, load, make_request,
    tls_server_end_point, wrap_request)

AT, SERVICE = 1_700_000_100, "host/web@EX"


@pytest.fixture
def service():
    with Acceptor(Keytab(fixture.keytab()), SERVICE, first_life=True) as made:
        yield made


@pytest.fixture
def cache():
    with CredentialCache(fixture.cache()) as made:
        yield made


def made_by(service, cache):
    """One of each thing that holds a key or a handle, by its name."""
    request, pending = make_request(cache, SERVICE, now=AT)
    accepted = service.accept(request, AT)
    keytab, negotiation = Keytab(fixture.keytab()), Negotiation()
    agreed = pending.finish(accepted.reply())
    things = (Key.random(20), keytab, keytab.entries[0], cache, cache.credentials[0], service, accepted, pending,
              agreed,
              Client(cache, SERVICE), negotiation)
    return {type(it).__name__: it for it in things}


# ---------------------------------------------------------------- keys stay where they are


@pytest.mark.parametrize("copied", [copy.copy, copy.deepcopy, pickle.dumps, lambda it: pickle.dumps(it, 0)])
def test_what_holds_a_key_is_not_copied(service, cache, copied):
    for name, thing in made_by(service, cache).items():
        with pytest.raises(TypeError):
            copied(thing)
            pytest.fail(f"{name} was copied")


def test_what_holds_no_key_is_copied():
    for thing in (Moment(AT, 5), TypedData(1, b"data"), Refused(220, 34), Stamp(b"data", Moment(AT)),
                  TicketFlags.INITIAL):
        assert repr(pickle.loads(pickle.dumps(thing))) == repr(copy.deepcopy(thing)) == repr(thing)


@pytest.mark.parametrize("thing", [
    Token(b"a ticket"), TokenAnswer(b"a ticket", is_error=False), TypedData(1, b"a ticket"),
    Stamp(b"a ticket", Moment(AT)),
    Context(0, b"a ticket", b"a ticket", b"a ticket"), KrbError(1, Moment(AT), SERVICE, b"a ticket", b"a ticket")],
                         ids=lambda it: type(it).__name__)
def test_sizes_are_shown_and_no_bytes(thing):
    assert "a ticket" not in repr(thing) and "<8 bytes>" in repr(thing)


def test_no_key_in_any_text(service, cache):
    secrets = fixture.SERVICE_KEY, fixture.SESSION_KEY, fixture.ticket()
    for name, thing in made_by(service, cache).items():
        shown = f"{thing!r} {thing}"
        assert not [it for it in secrets if repr(it)[2:-1] in shown or it.hex() in shown], name


# ---------------------------------------------------------------- strange arguments


class Longer(bytes):
    """It says that it is longer than it is."""

    def __len__(self):
        return 1 << 30


class OtherName(str):
    def encode(self, *_):
        return b"host/mail@EX" * 1000


def test_bytes_that_lie_about_their_length(service):
    assert service.accept(Longer(fixture.request()), AT).client == "alice@EX"
    assert Token.open(Longer(wrap_request(Longer(b"a request")))).request == b"a request"
    assert len(Key(19, Longer(bytes(16))).seal(1, Longer(b"text"))) == 36


def test_a_text_that_is_encoded_otherwise(cache):
    assert check_name(OtherName(SERVICE)) == 2
    assert make_request(cache, OtherName(SERVICE), now=AT)[0][:1] == b"\x6e"


@pytest.mark.parametrize("request_", [
    memoryview(fixture.request()), bytearray(fixture.request()), memoryview(fixture.request()).cast("b"),
    memoryview(fixture.request()).cast("c"), memoryview(b"".join(bytes([it, 0]) for it in fixture.request()))[::2],
    array.array("b", fixture.request())], ids=lambda it: type(it).__name__)
def test_bytes_in_other_forms(service, request_):
    assert service.accept(request_, AT).client == "alice@EX"


def released():
    view = memoryview(b"request")
    view.release()
    return view


@pytest.mark.parametrize("request_", [
    None, 5, "text", [1, 2], array.array("I", [1, 2]), memoryview(array.array("d", [1.0])), array.array("u", "text"),
    released(), object()],
    ids=lambda it: type(it).__name__)
def test_what_is_not_bytes(service, request_):
    for call in (service.accept, Token.open, Negotiation().take, KrbError.read, Keytab, tls_server_end_point,
                 lambda it: Key.random(19).seal(1, it)):
        with pytest.raises((TypeError, ValueError)):
            call(request_)
    assert service.remembered == 0


@pytest.mark.parametrize("number", [True, 1.5, "1", None, b"1"])
def test_what_is_no_number(service, number):
    key, accepted = Key.random(19), service.accept(fixture.request(), AT)
    for call in (lambda: key.seal(number, b""), lambda: Keytab(b"\5\2").removed(number), lambda: Moment(number),
                 lambda: Moment(1, number),
                 lambda: Refused(220).error(SERVICE, name_type=number),
                 lambda: Acceptor(Keytab(b"\5\2"), SERVICE, number, first_life=True)):
        with pytest.raises(TypeError):
            call()
    if number is not None:
        with pytest.raises(TypeError):
            accepted.stamp(number)


@pytest.mark.parametrize("moment", [True, False, "now", b"1"])
def test_what_is_no_moment(service, cache, moment):
    error, client = KrbError(37, Moment(AT), SERVICE), Client(cache, SERVICE)
    for call in (lambda: service.accept(fixture.request(), moment), lambda: make_request(cache, SERVICE, now=moment),
                 lambda: Refused(220).error(SERVICE, now=moment), lambda: error.clock_offset(moment),
                 lambda: client.first(now=moment),
                 lambda: Moment.of(moment), lambda: Acceptor(Keytab(b"\5\2"), SERVICE, started=moment)):
        with pytest.raises(TypeError):
            call()
    assert service.remembered == 0


@pytest.mark.parametrize("size", [1_048_576, 1_048_577, 100_000_000])
def test_huge_requests(service, size):
    for fill in (b"\x6e", b"\x60", b"\xa1", b"\0"):
        with pytest.raises((Refused, Fault)):
            service.accept(fill * size, AT)
        with pytest.raises(Fault):
            Token.open(fill * size)


# ---------------------------------------------------------------- lists are read when they are asked for


def test_lists_are_read_when_they_are_asked_for(service, monkeypatch):
    """A ticket with 95,000 elements is accepted without reading them, also for those who wait for the service."""
    call, made = _library.Library.call, Counter()
    monkeypatch.setattr(_library.Library, "call",
                        lambda self, name, *words: (made.update([name]), call(self, name, *words))[1])
    part = c_cases.ticket_part(data=der.sequence(*[der.key(1, b"")] * 95_000))
    ticket = fixture.ticket(Key(19, fixture.SERVICE_KEY).seal(2, part))
    accepted = service.accept(c_cases.request(ticket), AT)
    assert made["acceptor_accept"] == 1 and made["accepted_item"] == 0
    assert accepted.authorization == (TypedData(1, b""),) * 95_000 and made["accepted_item"] == 95_000
    assert len(accepted.authorization) == 95_000 == made["accepted_item"]


def test_lists_of_a_closed_request(service):
    accepted = service.accept(c_cases.with_lists(), AT)
    addresses = accepted.addresses
    accepted.close()
    assert accepted.addresses == addresses and len(addresses) == 2
    for read in (lambda: accepted.authorization, lambda: accepted.checksum, lambda: accepted.context):
        with pytest.raises(Fault, match="EMPTY_HANDLE"):
            read()


# ---------------------------------------------------------------- signals and forks


@contextlib.contextmanager
def signals(handler):
    """Sends signals to this thread from another one, mostly while it is in a call of the library. The next one comes
    when the last has been handled."""
    main, over, handled = threading.get_ident(), threading.Event(), threading.Event()

    def handle(*_):
        try:
            handler()
        finally:
            handled.set()

    def send():
        while not over.wait(random.random() / 5_000):
            handled.clear()
            signal.pthread_kill(main, signal.SIGUSR1)
            handled.wait(1)
    before = signal.signal(signal.SIGUSR1, handle)
    sender = threading.Thread(target=send)
    sender.start()
    try:
        yield
    finally:
        over.set()
        sender.join()
        signal.signal(signal.SIGUSR1, before)


def test_signal_handlers_call_the_service(service, cache):
    """They come while their thread has the lock: then they are answered, and don't wait for themselves."""
    mine, others = ([make_request(cache, SERVICE, now=Moment(AT, at))[0] for at in range(start, start + 2_000)]
                    for start in (0, 2_000))
    made, count = [], 0
    with signals(lambda: made.append(service.accept(others.pop(), AT).client) if others else None):
        for request in itertools.chain(mine, more_requests(cache, 4_000)):
            if count >= 2_000 and len(made) > 10:
                break
            assert service.accept(request, AT).client == "alice@EX"
            count += 1
    assert set(made) == {"alice@EX"} and len(made) > 10 and service.remembered == count + len(made)


def more_requests(cache, start):
    """As many as a service takes of a client: signals may be long in coming."""
    return (make_request(cache, SERVICE, now=Moment(AT, at))[0] for at in range(start, 90_000))


def test_a_signal_handler_with_the_lock(service):
    def accept(*_):
        service.accept(fixture.request(), AT)
    before = signal.signal(signal.SIGUSR1, accept)
    with service._handle.locked():
        os.kill(os.getpid(), signal.SIGUSR1)
        time.sleep(0)
    signal.signal(signal.SIGUSR1, before)
    assert service.remembered == 1


def test_signal_handlers_ask_for_moments():
    """No moment is given twice, also if a handler asks in the middle of another asking."""
    found, handled = [], []
    with signals(lambda: handled.append(_values._own_moments.next())):
        for _ in range(5_000_000):
            found.append(_values._own_moments.next())
            if len(found) >= 50_000 and len(handled) > 10:
                break
    assert len(handled) > 10 and len(set(found + handled)) == len(found) + len(handled)


def test_a_signal_handler_asks_for_a_moment_while_the_clock_stands_still(monkeypatch):
    nested, left = [], [True] * 50

    def time_ns():
        if left:
            left.pop()
            nested.append(_values._own_moments.next())
        return AT * 1_000_000_000
    monkeypatch.setattr(_values, "time", SimpleNamespace(time_ns=time_ns))
    found = [_values._own_moments.next() for _ in range(10)]
    assert len(nested) == 50 and len(set(found + nested)) == 60


class Stopped(Exception):
    pass


# (what is raised while an object is freed is only printed)
@pytest.mark.filterwarnings("ignore::pytest.PytestUnraisableExceptionWarning")
def test_signal_handlers_that_raise(service, cache):
    """The lock is free afterwards, wherever the exception came."""
    requests, armed, stopped = [make_request(cache, SERVICE, now=Moment(AT, at))[0] for at in range(2_000)], [], 0

    def stop():
        if armed:
            armed.clear()
            raise Stopped
    with signals(stop):
        for number, request in enumerate(itertools.chain(requests, more_requests(cache, 2_000))):
            if number >= 2_000 and stopped > 10:
                break
            try:
                armed.append(True)
                service.accept(request, AT).close()
                armed.clear()
            except Stopped:
                stopped += 1
    taken = []
    other = threading.Thread(target=lambda: taken.append(service.remembered))
    other.start()
    other.join(300)
    assert taken == [service.remembered] and stopped > 10


def child_of(work):
    """What a child of this process found, by JSON."""
    reading, writing = os.pipe()
    child = os.fork()
    if not child:
        try:
            signal.signal(signal.SIGALRM, signal.SIG_DFL)
            signal.alarm(300)
            os.write(writing, json.dumps(work()).encode())
        finally:
            os._exit(0)
    os.close(writing)
    with os.fdopen(reading) as file:
        said = file.read()
    os.waitpid(child, 0)
    return json.loads(said)


def refused_here(service, cache, pending, accepted):
    """The names of what calls raise."""
    found = []
    for call in (lambda: service.accept(fixture.request(), AT), lambda: make_request(cache, SERVICE, now=AT),
                 lambda: pending.finish(b""),
                 accepted.reply, service.close, lambda: service.remembered):
        try:
            call()
            found.append("")
        except Exception as fault:
            found.append(type(fault).__name__)
    return found


def test_a_child_with_the_number_of_its_parent(service, cache, monkeypatch):
    """As in a new namespace of processes, or when numbers are used again."""
    number = os.getpid()
    request, pending = make_request(cache, SERVICE, now=AT + 1)
    accepted = service.accept(request, AT)

    def work():
        monkeypatch.setattr("os.getpid", lambda: number)
        return refused_here(service, cache, pending, accepted)
    assert child_of(work) == ["RuntimeError"] * 6
    assert service.remembered == 1


def test_a_child_while_a_thread_has_the_lock(service, cache):
    """It doesn't wait for a lock that no thread of its own holds, and uses files and objects of its own."""
    held, done = threading.Event(), threading.Event()

    def hold():
        with service._handle.locked():
            held.set()
            done.wait(300)
    thread = threading.Thread(target=hold)
    thread.start()
    assert held.wait(300)
    keytab = Keytab(fixture.keytab())

    def work():
        found = []
        for call in (lambda: service.accept(fixture.request(), AT), lambda: service.remembered):
            try:
                call()
            except RuntimeError as fault:
                found.append(type(fault).__name__)
        with Acceptor(keytab, SERVICE, first_life=True) as own:
            return [*found, own.accept(fixture.request(), AT).client, len(keytab.entries)]
    try:
        assert child_of(work) == ["RuntimeError", "RuntimeError", "alice@EX", 1]
    finally:
        done.set()
        thread.join()


def test_a_fork_that_python_does_not_know(service, cache, monkeypatch):
    """A library of C forks: the number says that this is another process."""
    pending, accepted = make_request(cache, SERVICE, now=AT)[1], service.accept(fixture.request(), AT)
    with monkeypatch.context() as other:
        other.setattr("os.getpid", lambda: 1)
        assert refused_here(service, cache, pending, accepted) == ["RuntimeError"] * 6


def test_objects_in_cycles_are_freed():
    """The collector of cycles may run in any call, and frees what nobody uses."""
    program = """
import gc
from fevstunik import Acceptor, CredentialCache, Keytab, make_request
keytab, cache, freed = Keytab.read("examples/service.keytab"), CredentialCache.read("examples/client.ccache"), []
gc.set_threshold(1, 1, 1)
for second in range(1_700_000_100, 1_700_000_300):
    service = Acceptor(keytab, "host/web@EX", first_life=True)
    request, pending = make_request(cache, "host/web@EX", now=second)
    accepted = service.accept(request, second)
    for thing in (service, pending, accepted):
        thing.__dict__["self"] = thing
    assert pending.finish(accepted.reply()).client == "alice@EX"
gc.collect()
from fevstunik._library import Handle
print(sum(isinstance(it, Handle) for it in gc.get_objects()))
"""
    ran = subprocess.run([sys.executable, "-B", "-c", program], capture_output=True, text=True)
    # what the last round has is used: a service, a request and what was accepted, and the cache
    assert (ran.stdout, ran.stderr, ran.returncode) == ("4\n", "", 0)


# ---------------------------------------------------------------- the library's version


@pytest.mark.parametrize("number, fits", [(200, True), (201, True), (300, True), (199, False), (0, False), (10_000,
    False), (10_100, False)])
def test_versions(tmp_path, number, fits):
    """A library of the same major number that isn't older is loaded; version 0.2.0 is 200."""
    (tmp_path / "other.c").write_text(f"unsigned fevstunik_version(void) {{ return {number}; }}\n" + "".join(
        f"void fevstunik_{name}(void) {{}}\n" for name in _library.FUNCTIONS if name != "version"))
    other = tmp_path / "other.so"
    subprocess.run(["gcc", "-shared", "-fPIC", tmp_path / "other.c", "-o", other], check=True)
    before = _library.library()
    try:
        if fits:
            load(other)
            assert _library.library() is not before
        else:
            with pytest.raises(LibraryError, match=r"is of version \d+\.\d+\.\d+, and this package needs 0\.2\.0"):
                load(other)
            assert _library.library() is before
    finally:
        _library._loaded = before


def test_names_of_flags():
    assert TicketFlags(0x0001_8000) == TicketFlags.ENC_PA_REP | TicketFlags.ANONYMOUS
    assert repr(TicketFlags(0x4061_8000)).count("|") == 4
