"""A service that asks a store: who is let in, what goes back to those who aren't, and what nobody reads before."""
import asyncio
import doctest
import itertools
import os
import threading
import time
from ctypes import byref

import pytest

import fevstunik
from fevstunik import (
    Client, Code, CredentialCache, Fault, GoOn, Keytab, Login, Moment, Refused, Service, _interface, _library, _login,
    make_request, stores, wrap_request)
from fevstunik.stores import File, StoreFailed

from support import c_programs, fixture, gss_rules

pytestmark = pytest.mark.usefixtures("at_the_top")
NAME, NOW = "host/web@EX", 1_700_000_100
MADE = Moment(NOW - 1000)
# How long a store or a thread waits for what has to come.
SECONDS = 120


class Asked:
    """A store that answers what it is given, one after another, and keeps what it was asked."""

    def __init__(self, *answers, remembers_from=MADE, largest_skew=300):
        self.answers, self.asked = itertools.cycle(answers or [True]), []
        self.remembers_from, self.largest_skew = remembers_from, largest_skew

    def add(self, stamp, keep_until):
        self.asked.append((stamp, keep_until))
        answer = next(self.answers)
        if isinstance(answer, BaseException):
            raise answer
        return answer() if callable(answer) else answer


@pytest.fixture
def cache():
    with CredentialCache(fixture.cache()) as made:
        yield made


@pytest.fixture
def still(monkeypatch):
    """The clock stands still, but for the seconds that a test adds."""
    ahead = [0.0]
    monkeypatch.setattr(_login, "_ticks", lambda: ahead[0])
    return ahead


def serving(store, **words):
    return Service(Keytab(fixture.keytab()), NAME, **{"store": store, **words})


def alone(**words):
    return Service(Keytab(fixture.keytab()), NAME, first_life=True, **words)


def request(cache, micros=0, wants_reply=True):
    return make_request(cache, NAME, now=Moment(NOW, micros), wants_reply=wants_reply)[0]


def kerberos(message):
    return gss_rules.kerberos(gss_rules.KERBEROS, message)


FIRST = gss_rules.negotiation([gss_rules.KERBEROS], None)
# What a client sends for a request: all but the last are answered with GoOn.
FORMS = {"alone": lambda it: [it], "token": lambda it: [kerberos(it)], "negotiation": lambda it: [wrap_request(it)],
         "two rounds": lambda it: [FIRST, gss_rules.going_on(kerberos(it))]}


def answered(service, tokens, now):
    connection = service.login()
    *before, last = [connection.answer(it, now) for it in tokens]
    assert all(isinstance(it, GoOn) for it in before)
    return last


# ---------------------------------------------------------------- who is let in


@pytest.mark.parametrize("form", FORMS)
def test_a_new_stamp(cache, form):
    store = Asked(True)
    client = Client(cache, NAME)
    login = answered(serving(store), FORMS[form](client.first(now=NOW) if form == "alone" else request(cache)), NOW)
    assert isinstance(login, Login) and login and (login.client, login.wants_reply) == ("alice@EX", True)
    stamp = login.stamp()
    assert store.asked == [(stamp.data, stamp.keep_until)] and stamp.keep_until == Moment(NOW + 600)
    assert login.reply and login.addresses == ()


@pytest.mark.parametrize("skew", [300, 100, 60])
def test_a_stamp_of_a_smaller_skew(cache, skew):
    """It is kept as long as that of the service with the largest skew of the store."""
    store = Asked(True)
    assert serving(store, skew=skew).answer(request(cache), NOW)
    assert [until for _, until in store.asked] == [Moment(NOW + 600)]


def test_a_real_client(tmp_path):
    """By the machine's clock, over a file."""
    cache = CredentialCache(c_programs.current_cache(int(time.time()) - 60))
    client, service = Client(cache, NAME), serving(tmp_path / "stamps", first_life=True, subkey=20)
    token = client.first()
    login = service.answer(token)
    assert client.finish(login.reply).service_subkey == login.service_subkey
    other = serving(File(tmp_path / "stamps"), first_life=True)
    assert [it.answer(token).cause for it in (service, other, other)] == [Code.REPEAT] * 3


def test_the_largest_skew_counts(cache):
    store = Asked(True, largest_skew=1000, remembers_from=Moment(NOW - 5000))
    assert serving(store).answer(request(cache), NOW)
    assert store.asked[0][1] == Moment(NOW + 2000)


# ---------------------------------------------------------------- what goes back to others


def the_one_call(cause, tokens, now):
    """What a service that has no store answers for a cause, or for one with the same code of Kerberos."""
    service = alone(realms=[]) if cause == Code.STORE_FAILED else alone()
    if cause == Code.REPEAT:
        assert answered(service, tokens, now)
    return answered(service, tokens, now)


@pytest.mark.parametrize("form", FORMS)
@pytest.mark.parametrize("wants_reply", [True, False])
@pytest.mark.parametrize("cause, answer, late", [
    (Code.REPEAT, False, 0), (Code.STORE_FAILED, StoreFailed("it is down"), 0), (Code.STORE_FAILED, 1, 0),
    (Code.SKEW, True, 301), (Code.STORE_FAILED, StoreFailed("it is down"), 100)])
def test_a_refusal(cache, still, form, wants_reply, cause, answer, late):
    """It is what the one call sends."""
    def said():
        still[0] += late
        if isinstance(answer, StoreFailed):
            raise answer
        return answer

    tokens = FORMS[form](request(cache, 5, wants_reply))
    refused = answered(serving(Asked(said)), tokens, Moment(NOW, 7))
    wanted = the_one_call(cause, tokens, Moment(NOW + late, 7))
    assert isinstance(refused, Refused) and not refused and refused.cause == cause
    assert (refused.reply, refused.kerberos, refused.asked) == (wanted.reply, wanted.kerberos, wanted.asked)
    assert bool(refused.reply) == (wants_reply or form in ("negotiation", "two rounds"))
    assert refused.may_pass == (cause == Code.STORE_FAILED)
    assert refused.__cause__ == (answer if isinstance(answer, StoreFailed) else None)
    assert str(refused).startswith(f"{cause.name}: ") and "ticket for host/web@EX" in str(refused)
    assert str(refused).endswith("): it is down") == isinstance(answer, StoreFailed)


def test_the_clock_is_read_again(cache, still):
    """A request that could still be accepted is let in, and none that is later by a microsecond."""
    for micros, late, let_in in ((0, 300, True), (1, 300 + 1e-6, True), (2, 300 + 3e-6, False)):
        store = Asked(lambda: still.__setitem__(0, late) or True)
        still[0] = 0
        decision = serving(store).answer(request(cache, micros), NOW)
        assert bool(decision) == let_in and (let_in or decision.cause == Code.SKEW)


def test_the_machines_clock_is_read_again(cache, monkeypatch):
    token = make_request(cache, NAME, now=NOW)[0]
    moments = iter([NOW, NOW + 301])
    monkeypatch.setattr(_login, "clock", lambda now: _interface.Time(next(moments), 0))
    assert serving(Asked(True)).answer(token).cause == Code.SKEW


def test_a_refused_request_is_not_asked_for(cache):
    store = Asked(True)
    service = serving(store, realms=["OTHER"])
    assert service.answer(request(cache), NOW).cause == Code.FOREIGN_REALM
    assert service.answer(request(cache, 1), NOW + 301).cause == Code.SKEW
    assert service.answer(b"hello", NOW).cause == Code.NOT_A_TOKEN and store.asked == []


# ---------------------------------------------------------------- while the store is asked


def test_nothing_can_be_read_before(cache):
    """And other clients are answered: no lock is held, neither of the service nor of the client."""
    def said():
        if threading.current_thread() is not main:
            return True
        other = threading.Thread(target=lambda: found.extend(
            [service.answer(request(cache, 9), NOW), connection.answer(request(cache), NOW)]))
        other.start()
        other.join(SECONDS)
        known = _interface.Known()
        assert connection._handle.call("accepted_known", byref(known), None, 0).code == Code.NOTHING_THERE
        return True

    found, main, store = [], threading.current_thread(), Asked(said)
    service = serving(store)
    connection = service.login()
    assert connection.answer(request(cache), NOW).client == "alice@EX"
    let_in, over = found
    assert let_in.client == "alice@EX" and over.cause == Code.NEGOTIATION_OVER and len(store.asked) == 2


def test_a_store_with_a_fault_of_its_own(cache):
    for fault in (RuntimeError("a fault"), KeyboardInterrupt()):
        service, token = serving(Asked(fault)), request(cache)
        connection = service.login()
        with pytest.raises(type(fault)):
            connection.answer(token, NOW)
        assert connection.answer(token, NOW).cause == Code.NEGOTIATION_OVER
        assert service.answer(token, NOW).cause == Code.REPEAT


def test_the_loop_goes_on(cache):
    """Twenty clients over a store that answers none of them before it was asked about two, and the loop has gone on."""
    asked, goes_on = [], threading.Event()

    async def ticking():
        while len(asked) < 2:
            await asyncio.sleep(0.01)
        for _ in range(20):
            await asyncio.sleep(0.01)
        goes_on.set()

    async def answer_all(service):
        task = asyncio.create_task(ticking())
        found = await asyncio.gather(*(service.answer_async(request(cache, it), NOW) for it in range(20)),
                                     service.answer_async(request(cache, 1), NOW), service.answer_async(FIRST, NOW))
        await task
        return found

    def said():
        asked.append(True)
        return goes_on.wait(SECONDS)

    *found, repeat, asks = asyncio.run(answer_all(serving(Asked(said))))
    assert [it.client for it in found] == ["alice@EX"] * 20
    assert repeat.cause == Code.REPEAT and isinstance(asks, GoOn) and len(asked) == 20


def test_a_task_that_is_cancelled(cache):
    """Its client isn't let in, and its request isn't taken again."""
    asked, goes_on = threading.Event(), threading.Event()

    async def cancelled(service):
        task = asyncio.create_task(service.answer_async(request(cache), NOW))
        while not asked.is_set():
            await asyncio.sleep(0.01)
        task.cancel()
        with pytest.raises(asyncio.CancelledError):
            await task
        try:
            return await service.answer_async(request(cache), NOW)
        finally:
            goes_on.set()

    def said():
        asked.set()
        return goes_on.wait(SECONDS)

    assert asyncio.run(cancelled(serving(Asked(said)))).cause == Code.REPEAT


# ---------------------------------------------------------------- memory


@pytest.mark.parametrize("name", ["service_answer", "login_stamp", "login_settle", "accepted_known", "accepted_start"])
def test_memory_runs_out(cache, monkeypatch, name):
    """Nobody is let in."""
    store = Asked(True)
    service, token = serving(store), wrap_request(request(cache))
    call, none = _library.Library.call, _interface.Answer(Code.OUT_OF_MEMORY)
    with monkeypatch.context() as now:
        now.setattr(_library.Library, "call",
                    lambda self, called, *words: none if called == name else call(self, called, *words))
        refused = service.answer(token, NOW)
    assert isinstance(refused, Refused) and refused.cause == Code.OUT_OF_MEMORY
    assert bool(store.asked) == (name not in ("service_answer", "login_stamp"))


def test_no_moment_until_which_to_keep_a_stamp(cache, monkeypatch):
    """The service is asked in the year 9999, or another one has a skew of ten thousand years."""
    token, far = request(cache), Asked(True, largest_skew=2**38)
    refused = serving(far, first_life=True).answer(token, NOW)
    assert (refused.cause, far.asked) == (Code.STORE_FAILED, []) and refused.__cause__.code == Code.BAD_MOMENT
    call, none, store = _library.Library.call, _interface.Answer(Code.BAD_MOMENT), Asked(True)
    monkeypatch.setattr(_library.Library, "call", lambda self, called, *words: (
        none if called == "login_stamp" else call(self, called, *words)))
    refused = serving(store).answer(token, NOW)
    assert (refused.cause, store.asked) == (Code.STORE_FAILED, []) and refused.__cause__.code == Code.BAD_MOMENT


def no_memory(*_):
    raise MemoryError


@pytest.mark.parametrize("module, name", [
    (os, "urandom"), (_login, "Buffer"), (_login, "bytes_of"), (_library, "bytes_of"), (_login, "octets"),
    (_login, "_LoginHandle"), (_login, "_later")])
@pytest.mark.parametrize("store", [None, Asked(True), Asked(False), Asked(MemoryError())])
@pytest.mark.parametrize("is_async", [False, True])
def test_pythons_memory_runs_out(cache, monkeypatch, module, name, store, is_async):
    """It is a refusal, and no exception."""
    service, token = alone() if store is None else serving(store), request(cache)
    monkeypatch.setattr(module, name, no_memory)
    decision = asyncio.run(service.answer_async(token, NOW)) if is_async else service.answer(token, NOW)
    if isinstance(decision, Refused):
        assert decision.cause in (Code.OUT_OF_MEMORY, Code.REPEAT)
    else:
        assert name == "_later" and store is None


def test_memory_runs_out_for_a_refusal(cache, monkeypatch):
    """The cause stays."""
    call, none = _library.Library.call, _interface.Answer(Code.OUT_OF_MEMORY)
    token = wrap_request(request(cache))
    monkeypatch.setattr(_library.Library, "call",
                        lambda self, called, *words: none if called == "login_asked" else call(self, called, *words))
    refused = serving(Asked(False)).answer(token, NOW)
    assert refused.cause == Code.REPEAT and refused.asked is None and refused.reply


# ---------------------------------------------------------------- the start


@pytest.mark.parametrize("words, start", [
    ({}, NOW), ({"skew": 100}, NOW + 200), ({"started": NOW - 500}, NOW), ({"started": NOW + 90}, NOW + 90),
    ({"skew": 0}, NOW + 300)])
def test_a_service_starts_when_its_store_was_made(cache, still, words, start):
    """It refuses for the skew from then on, for the largest one if its own is smaller."""
    skew = words.get("skew", 300)
    for late, let_in in ((0, False), (1, True)):
        at = start + skew + late
        token = make_request(cache, NAME, now=at)[0]
        decision = serving(Asked(True, remembers_from=Moment(NOW)), **words).answer(token, at)
        assert bool(decision) == let_in and (let_in or decision.cause == Code.JUST_STARTED)


def test_a_store_that_is_new(cache, tmp_path):
    path, before = tmp_path / "stamps", Moment.now()
    service = serving(path)
    assert service.answer(request(cache), NOW).cause == Code.JUST_STARTED
    store, after = File(path), Moment.now()
    assert serving(path).answer(make_request(cache, NAME, now=NOW)[0], NOW).cause == Code.JUST_STARTED
    assert serving(str(path), first_life=True).answer(request(cache), NOW).client == "alice@EX"
    assert before <= store.remembers_from <= after


def test_what_a_service_is_made_with(tmp_path):
    path = tmp_path / "stamps"
    for words in ({"store": Asked(), "skew": 301}, {"store": path, "skew": 300, "limit": 0}):
        with pytest.raises(ValueError):
            serving(**words)
    with pytest.raises(ValueError, match="skew of up to 300 seconds"):
        serving(Asked(largest_skew=300), skew=400)
    with pytest.raises(stores.UnsafeStore, match="made with 300"):
        serving(path, skew=301)
    assert serving(tmp_path / "other", skew=900)._store.largest_skew == 900
    with pytest.raises(TypeError):
        serving(None)
    with pytest.raises(TypeError):
        serving(Asked(), started=NOW, first_life=True)
    with pytest.raises(Fault, match="EARLY_START"):
        serving(Asked(remembers_from=Moment(1000)))


# ---------------------------------------------------------------- examples


@pytest.mark.parametrize("thing", [stores.File, stores.SQLite, stores.Store, stores.StoreFailed, stores.UnsafeStore],
                         ids=lambda it: it.__name__)
def test_example(thing):
    found, = doctest.DocTestFinder(recurse=False).find(thing, thing.__name__, globs=vars(stores) | vars(fevstunik))
    assert found.examples and doctest.DocTestRunner().run(found).failed == 0
