"""Eight threads over one Acceptor: each request is answered with its own client, and accepted once. And over one cache
and one Pending."""
import os
import signal
import threading
from collections import Counter
from types import SimpleNamespace

from support import c_cases, fixture

import pytest
from fevstunik import Acceptor, CredentialCache, Keytab, Moment, Refused, _values, make_request


THREADS, EACH, AT, SERVICE = 8, 400, 1_700_000_100, "host/web@EX"


def each_of(items, work):
    """What the threads find, each of them working on all that items(number) has: a list."""
    found = [[] for _ in range(THREADS)]
    threads = [threading.Thread(target=lambda n=number: found[n].extend(map(work, items(n))))
               for number in range(THREADS)]
    for thread in threads:
        thread.start()
    for thread in threads:
        thread.join()
    return [it for one in found for it in one]


def answer_of(service, client, request):
    try:
        accepted = service.accept(request, AT)
        reply = accepted.reply()
        assert reply[0] == 0x6F
        return client, accepted.client
    except Refused as refused:
        return refused.code


@pytest.fixture(scope="module")
def sent():
    """Requests of 40 clients, 400 of each, one after the other."""
    caches = [(f"{client}@EX", CredentialCache(c_cases.cache_of(client))) for client in c_cases.CLIENTS]
    return [(name, make_request(cache, SERVICE, now=Moment(AT, micros))[0]) for micros in range(EACH) for name,
            cache in caches]


def test_one_acceptor(sent):
    service = Acceptor(Keytab(fixture.keytab()), SERVICE, first_life=True)
    found = Counter(each_of(lambda number: sent[number::THREADS], lambda it: answer_of(service, *it)))
    assert found == Counter({(f"{client}@EX", f"{client}@EX"): EACH for client in c_cases.CLIENTS})
    assert service.remembered == len(sent)
    again = each_of(lambda number: sent[number:80] + sent[:number], lambda it: answer_of(service, *it))
    assert set(again) == {220}


def test_the_same_requests_by_all(sent):
    service = Acceptor(Keytab(fixture.keytab()), SERVICE, first_life=True)
    found = Counter(each_of(lambda number: sent[number:800] + sent[:number], lambda it: answer_of(service, *it)))
    assert found.pop(220) == (THREADS - 1) * 800 and sum(found.values()) == 800
    assert all(one == other for one, other in found)


def test_one_cache_and_one_pending():
    cache, service = CredentialCache(fixture.cache()), Acceptor(Keytab(fixture.keytab()), SERVICE, first_life=True)
    made = each_of(lambda number: range(number, 1_600, THREADS), lambda micros: make_request(cache, SERVICE, now=Moment(AT, micros))[0])
    assert {answer_of(service, "alice@EX", request) for request in made} == {("alice@EX", "alice@EX")}
    request, pending = make_request(cache, SERVICE, now=Moment(AT, 1_600))
    accepted = service.accept(request, AT)
    found = each_of(lambda number: range(50), lambda _: pending.finish(accepted.reply()).client)
    assert set(found) == {"alice@EX"}


def test_closed_while_it_is_used(sent):
    """A thread closes the service in the middle: each answer is the client, or that the handle is empty."""
    service = Acceptor(Keytab(fixture.keytab()), SERVICE, first_life=True)

    def work(it):
        if it == sent[2_000]:
            service.close()
            return "closed"
        try:
            return answer_of(service, *it) == (it[0], it[0])
        except Exception as fault:
            return getattr(fault, "name", repr(fault))
    found = Counter(each_of(lambda number: sent[number:4_000:THREADS], work))
    assert set(found) <= {True, "closed", "EMPTY_HANDLE"} and found["closed"] == 1


def test_each_request_has_a_moment_of_its_own(monkeypatch):
    """Also while the clock stands still: no request is refused as the repeat of another."""
    monkeypatch.setattr(_values, "time", SimpleNamespace(time_ns=lambda: AT * 1_000_000_000))
    with CredentialCache(fixture.cache()) as cache, Acceptor(Keytab(fixture.keytab()), SERVICE, first_life=True) as service:
        made = each_of(lambda _: range(EACH), lambda _: make_request(cache, SERVICE)[0])
        times = Counter(service.accept(request, AT).time for request in made)
    assert len(times) == THREADS * EACH and set(times.values()) == {1}


def test_a_clock_that_is_set_back(monkeypatch):
    """A little back: the moments go on. Far back: they follow the clock."""
    second = AT + 50
    nanoseconds = iter([second * 1_000_000_000, second * 1_000_000_000 - 500_000_000, (second - 60) * 1_000_000_000,
                        (second - 60) * 1_000_000_000 + 3_000])
    monkeypatch.setattr(_values, "time", SimpleNamespace(time_ns=lambda: next(nanoseconds)))
    with CredentialCache(fixture.cache()) as cache, Acceptor(Keytab(fixture.keytab()), SERVICE, first_life=True) as service:
        times = [service.accept(make_request(cache, SERVICE)[0], AT).time for _ in range(4)]
    assert times == [Moment(second), Moment(second, 1), Moment(second - 60), Moment(second - 60, 3)]


def test_a_fork_while_a_thread_takes_a_moment():
    """The child doesn't wait for a lock that no thread of its own holds."""
    with _values._own_moments._lock:
        child = os.fork()
        if not child:
            signal.alarm(300)
            _values._own_moments.next()
            os._exit(0)
    assert os.waitpid(child, 0)[1] == 0
