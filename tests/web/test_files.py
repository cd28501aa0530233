"""A keytab that changes while the service runs, the moment at which the service is made, and what is logged."""
import errno
import logging
import os
from types import SimpleNamespace

import pytest

from fevstunik import Fault
from fevstunik.stores import File, StoreFailed
from fevstunik.web import Users, _files
from support import fixture, web
from support.forked import in_processes
from support.web import negotiate, token

NEW_KEYS = ((3, 19, fixture.SERVICE_KEY), (4, 19, fixture.SERVICE_KEY))


def asked(ask, **more):
    return ask(headers=[("Authorization", negotiate(token(**more)))]).status


def replace(path, data):
    new = path.with_suffix(".new")
    new.write_bytes(data)
    new.replace(path)


def test_a_new_key_is_taken_at_once(made, keytab, caplog):
    """A ticket under a key that isn't there makes the service look, and nobody is refused."""
    caplog.set_level(logging.INFO)
    ask = web.by_wsgi(made())
    value = [("Authorization", negotiate(token()))]
    assert ask(headers=value).status == 200
    replace(keytab, fixture.keytab(NEW_KEYS))
    assert asked(ask, kvno=4) == 200
    assert f"new keys were read from {keytab}" in caplog.text
    # What was seen is kept.
    assert ask(headers=value).status == 401


def test_an_old_key_is_dropped(made, keytab, monkeypatch):
    replace(keytab, fixture.keytab(NEW_KEYS))
    ask = web.by_wsgi(made())
    assert asked(ask, kvno=3) == 200
    replace(keytab, fixture.keytab(NEW_KEYS[1:]))
    monkeypatch.setattr("fevstunik.web._files._PAUSE", 0)
    ask = web.by_wsgi(made())
    assert [asked(ask, kvno=3), asked(ask, kvno=4)] == [401, 200]


def test_the_file_is_looked_at_once_a_second(made, keytab, monkeypatch):
    looks, stat, now = [], os.stat, [100.0]

    def looked_at(path, *words, **more):
        looks.extend([path] if path == str(keytab) else [])
        return stat(path, *words, **more)

    monkeypatch.setattr("fevstunik.web._files.os.stat", looked_at)
    monkeypatch.setattr(_files, "time", SimpleNamespace(monotonic=lambda: now[0]))
    ask = web.by_wsgi(made())
    for at, count in ((100.0, 1), (100.9, 1), (101.1, 2), (102.0, 2)):
        now[0] = at
        assert [asked(ask) for _ in range(5)] == [200] * 5 and len(looks) == count
    assert asked(ask, kvno=9) == 401 and len(looks) == 3


@pytest.mark.parametrize("spoil", [
    lambda path: path.unlink(),
    lambda path: replace(path, b"no keytab"),
    lambda path: replace(path, fixture.keytab()[:-3]),
    lambda path: replace(path, b"\x05\x02"),
    lambda path: replace(path, fixture.keytab(((3, 18, bytes(32)),))),
    lambda path: path.unlink() or os.mkfifo(path),
], ids=["gone", "text", "half", "empty", "other types", "a pipe"])
@pytest.mark.parametrize("before", [200, None], ids=["running", "at the first request"])
def test_a_file_that_is_no_use_keeps_the_old_keys(made, keytab, monkeypatch, caplog, spoil, before):
    ask = web.by_wsgi(made())
    assert before is None or asked(ask) == before
    monkeypatch.setattr("fevstunik.web._files._PAUSE", 0)
    spoil(keytab)
    assert [asked(ask) for _ in range(3)] == [200] * 3
    assert caplog.text.count("the old keys are kept") == 1
    replace(keytab, fixture.keytab(NEW_KEYS))
    assert [asked(ask), asked(ask, kvno=4)] == [200, 200]


@pytest.mark.parametrize("place, fault, said", [
    ("fevstunik.web._files.content", OSError(errno.EMFILE, "Too many open files"), "Too many open files"),
    ("fevstunik.web._serving.Service.replace_keytab", MemoryError(), "memory ran out"),
])
def test_new_keys_that_cannot_be_read_now(made, keytab, monkeypatch, caplog, place, fault, said):
    """As when too many files are open. They are taken later, though the file doesn't change again."""
    monkeypatch.setattr("fevstunik.web._files._PAUSE", 0)
    ask = web.by_wsgi(made())
    assert asked(ask) == 200
    replace(keytab, fixture.keytab(NEW_KEYS))
    with monkeypatch.context() as refusing:
        refusing.setattr(place, raising(fault))
        assert [asked(ask), asked(ask, kvno=4), asked(ask)] == [200, 401, 200]
    assert said in caplog.text
    assert asked(ask, kvno=4) == 200


def raising(fault):
    def call(*words):
        raise fault
    return call


@pytest.mark.parametrize("service", ["HTTP/web@EX", "host/web@OTHER", "host/web", ""])
def test_a_name_that_the_keytab_lacks(made, service):
    with pytest.raises((ValueError, Fault)):
        made(service=service)


def test_files_that_are_no_keytab(made, tmp_path):
    with pytest.raises(Fault):
        made(keytab="/dev/null")
    with pytest.raises(FileNotFoundError):
        made(keytab=tmp_path / "none")


def test_each_name_of_the_keytab(made):
    assert asked(web.by_wsgi(made(service=None, any_name=True))) == 200


def test_a_store_that_others_may_write_to(made, tmp_path):
    (tmp_path / "run").mkdir()
    (tmp_path / "run").chmod(0o777)
    with pytest.raises(StoreFailed):
        made(store=tmp_path / "run/stamps")


def test_a_store_begins_with_the_login(made, tmp_path):
    """And not with the first request: nobody is let in for a while after that."""
    (tmp_path / "run").mkdir(mode=0o700)
    gate = made(store=tmp_path / "run/stamps", first_life=False)
    assert list((tmp_path / "run").iterdir())
    assert asked(web.by_wsgi(gate)) == 503 and gate.counts == {"JUST_STARTED": 1}


def test_why_a_store_fails_is_logged(made, tmp_path, caplog):
    (tmp_path / "run").mkdir(mode=0o700)
    ask = web.by_wsgi(made(store=tmp_path / "run/stamps"))
    caplog.set_level(logging.INFO)
    assert asked(ask) == 200
    for it in (tmp_path / "run").iterdir():
        it.unlink()
    assert asked(ask) == 503
    last = caplog.records[-1]
    assert last.cause == "STORE_FAILED" and "was removed: start the services" in last.getMessage()


def test_a_fork(made):
    """The service belongs to a process: made before the fork, it serves in parent and child."""
    ask = web.by_wsgi(made())
    for _ in range(2):
        assert in_processes(1, lambda _: asked(ask)) == [200]
        assert asked(ask) == 200


def test_each_process_has_its_own_usage(made):
    gate = made(limit=9)
    assert asked(web.by_wsgi(gate)) == 200
    assert in_processes(1, lambda _: (gate.usage.remembered, gate.usage.limit, gate.latest)) == [(0, 9, None)]
    assert gate.usage.remembered == 1 and gate.latest is not None


@pytest.mark.parametrize("terms", [
    {"exempt": "/health"}, {"certificates": "a.pem"}, {"proxies": "127.0.0.1"}])
def test_a_text_is_no_list(made, terms):
    with pytest.raises(TypeError):
        made(**terms)


@pytest.mark.parametrize("terms", [{"exempt": ["health"]}, {"proxies": ["localhost"]}, {"limit": 0}, {"skew": 90_000},
                                   {"first_life": 1}])
def test_wrong_terms(made, terms):
    with pytest.raises((ValueError, TypeError, Fault)):
        made(**terms)


def test_a_skew_above_the_stores(made, tmp_path):
    with pytest.raises(ValueError, match="up to 300 seconds"):
        made(store=File(tmp_path / "stamps"), skew=600)


# ---------------------------------------------------------------- logs


def logged(caplog):
    (record,) = [it for it in caplog.records if it.name == "fevstunik.web"]
    return record


def test_a_record_of_a_login(made, caplog):
    caplog.set_level(logging.INFO)
    assert asked(web.by_wsgi(made())) == 200
    it = logged(caplog)
    assert (it.cause, it.user, it.peer, it.asked) == ("LOGIN", "alice@EX", "192.0.2.7", None)
    assert it.getMessage() == "let in: alice@EX (alice@EX, LOGIN)"


def test_a_record_of_a_refusal(made, caplog):
    caplog.set_level(logging.INFO)
    ask, value = web.by_wsgi(made()), negotiate(token(kvno=5))
    assert ask(headers=[("Authorization", value)]).status == 401
    it = logged(caplog)
    assert (it.cause, it.user, it.asked, it.etype, it.kvno) == ("BAD_KEY_VERSION", None, web.NAME, 19, 5)
    assert it.getMessage().endswith("ticket for host/web@EX, etype 19, kvno 5; the keytab has kvno 3")
    assert value.split()[1][:20] not in str(vars(it))


def test_a_record_of_a_user_who_is_not_let_in(made, caplog):
    caplog.set_level(logging.INFO)
    assert asked(web.by_wsgi(made(users=Users(realms={"EX": "{user}"}, only=["bob"])))) == 403
    it = logged(caplog)
    assert (it.cause, it.user) == ("NOT_ALLOWED", "alice@EX")
    assert it.getMessage() == "denied: NOT_ALLOWED: the client isn't one of those who are let in (alice@EX)"


@pytest.mark.parametrize("address, forwarded, peer", [
    ("192.0.2.7", "198.51.100.1", "192.0.2.7"),
    ("127.0.0.1", None, "127.0.0.1"),
    ("127.0.0.1", "198.51.100.1", "198.51.100.1"),
    ("::ffff:127.0.0.1", "198.51.100.1", "198.51.100.1"),
    ("::ffff:192.0.2.7", "198.51.100.1", "::ffff:192.0.2.7"),
    ("", "198.51.100.1", "198.51.100.1"),
    ("127.0.0.1", "203.0.113.9, 198.51.100.1", "198.51.100.1"),
    ("127.0.0.1", "203.0.113.9, 198.51.100.1,10.1.2.3", "198.51.100.1"),
    ("127.0.0.1", "mallory\n, 10.0.0.1", "mallory"),
])
def test_peers(made, caplog, address, forwarded, peer):
    """The last address that no trusted proxy has."""
    caplog.set_level(logging.DEBUG)
    ask = web.by_wsgi(made(proxies=["127.0.0.1", "10.0.0.0/8"]))
    ask(headers=[] if forwarded is None else [("X-Forwarded-For", forwarded)], address=address)
    assert logged(caplog).peer == peer


def test_forwarded_is_trusted_from_nobody_at_first(made, caplog):
    caplog.set_level(logging.DEBUG)
    web.by_wsgi(made())(headers=[("X-Forwarded-For", "198.51.100.1")], address="127.0.0.1")
    assert logged(caplog).peer == "127.0.0.1"


@pytest.mark.packages
def test_counts_for_prometheus(made):
    import prometheus_client

    def value():
        return prometheus_client.REGISTRY.get_sample_value("fevstunik_web_decisions_total", {"cause": "NO_TOKEN"}) or 0
    before = value()
    web.by_wsgi(made())()
    assert value() == before + 1
