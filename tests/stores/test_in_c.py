"""The stores of examples/service: they are those of Python, and refuse what those refuse; and answers that come too
late."""
import contextlib
import itertools
import os
import sqlite3
import subprocess
import time

import pytest

from fevstunik import Moment
from fevstunik.stores import File, SQLite

from support import c_programs, store_servers
from support.instances import (
    ACCEPTED, REPEAT, SERVICE, STORE, Served, fresh_requests, once_it_answers, real_requests)
from support.patience import least_seconds
from support.store_servers import Proxy

pytestmark = [pytest.mark.packages, pytest.mark.usefixtures("at_the_top")]
# (a moment that no run of the tests reaches, however long ago this module was read)
LATER = Moment(4_000_000_000)
# How long a service waits for the store, and a test for a service, where that isn't tested.
PATIENT = 300


@pytest.fixture(scope="module")
def cache(tmp_path_factory):
    path = tmp_path_factory.mktemp("cache") / "cache"
    path.write_bytes(c_programs.current_cache(int(time.time()) - 60))
    return path


@pytest.fixture(scope="module")
def requests(cache):
    return fresh_requests(cache)


@pytest.fixture
def file(tmp_path):
    with contextlib.closing(store_servers.OfSQLite(tmp_path)) as store:
        store.start()
        yield store


@contextlib.contextmanager
def serving(program, store, wait=PATIENT, in_c=None, **more):
    service = Served([program, *SERVICE, in_c or store.in_c, wait], **store.env, **more)
    try:
        yield service
    finally:
        service.close()


def refused(program, store, in_c=None, **more):
    """What a service says that doesn't start."""
    words = [program, *SERVICE, "1", in_c or store.in_c, PATIENT]
    ran = subprocess.run([str(it) for it in words], capture_output=True, text=True, timeout=PATIENT,
                         env={**os.environ, **store.env, **more})
    assert ran.returncode == 2 and not ran.stdout
    return ran.stderr


def tables(path):
    with contextlib.closing(sqlite3.connect(path)) as base:
        return base.execute("SELECT name, type, sql FROM sqlite_master WHERE sql NOTNULL ORDER BY name").fetchall()


# ---------------------------------------------------------------- a file


def test_what_is_made(service_in_c, file):
    """What C makes is what Python makes."""
    before = time.time()
    with serving(service_in_c, file) as service:
        assert service.port
        store = file.opened()
        assert before - 1 < store.remembers_from.seconds <= time.time() and store.largest_skew == 300
        assert store.path.stat().st_mode & 0o777 == 0o600
        made = SQLite(file.folder / "other", boot="boot-1")
        squeezed = [[(*it[:2], " ".join(it[2].split())) for it in tables(path)] for path in (store.path, made.path)]
        assert squeezed[0] == squeezed[1]


def test_the_other_kind_of_file(service_in_c, file):
    """Which a service in Python has at the same path: this one doesn't start, and the other goes on."""
    other = File(file.path, boot="boot-1")
    assert other.add(b"a", LATER) and "not a database" in refused(service_in_c, file)
    assert not other.add(b"a", LATER) and other.add(b"b", LATER)


def test_a_larger_skew_of_the_store(service_in_c, file, cache):
    """Stamps are kept for the largest skew of all services, and the pause is longer."""
    SQLite(file.path, 1000, boot="boot-1")
    file.age()
    with contextlib.closing(sqlite3.connect(file.opened().path)) as base:
        base.execute("UPDATE store SET made = made - 1000000000")
        base.commit()
        before = int(time.time())
        request, = real_requests(cache, 1)
        after = time.time()
        with serving(service_in_c, file) as service:
            assert service.asked(request) == ACCEPTED
        until, = base.execute("SELECT keep_until FROM stamps").fetchone()
    assert before - 1 <= until / 1e6 - 2000 <= after + 1


def test_a_smaller_skew_of_the_store(service_in_c, file):
    SQLite(file.path, 60, boot="boot-1")
    refused(service_in_c, file)


def test_old_stamps_are_forgotten(service_in_c, file, requests):
    store = file.opened()
    file.age()
    with contextlib.closing(sqlite3.connect(store.path)) as base:
        with base:
            base.executemany("INSERT INTO stamps VALUES (?, ?)", [(b"old %d" % it, it) for it in range(1, 101)])
        with serving(service_in_c, file) as service:
            for left in (37, 1):
                service.send([next(requests) for _ in range(32)])
                assert service.answers(32) == [ACCEPTED] * 32
                old, = base.execute("SELECT count(*) FROM stamps WHERE keep_until <= 100").fetchone()
                assert old <= left
        assert base.execute("SELECT forgotten FROM store").fetchone() == (100,)


def test_a_file_that_was_removed(service_in_c, file, requests):
    file.age()
    with serving(service_in_c, file) as service:
        assert service.asked(next(requests)) == ACCEPTED
        file.opened().path.unlink()
        assert [service.asked(next(requests)) for _ in range(2)] == [STORE] * 2
        file.age()
        assert service.asked(next(requests)) == STORE
    with serving(service_in_c, file) as service:
        assert service.asked(next(requests)) == ACCEPTED


def test_another_process_writes(service_in_c, file, requests):
    file.age()
    with serving(service_in_c, file, 1) as service:
        assert once_it_answers(service, requests) == ACCEPTED
        given = [next(requests) for _ in range(10)]

        def gives_up():
            assert service.asked(given.pop()) == STORE

        with contextlib.closing(sqlite3.connect(file.opened().path, isolation_level=None)) as base:
            base.execute("BEGIN IMMEDIATE")
            assert 0.9 < least_seconds(gives_up, 10) < 10
            base.execute("COMMIT")
        assert once_it_answers(service, requests) == ACCEPTED


def test_what_others_may_change(service_in_c, file):
    store = file.opened()
    for path, mode, name in ((file.folder, 0o777, "folder"), (store.path, 0o644, "mode")):
        kept = path.stat().st_mode & 0o777
        path.chmod(mode)
        assert name in refused(service_in_c, file)
        path.chmod(kept)
    assert "file system" in refused(service_in_c, file, "sqlite:/proc/self/stamps")
    assert "boot" in refused(service_in_c, file, BOOT_FILE="/dev/null")
    file.opened().path.write_bytes(b"text")
    refused(service_in_c, file)


# ---------------------------------------------------------------- a server


@pytest.mark.parametrize("wrong, right", [
    ("appendfsync everysec", "appendfsync always"), ("appendonly no", "appendonly yes"),
    ("maxmemory-policy allkeys-lru", "maxmemory-policy noeviction"),
    ("no-appendfsync-on-rewrite yes", "no-appendfsync-on-rewrite no")])
def test_a_wrong_setting(service_in_c, redis, wrong, right):
    redis.said("config", "set", *wrong.split())
    try:
        assert wrong in refused(service_in_c, redis)
    finally:
        redis.said("config", "set", *right.split())
        redis.wait_for_the_file()
    with serving(service_in_c, redis) as service:
        assert service.port


def test_a_value_that_is_no_store(service_in_c, redis):
    before = redis.said("get", "fevstunik-store").strip()
    redis.said("set", "fevstunik-store", "text")
    assert "fevstunik-store" in refused(service_in_c, redis)
    redis.said("set", "fevstunik-store", before) if before else redis.said("del", "fevstunik-store")


def test_the_user(service_in_c, requests):
    server = store_servers.Redis()
    try:
        server.start_with_user("a password")
        place = f"redis:web@{server.socket}"
        with serving(service_in_c, server, in_c=place, REDISCLI_AUTH="a password") as service:
            assert service.port
        for words in ({"in_c": place}, {"in_c": place, "REDISCLI_AUTH": "another"}, {}):
            refused(service_in_c, server, **words)
    finally:
        server.close()


def test_a_late_answer_is_never_used(service_in_c, redis, requests, tmp_path):
    """While the answer about one request is late, another is asked for: it isn't taken for new, nor for known."""
    redis.age()
    proxy = Proxy(redis, tmp_path)
    hasty = serving(service_in_c, redis, 1, f"redis:{tmp_path}/redis.sock")
    with serving(service_in_c, redis) as other, hasty as service:
        known, also_known, late = (next(requests) for _ in range(3))
        assert [other.asked(it) for it in (known, also_known)] == [ACCEPTED] * 2
        assert once_it_answers(service, requests) == ACCEPTED
        taken = []
        new = (taken.append(it) or it for it in requests)
        for slow, then, wanted in ((late, itertools.repeat(known), REPEAT), (also_known, new, ACCEPTED)):
            proxy.hold()
            assert service.asked(slow) == STORE
            release = proxy.go_on()
            assert once_it_answers(service, then) == wanted
            release()
            assert once_it_answers(service, then) == wanted
        assert [other.asked(it) for it in (late, taken[-1])] == [REPEAT] * 2
