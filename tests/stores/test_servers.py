"""Stores in servers, Redis and PostgreSQL: what they keep, what is refused by name, and answers that come too late."""
import contextlib
import os
import subprocess
import time
import uuid
from concurrent.futures import ThreadPoolExecutor
from pathlib import Path
from types import SimpleNamespace

import pytest

from fevstunik import Moment
from fevstunik.stores import PostgreSQL, Redis, Store, StoreFailed, UnsafeStore, _redis

from support import store_servers
from support.forked import in_processes
from support.kdc import free_port
from support.patience import PATIENT, least_seconds
from support.store_servers import Proxy

pytestmark = pytest.mark.packages
# (the first is a moment that no run of the tests reaches, however long ago this module was read)
LATER, PAST = Moment(4_000_000_000, 7), Moment(int(time.time()) - 1)
KINDS = {"Redis": Redis, "PostgreSQL": PostgreSQL}


def opened(server, *words, where=None, **more):
    return KINDS[server.name](where or server.where, *words, **more)


def named():
    """A stamp that no store has."""
    return uuid.uuid4().bytes


# ---------------------------------------------------------------- what is new


def test_a_stamp_is_new_once(server):
    store, stamp = opened(server), named()
    assert isinstance(store, Store) and store.largest_skew == 300
    found = [store.add(it, LATER) for it in (stamp, stamp + b"\0", stamp, stamp + b"x" * 9000, stamp + b"x" * 9000)]
    assert found == [True, True, False, True, False]
    again = opened(server)
    assert not again.add(stamp, LATER) and again.remembers_from == store.remembers_from <= Moment.now()


def test_threads_share_a_store(server):
    store, stamps = opened(server), [named() for _ in range(50)]
    with ThreadPoolExecutor(8) as pool:
        found = list(pool.map(lambda it: store.add(it, LATER), stamps * 4))
    assert sum(found) == 50 and len(store._idle()) <= 8
    store.close()
    assert not store._idle() and not store.add(stamps[0], LATER)


def test_a_store_after_a_fork(server):
    store, both, own = opened(server), named(), named()
    store.add(both, LATER)
    assert in_processes(1, lambda _: [store.add(it, LATER) for it in (both, own)]) == [[False, True]]
    assert not store.add(own, LATER) and store.add(named(), LATER)


def test_old_stamps_are_forgotten(server):
    """A stamp is kept until its moment, and needn't be any longer."""
    store, old, new = opened(server), [named() for _ in range(10)], [named() for _ in range(10)]
    for it in old:
        store.add(it, PAST)
    time.sleep(1.1)
    assert all(store.add(it, LATER) for it in new)
    if server.name == "PostgreSQL":
        is_old = "keep_until < 1000000 * extract(epoch FROM now())"
        assert server.run(f"SELECT count(*) FROM fevstunik_stamps WHERE {is_old}").split()[2] == "0"
    assert all(store.add(it, LATER) for it in old) and not any(store.add(it, LATER) for it in new)


# ---------------------------------------------------------------- in time


def test_an_answer_that_comes_too_late(server, tmp_path):
    """It isn't taken for the answer about the next stamp, nor about the same."""
    proxy = Proxy(server, tmp_path)
    store, late, known = opened(server, where=proxy.where), named(), named()
    assert store.add(known, LATER)
    store.close()
    store._seconds = 1.5
    add_in_time(store, known)
    proxy.hold()

    def gives_up():
        with pytest.raises(StoreFailed, match="1.5 seconds|Timeout"):
            store.add(late, LATER)

    assert 1.4 < least_seconds(gives_up, 4.4) < 4.4
    release, store._seconds = proxy.go_on(), PATIENT
    assert not store.add(known, LATER)
    release()
    for _ in range(4):
        assert not store.add(known, LATER)
        time.sleep(0.2)
    assert not store.add(late, LATER) and store.add(named(), LATER)


def add_in_time(store, stamp):
    """Adds a stamp to a store that waits for a short time, and has a connection then."""
    while not store._idle():
        with contextlib.suppress(StoreFailed):
            store.add(stamp, LATER)


def test_a_server_that_ends(server):
    """A connection that the server has closed isn't used, and nothing has to be repaired."""
    store, before, between = opened(server), named(), named()
    assert store.add(before, LATER)
    server.kill()
    for _ in range(2):
        with pytest.raises(StoreFailed):
            store.add(between, LATER)
    with pytest.raises(StoreFailed):
        opened(server)
    server.start()
    assert not store.add(before, LATER) and store.add(between, LATER)


# ---------------------------------------------------------------- what is refused


def set_redis(server, setting):
    server.said("config", "set", *setting.split())
    server.wait_for_the_file()


def set_role(server, setting):
    server.run(f"ALTER ROLE web SET {setting}")


def set_table(server, setting):
    for name in ("stamps", "store")[:: -1 if setting == "UNLOGGED" else 1]:
        server.run(f"ALTER TABLE fevstunik_{name} SET {setting}")


@pytest.mark.parametrize("kind, name, how, wrong, right", [
    ("redis", "appendfsync", set_redis, "appendfsync everysec", "appendfsync always"),
    ("redis", "appendonly", set_redis, "appendonly no", "appendonly yes"),
    ("redis", "maxmemory-policy", set_redis, "maxmemory-policy allkeys-lru", "maxmemory-policy noeviction"),
    ("redis", "no-appendfsync-on-rewrite", set_redis, "no-appendfsync-on-rewrite yes", "no-appendfsync-on-rewrite no"),
    ("postgresql", "synchronous_commit", set_role, "synchronous_commit = off", "synchronous_commit = on"),
    ("postgresql", "synchronous_commit", set_role, "synchronous_commit = local", "synchronous_commit = remote_apply"),
    ("postgresql", "unlogged", set_table, "UNLOGGED", "LOGGED")])
def test_a_wrong_setting(request, kind, name, how, wrong, right):
    server = request.getfixturevalue(kind)
    opened(server)
    how(server, wrong)
    try:
        with pytest.raises(UnsafeStore) as raised:
            opened(server)
        assert raised.value.name == name and str(raised.value).startswith(f"{name}: ")
        assert opened(server, unchecked=True).add(named(), LATER)
    finally:
        how(server, right)
    assert opened(server).add(named(), LATER)


@pytest.mark.parametrize("version, role, name", [
    ("6.0.16", "master", "version"), ("5.9", "master", "version"), ("7.2.4", "slave", "role")])
def test_an_old_server_and_a_replica(version, role, name):
    client = SimpleNamespace(info=lambda: {"redis_version": version, "role": role})
    with pytest.raises(UnsafeStore) as raised:
        _redis._check(client)
    assert raised.value.name == name


def test_another_skew_and_clock(server, monkeypatch):
    opened(server)
    for skew in (299, 301):
        with pytest.raises(UnsafeStore, match="made with 300") as raised:
            opened(server, skew)
        assert raised.value.name == "largest_skew"
    behind = time.time_ns() // 1000 - 310_000_000
    monkeypatch.setattr(f"fevstunik.stores._{server.name.lower()}.clock", lambda: behind)
    with pytest.raises(UnsafeStore) as raised:
        opened(server)
    assert raised.value.name == "clock"


def test_a_store_that_was_made_again(server):
    store, stamp = opened(server), named()
    assert store.add(stamp, LATER)
    if server.name == "Redis":
        server.said("flushall")
    else:
        server.run("DROP TABLE fevstunik_stamps, fevstunik_store")
    made = opened(server)
    assert made.remembers_from > store.remembers_from and made.add(stamp, LATER)
    store.close()
    with pytest.raises(StoreFailed, match="made again"):
        store.add(named(), LATER)


def test_no_server(server, tmp_path):
    with pytest.raises(StoreFailed):
        opened(server, where=server.where.replace(str(server.folder), str(tmp_path)))
    assert Path(server.folder).is_dir()


def certificate(folder):
    """The paths of a certificate for localhost, and of its key, which belongs to the folder's owner."""
    cert, key, owner = folder / "cert", folder / "key", folder.stat()
    subprocess.run(["openssl", "req", "-x509", "-newkey", "rsa:2048", "-nodes", "-subj", "/CN=localhost", "-addext",
                    "subjectAltName=DNS:localhost", "-keyout", key, "-out", cert], check=True, capture_output=True)
    os.chown(key, owner.st_uid, owner.st_gid)
    return cert, key


# A certificate for another host is refused, and one of an authority that isn't trusted.


def test_redis_over_tls():
    server, port = store_servers.Redis(), free_port()
    cert, key = certificate(server.folder)
    files = f"tls-cert-file {cert}\ntls-key-file {key}\ntls-ca-cert-file {cert}\n"
    try:
        server.start(f"tls-port {port}\n{files}tls-auth-clients no\n")
        store, stamp = Redis(f"rediss://localhost:{port}/0?ssl_ca_certs={cert}"), named()
        assert store.add(stamp, LATER) and not store.add(stamp, LATER)
        for wrong in f"127.0.0.1:{port}/0?ssl_ca_certs={cert}", f"localhost:{port}/0":
            with pytest.raises(StoreFailed, match="(?i)certificate"):
                Redis(f"rediss://{wrong}")
    finally:
        server.close()


def test_postgresql_over_tls():
    server, port = store_servers.Postgres(), free_port()
    try:
        server.start()
        server.kill()
        cert, key = certificate(server.folder)
        server.start(port, ssl="on", ssl_cert_file=cert, ssl_key_file=key, listen_addresses="127.0.0.1")
        where = f"host=%s port={port} dbname=web user=web sslmode=verify-full sslrootcert=%s"
        store, stamp = PostgreSQL(where % ("localhost", cert)), named()
        assert store.add(stamp, LATER) and not store.add(stamp, LATER)
        for wrong in ("127.0.0.1", cert), ("localhost", "/etc/ssl/certs/ca-certificates.crt"):
            with pytest.raises(StoreFailed, match="(?i)certificate"):
                PostgreSQL(where % wrong)
    finally:
        server.close()


def test_the_user_of_redis():
    """The user of docs/OPERATING.md may use the store, and nothing else; without a password nobody may do anything."""
    server, web = store_servers.Redis(), ("web", "a password")
    try:
        server.start_with_user(web[1])
        store, stamp = Redis(f"unix://web:a%20password@{server.socket}"), named()
        assert store.add(stamp, LATER) and not store.add(stamp, LATER)
        for denied in (("del", "fevstunik-store"), ("set", "another", ""), ("flushall",), ("acl", "list"),
                       ("config", "set", "appendonly", "no")):
            assert server.said(*denied, user=web)[:6] == "NOPERM", denied
        assert server.said("get", "fevstunik-store")[:6] == "NOAUTH"
        with pytest.raises(StoreFailed):
            Redis(server.where)
    finally:
        server.close()
