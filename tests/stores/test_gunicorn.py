"""Four workers of gunicorn over each store: each request of a client of MIT krb5 is sent to them again and again while
workers are killed, or the store is, and is let in once, or not at all; nor is it after another boot. The environment
variable STORES_REQUESTS says how many requests there are. They are made and sent in portions, so that none grows too
old.
"""
import contextlib
import http.client
import os
import random
import signal
import socket
import subprocess
import time
from collections import Counter
from concurrent.futures import ThreadPoolExecutor

import pytest

from support import TOP, c_programs, store_servers
from support.instances import PYTHON, real_requests

pytestmark = [pytest.mark.packages, pytest.mark.slow]
# How many requests there are while workers are killed, how many in a portion, and how many for the rest; how often each
# is sent, by how many threads; and how often a worker is killed, or once in each portion.
REQUESTS, PORTION, MORE, TIMES, THREADS, KILLS = int(os.environ.get("STORES_REQUESTS", "200")), 200, 120, 4, 8, 8
# How long everybody waits for each other.
SECONDS = 300
APPLICATION = """
import os
from fevstunik import Keytab, Service
from fevstunik.stores import File, PostgreSQL, Redis, SQLite

service = Service(Keytab.read("{top}/examples/service.keytab"), "host/web@EX", store={store})

def application(environ, start_response):
    it = service.answer(bytes.fromhex(environ["HTTP_TOKEN"]))
    headers = [("Worker", str(os.getpid())), ("Said", "OK" if it else it.cause.name), ("Content-Length", "0")]
    start_response("200 OK" if it else "401 Unauthorized", headers)
    return []
"""


class Connection(http.client.HTTPConnection):
    def __init__(self, path):
        super().__init__("localhost", timeout=SECONDS)
        self.path = path

    def connect(self):
        self.sock = socket.socket(socket.AF_UNIX)
        self.sock.settimeout(self.timeout)
        self.sock.connect(self.path)


def sent(path, token):
    """What is said of a request, and the worker that says it; None if it was killed."""
    try:
        with contextlib.closing(Connection(path)) as connection:
            connection.request("GET", "/", headers={"Token": token})
            answer = connection.getresponse()
            return answer.headers["Said"], int(answer.headers["Worker"])
    except (OSError, http.client.HTTPException):
        return None


@contextlib.contextmanager
def gunicorn(folder, store):
    """The path of its socket."""
    (folder / "web.py").write_text(APPLICATION.format(top=TOP, store=store))
    words = [PYTHON, "-B", "-m", "gunicorn", "--workers", "4", "--bind", f"unix:{folder}/socket",
             "--chdir", str(folder), "--backlog", "512", "--timeout", str(SECONDS), "web:application"]
    with open(folder / "log", "wb") as log, subprocess.Popen(words, stdout=log, stderr=log) as process:
        try:
            store_servers.wait_for(lambda: sent(f"{folder}/socket", "00"), "gunicorn doesn't answer", process)
            yield f"{folder}/socket"
        finally:
            process.terminate()


def named(store):
    """The store, as the application makes it."""
    if isinstance(store, store_servers.InAFile):
        return f"{store.name}({str(store.path)!r}, boot=open({str(store.boot_file)!r}).read().strip(), " \
            f"seconds={SECONDS})"
    return f"{store.name}({store.where!r}, seconds={SECONDS})"


class Sender:
    """Sends requests to workers, each some times, near to each other, and counts how often each is let in."""

    def __init__(self, pool):
        self.pool, self.rng, self.let_in = pool, random.Random(2808), Counter()

    def send(self, path, tokens, kills=0, midway=lambda: None):
        """Returns what was said, how often; which workers said it; and which requests had no answer. At some answers
        the worker that gave it is killed, and halfway `midway` is called."""
        order = [it for it in tokens for _ in range(TIMES)]
        near = [order[at] for at in sorted(range(len(order)), key=lambda it: it + self.rng.uniform(0, 40))]
        killed_at = set(self.rng.sample(range(len(near)), kills))

        def one(number):
            if number == len(near) // 2:
                midway()
            found = sent(path, near[number])
            if found and number in killed_at:
                with contextlib.suppress(ProcessLookupError):
                    os.kill(found[1], signal.SIGKILL)
            return near[number], found

        found = list(self.pool.map(one, range(len(near))))
        self.let_in.update(token for token, it in found if it and it[0] == "OK")
        return (Counter(it[0] for _, it in found if it), {it[1] for _, it in found if it},
                {token for token, it in found if not it})

    def each_once(self, path, tokens):
        said, _, _ = self.send(path, tokens)
        assert said == {"OK": len(tokens), "REPEAT": (TIMES - 1) * len(tokens)}

    def none(self, path, tokens, *wanted):
        said, _, _ = self.send(path, tokens)
        assert set(said) == set(wanted)


def while_workers_are_killed(sender, path, cache):
    """Returns the last requests, and some that are let in after that."""
    answered, kills = set(), max(1, KILLS * PORTION // REQUESTS)
    for at in range(0, REQUESTS, PORTION):
        tokens = real_requests(cache, min(PORTION, REQUESTS - at))
        _, workers, lost = sender.send(path, tokens, kills=kills)
        refused = {it for it in tokens if not sender.let_in[it]}
        assert refused <= lost, "one wasn't let in, and no worker was killed over it"
        answered |= workers
    assert len(answered) > 4, f"{answered} answered"
    wait_for_workers(path)
    young = real_requests(cache, MORE // 3)
    sender.each_once(path, young)
    return tokens, young


def wait_for_workers(path):
    """Waits until all of them answer. (gunicorn ends if one can't start, which is so while the store is down.)"""
    seen = set()
    store_servers.wait_for(lambda: seen.add(sent(path, "00")) or len(seen - {None}) == 4, "a worker isn't there")


def while_the_store_is_killed(sender, path, cache, store):
    sender.send(path, real_requests(cache, MORE // 3), midway=store.kill)
    # (a worker knows again what it has accepted itself)
    sender.none(path, real_requests(cache, MORE // 3), "STORE_FAILED", "REPEAT")
    store.start()
    sender.each_once(path, real_requests(cache, MORE // 3))


def after_another_boot(sender, folder, store, old, young, cache):
    store.boot()
    with gunicorn(folder, named(store)) as path:
        sender.none(path, young, "JUST_STARTED")
        # (these may be too old by now)
        assert {*sender.send(path, old)[0]} <= {"JUST_STARTED", "SKEW"}
    store.age()
    with gunicorn(folder, named(store)) as path:
        sender.each_once(path, real_requests(cache, MORE))


@pytest.mark.parametrize("kind", [store_servers.OfRecords, store_servers.OfSQLite, store_servers.Redis,
                                  store_servers.Postgres], ids=lambda it: it.name)
def test_workers(at_the_top, tmp_path, kind):
    cache = tmp_path / "cache"
    cache.write_bytes(c_programs.current_cache(int(time.time()) - 60))
    with contextlib.closing(kind()) as store, ThreadPoolExecutor(THREADS) as pool:
        sender = Sender(pool)
        store.start()
        store.age()
        with gunicorn(tmp_path, named(store)) as path:
            last = while_workers_are_killed(sender, path, cache)
            if not issubclass(kind, store_servers.InAFile):
                while_the_store_is_killed(sender, path, cache, store)
        if issubclass(kind, store_servers.InAFile):
            after_another_boot(sender, tmp_path, store, *last, cache)
    assert max(sender.let_in.values()) == 1, "a request was let in twice"
