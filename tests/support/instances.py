"""Instances of a service, in Python and in C, and requests for them."""
import collections
import contextlib
import itertools
import os
import re
import socket
import subprocess
import threading
import time

from support import TOP

PYTHON = "/usr/bin/python3"
SERVICE = [TOP / "examples/service.keytab", "host/web@EX"]
# How many requests an instance is sent before its answers are read; they fit into a pipe.
BATCH = 40
ACCEPTED, REPEAT, STORE = ("accepted", "alice@EX"), ("refused", "REPEAT"), ("refused", "STORE_FAILED")
EARLY = ("refused", "JUST_STARTED")
MAKE = """
import sys
from fevstunik import CredentialCache, Moment, make_request
cache = CredentialCache.read(sys.argv[1])
for number in range(int(sys.argv[2])):
    print(make_request(cache, "host/web@EX", now=Moment(int(sys.argv[3]), number))[0].hex())
"""
# What MIT krb5's client sends (python3-gssapi): Kerberos tokens of clients that ask for mutual authentication.
CLIENT = """
import sys, gssapi
name = gssapi.Name("host/web@EX", gssapi.NameType.kerberos_principal)
for _ in range(int(sys.argv[1])):
    it = gssapi.SecurityContext(name=name, mech=gssapi.MechType.kerberos, usage="initiate",
                                flags=gssapi.RequirementFlag.mutual_authentication)
    print(it.step().hex())
"""
# What an error begins with in its token (RFC 4121, section 4.1), and alone; and codes of errors (RFC 4120, section
# 7.5.9). A request that is too late has the same as one from before the start.
ERROR, ERROR_ALONE = b"\x03\x00", b"\x7e"
REFUSED = {34: REPEAT, 37: EARLY, 60: STORE}


class Instance:
    """A process that answers lines by lines."""
    at_once = 1

    def __init__(self, words, **more):
        self.words, self.env = [str(it) for it in words], {**os.environ, "PYTHONPATH": str(TOP / "python"), **more}
        self.start()

    def start(self):
        self.process = subprocess.Popen(self.words, stdin=subprocess.PIPE, stdout=subprocess.PIPE,
                                        stderr=subprocess.DEVNULL, text=True, env=self.env)

    def send(self, requests):
        self.process.stdin.write("".join(f"{it}\n" for it in requests))
        self.process.stdin.flush()

    def answers(self, count):
        """The first two words of so many answers; None for each that doesn't come, since the instance has ended."""
        lines = [self.process.stdout.readline() for _ in range(count)]
        return [tuple(line.split()[:2]) if line.endswith("\n") else None for line in lines]

    def asked(self, request):
        self.send([request])
        return self.answers(1)[0]

    def kill(self):
        self.process.kill()
        self.process.wait()

    def killed(self, count, before):
        """What it answers of so many requests if it is killed after the first answers; then it is started again."""
        answers = self.answers(before)
        self.kill()
        answers += self.answers(count - before)
        self.close()
        self.start()
        return answers

    def close(self):
        self.kill()
        with contextlib.suppress(BrokenPipeError):
            self.process.stdin.close()
        self.process.stdout.close()


class Served(Instance):
    """A process of examples/service/service: it answers each request over a connection of its own, all at once."""
    at_once = BATCH

    def __init__(self, words, **more):
        """The words but the number of connections, after which it would end."""
        super().__init__([*words[:3], 1_000_000, *words[3:]], **more)

    def start(self):
        # (a store that has a second to answer may miss that as the service starts, and then it doesn't start)
        for _ in range(10 if float(self.words[-1]) < 5 else 1):
            self.process = subprocess.Popen(self.words, stdout=subprocess.PIPE, stderr=subprocess.DEVNULL, text=True,
                                            env=self.env)
            self.peers, self.port = collections.deque(), self.process.stdout.readline().strip()
            if self.port:
                break
        # (it would wait for somebody who reads what it prints)
        threading.Thread(target=drained, args=[self.process.stdout], daemon=True).start()

    def send(self, requests):
        for it in map(bytes.fromhex, requests):
            self.peers.append(socket.create_connection(("127.0.0.1", self.port)))
            self.peers[-1].sendall(len(it).to_bytes(4, "big") + it)

    def answers(self, count):
        found = []
        for _ in range(count):
            with self.peers.popleft() as peer:
                found.append(told(peer))
        return found

    def close(self):
        self.kill()


def drained(pipe):
    with pipe:
        for _ in pipe:
            pass


def received(peer, size):
    """So many bytes; fewer if the connection has ended."""
    found = b""
    while len(found) < size and (more := peer.recv(size - len(found))):
        found += more
    return found


def told(peer):
    """What a service sent to a client, as a line says it; None if the connection has ended before."""
    try:
        size = int.from_bytes(received(peer, 4), "big")
        answer = received(peer, size)
    except ConnectionError:
        return None
    if not size or len(answer) < size:
        return None
    if answer[:1] != ERROR_ALONE and ERROR not in answer[:20]:
        return ACCEPTED
    code = re.search(rb"\xa6\x03\x02\x01(.)", answer, re.S)[1][0]
    return REFUSED.get(code, ("refused", str(code)))


def made_requests(cache, count, library, ago=0):
    """Requests of one second, so many seconds ago."""
    where = {**os.environ, "FEVSTUNIK_LIBRARY": str(library), "PYTHONPATH": str(TOP / "python")}
    ran = subprocess.run([PYTHON, "-B", "-c", MAKE, str(cache), str(count), str(int(time.time()) - ago)],
                         capture_output=True, text=True, env=where)
    if ran.returncode:
        raise OSError(ran.stderr[-500:])
    return ran.stdout.split()


def once_it_answers(instance, requests, starts=False):
    """What an instance says first that isn't that the store has failed: if the store has a second to answer, it misses
    that now and then on a busy machine. (An instance that starts ends then, and is started again.)"""
    for it in itertools.islice(requests, 20):
        with contextlib.suppress(BrokenPipeError):
            found = instance.asked(it)
            if found not in (STORE, None) or found is None and not starts:
                return found
        if starts and instance.process.poll() is not None:
            instance.close()
            instance.start()
    return STORE


def fresh_requests(cache):
    """Requests of MIT krb5's client, one after another. Each is made less than a minute before it is taken."""
    while True:
        made, now = real_requests(cache, 40), time.monotonic()
        yield from itertools.takewhile(lambda _: time.monotonic() - now < 60, made)


def real_requests(cache, count):
    """Requests that MIT krb5's client makes now."""
    where = {**os.environ, "KRB5_CONFIG": "/dev/null", "KRB5CCNAME": f"FILE:{cache}"}
    ran = subprocess.run([PYTHON, "-B", "-c", CLIENT, str(count)], capture_output=True, text=True, env=where)
    if ran.returncode:
        raise OSError(ran.stderr[-500:])
    return ran.stdout.split()
