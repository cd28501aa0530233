"""A realm of MIT krb5 with a user and web services on this machine, and a running service: that of examples/negotiate,
or another program of its words. Its clock may be ahead."""
import http.client
import os
import re
import struct
import subprocess
import time
from urllib.parse import quote

from support import TESTS, TOP, kdc, tickets

REALM, SERVICE, OTHER = "WEB.TEST", "HTTP/localhost", "HTTP/other.test"
# Another host of this machine, for redirects. (Browsers know names below localhost, libraries only its address.)
OTHER_HOST, ADDRESS = "www.localhost", "127.0.0.1"
ALICE = f"alice@{REALM}"
PYTHON = "/usr/bin/python3"
# How long a client waits, and how long ago at most tickets were issued that are made to seem valid for longer.
SECONDS, ISSUED = 300, 3_600
# How far a clock is wrong that is refused, and how far both are ahead when a ticket of ten hours has expired.
WRONG, LATER = 3_600, 39_600
EXAMPLE = TOP / "examples/negotiate/serve.py"


def realm_in(folder, more=()):
    """A realm with a KDC, the service's keytab (with the keys of more services), and a user with a ticket for the KDC
    and for two services."""
    permitted, _, ktadd = tickets.advice()
    realm = kdc.MitRealm(folder / "web", REALM, None, f"{tickets.AES256}:normal {tickets.AES128}:normal")
    realm.kadmin("addprinc", "-pw", kdc.PASSWORD, "alice")
    for name in (SERVICE, OTHER, *more):
        realm.kadmin("addprinc", "-randkey", name)
    for name in (SERVICE, *more):
        realm.kadmin(*tickets.filled_in(ktadd, realm.folder / "www.keytab", name))
    try:
        realm.start("default", [permitted])
        cache = realm.cache("alice", "default", [SERVICE, OTHER])
        (realm.folder / "later.ccache").write_bytes(valid_for_longer(cache.read_bytes()))
        # Heimdal reads no cache that others may read.
        (realm.folder / "later.ccache").chmod(0o600)
    except kdc.Trouble:
        realm.stop()
        raise
    return realm


def valid_for_longer(cache):
    """The cache, which says of each ticket that it ends a day later than it does: so a client uses one that has
    expired."""
    now, cache = int(time.time()), bytearray(cache)
    for at in range(len(cache) - 12):
        begins, starts, ends = struct.unpack_from(">3I", cache, at)
        if begins <= starts <= now and now - begins < ISSUED and 0 < ends - now <= 36_000:
            struct.pack_into(">I", cache, at + 8, ends + 86_400)
    return bytes(cache)


def with_clock(folder):
    """The folder, with clock.so, which sets a program's clock when it is preloaded."""
    kdc.ran(["gcc", "-shared", "-fPIC", "-Wall", "-Wextra", "-Werror", TESTS / "support/clock.c", "-o",
             folder / "clock.so"])
    return folder


def clock(folder, ahead):
    """The environment of a program whose clock is ahead by so many seconds."""
    if not ahead:
        return {}
    (folder / f"ahead-{ahead}").write_text(str(ahead))
    return {"LD_PRELOAD": str(folder / "clock.so"), "CLOCK_FILE": str(folder / f"ahead-{ahead}")}


def leading(at, to, page="moved"):
    """The address of a page of tests/browsers/app.py that leads elsewhere."""
    return f"{at}{page}?{quote(to, safe='')}"


class Service:
    """The running service: where it listens, and what it logged."""

    def __init__(self, folder, realm, library, *words, ahead=0, program=EXAMPLE, keytab="www",
                 served=f"{SERVICE}@{REALM}"):
        self.log = folder / f"{program.stem}-{keytab}-{ahead}-{len(list(folder.glob('*.log')))}.log"
        where = {**os.environ, "FEVSTUNIK_LIBRARY": str(library), "PYTHONPATH": str(TOP / "python"),
                 **clock(folder, ahead)}
        command = [PYTHON, "-B", program, realm.folder / f"{keytab}.keytab", served, "--port", "0", *words]
        with open(self.log, "wb") as log:
            self.process = subprocess.Popen([str(it) for it in command], stdout=subprocess.PIPE, stderr=log, text=True,
                                            env=where)
        self.url = self.process.stdout.readline().strip().replace("127.0.0.1", "localhost")
        self.port = self.url.rstrip("/").rpartition(":")[2]

    def __enter__(self):
        return self

    def __exit__(self, *_):
        self.process.kill()
        self.process.wait()

    def connected(self):
        return http.client.HTTPConnection("127.0.0.1", int(self.port), timeout=SECONDS)

    def asked(self, header=None, connection=None):
        """The status, the words of WWW-Authenticate, and the text that a request with this header Authorization is
        answered."""
        connection = connection or self.connected()
        connection.request("GET", "/", headers={} if header is None else {"Authorization": header})
        response = connection.getresponse()
        return response.status, (response.headers["WWW-Authenticate"] or "").split(), response.read().decode()

    def last(self):
        """The last reason in the log, without what the request asked for."""
        found = re.findall(r"denied: (.*?)(?: \(ticket for .*\))?$", self.log.read_text(), re.M)
        return found[-1] if found else ""
