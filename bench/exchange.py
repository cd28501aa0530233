"""Tickets, keytabs and caches of the requests that are timed, and requests that a service refuses."""
import calendar
import struct
import threading
import time

import builds  # noqa: F401  (with it what the tests share is found)
import files
from support import der, fixture
from support.sealing import BASE, sealed

REALM, SERVICE, CLIENT = b"EXAMPLE.TEST", (b"host", b"web0.example.test"), b"alice"
SESSION = {19: bytes(range(16)), 20: bytes(range(32))}
HOURS_10 = 36_000
# How many bytes of authorization data a ticket has, if it has any.
PAC = 1_024
# The greatest message has 2^20 bytes; the heads around what fills it take less than this.
FILLED = (1 << 20) - 400
CONFOUNDER = bytes(range(16))


def written(seconds):
    return der.time(time.strftime("%Y%m%d%H%M%SZ", time.gmtime(seconds)))


def authorization(size):
    """Authorization data that a service may ignore, whose one element has so many bytes."""
    inner = der.sequence(der.sequence(der.field(0, der.integer(600)), der.field(1, der.octets(bytes(size)))))
    return der.sequence(der.sequence(der.field(0, der.integer(1)), der.field(1, der.octets(inner))))


def ticket(etype, now, extra, client=CLIENT, session=SESSION):
    part = der.element(0x63, der.sequence(
        der.field(0, der.element(3, bytes(5))),
        der.field(1, der.key(etype, session[etype])),
        der.field(2, der.string(REALM)),
        der.field(3, der.name(1, client)),
        der.field(4, der.sequence(der.field(0, der.integer(1)), der.field(1, der.octets(b"")))),
        der.field(5, written(now)),
        der.field(7, written(now + HOURS_10)),
        *([der.field(10, authorization(extra))] if extra else []),
    ))
    cipher = sealed(etype, BASE[etype], 2, bytes(range(0x10, 0x20)), part)
    return der.element(0x61, der.sequence(
        der.field(0, der.integer(5)), der.field(1, der.string(REALM)), der.field(2, der.name(3, *SERVICE)),
        der.field(3, der.encrypted(etype, cipher, 1)),
    ))


def cache(etype, now, extra, client=CLIENT, session=SESSION):
    owner, server = fixture.principal(1, REALM, client), fixture.principal(3, REALM, *SERVICE)
    times = (now, now, now + HOURS_10, 0)
    held = fixture.credential(owner, server, etype, session[etype], times, ticket(etype, now, extra, client, session))
    return b"\x05\x04\x00\x00" + owner + held


def keytab(etype, entries):
    """The service's entry comes last."""
    others = b"".join(files.keytab_record(index) for index in range(1, entries))
    body = struct.pack(">H", 2) + b"".join(files.data16(it) for it in (REALM, *SERVICE))
    body += struct.pack(">iIBh", 3, 1_700_000_000, 1, etype) + files.data16(BASE[etype]) + struct.pack(">I", 1)
    return b"\x05\x02" + others + struct.pack(">i", len(body)) + body


def laid_out(folder, etype, entries, extra):
    """The paths of a keytab and of a cache whose ticket is good from now on, and the moment."""
    now = calendar.timegm(time.gmtime())
    (folder / "keytab").write_bytes(keytab(etype, entries))
    (folder / "cache").write_bytes(cache(etype, now, extra))
    return str(folder / "keytab"), str(folder / "cache"), str(now)


CACHES: dict[tuple[int, int], list[bytes]] = {}
LOCK = threading.Lock()


def clients(folder, etype, now, extra, count):
    """The path of a folder of caches, one for each client, with a ticket and a session key of its own. (They are made
    once: it takes a while.)"""
    made = folder / f"caches-{etype}-{extra}-{count}"
    with LOCK:
        known = CACHES.setdefault((etype, extra), [])
        for index in range(len(known), count):
            session = {etype: index.to_bytes(len(SESSION[etype]), "big")}
            known.append(cache(etype, now, extra, b"user%d" % index, session))
        if not made.exists():
            made.mkdir()
            for index in range(count):
                (made / str(index)).write_bytes(known[index])
    return made


def ticket_for(components, kvno=1, cipher=b"\x5a" * 200):
    return der.ticket(REALM, der.name(3, *components), der.encrypted(19, cipher, kvno))


def authenticator(now, client=CLIENT, key=SESSION[19]):
    part = der.authenticator(REALM, der.name(1, client), 5, now)
    return der.encrypted(19, sealed(19, key, 11, CONFOUNDER, part))


# What is refused at the last stage, which knows a request that it has accepted.
REPEATED = "the same request again"


def refused(now):
    """Requests that a service refuses, each with what it is: one for each stage."""
    good = ticket(19, now, 0)
    other = authenticator(now)
    yield "not a request", b"hello"
    yield "1 MiB that isn't a request", bytes(1 << 20)
    yield "cut off", der.request(0, good, other)[:-1]
    yield "a service that isn't served", der.request(0, ticket_for((b"host", b"other.example.test")), other)
    yield "a version number that the keytab lacks", der.request(0, ticket_for(SERVICE, 2), other)
    yield "a ticket that isn't sealed with the key", der.request(0, ticket_for(SERVICE), other)
    unsealed = der.request(0, good, der.encrypted(19, b"\x5a" * 100))
    yield "an authenticator that isn't sealed with the session key", unsealed
    yield "another client's name", der.request(0, good, authenticator(now, b"mallory"))
    yield "a clock that is an hour off", der.request(0, good, authenticator(now - 3600))
    yield "a ticket that isn't valid yet", der.request(0, ticket(19, now + 3600, 0), other)
    yield "a ticket that has expired", der.request(0, ticket(19, now - HOURS_10 - 3600, 0), other)
    yield REPEATED, der.request(0, good, other)
    yield "1 MiB: a service of 523,000 empty components", der.request(0, ticket_for([b""] * ((FILLED - 1_500) // 2)),
                                                                      other)
    yield "1 MiB: a service of one long component", der.request(0, ticket_for([b"host", b"a" * (FILLED - 500)]), other)
    large = ticket_for(SERVICE, 1, b"\x5a" * (FILLED - 500))
    yield "1 MiB: a ticket that isn't sealed with the key", der.request(0, large, other)
    yield ("1 MiB: an authenticator that isn't sealed with the session key",
           der.request(0, good, der.encrypted(19, b"\x5a" * (FILLED - 500))))
