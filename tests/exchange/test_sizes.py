"""Calls of many sizes, with ample memory: each is answered as it should be, and not by out of memory."""
import pytest

from support import calls, exchange_made, fixture
from support.checks import slug
from support.exchange_made import Made, name_word, parts_of
from support.model import CODES

EXCHANGE, IN_C, FILES = "krb_calls_exchange", "exchange_in_c", "krb_calls_files"
CONFOUNDER = b"\x5a" * 16
SERVICE = name_word(3, *parts_of("host/web@EX"))


def begins(text):
    return lambda answer: answer.startswith(text)


def ends(first, last):
    return lambda answer: answer.startswith(first) and answer.endswith(last)


def caches():
    """Caches of 0 to 300 credentials, each for another service: the files, and the names."""
    client = fixture.principal(1, b"EX", b"alice")
    file = b"\5\4\0\0" + client
    for count in range(301):
        yield count, file, name_word(3, b"EX", [b"host", b"web%d" % (count - 1)])
        server = fixture.principal(3, b"EX", b"host", b"web%d" % count)
        file += fixture.credential(client, server, 19, fixture.SESSION_KEY, (1_700_000_000, 0, 1_700_036_000, 0),
                                   fixture.ticket())


def read_caches():
    """Each is read, written and searched for the last credential; then a cache that is made of 300 parts is searched,
    three of them for one server."""
    end = "failures 0 left 0"
    for count, file, _ in caches():
        yield f"cache slice {file.hex()}", ends(f"1/alice@EX none {count} ", f" {calls.shown(file)} {end}")
        found = f"found {count - 1} Credential(etype 19) {end}" if count else f"found {end}"
        yield f"cache slice {file.hex()} 3/host/web{count - 1}@EX", found
    client = fixture.principal(1, b"EX", b"alice")
    servers = [fixture.principal(3, b"EX", b"host", b"web%d" % it) for it in range(100)]
    parts = b"".join(fixture.credential(client, servers[it % 100], 19, b"", (0, 0, 0, 0), b"") for it in range(300))
    file = b"\5\4\0\0" + client + parts
    made = f"made slice {file.hex()} 0"
    yield f"{made} 3/host/web7@EX", "found" + "".join(f" {it} Credential(etype 19)" for it in (7, 107, 207))
    yield f"{made} 1/alice@EX", "found"


def asked_caches():
    """A request is made with the last credential of each."""
    for count, file, name in caches():
        yield f"cache {file.hex()}", "cache"
        line = f"request {name} 1700000100 5 {CONFOUNDER.hex()} plain none none"
        yield line, begins("6e82") if count else "refused NoCredential"


def requests():
    """A thousand requests, 1 µs apart, are accepted by one service, replied to and finished."""
    yield f"service timed 300 {fixture.keytab().hex()}", "service"
    yield f"cache {fixture.cache().hex()}", "cache"
    for micros in range(1_000):
        yield f"request {SERVICE} 1700000100 {micros} {CONFOUNDER.hex()} mutual none {micros}", begins("6e82")
        yield f"accept 1700000100 1000 made:{micros}", begins("accepted ")
        yield f"reply {CONFOUNDER.hex()} none {micros}", begins("6f")
        yield f"finish {micros} replied", ends("agreed ", f" none {micros}")
    yield "held", "1000 1700000100 1000"


def listed_requests():
    """As many are accepted by a service with a list."""
    yield f"service list 300 {fixture.keytab().hex()}", "service"
    for micros in range(1_000):
        request, stamp = (it(Made(micros=micros)).hex() for it in (exchange_made.request, exchange_made.stamp))
        yield f"accept 1700000100 1000 {request}", f"accepted {stamp}"
    yield "held", "1000 1700000100 1000"


def one_time(count):
    """As many tuples of one microsecond are remembered, each of another client and in no order, and then found."""
    yield "memory timed", "memory"
    clients = [name_word(1, b"EX", [b"user%d" % (7919 * it % count)]) for it in range(count)]
    for call, answer in ("remember", "ok"), ("contains", "true"):
        for client in clients:
            yield f"{call} {SERVICE} {client} 1700000100 5", answer
    for micros in 4, 6:
        yield f"contains {SERVICE} {clients[0]} 1700000100 {micros}", "false"
    yield f"contains {SERVICE} {name_word(1, b'EX', [b'nobody'])} 1700000100 5", "false"
    yield "len", str(count)


def several_services(count):
    """One client sends as many requests to each of three services, one of which has a long name. All are remembered. Of
    their size, 28 bytes are counted for each, and 200 for each two names."""
    yield "memory timed", "memory"
    alice, carol = (name_word(1, b"EX", [it]) for it in (b"alice", b"carol"))
    services = [SERVICE, *(name_word(3, b"EX", [it, b"web"]) for it in (b"ftp", b"w" * 300))]
    for micros in range(count):
        for service in services:
            yield f"remember {service} {alice} 1700000100 {micros}", "ok"
    yield "len", str(3 * count)
    yield "bytes", str(28 * 3 * count + 200 * 3)
    yield f"remember {SERVICE} {carol} 1700000100 5", "ok"
    yield "bytes", str(28 * (3 * count + 1) + 200 * 4)
    for service in services:
        yield f"contains {service} {alice} 1700000100 {count - 1}", "true"
        yield f"contains {service} {alice} 1700000100 {count}", "false"


def errors():
    """The error of each code is built, and has that code (field 6 of a KRB-ERROR, RFC 4120, section 5.9.1)."""
    for cause, code in CODES.items():
        has_code = f"a6030201{code:02x}"
        yield f"error {cause} 1700000100 5 {SERVICE}", lambda it, word=has_code: it.startswith("7e") and word in it
    yield f"error OutOfMemory 1700000100 5 {SERVICE}", lambda answer: not answer.startswith("7e")


SWEEPS = {
    "caches": (FILES, read_caches), "the last credential of caches": (IN_C, asked_caches),
    "requests, list": (EXCHANGE, listed_requests), "requests, timed": (IN_C, requests),
    "tuples of one microsecond": (EXCHANGE, lambda: one_time(200_000)), "errors": (IN_C, errors),
    "several services of one client": (EXCHANGE, lambda: several_services(70_000)),
}


@pytest.mark.parametrize("name", SWEEPS, ids=slug)
def test_sizes(in_c, name):
    program, trials = SWEEPS[name]
    lines, are_right = zip(*trials())
    found, status, errors = calls.given_to(program, [(name, lines, are_right)])
    assert (status, errors, len(found)) == (0, b"", len(lines))
    for line, answer, right in zip(lines, found, are_right):
        assert right(answer) if callable(right) else answer == right, f"{line[:100]} is answered {answer[:200]}"
