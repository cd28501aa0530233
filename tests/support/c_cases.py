"""Requests and caches that differ from the fixture's in one thing, for tests/c/faults.c and tests/c/library.c: by the
standards' rules alone (tests/support/fixture.py)."""
import struct

from support import der, fixture, gss_rules, reference

USE_SESSION_KEY = 1 << 30
LIMIT = 1_048_576


def replaced(data, old, new):
    """The data with a part that stands in it once replaced by one of the same size."""
    assert data.count(old) == 1 and len(old) == len(new), (old, new)
    return data.replace(old, new)


def ticket(part=None, etype=19, kvno=3, service=(b"host", b"web"), name_type=3):
    cipher = fixture.sealed(19, fixture.SERVICE_KEY, 2, bytes(range(0x10, 0x20)), part or fixture.ticket_part())
    return der.ticket(b"EX", der.name(name_type, *service), der.encrypted(etype, cipher, kvno))


def ticket_part(**more):
    """The fixture's, with more fields."""
    return der.enc_ticket_part(0, der.key(19, fixture.SESSION_KEY), b"EX", fixture.ALICE, fixture.AUTHTIME,
                               fixture.ENDTIME, **more)


def changed(old, new):
    """A ticket with one thing changed in its sealed part."""
    return ticket(replaced(fixture.ticket_part(), old, new))


def with_data(ad_type):
    """A ticket with an element of authorization data."""
    return ticket(ticket_part(data=der.sequence(der.key(ad_type, b"data"))))


def request(of, authenticator=None):
    cipher = fixture.sealed(19, fixture.SESSION_KEY, 11, bytes(range(0x20, 0x30)),
                            authenticator or fixture.authenticator())
    return der.request(0, of, der.encrypted(19, cipher))


def for_another_service():
    """A request to a service of one part, in which there is a slash. The types of both names are negative, the ticket
    has flags, and the sequence number is 0."""
    part = replaced(fixture.ticket_part(), b"\x03\x05\x00\x00\x00\x00\x00", b"\x03\x05\x00\x40\x61\x00\x00")
    part = replaced(part, der.name(1, b"alice"), der.name(-7, b"alice"))
    return request(ticket(part, service=(b"a/b",), name_type=-3), fixture.authenticator(number=0))


def with_lists():
    """A request with addresses, with authorization data in ticket and authenticator, with a checksum, and of a ticket
    that passed through realms; one item has no bytes."""
    addresses = der.sequence(der.key(2, bytes([192, 0, 2, 1])), der.key(24, bytes(range(0xF0, 0x100))))
    data = der.sequence(der.key(1, b"first"), der.key(1, b""), der.key(1, b"the third"))
    more = {"checksum": der.key(-138, bytes(range(0x50, 0x60))), "data": der.sequence(der.key(1, b"alone"))}
    auth = der.authenticator(b"EX", fixture.ALICE, 5, fixture.CLIENT_TIME, **more)
    return request(ticket(ticket_part(transited=der.key(1, b"EDU,MIT."), addresses=addresses, data=data)), auth)


def with_start():
    """A request whose ticket is valid from a minute after the client was authenticated on."""
    return request(ticket(ticket_part(start=fixture.AUTHTIME + 60)))


def at_the_end():
    """A request of the last second of the year 9999."""
    part = replaced(fixture.ticket_part(), b"20231115081320Z", b"99991231235959Z")
    return request(ticket(part), replaced(fixture.authenticator(), b"20231114221500Z", b"99991231235959Z"))


def whole_error():
    """An error with a client, its time, a text and data."""
    sent, now = (der.time_of(fixture.CLIENT_TIME + it) for it in (-9, 0))
    realm, more = der.string(b"EX"), (der.string(b"too late"), der.octets(b"data"))
    return der.message(0x7E, 5, 30, sent, 8, now, 7, 37, realm, fixture.ALICE, realm, fixture.WEB, *more)


def refused():
    """Requests to the fixture's service, each with the name of its answer."""
    other_realm = b"\x1b\x02EX", b"\x1b\x02EY"
    bent = ticket()[:-1] + bytes([ticket()[-1] ^ 1])
    return [
        ("MESSAGE_TYPE", fixture.reply()),
        ("USER_TO_USER", fixture.request(USE_SESSION_KEY)),
        ("TICKET_ETYPE", request(ticket(etype=18))),
        ("NOT_US", request(ticket(service=(b"host", b"mail")))),
        ("NO_KEY", request(ticket(etype=20))),
        ("BAD_KEY_VERSION", request(ticket(kvno=4))),
        ("TICKET_INTEGRITY", request(bent)),
        ("SESSION_KEY", request(changed(b"\xa0\x03\x02\x01\x13", b"\xa0\x03\x02\x01\x12"))),
        ("AUTHENTICATOR_INTEGRITY", fixture.request()[:-1] + bytes([fixture.request()[-1] ^ 1])),
        ("BAD_MATCH", request(ticket(), replaced(fixture.authenticator(), b"alice", b"malic"))),
        ("SKEW", request(ticket(), replaced(fixture.authenticator(), b"20231114221500Z", b"20231114222100Z"))),
        ("NOT_YET_VALID", request(changed(b"\x03\x05\x00\x00\x00\x00\x00", b"\x03\x05\x00\x01\x00\x00\x00"))),
        ("EXPIRED", request(changed(b"20231115081320Z", b"20231114220000Z"))),
        ("TRANSITED", request(changed(*other_realm), replaced(fixture.authenticator(), *other_realm))),
        ("AUTHORIZATION", request(with_data(4))),
    ]


def keytab_of(entries):
    """The fixture's keytab after as many other entries as make it so many."""
    others = ({"realm": b"EX", "components": [b"host", b"n%04d" % number], "name_type": 3, "timestamp": 1_700_000_000,
               "kvno": 3, "etype": 19,
               "key": struct.pack(">QQ", number, 0)} for number in range(entries - 1))
    return fixture.keytab()[:2] + b"".join(map(reference.record_of, others)) + fixture.keytab()[2:]


def large_ticket():
    """A ticket with 100,000 bytes of authorization data."""
    return ticket(ticket_part(data=der.sequence(der.key(1, bytes(at % 251 for at in range(100_000))))))


def cache_with(credentials):
    """A cache of so many credentials. The last is for the fixture's service, with a large ticket."""
    client, server = client_and_server()
    times, ticket_bytes = (1_700_000_000, 0, 1_700_036_000, 0), fixture.ticket()
    others = [
        fixture.credential(client, fixture.principal(3, b"EX", b"host", b"n%04d" % number), 19, fixture.SESSION_KEY,
                           times, ticket_bytes)
        for number in range(credentials - 1)
    ]
    last = fixture.credential(client, server, 19, fixture.SESSION_KEY, times, large_ticket())
    return b"\x05\x04\x00\x00" + client + b"".join(others) + last


def cache_of_services(count):
    """A cache with tickets for so many services. Their session keys are few: of both types, some with the same first
    bytes."""
    client, times = client_and_server()[0], (1_700_000_000, 0, 1_700_036_000, 0)
    made = b"\x05\x04\x00\x00" + client
    for number in range(count):
        etype, size = ((19, 16), (20, 32))[number % 2]
        key = bytes((number // 2 % 5 + at) % 256 for at in range(size))
        made += fixture.credential(client, fixture.principal(3, b"EX", b"host", b"n%04d" % number), etype, key, times,
                                   fixture.ticket())
    return made


# Clients with a cache each, for tests with threads.
CLIENTS = [f"c{number:04d}" for number in range(40)]


def cache_of(client):
    """The fixture's cache for another client of five letters."""
    part = fixture.ticket_part().replace(b"alice", client.encode())
    return fixture.cache(fixture.ticket(fixture.sealed(19, fixture.SERVICE_KEY, 2, bytes(range(16)),
                                                       part))).replace(b"alice", client.encode())


def client_and_server():
    return fixture.principal(1, b"EX", b"alice"), fixture.principal(3, b"EX", b"host", b"web")


def of_type_18():
    client, server = client_and_server()
    return b"\x05\x04\x00\x00" + client + fixture.credential(client, server, 18, bytes(32), (0, 0, 1_700_036_000, 0),
                                                             fixture.ticket())


def prevented():
    """Caches with which there is no request, each with the name of the answer."""
    return [
        ("NO_USABLE_KEY", of_type_18()),
        ("BAD_TICKET", fixture.cache(b"no ticket")),
        ("TOO_LONG", fixture.cache(fixture.ticket(bytes(LIMIT - 100)))),
    ]


def two_credentials():
    """A cache with an offset, whose second credential has other numbers in each field."""
    client, server = client_and_server()
    times = (1_700_000_000, 1_700_000_001, 1_700_036_000, 1_700_600_000)
    plain = fixture.credential(client, server, 19, fixture.SESSION_KEY, times, fixture.ticket())
    return fixture.configured_cache() + replaced(plain, struct.pack(">4IBI", *times, 0, 0),
                                                 struct.pack(">4IBI", *times, 1, 0x4061_0000))


# The MD5 hash of a channel's bindings, and the flags of a ticket: anonymous, and that its path was checked.
BINDINGS = bytes(range(1, 17))
ANONYMOUS, CHECKED = 1 << 31 - 16, 1 << 31 - 12


def of_client(bits, realm, name):
    """A request of a client, whose ticket has these flags."""
    part = der.enc_ticket_part(bits, der.key(19, fixture.SESSION_KEY), realm, name, fixture.AUTHTIME, fixture.ENDTIME)
    return request(ticket(part), der.authenticator(realm, name, 5, fixture.CLIENT_TIME))


def bound(bindings):
    """A request with channel bindings."""
    return request(ticket(), fixture.authenticator(checksum=fixture.context(False, bindings=bindings)))


def login_cases():
    """A service's terms, and what it answers to a request (RFC 8062, section 3; RFC 4121, section 4.1.1)."""
    nobody, foreign = of_client(ANONYMOUS, b"EX", fixture.ALICE), of_client(CHECKED, b"EY", fixture.ALICE)
    named = of_client(0, b"EX", der.name(11, b"WELLKNOWN", b"ANONYMOUS"))
    other, none = BINDINGS[:15] + b"\0", bytes(16)
    yield from (("plain", name, data) for name, data in refused())
    yield from (("plain", "OK", it) for it in (fixture.request(), foreign, bound(none), bound(other)))
    yield from (("plain", "ANONYMOUS_CLIENT", it) for it in (nobody, named))
    yield from (("anonymous", "OK", it) for it in (nobody, named))
    yield from (("realms", "OK", fixture.request()), ("realms", "FOREIGN_REALM", foreign))
    yield from (("sent", "OK", it) for it in (fixture.request(), bound(none), bound(BINDINGS)))
    yield from (("required", "CHANNEL_BINDINGS", it) for it in (fixture.request(), bound(none), bound(other)))
    yield from (("sent", "CHANNEL_BINDINGS", bound(other)), ("required", "OK", bound(BINDINGS)))


def lists(codes):
    """The words of logins.c and settled.c for clients that name NTLM before Kerberos: their first message, then codes,
    each with the second message to which a service answers so. (A MIC of 32 bytes that isn't the client's: one is no
    message, and one is under a subkey of the service, RFC 4121, section 4.2.2.)"""
    def second(mic, **request):
        return gss_rules.going_on(gss_rules.kerberos(gss_rules.KERBEROS, fixture.request(**request)), mic=mic)

    yield gss_rules.negotiation([gss_rules.NTLM, gss_rules.KERBEROS], None).hex()
    other_key, other_type = bytes.fromhex("040404ffffffffff") + bytes(24), der.key(18, bytes(32))
    for name, message in (("GO_ON", second(None, options=1 << 29)), ("LIST_MIC_MISSING", second(None)),
                          ("LIST_MIC_WRONG", second(bytes(32))), ("LIST_MIC_OTHER_KEY", second(other_key)),
                          ("LIST_KEY_TYPE", second(bytes(32), subkey=other_type))):
        yield from (str(codes[name]), message.hex())


def login_lines(code_of, kerberos_of):
    """What tests/c/logins.c reads."""
    return "".join(f"{terms} {code_of[name]} {kerberos_of.get(name, 0)} {data.hex()}\n"
                   for terms, name, data in login_cases())


def lines(code_of, kerberos_of):
    """What tests/c/faults.c reads, with the numbers of the answers' names."""
    cases = [("request", *it) for it in refused()] + [("cache", *it) for it in prevented()]
    return "".join(f"{what} {code_of[name]} {kerberos_of.get(name, 0)} {data.hex()}\n" for what, name, data in cases)
