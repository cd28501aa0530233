"""Requests of ours and theirs that are accepted, and those that are refused, at services of ours and theirs.

A check is one request: what our service and those of both libraries answer to it, each in a new service.
"""
import pytest

from support import tickets
from support.checks import slug
from support.sides import LIBRARIES, SKEW, first_words, now
from support.tickets import LABELS, Ticket

pytestmark = [pytest.mark.packages, pytest.mark.slow, pytest.mark.xdist_group("realms")]
EACH_TICKET = pytest.mark.parametrize("ticket", LABELS, indirect=True, ids=slug)
OF_EACH_TYPE = pytest.mark.parametrize("ticket", tickets.OF_EACH_TYPE, indirect=True, ids=slug)

# The libraries' own numbers, which aren't codes of the protocol: Heimdal's where the keytab hasn't the key, and where a
# request was seen before; MIT's where a ticket is marked invalid.
HEIMDAL_NO_KEY, HEIMDAL_REPLAY, MIT_INVALID = "refused 182", "refused 163", "refused 145"

# What a client's library is asked for.
WORDS = [[], ["mutual"], ["subkey"], ["number"], ["checksum"], ["mutual", "etypes"],
         ["mutual", "subkey", "number", "checksum"]]


@EACH_TICKET
def test_their_requests(checks, peers, ticket):
    """What their clients ask is accepted by our service in one run, in the words of their own service."""
    asked = []
    for library in LIBRARIES:
        for words in WORDS:
            if library == "MIT" or "etypes" not in words:
                asked.append((library, words,
                              peers.asked(ticket.realm, library, ticket.cache, ticket.service, 0, words)))
    lines = [f"{now()} 0 {request}" for _, _, request in asked]
    ours = peers.accept(ticket.keytab, lines)
    theirs = peers.served(ticket.realm, "MIT", ticket.keytab, lines)
    for (library, words, _), our, their in zip(asked, ours, theirs, strict=True):
        mode = "mutual" if "mutual" in words else "plain"
        known = f"accepted {ticket.client} {ticket.etype} {mode} {ticket.pac}"
        accepted, client, etype, ctime, cusec, their_mode, pac, *_ = their.split()
        name = f"request: {library}'s, {ticket.label}, {' '.join(words) or 'plain'}"
        checks.equal(name, [f"{accepted} {client} {etype} {their_mode} {pac}", our],
                     [known, f"accepted {client} {etype} {ctime} {cusec} {mode}"])


@EACH_TICKET
def test_our_requests(checks, peers, ticket):
    """What our client asks is accepted by their services and by ours, with just what was asked."""
    second = now()
    for micros, mode, words in ((7, "plain", []), (999999, "mutual", ["--mutual"]), (0, "mutual", ["--mutual"])):
        line = f"{second} 0 {peers.request(ticket.cache, ticket.service, second, micros, *words)}"
        wanted = f"accepted {ticket.client} {ticket.etype} {second} {micros} {mode}"
        theirs = [first_words(peers.served(ticket.realm, it, ticket.keytab, [line], ticket.service)[0], 10)
                  for it in LIBRARIES]
        found = [*peers.accept(ticket.keytab, [line]), *theirs]
        checks.equal(f"request: ours, {ticket.label}, {mode} with {micros} µs", found,
                     [wanted] + [f"{wanted} {ticket.pac} none 0 unsigned"] * 2)


def requests_of_all(peers, ticket, second):
    """The same request by each client: whose it is, and its hex."""
    for library in LIBRARIES:
        yield library, peers.asked(ticket.realm, library, ticket.cache, ticket.service, second)
    yield "us", peers.request(ticket.cache, ticket.service, second, 5)


def answers(peers, ticket, request, moment, keytab=None):
    """The answers of our service, MIT's and Heimdal's to one request, each up to the client or the number where it
    isn't ours."""
    line, keytab = f"{moment} 0 {request}", keytab or ticket.keytab
    ours = peers.accept(keytab, [line])[0]
    theirs = [peers.served(ticket.realm, it, keytab, [line])[0] for it in LIBRARIES]
    return [first_words(ours, 3) if ours.startswith("accepted ") else ours, *(first_words(it, 3) for it in theirs)]


def taken(ticket):
    return [f"accepted {ticket.client} {ticket.etype}"] * 3


@OF_EACH_TYPE
def test_repeats(checks, peers, ticket):
    """The same request twice to one service."""
    accepted = f"accepted {ticket.client} {ticket.etype}"
    for who, request in requests_of_all(peers, ticket, now()):
        lines = [f"{now()} 0 {request}", f"{now()} 1 {request}"]
        ours = peers.accept(ticket.keytab, lines)
        theirs = [[first_words(it, 3) for it in peers.served(ticket.realm, library, ticket.keytab, lines)]
                  for library in LIBRARIES]
        found = [[first_words(ours[0], 3), ours[1]], *theirs]
        checks.equal(f"refusal: a repeat of {who}, {ticket.label}", found,
                     [[accepted, "refused 34 Repeat"], [accepted, "refused 34"], [accepted, HEIMDAL_REPLAY]])


@OF_EACH_TYPE
def test_skewed(checks, peers, ticket):
    """A service whose clock is off by more than the skew, while the ticket is alive. (The others' clocks go on: some
    seconds pass on a busy machine.)"""
    second = now() + 1000
    for who, request in requests_of_all(peers, ticket, second):
        for distance in (-SKEW - 30, SKEW + 30):
            found = answers(peers, ticket, request, second + distance)
            checks.equal(f"refusal: a clock {distance} s off, of {who}, {ticket.label}", found,
                         ["refused 37 Skew", "refused 37", "refused 37"])


@OF_EACH_TYPE
def test_ended(checks, peers, ticket):
    """A ticket that ended before the service's time less the skew; up to then it is taken. We make no request with it
    after its end."""
    end = ticket.credential()["endtime"]
    for who, request in requests_of_all(peers, ticket, end - 1):
        found = answers(peers, ticket, request, end + SKEW - 30)
        checks.equal(f"request: an ended ticket within the skew, of {who}, {ticket.label}", found, taken(ticket))
    for library in LIBRARIES:
        request = peers.asked(ticket.realm, library, ticket.cache, ticket.service, end + 20)
        found = answers(peers, ticket, request, end + SKEW + 3)
        checks.equal(f"refusal: an ended ticket of {library}, {ticket.label}", found,
                     ["refused 32 Expired", "refused 32", "refused 32"])
    checks.equal(f"fault: an ended ticket of us, {ticket.label}", not_made(peers, ticket.cache, ticket.service, end),
                 "Expired")


def not_made(peers, cache, service, second):
    """The name of the fault for which we make no request, where nothing else is said."""
    out, said, status = peers.tried("request", cache, service, "--time", second, "--usec", 0, "--confounder", "00" * 16)
    named = said.startswith("krbtool: request: ") and said.endswith("\n") and status == 1 and not out
    return said[len("krbtool: request: ") : -1] if named else (out, said, status)


@OF_EACH_TYPE
def test_other_services(checks, peers, ticket):
    """A ticket for a service that the keytab hasn't; and tickets that the cache hasn't."""
    other = ticket.realm.folder / "other.keytab"
    for who, request in requests_of_all(peers, ticket, now()):
        found = answers(peers, ticket, request, now(), other)
        checks.equal(f"refusal: the wrong service, of {who}, {ticket.label}", found,
                     ["refused 35 NotUs", "refused 35", HEIMDAL_NO_KEY])
    for service in (f"host/nobody.example@{ticket.realm.name}", "host/web.example@ELSE.TEST"):
        checks.equal(f"fault: no ticket for {service}", not_made(peers, ticket.cache, service, now()), "NoCredential")


def test_turned_keys(checks, world, peers):
    for ticket, good, bad in world.turned:
        for who, request in requests_of_all(peers, ticket, now()):
            for keytab in good:
                checks.equal(f"request: by {ticket.label} of {who} to {keytab.stem}",
                             answers(peers, ticket, request, now(), keytab), taken(ticket))
            for keytab in bad:
                found = answers(peers, ticket, request, now(), keytab)
                checks.equal(f"refusal: by {ticket.label} of {who} to {keytab.stem}", found,
                             ["refused 44 BadKeyVersion", "refused 44", HEIMDAL_NO_KEY])


def test_old_types(checks, world, peers):
    """Tickets and session keys of type 18 are refused in the words of docs/ACCEPTANCE.md, and we make no requests with
    them."""
    realm, cache = world.mit, world.old_types
    for service, answer in (("host/plain.example", "refused 14 SessionKey"),
                            ("host/old.example", "refused 14 TicketEtype")):
        ticket = Ticket("type 18", realm, cache, service, 18, True)
        for library in LIBRARIES:
            found = answers(peers, ticket, peers.asked(realm, library, cache, ticket.service), now())
            checks.equal(f"refusal: type 18 of {library} for {service}", found, [answer, *taken(ticket)[1:]])
        checks.equal(f"fault: type 18 for {service}", not_made(peers, cache, ticket.service, now()), "NoUsableKey")


def test_postdated(checks, world, peers):
    """A ticket that begins in an hour and wasn't validated: refused before it begins, when their clients won't send it,
    and afterwards."""
    cache = world.postdated
    ticket = Ticket("postdated", world.mit, cache, "host/web.example", 20, True)
    begins = ticket.credential()["starttime"]
    early = begins - SKEW - 30
    found = answers(peers, ticket, peers.request(cache, ticket.service, early), early)
    checks.equal("refusal: a postdated ticket of us", found, ["refused 33 NotYetValid", "refused 33", "refused 33"])
    for who, request in requests_of_all(peers, ticket, begins):
        found = answers(peers, ticket, request, begins)
        checks.equal(f"refusal: an invalid ticket of {who}", found,
                     ["refused 33 NotYetValid", MIT_INVALID, "refused 33"])


def test_wrong_keys(checks, world, peers):
    """A keytab whose keys of the right name and version number aren't the KDC's."""
    ticket = world.tickets["permitted_enctypes of one client, 20"]
    for who, request in requests_of_all(peers, ticket, now()):
        found = answers(peers, ticket, request, now(), world.wrong_keytab)
        checks.equal(f"refusal: a wrong key, of {who}", found,
                     ["refused 31 TicketIntegrity", "refused 31", "refused 31"])


def test_other_messages(checks, world, peers):
    """What a client may send in place of a request: user-to-user, a GSS-API token around it, a part of it, and more."""
    realm, ticket = world.mit, world.tickets["permitted_enctypes of one client, 20"]
    asked = bytes.fromhex(peers.asked(realm, "MIT", ticket.cache, ticket.service))
    token = bytes.fromhex("06092a864886f712010202" "0100") + asked
    wrapped = b"\x60\x82" + len(token).to_bytes(2, "big") + token
    session = peers.asked(realm, "MIT", ticket.cache, ticket.service, 0, ["session"])
    for name, message, answer in (
        ("user-to-user", session, "refused 45 UserToUser"),
        ("inside a GSS-API token", wrapped.hex(), "refused 40 MessageType"),
        ("without its last byte", asked[:-1].hex(), "refused 60 Malformed"),
        ("with a byte after it", asked.hex() + "00", "refused 60 Malformed"),
        ("with its last byte changed", asked[:-1].hex() + f"{asked[-1] ^ 1:02x}", "refused 31 AuthenticatorIntegrity"),
    ):
        checks.equal(f"refusal: a request {name}", peers.accept(ticket.keytab, [f"{now()} 0 {message}"]), [answer])


def test_labels(world):
    """Each ticket has tests."""
    assert tuple(world.tickets) == LABELS
