"""The web service of examples/negotiate beside real clients, with a KDC of MIT krb5: curl, MIT's GSS-API by
python3-gssapi, Heimdal's GSS-API, Java's GSS-API and HttpURLConnection, gokrb5, and our own client.

Our client, and the tokens of krbtool, log in at a service over MIT's GSS-API, too.

Each is let in with its own name, and verifies the answer token if it can. A ticket for another service, an expired
ticket, a wrong clock, a repeat, a bent token, another mechanism, a service's start and what isn't a token are refused,
by name in the service's log. Java gets each ticket from the KDC, which refuses a client with a wrong clock, and gokrb5
asks the kernel for the time. So these two have a right clock, and the service's is wrong; and they have no expired
ticket. gokrb5 looks at no answer token; nor does curl.
"""
import base64
import functools
import http.client
import os
import re
import subprocess
import time

import pytest

from support import TESTS, TOP, gss_rules, kdc
from support.web_realm import (
    ALICE, LATER, PYTHON, REALM, SECONDS, SERVICE, WRONG, Service, clock, realm_in, with_clock)

pytestmark = [pytest.mark.packages, pytest.mark.slow, pytest.mark.xdist_group("web")]
WEB = TESTS / "peers/web"
REPEAT = "REPEAT: a request of this service, client and time was seen before"
EXPIRED, SKEW = "EXPIRED: the ticket has expired", "SKEW: the clocks differ by more than the skew"
NOT_US = re.compile(
    r"NOT_US: the ticket is for a service that isn't served here "
    r"\(ticket for HTTP/other\.test@[A-Z.]+, etype \d+, kvno \d+\); this service is HTTP/localhost@WEB\.TEST")
BENT = "AUTHENTICATOR_INTEGRITY: the session key doesn't open the authenticator"


def is_it(found, wanted):
    """What is wrong, or None, with what was found: it is to be `wanted`, or a text of that pattern."""
    fits = wanted.fullmatch(found) if isinstance(wanted, re.Pattern) else found == wanted
    return None if fits else f"{found!r}, not {wanted!r}"


class Client:
    """A program that prints a token, and reads the answer: the kinds of token that it has; how it names a host's
    service; whether it asks for an answer and verifies it; and whether it can have a wrong clock, and an expired
    ticket."""

    def __init__(self, name, words, kinds, host="HTTP@", verifies=True, has_clock=True):
        self.name, self.words, self.kinds, self.host = name, words, kinds, host
        self.verifies, self.has_clock = verifies, has_clock

    def begun(self, env, host, kind, *more):
        """The process, and the header Authorization with its token."""
        words = [str(it) for it in (*self.words, self.host + host, kind, *more)]
        process = subprocess.Popen(words, stdin=subprocess.PIPE, stdout=subprocess.PIPE, stderr=subprocess.PIPE,
                                   text=True, env=env)
        line = process.stdout.readline().strip()
        if not line:
            raise kdc.Trouble(f"{self.name} makes no token: {process.communicate(timeout=SECONDS)[1][-600:]}")
        return process, header_of(bytes.fromhex(line))

    def ended(self, process, words=()):
        """What the program says after the service's answer."""
        answer = base64.b64decode(words[-1]).hex() if len(words) == 2 else ""
        return process.communicate(f"{answer}\n", timeout=SECONDS)[0].strip()

    def header(self, env, host, kind):
        process, header = self.begun(env, host, kind)
        self.ended(process)
        return header


def header_of(token):
    return f"Negotiate {base64.b64encode(token).decode()}"


def bent(header):
    """The header with another last byte of its token, which is of the authenticator's tag."""
    token = base64.b64decode(header.split()[1])
    return header_of(token[:-1] + bytes([token[-1] ^ 1]))


def refused(service, what, header, why, asks=True):
    """A header is refused, with an error in a token if its client asks for a reply, and the log says why. After a
    repeat another token is asked for."""
    status, words, _ = service.asked(header)
    yield f"{what} is refused", is_it((status, len(words)), (401, 2 if asks and why != REPEAT else 1))
    yield f"{what} is refused by name", is_it(service.last(), why)


class World:
    """The realm, the service and one whose clock is ahead, and where the clients find them."""

    def __init__(self, folder, realm, service, later):
        self.folder, self.realm, self.service, self.later = folder, realm, service, later

    def env(self, cache="alice", ahead=0):
        name = str(self.realm.folder / f"{cache}.ccache")
        return self.realm.environment("default", KRB5CCNAME=name, **clock(self.folder, ahead))

    def lets_in(self, client, kind, *more):
        process, header = client.begun(self.env(), "localhost", kind, *more)
        status, words, text = self.service.asked(header)
        what = " ".join([client.name, kind, *more])
        yield f"{what} is let in", is_it((status, text), (200, f"hello {ALICE}\n"))
        said = client.ended(process, words)
        if client.verifies:
            yield f"{what} verifies the answer", is_it(said, "complete")
        yield from refused(self.service, f"{what}, sent again,", header, REPEAT, client.verifies)

    def refuses(self, client):
        kind, name, asks = client.kinds[-1], client.name, client.verifies
        header = bent(client.header(self.env(), "localhost", kind))
        yield from refused(self.service, f"{name}, bent,", header, BENT, asks)
        header = client.header(self.env(), "other.test", kind)
        yield from refused(self.service, f"{name} for another service", header, NOT_US, asks)
        header = client.header(self.env(), "localhost", kind)
        yield from refused(self.later, f"{name} at a service with a wrong clock", header, SKEW, asks)
        if client.has_clock:
            yield from refused(self.service, f"{name} with a wrong clock",
                               client.header(self.env(ahead=WRONG), "localhost", kind), SKEW)
            expired = client.header(self.env("later", LATER), "localhost", kind)
            yield from refused(self.later, f"{name} with an expired ticket", expired, EXPIRED)


def java_words(folder, realm):
    return ["java", "-XX:TieredStopAtLevel=1", f"-Djava.security.krb5.conf={realm.folder}/default.conf",
            "-Djavax.security.auth.useSubjectCredsOnly=false", "-cp", folder / "java", "Client"]


def in_java(folder, realm):
    kdc.ran(["javac", "-d", folder / "java", WEB / "Client.java"])
    return Client("Java's GSS-API", java_words(folder, realm), ["bare", "spnego"], has_clock=False)


def over_heimdal(folder, _):
    flags = kdc.ran(["krb5-config.heimdal", "--cflags", "--libs", "gssapi"]).split()
    kdc.ran(["gcc", "-std=c99", "-Wall", "-Wextra", "-Werror", "-pedantic", WEB / "client.c", *flags, "-o",
             folder / "heimdal"])
    return Client("Heimdal's GSS-API", [folder / "heimdal"], ["bare", "spnego"])


def in_go(folder, _):
    env = {**os.environ, "GO111MODULE": "off", "GOPATH": "/usr/share/gocode", "GOCACHE": str(folder / "gocache"),
           "GOFLAGS": ""}
    kdc.ran(["go", "build", "-o", folder / "gokrb5", WEB / "client.go"], env=env)
    return Client("gokrb5", [folder / "gokrb5"], ["spnego"], host="HTTP/", verifies=False, has_clock=False)


def over_mit(*_):
    return Client("MIT's GSS-API", [PYTHON, "-B", WEB / "client.py"], ["bare", "spnego"])


CLIENTS = {"MIT": over_mit, "Heimdal": over_heimdal, "Java": in_java, "gokrb5": in_go}


def curl(world, port, *words, host="localhost", **more):
    """What curl says of a page at a port of this machine: its lines, and on standard error those that it sent."""
    command = ["curl", "-sS", "-i", "-v", "--negotiate", "-u", ":", *words, "--connect-to",
               f"{host}:80:127.0.0.1:{port}", f"http://{host}/"]
    return kdc.done(command, seconds=SECONDS, env=world.env(**more))


def with_curl(world):
    for time_of_day in ("first", "second"):
        ran = curl(world, world.service.port)
        heads, _, body = ran.stdout.replace("\r", "").rpartition("\n\n")
        yield f"curl logs in, {time_of_day} time", is_it(body, f"hello {ALICE}\n")
        for held in ("HTTP/1.1 200 ", "\nWWW-Authenticate: Negotiate o"):
            yield f"its answer has {held.strip()}", None if held in heads else heads
    sent = re.findall(r"^> Authorization: (Negotiate \S+)", ran.stderr, re.M)[-1]
    yield from refused(world.service, "what curl sent, sent again,", sent, REPEAT)
    yield from refused(world.service, "what curl sent, bent,", bent(sent), BENT)
    for what, service, why, page, words in (
        ("for another service", world.service, NOT_US, "is for a service of another name", {"host": "other.test"}),
        ("with a wrong clock", world.service, SKEW, "differ too much", {"ahead": WRONG}),
        ("with an expired ticket", world.later, EXPIRED, "has expired", {"cache": "later", "ahead": LATER}),
    ):
        said = curl(world, service.port, **words).stdout
        yield f"curl {what} is refused", None if page in said.splitlines()[-1] else said
        yield f"curl {what} is refused by name", is_it(service.last(), why)


OWN = """
import base64, sys
from fevstunik import Client, CredentialCache
client = Client(CredentialCache.read(sys.argv[1]), sys.argv[2], negotiated=sys.argv[3] == "spnego")
print(base64.b64encode(client.first()).decode(), flush=True)
print(client.finish(base64.b64decode(sys.stdin.readline())).client)
"""


def with_ours(realm, service, library, kind):
    """Our client, whose token is sent twice."""
    where = {**os.environ, "FEVSTUNIK_LIBRARY": str(library), "PYTHONPATH": str(TOP / "python")}
    client = subprocess.Popen([PYTHON, "-B", "-c", OWN, str(realm.folder / "alice.ccache"), f"{SERVICE}@{REALM}", kind],
                              stdin=subprocess.PIPE, stdout=subprocess.PIPE, text=True, env=where)
    header = f"Negotiate {client.stdout.readline().strip()}"
    status, words, text = service.asked(header)
    yield f"our client, {kind}, is let in", is_it((status, text), (200, f"hello {ALICE}\n"))
    yield f"our client, {kind}, reads the answer", is_it(client.communicate(words[-1] + "\n", timeout=SECONDS)[0],
                                                         f"{ALICE}\n")
    yield from refused(service, f"a repeat, {kind},", header, REPEAT)


IN_CONTEXT = """
import sys
from fevstunik import Client, ContextFlags, CredentialCache
cache, service, kind, flags, *bindings = sys.argv[1:]
bound = bindings[0].encode() if bindings else None
client = Client(CredentialCache.read(cache), service, negotiated=kind == "spnego", context=ContextFlags(int(flags)),
                bindings=bound)
print(client.first().hex(), flush=True)
print(client.finish(bytes.fromhex(sys.stdin.readline())).client)
"""
# Replay, sequence, confidentiality and integrity; and with a reply that is asked for, and a delegation, which is left
# out.
ASKED, DELEGATED = 0x3C, 0x3D
BINDINGS = "tls-server-end-point:abc"


def answered_by_mit(realm, token, *bindings):
    """What a service over MIT's GSS-API says of a token in hex."""
    env = realm.environment("default", KRB5_KTNAME=str(realm.folder / "www.keytab"), KRB5RCACHENAME="none:")
    return kdc.ran([PYTHON, "-B", WEB / "service.py", *bindings], seconds=SECONDS, env=env, input=f"{token}\n").split()


def at_mits_service(realm, library, kind, flags, *bindings):
    """Our client logs in at a service over MIT's GSS-API, and reads its answer."""
    where = {**os.environ, "FEVSTUNIK_LIBRARY": str(library), "PYTHONPATH": str(TOP / "python")}
    words = [PYTHON, "-B", "-c", IN_CONTEXT, str(realm.folder / "alice.ccache"), f"{SERVICE}@{REALM}", kind, str(flags),
             *bindings]
    client = subprocess.Popen(words, stdin=subprocess.PIPE, stdout=subprocess.PIPE, text=True, env=where)
    what = f"our client, {' '.join([kind, hex(flags), *bindings])}, at a service of MIT's GSS-API"
    token = client.stdout.readline().strip()
    said = answered_by_mit(realm, token, *bindings)
    yield f"{what} is let in", is_it((said[0], said[2:3]), (ALICE, ["complete"]))
    yield f"{what} has its flags", is_it(int(said[1]) & 0x3F, ASKED | 2)
    yield f"{what} reads the answer", is_it(client.communicate(said[3] + "\n", timeout=SECONDS)[0], f"{ALICE}\n")
    if bindings:
        said = answered_by_mit(realm, token, "tls-server-end-point:abd")
        yield f"{what}, on another channel, is refused", is_it(said[0], "refused")


# MIT's client, which asks for no reply: it prints its token, and whether it is complete after the answer.
WITHOUT_REPLY = """
import sys
import gssapi
gssapi.SecurityContext.__DEFER_STEP_ERRORS__ = False
context = gssapi.SecurityContext(name=gssapi.Name(sys.argv[1], gssapi.NameType.hostbased_service),
                                 mech=gssapi.OID.from_int_seq("1.3.6.1.5.5.2"), usage="initiate",
                                 flags=gssapi.RequirementFlag.integrity)
print(context.step().hex(), flush=True)
try:
    context.step(bytes.fromhex(sys.stdin.readline()))
except gssapi.exceptions.GSSError:
    print("refused", end=" ")
print("complete" if context.complete else "incomplete")
"""
# Our service: it prints the client, whether it wants a reply, and its answer; and that to the same token again.
OURS_WITHOUT_REPLY = """
import sys
from fevstunik import Keytab, Service
with Service(Keytab.read(sys.argv[1]), sys.argv[2], first_life=True) as service:
    login, again = (service.answer(bytes.fromhex(sys.argv[3])) for _ in range(2))
print(login.client, login.wants_reply, login.reply.hex(), again.reply.hex())
"""


def without_reply(realm, library):
    """MIT's client completes by accept-completed, and is refused by reject."""
    ours = {**os.environ, "FEVSTUNIK_LIBRARY": str(library), "PYTHONPATH": str(TOP / "python")}
    theirs = realm.environment("default", KRB5CCNAME=f"FILE:{realm.folder / 'alice.ccache'}")
    for which, said in ((2, "complete"), (3, "refused incomplete")):
        client = subprocess.Popen([PYTHON, "-B", "-c", WITHOUT_REPLY, SERVICE.replace("/", "@")], env=theirs, text=True,
                                  stdin=subprocess.PIPE, stdout=subprocess.PIPE)
        words = [realm.folder / "www.keytab", f"{SERVICE}@{REALM}", client.stdout.readline().strip()]
        ran = subprocess.run([PYTHON, "-B", "-c", OURS_WITHOUT_REPLY, *words], env=ours, capture_output=True, text=True)
        answer = (ran.stdout or ran.stderr).split()
        yield "MIT's client is let in", is_it(answer[:2], [ALICE, "False"])
        found = client.communicate(answer[which] + "\n", timeout=SECONDS)[0].strip()
        yield f"MIT's client is {said}", is_it(found, said)


# A service of MIT's GSS-API: for each token its answer, and the client once it is known.
NEGOTIATING = """
import sys
import gssapi
context = gssapi.SecurityContext(usage="accept", creds=gssapi.Credentials(usage="accept"))
for line in sys.stdin:
    answer = context.step(bytes.fromhex(line))
    print(answer.hex(), context.initiator_name if context.complete else "-")
"""
# The same of ours.
OURS_NEGOTIATING = """
import sys
from fevstunik import Keytab, Service
connection = Service(Keytab.read(sys.argv[1]), sys.argv[2], first_life=True).login()
for line in sys.stdin:
    decision = connection.answer(bytes.fromhex(line))
    print(decision.reply.hex(), getattr(decision, "client", "-"))
"""


def rounds(request):
    """Negotiations of a client: each is its tokens."""
    inner, more = gss_rules.kerberos(gss_rules.KERBEROS, request), gss_rules.element(0xA4, b"\x30\x00")
    later = gss_rules.going_on(inner, b"\1", more=more)
    first = [gss_rules.KERBEROS]
    yield "in one round", [gss_rules.negotiation(first, inner)]
    yield "with an unknown field", [gss_rules.negotiation(first, inner, more=more)]
    yield "in two rounds", [gss_rules.negotiation(first, None), gss_rules.going_on(inner)]
    yield "by Microsoft's name", [gss_rules.negotiation([gss_rules.MICROSOFT, *first], None), gss_rules.going_on(inner)]
    yield "with a later unknown field", [gss_rules.negotiation(first, None), later]


def request_without_reply(realm):
    """A request of MIT's client, which asks for no reply."""
    theirs = realm.environment("default", KRB5CCNAME=f"FILE:{realm.folder / 'alice.ccache'}")
    token = bytes.fromhex(kdc.ran([PYTHON, "-B", "-c", WITHOUT_REPLY, SERVICE.replace("/", "@")], env=theirs,
                                  seconds=SECONDS, input="\n").split()[0])
    return gss_rules.opened(token)[1]


def as_mits_service(realm, library):
    """Ours answers each round as a service of MIT's GSS-API does."""
    theirs = realm.environment("default", KRB5_KTNAME=str(realm.folder / "www.keytab"), KRB5RCACHENAME="none:")
    ours = {**os.environ, "FEVSTUNIK_LIBRARY": str(library), "PYTHONPATH": str(TOP / "python")}
    keyed = [realm.folder / "www.keytab", f"{SERVICE}@{REALM}"]
    for name, tokens in rounds(request_without_reply(realm)):
        lines = "".join(f"{it.hex()}\n" for it in tokens)
        wanted = kdc.ran([PYTHON, "-B", "-c", NEGOTIATING], seconds=SECONDS, env=theirs, input=lines)
        found = kdc.ran([PYTHON, "-B", "-c", OURS_NEGOTIATING, *keyed], seconds=SECONDS, env=ours, input=lines)
        yield f"a negotiation {name}", is_it(found, wanted)
        yield f"{name}, the client is let in", is_it(wanted.split()[-1], ALICE)


def reply_in(token):
    """The reply in a token, after the identifier of such tokens. (It has a length of one byte, or of two or three with
    0x81 or 0x82.)"""
    reply = token[token.index(b"\2\0\x6f") + 2:]
    more = max(0, reply[1] - 0x80)
    return reply[:2 + more + (int.from_bytes(reply[2:2 + more], "big") if more else reply[1])]


def of_the_program(program, realm, kind):
    """A token of krbtool logs in at a service over MIT's GSS-API, and krbtool reads its answer."""
    cache, now = realm.folder / "alice.ccache", int(time.time())
    moment = ["--time", now, "--usec", "5"]
    token = kdc.ran([program, "request", cache, f"{SERVICE}@{REALM}", *moment, "--confounder", os.urandom(16).hex(),
                     "--mutual", "--token", kind])
    said = answered_by_mit(realm, token.strip())
    found = said[0], int(said[1]) & 0x3F, said[2]
    yield f"a token of krbtool, {kind}, is accepted by MIT's GSS-API", is_it(found, (ALICE, 2, "complete"))
    agreed = kdc.ran([program, "finish", cache, f"{SERVICE}@{REALM}", *moment, "--reply",
                      reply_in(bytes.fromhex(said[3])).hex()])
    yield f"krbtool reads the answer, {kind}", is_it(agreed.split()[:2], ["agreed", ALICE])


def refusals(service):
    for header in (None, "Basic YTpi"):
        yield f"{header} is no token", is_it(service.asked(header)[:2], (401, ["Negotiate"]))
    no_token, plain = "NOT_A_TOKEN: the first byte isn't that of a token", (401, ["Negotiate"])
    for header, wanted, why in (
        ("Negotiate", plain, no_token), (header_of(b"NTLMSSP\0\1"), plain, no_token),
        ("Negotiate *", (400, []), "BAD_HEADER: the token isn't in base64"),
        ("Negotiate  \xff", (400, []), "BAD_HEADER: the token isn't in base64"),
        (header_of(bytes.fromhex("600a06062b06010502050000")), plain,
         "IAKERB: the mechanism is IAKERB, not Kerberos, at 4"),
    ):
        yield f"{header} is refused", is_it(service.asked(header)[:2], wanted)
        yield f"the log says why of {header}", is_it(service.last(), why)


# ---------------------------------------------------------------- tests


@pytest.fixture(scope="module")
def folder(tmp_path_factory):
    return with_clock(tmp_path_factory.mktemp("web"))


@pytest.fixture(scope="module")
def realm(folder):
    made = realm_in(folder)
    yield made
    made.stop()


@pytest.fixture(scope="module")
def web(folder, realm, library):
    """The running service, and one whose clock is ahead."""
    later = Service(folder, realm, library, "--first", ahead=LATER)
    with Service(folder, realm, library, "--first") as service, later:
        yield World(folder, realm, service, later)


@pytest.fixture(scope="module")
def clients(folder, realm):
    """Gives the client of a name, which is compiled once."""
    return functools.cache(lambda name: CLIENTS[name](folder, realm))


def test_what_is_no_token(web, checks):
    checks.all(refusals(web.service))


def test_curl(web, checks):
    checks.all(with_curl(web))


@pytest.mark.parametrize("kind", ["bare", "spnego"])
def test_our_client(web, realm, library, checks, kind):
    checks.all(with_ours(realm, web.service, library, kind))


@pytest.mark.parametrize("kind", ["bare", "spnego"])
def test_our_client_at_mits_service(realm, library, checks, kind):
    checks.all(at_mits_service(realm, library, kind, ASKED))
    checks.all(at_mits_service(realm, library, kind, DELEGATED, BINDINGS))


def test_a_client_that_wants_no_reply(realm, library, checks):
    checks.all(without_reply(realm, library))


def test_negotiations_are_answered_as_mit_answers_them(realm, library, checks):
    checks.all(as_mits_service(realm, library))


@pytest.mark.parametrize("kind", ["gss", "spnego"])
def test_krbtool_at_mits_service(program, realm, checks, kind):
    checks.all(of_the_program(program, realm, kind))


@pytest.mark.parametrize("name, kind", [("MIT", "bare"), ("MIT", "spnego"), ("Heimdal", "bare"), ("Heimdal", "spnego"),
                                        ("Java", "bare"),
                                        ("Java", "spnego"), ("gokrb5", "spnego")])
def test_login(web, clients, checks, name, kind):
    checks.all(web.lets_in(clients(name), kind))


@pytest.mark.parametrize("kind", ["bare", "spnego"])
def test_login_with_bindings(web, clients, checks, kind):
    checks.all(web.lets_in(clients("MIT"), kind, "tls-server-end-point:x"))


@pytest.mark.parametrize("name", CLIENTS)
def test_refusals(web, clients, checks, name):
    checks.all(web.refuses(clients(name)))


@pytest.mark.parametrize("name", ["Java", "gokrb5"])
def test_page(web, clients, name):
    """Clients that get a page by themselves: HttpURLConnection and gokrb5's client of HTTP."""
    said = kdc.ran([*clients(name).words, web.service.url], seconds=SECONDS, env=web.env())
    assert said == f"200 hello {ALICE}\n"


def test_two_rounds_in_one_connection(web, realm):
    """Another connection knows nothing of the first round."""
    for left in reversed(range(5)):
        try:
            in_two_rounds(web, request_without_reply(realm))
            break
        except (OSError, http.client.HTTPException):
            # (the service ends a connection over which nothing has come for 30 seconds)
            if not left:
                raise


def in_two_rounds(web, request):
    first = header_of(gss_rules.negotiation([gss_rules.KERBEROS], None))
    later = header_of(gss_rules.going_on(gss_rules.kerberos(gss_rules.KERBEROS, request)))
    one, other = web.service.connected(), web.service.connected()
    asks = header_of(gss_rules.response(gss_rules.KERBEROS, None, 1)).split()
    assert web.service.asked(first, one)[:2] == (401, asks)
    assert web.service.asked(later, other)[0] == 401 and web.service.last().startswith("TOKEN_CONTINUES")
    assert web.service.asked(later, one)[::2] == (200, f"hello {ALICE}\n")


def test_page_at_a_service_with_a_wrong_clock(web, clients):
    kdc.done([*clients("Java").words, web.later.url], seconds=SECONDS, env=web.env())
    assert web.later.last() == SKEW


def test_a_service_that_has_just_started(folder, realm, library):
    began = time.time()
    with Service(folder, realm, library) as service:
        said = curl(World(folder, realm, service, None), service.port).stdout
        assert "HTTP/1.1 503 " in said and "\nRetry-After: 60" in said and "The site has just started" in said
        assert service.last() == "JUST_STARTED: the service has just started"
    # (after 300 seconds it would have been in use for long enough)
    assert time.time() - began < 290
