"""krbtool explain: what is seen of requests that a service refuses, in each wrapping, without a key and with a keytab;
and drawn texts."""
import base64
import calendar
import dataclasses
import functools
import os
import random
import re
import subprocess
import time

import pytest

from support import TOP, der, exchange_made, fixture, gss_rules
from support.checks import slug

SERVICE = "service: host/web@EX"
SEALED = "sealed under a key of type 19 (aes128-cts-hmac-sha256-128)"
LONG = "sealed under a key of type 20 (aes256-cts-hmac-sha384-192)"
# A request that a service refuses for this cause, which differs in one thing from the fixture's; and a line that is
# seen of it without a key: what differs, if that can be seen.
REFUSED = [
    ("Malformed", "cut 300 request", "fault at byte "),
    ("UserToUser", "request options=0x40000000", "options: 40000000 use-session-key"),
    ("TicketEtype", "request told_etype=18", "note: the service needs keys of types 19 and 20 alone"),
    ("NotUs", "request service=host/mail@EX", "service: host/mail@EX"),
    ("NoKey", "request service_etype=20", f"ticket: {LONG}, version number 3, 159 bytes"),
    ("BadKeyVersion", "request kvno=4", f"ticket: {SEALED}, version number 4, 151 bytes"),
    ("TicketIntegrity", "request service_key=session", f"ticket: {SEALED}, version number 3, 151 bytes"),
    ("SessionKey", "request session_len=32", SERVICE),
    ("AuthenticatorIntegrity", "request sealed_etype=20", f"authenticator: {LONG}, no version number, 91 bytes"),
    ("BadMatch", "request client=bob@EX", f"authenticator: {SEALED}, no version number, 89 bytes"),
    ("Skew", "request", f"authenticator: {SEALED}, no version number, 91 bytes"),
    ("NotYetValid", "request starttime=1700000402", SERVICE),
    ("Expired", "request seconds=1700036301 micros=0 options=0x20000000", "options: 20000000 mutual-required"),
    ("Transited", "request client=alice@OTHER ticket_client=alice@OTHER", SERVICE),
    ("Authorization", "request ticket_data=4", SERVICE),
]
KERBEROS, MICROSOFT = "Kerberos (1.2.840.113554.1.2.2)", "Kerberos (1.2.840.48018.1.2.2)"
TOKEN = f"client's token (GSS-API): mechanism {KERBEROS}"
# What a request stands in, and the lines that say so.
WRAPPINGS = {
    "bare": (lambda it: it, []),
    "framed": (exchange_made.token, [TOKEN]),
    "by-microsofts-name": (
        lambda it: gss_rules.kerberos(gss_rules.MICROSOFT, it),
        [f"client's token (GSS-API): mechanism {MICROSOFT}"],
    ),
    "negotiated": (
        lambda it: gss_rules.negotiation([gss_rules.KERBEROS], exchange_made.token(it)),
        [f"client's negotiation (SPNEGO): mechanism {KERBEROS}", TOKEN],
    ),
}
# The spellings of a text, around its digits.
SPELLINGS = [
    ("", bytes.hex, ""),
    ("", lambda it: it.hex().upper(), "\n"),
    ("", lambda it: base64.b64encode(it).decode(), "\n"),
    ("Authorization: Negotiate ", lambda it: base64.b64encode(it).decode(), "\r\n"),
]
KEYS = [fixture.SERVICE_KEY, fixture.SESSION_KEY]
ACCEPTED = "accepted, unless it was seen before, the service has just started, or its terms refuse the client"
# How many lines a page has at most.
PAGE = 40
# How many texts are drawn, and in how many tests: `./test --long` draws 100,000, and `./test` a share of them.
TEXTS, PARTS = int(os.environ.get("EXPLAIN_TEXTS", "2000")), 4
# When the requests arrive, if it isn't a second after they were sent.
ARRIVALS = {"Skew": 1_700_000_900, "Expired": 1_700_036_301}
# What is seen of them with the service's key: how far they open, and a line that says so.
SEEN = {
    "Malformed": [],
    "UserToUser": ["keytab's entry: version number 3, type 19 (aes128-cts-hmac-sha256-128)",
                   "ticket's client: alice@EX"],
    "TicketEtype": ["keytab's entry: none, since none of this name has a usable key of type 18"
                    " (aes256-cts-hmac-sha1-96)"],
    "NotUs": ["keytab's entry: none, since the service doesn't have the name host/mail@EX"],
    "NoKey": ["keytab's entry: none, since none of this name has a usable key of type 20 (aes256-cts-hmac-sha384-192)",
              "keytab has: version number 3, type 19 (aes128-cts-hmac-sha256-128)"],
    "BadKeyVersion": ["keytab's entry: none, since no such key has version number 4",
                      "keytab has: version number 3, type 19 (aes128-cts-hmac-sha256-128)"],
    "TicketIntegrity": ["keytab's entry: version number 3, type 19 (aes128-cts-hmac-sha256-128)",
                        "ticket: the entry's key doesn't open it"],
    "SessionKey": ["ticket's session key: type 19 (aes128-cts-hmac-sha256-128)",
                   "authenticator: not opened, since the session key has 32 bytes, and one of type 19"
                   " (aes128-cts-hmac-sha256-128) has another size"],
    "AuthenticatorIntegrity": ["authenticator: the session key doesn't open it"],
    "BadMatch": ["ticket's client: alice@EX", "authenticator's client: bob@EX"],
    "Skew": ["authenticator's time: 2023-11-14T22:15:00Z and 5 microseconds"
             " (13 min 19.999995 s before the service's clock)",
             "service's clock: 2023-11-14T22:28:20Z"],
    "NotYetValid": ["ticket's authtime: 2023-11-14T22:13:20Z", "ticket's starttime: 2023-11-14T22:20:02Z"],
    "Expired": ["ticket's endtime: 2023-11-15T08:13:20Z", "service's clock: 2023-11-15T08:18:21Z"],
    "Transited": ["ticket's client: alice@OTHER", "ticket's transited realms: type 1, ''"],
    "Authorization": ["ticket's authorization data: types 4", "authenticator's authorization data: none"],
}
# Requests that are refused for one cause and would be refused for others next: what differs, arrival and causes.
SEVERAL = [
    ("request options=0x40000000 told_etype=18", 1_700_000_101, ["UserToUser", "TicketEtype"]),
    ("request", 1_700_040_000, ["Skew", "Expired"]),
    ("request client=bob@EX starttime=1700000402 ticket_data=4", 1_700_000_101,
     ["BadMatch", "NotYetValid", "Authorization"]),
    ("request sealed_etype=20 flags=0x1000000 ticket_client=alice@OTHER", 1_700_036_301,
     ["AuthenticatorIntegrity", "NotYetValid", "Expired", "Transited"]),
    ("request client=alice@OTHER ticket_client=alice@OTHER data=2", 1_700_000_101, ["Transited", "Authorization"]),
    ("request client=bob@EX", 1_699_000_000, ["BadMatch", "Skew", "NotYetValid"]),
    ("request told_etype=18 service=host/mail@EX", 1_700_000_101, ["TicketEtype", "NotUs"]),
    ("request options=0x40000000 told_etype=18 service=host/mail@EX", 1_700_000_101,
     ["UserToUser", "TicketEtype", "NotUs"]),
    ("request options=0x40000000 service=host/mail@EX", 1_700_000_101, ["UserToUser", "NotUs"]),
    ("request options=0x40000000 service_etype=20", 1_700_000_101, ["UserToUser", "NoKey"]),
    ("request options=0x40000000 kvno=4", 1_700_000_101, ["UserToUser", "BadKeyVersion"]),
    ("request options=0x40000000 service_key=session", 1_700_000_900, ["UserToUser", "TicketIntegrity"]),
    ("request options=0x40000000 session_len=32", 1_700_000_101, ["UserToUser", "SessionKey"]),
    ("request options=0x40000000 sealed_etype=20", 1_700_000_101, ["UserToUser", "AuthenticatorIntegrity"]),
    ("request options=0x40000000 client=bob@EX", 1_700_000_900, ["UserToUser", "BadMatch", "Skew"]),
    ("request session_len=32 sealed_etype=20", 1_700_000_101, ["SessionKey", "AuthenticatorIntegrity"]),
    ("request session_len=32 ticket_data=4", 1_700_000_101, ["SessionKey", "Authorization"]),
    ("request sealed_etype=20 ticket_data=4", 1_700_000_101, ["AuthenticatorIntegrity", "Authorization"]),
    ("request sealed_etype=20 ticket_data=1", 1_700_000_101, ["AuthenticatorIntegrity"]),
    ("request sealed_etype=20 data=4", 1_700_000_101, ["AuthenticatorIntegrity"]),
    ("request client=bob@EX ticket_client=alice@OTHER starttime=1700036500 ticket_data=4", 1_700_036_301,
     ["BadMatch", "Skew", "Expired", "Transited", "Authorization"]),
]
# Realms that a ticket passed through, and what is said of them: of type 1 (DOMAIN-X500-COMPRESS) the names, of others
# the size alone.
REALMS = b"EDU,MIT."
TRANSITED = [
    (1, REALMS, "type 1, 'EDU,MIT.'"),
    (1, b"a'\0", "type 1, 'a'\\x00'"),
    (0, REALMS, "type 0, 8 bytes"),
    (2, REALMS, "type 2, 8 bytes"),
    (-1, b"\xff", "type -1, 1 bytes"),
    (257, b"", "type 257, 0 bytes"),
    (2**31 - 1, fixture.SERVICE_KEY, "type 2147483647, 16 bytes"),
]
# When a request of 2023-11-14T22:15:00Z and so many microseconds arrives, and how far its time is from the clock.
AGES = [
    (0, 1_700_000_100, "the same as the service's clock"),
    (5, 1_700_000_100, "0.000005 s after the service's clock"),
    (999_999, 1_700_000_101, "0.000001 s before the service's clock"),
    (0, 1_700_000_159, "59.000000 s before the service's clock"),
    (0, 1_700_000_160, "1 min 0.000000 s before the service's clock"),
    (20, 1_700_000_035, "1 min 5.000020 s after the service's clock"),
    (0, 1_700_003_699, "59 min 59.000000 s before the service's clock"),
    (0, 1_700_003_700, "1 h 0 min 0.000000 s before the service's clock"),
    (500_000, 1_700_090_162, "25 h 1 min 1.500000 s before the service's clock"),
]
# Types of session keys, with their names in the registry of IANA.
OTHER_TYPES = {17: "aes128-cts-hmac-sha1-96", 18: "aes256-cts-hmac-sha1-96", 23: "rc4-hmac"}
ACCEPTANCE = TOP / "docs/ACCEPTANCE.md"
CODES = TOP / "crates/krb_msg/src/error_code.rt"


def spelled(data, spelling):
    before, spell, after = spelling
    return f"{before}{spell(data)}{after}"


def explained(program, text, *words):
    """What is printed of a text on standard input, and the exit status."""
    given = text if isinstance(text, bytes) else text.encode()
    return subprocess.run([program, "explain", *words], input=given, capture_output=True, timeout=300)


@pytest.mark.parametrize("wrapping", WRAPPINGS)
@pytest.mark.parametrize("row", [pytest.param(it, id=slug(it[0])) for it in REFUSED])
def test_refused(program, row, wrapping):
    message = exchange_made.made_of(row[1].split(" "))
    wrap, layers = WRAPPINGS[wrapping]
    data = wrap(message)
    pages = {explained(program, spelled(data, it)).stdout.decode() for it in SPELLINGS}
    assert len(pages) == 1
    page = pages.pop()
    lines = page.splitlines()
    head = [f"size: {len(data)} bytes", *layers, f"message: AP-REQ, {len(message)} bytes"]
    assert lines[: len(head)] == head
    assert any(it.startswith(row[2]) for it in lines[len(head) :])
    assert "alice" not in page and not [it for it in KEYS if it.hex() in page]


def cause_rows():
    """The codes of causes, and what to look at, as the document's table has them."""
    rows = re.findall(r"^\| `(\w+)` \| (\d+) \|.*\| (.*) \|$", ACCEPTANCE.read_text(), re.M)
    return {name: (int(code), re.sub(r"\[([^]]*)\]\([^)]*\)", r"\1", look)) for name, code, look in rows}


def code_names():
    """The names of the error codes that services send."""
    return {int(code): name for name, code in re.findall(r"pub const (\w+): i32 = (\d+);", CODES.read_text())}


def verdict_lines(causes):
    """The lines of a first cause, and of those that would follow."""
    rows, names = cause_rows(), code_names()
    lines = []
    for at, it in enumerate(causes):
        code, look = rows[it]
        lines += [f"refused{' next' if at else ''}: {it}, code {code} ({names[code]})", f"look at: {look}"]
    return lines


@pytest.fixture(scope="module")
def keytab(tmp_path_factory):
    file = tmp_path_factory.mktemp("keys") / "keytab"
    file.write_bytes(fixture.keytab())
    return str(file)


def page_by(program, keytab, text, second, *words):
    """The lines of the page with the keytab's keys, of a request that arrives then."""
    ran = explained(program, text, "--keytab", keytab, "--at", str(second), *words)
    assert (ran.returncode, ran.stderr) == (0, b"")
    return ran.stdout.decode("ascii").splitlines()


@functools.cache
def secrets_of(made):
    """What no page of this request may have: the keys, and what is sealed, eight bytes of it or more; in each
    spelling."""
    made = exchange_made.of_words(exchange_made.Made, made.partition("request")[2].split())
    plain = [*KEYS, exchange_made.ticket_part(made), exchange_made.authenticator(made)]
    parts = {it[at : at + 8] for it in plain for at in range(len(it) - 7)}
    return parts, {it.hex() for it in parts}, {base64.b64encode(it[:6]).decode() for it in parts}


def is_secret_kept(text, made="request"):
    raw, digits, spelled_parts = secrets_of(made)
    data, low = text.encode(), text.lower()
    found = [*[it for it in raw if it in data], *[it for it in digits if it in low],
             *[it for it in spelled_parts if it in text]]
    return not found


@pytest.mark.parametrize("wrapping", WRAPPINGS)
@pytest.mark.parametrize("row", [pytest.param(it, id=slug(it[0])) for it in REFUSED])
def test_refused_with_keys(program, keytab, row, wrapping):
    """With the keytab, the first cause is named, and what was opened says why."""
    cause, made, _ = row
    message = exchange_made.made_of(made.split(" "))
    data = WRAPPINGS[wrapping][0](message)
    lines = page_by(program, keytab, spelled(data, SPELLINGS[3]), ARRIVALS.get(cause, 1_700_000_101))
    alone = explained(program, spelled(data, SPELLINGS[3])).stdout.decode().splitlines()
    assert lines[: len(alone)] == alone
    assert [it for it in SEEN[cause] if it not in lines[len(alone) :]] == []
    assert lines[-2:] == verdict_lines([cause])
    assert is_secret_kept("\n".join(lines), made)


@pytest.mark.parametrize("row", [pytest.param(it, id=slug("-".join(it[2]))) for it in SEVERAL])
def test_several_causes(program, keytab, row):
    made, second, causes = row
    lines = page_by(program, keytab, exchange_made.made_of(made.split(" ")).hex(), second)
    assert lines[lines.index(next(it for it in lines if it.startswith("refused: "))) :] == verdict_lines(causes)


def test_other_messages(program, keytab):
    """A reply or an error without a token is no request; in a token it is a service's, and isn't judged. Nor is a token
    with a fault, as its fault says."""
    for message in (fixture.reply(), fixture.error(37), b"\x30\x00", b"NTLMSSP\0"):
        assert page_by(program, keytab, message.hex(), 1_700_000_101)[-2:] == verdict_lines(["MessageType"])
    data = exchange_made.made_of(["framed-error", "error", "37"])
    assert page_by(program, keytab, data.hex(), 1) == explained(program, data.hex()).stdout.decode().splitlines()
    token = exchange_made.token(fixture.request())
    for data in (bytes.fromhex("600a06062b0601050502a000"), b"\x60\0", b"\xa1\0", token[:-1], token + b"\0",
                 gss_rules.kerberos(gss_rules.NTLM, fixture.request())):
        lines = page_by(program, keytab, data.hex(), 1)
        assert lines == explained(program, data.hex()).stdout.decode().splitlines()
        assert len(lines) == 2 and lines[1].startswith("fault at byte ")


def test_whole_page(program, keytab):
    """The whole page of a request that is accepted, with all that a client may send."""
    made = exchange_made.made_of("request full=1".split(" "))
    short, long = "19 (aes128-cts-hmac-sha256-128)", "18 (aes256-cts-hmac-sha1-96)"
    lines = page_by(program, keytab, made.hex(), 1_700_000_101)
    assert is_secret_kept("\n".join(lines), "request full=1")
    assert lines[6:] == [
        f"keytab's entry: version number 3, type {short}",
        "ticket's client: alice@EX",
        "ticket's flags: 00080000 transited-policy-checked",
        f"ticket's session key: type {short}",
        "ticket's authtime: 2023-11-14T22:13:20Z",
        "ticket's starttime: 2023-11-14T22:13:21Z",
        "ticket's endtime: 2023-11-15T08:13:20Z",
        "ticket's renew-till: 2023-11-16T02:00:00Z",
        "ticket's transited realms: type -2, 3 bytes",
        "ticket's authorization data: types 1 1",
        "authenticator's client: alice@EX",
        "authenticator's time: 2023-11-14T22:15:00Z and 5 microseconds (0.999995 s before the service's clock)",
        "authenticator's checksum: type 32771",
        "channel bindings: none that can be read",
        f"authenticator's subkey: type {long}",
        "authenticator's authorization data: types 1 1",
        "service's clock: 2023-11-14T22:15:01Z",
        ACCEPTED,
    ]


@pytest.mark.parametrize("row", [pytest.param(it, id=slug(it[2])) for it in TRANSITED])
def test_transited(program, keytab, row):
    etype, data, said = row
    made = f"request transited={etype}/{exchange_made.word_of(data)}"
    lines = page_by(program, keytab, exchange_made.made_of(made.split(" ")).hex(), 1_700_000_101)
    assert f"ticket's transited realms: {said}" in lines
    assert etype == 1 or not data or (data.hex() not in "\n".join(lines) and "EDU" not in "\n".join(lines))


@pytest.mark.parametrize(("bindings", "said"), [(bytes(16), "none"), (bytes(15) + b"\x01", "some")])
def test_bindings(program, keytab, bindings, said):
    message = fixture.request(checksum=fixture.context(False, bindings=bindings))
    assert f"channel bindings: {said}" in page_by(program, keytab, message.hex(), 1_700_000_101)


@pytest.mark.parametrize("row", [pytest.param(it, id=f"{it[0]}-{it[1]}") for it in AGES])
def test_age(program, keytab, row):
    """How far the authenticator's time is from the service's clock is said to the microsecond."""
    micros, second, age = row
    lines = page_by(program, keytab, exchange_made.made_of(["request", f"micros={micros}"]).hex(), second)
    assert f"authenticator's time: 2023-11-14T22:15:00Z and {micros} microseconds ({age})" in lines


@pytest.mark.parametrize("etype", OTHER_TYPES)
def test_session_key_of_another_type(program, keytab, etype):
    """A ticket that opens, with a session key of a type that the service doesn't take."""
    made = dataclasses.replace(exchange_made.Made(), session_etype=etype)
    message = der.request(0, exchange_made.ticket(made), der.encrypted(etype, bytes(80)))
    name = f"{etype} ({OTHER_TYPES[etype]})"
    lines = page_by(program, keytab, message.hex(), 1_700_000_101)
    assert f"ticket's session key: type {name}" in lines
    assert lines[-5:] == [
        f"authenticator: not opened, since the session key is of type {name}",
        "note: the service needs session keys of type 19 or 20 (docs/OPERATING.md, Keys)",
        "service's clock: 2023-11-14T22:15:01Z",
        *verdict_lines(["SessionKey"]),
    ]


def test_only(program, keytab, tmp_path):
    """A service of one name refuses a request for another name that has the same key, as `accept` does."""
    both = fixture.keytab() + fixture.keytab().replace(b"\0\x03web", b"\0\x03ftp")[2:]
    file = str(tmp_path / "both")
    (tmp_path / "both").write_bytes(both)
    text, second = exchange_made.made_of(["request", "service=host/ftp@EX"]).hex(), 1_700_000_101
    for words, last in [([], [ACCEPTED]),
                        (["--only", "host/ftp@EX"], [ACCEPTED]),
                        (["--only", "host/web@EX"], verdict_lines(["NotUs"]))]:
        lines = page_by(program, file, text, second, *words)
        assert lines[-len(last) :] == last
    assert "keytab's entry: none, since the service doesn't have the name host/ftp@EX" in lines
    given = f"{second} 0 {text}\n".encode()
    words = [program, "accept", file, "--only", "host/web@EX"]
    assert subprocess.run(words, input=given, capture_output=True, timeout=300).stdout == b"refused 35 NotUs\n"
    ran = explained(program, text, "--keytab", file, "--at", str(second), "--only", "host/web")
    assert (ran.returncode, ran.stdout, ran.stderr) == (2, b"", b"krbtool: only: NoRealm\n")


def test_clock_and_skew(program, keytab):
    """The machine's clock is taken if none is given, and the skew is the one that is asked for."""
    text = fixture.request().hex()
    assert "refused: Skew, code 37 (KRB_AP_ERR_SKEW)" in page_by(program, keytab, text, 1_700_000_401)
    assert page_by(program, keytab, text, 1_700_000_401, "--skew", "301")[-1] == ACCEPTED
    before = int(time.time())
    lines = explained(program, text, "--keytab", keytab).stdout.decode().splitlines()
    clock = next(it for it in lines if it.startswith("service's clock: ")).removeprefix("service's clock: ")
    assert before <= calendar.timegm(time.strptime(clock, "%Y-%m-%dT%H:%M:%SZ")) <= int(time.time())


def test_faulty_keytab(program, tmp_path):
    """Nothing is printed by a keytab that is none, and of a text that spells nothing none is opened."""
    (tmp_path / "keytab").write_bytes(b"\x05\x01")
    name = str(tmp_path / "keytab")
    ran = explained(program, "6e00", "--keytab", name, "--at", "1")
    assert (ran.returncode, ran.stdout, ran.stderr.decode()) == (1, b"", f"krbtool: {name}: Version\n")
    ran = explained(program, "x", "--keytab", str(tmp_path / "none"), "--at", "1")
    assert (ran.returncode, ran.stdout, ran.stderr) == (1, b"", b"krbtool: input: End at 1\n")
    ran = explained(program, "6e00", "--keytab", str(tmp_path / "none"))
    assert (ran.returncode, ran.stdout) == (3, b"")
    assert explained(program, "6e00", "--at", "1").returncode == 2


def test_argument_and_file(program, tmp_path):
    """The same page is printed of an argument, of a file and of standard input."""
    text = spelled(fixture.error(37), SPELLINGS[3])
    (tmp_path / "message").write_text(text)
    ran = [explained(program, text), explained(program, "", text.strip()),
           explained(program, "", "--file", str(tmp_path / "message"))]
    assert {(it.returncode, it.stdout, it.stderr) for it in ran} == {(0, ran[0].stdout, b"")}


def drawn_text(draw):
    """A text: a message or a token with some bytes changed, in a spelling that may be cut off; or any bytes."""
    wrap, _ = WRAPPINGS[draw.choice([*WRAPPINGS])]
    data = bytearray(wrap(exchange_made.made_of(draw.choice(["request", "reply", "error 37"]).split(" "))))
    for _ in range(draw.choice([0, 0, 1, 1, 4])):
        data[draw.randrange(len(data))] = draw.randrange(256)
    data = bytes(data[: draw.choice([len(data), draw.randrange(len(data) + 1)])])
    text = spelled(data, draw.choice(SPELLINGS)).encode()
    return draw.choice([text, text[: draw.randrange(len(text) + 1)], draw.randbytes(draw.randrange(40))])


def is_page(ran):
    """Whether a run printed one page of lines of visible characters, or one line of a fault of the text."""
    lines = ran.stdout.decode("ascii").splitlines()
    if ran.returncode == 1:
        return not lines and re.fullmatch(rb"krbtool: input: (NoBytes|(Symbol|End) at \d+)\n", ran.stderr)
    return ran.returncode == 0 and not ran.stderr and 1 <= len(lines) <= PAGE and all(it.isprintable() for it in lines)


@pytest.mark.slow
@pytest.mark.timeout(3600)
@pytest.mark.parametrize("part", range(PARTS))
def test_drawn(program, keytab, checks, part):
    """A run on any text ends well, or says what is wrong with the text; and it keeps what is sealed."""
    draw = random.Random(77 + part)
    for number in range(TEXTS // PARTS):
        text = drawn_text(draw)
        words = draw.choice([[], ["--keytab", keytab, "--at", str(1_700_000_101 + draw.choice([0, 0, 900, 40_000]))]])
        ran = explained(program, text, *words)
        is_right = is_page(ran) and is_secret_kept(ran.stdout.decode())
        checks.add(f"text {number}", None if is_right else f"of {text!r} it made {ran}")
