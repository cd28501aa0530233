"""Cases of `accept --tokens` and `request --token` that are made and not stored: drawn tokens of drawn requests, each
beginning of a token, one with each byte changed, each cause of a refusal, and the longest tokens.

What is expected comes from tests/support/gss_rules.py and tests/support/model.py.
"""
import random
import re

from support import c_cases, exchange, fixture, gss_rules, model
from support.gss_rules import IAKERB, KERBEROS, LIMIT, MICROSOFT, NTLM, SPNEGO

SEED = 4559
SERVICES, LINES = 60, 30
NAMED, WORDS = exchange.NAMED, ("--service", "host/web@EX")
OIDS = {name: oid for oid, name in gss_rules.NAMES.items()}
# The second and microsecond of the fixture's request.
MOMENT = 1_700_000_100, 5
CONFOUNDER = bytes(range(0x30, 0x40))

# ---------------------------------------------------------------- what is expected

# What the program calls faults that the model names otherwise.
FAULTS = {"no token of a mechanism": "NotToken at 0", "the token continues a negotiation": "Response at 0"}
PLACED = {"no token of the mechanism": "NoToken", "another token identifier": "TokenId",
          "a request without a token around it": "Unframed"}
MECHANISMS = {"Unknown": "OtherMechanism"}


def said(fault):
    """What the program says of a token's fault."""
    other = re.fullmatch(r"another mechanism at (\d+): (\w+)", fault)
    if other:
        return f"{MECHANISMS.get(other[2], other[2])} at {other[1]}"
    name, _, at = fault.partition(" at ")
    return FAULTS.get(fault) or f"{PLACED.get(name, name)} at {at}"


def sent(front, kind, message):
    """The token with an answer, wrapped as the client's token was."""
    *listed, name = front.split()[1:]
    token_id, state = {"reply": (b"\x02\x00", 0), "error": (b"\x03\x00", 2)}[kind]
    token = gss_rules.kerberos(OIDS[name], message, token_id)
    return gss_rules.response(OIDS[listed[0]], token, state) if listed else token


def with_token(front, line):
    """An answer with the token in place of the message that ends it."""
    found = re.fullmatch(r"(.*) (reply|error) ([0-9a-f]+)\n", line)
    return line if not found else f"{found[1]} {found[2]} {sent(front, found[2], bytes.fromhex(found[3])).hex()}\n"


def answered(service, token, now, confounder=None, named=None):
    """The line that a token is answered by."""
    try:
        front, request = gss_rules.opened(token)
    except gss_rules.Fault as fault:
        return f"bad token {said(str(fault))}\n"
    return with_token(front, model.answered(service, request, now, confounder, named))


def accepting(name, file, lines, answers, *words):
    is_well = all(it.startswith("accepted") for it in answers)
    return {"name": f"tokens: {name}", "args": ["accept", "f", "--tokens", *words], "files": {"f": file},
            "stdin": "".join(f"{it}\n" for it in lines), "stdout": "".join(answers), "status": 0 if is_well else 1}


# ---------------------------------------------------------------- drawn tokens


def token_of(draw, request):
    """A token that holds the request, as some client may send it; now and then one of another kind, or bent."""
    name = exchange.often(draw, draw.choice((KERBEROS, MICROSOFT)), NTLM, SPNEGO)
    token = gss_rules.kerberos(name, request, exchange.often(draw, b"\x01\x00", b"\x02\x00", b"\x01"))
    if draw.random() < 0.6:
        first = exchange.often(draw, draw.choice((KERBEROS, MICROSOFT)), NTLM, IAKERB, SPNEGO, b"\x2a")
        names = [first, *draw.choice(((), (KERBEROS,), (MICROSOFT, NTLM)))]
        parts = draw.choice((None, None, b"\x01\x02")), draw.choice((None, None, b"mic"))
        token = gss_rules.negotiation(names, exchange.often(draw, token, None), *parts)
    return gss_rules.bent(draw, token) if draw.random() < 0.1 else token


def conversation(draw, number):
    """A service that is sent drawn tokens, some of them twice."""
    seals, file = model.Seals(), exchange.keytab(draw)
    service, named = model.Service(seals, file, 300), NAMED if draw.random() < 0.7 else None
    lines, answers, before = [], [], []
    for _ in range(LINES):
        now = 1_000_000 * (exchange.BASE + draw.choice((0, 1, 300, -300))) + draw.choice((0, 5, 999_999))
        again = before and draw.random() < 0.2
        token = draw.choice(before) if again else token_of(draw, exchange.request(draw, seals, service.entries, now))
        before.append(token)
        confounder = draw.randbytes(16) if draw.random() < 0.5 else None
        lines.append(exchange.line_of(draw, token, now, confounder))
        answers.append(answered(service, token, now, confounder, named))
    return accepting(f"service {number}", file, lines, answers, *(WORDS if named else ()))


# ---------------------------------------------------------------- the fixture's tokens


def bare(request):
    return gss_rules.kerberos(KERBEROS, request)


def negotiated(request):
    return gss_rules.negotiation([KERBEROS], bare(request))


def negotiated_by_microsofts_name(request):
    return gss_rules.negotiation([MICROSOFT], bare(request))


def fixture_service():
    """The fixture's service, to which its requests are known."""
    seals = model.Seals()
    seals.seal(19, fixture.SERVICE_KEY, 2, bytes(range(0x10, 0x20)), fixture.ticket_part())
    seals.seal(19, fixture.SESSION_KEY, 11, bytes(range(0x20, 0x30)), fixture.authenticator())
    return model.Service(seals, fixture.keytab(), 300)


REQUEST = fixture.request(0x20000000)
TOKENS = {
    "a token of Kerberos": bare(REQUEST),
    "a token by Microsoft's name": gss_rules.kerberos(MICROSOFT, REQUEST),
    "a negotiation": negotiated(REQUEST),
    "a negotiation of Windows": gss_rules.negotiation([MICROSOFT, KERBEROS, NTLM],
                                                      bare(REQUEST)),
    "a negotiation with all fields": gss_rules.negotiation([MICROSOFT], gss_rules.kerberos(MICROSOFT, REQUEST),
                                                           b"\x01\x02", b"mic"),
}


def fixture_line(token, confounder=CONFOUNDER):
    second, micros = MOMENT
    return f"{second} {micros} {token.hex() or '-'}" + (f" {confounder.hex()}" if confounder else "")


def told(name, tokens, confounder=CONFOUNDER, named=NAMED):
    """The fixture's service is sent these tokens."""
    service, now = fixture_service(), 1_000_000 * MOMENT[0] + MOMENT[1]
    answers = [answered(service, token, now, confounder, named) for token in tokens]
    return accepting(name, fixture.keytab(), [fixture_line(it, confounder) for it in tokens], answers,
                     *(WORDS if named else ()))


def changes(token):
    for at in range(len(token)):
        for mask in (0x01, 0x80, 0xFF):
            yield token[:at] + bytes([token[at] ^ mask]) + token[at + 1 :]


def fixture_cases():
    for name, token in TOKENS.items():
        yield told(f"{name}, twice", [token, token])
        yield told(f"{name}, without a confounder and a name", [token, token], None, None)
        yield told(f"each beginning of {name}", [token[:size] for size in range(len(token) + 1)])
        yield told(f"{name}, each byte changed", list(changes(token)))
        yield told(f"{name}, and a byte more", [token + b"\0"])


def refused_cases():
    """Each cause, in each wrapping: the error is in the client's."""
    for front, around in (("bare Kerberos", bare), ("negotiated Microsoft Kerberos", negotiated_by_microsofts_name)):
        for cause, request in c_cases.refused():
            name = cause.title().replace("_", "")
            code = model.CODES[name]
            error = model.error(code, 1_000_000 * MOMENT[0] + MOMENT[1], *NAMED)
            line = f"refused {code} {name} error {sent(front, 'error', error).hex()}\n"
            yield accepting(f"{front}, {name}", fixture.keytab(), [fixture_line(around(request))], [line], *WORDS)


def long_cases():
    """A request with 100,000 bytes of authorization data, and tokens of as many bytes as there may be."""
    large = c_cases.request(c_cases.large_ticket())
    for name, around in (("bare", bare), ("negotiated", negotiated)):
        accepted = f"accepted alice@EX 19 {MOMENT[0]} {MOMENT[1]} plain\n"
        yield accepting(f"a large ticket, {name}", fixture.keytab(), [fixture_line(around(large))], [accepted])
        most = longest(around)
        tokens = [around(b"m" * (most + more)) for more in (0, 1)]
        answers = ["refused 40 MessageType\n", "bad token TooLong at 0\n"]
        yield accepting(f"the longest token, {name}, and a longer one", fixture.keytab(), map(fixture_line, tokens),
                        answers)


# ---------------------------------------------------------------- request


def longest(around):
    """How many bytes a request may have, so that its token isn't too long."""
    return next(count for count in range(LIMIT, 0, -1) if len(around(bytes(count))) <= LIMIT)


def in_token(options=0, of=None):
    """The request that a token holds: with the number 0, and a context that asks for a reply if the request does."""
    return fixture.request(options, number=0, of=of, checksum=fixture.context(bool(options)))


def request_cases():
    words = ["request", "f", "host/web@EX", f"--time={MOMENT[0]}", f"--usec={MOMENT[1]}",
             f"--confounder={bytes(range(0x20, 0x30)).hex()}"]
    some = LIMIT - 1000
    for kind, around in (("gss", bare), ("spnego", negotiated)):
        for options, more in ((0, ()), (0x20000000, ("--mutual",))):
            yield {"name": f"request: {kind} {' '.join(more)}", "args": [*words, *more, "--token", kind],
                   "files": {"f": fixture.cache()},
                   "stdout": around(in_token(options)).hex() + "\n"}
        size = some + longest(around) - len(in_token(of=fixture.ticket(bytes(some))))
        for more, name in (0, "of as many bytes as there may be"), (1, "of a byte more"):
            ticket = fixture.ticket(bytes(size + more))
            token = around(in_token(of=ticket))
            assert (len(token) > LIMIT) == bool(more)
            wanted = {"stderr": "krbtool: request: TooLong\n", "status": 1} if more else {"stdout": token.hex() + "\n"}
            yield {"name": f"request: {kind}, {name}", "args": [*words, f"--token={kind}"],
                   "files": {"f": fixture.cache(ticket)}, **wanted}


def drawn_cases():
    draw = random.Random(SEED)
    for number in range(SERVICES):
        yield conversation(draw, number)


def cases():
    yield from fixture_cases()
    yield from refused_cases()
    yield from long_cases()
    yield from request_cases()
