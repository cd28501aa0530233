"""Tokens of GSS-API (RFC 2743, section 3.1; RFC 4121, section 4.1; RFC 4178, sections 4.1, 4.2 and 5), and which fault
a token has.

It draws tokens as clients send them and bends them in structure; `drawn` gives the cases. It also writes requests and
answers in their wrapping, answers with a mechListMIC, and checksums of authenticators (RFC 4121, section 4.1.1).
"""
import hashlib
import random
import re

from support import der_rules
from support.der import element

PROGRAM = "krb_calls_wire"
# What the library for C answers. The code of a malformed token doesn't say how it is.
IN_C = ("open", "request", "answer", "later", "take", "continued", "said", "verdict")
MALFORMED = re.compile(r"\b(?:Truncated|Tag|Length|Trailing|TooLong) at")
KERBEROS = bytes.fromhex("2a864886f712010202")
MICROSOFT = bytes.fromhex("2a864882f712010202")
DRAFT = bytes.fromhex("2b05010502")
SPNEGO = bytes.fromhex("2b0601050502")
NTLM = bytes.fromhex("2b06010401823702020a")
IAKERB = bytes.fromhex("2b0601050205")
NAMES = {KERBEROS: "Kerberos", MICROSOFT: "Microsoft", DRAFT: "Draft"}
OTHERS = {SPNEGO: "Negotiation", NTLM: "Ntlm", IAKERB: "IaKerb"}
LIMIT = der_rules.LIMIT
CASES = 6_000


class Fault(Exception):
    pass


def kerberos(name, message, token_id=b"\x01\x00"):
    return element(0x60, element(0x06, name) + token_id + message)


def fields_of(*parts, more=b""):
    """A SEQUENCE of fields: each is its tag, the tag inside and the content, or None. `more` are the fields after
    them."""
    return element(0x30, *(element(outer, element(inner, it)) for outer, inner, it in parts if it is not None), more)


def negotiation(names, token, flags=None, mic=None, more=b""):
    """A token of SPNEGO; the parts are contents, or None."""
    listed = b"".join(element(0x06, it) for it in names)
    fields = fields_of((0xA0, 0x30, listed), (0xA1, 0x03, flags), (0xA2, 0x04, token), (0xA3, 0x04, mic), more=more)
    return element(0x60, element(0x06, SPNEGO) + element(0xA0, fields))


class Reader:
    """A part of a token: the bytes, and where the part begins and ends."""

    def __init__(self, text, at, end):
        self.text, self.at, self.end = text, at, end

    def left(self):
        return self.text[self.at : self.end]

    def enter(self, tag):
        """The content of the next element, which has this tag."""
        try:
            start, self.at = der_rules.head(self.text, self.at, self.end, tag)
        except der_rules.Refused as fault:
            raise Fault(str(fault)) from None
        return Reader(self.text, start, self.at)

    def last(self, tag):
        inside = self.enter(tag)
        self.finish()
        return inside

    def finish(self):
        if self.at != self.end:
            raise Fault(f"Trailing at {self.at}")

    def unknown(self):
        """Passes over fields that aren't known, to the end."""
        while self.left():
            tag = self.left()[0]
            if 0xA0 <= tag <= 0xA3 or tag % 32 == 31:
                raise Fault(f"Trailing at {self.at}")
            self.enter(tag)

    def optional(self, outer, inner):
        if self.left()[:1] == bytes([outer]):
            return self.enter(outer).last(inner)
        return None


def framed(part):
    inside = part.last(0x60)
    return inside.enter(0x06), inside


def name_of(oid):
    found = NAMES.get(oid.left())
    if found is None:
        raise Fault(f"another mechanism at {oid.at}: {OTHERS.get(oid.left(), 'Unknown')}")
    return found


def message_of(oid, inner):
    name = name_of(oid)
    if inner.left()[:2] != b"\x01\x00":
        raise Fault(f"another token identifier at {inner.at}")
    return name, inner.left()[2:]


def held(token):
    """The name and the identifier of a token that a negotiation holds."""
    if token.left()[:1] == b"\x6e":
        raise Fault(f"a request without a token around it at {token.at}")
    return framed(token)


def ends_of(fields):
    """The mechToken or responseToken, and the mechListMIC; what is after them is passed over."""
    token, mic = fields.optional(0xA2, 0x04), fields.optional(0xA3, 0x04)
    fields.unknown()
    return token, mic


def token_of(fields):
    """The mechToken or responseToken; what is after it is passed over."""
    return ends_of(fields)[0]


def init_of(part):
    """Of a NegTokenInit (RFC 4178, section 4.2.1): mechTypes with its tag and length, the names in it, and the
    mechToken."""
    fields = part.last(0xA0).last(0x30)
    types = fields.enter(0xA0)
    whole, inside = types.left(), types.last(0x30)
    names = [inside.enter(0x06)]
    while inside.left():
        names.append(inside.enter(0x06))
    fields.optional(0xA1, 0x03)
    return whole, names, token_of(fields)


def opened(text):
    """What the token holds: the answer of the program, and the request."""
    if len(text) > LIMIT:
        raise Fault("TooLong at 0")
    if text[:1] == b"\xa1":
        raise Fault("the token continues a negotiation")
    if text[:1] == b"\x6e":
        raise Fault("a request without a token around it at 0")
    if text[:1] != b"\x60":
        raise Fault("no token of a mechanism")
    oid, inner = framed(Reader(text, 0, len(text)))
    if oid.left() != SPNEGO:
        name, request = message_of(oid, inner)
        return f"bare {name}", request
    _, names, token = init_of(inner)
    listed = name_of(names[0])
    if token is None:
        raise Fault(f"no token of the mechanism at {names[0].at}")
    name, request = message_of(*held(token))
    return f"negotiated {listed} {name}", request


def response_of(part):
    fields = part.last(0xA1).last(0x30)
    fields.optional(0xA0, 0x0A)
    oid = fields.enter(0xA1).last(0x06)
    return oid, token_of(fields)


class Negotiation:
    """The service's side: what it says of each token of the client."""

    def __init__(self):
        self.stage = "begun"

    def take(self, text):
        stage, self.stage = self.stage, "ended"
        try:
            if stage == "ended":
                raise Fault("the negotiation is over")
            if stage == "asked":
                name, request = later(text)
                return f"later {name} {request.hex() or '-'}"
            if first := asking(text):
                self.stage = "asked"
                return f"asks {first}"
            front, request = opened(text)
            return f"first {front} {request.hex() or '-'}"
        except Fault as fault:
            return f"refused {fault}"


def asking(text):
    """The name by which a negotiation without a token names Kerberos first."""
    try:
        oid, inner = framed(Reader(text, 0, len(text)))
        if oid.left() != SPNEGO or len(text) > LIMIT:
            return None
        _, names, token = init_of(inner)
        return None if token else NAMES.get(names[0].left())
    except Fault:
        return None


def listing(text):
    """What `listing` answers: the first name of Kerberos after another mechanism, and the MechTypeList, which is what a
    mechListMIC is over (RFC 4178, sections 4.1 and 5)."""
    try:
        oid, inner = framed(Reader(text, 0, len(text)))
        if oid.left() != SPNEGO or len(text) > LIMIT:
            return "none"
        whole, names, _ = init_of(inner)
    except Fault:
        return "none"
    first, *others = [NAMES.get(it.left()) for it in names]
    known = [it for it in others if it]
    return f"{known[0]} {whole.hex()}" if known and not first else "none"


def later_parts(text):
    """Of a client's later message, a NegTokenResp without a supportedMech (RFC 4178, section 4.2.2): where its fields
    begin, its responseToken and its mechListMIC."""
    if len(text) > LIMIT:
        raise Fault("TooLong at 0")
    fields = Reader(text, 0, len(text)).last(0xA1).last(0x30)
    begin = fields.at
    fields.optional(0xA0, 0x0A)
    return begin, *ends_of(fields)


def later(text):
    """The name and the request of a client's later token."""
    begin, token, _ = later_parts(text)
    if token is None:
        raise Fault(f"no token of the mechanism at {begin}")
    return message_of(*held(token))


def continued(text):
    """What `continued` answers."""
    try:
        name, request = later(text)
        return f"{name} {request.hex() or '-'}"
    except Fault as fault:
        return f"refused {fault}"


def mic(text):
    """What `mic` answers."""
    try:
        found = later_parts(text)[2]
        return "none" if found is None else found.left().hex() or "-"
    except Fault as fault:
        return f"refused {fault}"


SAID = {b"\0": "completed", b"\1": "incomplete", b"\2": "rejected"}


def verdict(text):
    """What a service says without a token."""
    try:
        fields = Reader(text, 0, len(text)).last(0xA1).last(0x30)
        state = fields.enter(0xA0).last(0x0A)
        oid = fields.optional(0xA1, 0x06)
        if token_of(fields) is not None or len(text) > LIMIT:
            return "none"
    except Fault:
        return "none"
    word, name = SAID.get(state.left(), "none"), oid and NAMES.get(oid.left())
    if word == "rejected":
        return word
    if (oid and not name) or (word == "incomplete" and not oid):
        return "none"
    return word if word == "none" or not name else f"{word} {name}"


def going_on(token, state=None, mic=None, more=b""):
    """A client's later token."""
    return element(0xA1, fields_of((0xA0, 0x0A, state), (0xA2, 0x04, token), (0xA3, 0x04, mic), more=more))


def reply_of(oid, inner):
    name, kinds = name_of(oid), {b"\x02\x00": "reply", b"\x03\x00": "error"}
    if inner.left()[:2] not in kinds:
        raise Fault(f"another token identifier at {inner.at}")
    return f"{name} {kinds[inner.left()[:2]]} {inner.left()[2:].hex() or '-'}"


def answered(text):
    """What `answered` answers."""
    try:
        if len(text) > LIMIT:
            raise Fault("TooLong at 0")
        part = Reader(text, 0, len(text))
        if text[:1] == b"\x60":
            return f"bare {reply_of(*framed(part))}"
        if text[:1] != b"\xa1":
            raise Fault("no token of a mechanism")
        oid, token = response_of(part)
        listed = name_of(oid)
        if token is None:
            raise Fault(f"no token of the mechanism at {oid.at}")
        return f"negotiated {listed} {reply_of(*held(token))}"
    except Fault as fault:
        return f"refused {fault}"


def unknown_fields(rng):
    """Fields after the known ones: mostly none, else whole elements, or what isn't one."""
    whole = element(0xA4, b"\x30\x00") + element(0xA5, b""), element(0x04, b"hint"), element(0xBE, bytes(200))
    return rng.choice((b"",) * 20 + whole + (element(0xA1, b""), element(0x1F, b""), b"\xa4\x05", b"\xa4\x80\0\0"))


def straight_answer(rng):
    """An answer as some service may send it."""
    message = rng.randbytes(rng.choice((0, 1, 5, 100, 130, 300)))
    token_id = rng.choice((b"\x02\x00",) * 4 + (b"\x03\x00",) * 4 + (b"\x01\x00", b"\x02\x01", b"\x03", b""))
    inner = kerberos(rng.choice((KERBEROS, KERBEROS, MICROSOFT, NTLM, SPNEGO)), message, token_id)
    if rng.random() < 0.3:
        return inner
    oid = rng.choice((KERBEROS,) * 6 + (MICROSOFT,) * 4 + (NTLM, IAKERB, SPNEGO, b"\x2a"))
    parts = ((0xA0, 0x0A, rng.choice((b"\0", b"\1", b"\2", None, b"", b"\0\0"))),
             (0xA1, 0x06, rng.choice((oid,) * 9 + (None,))), (0xA2, 0x04, rng.choice((inner,) * 9 + (None,))),
             (0xA3, 0x04, rng.choice((None, None, b"mic"))))
    return element(0xA1, fields_of(*parts, more=unknown_fields(rng)))


def answer(text):
    try:
        front, request = opened(text)
        return f"{front} {request.hex() or '-'}"
    except Fault as fault:
        return f"refused {fault}"


def straight(rng):
    """A token as some client may send it."""
    message = b"\x6e" + rng.randbytes(rng.choice((0, 1, 5, 100, 120, 130, 250, 300)))
    inner = kerberos(rng.choice((KERBEROS, KERBEROS, MICROSOFT, DRAFT, NTLM, SPNEGO)), message,
                     rng.choice((b"\x01\x00",) * 5 + (b"\x02\x00", b"\x01\x01", b"\x01", b"")))
    if rng.random() < 0.03:
        return message
    if rng.random() < 0.3:
        return inner
    names = [rng.choice((KERBEROS, MICROSOFT, KERBEROS, DRAFT, NTLM, IAKERB, SPNEGO, rng.randbytes(4), b""))]
    names += [rng.choice((KERBEROS, MICROSOFT, NTLM)) for _ in range(rng.choice((0, 1, 3)))]
    flags = rng.choice((None, None, b"\x01\x02", b"\x00" * 5))
    mic = rng.choice((None, None, b"", b"mic"))
    token = rng.choice((inner,) * 6 + (None, None, b"NTLMSSP\0", message))
    return negotiation(names[: rng.choice((0, 1, 9, 9, 9, 9))], token, flags, mic, unknown_fields(rng))


def straight_later(rng):
    """A later token as some client may send it."""
    message = b"\x6e" + rng.randbytes(rng.choice((0, 1, 120, 300)))
    token_id = rng.choice((b"\x01\x00",) * 5 + (b"\x02\x00",))
    inner = kerberos(rng.choice((KERBEROS, MICROSOFT, DRAFT, NTLM)), message, token_id)
    token = rng.choice((inner,) * 5 + (None, None, message))
    mic_is = rng.choice((None, None, b"", b"mic", rng.randbytes(28), rng.randbytes(200)))
    return going_on(token, rng.choice((None, None, b"\1", b"")), mic_is, unknown_fields(rng))


def straight_listing(rng):
    """A client's first token, mostly one that names another mechanism first."""
    first = rng.choice((NTLM,) * 6 + (IAKERB, SPNEGO, b"", rng.randbytes(4), KERBEROS, MICROSOFT))
    others = (KERBEROS, MICROSOFT, DRAFT, NTLM, NTLM, IAKERB, KERBEROS[:-1], rng.randbytes(9))
    names = [first, *(rng.choice(others) for _ in range(rng.choice((0, 1, 1, 2, 3, 12, 30))))]
    token = rng.choice((None, b"NTLMSSP\0", b"", kerberos(KERBEROS, b"\x6e"), rng.randbytes(300)))
    flags, mic_is = rng.choice((None, None, b"\x01\x02", b"\x00" * 5)), rng.choice((None, None, b"", b"mic"))
    return negotiation(names, token, flags, mic_is, unknown_fields(rng))


def conversation(rng):
    """The tokens of a client in a negotiation."""
    first = [rng.choice((KERBEROS, MICROSOFT, DRAFT, NTLM))]
    tokens = [straight(rng) if rng.random() < 0.4 else negotiation(first, None, more=unknown_fields(rng))]
    tokens += [straight_later(rng) for _ in range(rng.choice((0, 1, 1, 2)))]
    return [bent(rng, it) or b"\0" if rng.random() < 0.1 else it for it in tokens]


def straight_verdict(rng):
    name = rng.choice((None, KERBEROS, MICROSOFT, DRAFT, NTLM))
    state = rng.choice((b"\0", b"\1", b"\2", b"\3", b"", b"\0\0"))
    parts = ((0xA0, 0x0A, state if rng.random() < 0.9 else None), (0xA1, 0x06, name),
             (0xA2, 0x04, kerberos(KERBEROS, b"m") if rng.random() < 0.1 else None),
             (0xA3, 0x04, b"mic" if rng.random() < 0.1 else None))
    return element(0xA1, fields_of(*parts, more=unknown_fields(rng)))


def bent(rng, text):
    """The token with one thing otherwise: a byte, a cut, more bytes, or an element's head."""
    text, at = bytearray(text), rng.randrange(min(len(text), rng.choice((60, 60, 60, len(text)))))
    how = rng.randrange(6)
    if how == 0:
        text[at] = rng.randrange(256)
    elif how == 1:
        text[at] ^= 1 << rng.randrange(8)
    elif how == 2:
        del text[rng.randrange(len(text)):]
    elif how == 3:
        text += rng.randbytes(rng.choice((1, 2, 9)))
    elif how == 4:
        text[at:at + 1] = rng.choice((b"\x80", b"\x81", b"\x85", b"\x81\x05", b"\x82\x00\x05", b"\x84\x00\x00\x00\x05",
                                      b"\x00", b"\xa1", b"\xa3"))
    else:
        del text[at]
    return bytes(text)


def twisted(rng, text):
    """The token, bent up to twice."""
    for _ in range(rng.choice((0, 0, 1, 1, 2))):
        text = bent(rng, text) or b"\0"
    return text


def large():
    """Tokens of many sizes, up to the limit and one above it."""
    for count in (127, 128, 65_535, 65_536, LIMIT - 100, LIMIT - 22, LIMIT - 21, LIMIT - 20, LIMIT):
        text = kerberos(KERBEROS, b"m" * count)
        front = text[: len(text) - count]
        wanted = answer(text).rsplit(" ", 1)
        yield f"a request of {count} bytes", [f"open {front.hex()}+6d*{count}"], [
            " ".join([wanted[0], f"6d*{count}"]) if len(text) <= LIMIT else "refused TooLong at 0"
        ]


def large_later():
    """Lists of mechanisms and later messages of many sizes, up to the limit and one above it."""
    for call, rule, around in (("listing", listing, lambda it: negotiation([NTLM, DRAFT], it)),
                               ("listing", listing, lambda it: negotiation([it, MICROSOFT], b"NTLMSSP\0")),
                               ("continued", continued, lambda it: going_on(kerberos(MICROSOFT, it), b"\1", b"mic")),
                               ("mic", mic, lambda it: going_on(kerberos(KERBEROS, b"n"), None, it)),
                               ("mic", mic, lambda it: going_on(it, b"\1", b"mic"))):
        most = longest(around)
        for count in (127, 128, 255, 256, 65_535, 65_536, most, most + 1):
            front, _, back = around(b"m" * count).partition(b"m" * count)
            line = "+".join([front.hex(), f"6d*{count}", *([back.hex()] if back else [])])
            yield f"{call} of {count} bytes", [f"{call} {line}"], [rule(front + b"m" * count + back)]


def longest(around):
    """The most bytes that these can be around."""
    return next(count for count in range(LIMIT, 0, -1) if len(around(bytes(count))) <= LIMIT)


def response(name, token, state):
    """A NegTokenResp of negState, supportedMech and responseToken: the last two are contents, or None."""
    return element(0xA1, fields_of((0xA0, 0x0A, bytes([state])), (0xA1, 0x06, name), (0xA2, 0x04, token)))


def checked(word, name, message, mic_is):
    """A service's later answer with a mechListMIC (RFC 4178, section 5): the line, and the answer. It is a NegTokenResp
    of negState, a responseToken if there is a reply, and mechListMIC."""
    state = {"completed": b"\0", "incomplete": b"\1"}[word]
    token = kerberos(name, message, b"\x02\x00") if name else None
    reply = f"{NAMES[name]} {message.hex() or '-'}" if name else "none"
    return f"checked {word} {reply} {mic_is.hex() or '-'}", going_on(token, state, mic_is)


def answers_with_a_mic(rng):
    """Such answers, drawn: the line and the answer."""
    name, word = rng.choice((None, KERBEROS, MICROSOFT, DRAFT)), rng.choice(("completed", "incomplete"))
    message = rng.randbytes(rng.choice((0, 1, 2, 84, 95, 97, 113, 127, 128, 250, 300)))
    return checked(word, name, message, rng.randbytes(rng.choice((0, 1, 16, 28, 123, 124, 127, 128, 255, 256))))


def wrapped(rng):
    """A request or an answer that is wrapped: the line and what is answered."""
    place, name = rng.choice((None, KERBEROS, MICROSOFT, DRAFT)), rng.choice((KERBEROS, MICROSOFT, DRAFT))
    message = rng.randbytes(rng.choice((0, 1, 2, 90, 97, 113, 127, 128, 250, 300)))
    kind, token_id, state = rng.choice((("request", 1, None), ("answer", 2, 0), ("answer", 3, 2)))
    token = kerberos(name, message, bytes([token_id, 0]))
    if place:
        token = negotiation([place], token) if state is None else response(place, token, state)
    words = [kind, NAMES[place] if place else "bare", NAMES[name]]
    if state is not None:
        words.append("reply" if state == 0 else "error")
    return " ".join([*words, message.hex() or "-"]), token


def too_long():
    """The longest messages that fit, and one byte more."""
    for words, around in (("request bare Kerberos", lambda it: kerberos(KERBEROS, it)),
                          ("request Kerberos Microsoft", lambda it: negotiation([KERBEROS], kerberos(MICROSOFT, it))),
                          ("request Draft Draft", lambda it: negotiation([DRAFT], kerberos(DRAFT, it))),
                          ("later Draft reply", lambda it: response(None, kerberos(DRAFT, it, b"\x02\x00"), 0)),
                          ("checked completed none", lambda it: checked("completed", None, b"", it)[1]),
                          ("checked incomplete Draft 6f03", lambda it: checked("incomplete", DRAFT, b"o\3", it)[1]),
                          ("answer bare Kerberos reply", lambda it: kerberos(KERBEROS, it, b"\x02\x00")),
                          ("answer Microsoft Kerberos error",
                           lambda it: response(MICROSOFT, kerberos(KERBEROS, it, b"\x03\x00"), 2))):
        most = longest(around)
        token = around(b"m" * most)
        shown = f"#{len(token)}:{hashlib.sha256(token).hexdigest()}"
        long = "refused the token would be longer than 1048576 bytes"
        for count, answer_is in ((most, shown), (most + 1, long), (LIMIT, long), (LIMIT + 1, long), (4 * LIMIT, long)):
            yield f"{words} of {count} bytes", f"{words} 6d*{count}", answer_is


FLAGS = {1: "Delegation", 2: "Mutual", 4: "Replay", 8: "Sequence", 16: "Confidentiality", 32: "Integrity"}


def checksum_bytes(flags, bindings, message, extensions):
    text = (16).to_bytes(4, "little") + bindings + flags.to_bytes(4, "little")
    if message is not None:
        text += (1).to_bytes(2, "little") + len(message).to_bytes(2, "little") + message
    return text + extensions


def checksum_answer(text, wanted):
    """What `checksum` answers, asked whether it has these bindings."""
    if len(text) < 24:
        return "refused the checksum is cut off"
    if text[:4] != b"\x10\0\0\0":
        return "refused the length of the bindings isn't 16"
    flags, rest, shown = int.from_bytes(text[20:24], "little"), text[24:], "none"
    if flags % 2:
        if len(rest) < 4:
            return "refused the checksum is cut off"
        if rest[:2] != b"\x01\0":
            return "refused the option of the delegation isn't 1"
        size = int.from_bytes(rest[2:4], "little")
        if len(rest) < 4 + size:
            return "refused the checksum is cut off"
        shown, rest = rest[4 : 4 + size].hex() or "-", rest[4 + size :]
    return " ".join([str(flags), text[4:20].hex(), shown, rest.hex() or "-",
                     *(name for bit, name in FLAGS.items() if flags & bit), str(text[4:20] == wanted).lower()])


def checksums(rng):
    """A checksum that is written, read, bent and read again, and asked for bindings: the lines and what is answered."""
    flags = rng.choice((0, 1, 2, 3, 0x3E, 0x3F, 0x123, rng.randrange(2**32)))
    bindings = rng.choice((bytes(16), rng.randbytes(16)))
    message = rng.randbytes(rng.choice((0, 1, 5, 255, 256, 400))) if rng.random() < 0.5 else None
    extensions = rng.randbytes(rng.choice((0, 0, 1, 9)))
    told = "none" if message is None else message.hex() or "-"
    words = f"encode {flags} {bindings.hex()} {told} {extensions.hex() or '-'}"
    agrees = (message is not None) == bool(flags % 2)
    text = checksum_bytes(flags, bindings, message, extensions)
    yield words, text.hex() if agrees else "refused the flag doesn't agree with the delegation"
    for it in (text, *(bent(rng, text) for _ in range(3)), text):
        wanted = rng.choice((bindings, bytes(16), bindings[:15] + b"\x01"))
        yield f"checksum {it.hex() or '-'} {wanted.hex()}", checksum_answer(it, wanted)


def said():
    """Each answer without a token, and to a later token; and what they are read as."""
    for state, word in enumerate(SAID.values()):
        for name in (None, *NAMES) if word == "completed" else NAMES if word == "incomplete" else (None,):
            words = f"{word} {NAMES[name]}" if name else word
            token = response(name, None, state)
            yield words, [f"said {words}", f"verdict {token.hex()}"], [token.hex(), words]
    for name, shown in NAMES.items():
        for kind, token_id, state in ("reply", b"\x02\x00", 0), ("error", b"\x03\x00", 2):
            token = response(None, kerberos(name, b"message", token_id), state)
            yield f"later {shown} {kind}", [f"later {shown} {kind} {b'message'.hex()}"], [token.hex()]
        token = response(name, None, 3)
        yield f"request-mic {shown}", [f"request-mic {shown}", f"verdict {token.hex()}"], [token.hex(), "none"]


def drawn():
    """The cases: program, name, lines and answers."""
    for name, lines, answers in drawn_calls():
        own, in_c = [], []
        for line, answer_is in zip(lines, answers):
            if line.split(" ")[0] in IN_C:
                in_c.append((f"gss {line}", MALFORMED.sub("malformed at", answer_is)))
            else:
                own.append((f"gss {line}", answer_is))
        for program, both in ((PROGRAM, own), ("wire_in_c", in_c)):
            if both:
                yield program, f"gss: {name}", *map(list, zip(*both))


def drawn_calls():
    rng = random.Random(4178)
    for number in range(CASES):
        text = twisted(rng, straight(rng))
        yield f"token {number}", [f"open {text.hex()}"], [answer(text)]
    for name, lines, answers in large():
        yield name, lines, answers
    for number in range(CASES // 2):
        text = twisted(rng, straight_answer(rng))
        yield f"answer {number}", [f"answered {text.hex()}"], [answered(text)]
    for number in range(CASES // 2):
        text = twisted(rng, straight_listing(rng) if rng.random() < 0.9 else straight(rng))
        yield f"list {number}", [f"listing {text.hex()}"], [listing(text)]
        text = twisted(rng, straight_later(rng) if rng.random() < 0.9 else straight_answer(rng))
        lines = [f"{call} {text.hex()}" for call in ("continued", "mic")]
        yield f"later message {number}", lines, [continued(text), mic(text)]
    for name, lines, answers in large_later():
        yield name, lines, answers
    for number in range(CASES // 10):
        line, token = answers_with_a_mic(rng)
        yield f"checked {number}", [line, f"mic {token.hex()}"], [token.hex(), mic(token)]
        line, token = wrapped(rng)
        call, back = ("open", answer(token)) if line.startswith("request") else ("answered", answered(token))
        yield f"wrapped {number}", [line, f"{call} {token.hex()}"], [token.hex(), back]
        tokens = conversation(rng)
        side = Negotiation()
        answers = " ".join(map(side.take, tokens))
        yield f"negotiation {number}", [f"take {' '.join(it.hex() for it in tokens)}"], [answers]
        text = straight_verdict(rng)
        text = bent(rng, text) or b"\0" if rng.random() < 0.3 else text
        yield f"verdict {number}", [f"verdict {text.hex()}"], [verdict(text)]
        both = list(checksums(rng))
        yield f"checksum {number}", [line for line, _ in both], [it for _, it in both]
    yield from said()
    for name, line, answer_is in too_long():
        yield name, [line], [answer_is]
