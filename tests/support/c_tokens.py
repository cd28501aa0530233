"""Lines for tests/c/tokens.c: tokens of GSS-API by the second model (tests/support/gss_rules.py), and what each call
answers."""
import random
import re
import struct

from support import gss_rules
from support.gss_rules import KERBEROS, MICROSOFT

# How many tokens are drawn.
DRAWN = 3_000
NUMBERS = {"Kerberos": 1, "Microsoft": 2, "Draft": 3}
NAMES = {1: KERBEROS, 2: MICROSOFT, 3: gss_rules.DRAFT}
# In place of a mechanism: it was named by an earlier answer.
NAMED = 100
MECHANISMS = {"Unknown": "OTHER_MECHANISM", "Ntlm": "NTLM", "IaKerb": "IAKERB", "Negotiation": "NESTED_NEGOTIATION"}
FAULTS = {"no token of a mechanism": "NOT_A_TOKEN", "the token continues a negotiation": "TOKEN_CONTINUES",
          "no token of the mechanism at": "TOKEN_EMPTY", "another token identifier at": "TOKEN_ID",
          "a request without a token around it at": "TOKEN_UNFRAMED"}


def digits(data):
    return data.hex() or "-"


def coded(codes, said):
    """The code and the offset of a fault by what the model says of it."""
    other = re.fullmatch(r"another mechanism at (\d+): (\w+)", said)
    if other:
        return codes[MECHANISMS[other[2]]], other[1]
    text, at = re.fullmatch(r"(.*?)( \d+)?", said).groups()
    return codes[FAULTS.get(text, "TOKEN_MALFORMED")], (at or "0").strip()


def opening(codes, token):
    try:
        front, request = gss_rules.opened(token)
    except gss_rules.Fault as fault:
        code, at = coded(codes, str(fault))
        return f"open {code} {at} 0 0 {digits(token)} -"
    *listed, name = front.split()[1:]
    return f"open 0 0 {NUMBERS[name]} {NUMBERS[listed[0]] if listed else 0} {digits(token)} {digits(request)}"


def bare(number, kind, message):
    return gss_rules.kerberos(NAMES[number], message, kind)


def answering(number, negotiated, kind, message):
    """A service's answer."""
    inner = bare(number, kind, message)
    if not negotiated:
        return inner
    return gss_rules.response(NAMES.get(negotiated), inner, 0 if kind == b"\x02\x00" else 2)


def opening_answer(codes, token):
    first, *others, last = gss_rules.answered(token).split(" ")
    if first == "refused":
        code, at = coded(codes, " ".join([*others, last]))
        return f"answer {code} {at} 0 {digits(token)} -"
    return f"answer 0 0 {int(others[-1] == 'error')} {digits(token)} {last}"


def asking(number, negotiated, message):
    inner = bare(number, b"\x01\x00", message)
    return gss_rules.negotiation([NAMES[negotiated]], inner) if negotiated else inner


def writing(codes):
    """What is wrapped, and opened again."""
    for message in (b"", b"m", bytes(100), bytes(200), bytes(300)):
        for number in NAMES:
            for name, kind in (("reply", b"\x02\x00"), ("error", b"\x03\x00")):
                yield f"{name} 0 {number} {NAMED} {digits(message)} {digits(answering(number, NAMED, kind, message))}"
            for negotiated in (0, *NAMES):
                yield f"request 0 {number} {negotiated} {digits(message)} {digits(asking(number, negotiated, message))}"
                for name, kind in (("reply", b"\x02\x00"), ("error", b"\x03\x00")):
                    token = answering(number, negotiated, kind, message)
                    yield f"{name} 0 {number} {negotiated} {digits(message)} {digits(token)}"
                    yield f"answer 0 0 {int(name == 'error')} {digits(token)} {digits(message)}"
    for number, negotiated in ((0, 0), (4, 0), (1, 4), (0, 1), (4294967295, 1), (0, NAMED), (NAMED, NAMED)):
        for name in ("request", "reply", "error"):
            yield f"{name} {codes['BAD_MECHANISM']} {number} {negotiated} 00 -"
    yield f"request {codes['BAD_MECHANISM']} 1 {NAMED} 00 -"


def misplaced(codes):
    """A later token that comes first, and an answer whose token is a request without one around it."""
    yield from negotiations(codes, [gss_rules.going_on(bare(1, b"\x01\x00", b"m"))])
    yield opening_answer(codes, gss_rules.response(KERBEROS, b"\x6e\x00", 0))


def verdicts(codes):
    """Answers without a token, written and read."""
    for says, state, names in ((1, 0, (0, *NAMES)), (2, 1, NAMES), (3, 2, (0,))):
        for name in names:
            token = gss_rules.response(NAMES.get(name), None, state)
            yield f"said 0 {says} {name} {digits(token)}"
            yield f"verdict 0 {says} {name} {digits(token)}"
    for says, name in ((0, 0), (1, 4), (1, NAMED), (2, 0), (2, NAMED), (3, 1), (4, 0), (4294967295, 1)):
        yield f"said {codes['BAD_VERDICT']} {says} {name} -"


def drawn_verdict(codes, rng):
    text = gss_rules.straight_verdict(rng)
    text = gss_rules.bent(rng, text) or b"\0" if rng.random() < 0.5 else text
    word, _, name = gss_rules.verdict(text).partition(" ")
    if word == "none":
        return f"verdict {codes['NOTHING_THERE']} 0 0 {digits(text)}"
    says = ["completed", "incomplete", "rejected"].index(word) + 1
    return f"verdict 0 {says} {NUMBERS.get(name, 0)} {digits(text)}"


def negotiations(codes, tokens):
    """The lines of a negotiation: each has the numbers before and after, and what its token gives."""
    side, before = gss_rules.Negotiation(), "0 0"
    for token in tokens:
        listed = gss_rules.listing(token).split()[0] if side.stage == "begun" else "none"
        if listed != "none":
            yield f"list 0 {digits(token)} {digits(gss_rules.response(NAMES[NUMBERS[listed]], None, 3))}"
        said = side.take(token)
        word, *rest = said.split()
        after = {"ended": "2 0", "asked": f"1 {NUMBERS.get(rest[-1], 0) if rest else 0}"}[side.stage]
        if word == "refused":
            fault = said.removeprefix("refused ")
            code, at = (codes["NEGOTIATION_OVER"], 0) if fault == "the negotiation is over" else coded(codes, fault)
            yield f"take {code} {at} {before} {after} 0 0 {digits(token)} -"
        elif word == "asks":
            answer = gss_rules.response(NAMES[NUMBERS[rest[0]]], None, 1)
            yield f"take 0 0 {before} {after} 0 {NUMBERS[rest[0]]} {digits(token)} {digits(answer)}"
        else:
            *listed, name, request = rest
            first = NAMED if word == "later" else NUMBERS[listed[1]] if listed[0] == "negotiated" else 0
            yield f"take 0 0 {before} {after} {NUMBERS[name]} {first} {digits(token)} {request}"
        before = after
    yield f"take {codes['BAD_NEGOTIATION']} 0 3 0 3 0 0 0 {digits(tokens[0])} -"
    yield f"take {codes['BAD_NEGOTIATION']} 0 1 4 1 4 0 0 {digits(tokens[0])} -"
    yield f"take {codes['BAD_NEGOTIATION']} 0 0 1 0 1 0 0 {digits(tokens[0])} -"


def contexts(codes):
    """Checksums of type 0x8003."""
    bound = bytes(range(16))
    front = struct.pack("<I", 16) + bound
    for flags in (0, 0x3e, 0xfffffffe):
        for more in (b"", b"more"):
            checksum = front + struct.pack("<I", flags) + more
            yield f"context 0 {flags} 0 {digits(checksum)} {digits(bound)} - {digits(more)}"
    for message in (b"", b"credentials"):
        checksum = front + struct.pack("<IHH", 0x3f, 1, len(message)) + message
        for more in (b"", b"more"):
            yield f"context 0 {0x3f} 1 {digits(checksum + more)} {digits(bound)} {digits(message)} {digits(more)}"
        for end in (0, 23, 24, 27, len(checksum) - 1):
            yield f"context {codes['CONTEXT_TRUNCATED']} 0 0 {digits(checksum[:end])} - - -"
    yield f"context {codes['CONTEXT_BINDINGS']} 0 0 {digits(struct.pack('<I', 15) + bound + bytes(4))} - - -"
    yield f"context {codes['CONTEXT_DELEGATION']} 0 0 {digits(front + struct.pack('<IHH', 1, 2, 0))} - - -"


def lines(codes):
    rng = random.Random(4121)
    for _ in range(DRAWN):
        token = gss_rules.straight(rng)
        for _ in range(rng.choice((0, 0, 1, 1, 2))):
            token = gss_rules.bent(rng, token) or b"\0"
        yield opening(codes, token)
        answer = gss_rules.straight_answer(rng)
        for _ in range(rng.choice((0, 0, 1, 1, 2))):
            answer = gss_rules.bent(rng, answer) or b"\0"
        yield opening_answer(codes, answer)
        yield from negotiations(codes, gss_rules.conversation(rng))
        yield drawn_verdict(codes, rng)
    yield from misplaced(codes)
    yield from writing(codes)
    yield from verdicts(codes)
    yield from contexts(codes)
