"""Logins of clients that may name another mechanism before Kerberos, each message decided on in one call
(`krb_talk::Talk::answer`). The library for C takes that call in two steps, and decides alike."""
import pytest
from fevstunik import (
    Code, ContextFlags, CredentialCache, GoOn, Key, Keytab, Login, Messages, Refused, Service, Side, make_request)

from support import calls, fixture, gss_rules
from support.der import element

PROGRAM, NAME, NOW = "krb_calls_exchange", "host/web@EX", 1_700_000_100
NAMES, OTHERS = [gss_rules.NTLM, gss_rules.KERBEROS], [gss_rules.NTLM[:-1] + b"\x0b", gss_rules.KERBEROS]
FIRST, CHANGED = gss_rules.negotiation(NAMES, b"NTLMSSP\0"), gss_rules.negotiation(OTHERS, None)
LIST = element(0x30, *(element(0x06, it) for it in NAMES))
UNSHOWN = (Code.LIST_MIC_MISSING, Code.LIST_MIC_WRONG)


def request(wants_reply):
    with CredentialCache(fixture.cache()) as cache:
        return make_request(cache, NAME, now=NOW, seq=7, wants_reply=wants_reply, context=ContextFlags(0))[0]


def token(wants_reply):
    return gss_rules.kerberos(gss_rules.KERBEROS, request(wants_reply))


def mic(of=LIST, side=Side.CLIENT):
    """A side's MIC of a list; both sides have the client's first number."""
    return Messages(side, Key(19, fixture.SESSION_KEY), client_seq=7, service_seq=7).mic(of)


def with_token(wants_reply, **more):
    return gss_rules.going_on(token(wants_reply), **more)


# What a client sends, message by message, and what is decided on the last one.
CLIENTS = {
    "no reply": (lambda: [FIRST, with_token(False, mic=mic())], "shown"),
    "no reply, no MIC": (lambda: [FIRST, with_token(False)], "unshown"),
    "no reply, the MIC of another list": (lambda: [FIRST, with_token(False, mic=mic(b"another"))], "unshown"),
    "no reply, the service's MIC": (lambda: [FIRST, with_token(False, mic=mic(side=Side.SERVICE))], "unshown"),
    "no reply, a changed list": (lambda: [CHANGED, with_token(False, mic=mic())], "unshown"),
    "a reply": (lambda: [FIRST, with_token(True), gss_rules.going_on(None, mic=mic())], "shown"),
    "a reply, no MIC": (lambda: [FIRST, with_token(True), gss_rules.going_on(None, b"\1")], "unshown"),
    "a reply, the token again": (lambda: [FIRST] + [with_token(True)] * 2, "unshown"),
    "a reply, a message too many": (lambda: [FIRST, with_token(True)] + [gss_rules.going_on(None, mic=mic())] * 2,
                                    "refused"),
    "Kerberos first": (lambda: [gss_rules.negotiation(NAMES[::-1], token(True))], "in"),
    "Kerberos first, without a token": (lambda: [gss_rules.negotiation(NAMES[::-1], None), with_token(False)], "in"),
    "a token of Kerberos": (lambda: [token(True)], "in"),
    "another request after the list": (lambda: [FIRST, gss_rules.going_on(b"")], "refused"),
    "no token": (lambda: [b"\xa1\0"], "refused"),
}


def kind(decision):
    if isinstance(decision, GoOn):
        return "on"
    if isinstance(decision, Login):
        return "shown" if decision.list_shown else "in"
    assert isinstance(decision, Refused)
    return "unshown" if decision.cause in UNSHOWN else "refused"


def decided_in_c(messages):
    """Of each message the kind of decision, and how many bytes go back. (Replies are sealed with random bytes.)"""
    with Service(Keytab(fixture.keytab()), NAME, first_life=True) as service:
        login = service.login()
        return [(kind(it), len(it.reply or b"")) for it in (login.answer(message, NOW) for message in messages)]


def decided(messages):
    line = " ".join(["talk", *(f"{NOW} 0 {it.hex() or '-'}" for it in messages)])
    lines = ["new", f"service timed 300 {fixture.keytab().hex()}", line]
    (_, _, answer), status, errors = calls.given_to(PROGRAM, [("talk", lines, None)])
    assert (status, errors) == (0, b"")
    words = answer.split(" ")
    return [(it, len(calls.bytes_of(sent)) if sent != "nothing" else 0) for it, sent in zip(words[::2], words[1::2])]


@pytest.mark.parametrize("name", CLIENTS)
def test_talk(name, in_c):
    made, last = CLIENTS[name]
    messages = made()
    found = decided(messages)
    assert len(found) == len(messages) and found[-1][0] == last and {it for it, _ in found[:-1]} <= {"on", "shown"}
    assert found == decided_in_c(messages)
