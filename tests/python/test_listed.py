"""Clients that name another mechanism before Kerberos: each side shows the list of mechanisms by its MIC (RFC 4178,
section 5)."""
import pytest

from fevstunik import (
    Code, ContextFlags, CredentialCache, GoOn, Key, Keytab, KrbError, Messages, Moment, Refused, Service, Side,
    make_request, open_answer)

from support import c_cases, der, fixture, gss_rules
from support.der import element

NAME, NOW = "host/web@EX", 1_700_000_100
NAMES, OTHERS = [gss_rules.NTLM, gss_rules.KERBEROS], [gss_rules.NTLM[:-1] + b"\x0b", gss_rules.KERBEROS]
FIRST = gss_rules.negotiation(NAMES, b"NTLMSSP\0")
LIST = element(0x30, *(element(0x06, it) for it in NAMES))
REQUEST_MIC, REJECT = gss_rules.response(gss_rules.KERBEROS, None, 3), gss_rules.response(None, None, 2)
INCOMPLETE = b"\1"
SUBKEYS = {19: Key(19, bytes(range(16, 32))), 20: Key(20, bytes(range(32)))}


class Store:
    """A store that keeps what it was asked."""

    remembers_from, largest_skew = Moment(NOW - 1000), 300

    def __init__(self):
        self.stamps = []

    def add(self, stamp, keep_until):
        self.stamps.append(stamp)
        return self.stamps.count(stamp) == 1


@pytest.fixture
def cache():
    with CredentialCache(fixture.cache()) as made:
        yield made


def serving(store=None, **terms):
    shared = {"first_life": True} if store is None else {"store": store, "first_life": True}
    return Service(Keytab(fixture.keytab()), NAME, **shared, **terms)


def kerberos(request):
    return gss_rules.kerberos(gss_rules.KERBEROS, request)


def asked(cache, wants_reply=True, subkey=None):
    return make_request(cache, NAME, now=NOW, subkey=SUBKEYS.get(subkey), seq=7, wants_reply=wants_reply,
                        context=ContextFlags(0))


def silent_side(subkey=None):
    """The client's side if it asked for no reply."""
    return Messages(Side.CLIENT, Key(19, fixture.SESSION_KEY), client_subkey=SUBKEYS.get(subkey), client_seq=7,
                    service_seq=7)


def mic_in(answer, kind):
    """The MIC at the end of an answer: a header of 16 bytes and a tag of 16 (type 19) or 24 (type 20)."""
    return answer[-32:] if kind == 19 else answer[-40:]


def reply_in(answer):
    """The AP-REP in a later answer, which names no mechanism (RFC 4178, section 4.2.2)."""
    fields = gss_rules.Reader(answer, 0, len(answer)).enter(0xA1).enter(0x30)
    assert fields.enter(0xA0).enter(0x0A).left() == INCOMPLETE
    token = fields.enter(0xA2).enter(0x04).left()
    return token[token.index(b"\2\0\x6f") + 2:]


def goes_on(login, client, numbers):
    """The messages after the MICs are taken both ways, with the next numbers."""
    with login.messages() as service:
        opened = service.unwrap(client.wrap(b"hello"))
        assert (opened.text, opened.number, opened.order.name) == (b"hello", numbers[0], "NEXT")
        opened = client.unwrap(service.wrap(b"hi"))
        assert (opened.text, opened.number, opened.order.name) == (b"hi", numbers[1], "NEXT")


@pytest.mark.parametrize("shares", [False, True], ids=["alone", "with a store"])
@pytest.mark.parametrize("ours", [None, 19, 20])
@pytest.mark.parametrize("theirs", [None, 19, 20])
def test_a_client_that_awaits_a_reply(cache, theirs, ours, shares):
    store = Store() if shares else None
    (request, pending), kind = asked(cache, subkey=theirs), ours or theirs or 19
    with serving(store, subkey=ours) as service:
        connection = service.login()
        asks = connection.answer(FIRST, NOW)
        assert isinstance(asks, GoOn) and asks.reply == REQUEST_MIC
        asks = connection.answer(gss_rules.going_on(kerberos(request)), NOW)
        assert isinstance(asks, GoOn)
        agreed = pending.finish(reply_in(asks.reply))
        client = agreed.messages()
        assert client.verify_mic(LIST, mic_in(asks.reply, kind)).name == "NEXT"
        login = connection.answer(gss_rules.going_on(None, mic=client.mic(LIST)), NOW)
        assert (login.client, login.reply, login.list_shown) == ("alice@EX", b"", True)
        assert login.service_subkey == agreed.service_subkey
        goes_on(login, client, (8, 1))
        assert connection.answer(FIRST, NOW).cause == Code.NEGOTIATION_OVER
    assert store is None or len(store.stamps) == 1


@pytest.mark.parametrize("shares", [False, True], ids=["alone", "with a store"])
@pytest.mark.parametrize("theirs", [None, 19, 20])
def test_a_client_that_awaits_none(cache, theirs, shares):
    (request, _), client, kind = asked(cache, False, theirs), silent_side(theirs), theirs or 19
    with serving(Store() if shares else None, subkey=20) as service:
        connection = service.login()
        assert connection.answer(FIRST, NOW).reply == REQUEST_MIC
        login = connection.answer(gss_rules.going_on(kerberos(request), mic=client.mic(LIST)), NOW)
        assert (login.client, login.list_shown, login.service_subkey) == ("alice@EX", True, None)
        assert login.reply == gss_rules.going_on(None, b"\0", mic_in(login.reply, kind))
        assert client.verify_mic(LIST, mic_in(login.reply, kind)).name == "NEXT"
        goes_on(login, client, (8, 8))


def test_a_client_with_kerberos_first_has_sent_no_mic(cache):
    request, pending = asked(cache)
    with serving() as service:
        login = service.answer(gss_rules.negotiation(NAMES[::-1], kerberos(request)), NOW)
        assert not login.list_shown
        goes_on(login, pending.finish(open_answer(login.reply).message).messages(), (7, 0))


def refused(decision, cause):
    assert isinstance(decision, Refused)
    assert (decision.cause.name, decision.kerberos, decision.asked, decision.reply) == (cause, 0, None, REJECT)
    assert not decision.may_pass


@pytest.mark.parametrize("shares", [False, True], ids=["alone", "with a store"])
@pytest.mark.parametrize("what, cause", [
    ("a changed list", "LIST_MIC_WRONG"), ("a changed MIC", "LIST_MIC_WRONG"), ("the service's MIC", "LIST_MIC_WRONG"),
    ("a later number", "LIST_MIC_WRONG"), ("no MIC", "LIST_MIC_MISSING"), ("the session key", "LIST_MIC_OTHER_KEY"),
    ("the token again", "LIST_MIC_MISSING"), ("no message", "TOKEN_MALFORMED")])
def test_who_awaits_a_reply_and_is_not_let_in(cache, what, cause, shares):
    request, pending = asked(cache)
    with serving(Store() if shares else None, subkey=20) as service:
        connection = service.login()
        connection.answer(gss_rules.negotiation(OTHERS, None) if what == "a changed list" else FIRST, NOW)
        sent = connection.answer(gss_rules.going_on(kerberos(request)), NOW).reply
        client = pending.finish(reply_in(sent)).messages()
        if what == "a later number":
            client.mic(b"")
        mic = client.mic(LIST)
        last = {"a changed MIC": gss_rules.going_on(None, mic=mic[:-1] + bytes([mic[-1] ^ 1])),
                "the service's MIC": gss_rules.going_on(None, mic=mic_in(sent, 20)),
                "no MIC": gss_rules.going_on(None, INCOMPLETE),
                "the session key": gss_rules.going_on(None, mic=silent_side().mic(LIST)),
                "the token again": gss_rules.going_on(kerberos(request)), "no message": b"\xa1\0"}
        decision = connection.answer(last.get(what, gss_rules.going_on(None, mic=mic)), NOW)
        refused(decision, cause)
        assert connection.answer(gss_rules.going_on(None, mic=mic), NOW).cause == Code.NEGOTIATION_OVER
        # (its request is remembered)
        assert service.answer(request, NOW).cause == Code.REPEAT


@pytest.mark.parametrize("shares", [False, True], ids=["alone", "with a store"])
@pytest.mark.parametrize("what, cause", [("a changed list", "LIST_MIC_WRONG"), ("no MIC", "LIST_MIC_MISSING")])
def test_who_awaits_none_and_is_not_let_in(cache, what, cause, shares):
    (request, _), mic = asked(cache, False), silent_side().mic(LIST)
    with serving(Store() if shares else None) as service:
        connection = service.login()
        connection.answer(gss_rules.negotiation(OTHERS, None) if what == "a changed list" else FIRST, NOW)
        second = gss_rules.going_on(kerberos(request), mic=None if what == "no MIC" else mic)
        refused(connection.answer(second, NOW), cause)
        assert connection.answer(gss_rules.going_on(None, mic=mic), NOW).cause == Code.NEGOTIATION_OVER


def test_a_subkey_of_another_type():
    client = der.name(1, b"alice")
    part = der.enc_ticket_part(0, der.key(19, fixture.SESSION_KEY), b"EX", client, fixture.AUTHTIME, fixture.ENDTIME)
    auth = der.authenticator(b"EX", client, 5, NOW, subkey=der.key(18, bytes(32)))
    cipher = fixture.sealed(19, fixture.SESSION_KEY, 11, bytes(16), auth)
    request = der.request(0, c_cases.ticket(part), der.encrypted(19, cipher))
    with serving() as service:
        connection = service.login()
        connection.answer(FIRST, NOW)
        refused(connection.answer(gss_rules.going_on(kerberos(request), mic=bytes(40)), NOW), "LIST_KEY_TYPE")


def test_a_request_that_is_refused(cache):
    """It is answered as any other one: the list isn't looked at."""
    request, _ = asked(cache)
    with serving() as service:
        assert service.answer(request, NOW).client == "alice@EX"
        connection = service.login()
        connection.answer(FIRST, NOW)
        decision = connection.answer(gss_rules.going_on(kerberos(request)), NOW)
        error = KrbError.read(decision.reply[decision.reply.index(b"\3\0\x7e") + 2:])
        assert (decision.cause, decision.asked.name, error.code) == (Code.REPEAT, NAME, 34)


def test_a_store_is_asked_once_and_before_the_reply(cache):
    """Of a stamp that the store has, the client is refused in its second message; by a third one it isn't asked."""
    store, (request, _) = Store(), asked(cache)
    with serving(store) as service, serving(store) as other:
        assert other.answer(request, NOW).client == "alice@EX"
        connection = service.login()
        assert connection.answer(FIRST, NOW).reply == REQUEST_MIC and len(store.stamps) == 1
        decision = connection.answer(gss_rules.going_on(kerberos(request)), NOW)
        assert (decision.cause, len(store.stamps)) == (Code.REPEAT, 2)
        assert connection.answer(gss_rules.going_on(None, mic=bytes(32)), NOW).cause == Code.NEGOTIATION_OVER
