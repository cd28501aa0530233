"""Negotiations of several rounds, answers without a token, KRB-ERROR, and a client whose clock is wrong."""
import pytest

from fevstunik import (
    Acceptor, Code, ContextFlags, CredentialCache, Fault, GoOn, Keytab, KrbError, Mechanism, Moment, Negotiation,
    Refused, Says, ServiceError, Token, Verdict, login, make_request, open_answer, read_verdict, wrap_request)

from support import exchange, gss_rules, model

NAME, NOW = "host/web@EX", 1_700_000_100


@pytest.fixture
def service():
    return Acceptor(Keytab.read("examples/service.keytab"), NAME, first_life=True)


@pytest.fixture
def cache():
    return CredentialCache.read("examples/client.ccache")


def asked(cache, now=NOW):
    """A request of GSS-API and what is awaited for it."""
    return make_request(cache, NAME, now=now, context=ContextFlags(0))


NAMES = [(Mechanism.KERBEROS, gss_rules.KERBEROS), (Mechanism.WINDOWS, gss_rules.MICROSOFT),
         (Mechanism.DRAFT, gss_rules.DRAFT)]


@pytest.mark.parametrize("name, oid", NAMES)
def test_a_client_that_sends_its_token_when_it_is_asked(service, cache, name, oid):
    negotiation, (request, _) = Negotiation(), asked(cache)
    asks = negotiation.take(gss_rules.negotiation([oid, gss_rules.NTLM], None))
    assert isinstance(asks, GoOn) and read_verdict(asks.reply) == Verdict(Says.INCOMPLETE, name)
    token = negotiation.take(gss_rules.going_on(gss_rules.kerberos(oid, request), b"\1"))
    assert token == Token(request, name, None, is_later=True)
    answer = token.reply(service.accept(token.request, now=NOW).reply())
    assert answer.startswith(b"\xa1") and gss_rules.element(0x06, oid) in answer
    answer = Token(b"", name, None, is_later=True).reply(b"m")
    assert answer == gss_rules.response(None, gss_rules.kerberos(oid, b"m", b"\2\0"), 0)
    with pytest.raises(Fault, match="NEGOTIATION_OVER"):
        negotiation.take(wrap_request(request))


def test_a_refused_token_ends_the_negotiation():
    negotiation = Negotiation()
    with pytest.raises(Fault, match="NTLM"):
        negotiation.take(gss_rules.negotiation([gss_rules.NTLM, gss_rules.KERBEROS], b"NTLMSSP"))
    with pytest.raises(Fault, match="NEGOTIATION_OVER"):
        negotiation.take(wrap_request(b"a request"))


def test_answers_without_a_token():
    for token, said in ((wrap_request(b"a request"), Verdict(Says.COMPLETED, Mechanism.KERBEROS)),
                        (wrap_request(b"a request", negotiated=False), None)):
        opened = Token.open(token)
        assert read_verdict(opened.completed()) == said
        assert read_verdict(opened.rejected()) == (said and Verdict(Says.REJECTED))
    reply = Token(b"a request").reply(b"a reply")
    assert read_verdict(reply) is None and open_answer(reply).error is None
    with pytest.raises(Fault, match="BAD_VERDICT"):
        Verdict(Says.REJECTED, Mechanism.KERBEROS).token()
    with pytest.raises(Fault, match="BAD_VERDICT"):
        Verdict(Says.INCOMPLETE).token()


def test_an_error_says_what_the_service_wrote():
    text = model.error(37, 1_000_000 * NOW + 7, *exchange.NAMED)
    assert KrbError.read(text) == KrbError(37, Moment(NOW, 7), NAME)
    for size in range(len(text)):
        with pytest.raises(Fault, match="ERROR_MALFORMED"):
            KrbError.read(text[:size])


def test_a_client_whose_clock_is_wrong(service, cache):
    sent = []

    def send(token):
        opened = Token.open(token)
        sent.append(opened.request)
        try:
            return opened.reply(service.accept(opened.request, now=NOW).reply())
        except Refused as refused:
            return opened.error(refused.error(NAME, now=NOW))

    with pytest.raises(ServiceError) as refused:
        login(cache, NAME, send, now=NOW + 400)
    assert refused.value.error.code == 37 and refused.value.error.clock_offset(NOW + 400) == -400
    assert login(cache, NAME, send, now=NOW + 400.25, adjust_clock=True).client == "alice@EX"
    assert len(sent) == 3


def test_a_clock_is_adjusted_once_and_for_no_other_error(cache):
    sent = []

    def late(token):
        sent.append(token)
        return Token.open(token).error(Refused(Code.SKEW).error(NAME, now=NOW - 1000 * len(sent)))

    with pytest.raises(ServiceError):
        login(cache, NAME, late, now=NOW, adjust_clock=True)
    assert len(sent) == 2
    repeat = Refused(Code.REPEAT).error(NAME, now=NOW)
    with pytest.raises(ServiceError):
        login(cache, NAME, lambda it: sent.append(it) or Token.open(it).error(repeat), now=NOW, adjust_clock=True)
    assert len(sent) == 3
