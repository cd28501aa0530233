"""Client and service: what is accepted and agreed on, each cause of a refusal, handles that are closed, and forks."""
import os
import pickle
import time

from support import c_cases, der, fixture

import pytest
from fevstunik import (Acceptor, Code, ContextFlags, CredentialCache, Error, Fault, Key, Keytab, Moment, Refused, Service,
                       TicketFlags, TypedData,
                       check_name, make_request)


AT = 1_700_000_100
SERVICE = "host/web@EX"
LONG, SHORT = Key(20, bytes(range(32, 64))), Key(19, bytes(range(64, 80)))


@pytest.fixture
def service():
    with Acceptor(Keytab(fixture.keytab()), SERVICE, first_life=True) as made:
        yield made


@pytest.fixture
def cache():
    with CredentialCache(fixture.cache()) as made:
        yield made


def fault_of(call, kind=Fault):
    with pytest.raises(kind) as raised:
        call()
    return raised.value.name, raised.value.code, raised.value.kerberos, raised.value.offset


def test_a_request_is_accepted(service):
    accepted = service.accept(fixture.made()["mutual request with a subkey and a number"], AT)
    assert (accepted.client, accepted.service, accepted.time) == ("alice@EX", SERVICE, Moment(AT, 5))
    assert (accepted.authtime, accepted.endtime, accepted.flags) == (1_700_000_000, 1_700_036_000, TicketFlags(0))
    assert (accepted.session_key, accepted.subkey, accepted.seq) == (Key(19, fixture.SESSION_KEY), LONG, 4_294_967_295)
    assert (accepted.wants_reply, accepted.client_type, accepted.service_type) == (True, 1, 3)
    assert accepted.addresses == accepted.authorization == accepted.authenticator_authorization == ()
    assert accepted.checksum is None
    assert (service.remembered, service.latest) == (1, Moment(AT))
    shown = repr(accepted)
    assert repr(fixture.SESSION_KEY)[2:-1] not in shown and repr(LONG.data)[2:-1] not in shown


@pytest.mark.parametrize("kind", (Acceptor, Service))
def test_any_name_is_asked_for(kind):
    keytab = Keytab(fixture.keytab())
    for name, words, told in ((None, {}, "any_name=True"), (SERVICE, {"any_name": True}, "pass None"), ("", {}, "empty"),
                              ("", {"any_name": True}, "empty")):
        with pytest.raises(ValueError, match=told):
            kind(keytab, name, first_life=True, **words)
    with pytest.raises(TypeError, match="any_name is a bool"):
        kind(keytab, None, first_life=True, any_name=1)
    with pytest.raises(TypeError, match="Keytab.read"):
        kind("web.keytab", SERVICE, first_life=True)
    with kind(keytab, SERVICE, first_life=True) as service:
        with pytest.raises(ValueError, match="any_name=True"):
            service.replace_keytab(keytab, None)
        service.replace_keytab(keytab, SERVICE)
    with kind(keytab, None, first_life=True, any_name=True) as service:
        service.replace_keytab(keytab, None)
        service.replace_keytab(keytab, SERVICE)


def test_other_numbers(service):
    whole = Acceptor(Keytab(fixture.keytab()).added(c_cases_entry()), None, any_name=True, first_life=True)
    accepted = whole.accept(c_cases.for_another_service(), AT)
    assert (accepted.service, accepted.client_type, accepted.service_type, accepted.seq) == ("a\\/b@EX", -7, -3, 0)
    assert accepted.flags == TicketFlags(0x4061_0000) and accepted.subkey is None and not accepted.wants_reply
    assert fault_of(lambda: service.accept(c_cases.for_another_service(), AT), Refused)[0] == "NOT_US"


def c_cases_entry():
    entry, = Keytab(fixture.keytab()).entries
    return type(entry)("a\\/b@EX", entry.key, 3)


def test_a_context(service, cache):
    flags, bindings = ContextFlags.DELEGATION | ContextFlags.REPLAY, b"tls-server-end-point:" + bytes(32)
    accepted = service.accept(make_request(cache, SERVICE, now=AT, context=flags, bindings=bindings)[0], AT)
    assert accepted.context.flags == ContextFlags.MUTUAL | ContextFlags.REPLAY and accepted.context.delegation is None
    assert accepted.context.is_bound_to(bindings) and not accepted.context.is_bound_to(bindings[:-1])
    assert accepted.seq is not None
    request = make_request(cache, SERVICE, now=AT + 1, seq=7, wants_reply=False, context=ContextFlags.MUTUAL)[0]
    accepted = service.accept(request, AT + 1)
    assert (accepted.context.flags, accepted.context.bindings) == (0, bytes(16))
    assert (accepted.seq, accepted.wants_reply) == (7, False)
    assert service.accept(make_request(cache, SERVICE, now=AT + 2)[0], AT + 2).context is None
    request = make_request(cache, SERVICE, now=AT + 4, wants_reply=False, context=ContextFlags(0x8000_1003))[0]
    assert int(service.accept(request, AT + 4).context.flags) == 0x8000_1000
    with pytest.raises(ValueError):
        make_request(cache, SERVICE, now=AT + 3, bindings=bindings)


def test_lists(service):
    accepted = service.accept(c_cases.with_lists(), AT)
    assert accepted.addresses == (TypedData(2, bytes([192, 0, 2, 1])), TypedData(24, bytes(range(0xF0, 0x100))))
    assert accepted.authorization == (TypedData(1, b"first"), TypedData(1, b""), TypedData(1, b"the third"))
    assert accepted.authenticator_authorization == (TypedData(1, b"alone"),)
    assert accepted.checksum == TypedData(-138, bytes(range(0x50, 0x60)))
    assert accepted.transited == TypedData(1, b"EDU,MIT.")


KERBEROS = {"MESSAGE_TYPE": 40, "MALFORMED": 60, "USER_TO_USER": 45, "TICKET_ETYPE": 14, "NOT_US": 35, "NO_KEY": 45,
            "BAD_KEY_VERSION": 44,
            "TICKET_INTEGRITY": 31, "SESSION_KEY": 14, "AUTHENTICATOR_INTEGRITY": 31, "BAD_MATCH": 36, "SKEW": 37,
            "JUST_STARTED": 37,
            "REPEAT": 34, "NOT_YET_VALID": 33, "EXPIRED": 32, "TRANSITED": 60, "AUTHORIZATION": 60}


@pytest.mark.parametrize("name, request_", c_cases.refused(), ids=[name for name, _ in c_cases.refused()])
def test_refused(service, name, request_):
    with pytest.raises(Refused) as raised:
        service.accept(request_, AT)
    found = raised.value.cause, raised.value.code, raised.value.kerberos
    assert found == (Code[name], Code[name].value, KERBEROS[name])
    assert raised.value.error(SERVICE, now=Moment(AT, 7)) == fixture.error(KERBEROS[name])


def asked(cache, at, micros=0):
    return make_request(cache, SERVICE, now=Moment(at, micros))[0]


def test_limits(cache):
    """Past a limit a request isn't decided. Others are served, and the client too when its requests expired."""
    other = CredentialCache(c_cases.cache_of("carol"))
    with Acceptor(Keytab(fixture.keytab()), SERVICE, first_life=True, limit=5, limit_for_client=2) as service:
        assert [service.accept(asked(cache, AT, at), AT).client for at in range(2)] == ["alice@EX"] * 2
        past = asked(cache, AT, 2)
        assert fault_of(lambda: service.accept(past, AT + 9)) == ("FULL", 405, 0, 0)
        assert (service.remembered, service.latest) == (2, Moment(AT))
        assert service.accept(asked(other, AT), AT).client == "carol@EX"
        usage = service.usage
        assert (usage.remembered, usage.limit, usage.limit_for_client, usage.full) == (3, 5, 2, 1)
        assert fault_of(lambda: service.accept(asked(cache, AT + 300), AT + 300)) == ("FULL", 405, 0, 0)
        assert service.accept(asked(cache, AT + 300), AT + 301).client == "alice@EX"
        assert fault_of(lambda: service.accept(past, AT + 301), Refused)[0] == "SKEW"
        assert (service.remembered, service.usage.full) == (1, 2)
    other.close()


def test_default_limits():
    with Acceptor(Keytab(fixture.keytab()), SERVICE, first_life=True) as service:
        assert (service.usage.limit, service.usage.limit_for_client) == (1_000_000, 100_000)
    for wrong in ({"limit": 0}, {"limit_for_client": -1}):
        with pytest.raises(ValueError):
            Acceptor(Keytab(fixture.keytab()), SERVICE, first_life=True, **wrong)
    with pytest.raises(OverflowError):
        Acceptor(Keytab(fixture.keytab()), SERVICE, first_life=True, limit=1 << 64)


def test_malformed_repeat_and_start(service):
    assert fault_of(lambda: service.accept(b"\x6e", AT), Refused) == ("MALFORMED", 110, 60, 1)
    size = len(fixture.request())
    assert fault_of(lambda: service.accept(fixture.request() + b"x", AT), Refused) == ("MALFORMED", 110, 60, size)
    service.accept(fixture.request(), AT)
    assert fault_of(lambda: service.accept(fixture.request(), AT), Refused) == ("REPEAT", 220, 34, 0)
    again = Acceptor(Keytab(fixture.keytab()), SERVICE, 10, started=AT)
    assert fault_of(lambda: again.accept(fixture.request(), AT), Refused) == ("JUST_STARTED", 215, 37, 0)
    again = Acceptor(Keytab(fixture.keytab()), SERVICE, 10, started=AT - 11)
    assert again.accept(fixture.request(), AT).client == "alice@EX"


def test_acceptors_that_are_none():
    keytab = Keytab(fixture.keytab())
    with pytest.raises(ValueError):
        Acceptor(keytab, "", first_life=True)
    with pytest.raises(OverflowError):
        Acceptor(keytab, SERVICE, 2**32, first_life=True)
    assert fault_of(lambda: Acceptor(keytab, SERVICE, 86_401, first_life=True))[0] == "BAD_SKEW"
    assert fault_of(lambda: Acceptor(keytab, "host/web", started=AT))[0] == "NO_REALM"
    assert fault_of(lambda: Acceptor(keytab, "ho\\st@EX", first_life=True)) == ("BAD_TEXT", 810, 0, 2)


@pytest.mark.parametrize("words", [
    {}, {"started": None}, {"first_life": False}, {"started": None, "first_life": False}, {"started": AT, "first_life": True},
    {"started": True}, {"started": False}, {"first_life": 1}, {"first_life": None}, {"started": "now"}])
def test_acceptors_without_a_word_on_restarts(words):
    with pytest.raises(TypeError):
        Acceptor(Keytab(fixture.keytab()), SERVICE, **words)


@pytest.mark.parametrize("start", [0, 0.0, -1, 1.5, 86_400, 1_577_836_799, 1_577_836_799.999, Moment(1_577_836_799, 999_999), pytest.param(time.monotonic(), id="the monotonic clock")])
def test_starts_that_are_too_early(start):
    assert fault_of(lambda: Acceptor(Keytab(fixture.keytab()), SERVICE, started=start)) == ("EARLY_START", 419, 0, 0)


@pytest.mark.parametrize("start", [float("nan"), float("inf"), -float("inf")])
def test_starts_that_are_no_moment(start):
    with pytest.raises(ValueError):
        Acceptor(Keytab(fixture.keytab()), SERVICE, started=start)


@pytest.mark.parametrize("skew", [True, False])
def test_skews_that_are_no_number(skew):
    with pytest.raises(TypeError):
        Acceptor(Keytab(fixture.keytab()), SERVICE, skew, first_life=True)


def test_the_earliest_start():
    assert Acceptor(Keytab(fixture.keytab()), SERVICE, started=1_577_836_800).accept(fixture.request(), AT).client == "alice@EX"


def test_stamps():
    request = fixture.made()["mutual request with a subkey and a number"]
    with Acceptor(Keytab(fixture.keytab()), SERVICE, 600, first_life=True) as service:
        accepted = service.accept(request, AT)
        # the service's own skew, if no other is given
        assert accepted.stamp().keep_until == Moment(AT + 1200, 5)
        assert accepted.stamp(900).keep_until == Moment(AT + 1800, 5)
        assert accepted.stamp().data == accepted.stamp(900).data
        for wrong in (-1, 2**32):
            with pytest.raises(OverflowError):
                accepted.stamp(wrong)


def test_moments():
    assert Moment.of(-0.5) == Moment(-1, 500_000) and Moment.of(-1e-20).seconds == -1 and Moment.of(3) == Moment(3)
    before = int(time.time())
    assert before <= Moment.now().seconds <= time.time()
    for strange in (lambda: Moment(2**64), lambda: Moment(0, -1), lambda: Moment.of(float("nan"))):
        with pytest.raises(ValueError):
            strange()
    for endless in ("nan", "inf", "-inf"):
        with pytest.raises(ValueError, match=f"a moment can't be {endless}"):
            Moment.of(float(endless))


def test_an_exchange(service, cache):
    request, pending = make_request(cache, SERVICE, now=Moment(AT, 5), subkey=LONG, seq=9)
    accepted = service.accept(request, AT)
    assert (accepted.subkey, accepted.seq, accepted.time) == (LONG, 9, Moment(AT, 5))
    agreed = pending.finish(accepted.reply(subkey=SHORT, seq=128))
    assert (agreed.client, agreed.session_key, agreed.service_subkey, agreed.service_seq, agreed.client_type) == (
        "alice@EX", accepted.session_key, SHORT, 128, 1)
    agreed = pending.finish(accepted.reply())
    assert agreed.service_subkey is None and agreed.service_seq is None
    assert repr(fixture.SESSION_KEY)[2:-1] not in repr(agreed)
    plain, _ = make_request(cache, SERVICE, now=Moment(AT, 6), wants_reply=False)
    assert not service.accept(plain, AT).wants_reply


def test_replies_that_are_none(service, cache):
    _, pending = make_request(cache, SERVICE, now=Moment(AT, 6))
    accepted = service.accept(fixture.request(), AT)
    assert fault_of(lambda: pending.finish(b"no")) == ("REPLY_TYPE", 700, 0, 0)
    assert fault_of(lambda: pending.finish(b"\x6f"))[::3] == ("REPLY_MALFORMED", 1)
    assert fault_of(lambda: pending.finish(fixture.reply()[:-1] + b"x"))[0] == "REPLY_INTEGRITY"
    assert fault_of(lambda: pending.finish(accepted.reply())) == ("REPLY_MISMATCH", 703, 46, 0)
    assert fault_of(lambda: accepted.reply(subkey=Key(18, bytes(32))))[0] == "KEY_TYPE"
    assert fault_of(lambda: accepted.reply(subkey=Key(20, bytes(16))))[0] == "KEY_LENGTH"


def test_no_request(cache):
    assert fault_of(lambda: make_request(cache, "host/mail@EX", now=AT))[0] == "NO_CREDENTIAL"
    assert fault_of(lambda: make_request(cache, SERVICE))[0] == "CREDENTIAL_EXPIRED"
    for name, data in c_cases.prevented():
        assert fault_of(lambda: make_request(CredentialCache(data), SERVICE, now=AT))[0] == name
    for number in (-1, 2**32):
        with pytest.raises(OverflowError):
            make_request(cache, SERVICE, now=AT, seq=number)


def test_a_request_longer_than_the_first_buffer():
    part = c_cases.ticket_part(data=der.sequence(der.key(1, bytes(5_000))))
    with CredentialCache(fixture.cache(c_cases.ticket(part))) as cache:
        request, _ = make_request(cache, SERVICE, now=AT)
    accepted = Acceptor(Keytab(fixture.keytab()), SERVICE, first_life=True).accept(request, AT)
    assert accepted.authorization == (TypedData(1, bytes(5_000)),)


def test_closed(service, cache):
    request, pending = make_request(cache, SERVICE, now=AT)
    accepted = service.accept(request, AT)
    reply = accepted.reply()
    for handle, call in ((pending, lambda: pending.finish(reply)), (accepted, accepted.reply),
                         (cache, lambda: make_request(cache, SERVICE)),
                         (service, lambda: service.accept(request, AT)), (service, lambda: service.latest)):
        handle.close()
        handle.close()
        assert fault_of(call)[0] == "EMPTY_HANDLE"
    assert accepted.client == "alice@EX" and service.remembered == 0 and cache.owner.name == "alice@EX"


def test_context_managers():
    with CredentialCache(fixture.cache()) as cache, Acceptor(Keytab(fixture.keytab()), SERVICE, first_life=True) as service:
        request, pending = make_request(cache, SERVICE, now=AT)
        with pending, service.accept(request, AT) as accepted:
            pending.finish(accepted.reply())
    for call in (accepted.reply, lambda: pending.finish(fixture.reply()), lambda: make_request(cache, SERVICE)):
        assert fault_of(call)[0] == "EMPTY_HANDLE"


def test_after_a_fork(service):
    child = os.fork()
    if child == 0:
        try:
            service.accept(fixture.request(), AT)
        except RuntimeError:
            os._exit(7)
        os._exit(8)
    assert os.waitstatus_to_exitcode(os.waitpid(child, 0)[1]) == 7
    assert service.accept(fixture.request(), AT).client == "alice@EX"


def test_texts_under_keys():
    for key in (LONG, SHORT):
        for plain in (b"", b"hello", bytes(100_000)):
            sealed = key.seal(1024, plain)
            assert key.open(1024, sealed) == plain and key.seal(1024, plain) != sealed
            assert fault_of(lambda: key.open(1025, sealed))[0] == "TEXT_INTEGRITY"
            assert key.verify(7, plain, key.checksum(7, plain)) and not key.verify(8, plain, key.checksum(7, plain))
        assert fault_of(lambda: key.open(1024, bytes(31)))[0] == "TEXT_SHORT"
        with pytest.raises(OverflowError):
            key.seal(2**32, b"")
    assert fault_of(lambda: Key(18, bytes(32)).checksum(1, b""))[0] == "KEY_TYPE"
    assert fault_of(lambda: Key(19, bytes(17)).verify(1, b"", b""))[0] == "KEY_LENGTH"
    assert Key.random(19) != Key.random(19) and repr(LONG) == "Key(kind=20)"
    assert fixture.sealed(19, SHORT.data, 1024, bytes(16), b"hello") != SHORT.seal(1024, b"hello")
    assert SHORT.open(1024, fixture.sealed(19, SHORT.data, 1024, bytes(16), b"hello")) == b"hello"


def test_names():
    assert check_name("host/web@EX") == 2
    assert fault_of(lambda: check_name("a\\b@EX")) == ("BAD_TEXT", 810, 0, 1)


def test_exceptions():
    assert issubclass(Refused, Error) and issubclass(Fault, Error) and not issubclass(Refused, Fault)
    refused = pickle.loads(pickle.dumps(Refused(220, 34)))
    assert (refused.cause, refused.kerberos) == (Code.REPEAT, 34)
    assert Fault(499).name == "CODE_499" and str(Fault(499)) == "CODE_499: a code that this version doesn't know"
    assert fault_of(lambda: Refused(299).error(SERVICE, now=AT))[0] == "NO_CODE"
