"""One call for a login: what is let in, what goes back, each step that people forget, and any bytes."""
import copy
import os
import pickle
import random
import threading
from collections import Counter

import pytest
from hypothesis import HealthCheck, given, settings, strategies as draw

from fevstunik import (
    Asked, Client, Code, Connection, CredentialCache, Fault, GoOn, Key, Keytab, KrbError, Login, Moment, Refused,
    Service, TicketFlags, TypedData, _interface, _library, make_request, open_answer, wrap_request)
from fevstunik._tokens import bindings_of

from support import c_cases, der, fixture, gss_rules

NAME, NOW = "host/web@EX", 1_700_000_100
CHANNEL, OTHER = b"tls-server-end-point:abc", b"tls-server-end-point:abd"
MUTUAL, TRANSITED_CHECKED, ANONYMOUS = 1 << 29, 1 << 19, 1 << 15
REJECT, COMPLETED = bytes.fromhex("a1073005a0030a0102"), bytes.fromhex("a1143012a0030a0100a10b06092a864886f712010202")
COMPLETED_LATER = bytes.fromhex("a1073005a0030a0100")
FIRST, ASKED = gss_rules.negotiation([gss_rules.KERBEROS], None), gss_rules.response(gss_rules.KERBEROS, None, 1)


def serving(keytab=None, name=NAME, **terms):
    return Service(Keytab(keytab or fixture.keytab()), name, **{"first_life": True, **terms})


@pytest.fixture
def service():
    with serving() as made:
        yield made


@pytest.fixture
def cache():
    with CredentialCache(fixture.cache()) as made:
        yield made


def asking(micros=5, *, flags=0, realm=b"EX", client=der.name(1, b"alice"), options=0, checksum=None, kvno=3,
           service=(b"host", b"web")):
    """A request that differs from the fixture's in what is given."""
    part = der.enc_ticket_part(flags, der.key(19, fixture.SESSION_KEY), realm, client, fixture.AUTHTIME,
                               fixture.ENDTIME)
    auth = der.authenticator(realm, client, micros, NOW, checksum=checksum)
    cipher = fixture.sealed(19, fixture.SESSION_KEY, 11, bytes(16), auth)
    return der.request(options, c_cases.ticket(part, kvno=kvno, service=service), der.encrypted(19, cipher))


def kerberos(message, kind=b"\1\0"):
    return gss_rules.kerberos(gss_rules.KERBEROS, message, kind)


def later(request):
    """A request in the second token of a negotiation."""
    return gss_rules.going_on(kerberos(request))


def bound_to(data, micros=5):
    return asking(micros, checksum=fixture.context(False, bindings=bytes(16) if data is None else bindings_of(data)))


# How a request is wrapped, a reply and an error; and what completes without a reply, and rejects without an error.
FORMS = {
    "bare": (bytes, bytes, bytes, b"", b""),
    "token": (kerberos, lambda it: kerberos(it, b"\2\0"), lambda it: kerberos(it, b"\3\0"), b"", b""),
    "negotiation": (wrap_request, lambda it: gss_rules.response(gss_rules.KERBEROS, kerberos(it, b"\2\0"), 0),
                    lambda it: gss_rules.response(gss_rules.KERBEROS, kerberos(it, b"\3\0"), 2), COMPLETED, REJECT),
}
forms = pytest.mark.parametrize("form", FORMS.values(), ids=FORMS)


# ---------------------------------------------------------------- what goes back


@forms
def test_a_client_that_wants_a_reply(service, cache, form):
    words = {"bare": {"context": None}, "token": {"negotiated": False}, "negotiation": {}}
    name = next(it for it, one in FORMS.items() if one is form)
    client = Client(cache, NAME, **words[name])
    login = service.answer(client.first(now=NOW), NOW)
    assert isinstance(login, Login) and (login.client, login.wants_reply) == ("alice@EX", True)
    agreed = client.finish(login.reply)
    assert (agreed.client, agreed.session_key, agreed.service_subkey) == ("alice@EX", login.session_key, None)
    assert login.service_subkey is None and service.remembered == 1


@forms
def test_a_client_that_wants_none(service, form):
    wrap, _, _, completed, _ = form
    login = service.answer(wrap(asking()), NOW)
    assert (login.client, login.wants_reply, login.reply) == ("alice@EX", False, completed)


@forms
def test_a_refusal(service, form):
    """An error goes only to a client that asked for a reply."""
    wrap, _, error, _, rejected = form
    refused = service.answer(wrap(asking(kvno=5, options=MUTUAL)), Moment(NOW, 7))
    assert isinstance(refused, Refused) and (refused.cause, refused.kerberos) == (Code.BAD_KEY_VERSION, 44)
    assert refused.reply == error(fixture.error(44))
    assert refused.asked == Asked(NAME, 19, 5, True)
    refused = service.answer(wrap(asking(kvno=5)), NOW)
    assert (refused.reply, refused.asked) == (rejected, Asked(NAME, 19, 5, False))


def test_messages_without_first_numbers(service, cache):
    """A side that has sent no sequence number begins with 0."""
    request, pending = make_request(cache, NAME, now=NOW)
    login = service.answer(request, NOW)
    with login.messages() as ours, pending.finish(login.reply).messages() as theirs:
        assert login.seq is None
        for sender, taker in ((ours, theirs), (theirs, ours)):
            opened = taker.unwrap(sender.wrap(b"text"))
            assert (opened.text, opened.number, opened.order.name) == (b"text", 0, "NEXT")


def test_a_checksum_of_another_type(service):
    """It says nothing of a context."""
    login = service.answer(asking(checksum=der.key(16, bytes(20))), NOW)
    assert (login.checksum, login.context) == (TypedData(16, bytes(20)), None)


def test_all_that_is_known(service):
    login = service.answer(fixture.made()["mutual request with a subkey and a number"], NOW)
    assert (login.client, login.service, login.time) == ("alice@EX", NAME, Moment(NOW, 5))
    assert (login.authtime, login.starttime, login.endtime) == (1_700_000_000, None, 1_700_036_000)
    assert login.flags == TicketFlags(0)
    assert (login.session_key, login.subkey.kind, login.seq) == (Key(19, fixture.SESSION_KEY), 20, 4_294_967_295)
    assert (login.client_type, login.service_type, login.context) == (1, 3, None)
    assert login.stamp().keep_until == Moment(NOW + 600, 5)
    login.close()
    with pytest.raises(Fault, match="EMPTY_HANDLE"):
        login.stamp()
    login = serving().answer(c_cases.with_lists(), NOW)
    assert login.addresses == (TypedData(2, bytes([192, 0, 2, 1])), TypedData(24, bytes(range(0xF0, 0x100))))
    assert login.authorization == (TypedData(1, b"first"), TypedData(1, b""), TypedData(1, b"the third"))
    assert login.authenticator_authorization == (TypedData(1, b"alone"),)
    assert login.checksum == TypedData(-138, bytes(range(0x50, 0x60)))
    for secret in (fixture.SESSION_KEY, login.reply):
        assert not secret or repr(secret)[2:-1] not in repr(login)
    for thing in (login, service, service.login()):
        for copied in (copy.copy, pickle.dumps):
            with pytest.raises(TypeError):
                copied(thing)


@pytest.mark.parametrize("kind", [19, 20])
def test_a_new_key_with_each_reply(cache, kind):
    with serving(subkey=kind) as service:
        keys = set()
        for second in range(3):
            client = Client(cache, NAME)
            login = service.answer(client.first(now=NOW + second), NOW)
            assert client.finish(login.reply).service_subkey == login.service_subkey
            keys.add((login.service_subkey.kind, login.service_subkey.data))
        assert len(keys) == 3 and {it for it, _ in keys} == {kind}
        assert service.answer(asking(), NOW).service_subkey is None


# ---------------------------------------------------------------- what people forget


@pytest.mark.parametrize("words, sent, let_in", [
    ({}, OTHER, True), ({}, None, True),
    ({"bindings": CHANNEL}, CHANNEL, True), ({"bindings": CHANNEL}, None, True), ({"bindings": CHANNEL}, OTHER, False),
    ({"bindings": CHANNEL, "bindings_required": True}, CHANNEL, True),
    ({"bindings": CHANNEL, "bindings_required": True}, None, False),
    ({"bindings": CHANNEL, "bindings_required": True}, OTHER, False)])
def test_bindings(words, sent, let_in):
    with serving(**words) as service:
        decision = service.answer(bound_to(sent), NOW)
        if let_in:
            assert decision.client == "alice@EX"
        else:
            assert (decision.cause, decision.asked) == (Code.CHANNEL_BINDINGS, Asked(NAME, 19, 3, False))
        # (a request without the checksum of GSS-API sends none)
        assert isinstance(service.answer(asking(6), NOW), Refused if "bindings_required" in words else Login)


def test_bindings_are_replaced():
    with serving(bindings=CHANNEL, bindings_required=True) as service:
        service.replace_bindings(OTHER, required=True)
        assert service.answer(bound_to(CHANNEL, 1), NOW).cause == Code.CHANNEL_BINDINGS
        assert service.answer(bound_to(OTHER, 2), NOW).client == "alice@EX"
        assert service.answer(bound_to(None, 3), NOW).cause == Code.CHANNEL_BINDINGS
        service.replace_bindings(OTHER)
        assert service.answer(bound_to(None, 4), NOW).client == "alice@EX"
        with pytest.raises(ValueError):
            service.replace_bindings(None, required=True)
        assert service.answer(bound_to(CHANNEL, 5), NOW).cause == Code.CHANNEL_BINDINGS
        service.replace_bindings(None)
        assert service.answer(bound_to(CHANNEL, 6), NOW).client == "alice@EX"


def test_bindings_of_a_real_client(cache):
    with serving(bindings=CHANNEL, bindings_required=True) as service:
        client = Client(cache, NAME, bindings=CHANNEL)
        assert client.finish(service.answer(client.first(now=NOW), NOW).reply).client == "alice@EX"
        refused = service.answer(Client(cache, NAME, bindings=OTHER).first(now=NOW + 1), NOW)
        assert refused.cause == Code.CHANNEL_BINDINGS and KrbError.read(open_answer(refused.reply).message).code == 60


NOBODY = der.name(11, b"WELLKNOWN", b"ANONYMOUS")


@pytest.mark.parametrize("words", [
    {"client": NOBODY, "realm": b"WELLKNOWN:ANONYMOUS", "flags": ANONYMOUS | TRANSITED_CHECKED}, {"flags": ANONYMOUS},
    {"client": NOBODY, "flags": ANONYMOUS}], ids=["by name and flag", "by flag", "of a realm"])
def test_anonymous_clients(words):
    with serving() as service:
        assert service.answer(asking(**words), NOW).cause == Code.ANONYMOUS_CLIENT
        assert service.answer(asking(**words), NOW).cause == Code.REPEAT
    with serving(anonymous=True) as service:
        assert TicketFlags.ANONYMOUS in service.answer(asking(**words), NOW).flags


def test_clients_of_other_realms():
    foreign = {"realm": b"OTHER", "flags": TRANSITED_CHECKED}
    for realms, let_in in ((None, True), (["EX"], False), (["EX", "OTHER"], True), (["OTHE"], False),
                           (["OTHERS", "other"], False), ([], False)):
        with serving(realms=realms) as service:
            decision = service.answer(asking(**foreign), NOW)
            assert (decision.client == "alice@OTHER") if let_in else decision.cause == Code.FOREIGN_REALM
            assert isinstance(service.answer(asking(6), NOW), Login if realms is None or "EX" in realms else Refused)


def test_a_ticket_for_another_service(service):
    refused = service.answer(asking(service=(b"host", b"mail")), NOW)
    assert (refused.cause, refused.asked.name, refused.serves) == (Code.NOT_US, "host/mail@EX", "host/web@EX")
    assert str(refused).endswith("(ticket for host/mail@EX, etype 19, kvno 3); this service is host/web@EX")


def test_sent_twice(service, cache):
    client = Client(cache, NAME)
    token = client.first(now=NOW)
    first, second = service.answer(token, NOW), service.answer(token, NOW)
    assert first.client == "alice@EX" and second.cause == Code.REPEAT
    assert first and not second
    assert KrbError.read(open_answer(second.reply).message).code == 34
    assert service.answer(kerberos(asking()), NOW).client == "alice@EX"
    # also in another form
    assert service.answer(asking(), NOW).cause == service.answer(wrap_request(asking()), NOW).cause == Code.REPEAT


def test_a_broken_term_is_remembered():
    with serving(realms=["OTHER"]) as service:
        assert [service.answer(asking(), NOW).cause for _ in range(2)] == [Code.FOREIGN_REALM, Code.REPEAT]
        assert service.remembered == 1


def test_just_started_and_full():
    with serving(first_life=False, started=NOW) as service:
        refused = service.answer(asking(), NOW)
        assert (refused.cause, refused.may_pass) == (Code.JUST_STARTED, True)
    with serving(limit=1) as service:
        assert service.answer(asking(), NOW).client == "alice@EX"
        refused = service.answer(asking(6), NOW)
        assert (refused.cause, refused.may_pass, service.remembered, service.usage.full) == (Code.FULL, True, 1, 1)
        assert not service.answer(asking(), NOW).may_pass


# ---------------------------------------------------------------- rounds


def test_two_rounds(service, cache):
    connection, client = service.login(), Client(cache, NAME, context=None)
    request = client.first(now=NOW)
    asks = connection.answer(FIRST, NOW)
    assert isinstance(asks, GoOn) and asks.reply == ASKED and not asks
    login = connection.answer(later(request), NOW)
    assert login.client == "alice@EX" and login.reply.startswith(b"\xa1")
    assert client.finish(login.reply[login.reply.index(b"\2\0\x6f") + 2:]).client == "alice@EX"
    for data in (request, FIRST, b""):
        assert connection.answer(data, NOW).cause == Code.NEGOTIATION_OVER
    # what was let in stays so
    assert login.stamp().keep_until.seconds == NOW + 600 and login.addresses == ()


def test_two_rounds_without_a_reply(service):
    connection = service.login()
    connection.answer(FIRST, NOW)
    login = connection.answer(later(asking()), NOW)
    assert (login.client, login.reply) == ("alice@EX", COMPLETED_LATER)
    connection = service.login()
    connection.answer(FIRST, NOW)
    refused = connection.answer(later(asking()), NOW)
    assert (refused.cause, refused.reply) == (Code.REPEAT, REJECT)


def test_rounds_of_several_clients(service):
    """Their tokens come in any order: each connection has its own state."""
    connections = [service.login() for _ in range(50)]
    order = random.Random(5).sample(range(50), 50)
    assert all(isinstance(connections[at].answer(FIRST, NOW), GoOn) for at in order)
    found = [connections[at].answer(later(asking(at)), NOW) for at in reversed(order)]
    assert [it.time.micros for it in found] == list(reversed(order))


def test_one_round_forgets_the_negotiation(service):
    assert service.answer(FIRST, NOW).reply == ASKED
    refused = service.answer(later(asking()), NOW)
    assert (refused.cause, refused.asked) == (Code.TOKEN_CONTINUES, None)


@pytest.mark.parametrize("data, cause", [
    (b"", "NOT_A_TOKEN"), (b"NTLMSSP\0\1", "NOT_A_TOKEN"), (b"\x60\x00", "TOKEN_MALFORMED"), (b"\x6e", "MALFORMED"),
    (b"\x6e\x00", "MALFORMED"),
    (gss_rules.negotiation([gss_rules.NTLM], b"NTLMSSP"), "NTLM"),
    (gss_rules.negotiation([gss_rules.KERBEROS], b"\x6e\x00"), "TOKEN_UNFRAMED"),
    (kerberos(b"\x6f\x00"), "MESSAGE_TYPE")],
                         ids=lambda it: it if isinstance(it, str) else "")
def test_what_is_no_request(service, data, cause):
    connection = service.login()
    refused = connection.answer(data, NOW)
    assert (refused.cause, refused.asked) == (Code[cause], None)
    assert connection.answer(asking(), NOW).cause == Code.NEGOTIATION_OVER and service.remembered == 0


# ---------------------------------------------------------------- texts for logs


def with_keys(*kvnos):
    keytab = Keytab(b"\5\2")
    entry, = Keytab(fixture.keytab()).entries
    for kvno in kvnos:
        keytab = keytab.added(type(entry)(NAME, entry.key, kvno)).added(type(entry)("host/mail@EX", entry.key, 99))
    return keytab.data


@pytest.mark.parametrize("kvnos, said", [
    ([3, 4], "kvno 3, 4"), ([3], "kvno 3"), (range(1, 5), "kvno 1, 2, 3, 4"), (range(1, 5), "kvno 1, 2, 3, 4"),
    (range(10, 30), "kvno 10, 11, 12, 13, 14, 15, 16, 17, ..")])
def test_the_text_of_an_old_key(kvnos, said):
    with serving(with_keys(*kvnos)) as service:
        refused = service.answer(asking(kvno=5), NOW)
        assert str(refused) == f"BAD_KEY_VERSION: ticket for host/web@EX, etype 19, kvno 5; the keytab has {said}"
        assert refused.held == tuple(kvnos)
        service.replace_keytab(Keytab(with_keys(7)), NAME)
        assert service.answer(asking(kvno=5), NOW).held == (7,)


def test_the_text_of_other_refusals(service):
    service.answer(asking(), NOW)
    assert str(service.answer(asking(), NOW)) == (
        "REPEAT: a request of this service, client and time was seen before (ticket for host/web@EX, etype 19, kvno 3)")
    assert str(service.answer(b"\x6e", NOW)) == "MALFORMED: the bytes aren't a request, at 1"
    assert str(service.answer(b"NTLMSSP", NOW)) == "NOT_A_TOKEN: the first byte isn't that of a token"


@pytest.mark.parametrize("part", ["host\nroot logged in", "\x1b[31m", "\u202e", "x" * 100_000, "\0", "\u2028",
                                  "\ud7ff"], ids=ascii)
def test_the_text_of_a_hostile_request(service, part):
    """A name can't begin a line of a log, nor colour a terminal, nor fill a disk. The answer is whole."""
    refused = service.answer(asking(service=(part.encode(), b"web"), options=MUTUAL), Moment(NOW, 7))
    text = str(refused)
    assert refused.cause == Code.NOT_US and text.isprintable() and len(text) < 700
    error = KrbError.read(refused.reply)
    assert (error.code, error.service) == (35, refused.asked.name) and len(error.service) >= len(part)


def test_a_long_reply_is_decided_once(service):
    """The bytes that go back don't fit into the first buffer."""
    name = (b"host", b"x" * 5_000)
    token = wrap_request(asking(service=name, options=MUTUAL))
    refused = service.answer(token, NOW)
    assert len(refused.reply) > 5_000 and refused.cause == Code.NOT_US
    assert KrbError.read(open_answer(refused.reply).message).service == f"host/{'x' * 5_000}@EX"


def test_asked_without_a_key():
    assert Asked.read(asking(kvno=5, options=MUTUAL)) == Asked(NAME, 19, 5, True)
    assert Asked.read(asking(kvno=None)) == Asked(NAME, 19, None, False)
    assert str(Asked("HTTP/www@EX", 20, None, False)) == "ticket for HTTP/www@EX, etype 20"
    for size in range(len(asking())):
        assert Asked.read(asking()[:size]) is None
    refused = serving().answer(asking(kvno=9), NOW)
    assert str(pickle.loads(pickle.dumps(refused))) == str(refused)


@pytest.mark.parametrize("name", ["service_answer", "accepted_known", "accepted_start", "login_asked"])
def test_memory_runs_out(service, monkeypatch, name):
    """In any call that answers a client: nobody is let in, and what was decided stays so."""
    call, none = _library.Library.call, _interface.Answer(Code.OUT_OF_MEMORY)
    with monkeypatch.context() as now:
        now.setattr(_library.Library, "call",
                    lambda self, called, *words: none if called == name else call(self, called, *words))
        decision = service.answer(asking(kvno=5 if name == "login_asked" else 3), NOW)
    assert isinstance(decision, Refused) and decision.asked is None
    assert decision.cause == (Code.BAD_KEY_VERSION if name == "login_asked" else Code.OUT_OF_MEMORY)
    assert isinstance(service.answer(asking(), NOW), Refused if name.startswith("accepted") else Login)


# ---------------------------------------------------------------- any bytes


# (the same each time, and also on a slow machine)
SOME = settings(max_examples=300, deadline=None, database=None, derandomize=True, print_blob=True,
                suppress_health_check=[HealthCheck.too_slow])
requests = draw.builds(
    asking, draw.integers(0, 999_999), flags=draw.sampled_from([0, ANONYMOUS, TRANSITED_CHECKED]),
    realm=draw.sampled_from([b"EX", b"OTHER"]),
    options=draw.sampled_from([0, MUTUAL]), kvno=draw.integers(0, 5),
    checksum=draw.sampled_from([None, fixture.context(False, bindings=b"x" * 16)]))
tokens = requests | requests.map(wrap_request) | requests.map(kerberos) | requests.map(later) | draw.just(FIRST)
anything = draw.binary(max_size=64) | draw.builds(lambda front, rest: front + rest,
                                                  draw.sampled_from([b"\x6e", b"\x60", b"\xa1"]), draw.binary())
bent = draw.builds(lambda data, at, byte: data[:at % len(data)] + byte + data[at % len(data) + 1:], tokens,
                   draw.integers(0, 9_999),
                   draw.binary(max_size=2))


@given(draw.lists(tokens | bent | anything, max_size=4))
@SOME
def test_any_bytes(conversation):
    """Each answer is one of the three; the first that isn't GoOn ends the login, and only it may be a Login."""
    with serving(realms=["EX"], bindings=CHANNEL, subkey=20) as service:
        connection, over = service.login(), False
        for data in conversation:
            decision = connection.answer(data, NOW)
            assert isinstance(decision, (Login, GoOn, Refused)) and isinstance(decision.reply, bytes)
            if over:
                assert decision.cause == Code.NEGOTIATION_OVER
            if isinstance(decision, Login):
                assert decision.client == "alice@EX" and TicketFlags.ANONYMOUS not in decision.flags
            if isinstance(decision, GoOn):
                assert decision.reply
            if isinstance(decision, Refused):
                assert str(decision).startswith(decision.cause.name) and str(decision).isprintable()
            over = over or not isinstance(decision, GoOn)


# ---------------------------------------------------------------- misuse, threads and forks


@pytest.mark.parametrize("words, fault", [
    ({"realms": "EX"}, TypeError), ({"realms": [b"EX"]}, TypeError), ({"realms": 5}, TypeError),
    ({"bindings_required": True}, ValueError),
    ({"bindings": CHANNEL, "bindings_required": 1}, TypeError), ({"bindings": "text"}, TypeError),
    ({"anonymous": 1}, TypeError),
    ({"anonymous": None}, TypeError), ({"subkey": 18}, ValueError), ({"subkey": True}, ValueError),
    ({"subkey": 0}, ValueError),
    ({"first_life": False}, TypeError), ({"started": NOW}, TypeError), ({"limit": 0}, ValueError)], ids=repr)
def test_services_that_are_none(words, fault):
    with pytest.raises(fault):
        serving(**words)


@pytest.mark.parametrize("data", [None, 5, "text", [1]], ids=repr)
def test_what_is_not_bytes(service, data):
    connection = service.login()
    with pytest.raises(TypeError):
        connection.answer(data, NOW)
    for moment in (True, "now", float("nan")):
        with pytest.raises((TypeError, ValueError)):
            connection.answer(asking(), moment)
    assert connection.answer(asking(), NOW).client == "alice@EX"


def test_what_is_first_asked_for_after_the_login_is_closed(service):
    """It is what it would have been before."""
    names = ("service", "time", "authtime", "starttime", "endtime", "session_key", "subkey", "seq", "client_type",
             "service_type")
    login, other = service.answer(asking(1), NOW), service.answer(asking(2), NOW)
    before = [getattr(login, name) for name in names]
    for it in (login, other):
        it.close()
    assert [getattr(login, name) for name in names] == before
    after = [getattr(other, name) for name in names]
    assert [name for name, one, another in zip(names, before, after) if one != another] == ["time"]
    assert other.session_key is other.session_key
    with pytest.raises(AttributeError, match="'Login' object has no attribute 'sessionkey'"):
        other.sessionkey


def test_a_closed_service(service):
    connection, login = service.login(), service.answer(asking(), NOW)
    service.close()
    for call in (lambda: service.answer(asking(6), NOW), lambda: connection.answer(asking(6), NOW)):
        with pytest.raises(Fault, match="EMPTY_HANDLE"):
            call()
    assert login.stamp().keep_until.seconds == NOW + 600


def test_threads(service):
    """Eight threads send the same requests, in one round and in two: each is let in once, with its own client."""
    requests, found = [asking(micros) for micros in range(400)], []

    def work():
        for micros, request in enumerate(requests):
            connection = service.login()
            if micros % 2:
                connection.answer(FIRST, NOW)
                request = later(request)
            decision = connection.answer(request, NOW)
            found.append(f"in {decision.time.micros}" if isinstance(decision, Login) else decision.cause.name)
    threads = [threading.Thread(target=work) for _ in range(8)]
    for thread in threads:
        thread.start()
    for thread in threads:
        thread.join()
    assert Counter(found) == Counter({**{f"in {micros}": 1 for micros in range(400)}, "REPEAT": 7 * 400})


def test_one_connection_of_several_threads(service):
    """A program's fault: but one decision is made, and the others are over."""
    for micros in range(100):
        connection, token, found = service.login(), asking(micros), []
        threads = [threading.Thread(target=lambda: found.append(connection.answer(token, NOW))) for _ in range(4)]
        for thread in threads:
            thread.start()
        for thread in threads:
            thread.join()
        assert sorted(type(it).__name__ for it in found) == ["Login", "Refused", "Refused", "Refused"]
        assert {it.cause for it in found if isinstance(it, Refused)} == {Code.NEGOTIATION_OVER}


def test_after_a_fork(service):
    connection, login = service.login(), service.answer(asking(), NOW)
    child = os.fork()
    if not child:
        found = 0
        for call in (lambda: service.answer(asking(6), NOW), lambda: connection.answer(asking(6), NOW), login.stamp,
                     service.close):
            try:
                call()
            except RuntimeError:
                found += 1
        os._exit(found)
    assert os.waitstatus_to_exitcode(os.waitpid(child, 0)[1]) == 4
    assert connection.answer(asking(6), NOW).client == "alice@EX"


def test_what_is_let_in_may_outlive_its_service():
    login = serving().answer(c_cases.with_lists(), NOW)
    connection = serving().login()
    assert len(login.addresses) == 2 and isinstance(connection, Connection)
    assert connection.answer(asking(), NOW).client == "alice@EX"
