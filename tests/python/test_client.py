"""The client's side by one object: each form of an answer, refusals, and channel bindings of TLS."""
import pickle
import ssl
import subprocess

import pytest

from fevstunik import (
    Acceptor, Client, Code, ContextFlags, CredentialCache, Fault, Keytab, KrbError, Mechanism, Messages, Moment,
    Refused, Says, Service, ServiceError, Side, Token, Verdict, login, tls_server_end_point)
from fevstunik._values import LAST_SECOND
from support import c_cases, der, fixture

NAME, NOW = "host/web@EX", 1_700_000_100
# How the first bytes are wrapped: in a negotiation, in a token of Kerberos, or not at all.
FORMS = {"negotiation": {}, "token": {"negotiated": False}, "bare": {"context": None}}
forms = pytest.mark.parametrize("words", FORMS.values(), ids=FORMS)


@pytest.fixture
def cache():
    with CredentialCache(fixture.cache()) as made:
        yield made


@pytest.fixture
def service():
    with Acceptor(Keytab(fixture.keytab()), NAME, first_life=True) as made:
        yield made


def opened(token):
    """The request in a client's first bytes, and what wraps a reply and an error as those bytes are."""
    if token[:1] == b"\x6e":
        return token, bytes, bytes
    held = Token.open(token)
    return held.request, held.reply, held.error


@forms
def test_a_login(cache, service, words):
    with Client(cache, NAME, **words) as client:
        request, reply, _ = opened(client.first(now=NOW))
        accepted = service.accept(request, NOW)
        agreed = client.finish(reply(accepted.reply(seq=7)))
    assert (agreed.client, agreed.session_key, agreed.service_seq) == ("alice@EX", accepted.session_key, 7)
    assert accepted.wants_reply and (accepted.context is None) == ("context" in words)
    with pytest.raises(RuntimeError):
        client.finish(b"")


LONG_KEY = bytes(range(32))
OF_TYPE_20 = c_cases.ticket(der.enc_ticket_part(0, der.key(20, LONG_KEY), b"EX", fixture.ALICE, fixture.AUTHTIME,
                                                fixture.ENDTIME))


def credential(kind, end=fixture.ENDTIME, client=b"alice"):
    """A ticket in a cache, with a session key of a type."""
    key, ticket = {19: (fixture.SESSION_KEY, fixture.ticket()), 20: (LONG_KEY, OF_TYPE_20),
                   18: (LONG_KEY, fixture.ticket())}[kind]
    names = fixture.principal(1, b"EX", client), fixture.principal(3, b"EX", b"host", b"web")
    return fixture.credential(*names, kind, key, (fixture.AUTHTIME, 0, end, 0), ticket)


@pytest.mark.parametrize("held, kind", [
    ([credential(20, NOW + 1), credential(19)], 20), ([credential(19), credential(20)], 19),
    ([credential(20, NOW), credential(19)], 19), ([credential(20, client=b"bob"), credential(19)], 19),
    ([credential(18), credential(19)], 19)],
    ids=["the first", "the first, which is shorter", "one that hasn't ended", "the owner's", "one of a usable key"])
def test_the_type_of_the_subkey(service, held, kind):
    """It is that of the session key of the ticket that is used."""
    head = b"\x05\x04\0\0" + fixture.principal(1, b"EX", b"alice")
    request, _, _ = opened(Client(CredentialCache(head + b"".join(held)), NAME).first(now=NOW))
    accepted = service.accept(request, NOW)
    assert (accepted.session_key.kind, accepted.subkey.kind) == (kind, kind)


def test_messages_after_a_number_of_the_service(cache, service):
    """Replies of other libraries have one."""
    client = Client(cache, NAME, context=None)
    accepted = service.accept(client.first(now=NOW), NOW)
    agreed = client.finish(accepted.reply(seq=7))
    theirs = Messages(Side.SERVICE, accepted.session_key, client_subkey=accepted.subkey, client_seq=accepted.seq or 0,
                      service_seq=7)
    assert agreed.messages().unwrap(theirs.wrap(b"hello")).number == 7


@pytest.mark.parametrize("answered", FORMS.values(), ids=FORMS)
@forms
def test_each_form_of_an_answer_is_read(cache, service, words, answered):
    """Also if a service answers in another form than it was asked."""
    client = Client(cache, NAME, **words)
    request = opened(client.first(now=NOW))[0]
    _, reply, error = opened(Client(cache, NAME, **answered).first(now=NOW + 1))
    assert client.finish(reply(service.accept(request, NOW).reply())).client == "alice@EX"
    with pytest.raises(ServiceError) as raised:
        client.finish(error(Refused(Code.SKEW).error(NAME, now=NOW + 400)))
    assert raised.value.error == KrbError(37, Moment(NOW + 400), NAME)
    assert raised.value.clock_offset == 400
    assert str(raised.value) == "host/web@EX refused the request: KRB_AP_ERR_SKEW; its clock is 400 seconds ahead"


@pytest.mark.parametrize("says", [None, *Says])
def test_answers_without_a_proof(cache, service, says):
    """The client asked for a reply, so it believes nothing else. The reply may still come."""
    client = Client(cache, NAME)
    request, reply, _ = opened(client.first(now=NOW))
    mechanism = Mechanism.KERBEROS if says == Says.INCOMPLETE else None
    with pytest.raises(ServiceError) as raised:
        client.finish(b"" if says is None else Verdict(says, mechanism).token())
    assert (raised.value.error, raised.value.says, raised.value.clock_offset) == (None, says, None)
    assert client.finish(reply(service.accept(request, NOW).reply())).client == "alice@EX"


@pytest.mark.parametrize("answer", [b"\0", b"HTTP", b"\x6f", b"\x7e", b"\x60\x00", b"\xa1\x00", fixture.reply(),
                                    bytes(2_000_000)])
def test_what_is_no_answer(cache, answer):
    client = Client(cache, NAME)
    client.first(now=NOW + 1)
    with pytest.raises(Fault):
        client.finish(answer)


def test_the_reply_to_another_request(cache, service):
    client = Client(cache, NAME)
    first = opened(client.first(now=NOW))
    second = opened(client.first(now=NOW + 1))
    with pytest.raises(Fault, match="REPLY_MISMATCH"):
        client.finish(first[1](service.accept(first[0], NOW).reply()))
    assert client.finish(second[1](service.accept(second[0], NOW).reply())).client == "alice@EX"


def test_recorded_messages_are_refused(cache):
    """A client chooses a subkey, so it takes no message of an earlier login with its ticket."""
    logins = []
    with Service(Keytab(fixture.keytab()), NAME, first_life=True) as service:
        for at in NOW, NOW + 1:
            client = Client(cache, NAME)
            let_in = service.answer(client.first(now=at), now=at)
            logins.append((let_in, client.finish(let_in.reply)))
    (first, its_client), (_, later) = logins
    assert its_client.subkey == first.subkey and its_client.subkey.kind == its_client.session_key.kind == 19
    recorded = first.messages().wrap(b"hello")
    with pytest.raises(Fault, match="MESSAGE_"):
        later.messages().unwrap(recorded)
    assert its_client.messages().unwrap(recorded).text == b"hello"


def test_an_error_of_a_service_that_has_just_started():
    for offset, told in (0.0, "may have just started"), (-299.0, "may have just started"), (300.0, "300 seconds ahead"):
        assert told in str(ServiceError(KrbError(37, Moment(NOW), NAME), offset))


def test_what_is_no_cache():
    with pytest.raises(TypeError, match="CredentialCache.read"):
        Client("/tmp/krb5cc_0", NAME)


def test_nothing_was_sent(cache):
    client = Client(cache, NAME)
    with pytest.raises(RuntimeError, match="first"):
        client.finish(fixture.reply())
    client.close()
    for name, at, told in (("host/mail@EX", NOW, "NO_CREDENTIAL.*`kvno host/mail@EX`"),
                           (NAME, None, "CREDENTIAL_EXPIRED.*`kinit`"),
                           ("host/web", NOW, "NO_REALM.*as host/web@EX"),
                           ("a b@EX", NOW, "BAD_TEXT.*two hexadecimal digits")):
        with pytest.raises(Fault, match=told):
            Client(cache, name).first(now=at)
    cache.close()
    with pytest.raises(Fault, match="EMPTY_HANDLE"):
        client.first(now=NOW)


@pytest.mark.parametrize("words", [{}, {"negotiated": False}], ids=["negotiation", "token"])
def test_a_client_that_asks_for_no_reply(cache, service, words):
    client = Client(cache, NAME, wants_reply=False, **words)
    accepted = service.accept(opened(client.first(now=NOW, clock_offset=400.5))[0], NOW + 400)
    assert not accepted.wants_reply and accepted.time == Moment(NOW + 400, 500_000)
    with pytest.raises(ServiceError, match="sent no reply"):
        client.finish(Verdict(Says.COMPLETED).token())


def test_bindings_of_a_client(cache, service):
    bindings = tls_server_end_point(bytes.fromhex("3014 3000 300d 06092a864886f70d01010c 0500 030100"))
    accepted = service.accept(opened(Client(cache, NAME, bindings=bindings).first(now=NOW))[0], NOW)
    assert accepted.context.is_bound_to(bindings) and not accepted.context.is_bound_to(bindings[:-1])
    with pytest.raises(ValueError):
        Client(cache, NAME, bindings=bindings, context=None).first(now=NOW)


def test_an_error_of_a_hostile_service(cache):
    """What it names can't begin a line of a log, nor colour a terminal, nor fill a disk."""
    client = Client(cache, NAME)
    client.first(now=NOW)
    hostile = der.error(77, NOW, 7, b"EX", der.name(3, b"host\n\x1b[31mroot logged in", b"x" * 100_000))
    with pytest.raises(ServiceError) as raised:
        client.finish(hostile)
    text = str(raised.value)
    assert text.isprintable() and len(text) < 400 and text.endswith("refused the request: error 77")
    assert raised.value.error.name == "error 77"


def test_errors_are_kept_for_later():
    error = ServiceError(KrbError(37, Moment(NOW), NAME), -3.5)
    again = pickle.loads(pickle.dumps(error))
    assert (again.error, again.clock_offset, str(again)) == (error.error, -3.5, str(error))


@forms
def test_login_by_each_form(cache, service, words):
    sent = []

    def send(token):
        request, reply, error = opened(token)
        sent.append(request)
        try:
            return reply(service.accept(request, NOW).reply())
        except Refused as refused:
            return error(refused.error(NAME, now=NOW))
    assert login(cache, NAME, send, now=NOW + 400, adjust_clock=True, **words).client == "alice@EX"
    assert len(sent) == 2


def test_login_with_a_wrong_clock(cache, service):
    """Another request is made only if the caller says so."""
    sent = []

    def send(token):
        sent.append(token)
        _, _, error = opened(token)
        return error(Refused(Code.SKEW).error(NAME, now=NOW))
    with pytest.raises(ServiceError) as raised:
        login(cache, NAME, send, now=NOW + 400)
    assert len(sent) == 1 and raised.value.clock_offset == -400


def test_an_error_of_the_last_moment(cache):
    """Whoever forges it makes no other exception than an honest one would."""
    client = Client(cache, NAME)
    _, _, error = opened(client.first(now=NOW))
    with pytest.raises(ServiceError) as raised:
        client.finish(error(Refused(Code.SKEW).error(NAME, now=Moment(LAST_SECOND, 999_999))))
    with pytest.raises(Fault) as expired:
        client.first(now=NOW + 1, clock_offset=raised.value.clock_offset)
    assert expired.value.code == Code.CREDENTIAL_EXPIRED


def test_login_that_is_refused_without_an_error(cache):
    """There is no clock to learn then."""
    with pytest.raises(ServiceError) as raised:
        login(cache, NAME, lambda token: bytes.fromhex("a1073005a0030a0102"), now=NOW, adjust_clock=True)
    assert raised.value.error is None


def test_a_client_of_another_thread_of_its_cache(cache, service):
    """Two clients over one cache don't meet."""
    clients = [Client(cache, NAME, context=ContextFlags(0)) for _ in range(20)]
    tokens = [opened(it.first(now=NOW + at)) for at, it in enumerate(clients)]
    for client, (request, reply, _) in reversed(list(zip(clients, tokens))):
        assert client.finish(reply(service.accept(request, NOW).reply())).client == "alice@EX"


# ---------------------------------------------------------------- tls-server-end-point (RFC 5929, section 4)

RSA, EC = ["rsa:2048"], ["ec", "-pkeyopt", "ec_paramgen_curve:P-256"]
PSS = ["-sigopt", "rsa_padding_mode:pss", "-sigopt", "rsa_pss_saltlen:20"]


@pytest.mark.parametrize("key, words, hash_name", [
    (RSA, ["-md5"], "sha256"), (RSA, ["-sha1"], "sha256"), (RSA, ["-sha224"], "sha224"), (RSA, ["-sha256"], "sha256"),
    (RSA, ["-sha384"], "sha384"), (RSA, ["-sha512"], "sha512"), (RSA, ["-sha512-256"], "sha512-256"),
    (EC, ["-sha1"], "sha256"), (EC, ["-sha224"], "sha224"), (EC, ["-sha256"], "sha256"), (EC, ["-sha384"], "sha384"),
    (EC, ["-sha512"], "sha512"),
    (RSA, ["-sha384", *PSS], "sha384"), (RSA, ["-sha1", *PSS], "sha256"), (["ed25519"], [], None)],
    ids=lambda it: "-".join(it).strip("-") if isinstance(it, list) else str(it))
def test_bindings_of_certificates(tmp_path, key, words, hash_name):
    """A certificate that openssl signs is hashed as openssl hashes it."""
    subprocess.run(["openssl", "req", "-x509", "-newkey", *key, "-nodes", "-keyout", tmp_path / "key", "-subj", "/CN=x",
                    "-out", tmp_path / "pem", *words], check=True, capture_output=True)
    certificate = ssl.PEM_cert_to_DER_cert((tmp_path / "pem").read_text())
    if hash_name is None:
        with pytest.raises(ValueError, match="isn't signed with one hash"):
            tls_server_end_point(certificate)
        return
    (tmp_path / "der").write_bytes(certificate)
    digest = subprocess.run(["openssl", "dgst", f"-{hash_name}", "-binary", tmp_path / "der"], check=True,
                            capture_output=True).stdout
    assert tls_server_end_point(certificate) == b"tls-server-end-point:" + digest


def test_what_is_no_certificate():
    whole = bytes.fromhex("3014 3000 300d 06092a864886f70d01010c 0500 030100")
    for size in range(len(whole)):
        with pytest.raises(ValueError):
            tls_server_end_point(whole[:size])
    for wrong in (whole + b"\0", c_cases.ticket(), b"-----BEGIN CERTIFICATE-----", bytes(100), b"\x30\xff" + bytes(300),
                  b"\x30\x84" + b"\xff" * 4):
        with pytest.raises(ValueError):
            tls_server_end_point(wrong)
