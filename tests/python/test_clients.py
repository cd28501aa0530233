"""Logins of requests and httpx at services that answer well, wrongly or not at all."""
import asyncio
import doctest
import io
import re
import ssl
import time

import httpx
import pytest
import requests

import fevstunik.clients
from fevstunik import CacheError, Fault, ServiceError
from fevstunik.clients import LoginError, LoginTrouble, _logins
from fevstunik.clients import httpx as for_httpx
from fevstunik.clients import requests as for_requests

from support import http_service
from support.http_service import AHEAD, CLIENT

pytestmark = pytest.mark.packages
HELLO = f"hello {CLIENT}, 0\n"
# How long a client waits.
SECONDS = 300


class Requests:
    """A session of requests."""

    def __init__(self, *words, verify=True, **more):
        self.auth = for_requests.Negotiate(*words, **more)
        self.session, self.errors = requests.Session(), requests.RequestException
        self.session.auth, self.session.verify, self.session.trust_env = self.auth, verify, False

    def ask(self, url, data=None, **words):
        return self.session.request("GET" if data is None else "POST", url, data=data, timeout=SECONDS, **words)

    def close(self):
        self.session.close()


class Httpx:
    """A client of httpx."""

    def __init__(self, *words, verify=True, **more):
        self.auth = for_httpx.Negotiate(*words, **more)
        verify = ssl.create_default_context(cafile=verify) if isinstance(verify, str) else verify
        self.words = {"auth": self.auth, "verify": verify, "trust_env": False, "follow_redirects": True,
                      "timeout": SECONDS}
        self.session, self.errors = httpx.Client(**self.words), httpx.HTTPError

    def ask(self, url, data=None, **words):
        return self.session.request("GET" if data is None else "POST", url, content=data, **words)

    def close(self):
        self.session.close()


class AsyncHttpx(Httpx):
    """A client of httpx in coroutines, in a loop of its own."""

    def __init__(self, *words, **more):
        super().__init__(*words, **more)
        self.loop = asyncio.new_event_loop()
        self.session = httpx.AsyncClient(**self.words)

    def ask(self, *words, **more):
        return self.loop.run_until_complete(super().ask(*words, **more))

    def close(self):
        self.loop.run_until_complete(self.session.aclose())
        self.loop.close()


KINDS = {"requests": Requests, "httpx": Httpx, "httpx in coroutines": AsyncHttpx}


@pytest.fixture(params=KINDS.values(), ids=KINDS)
def made(request):
    """Makes a client, which is closed at the end."""
    clients = []

    def make(*words, **more):
        clients.append(request.param(*(words or [http_service.cache()]), **more))
        return clients[-1]
    yield make
    for it in clients:
        it.close()


@pytest.fixture
def service():
    with http_service.serving() as server:
        yield server


@pytest.fixture(scope="module")
def certificate(tmp_path_factory):
    return http_service.certificate(tmp_path_factory.mktemp("tls"))


@pytest.fixture
def tls(certificate):
    with http_service.serving(certificate) as server:
        yield server


def pages(server):
    return [page for _, _, page in server.tokens]


def fails(trouble, cause=None, **words):
    """The call in this block raises a LoginError for a trouble and from a cause."""
    class Raised:
        def __enter__(self):
            return self

        def __exit__(self, kind, error, _):
            assert kind is LoginError, kind
            assert (error.trouble, type(error.__cause__)) == (trouble, cause or type(None)), str(error)
            assert str(error).startswith(f"{trouble.name}: ")
            self.error = error
            return True
    return Raised()


# ---------------------------------------------------------------- logins


@pytest.mark.parametrize("words", [{}, {"mutual": "optional"}, {"mutual": "off"}, {"preemptive": True}], ids=str)
@pytest.mark.parametrize("page", ["", "both", "inside"])
def test_a_login(made, service, page, words):
    client = made(**words)
    for _ in range(2):
        answer = client.ask(f"{service.url}/{page}")
        assert (answer.status_code, answer.text) == (200, HELLO)
    assert {it[:2] for it in service.tokens} == {("localhost", "HTTP/localhost@EX")}
    assert service.is_mutual == {words.get("mutual") != "off"}
    # (httpx sends a token again to the place that a page of the same host leads to)
    assert len(service.sent) == len(set(service.sent)) or page == "inside" and not isinstance(client, Requests)


def test_cookies_and_history(made, service):
    """The cookie of the first answer is sent with the token, and the history has that answer."""
    answer = made().ask(f"{service.url}/marked")
    assert answer.text == HELLO and [it.status_code for it in answer.history] == [401]


def test_a_page_that_is_missing_is_handed_on(made, service):
    assert made().ask(f"{service.url}/missing").status_code == 404


@pytest.mark.parametrize("field", ['"' + '\\"' * 30_000, '"' * 60_001, 'Basic realm="\\', 'Basic realm="a, Negotiate'],
                         ids=["escapes", "quotation marks", "a backslash", "no end"])
def test_a_quotation_without_an_end(field):
    """It offers nothing, and keeps no client busy. (In a second, it reads such a field many times.)"""
    before = time.process_time()
    assert _logins._challenge([field]) == (False, None)
    assert time.process_time() - before < 20


@pytest.mark.parametrize("words, tokens", [({}, 1), ({"preemptive": True}, 3)], ids=str)
def test_a_session_with_a_cookie(made, service, words, tokens):
    """It needs one token. Others that are sent with the cookie aren't answered."""
    client = made(**words)
    texts = [client.ask(f"{service.url}/cookie").text for _ in range(3)]
    assert texts == [HELLO, "hello again\n", "hello again\n"] and pages(service) == ["cookie"] * tokens


@pytest.mark.parametrize("page", ["repeat", "another", "repeats"])
def test_a_repeat_is_sent_once_more(made, service, page):
    client = made()
    if page != "repeats":
        assert client.ask(f"{service.url}/{page}").text == HELLO
    else:
        with fails(LoginTrouble.REFUSED, ServiceError) as raised:
            client.ask(f"{service.url}/repeats")
        assert "KRB_AP_ERR_REPEAT" in str(raised.error) and raised.error.response.status_code == 401
    assert pages(service) == [page, page]


def test_a_clock_is_adjusted(made, service):
    """If it is asked for; and it is known at the next request."""
    began = time.monotonic()
    with fails(LoginTrouble.REFUSED, ServiceError) as raised:
        made().ask(f"{service.url}/ahead")
    # (as far as it is ahead when the client reads the answer, which may be later)
    ahead = int(re.search(r"its clock is (\d+) seconds ahead", str(raised.error))[1])
    assert AHEAD - 1 - (time.monotonic() - began) <= ahead <= AHEAD
    service.tokens.clear()
    client = made(adjust_clock=True)
    assert [client.ask(f"{service.url}/ahead").text for _ in range(2)] == [HELLO] * 2
    assert pages(service) == ["ahead"] * 3


def test_a_name_of_the_service(made, service):
    """It is that of the first host alone, with a realm or without."""
    other = service.url.replace("localhost", "127.0.0.1")
    for name in ("HTTP/127.0.0.1@EX", "HTTP/127.0.0.1"):
        service.tokens.clear()
        assert made(http_service.cache(), name).ask(service.url).text == HELLO
        assert made(http_service.cache(), name).ask(f"{other}/moved?to={service.url}").text == HELLO
        assert [it[:2] for it in service.tokens] == [("localhost", f"HTTP/{it}@EX") for it in http_service.HOSTS[::-1]]


# ---------------------------------------------------------------- redirects


@pytest.mark.parametrize("first", ["localhost", "127.0.0.1"])
def test_each_host_gets_its_own_token(made, service, first):
    second = "127.0.0.1" if first == "localhost" else "localhost"
    at = {it: service.url.replace("localhost", it) for it in (first, second)}
    client = made(preemptive=True)
    assert client.ask(f"{at[first]}/moved?to={at[second]}/").text == HELLO
    assert client.ask(f"{at[first]}/moved?to={at[first]}/moved?to={at[second]}/inside").text == HELLO
    assert {it[:2] for it in service.tokens} == {(it, f"HTTP/{it}@EX") for it in (first, second)}


def test_from_http_to_https_and_not_back(made, service, tls, certificate):
    client = made(verify=str(certificate))
    assert client.ask(f"{service.url}/moved?to={tls.url}/").text == HELLO
    assert not service.tokens and pages(tls) == ["page"]
    for first in (tls.url, f"{service.url}/moved?to={tls.url}"):
        with fails(LoginTrouble.NOT_TLS):
            client.ask(f"{first}/moved?to={service.url}/")
    assert not service.tokens


def test_a_first_token_over_http(made, service, tls, certificate):
    """It may be sent on to the same host over TLS, and is answered there."""
    client = made(verify=str(certificate), preemptive=True)
    assert client.ask(f"{service.url}/moved?to={tls.url}/").text == HELLO
    assert client.ask(f"{service.url}/inside").text == HELLO


def test_a_redirect_that_is_not_followed(made, service):
    client = made()
    words = {"allow_redirects": False} if isinstance(client, Requests) else {"follow_redirects": False}
    assert client.ask(f"{service.url}/inside", **words).status_code == 302
    assert client.ask(f"{service.url}/open").text == "anybody\n"


# ---------------------------------------------------------------- proofs


@pytest.mark.parametrize("page, trouble, cause", [
    ("open", LoginTrouble.NOT_PROVED, None), ("basic", LoginTrouble.NOT_PROVED, None),
    ("silent", LoginTrouble.NOT_PROVED, None), ("refuses", LoginTrouble.REFUSED, None),
    ("rejects", LoginTrouble.REFUSED, ServiceError)])
def test_nothing_is_proved(made, service, page, trouble, cause):
    """Such a response is handed on unless a proof is required; or if the service has proved who it is without a
    token."""
    with fails(trouble, cause) as raised:
        made().ask(f"{service.url}/{page}")
    assert raised.error.response.status_code in (200, 401)
    for mutual in ("optional", "off"):
        assert made(mutual=mutual).ask(f"{service.url}/{page}").status_code == raised.error.response.status_code
    client = made()
    client.ask(service.url)
    if page in ("open", "basic"):
        client.ask(f"{service.url}/{page}")
    else:
        with fails(trouble, cause):
            client.ask(f"{service.url}/{page}")
    with fails(LoginTrouble.REFUSED if page == "basic" else trouble, cause):
        made(preemptive=True).ask(f"{service.url}/{page}")


@pytest.mark.parametrize("page, cause", [("forged", Fault), ("garbled", ValueError), ("replayed", Fault)])
def test_a_wrong_proof(made, service, page, cause):
    if page == "replayed":
        made().ask(f"{service.url}/{page}")
    for mutual in ("required", "optional"):
        with pytest.raises(LoginError) as raised:
            made(mutual=mutual).ask(f"{service.url}/{page}")
        assert raised.value.trouble == LoginTrouble.NOT_PROVED and isinstance(raised.value.__cause__, cause)
    assert made(mutual="off").ask(f"{service.url}/{page}").status_code == 200


def test_no_ticket(made, service):
    with fails(LoginTrouble.NO_TICKET, CacheError):
        made(http_service.cache(["127.0.0.1"])).ask(service.url)
    with fails(LoginTrouble.NO_TICKET, CacheError):
        made(http_service.cache(ends=-1)).ask(service.url)
    assert not service.tokens


def test_a_ticket_of_another_realm(made, service):
    with fails(LoginTrouble.NO_TICKET, CacheError) as raised:
        made(http_service.cache(), "HTTP/localhost@EY").ask(service.url)
    assert "the realm EY was looked for, and the cache has a ticket for this service in EX" in str(raised.error)


def test_the_default_cache(made, service, tmp_path, monkeypatch):
    monkeypatch.setenv("KRB5CCNAME", f"FILE:{tmp_path / 'cache'}")
    client = made(None)
    with fails(LoginTrouble.NO_TICKET, CacheError):
        client.ask(service.url)
    (tmp_path / "cache").write_bytes(http_service.cache()._data)
    assert client.ask(service.url).text == HELLO
    assert repr(client.auth) == "<Negotiate of the default cache, mutual authentication required>"


# ---------------------------------------------------------------- bodies


def test_a_body_is_sent_again(made, service):
    assert made().ask(service.url, data=b"x" * 100_000).text == f"hello {CLIENT}, 100000\n"


def test_a_body_that_is_read_once(made, service):
    """It can be sent if the first request has a token."""
    def parts():
        yield b"first"
        yield b"second"

    async def in_coroutines():
        yield b"first"
        yield b"second"
    of = in_coroutines if isinstance(made(), AsyncHttpx) else parts
    with fails(LoginTrouble.BODY_SPENT) as raised:
        made().ask(service.url, data=of())
    assert raised.error.response.status_code == 401
    assert made(preemptive=True).ask(service.url, data=of()).text == f"hello {CLIENT}, 11\n"


@pytest.mark.parametrize("kind", [Requests, Httpx])
def test_a_file(service, kind):
    """requests rewinds it; both make the parts of a form again."""
    client, file = kind(http_service.cache()), io.BytesIO(b"x" * 1_000)
    form = client.session.post(service.url, files={"file": ("name", file)})
    assert form.status_code == 200 and int(form.text.split()[-1]) > 1_000
    if kind is Requests:
        file.seek(0)
        assert client.ask(service.url, data=file).text == f"hello {CLIENT}, 1000\n"
    client.close()


# ---------------------------------------------------------------- bindings


def test_bindings(made, tls, certificate):
    with fails(LoginTrouble.REFUSED, ServiceError):
        made(verify=str(certificate)).ask(f"{tls.url}/bound")
    client = made(bindings=True, verify=str(certificate))
    assert client.ask(f"{tls.url}/bound").text == HELLO
    assert client.ask(f"{tls.url}/bound", data=b"x").text == f"hello {CLIENT}, 1\n"


def test_without_tls_there_are_no_bindings(made, service):
    assert made(bindings=True).ask(service.url).text == HELLO


def test_a_certificate_without_bindings(made, tmp_path):
    """Such as one of Ed25519."""
    path = http_service.certificate(tmp_path, "-newkey", "rsa:2048")
    with http_service.serving(path) as server:
        http_service.certificate(tmp_path, "-newkey", "ed25519")
        server.socket.context.load_cert_chain(path)
        with fails(LoginTrouble.NO_BINDINGS, ValueError):
            made(bindings=True, verify=str(path)).ask(server.url)


# ---------------------------------------------------------------- arguments and names


@pytest.mark.parametrize("words", [{"mutual": "maybe"}, {"bindings": True, "preemptive": True},
                                   {"mutual": "off", "adjust_clock": True}], ids=str)
def test_arguments(made, words):
    with pytest.raises(ValueError):
        made(**words)


def test_canonical_names(made, service, monkeypatch):
    """DNS is asked if it is wished."""
    asked = []

    def getaddrinfo(host, *_, **__):
        asked.append(host)
        return [(0, 0, 0, "127.0.0.1.", ("127.0.0.1", 0))]
    client, other = made(), made(canonicalize=True)
    with monkeypatch.context() as patched:
        patched.setattr("fevstunik.clients._logins.socket.getaddrinfo", getaddrinfo)
        assert client.auth._settings.service_at("localhost") == "HTTP/localhost" and not asked
        assert other.auth._settings.service_at("localhost") == "HTTP/127.0.0.1" and asked == ["localhost"]


@pytest.mark.parametrize("name, thing", [
    ("LoginError", LoginError), ("LoginTrouble", LoginTrouble), ("Negotiate of requests", for_requests.Negotiate),
    ("Negotiate of httpx", for_httpx.Negotiate)])
def test_example(name, thing):
    found, = doctest.DocTestFinder(recurse=False).find(thing, name, module=False, globs=dict(vars(fevstunik)))
    assert found.examples and doctest.DocTestRunner(optionflags=doctest.ELLIPSIS).run(found).failed == 0
