"""What each request is answered, over WSGI and ASGI, in this process."""
import asyncio
import base64
import queue
import sys
import threading

import pytest

from fevstunik import Client, CredentialCache, Fault, Moment, Usage
from fevstunik.stores import StoreFailed
from fevstunik.web import _gate, _negotiate
from support import gss_rules, web
from support.web import negotiate, token

BROWSER = ("Accept", "text/html,application/xhtml+xml,*/*;q=0.8")


def authorized(value):
    return [("Authorization", value)]


WRONG_TERMS = {
    "no token": ({"token_limit": 0}, ValueError, "token_limit is a whole number from 1 on, not 0"),
    "a text for a number": ({"token_limit": "9"}, ValueError, "token_limit is a whole number from 1 on, not '9'"),
    "before now": ({"retry_after": -1}, ValueError, "retry_after is a whole number from 0 on, not -1"),
    "other users": ({"users": {"EX": "{user}"}}, TypeError, "users is a Users of fevstunik.web, not a dict"),
    "other sessions": ({"sessions": True}, TypeError, "sessions is a Sessions of fevstunik.web, not a bool"),
    "one certificate": ({"certificates": "web.pem"}, TypeError, "`certificates` is a list"),
    "one proxy": ({"proxies": "192.0.2.7"}, TypeError, "`proxies` is a list"),
    "one path": ({"exempt": "/health"}, TypeError, "`exempt` is a list"),
    "another rule": ({"bindings": "always"}, ValueError, "bindings are .*, not 'always'"),
    "no certificate": ({"bindings": "require"}, ValueError, "to require bindings, name the certificates"),
    "another service": ({"service": "HTTP/web@EX"}, ValueError, "no key of type 19 or 20 for HTTP/web@EX; it has"),
    "a cache": ({"keytab": "examples/client.ccache"}, Fault, "this is a credential cache"),
    "no name": ({"service": None}, ValueError, "name the service, as host/web@EX; or pass any_name=True"),
}


@pytest.mark.parametrize("terms, fault, text", WRONG_TERMS.values(), ids=WRONG_TERMS)
def test_wrong_terms(made, terms, fault, text):
    """They are found before there is a request."""
    with pytest.raises(fault, match=text):
        made(**terms)


def test_any_name_of_a_keytab_without_keys(made, tmp_path):
    (tmp_path / "empty").write_bytes(b"\5\2")
    with pytest.raises(ValueError, match="the keytab has no key"):
        made(keytab=tmp_path / "empty", service=None, any_name=True)


@pytest.mark.parametrize("path", ["/", "/404", "/raises"])
def test_a_client_verifies_the_answer(ask, path):
    with CredentialCache(web.cache()) as cache:
        client = Client(cache, web.NAME)
        answer = ask(path=path, headers=authorized(negotiate(client.first())))
        assert client.finish(answer.token).client == "alice@EX"


def test_a_login(ask):
    answer = ask(headers=authorized(negotiate(token(b"alice"))))
    assert (answer.status, answer.body) == (200, b"alice@EX") and answer.token


def test_a_login_without_a_reply(ask):
    answer = ask(headers=authorized(negotiate(token(b"alice", mutual=False))))
    assert (answer.status, answer.token) == (200, bytes.fromhex("a1143012a0030a0100a10b06092a864886f712010202"))


@pytest.mark.parametrize("form", [bytes, lambda it: gss_rules.kerberos(gss_rules.KERBEROS, it)], ids=["bare", "token"])
def test_other_forms(ask, form):
    """requests-kerberos sends a token without a negotiation."""
    answer = ask(headers=authorized(negotiate(form(web.request()))))
    assert (answer.status, answer.body) == (200, b"alice@EX") and answer.token


def test_a_bare_request_without_a_reply(ask):
    """There is nothing to send back, not even the name of the scheme."""
    answer = ask(headers=authorized(negotiate(web.request(mutual=False))))
    assert (answer.status, answer.body, answer.token) == (200, b"alice@EX", None)


@pytest.mark.parametrize("path, status", [("/", 200), ("/204", 204), ("/302", 302), ("/404", 404), ("/500", 500),
                                          ("/raises", 500), ("/raises-late", 500)])
def test_the_token_comes_with_each_status(ask, path, status):
    """A client that awaits it shows nothing without it."""
    answer = ask(path=path, headers=authorized(negotiate(token())))
    assert answer.status == status and answer.token


@pytest.mark.parametrize("path", ["/raises-after-start", "/raises-at-a-part"])
def test_a_failure_after_the_start(made, path, caplog):
    answer = web.by_wsgi(made())(path=path, headers=authorized(negotiate(token())))
    assert answer.status == 500 and answer.token
    assert int(answer.one("Content-Length")) == len(answer.body)
    # (the server sees no exception)
    assert "the application failed" in caplog.text and "Traceback" in caplog.text


def test_an_application_that_writes(made):
    answer = web.by_wsgi(made())(path="/writes", headers=authorized(negotiate(token())))
    assert (answer.status, answer.body) == (200, b"written, andyielded") and answer.token


def test_an_answer_of_no_parts(made):
    """As Flask makes it of a page without a body: an iterator, and not a list."""
    def app(environ, start_response):
        start_response("204 No Content", [])
        return iter(())
    environ, started = {"REQUEST_METHOD": "GET", "PATH_INFO": "/", "HTTP_AUTHORIZATION": negotiate(token())}, []
    assert not list(made().wsgi(app)(environ, lambda *words: started.append(words)))
    (status, headers), = started
    assert status == "204 No Content" and [name for name, _ in headers] == ["WWW-Authenticate"]


class Parts:
    """An answer of two parts that counts how often it is closed."""
    closed = 0

    def __iter__(self):
        return iter((b"one", b"two"))

    def close(self):
        self.closed += 1


@pytest.mark.parametrize("read", [0, 1, 2])
def test_an_answer_is_closed(made, read):
    """Once, also if the server has read nothing of it. (Django gives its connections back then.)"""
    def app(environ, start_response):
        start_response("200 OK", [])
        return given
    environ, given = {"REQUEST_METHOD": "GET", "PATH_INFO": "/", "HTTP_AUTHORIZATION": negotiate(token())}, Parts()
    answer = made().wsgi(app)(environ, lambda *_: None)
    parts = iter(answer)
    assert [next(parts) for _ in range(read)] == [b"one", b"two"][:read] and given.closed == 0
    answer.close()
    assert given.closed == 1


def test_an_application_that_begins_again_too_late(made):
    """The server has sent the status by then (PEP 3333)."""
    def app(environ, start_response):
        start_response("200 OK", [])
        yield b"begun"
        try:
            raise KeyError
        except KeyError:
            start_response("500 Failed", [], sys.exc_info())
    environ = {"REQUEST_METHOD": "GET", "PATH_INFO": "/", "HTTP_AUTHORIZATION": negotiate(token())}
    parts = iter(made().wsgi(app)(environ, lambda *_: None))
    assert next(parts) == b"begun"
    with pytest.raises(KeyError):
        next(parts)


def test_an_answer_that_breaks_off_is_the_servers(made):
    def app(environ, start_response):
        start_response("200 OK", [])
        yield b"begun"
        raise KeyError
    environ = {"REQUEST_METHOD": "GET", "PATH_INFO": "/", "HTTP_AUTHORIZATION": negotiate(token())}
    parts = iter(made().wsgi(app)(environ, lambda *_: None))
    assert next(parts) == b"begun"
    with pytest.raises(KeyError):
        next(parts)


@pytest.mark.parametrize("kind, begun", [("http", ["http.response.start"]), ("websocket", [])])
def test_an_answer_over_asgi_that_breaks_off_is_the_servers(made, kind, begun):
    sent = []

    async def app(scope, receive, send):
        for it in begun:
            await send({"type": it, "status": 200, "headers": []})
        raise KeyError

    async def send(message):
        sent.append(message["type"])
    headers = [(b"authorization", negotiate(token()).encode())]
    with pytest.raises(KeyError):
        asyncio.run(made().asgi(app)({"type": kind, "method": "GET", "path": "/", "headers": headers}, None, send))
    assert sent == begun


def test_without_a_token_a_failure_is_the_servers(made):
    with pytest.raises(KeyError):
        web.by_wsgi(made(exempt=["/raises"]))(path="/raises")


# The header, and what is answered: the status, and the cause that is counted.
HEADERS = {
    "none": (None, 401, "NO_TOKEN"),
    "empty": ("", 401, "NO_TOKEN"),
    "another scheme": ("Basic YTpi", 401, "NO_TOKEN"),
    "a scheme that begins alike": ("NegotiateX YTpi", 401, "NO_TOKEN"),
    "commas of another scheme": ('Digest username="a", realm="b"', 401, "NO_TOKEN"),
    "no token": ("Negotiate", 401, "NOT_A_TOKEN"),
    "no token after spaces": ("Negotiate   ", 401, "NOT_A_TOKEN"),
    "text": (negotiate(b"hello"), 401, "NOT_A_TOKEN"),
    "NTLM": (negotiate(b"NTLMSSP\0\1\0\0\0"), 401, None),
    "no base64": ("Negotiate *", 400, "BAD_HEADER"),
    "a letter that is lost": ("Negotiate aGVsbG8", 400, "BAD_HEADER"),
    "text after the end": ("Negotiate aGVsbG8=aGVsbG8=", 400, "BAD_HEADER"),
    "base64url": ("Negotiate _-_-", 400, "BAD_HEADER"),
    "a byte above 127": ("Negotiate \xff", 400, "BAD_HEADER"),
    "a byte above 127 in another scheme": ("Basic \xff", 400, "BAD_HEADER"),
    "a tab after the scheme": ("Negotiate\taGVsbG8=", 400, "BAD_HEADER"),
    "a space within": ("Negotiate aGVs bG8=", 400, "BAD_HEADER"),
    "no scheme": ("=", 400, "BAD_HEADER"),
    "two tokens in one": ("Negotiate aGVsbG8=, Negotiate aGVsbG8=", 400, "BAD_HEADER"),
    "too long": (negotiate(bytes(65_537)), 431, "TOKEN_TOO_LONG"),
}


@pytest.mark.parametrize("value, status, cause", HEADERS.values(), ids=HEADERS)
def test_headers(made, over, value, status, cause):
    gate = made()
    answer = over(gate)(headers=[] if value is None else authorized(value))
    assert answer.status == status
    assert answer.token == (b"" if status == 401 else None)
    (found,) = gate.counts
    assert cause in (None, found)


@pytest.mark.parametrize("spelled", ["NEGOTIATE {}", "negotiate   {}", "  Negotiate {}\t"])
def test_spellings(ask, spelled):
    text = base64.b64encode(token()).decode()
    assert ask(headers=authorized(spelled.format(text))).status == 200


def test_several_headers(ask):
    value = negotiate(token())
    assert ask(headers=authorized(value) * 2).status == 400
    assert ask(headers=authorized(value)).status == 200


@pytest.mark.parametrize("size", [12_000, 45_000])
def test_large_tokens(ask, size):
    answer = ask(headers=authorized(negotiate(token(size=size))))
    assert (answer.status, answer.body) == (200, b"alice@EX")


def test_a_limit(made, over):
    ask = over(made(token_limit=len(token())))
    assert ask(headers=authorized(negotiate(token()))).status == 200
    assert ask(headers=authorized(negotiate(token(size=100)))).status == 431


REFUSED = {
    "SKEW": {"ahead": 3600}, "EXPIRED": {"hours": -0.5}, "NOT_US": {"service": (b"HTTP", b"web")},
    "BAD_KEY_VERSION": {"kvno": 4}, "FOREIGN_REALM": {"realm": b"OTHER"},
    "ANONYMOUS_CLIENT": {"flags": web.ANONYMOUS},
}


@pytest.mark.parametrize("cause", REFUSED)
@pytest.mark.parametrize("mutual", [True, False])
def test_refusals(made, over, cause, mutual):
    """An error goes back only to a client that asks for a reply: a browser shows no page with one."""
    gate = made()
    answer = over(gate)(headers=[*authorized(negotiate(token(mutual=mutual, **REFUSED[cause]))), BROWSER])
    assert list(gate.counts) == [cause]
    if cause in ("FOREIGN_REALM", "ANONYMOUS_CLIENT"):
        assert (answer.status, answer.token) == (403, None)
    else:
        assert (answer.status, bool(answer.token)) == (401, mutual)
    assert b"<h1>4" in answer.body and cause.encode() in answer.body


def test_a_repeat(ask):
    """Another token is asked for: python-requests sends its token again after a redirect."""
    value = authorized(negotiate(token()))
    answers = [ask(headers=value) for _ in range(3)]
    assert [it.status for it in answers] == [200, 401, 401] and {it.token for it in answers[1:]} == {b""}


def test_a_start(made, over):
    gate = made(first_life=False, retry_after=17)
    answer = over(gate)(headers=[*authorized(negotiate(token())), BROWSER])
    assert (answer.status, answer.one("Retry-After"), answer.token) == (503, "17", None)
    assert list(gate.counts) == ["JUST_STARTED"] and b"just started" in answer.body


def test_a_full_memory(made, over):
    ask = over(made(limit=2, limit_for_client=1))
    assert [ask(headers=authorized(negotiate(token()))).status for _ in range(2)] == [200, 503]


def test_usage_and_latest(made, over):
    """They are those of the service, and are there before its first token."""
    gate = made(limit=2, limit_for_client=1)
    ask, before = over(gate), Moment.now()
    assert ask().status == 401
    assert (gate.usage, gate.latest) == (Usage(0, 0, 0, limit=2, limit_for_client=1, full=0), None)
    assert [ask(headers=authorized(negotiate(token()))).status for _ in range(2)] == [200, 503]
    assert (gate.usage.remembered, gate.usage.limit, gate.usage.limit_for_client, gate.usage.full) == (1, 2, 1, 1)
    assert before <= gate.latest <= Moment.now()


def test_usage_while_threads_log_in(made):
    """Also while the first token makes the service: what is remembered never gets less."""
    gate, seen = made(), []
    ask, tokens = web.by_wsgi(gate), [authorized(negotiate(token())) for _ in range(40)]
    statuses = queue.SimpleQueue()

    def log_in(share):
        for headers in share:
            statuses.put(ask(headers=headers).status)

    threads = [threading.Thread(target=log_in, args=(tokens[at::4],)) for at in range(4)]
    for it in threads:
        it.start()
    while any(it.is_alive() for it in threads):
        seen.append((gate.usage.remembered, gate.latest or Moment(0)))
    for it in threads:
        it.join()
    assert [statuses.get() for _ in tokens] == [200] * 40 and gate.usage.remembered == 40
    assert seen == sorted(seen)


class Counting:
    """A lock that counts who has come to it."""

    def __init__(self):
        self.lock, self.came = threading.Lock(), threading.Semaphore(0)

    def __enter__(self):
        self.came.release()
        self.lock.acquire()

    def __exit__(self, *_):
        self.lock.release()


def test_many_first_requests(made, monkeypatch):
    """All that come before there is a service get the one that the first of them makes, so it has seen all of them."""
    gate, statuses, services = made(), queue.Queue(), []
    ask, tokens = web.by_wsgi(gate), [negotiate(token()) for _ in range(4)]
    make, lock = gate._gate._make, Counting()

    def make_late():
        if not services:
            for _ in tokens:
                lock.came.acquire()
        services.append(make())
        return services[-1]
    monkeypatch.setattr(gate._gate, "_make", make_late)
    monkeypatch.setattr(gate._gate, "_lock", lock)
    threads = [threading.Thread(target=lambda it=it: statuses.put(ask(headers=authorized(it)).status)) for it in tokens]
    for it in threads:
        it.start()
    for it in threads:
        it.join()
    assert [statuses.get() for _ in tokens] == [200] * 4 and len(services) == 1 and gate.usage.remembered == 4


def test_two_rounds(made, over):
    """The second comes over the same connection."""
    ask = over(made())
    inner = gss_rules.kerberos(gss_rules.KERBEROS, web.request(mutual=False))
    first = authorized(negotiate(gss_rules.negotiation([gss_rules.KERBEROS], None)))
    later = authorized(negotiate(gss_rules.going_on(inner)))
    answer = ask(headers=first)
    assert (answer.status, answer.token) == (401, gss_rules.response(gss_rules.KERBEROS, None, 1))
    assert ask(headers=later, port="4712").status == 401
    # Another client of the same proxy doesn't get into it.
    assert ask(headers=authorized(negotiate(token()))).status == 200
    assert ask(headers=later).status == 200


MOST = 1 << 24


@pytest.mark.parametrize("size", [0, 1, 200_000, MOST])
def test_the_body_of_a_refused_request_is_read(ask, size):
    """Otherwise a proxy answers 502, since the server closes the connection before all has come."""
    answer = ask("POST", body=bytes(size))
    assert (answer.status, answer.unread) == (401, 0)


def test_the_body_of_others_is_the_applications(ask):
    answer = ask("POST", headers=authorized(negotiate(token())), body=bytes(200_000))
    assert (answer.status, answer.unread) == (200, 200_000)


def test_a_body_that_is_too_large_or_unasked_for(made):
    """No more is read than that, and nothing that the client sends only if it is asked to."""
    wsgi, asgi = web.by_wsgi(made()), web.by_asgi(made())
    assert wsgi("POST", body=bytes(MOST + 1)).unread == MOST + 1
    assert asgi("POST", body=bytes(2 * MOST)).unread <= MOST
    assert asgi("POST", headers=[("Content-Length", str(MOST + 1))], body=bytes(MOST + 1)).unread == MOST + 1
    assert asgi("POST", headers=[("Expect", "100-continue")], body=bytes(1000)).unread == 1000


@pytest.mark.parametrize("length", ["", "-1", "x", "9" * 5000, "\u0663"])
def test_a_body_of_no_length(made, length):
    """It is read to its end if the server says where that is."""
    ask = web.by_wsgi(made())
    assert ask("POST", body=bytes(1000), CONTENT_LENGTH=length, **{"wsgi.input_terminated": True}).unread == 0
    answer = ask("POST", body=bytes(1000), CONTENT_LENGTH=length)
    assert (answer.status, answer.unread) == (401, 1000)


def test_no_more_than_the_body_is_read(made):
    """What is after it is the next request's, or never comes."""
    assert web.by_wsgi(made())("POST", body=bytes(200_000), CONTENT_LENGTH="70000").unread == 130_000


def test_a_body_that_breaks_off(made):
    class Broken:
        def read(self, size):
            raise OSError("the client has gone")

    assert web.by_wsgi(made())("POST", CONTENT_LENGTH="10", **{"wsgi.input": Broken()}).status == 401


@pytest.mark.parametrize("method", ["GET", "HEAD", "POST", "PUT", "DELETE"])
def test_methods(ask, method):
    answer = ask(method, headers=authorized(negotiate(token())))
    assert (answer.status, answer.one("X-Method")) == (200, method)
    refused = ask(method)
    assert refused.status == 401 and (method != "HEAD") == bool(refused.body)
    assert int(refused.one("Content-Length")) > 0


EXEMPT = {
    "/health": True, "/health/": False, "/healthy": False, "/static/": True, "/static/a/b.css": True, "/static": False,
    "/static/../admin": False, "/static/./a": False, "/static//a": False, "/static/%2e%2e/a": False,
    "/static\\..\\a": False, "/static/a;b": False, "/Health": False}


@pytest.mark.parametrize("path, passes", EXEMPT.items())
def test_exempt_paths(made, over, path, passes):
    gate = made(exempt=["/health", "/static/"])
    answer = over(gate)(path=path)
    assert (answer.status, answer.body) == (200, b"nobody") if passes else answer.status == 401
    assert gate.counts == {"EXEMPT" if passes else "NO_TOKEN": 1}


def test_a_mount_that_the_client_chooses(made):
    """gunicorn before 22 takes it from the header SCRIPT_NAME. The application answers by the rest."""
    ask = web.by_wsgi(made(exempt=["/static/"]))
    assert ask(mount="/static", path="/admin").status == 401
    assert ask(mount="/application", path="/static/a.css").status == 200


def test_options_pass(ask):
    """A browser asks before it sends a request of another site, and sends no token then."""
    assert (ask("OPTIONS").status, ask("OPTIONS").body) == (200, b"nobody")
    # A method of the client's own isn't OPTIONS.
    for name in ("X-HTTP-Method-Override", "X-HTTP-Method", "X-Method-Override"):
        assert ask("OPTIONS", headers=[(name, "POST")]).status == 401


def test_pages(ask):
    plain, page = ask(), ask(headers=[BROWSER])
    assert plain.one("Content-Type") == "text/plain; charset=utf-8" and plain.body.count(b"\n") == 1
    assert page.one("Content-Type") == "text/html; charset=utf-8" and b"Kerberos login" in page.body
    assert {it.one("Cache-Control") for it in (plain, page)} == {"no-store"}


def test_what_the_server_says_of_the_user_is_dropped(made):
    seen = []
    app = made(exempt=["/"]).wsgi(lambda environ, start: seen.append(environ) or [])
    app({"REQUEST_METHOD": "GET", "PATH_INFO": "/", "REMOTE_USER": "mallory", "AUTH_TYPE": "Basic"}, None)
    assert not {"REMOTE_USER", "AUTH_TYPE"} & set(seen[0])


def test_what_the_application_sees(made):
    seen = []
    app = made().wsgi(lambda environ, start: seen.append(environ) or [])
    app({"REQUEST_METHOD": "GET", "PATH_INFO": "/", "HTTP_AUTHORIZATION": negotiate(token(b"alice", b"admin"))},
        lambda *_: None)
    login, user = seen[0]["fevstunik.login"], seen[0]["fevstunik.user"]
    assert (seen[0]["REMOTE_USER"], seen[0]["AUTH_TYPE"]) == ("alice/admin@EX", "Negotiate")
    assert (login.client, user.login) == ("alice/admin@EX", login)
    assert (user.components, user.realm) == (("alice", "admin"), "EX")


def websocket(gate, headers, extensions):
    sent = []

    async def app(scope, receive, send):
        await send({"type": "websocket.accept"})

    async def receive():
        return {"type": "websocket.connect"}

    async def send(message):
        sent.append(message)
    scope = {"type": "websocket", "path": "/", "client": None, "headers": headers, "extensions": extensions}
    web.asyncio.run(gate.asgi(app)(scope, receive, send))
    return sent


def test_web_sockets(made):
    gate = made()
    (accepted,) = websocket(gate, [(b"authorization", negotiate(token()).encode())], {})
    assert accepted["type"] == "websocket.accept" and accepted["headers"][0][0] == b"www-authenticate"
    assert websocket(gate, [], {}) == [{"type": "websocket.close", "code": 1008}]
    start, _ = websocket(gate, [], {"websocket.http.response": {}})
    assert (start["type"], start["status"]) == ("websocket.http.response.start", 401)


def test_other_scopes_pass(made):
    seen = []

    async def app(scope, receive, send):
        seen.append(scope)
    web.asyncio.run(made().asgi(app)({"type": "lifespan"}, None, None))
    assert seen == [{"type": "lifespan"}]


# ---------------------------------------------------------------- stores


def test_a_store_that_is_down(made, over, monkeypatch):
    """Nobody is let in until it is up again. Then the service is made."""
    ask, down = over(made()), [True]
    real = _negotiate.Serving

    def serving(*words):
        if down:
            raise StoreFailed("no answer in 2 seconds")
        return real(*words)
    monkeypatch.setattr(_negotiate, "Serving", serving)
    for _ in range(2):
        answer = ask(headers=authorized(negotiate(token())))
        assert (answer.status, answer.one("Retry-After"), answer.token) == (503, "60", None)
    down.clear()
    assert ask(headers=authorized(negotiate(token()))).status == 200


def test_the_loop_goes_on_while_a_store_is_asked(made, monkeypatch, tmp_path):
    """Two requests that wait for each other are both answered."""
    both = threading.Barrier(2, timeout=300)
    monkeypatch.setattr(_gate.Gate, "decide", lambda self, request: (both.wait(), _gate.Passed(None))[1])
    seen = []

    async def app(scope, receive, send):
        seen.append(scope["path"])
    inner = made(store=tmp_path / "stamps").asgi(app)

    async def run():
        scopes = ({"type": "http", "method": "GET", "path": path, "headers": []} for path in "ab")
        await web.asyncio.gather(*(inner(it, None, None) for it in scopes))
    web.asyncio.run(run())
    assert sorted(seen) == ["a", "b"]
