"""Applications of Flask, Django and Starlette under gunicorn and uvicorn, with tokens over the wire."""
import contextlib
import functools
import random
import re
import socket
from concurrent.futures import ThreadPoolExecutor

import pytest

from support import web, web_servers

pytestmark = [pytest.mark.packages, pytest.mark.slow, pytest.mark.xdist_group("web-servers")]
WHO = b"alice@EX "


@pytest.fixture(scope="module")
def servers(tmp_path_factory, library):
    """Gives the server of a name, which is started once."""
    with contextlib.ExitStack() as stack:
        patch = stack.enter_context(pytest.MonkeyPatch.context())
        patch.setenv("FEVSTUNIK_LIBRARY", str(library))
        patch.setenv("PYTHONPATH", "")

        @functools.cache
        def started(name):
            folder = tmp_path_factory.mktemp("server")
            keytab = folder / "web.keytab"
            keytab.write_bytes(web.fixture.keytab())
            terms = {"service": web.NAME, "first_life": True, "sessions": {"key": str(folder / "key")}}
            return stack.enter_context(web_servers.KINDS[name](folder, keytab=keytab, **terms))
        yield started


@pytest.fixture(params=web_servers.KINDS)
def kind(request):
    return request.param


@pytest.fixture
def server(kind, servers):
    return servers(kind)


def test_logins(server):
    refused = server.ask(headers={"Accept": "text/html"})
    assert (refused.status, refused.token) == (401, b"") and b"<h1>401 Unauthorized</h1>" in refused.body
    answer = server.ask(token=web.token())
    assert (answer.status, answer.body) == (200, WHO) and answer.token


def test_methods(server):
    assert server.ask("POST", token=web.token(), body=b"posted").body == WHO + b"posted"
    assert server.ask("POST", body=b"posted").status == 401
    head = server.ask("HEAD", token=web.token())
    assert (head.status, head.body) == (200, b"") and head.token
    assert (server.ask("HEAD").status, server.ask("HEAD").body) == (401, b"")
    assert server.ask("OPTIONS").status != 401


@pytest.mark.parametrize("path, status", [("/fails", 500), ("/none", 404)])
def test_the_token_comes_with_faults(server, path, status):
    answer = server.ask(path=path, token=web.token())
    assert answer.status == status and answer.token


def ask_with_a_large_head(server, kind, token):
    """The answer to this token. h11, which Debian's uvicorn uses, refuses more than 16 KiB by itself, with 400, if they
    come in parts. How they come depends on the machine's pace, so it is asked again then."""
    for _ in range(50 if "uvicorn" in kind else 1):
        answer = server.ask(token=token)
        if answer.status != 400:
            break
    return answer


@pytest.mark.parametrize("size", [9_000, 44_000])
def test_large_tokens(server, kind, size):
    """In base64 these are 12 kB and 60 kB."""
    answer = ask_with_a_large_head(server, kind, web.token(size=size))
    assert (answer.status, answer.body) == (200, WHO)


def test_malformed_headers(server):
    for value in ("Negotiate \xff", "Negotiate *", "Negotiate a b"):
        assert server.ask(headers={"Authorization": value}).status == 400


def test_a_token_that_is_too_long(server, kind):
    """(a request to uWSGI has at most 64 KiB of headers, and nginx answers)"""
    answer = ask_with_a_large_head(server, kind, bytes(65_537))
    assert answer.status == (500 if "uWSGI" in kind else 431)
    assert server.ask(token=web.token()).status == 200


def test_sessions_over_all_workers(server):
    cookie = server.ask(token=web.token()).one("Set-Cookie").partition(";")[0]
    assert {server.ask(headers={"Cookie": cookie}).body for _ in range(20)} == {WHO}


def test_logins_in_parallel(server):
    """200 at once."""
    tokens = [web.token() for _ in range(200)]
    with ThreadPoolExecutor(200) as pool:
        answers = list(pool.map(lambda it: server.ask(token=it), tokens))
    assert {(it.status, it.body) for it in answers} == {(200, WHO)}


def test_no_header_names_the_user(server):
    for name in ("Remote-User", "Remote_User", "REMOTE_USER", "X-Remote-User"):
        assert server.ask(headers={name: "mallory"}).status == 401
        assert server.ask(token=web.token(), headers={name: "mallory"}).body == WHO


def test_refused_uploads(server):
    """A client that sends all of its body before it looks for an answer gets it, also by a proxy."""
    assert {server.ask("POST", body=bytes(500_000)).status for _ in range(20)} == {401}


@pytest.mark.parametrize("kind", ["Flask, uWSGI", "Starlette, uvicorn", "Django, uvicorn"])
def test_many_slow_clients(server):
    """500 connections that send a byte: others log in meanwhile, and these in the end. (gunicorn needs a proxy.)"""
    slow = [socket.create_connection(("127.0.0.1", server.port), timeout=web_servers.SECONDS)
            for _ in range(500)]
    for it in slow:
        it.sendall(b"G")
    assert {server.ask(token=web.token()).status for _ in range(5)} == {200}
    for it in slow:
        value = web.negotiate(web.token(mutual=False)).encode()
        it.sendall(b"ET / HTTP/1.1\r\nHost: web\r\nConnection: close\r\nAuthorization: " + value + b"\r\n\r\n")
    assert all(it.recv(100).startswith(b"HTTP/1.1 200 ") for it in slow)
    for it in slow:
        it.close()


HIDDEN = b"GET /hidden HTTP/1.1\r\nHost: web\r\n\r\n"


@pytest.mark.parametrize("method", [b"GET", b"POST"])
def test_a_body_is_no_request(server, method):
    """What a refused request brings along isn't answered as another one."""
    head = b"%s / HTTP/1.1\r\nHost: web\r\nContent-Length: %d\r\n\r\n" % (method, len(HIDDEN))
    answers = server.raw(head + HIDDEN)
    assert re.findall(rb"^HTTP/1\.1 (\d+)", answers, re.M) == [b"401"]


@pytest.mark.parametrize("kind", ["Flask, gunicorn", "Flask, gunicorn, preloaded", "Flask, uWSGI",
                                  "Starlette, uvicorn"])
def test_a_token_is_good_once(tmp_path, keytab, kind):
    """Over all workers, and over a restart. If the store is lost, nobody is let in."""
    (tmp_path / "run").mkdir(mode=0o700)
    terms = {"keytab": keytab, "service": web.NAME, "first_life": True, "store": tmp_path / "run/stamps"}
    tokens = [web.token() for _ in range(30)]
    order = random.Random(30).sample(tokens * 6, 180)
    start = web_servers.KINDS[kind]
    with start(tmp_path, **terms) as server, ThreadPoolExecutor(30) as pool:
        statuses = list(pool.map(lambda it: server.ask(token=it).status, order))
    assert (statuses.count(200), statuses.count(401)) == (30, 150)
    with start(tmp_path, **terms) as server:
        assert {server.ask(token=it).status for it in tokens} == {401}
        assert server.ask(token=web.token()).status == 200
        for it in (tmp_path / "run").iterdir():
            it.unlink()
        answer = server.ask(token=web.token(), headers={"Accept": "text/html"})
        assert (answer.status, answer.one("Retry-After")) == (503, "60") and b"STORE_FAILED" in answer.body
