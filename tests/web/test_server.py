"""The small server: what it takes for a request, what it refuses, and many clients at once."""
import io
import re
import socket
import threading
import time

import pytest

from fevstunik.web import _server, serve
from support.patience import least_seconds

# How long a client waits, and the server for one. (By itself it has 30 seconds.)
SECONDS = 300.0


def app(environ, start_response):
    body = environ["wsgi.input"].read()
    if environ["PATH_INFO"] == "/raises":
        raise KeyError
    start_response("200 OK", [("Content-Type", "text/plain")])
    said = [environ["REQUEST_METHOD"], environ["PATH_INFO"], environ["QUERY_STRING"], body.decode("latin-1"),
            environ.get("HTTP_X_NAME", "-")]
    return [",".join(said).encode("latin-1")]


@pytest.fixture(scope="module")
def port():
    with pytest.MonkeyPatch.context() as patch:
        patch.setattr(_server, "_PATIENCE", SECONDS)
        listener = socket.create_server(("127.0.0.1", 0), backlog=1024)
        threading.Thread(target=serve, args=(app, listener), daemon=True).start()
        yield listener.getsockname()[1]


def sent(port, data, pieces=1):
    """What comes back until the connection ends, of bytes that are sent in some pieces. A server that ends a connection
    waits a second for those that a client sends still: a client that gets no processor for so long begins again."""
    for left in reversed(range(10 if pieces > 1 or len(data) > 65_536 else 1)):
        try:
            return sent_once(port, data, pieces)
        except ConnectionError:
            if not left:
                raise


def sent_once(port, data, pieces):
    with socket.create_connection(("127.0.0.1", port), timeout=SECONDS) as stream:
        step = max(1, len(data) // pieces)
        for at in range(0, len(data), step):
            stream.sendall(data[at:at + step])
            time.sleep(0.01 if pieces > 1 else 0)
        stream.shutdown(socket.SHUT_WR)
        return stream.makefile("rb").read()


def answers(data):
    """The status and the body of each answer."""
    found, stream = [], io.BytesIO(data)
    while first := stream.readline():
        size = 0
        while (line := stream.readline()).strip():
            if line.lower().startswith(b"content-length:"):
                size = int(line.split(b":")[1])
        found.append((int(first.split()[1]), stream.read(size).decode("latin-1")))
    return found


def asks(*lines, body=b"", host=True):
    head = [lines[0], *(["Host: web"] if host else []), *lines[1:], "", ""]
    return "\r\n".join(head).encode("latin-1") + body


ONE = asks("GET /one HTTP/1.1", "Connection: close")
SEQUENCES = {
    "one": (ONE, [(200, "GET,/one,,,-")]),
    "a query and escapes": (asks("GET /a%20b%e9?c=%20d HTTP/1.1"), [(200, "GET,/a b\xe9,c=%20d,,-")]),
    "an absolute target": (asks("GET http://web/one?x HTTP/1.1"), [(200, "GET,/one,x,,-")]),
    "a host alone": (asks("GET http://web HTTP/1.1"), [(200, "GET,/,,,-")]),
    "a host and a query": (asks("GET http://web?x HTTP/1.1"), [(200, "GET,/,x,,-")]),
    "an address in a query": (asks("GET /a?http://b/c HTTP/1.1"), [(200, "GET,/a,http://b/c,,-")]),
    "two": (asks("GET /a HTTP/1.1") + ONE, [(200, "GET,/a,,,-"), (200, "GET,/one,,,-")]),
    "nothing after the end": (ONE + ONE, [(200, "GET,/one,,,-")]),
    "HTTP/1.0": (asks("GET /a HTTP/1.0", host=False) + ONE, [(200, "GET,/a,,,-")]),
    "HTTP/1.0 that goes on": (asks("GET /a HTTP/1.0", "Connection: keep-alive", host=False) + ONE,
                              [(200, "GET,/a,,,-"), (200, "GET,/one,,,-")]),
    "GET with a body": (asks("GET /a HTTP/1.1", "Content-Length: 5", body=b"hello") + ONE,
                        [(200, "GET,/a,,hello,-"), (200, "GET,/one,,,-")]),
    "POST": (asks("POST /a HTTP/1.1", "Content-Length: 5", body=b"GET /") + ONE,
             [(200, "POST,/a,,GET /,-"), (200, "GET,/one,,,-")]),
    "a body that looks like a request": (asks("POST /a HTTP/1.1", f"Content-Length: {len(ONE)}", body=ONE),
                                         [(200, "POST,/a,," + ONE.decode() + ",-")]),
    "OPTIONS": (asks("OPTIONS * HTTP/1.1"), [(200, "OPTIONS,*,,,-")]),
    "two headers of a name": (asks("GET / HTTP/1.1", "X-Name: a", "X-Name:b "), [(200, "GET,/,,,a,b")]),
    "an application that fails": (asks("GET /raises HTTP/1.1") + ONE,
                                  [(500, "500 Internal Server Error\n"), (200, "GET,/one,,,-")]),
    "a name with another line": (asks("GET / HTTP/1.1", "X_Name: a"), [(200, "GET,/,,,-")]),
}


@pytest.mark.parametrize("data, wanted", SEQUENCES.values(), ids=SEQUENCES)
@pytest.mark.parametrize("pieces", [1, 7])
def test_sequences(port, data, wanted, pieces):
    assert answers(sent(port, data, pieces)) == wanted


REFUSED = {
    "two lengths": (400, asks("POST / HTTP/1.1", "Content-Length: 5", "Content-Length: 5", body=b"hello")),
    "a list of lengths": (400, asks("POST / HTTP/1.1", "Content-Length: 5, 5", body=b"hello")),
    "a length with a sign": (400, asks("POST / HTTP/1.1", "Content-Length: +5", body=b"hello")),
    "a negative length": (400, asks("POST / HTTP/1.1", "Content-Length: -5", body=b"hello")),
    "an empty length": (400, asks("POST / HTTP/1.1", "Content-Length: ", body=b"hello")),
    "a length in hexadecimal": (400, asks("POST / HTTP/1.1", "Content-Length: 0x5", body=b"hello")),
    "a large length": (413, asks("POST / HTTP/1.1", "Content-Length: 1048577")),
    "chunks": (501, asks("POST / HTTP/1.1", "Transfer-Encoding: chunked", body=b"5\r\nhello\r\n0\r\n\r\n")),
    "chunks and a length": (400, asks("POST / HTTP/1.1", "Transfer-Encoding: chunked", "Content-Length: 3",
                                      body=b"5\r\n")),
    "a coding that is hidden": (400, asks("POST / HTTP/1.1", "Transfer-Encoding : chunked", body=b"5\r\n")),
    "a folded line": (400, asks("GET / HTTP/1.1", "X-Name: a", " b")),
    "a line feed alone": (400, b"GET / HTTP/1.1\nHost: web\n\n\r\n\r\n"),
    "a line feed in a field": (400, asks("GET / HTTP/1.1", "X-Name: a\nX-Other: b")),
    "a zero byte": (400, asks("GET / HTTP/1.1", "X-Name: \0")),
    "no name": (400, asks("GET / HTTP/1.1", ": a")),
    "no colon": (400, asks("GET / HTTP/1.1", "X-Name")),
    "a line before": (400, b"\r\n" + ONE),
    "no host": (400, asks("GET / HTTP/1.1", host=False)),
    "two hosts": (400, asks("GET / HTTP/1.1", "Host: other")),
    "HTTP/2": (400, asks("GET / HTTP/2.0")),
    "HTTP/0.9": (400, b"GET /\r\n\r\n"),
    "two spaces": (400, asks("GET  / HTTP/1.1")),
    "a byte in the target": (400, asks("GET /\xe9 HTTP/1.1")),
    "no path": (400, asks("GET one HTTP/1.1")),
    "a host to connect to": (400, asks("CONNECT web:443 HTTP/1.1")),
    "many fields": (431, asks("GET / HTTP/1.1", *["a: b"] * 200)),
    "a long head": (431, asks("GET / HTTP/1.1", f"X-Name: {'a' * 400_000}")),
}


@pytest.mark.parametrize("status, data", REFUSED.values(), ids=REFUSED)
def test_a_head_of_more_than_one_reading(port, status, data):
    """It is refused, and nothing that follows it is taken for a request."""
    found = answers(sent(port, data + ONE))
    assert [it for it, _ in found] == [status]


def test_head_has_no_body(port):
    data = sent(port, asks("HEAD /one HTTP/1.1") + ONE)
    head, _, rest = data.partition(b"\r\n\r\n")
    assert b"\r\nContent-Length: 13\r\n" in head + b"\r\n" and rest.startswith(b"HTTP/1.1 200")


def test_a_client_that_waits_for_the_body_to_be_wanted(port):
    with socket.create_connection(("127.0.0.1", port), timeout=SECONDS) as stream:
        stream.sendall(asks("POST / HTTP/1.1", "Content-Length: 5", "Expect: 100-continue"))
        assert stream.recv(100).startswith(b"HTTP/1.1 100 ")
        stream.sendall(b"hello")
        assert b"POST,/,,hello,-" in stream.recv(1000)


def test_long_tokens(port):
    value = "a" * 90_000
    assert answers(sent(port, asks("GET / HTTP/1.1", f"X-Name: {value}"))) == [(200, f"GET,/,,,{value}")]


def test_many_spaces(port):
    """A client can't keep the server busy by them. (In a second, it reads all of these many times.)"""
    value = "a" + " \t" * 50_000 + "b"
    head, before = asks("GET / HTTP/1.1", f"X-Name: \t {value}\t ", f"X-Other:{' ' * 100_000}"), time.process_time()
    assert answers(sent(port, head)) == [(200, f"GET,/,,,{value}")]
    assert time.process_time() - before < 20


def test_many_slow_clients(port):
    """500 connections that send a byte and wait: others are answered meanwhile, and these in the end."""
    slow = [socket.create_connection(("127.0.0.1", port), timeout=SECONDS) for _ in range(500)]
    for it in slow:
        it.sendall(ONE[:5])

    def others():
        assert all(answers(sent(port, ONE)) == [(200, "GET,/one,,,-")] for _ in range(20))

    assert least_seconds(others, 10) < 10
    for it in slow:
        it.sendall(ONE[5:])
    assert all(re.match(rb"HTTP/1.1 200 ", it.recv(1000)) for it in slow)
    for it in slow:
        it.close()


def test_patience_has_an_end(monkeypatch):
    """Also with a client that always sends a little."""
    monkeypatch.setattr(_server, "_PATIENCE", 0.5)
    ours, theirs = socket.socketpair()
    thread = threading.Thread(target=_server._Connection(ours, ("192.0.2.7", 1), app).run)
    thread.start()
    for _ in range(2_000):
        if not thread.is_alive():
            break
        theirs.send(b"a")
        thread.join(0.05)
    assert not thread.is_alive()
