"""Tokens of web clients that are valid now, and applications that answer by the path."""
import asyncio
import base64
import functools
import io
import itertools
import os
import time
from dataclasses import dataclass

from support import der, fixture, gss_rules
from support.sealing import sealed

NAME = "host/web@EX"
MUTUAL, ANONYMOUS = 1 << 29, 1 << 15
REJECT = bytes.fromhex("a1073005a0030a0102")
_micros = itertools.count(int.from_bytes(os.urandom(2), "big"))


@functools.cache
def ticket(client, realm, flags, kvno, service, hours, size):
    """A ticket from an hour ago until in some hours, with so many bytes of authorization data that may be ignored."""
    now = int(time.time())
    data = der.sequence(der.key(1, bytes(size))) if size else None
    part = der.enc_ticket_part(flags, der.key(19, fixture.SESSION_KEY), realm, der.name(1, *client), now - 3600,
                               now + int(3600 * hours), transited=der.key(1, b""), data=data)
    cipher = sealed(19, fixture.SERVICE_KEY, 2, os.urandom(16), part)
    return der.ticket(b"EX", der.name(3, *service), der.encrypted(19, cipher, kvno))


def request(client=(b"alice",), *, realm=b"EX", flags=1 << 19, kvno=3, service=(b"host", b"web"), hours=8, size=0,
            mutual=True, bindings=None, checksum=None, ahead=0):
    """A request whose clock is ahead by so many seconds. No two have the same time."""
    now = time.time() + ahead
    checksum = checksum if bindings is None else fixture.context(mutual, bindings=bindings)
    auth = der.authenticator(realm, der.name(1, *client), next(_micros) % 1_000_000, int(now), checksum=checksum)
    cipher = sealed(19, fixture.SESSION_KEY, 11, os.urandom(16), auth)
    of = ticket(client, realm, flags, kvno, service, hours, size)
    return der.request(MUTUAL if mutual else 0, of, der.encrypted(19, cipher))


def cache():
    """Alice's cache, with a ticket that is valid now."""
    now = int(time.time())
    client, server = fixture.principal(1, b"EX", b"alice"), fixture.principal(3, b"EX", b"host", b"web")
    times = (now - 3600, 0, now + 28_800, 0)
    of = ticket((b"alice",), b"EX", 1 << 19, 3, (b"host", b"web"), 8, 0)
    return b"\x05\x04\0\0" + client + fixture.credential(client, server, 19, fixture.SESSION_KEY, times, of)


def token(*client, **more):
    """A token of a negotiation with such a request."""
    inner = gss_rules.kerberos(gss_rules.KERBEROS, request(client or (b"alice",), **more))
    return gss_rules.negotiation([gss_rules.KERBEROS], inner)


def negotiate(data):
    return f"Negotiate {base64.b64encode(data).decode()}"


@dataclass
class Answer:
    """What a client sees."""

    status: int
    headers: list
    body: bytes
    # how much of the request's body nobody has read
    unread: int = 0

    def all(self, name):
        return [value for key, value in self.headers if key.lower() == name.lower()]

    def one(self, name):
        found = self.all(name)
        assert len(found) < 2, found
        return found[0] if found else None

    @property
    def token(self):
        """The token in WWW-Authenticate; empty for a plain Negotiate, None without the header."""
        value = self.one("WWW-Authenticate")
        if value is None:
            return None
        assert value.split()[0] == "Negotiate", value
        return base64.b64decode("".join(value.split()[1:]), validate=True)


# ---------------------------------------------------------------- applications in this process


def wsgi_app(environ, start_response):
    """Answers by the path: 200, another status, or a fault before, at or after the start of its answer."""
    path = environ["PATH_INFO"].lstrip("/")
    if path == "raises":
        raise KeyError(path)
    if path == "raises-late":
        return failing(start_response)
    if path == "raises-after-start":
        start_response("200 OK", [("Content-Length", "3")])
        raise KeyError(path)
    if path == "raises-at-a-part":
        start_response("200 OK", [("Content-Length", "3")])
        return (1 // 0 for _ in range(1))
    if path == "writes":
        start_response("200 OK", [("Content-Type", "text/plain")])(b"written, ")
        return (it for it in [b"and", b"yielded"])
    status = f"{path} Status" if path.isdigit() else "200 OK"
    start_response(status, [("Content-Type", "text/plain"), ("X-Method", environ["REQUEST_METHOD"])])
    return [environ.get("REMOTE_USER", "nobody").encode()]


def failing(start_response):
    raise KeyError("late")
    yield start_response


async def asgi_app(scope, receive, send):
    """The same."""
    path = scope["path"].lstrip("/")
    if path.startswith("raises"):
        if path == "raises-after-start":
            await send({"type": "http.response.start", "status": 200, "headers": []})
        raise KeyError(path)
    user = scope["user"].name if "user" in scope else "nobody"
    headers = [(b"content-type", b"text/plain"), (b"x-method", scope["method"].encode())]
    await send({"type": "http.response.start", "status": int(path) if path.isdigit() else 200, "headers": headers})
    await send({"type": "http.response.body", "body": user.encode()})


def by_wsgi(negotiate_, app=wsgi_app):
    """A function that asks the application over WSGI: method, path and headers in, an Answer out."""
    inner = negotiate_.wsgi(app)

    def ask(method="GET", path="/", headers=(), address="192.0.2.7", port="4711", mount="", body=b"", **more):
        given = io.BytesIO(body)
        environ = {"REQUEST_METHOD": method, "SCRIPT_NAME": mount, "PATH_INFO": path, "REMOTE_ADDR": address,
                   "REMOTE_PORT": port, "REMOTE_USER": "mallory", "wsgi.input": given,
                   "CONTENT_LENGTH": str(len(body)), **more}
        for name, value in headers:
            key = f"HTTP_{name.upper().replace('-', '_')}"
            # (as servers join headers of one name)
            environ[key] = f"{environ[key]},{value}" if key in environ else value
        started = []

        def start(status, sent, exc_info=None):
            assert not started
            started[:] = [status, sent]
            return written.append
        written = []
        page = b"".join(inner(environ, start))
        return Answer(int(started[0].split()[0]), started[1], b"".join(written) + page, len(body) - given.tell())
    return ask


def by_asgi(negotiate_, app=asgi_app):
    """The same over ASGI."""
    inner = negotiate_.asgi(app)

    def ask(method="GET", path="/", headers=(), address="192.0.2.7", port="4711", body=b""):
        given = io.BytesIO(body)
        scope = {"type": "http", "method": method, "path": path, "client": (address, int(port)),
                 "headers": [(name.lower().encode(), value.encode("latin-1")) for name, value in headers]}
        sent = []

        async def receive():
            return {"type": "http.request", "body": given.read(50_000), "more_body": given.tell() < len(body)}

        async def send(message):
            sent.append(message)

        async def run():
            try:
                await inner(scope, receive, send)
            except KeyError:
                # (the server answers 500, if no answer has begun)
                sent.append({"type": "http.response.start", "status": 500, "headers": []})
        asyncio.run(run())
        start = next(it for it in sent if it["type"] == "http.response.start")
        text = [(name.decode(), value.decode("latin-1")) for name, value in start["headers"]]
        page = b"".join(it.get("body", b"") for it in sent)
        return Answer(start["status"], text, page, len(body) - given.tell())
    return ask
