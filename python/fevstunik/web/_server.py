"""A small server over HTTP/1.1 for an application over WSGI: for trials, and for what only a proxy on the same machine
asks.

It takes what RFC 9112 says without doubt, and refuses the rest: a head of more than one reading is answered 400, and
ends the connection.
"""
from __future__ import annotations

import io
import logging
import re
import socket
import sys
import threading
import time
from collections.abc import Callable, Iterable
from dataclasses import dataclass
from email.utils import formatdate
from typing import Any
from urllib.parse import unquote_to_bytes

from ._wsgi import App

# The longest head and body of a request, in bytes; how many fields a head has; how many connections there are at once;
# and for how many seconds one may be silent, and may take for a request.
_HEAD, _BODY, _FIELDS, _CONNECTIONS, _PATIENCE = 262_144, 1_048_576, 200, 1000, 30.0
_REQUEST_LINE = re.compile(rb"([!#$%&'*+.^_`|~0-9A-Za-z-]+) ([!-~]+) HTTP/1\.([01])\Z")
# (what is around the value is stripped apart from it: here, each space in it would be looked at again and again)
_FIELD = re.compile(rb"([!#$%&'*+.^_`|~0-9A-Za-z-]+):([^\0\r\n]*)\Z")
_ABSOLUTE = re.compile(rb"https?://[^/?#]+", re.I)
_log = logging.getLogger("fevstunik.web")


class _Bad(Exception):
    """What a client sent isn't answered by the application: the status."""


@dataclass(frozen=True)
class _Head:
    method: str
    target: bytes
    minor: int
    fields: list[tuple[bytes, bytes]]

    def values(self, name: bytes) -> list[bytes]:
        return [value for key, value in self.fields if key == name]

    @property
    def size(self) -> int:
        """The length of the body."""
        sizes = self.values(b"content-length")
        if self.values(b"transfer-encoding"):
            raise _Bad("400 Bad Request" if sizes else "501 Not Implemented")
        if len(sizes) > 1 or not all(it.isdigit() and len(it) < 16 for it in sizes):
            raise _Bad("400 Bad Request")
        if sizes and int(sizes[0]) > _BODY:
            raise _Bad("413 Content Too Large")
        return int(sizes[0]) if sizes else 0

    @property
    def goes_on(self) -> bool:
        """Whether the connection stays after the answer."""
        words = b",".join(self.values(b"connection")).lower()
        return b"close" not in words and (self.minor == 1 or b"keep-alive" in words)


def _head_of(data: bytes) -> _Head:
    first, *lines = data.split(b"\r\n")
    if len(lines) > _FIELDS:
        raise _Bad("431 Request Header Fields Too Large")
    found = _REQUEST_LINE.match(first)
    fields = [_FIELD.match(it) for it in lines]
    if found is None or None in fields:
        raise _Bad("400 Bad Request")
    head = _Head(found[1].decode(), _target(found[2]), int(found[3]),
                 [(it[1].lower(), it[2].strip(b" \t")) for it in fields if it is not None])
    if not head.target.startswith(b"/") and (head.method, head.target) != ("OPTIONS", b"*"):
        raise _Bad("400 Bad Request")
    if len(head.values(b"host")) != 1 and (head.minor or head.values(b"host")):
        raise _Bad("400 Bad Request")
    return head


def _target(sent: bytes) -> bytes:
    """The target without scheme and host, with which it may be sent (RFC 9112, section 3.2.2)."""
    absolute = _ABSOLUTE.match(sent)
    if absolute is None:
        return sent
    rest = sent[absolute.end():]
    return rest if rest.startswith(b"/") else b"/" + rest


class _Connection:
    def __init__(self, stream: socket.socket, peer: Any, app: App) -> None:
        self._stream, self._app, self._read = stream, app, bytearray()
        self._peer = (str(peer[0]), str(peer[1])) if isinstance(peer, tuple) else ("", "")

    def run(self) -> None:
        """Answer requests until the client or an error ends the connection."""
        try:
            try:
                while self._answered():
                    pass
            except _Bad as bad:
                self._send(str(bad), [], str(bad).encode() + b"\n", False)
        except OSError:
            return
        self._linger()

    def _answered(self) -> bool:
        data = self._until_end()
        if data is None:
            return False
        head = _head_of(data)
        body = self._body(head)
        status, headers, sent = _answer_of(self._app, self._environ(head, body))
        goes_on = head.goes_on
        self._send(status, headers, sent, goes_on, head.method == "HEAD")
        return goes_on

    def _more(self, until: float) -> bytes:
        self._stream.settimeout(max(until - time.monotonic(), 0.001))
        return self._stream.recv(65_536)

    def _until_end(self) -> bytes | None:
        """A request's head, without its last line, or None if the connection ends before it."""
        until, looked = time.monotonic() + _PATIENCE, 0
        while (end := self._read.find(b"\r\n\r\n", looked)) < 0:
            if len(self._read) > _HEAD:
                raise _Bad("431 Request Header Fields Too Large")
            # (however small the pieces are, a byte is looked at a few times at most)
            looked = max(len(self._read) - 3, 0)
            more = self._more(until)
            if not more:
                return None
            self._read += more
        return self._taken(end + 4)[:end]

    def _taken(self, size: int) -> bytes:
        """The first bytes of what was read, which is then shorter by them."""
        taken = bytes(self._read[:size])
        del self._read[:size]
        return taken

    def _body(self, head: _Head) -> bytes:
        size, until = head.size, time.monotonic() + _PATIENCE
        if len(self._read) < size and head.values(b"expect"):
            self._stream.sendall(b"HTTP/1.1 100 Continue\r\n\r\n")
        while len(self._read) < size:
            more = self._more(until)
            if not more:
                raise ConnectionError
            self._read += more
        return self._taken(size)

    def _environ(self, head: _Head, body: bytes) -> dict[str, Any]:
        path, _, query = head.target.partition(b"?")
        environ = {
            "REQUEST_METHOD": head.method, "SCRIPT_NAME": "", "PATH_INFO": unquote_to_bytes(path).decode("latin-1"),
            "QUERY_STRING": query.decode(), "SERVER_PROTOCOL": f"HTTP/1.{head.minor}", "REMOTE_ADDR": self._peer[0],
            "REMOTE_PORT": self._peer[1], "SERVER_NAME": "localhost", "SERVER_PORT": "80",
            "CONTENT_LENGTH": str(len(body)),
            "wsgi.version": (1, 0), "wsgi.url_scheme": "http", "wsgi.input": io.BytesIO(body),
            "wsgi.errors": sys.stderr, "wsgi.multithread": True, "wsgi.multiprocess": False, "wsgi.run_once": False}
        for name, value in head.fields:
            # (a name with `_` could be taken for one with `-`)
            if b"_" in name or name == b"content-length":
                continue
            key, text = name.decode().upper().replace("-", "_"), value.decode("latin-1")
            key = key if key == "CONTENT_TYPE" else f"HTTP_{key}"
            environ[key] = f"{environ[key]},{text}" if key in environ else text
        return environ

    def _send(self, status: str, headers: list[tuple[str, str]], body: bytes, goes_on: bool,
              is_head: bool = False) -> None:
        own = [("Date", formatdate(usegmt=True)), ("Connection", "keep-alive" if goes_on else "close")]
        if "content-length" not in {name.lower() for name, _ in headers}:
            own.append(("Content-Length", str(len(body))))
        lines = [f"HTTP/1.1 {status}", *(f"{name}: {value}" for name, value in [*headers, *own]), "", ""]
        self._stream.settimeout(_PATIENCE)
        self._stream.sendall("\r\n".join(lines).encode("latin-1") + (b"" if is_head else body))

    def _linger(self) -> None:
        """Let the client read the answer before the connection ends, also if it is sending still."""
        try:
            self._stream.shutdown(socket.SHUT_WR)
            until = time.monotonic() + 1
            while time.monotonic() < until and self._more(until):
                pass
        except OSError:
            pass


def _answer_of(app: App, environ: dict[str, Any]) -> tuple[str, list[tuple[str, str]], bytes]:
    """The application's whole answer."""
    begun: list[Any] = ["500 Internal Server Error", []]
    parts: Iterable[bytes] = ()
    written: list[bytes] = []

    def start(status: str, headers: list[tuple[str, str]], exc_info: Any = None) -> Callable[[bytes], None]:
        begun[:] = status, headers
        return written.append
    try:
        parts = app(environ, start)
        written.extend(parts)
        return begun[0], begun[1], b"".join(written)
    except Exception:
        _log.exception("the application failed")
        return "500 Internal Server Error", [("Content-Type", "text/plain")], b"500 Internal Server Error\n"
    finally:
        close = getattr(parts, "close", None)
        if close is not None:
            close()


def serve(app: App, listener: socket.socket) -> None:
    """Answer the connections of a listening socket, each in a thread of its own, for ever.

    The server reads a body of at most 1 MiB, and knows no TLS. Use it for trials on loopback, and for what only a proxy
    reaches.
    """
    free = threading.BoundedSemaphore(_CONNECTIONS)

    def run(stream: socket.socket, peer: Any) -> None:
        try:
            with stream:
                _Connection(stream, peer, app).run()
        finally:
            free.release()
    while True:
        free.acquire()
        try:
            stream, peer = listener.accept()
        except OSError as error:
            free.release()
            _log.error("no connection is taken: %s", error)
            time.sleep(0.1)
            continue
        try:
            threading.Thread(target=run, args=(stream, peer), daemon=True).start()
        except RuntimeError as error:
            _log.error("no thread for a connection: %s", error)
            stream.close()
            free.release()
