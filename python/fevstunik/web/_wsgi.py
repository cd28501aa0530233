"""The login before an application over WSGI (PEP 3333)."""
from __future__ import annotations

import logging
from collections.abc import Callable, Generator, Iterable, Iterator
from contextlib import suppress
from http import HTTPStatus
from typing import Any

from ._answers import DROPPED, OVERRIDING, Answer, Headers, to_drop
from ._gate import Gate, Request

App = Callable[[dict[str, Any], Callable[..., Any]], Iterable[bytes]]
_log = logging.getLogger("fevstunik.web")
_PART = 1 << 16
_OVERRIDING = {f"HTTP_{name.upper().replace('-', '_')}" for name in OVERRIDING}


class Middleware:
    """An application, which is asked only for users who have logged in."""

    def __init__(self, gate: Gate, app: App) -> None:
        self._gate, self._app = gate, app

    def __call__(self, environ: dict[str, Any], start_response: Callable[..., Any]) -> Iterable[bytes]:
        for name in ("REMOTE_USER", "AUTH_TYPE", "fevstunik.user", "fevstunik.login"):
            environ.pop(name, None)
        found = self._gate.decide(request_of(environ))
        if isinstance(found, Answer):
            _drop_body(environ)
            return _page(found, environ, start_response)
        if found.user is not None:
            environ["REMOTE_USER"], environ["AUTH_TYPE"] = found.user.name, "Negotiate"
            environ["fevstunik.user"], environ["fevstunik.login"] = found.user, found.user.login
        if not found.headers:
            return self._app(environ, start_response)
        return _Answering(found.headers, environ, start_response).answered(self._app)


class _Answering:
    """An application's answer, which gets headers of ours whatever its status is, also if the application fails.

    The server's start_response is called once, when the first bytes are there: gunicorn keeps the headers of an earlier
    call.
    """

    def __init__(self, headers: Headers, environ: dict[str, Any], start_response: Callable[..., Any]) -> None:
        self._headers, self._environ, self._start = headers, environ, start_response
        self._held: tuple[str, list[tuple[str, str]]] | None = None
        self._write: Callable[[bytes], Any] | None = None

    def answered(self, app: App) -> Iterable[bytes]:
        try:
            parts = app(self._environ, self._begin)
        except Exception:
            return self._failed()
        if self._held is not None and self._is_whole(parts):
            self._send()
            return parts
        return _Parts(parts, self._watched(parts))

    def _is_whole(self, parts: Iterable[bytes]) -> bool:
        """Whether nothing can fail any more, or the server knows how to send it, such as a file."""
        if isinstance(parts, (list, tuple)):
            return True
        file = self._environ.get("wsgi.file_wrapper")
        return isinstance(file, type) and isinstance(parts, file)

    def _begin(self, status: str, headers: list[tuple[str, str]], exc_info: Any = None) -> Callable[[bytes], Any]:
        if exc_info and self._write is not None:
            raise exc_info[1].with_traceback(exc_info[2])
        self._held = status, headers
        return lambda data: self._send()(data)

    def _send(self) -> Callable[[bytes], Any]:
        """Start the answer, unless it has begun."""
        if self._write is None:
            if self._held is None:
                raise AssertionError("the application has called no start_response")
            status, headers = self._held
            self._write = self._start(status, [*headers, *self._headers]) or (lambda _: None)
        return self._write

    def _watched(self, parts: Iterable[bytes]) -> Generator[bytes, None, None]:
        try:
            for part in parts:
                self._send()
                yield part
            self._send()
        except Exception:
            yield from self._failed()

    def _failed(self) -> Iterable[bytes]:
        """A page in place of the application's answer, unless that has begun: then the failure is the server's."""
        if self._write is not None:
            raise
        _log.exception("the application failed")
        return _page(Answer(HTTPStatus.INTERNAL_SERVER_ERROR, "FAILED", self._headers), self._environ, self._start)


class _Parts:
    """An answer as the server reads it. It closes the application's, also if the server has read nothing of it."""

    def __init__(self, parts: Iterable[bytes], watched: Generator[bytes, None, None]) -> None:
        self._parts, self._watched = parts, watched

    def __iter__(self) -> Iterator[bytes]:
        return self._watched

    def close(self) -> None:
        self._watched.close()
        close = getattr(self._parts, "close", None)
        if close is not None:
            close()


def _drop_body(environ: dict[str, Any]) -> None:
    left = to_drop(environ.get("CONTENT_LENGTH") or "", DROPPED if environ.get("wsgi.input_terminated") else 0)
    # (the client may have gone)
    with suppress(Exception):
        while left > 0 and (part := environ["wsgi.input"].read(min(left, _PART))):
            left -= len(part)


def _page(answer: Answer, environ: dict[str, Any], start: Callable[..., Any]) -> list[bytes]:
    headers, body = answer.page(b"".join(_values(environ, "HTTP_ACCEPT")))
    start(answer.title, list(headers))
    return [] if environ["REQUEST_METHOD"] == "HEAD" else [body]


def request_of(environ: dict[str, Any]) -> Request:
    address, port = environ.get("REMOTE_ADDR", ""), environ.get("REMOTE_PORT")
    # (gunicorn before 22 lets the client choose SCRIPT_NAME, so the path is the one by which the application finds its
    # page)
    return Request(
        environ["REQUEST_METHOD"] == "OPTIONS" and not _OVERRIDING & environ.keys(), environ.get("PATH_INFO", ""),
        _values(environ, "HTTP_AUTHORIZATION"), _values(environ, "HTTP_COOKIE"),
        _values(environ, "HTTP_X_FORWARDED_FOR"), address, (address, port) if port else None)


def _values(environ: dict[str, Any], name: str) -> tuple[bytes, ...]:
    """The header, in the bytes that the server has made a text of."""
    text = environ.get(name)
    return () if text is None else (str(text).encode("latin-1", "replace"),)
