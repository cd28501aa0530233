"""The login before an application over ASGI 3."""
from __future__ import annotations

import asyncio
from collections.abc import Awaitable, Callable
from http import HTTPStatus
from typing import Any

from ._answers import DROPPED, OVERRIDING, Answer, Headers, to_drop
from ._gate import Gate, Request

Message = dict[str, Any]
Receive = Callable[[], Awaitable[Message]]
Send = Callable[[Message], Awaitable[None]]
App = Callable[[dict[str, Any], Receive, Send], Awaitable[None]]
_OWN_PAGE = "websocket.http.response"
_OVERRIDING = [name.encode() for name in OVERRIDING]


class Middleware:
    """An application, which is asked only for users who have logged in."""

    def __init__(self, gate: Gate, app: App, waits: bool) -> None:
        self._gate, self._app, self._waits = gate, app, waits

    async def __call__(self, scope: dict[str, Any], receive: Receive, send: Send) -> None:
        if scope["type"] not in ("http", "websocket"):
            return await self._app(scope, receive, send)
        request = request_of(scope)
        # (what waits for a store runs in another thread)
        found = await asyncio.to_thread(self._gate.decide, request) if self._waits else self._gate.decide(request)
        if isinstance(found, Answer):
            return await _answer(found, scope, receive, send)
        inner = {name: value for name, value in scope.items() if name != "user"}
        if found.user is not None:
            inner["user"] = found.user
        if not found.headers:
            return await self._app(inner, receive, send)
        await _Answering(found.headers, inner, send).answered(self._app, receive)


class _Answering:
    """An application's answer, which gets headers of ours whatever its status is, also if the application fails."""

    def __init__(self, headers: Headers, scope: dict[str, Any], send: Send) -> None:
        self._headers, self._scope, self._send = headers, scope, send
        self._begun = False

    async def answered(self, app: App, receive: Receive) -> None:
        try:
            await app(self._scope, receive, self._sent)
        except Exception:
            if not self._begun and self._scope["type"] == "http":
                failed = Answer(HTTPStatus.INTERNAL_SERVER_ERROR, "FAILED", self._headers)
                await _send_page(failed, self._scope, self._send, "http")
            # (the server logs it)
            raise

    async def _sent(self, message: Message) -> None:
        if message["type"] in ("http.response.start", "websocket.accept", f"{_OWN_PAGE}.start"):
            self._begun = True
            message = {**message, "headers": [*message.get("headers", ()), *_encoded(self._headers)]}
        await self._send(message)


async def _answer(answer: Answer, scope: dict[str, Any], receive: Receive, send: Send) -> None:
    if scope["type"] == "http":
        await _drop_body(scope, receive)
        return await _send_page(answer, scope, send, "http")
    await receive()
    if _OWN_PAGE in scope.get("extensions", {}):
        return await _send_page(answer, scope, send, "websocket.http")
    # (the server answers 403)
    await send({"type": "websocket.close", "code": 1008})


async def _drop_body(scope: dict[str, Any], receive: Receive) -> None:
    left = to_drop(b"".join(_values(scope, b"content-length")).decode("latin-1"), DROPPED)
    # (some clients send it only if they are asked to)
    while left > 0 and not _values(scope, b"expect"):
        message = await receive()
        left -= len(message.get("body", b""))
        if not message.get("more_body", False):
            return


async def _send_page(answer: Answer, scope: dict[str, Any], send: Send, kind: str) -> None:
    headers, body = answer.page(b",".join(_values(scope, b"accept")))
    await send({"type": f"{kind}.response.start", "status": answer.status.value, "headers": _encoded(headers)})
    await send({"type": f"{kind}.response.body", "body": b"" if scope.get("method") == "HEAD" else body})


def request_of(scope: dict[str, Any]) -> Request:
    client = scope.get("client")
    return Request(
        scope.get("method") == "OPTIONS" and not _is_overridden(scope), scope["path"],
        _values(scope, b"authorization"), _values(scope, b"cookie"),
        _values(scope, b"x-forwarded-for"), client[0] if client else "",
        tuple(client) if client and client[1] else None)


def _is_overridden(scope: dict[str, Any]) -> bool:
    """Whether an application may take another method. (Some take `_` in a name for `-`.)"""
    return any(key.lower().replace(b"_", b"-") in _OVERRIDING for key, _ in scope["headers"])


def _values(scope: dict[str, Any], name: bytes) -> list[bytes]:
    return [bytes(value) for key, value in scope["headers"] if key.lower() == name]


def _encoded(headers: Headers) -> list[tuple[bytes, bytes]]:
    return [(name.lower().encode(), value.encode("latin-1")) for name, value in headers]
