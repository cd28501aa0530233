"""The decision about a request."""
from __future__ import annotations

import base64
import logging
import os
import threading
import weakref
from collections.abc import Callable, Hashable, Sequence
from dataclasses import dataclass
from http import HTTPStatus
from typing import NamedTuple

from .._codes import Code
from .._errors import Fault, StoreFailed
from .._login import Login
from .._service import Refused
from .._tokens import GoOn
from ._answers import Answer, Headers
from ._credentials import BadHeader, TooLong, token_of
from ._events import Event, Events, Networks, peer_of
from ._files import Certificates
from ._serving import Serving
from ._sessions import Cookies
from ._users import NotAllowed, User, Users

_log = logging.getLogger("fevstunik.web")
_CHALLENGE = ("WWW-Authenticate", "Negotiate")
# Refusals of clients that are who they say.
_NOT_ALLOWED = (Code.ANONYMOUS_CLIENT, Code.FOREIGN_REALM)
_UNBOUND = bytes(16)
_Decided = tuple["Passed | Answer", Event]


class Request(NamedTuple):
    """What is decided about. `connection` stands for the peer's connection, or is None if it isn't known."""

    is_options: bool
    path: str
    authorization: Sequence[bytes]
    cookies: Sequence[bytes]
    forwarded: Sequence[bytes]
    address: str
    connection: Hashable


class Passed(NamedTuple):
    """The application answers: the user, or None if nobody had to log in, and headers for its answer."""

    user: User | None
    headers: Headers = ()


@dataclass(frozen=True)
class Terms:
    """Who is let in, and where. `limit` is that of a token in bytes; `retry` the header of an answer 503."""

    users: Users
    certificates: Certificates
    needs_bindings: bool
    exempt: tuple[str, ...]
    proxies: Networks
    limit: int
    retry: tuple[str, str]

    def is_exempt(self, path: str) -> bool:
        return any(path == it or (it.endswith("/") and path.startswith(it)) for it in self.exempt) and _is_simple(path)

    def is_bound(self, login: Login) -> bool:
        """Whether the client's channel is that of one of the certificates, or may be unknown."""
        if not self.certificates.known:
            return True
        try:
            hashes = self.certificates.hashes()
        except (OSError, ValueError) as error:
            _log.error("the old certificates are kept: %s", error)
            hashes = self.certificates.known
        try:
            context = login.context
        except Fault:
            # (what can't be read doesn't say that there are none)
            return False
        sent = _UNBOUND if context is None else context.bindings
        return sent in hashes or (sent == _UNBOUND and not self.needs_bindings)


class Gate:
    """Decides about requests, by a service that is made at the first of them in each process. So it may be made before
    a server forks."""

    def __init__(self, make: Callable[[], Serving], terms: Terms, cookies: Cookies | None) -> None:
        self._make, self._terms, self._cookies = make, terms, cookies
        self.events = Events()
        self.begin()
        _all.add(self)

    def begin(self) -> None:
        """A process begins. (In a child, a lock may be held by a thread that isn't there.)"""
        self._lock = threading.Lock()
        self._serving: Serving | None = None
        self.events.begin()
        if self._cookies is not None:
            self._cookies.begin()

    @property
    def serving(self) -> Serving | None:
        """The service of this process, or None before its first token."""
        return self._serving

    def decide(self, request: Request) -> Passed | Answer:
        """Decide about a request. The decision is logged and counted."""
        found, event = self._decide(request)
        self.events.add(event, peer_of(request.address, request.forwarded, self._terms.proxies))
        return found

    def _decide(self, request: Request) -> _Decided:
        cookies = self._cookies
        if cookies is not None and request.path == cookies.logout:
            return Answer(HTTPStatus.OK, "LOGOUT", (("Set-Cookie", cookies.ended()),)), Event("LOGOUT", "logged out")
        if request.is_options or (self._terms.exempt and self._terms.is_exempt(request.path)):
            return Passed(None), Event("EXEMPT", "nobody has to log in here")
        user = None if cookies is None else cookies.user(request.cookies)
        if user is not None:
            return Passed(user), Event("SESSION", user=user)
        try:
            token = token_of(request.authorization, self._terms.limit)
        except BadHeader as error:
            return _refused(HTTPStatus.BAD_REQUEST, "BAD_HEADER", str(error))
        except TooLong as error:
            return _refused(HTTPStatus.REQUEST_HEADER_FIELDS_TOO_LARGE, "TOKEN_TOO_LONG", str(error))
        if token is None:
            return Answer(HTTPStatus.UNAUTHORIZED, "NO_TOKEN", (_CHALLENGE,)), Event("NO_TOKEN", "asked for a token")
        return self._answered(self._decision(token, request.connection))

    def _decision(self, token: bytes, connection: Hashable) -> Login | GoOn | Refused:
        serving = self._serving
        if serving is None:
            try:
                serving = self._made()
            except StoreFailed as error:
                _log.error("the store can't be used: %s", error)
                return Refused(Code.STORE_FAILED)
        return serving.answer(token, connection)

    def _made(self) -> Serving:
        """The service of this process, which the first request makes."""
        with self._lock:
            if self._serving is None:
                self._serving = self._make()
            return self._serving

    def _answered(self, decision: Login | GoOn | Refused) -> _Decided:
        if isinstance(decision, Login):
            return self._let_in(decision)
        if isinstance(decision, GoOn):
            answer = Answer(HTTPStatus.UNAUTHORIZED, "GO_ON", (_header(decision.reply),))
            return answer, Event("GO_ON", "the negotiation goes on")
        event = Event(decision.cause.name, str(decision), asked=decision.asked)
        if decision.may_pass:
            return Answer(HTTPStatus.SERVICE_UNAVAILABLE, event.cause, (self._terms.retry,)), event
        if decision.cause in _NOT_ALLOWED:
            return Answer(HTTPStatus.FORBIDDEN, event.cause), event
        # An error goes back to a client that awaits a reply. A browser that gets one shows no page. After a repeat, a
        # new token is all that is needed: python-requests sends its token again after a redirect, and makes a new one
        # only if it is asked to.
        awaits = decision.asked is not None and decision.asked.mutual and decision.cause != Code.REPEAT
        return Answer(HTTPStatus.UNAUTHORIZED, event.cause, (_header(decision.reply if awaits else b""),)), event

    def _let_in(self, login: Login) -> _Decided:
        reply: Headers = (_header(login.reply),) if login.reply else ()
        if not self._terms.is_bound(login):
            return _refused(HTTPStatus.UNAUTHORIZED, "CHANNEL_BINDINGS", Code.CHANNEL_BINDINGS.text, (_CHALLENGE,),
                            login.client)
        try:
            user = self._terms.users.user_of(login)
        except NotAllowed as error:
            return _refused(HTTPStatus.FORBIDDEN, "NOT_ALLOWED", str(error), reply, login.client)
        cookie = None if self._cookies is None else self._cookies.of(user)
        if cookie is not None:
            reply += (("Set-Cookie", cookie),)
        return Passed(user, reply), Event("LOGIN", user=user)


_all: weakref.WeakSet[Gate] = weakref.WeakSet()


def _begin_all() -> None:
    for it in list(_all):
        it.begin()


os.register_at_fork(after_in_child=_begin_all)


def _refused(status: HTTPStatus, cause: str, text: str, headers: Headers = (), client: str | None = None) -> _Decided:
    named = "" if client is None else f" ({client})"
    return Answer(status, cause, headers), Event(cause, f"{cause}: {text}{named}", client=client)


def _header(token: bytes) -> tuple[str, str]:
    return ("WWW-Authenticate", f"Negotiate {base64.b64encode(token).decode()}") if token else _CHALLENGE


def _is_simple(path: str) -> bool:
    """Whether no application reads the path as another one."""
    segments = path.split("/")
    return not (set("\\%;\0") & set(path) or {".", ".."} & set(segments) or "" in segments[1:-1])
