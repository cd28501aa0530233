"""The login of a request of HTTP, over its redirects and repeats, whichever library sends it."""
from __future__ import annotations

import base64
import binascii
import enum
import re
import socket
from collections.abc import Callable, Iterable
from dataclasses import dataclass, replace
from typing import Literal, NamedTuple, get_args

from .._bindings import tls_server_end_point
from .._caches import CacheError
from .._client import Client, ServiceError
from .._errors import Fault
from .._files import CredentialCache
from .._shown import fit_for_a_line

Mutual = Literal["required", "optional", "off"]
# KRB_AP_ERR_REPEAT and KRB_AP_ERR_SKEW (RFC 4120, section 7.5.9)
_REPEAT, _SKEW = 34, 37
_UNAUTHORIZED = 401
_PORTS = {"http": 80, "https": 443}


class LoginTrouble(enum.Enum):
    """Why a request with a login failed.

    NO_TICKET    there is no ticket for the service, or no token can be made of it
    REFUSED      the service refused the login
    NOT_PROVED   the service answered without a proof that it is the right one, or with a wrong one
    BODY_SPENT   the request has to be sent again, and its body can't be
    NO_BINDINGS  the channel's bindings were asked for, and this channel has none that are defined
    NOT_TLS      a request that began over TLS was redirected to a place without it, which asks for a login

    >>> from fevstunik.clients import LoginTrouble
    >>> LoginTrouble("refused")
    <LoginTrouble.REFUSED: 'refused'>
    """

    NO_TICKET = "no_ticket"
    REFUSED = "refused"
    NOT_PROVED = "not_proved"
    BODY_SPENT = "body_spent"
    NO_BINDINGS = "no_bindings"
    NOT_TLS = "not_tls"


class LoginError(Exception):
    """A request with a login failed. Its ``__cause__`` is the ServiceError, Fault or CacheError that says more, if
    there is one.

    trouble   why
    response  the response as the library has it, closed, and perhaps without its body; or None. Nothing proves who it
              is from

    >>> from fevstunik.clients import LoginError, LoginTrouble
    >>> str(LoginError(LoginTrouble.NOT_PROVED, "https://www.example.com sent no proof of who it is"))
    'NOT_PROVED: https://www.example.com sent no proof of who it is'
    """

    def __init__(self, trouble: LoginTrouble, text: str, response: object = None) -> None:
        super().__init__(trouble, text)
        self.trouble = trouble
        self.response = response

    def __str__(self) -> str:
        return f"{self.trouble.name}: {self.args[1]}"


class Origin(NamedTuple):
    """Where a request goes."""

    scheme: str
    host: str
    port: int

    @classmethod
    def of(cls, scheme: str, host: str, port: int | None) -> Origin:
        scheme, host = scheme.lower(), host.lower().removesuffix(".")
        return cls(scheme, host, _PORTS.get(scheme, 0) if port is None else port)

    def __str__(self) -> str:
        return fit_for_a_line(f"{self.scheme}://{self.host}"
                              + ("" if _PORTS.get(self.scheme) == self.port else f":{self.port}"))


@dataclass(frozen=True)
class Heard:
    """A response.

    origin       where its request went
    credentials  the field Authorization of its request, or None
    challenges   the values of its fields WWW-Authenticate
    certificate  returns the certificate of the channel it came by, in DER, or None
    response     what the library made of it
    """

    origin: Origin
    credentials: str | None
    status: int
    is_redirect: bool
    challenges: Iterable[str]
    certificate: Callable[[], bytes | None]
    response: object

    def error(self, trouble: LoginTrouble, text: str) -> LoginError:
        return LoginError(trouble, f"{self.origin} {text}", self.response)


class Settings:
    """What a user of Negotiate wants, and what its logins have learnt: the services that proved who they are, and how
    far ahead the clocks of some are."""

    def __init__(self, cache: CredentialCache | None, service: str | None, mutual: Mutual, bindings: bool,
                 adjust_clock: bool, preemptive: bool, canonicalize: bool) -> None:
        if mutual not in get_args(Mutual):
            raise ValueError(f"mutual is one of {', '.join(get_args(Mutual))}, not {mutual!r}")
        if adjust_clock and mutual == "off":
            raise ValueError("a service says what its clock is only if it is asked for a proof: mutual has to be "
                             "required or optional")
        if preemptive and bindings:
            raise ValueError("a first request has no bindings, since its channel isn't there yet: leave out preemptive")
        self.cache, self.service, self.mutual = cache, service, mutual
        self.bindings, self.adjust_clock = bindings, adjust_clock
        self.preemptive, self.canonicalize = preemptive, canonicalize
        self.proved: set[Origin] = set()
        self.ahead: dict[Origin, float] = {}

    def __repr__(self) -> str:
        owner = "the default cache" if self.cache is None else self.cache.owner.name
        return f"<Negotiate of {owner}, mutual authentication {self.mutual}>"

    def service_at(self, host: str) -> str:
        """The name of the service at a host, without a realm."""
        if not self.canonicalize:
            return f"HTTP/{host}"
        found = socket.getaddrinfo(host, None, type=socket.SOCK_STREAM, flags=socket.AI_CANONNAME)
        return f"HTTP/{(found[0][3] or host).lower().removesuffix('.')}"


@dataclass(frozen=True, repr=False)
class _Sent:
    """A token that was sent, as the field Authorization; whether that was before the service asked for it, and whether
    a redirect has answered it. (httpx then sends it again to the same host.)"""

    client: Client
    field: str
    origin: Origin
    ahead: float
    is_unasked: bool
    is_answered: bool = False


class HttpLogin:
    """The login of one request, which may be redirected and sent again.

    first  where it is sent first: only there `service` is the service's name
    """

    def __init__(self, settings: Settings, first: Origin) -> None:
        self._settings, self._first = settings, first
        self._sent: _Sent | None = None
        self._has_repeated, self._is_over_tls = False, first.scheme == "https"
        self._adjusted: dict[Origin, float] = {}

    def preemptive(self) -> str | None:
        """The field Authorization of the first request, if it has one."""
        return self._token(self._first, None) if self._settings.preemptive else None

    def answered(self, heard: Heard) -> str | None:
        """Return the field Authorization with which the request of this response is to be sent again, or None if the
        response may be handed on. Raises LoginError."""
        self._is_over_tls = self._is_over_tls or heard.origin.scheme == "https"
        offered, text = _challenge(heard.challenges)
        sent = self._sent_with(heard, text)
        if heard.status == _UNAUTHORIZED and offered and (sent is None or self._may_try_again(sent, text)):
            return self._token(heard.origin, heard)
        self._judge(heard, sent, text)
        return None

    def _sent_with(self, heard: Heard, text: str | None) -> _Sent | None:
        """The token that a response answers, if its request had one of ours."""
        sent, self._sent = self._sent, None
        if sent is None or heard.credentials != sent.field or heard.origin.host != sent.origin.host:
            return None
        if sent.is_answered and (text is None or heard.status == _UNAUTHORIZED):
            return None
        if heard.is_redirect:
            self._sent = replace(sent, is_answered=True)
        return sent

    def _may_try_again(self, sent: _Sent, text: str | None) -> bool:
        """Whether another token may be let in: after a repeat, if the service asks for one and doesn't say why, and by
        its clock."""
        error = _error_of(sent, text)
        if text is None or error is not None and error.error is not None and error.error.code == _REPEAT:
            is_first, self._has_repeated = not self._has_repeated, True
            return is_first
        if error is None or error.error is None:
            return False
        may_adjust = self._settings.adjust_clock and sent.origin not in self._adjusted
        if error.error.code == _SKEW and may_adjust and error.clock_offset is not None:
            self._adjusted[sent.origin] = sent.ahead + error.clock_offset
            return True
        return False

    def _judge(self, heard: Heard, sent: _Sent | None, text: str | None) -> None:
        """Raises LoginError if the response isn't to be handed on. A redirect needs no proof: the page that it leads to
        does."""
        settings = self._settings
        if sent is not None and settings.mutual != "off" and text is not None:
            self._verify(heard, sent, text)
        if settings.mutual != "required" or heard.is_redirect or self._is_of_session(heard, sent):
            return
        if sent is None:
            raise heard.error(LoginTrouble.NOT_PROVED, f"answered with status {heard.status} and didn't ask for a "
                                                       f"login by Negotiate, so "
                              "nothing proves who it is")
        if text is None and heard.status == _UNAUTHORIZED:
            raise heard.error(LoginTrouble.REFUSED, "refused the login, and didn't say why")
        if text is None:
            raise heard.error(LoginTrouble.NOT_PROVED, f"answered with status {heard.status} and sent no proof of who "
                                                       f"it is")

    def _is_of_session(self, heard: Heard, sent: _Sent | None) -> bool:
        """Whether the response may be one that needs no token, from a service that has proved who it is."""
        is_asked = sent is not None and (not sent.is_unasked or heard.status == _UNAUTHORIZED)
        return heard.origin in self._settings.proved and not is_asked

    def _verify(self, heard: Heard, sent: _Sent, text: str) -> None:
        """Check the service's answer to a token."""
        try:
            sent.client.finish(base64.b64decode(text, validate=True))
        except ServiceError as fault:
            if heard.status == _UNAUTHORIZED and self._settings.mutual != "required":
                return
            trouble = (LoginTrouble.REFUSED if fault.error is not None or heard.status == _UNAUTHORIZED
                       else LoginTrouble.NOT_PROVED)
            raise heard.error(trouble, f"answered with status {heard.status}: {fault}") from fault
        except (Fault, binascii.Error) as fault:
            raise heard.error(LoginTrouble.NOT_PROVED, f"sent a wrong proof of who it is: {fault}") from fault
        self._settings.proved.add(heard.origin)
        self._settings.ahead[heard.origin] = sent.ahead

    def _token(self, origin: Origin, heard: Heard | None) -> str:
        """The field Authorization for a service, with a new token."""
        settings, response = self._settings, None if heard is None else heard.response
        if self._is_over_tls and origin.scheme != "https":
            raise LoginError(LoginTrouble.NOT_TLS, f"after TLS, the request was redirected to {origin}, which asks for "
                                                   f"a login", response)
        bindings = _bindings(heard) if settings.bindings and heard is not None and origin.scheme == "https" else None
        ahead = self._adjusted.get(origin, settings.ahead.get(origin, 0.0))
        try:
            cache, name = self._ticket(origin)
            client = Client(cache, name, bindings=bindings, wants_reply=settings.mutual != "off")
            token = client.first(clock_offset=ahead)
        except (CacheError, Fault, OSError) as fault:
            raise LoginError(LoginTrouble.NO_TICKET, f"there is no token for {origin}: {fault}", response) from fault
        field = f"Negotiate {base64.b64encode(token).decode()}"
        self._sent = _Sent(client, field, origin, ahead, heard is None)
        return field

    def _ticket(self, origin: Origin) -> tuple[CredentialCache, str]:
        """A cache with a ticket for the service, and the service's name."""
        settings = self._settings
        named = (settings.service if settings.service is not None and origin.host == self._first.host
                 else settings.service_at(origin.host))
        cache = (CredentialCache.default() if settings.cache is None else settings.cache).fetch(named)
        if settings.cache is not None:
            settings.cache = cache
        ticket = cache.ticket_for(named)
        return cache, named if ticket is None else ticket.server


def _challenge(challenges: Iterable[str]) -> tuple[bool, str | None]:
    """Whether the service offers Negotiate, and the text of its token."""
    for field in challenges:
        # (a quotation without an end takes the rest of the field, so that each byte is looked at once)
        unquoted = re.sub(r'"(?:[^"\\]|\\.|\\\Z)*(?:"|\Z)', '""', field, flags=re.S)
        found = re.search(r"(?:^|,)\s*negotiate(?:\s+([A-Za-z0-9+/]+=*))?\s*(?=,|$)", unquoted, re.I)
        if found:
            return True, found[1]
    return False, None


def _error_of(sent: _Sent, text: str | None) -> ServiceError | None:
    """The error in a service's answer, if it is one."""
    try:
        sent.client.finish(base64.b64decode(text or "", validate=True))
    except ServiceError as error:
        return error
    except (Fault, binascii.Error):
        pass
    return None


def _bindings(heard: Heard) -> bytes:
    certificate = heard.certificate()
    if certificate is None:
        raise heard.error(LoginTrouble.NO_BINDINGS, "answered by a channel whose certificate isn't known, so it has no "
                                                    "bindings")
    try:
        return tls_server_end_point(certificate)
    except ValueError as fault:
        raise heard.error(LoginTrouble.NO_BINDINGS, f"has a certificate without bindings: {fault}") from fault
