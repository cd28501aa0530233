"""Logins with Negotiate for httpx (https://www.python-httpx.org)."""
from __future__ import annotations

from collections.abc import AsyncGenerator, Generator

import anyio.to_thread
import httpx

from .._files import CredentialCache
from ._logins import Heard, HttpLogin, LoginError, LoginTrouble, Mutual, Origin, Settings

__all__ = ["Negotiate"]


class Negotiate(httpx.Auth):
    """A login with Negotiate, for the argument `auth` of httpx, its Client and its AsyncClient.

    The arguments, and what is promised, are those of fevstunik.clients.requests.Negotiate. An AsyncClient isn't held up
    while a ticket is got.

    >>> from fevstunik import CredentialCache
    >>> from fevstunik.clients.httpx import Negotiate
    >>> Negotiate(CredentialCache.read("examples/client.ccache"), mutual="optional")
    <Negotiate of alice@EX, mutual authentication optional>
    """

    def __init__(self, cache: CredentialCache | None = None, service: str | None = None, *, mutual: Mutual = "required",
                 bindings: bool = False, adjust_clock: bool = False, preemptive: bool = False,
                 canonicalize: bool = False) -> None:
        self._settings = Settings(cache, service, mutual, bindings, adjust_clock, preemptive, canonicalize)

    def __repr__(self) -> str:
        return repr(self._settings)

    def sync_auth_flow(self, request: httpx.Request) -> Generator[httpx.Request, httpx.Response, None]:
        login, seen = HttpLogin(self._settings, _origin(request)), 0
        response = yield _begun(login, request)
        while True:
            header = _answered(login, response, seen)
            if header is None:
                return
            seen += 1
            response = yield _again(response, header)

    async def async_auth_flow(self, request: httpx.Request) -> AsyncGenerator[httpx.Request, httpx.Response]:
        login, seen = HttpLogin(self._settings, _origin(request)), 0
        response = yield await anyio.to_thread.run_sync(_begun, login, request)
        while True:
            header = await anyio.to_thread.run_sync(_answered, login, response, seen)
            if header is None:
                return
            seen += 1
            response = yield _again(response, header)


def _begun(login: HttpLogin, request: httpx.Request) -> httpx.Request:
    header = login.preemptive()
    if header is not None:
        request.headers["Authorization"] = header
    return request


def _answered(login: HttpLogin, response: httpx.Response, seen: int) -> str | None:
    """The field Authorization for the next request. httpx has followed redirects on the way, and sent the token again
    to the same host. The history of a response begins with those that a token followed."""
    header = None
    for it in [*response.history[seen:], response]:
        header = login.answered(_heard(it))
    return header


def _heard(response: httpx.Response) -> Heard:
    return Heard(_origin(response.request), response.request.headers.get("Authorization"), response.status_code,
                 response.has_redirect_location, response.headers.get_list("WWW-Authenticate"),
                 lambda: _certificate(response), response)


def _origin(request: httpx.Request) -> Origin:
    return Origin.of(request.url.scheme, request.url.raw_host.decode("ascii"), request.url.port)


def _again(response: httpx.Response, header: str) -> httpx.Request:
    """The request of a response, with a token."""
    request = response.request
    stream = request.stream
    # The parts of a form are made again each time; other streams are read once.
    if not isinstance(stream, httpx.ByteStream) and type(stream).__module__ != "httpx._multipart":
        raise LoginError(LoginTrouble.BODY_SPENT, "the service asks for a login after it was sent the body, which "
                                                  "can't be read again: "
                         "pass bytes, or preemptive=True", response)
    request.headers["Authorization"] = header
    if response.cookies:
        httpx.Cookies(response.cookies).set_cookie_header(request)
    return request


def _certificate(response: httpx.Response) -> bytes | None:
    """The certificate of the channel that a response came by."""
    stream = response.extensions.get("network_stream")
    channel = None if stream is None else stream.get_extra_info("ssl_object")
    certificate: bytes | None = None if channel is None else channel.getpeercert(True)
    return certificate
