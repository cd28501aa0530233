"""Logins with Negotiate for requests (https://requests.readthedocs.io)."""
from __future__ import annotations

import ssl
from typing import Any
from urllib.parse import urlsplit

import requests
from requests.auth import AuthBase
from requests.cookies import extract_cookies_to_jar
from requests.utils import rewind_body

from .._files import CredentialCache
from ._logins import Heard, HttpLogin, LoginError, LoginTrouble, Mutual, Origin, Settings

__all__ = ["Negotiate"]
_extract_cookies: Any = extract_cookies_to_jar


class Negotiate(AuthBase):
    """A login with Negotiate, for the argument `auth` of requests and its sessions.

    cache         the client's tickets: by default those of CredentialCache.default(), as they are when a token is made
    service       the service's name, as ``HTTP/www.example.com@EXAMPLE.COM``, at the host of the request. By default,
                  and at hosts to which it is redirected, the name is ``HTTP/`` and the host in the URL
    mutual        ``"required"``: a response is handed on only if the service proved who it is, in its answer to a
                  token, or earlier to this object (as in a session with a cookie). ``"optional"``: a proof is checked
                  if there is one. ``"off"``: none is asked for
    bindings      whether tokens are bound to the channel if it is one of TLS (RFC 5929, tls-server-end-point)
    adjust_clock  whether to try once more by the service's clock, if it says that the clocks differ too much. Nobody
                  has signed that: ask for it only if your machine's clock is known to be wrong
    preemptive    whether the first request has a token already. By default a token is sent if the service asks for a
                  login. Then a body is sent twice, and one that can be read only once raises LoginError (BODY_SPENT)
    canonicalize  whether DNS says by which name a host's service is known. Nobody has signed what DNS says

    A ticket that isn't in the cache is got by ``kvno`` or ``kgetcred``. Each token is for the host that it is sent to.
    If the service has seen it before (Repeat), or refuses it and doesn't say why, the request is sent once more with a
    new one. A redirect needs no proof of its own; the page that it leads to does. After https, no token is sent over
    http. Over http, whoever is between can answer in the service's name once it has proved itself.

    Raises LoginError. Threads may share it.

    >>> from fevstunik import CredentialCache
    >>> from fevstunik.clients.requests import Negotiate
    >>> Negotiate(CredentialCache.read("examples/client.ccache"))
    <Negotiate of alice@EX, mutual authentication required>
    """

    def __init__(self, cache: CredentialCache | None = None, service: str | None = None, *, mutual: Mutual = "required",
                 bindings: bool = False, adjust_clock: bool = False, preemptive: bool = False,
                 canonicalize: bool = False) -> None:
        self._settings = Settings(cache, service, mutual, bindings, adjust_clock, preemptive, canonicalize)

    def __repr__(self) -> str:
        return repr(self._settings)

    def __call__(self, request: requests.PreparedRequest) -> requests.PreparedRequest:
        login = HttpLogin(self._settings, _origin(request))
        header = login.preemptive()
        if header is not None:
            request.headers["Authorization"] = header

        def answered(response: requests.Response, **words: Any) -> requests.Response:
            return _answered(login, response, words)
        # (the types of requests, where they are installed, don't have all that it has)
        hooked: Any = request
        hooked.register_hook("response", answered)
        return request


def _answered(login: HttpLogin, response: requests.Response, words: dict[str, Any]) -> requests.Response:
    """The response, or that to the same request with another token."""
    while True:
        heard = _heard(response)
        # A redirected request is made of this one, and a token is for one host and one time.
        response.request.headers.pop("Authorization", None)
        try:
            header = login.answered(heard)
            if header is None:
                return response
            response = _sent_again(response, header, words)
        except BaseException:
            response.close()
            raise


def _heard(response: requests.Response) -> Heard:
    field = response.headers.get("WWW-Authenticate")
    return Heard(_origin(response.request), response.request.headers.get("Authorization"), response.status_code,
                 response.is_redirect, [] if field is None else [field], lambda: _certificate(response), response)


def _origin(request: requests.PreparedRequest) -> Origin:
    parts = urlsplit(str(request.url))
    return Origin.of(parts.scheme, parts.hostname or "", parts.port)


def _sent_again(response: requests.Response, header: str, words: dict[str, Any]) -> requests.Response:
    """The response to the request of this one with a token."""
    request: Any = response.request.copy()
    before: Any = response
    _rewind(request, response)
    # The connection is used again once its response has been read.
    response.content
    response.close()
    _extract_cookies(request._cookies, response.request, response.raw)
    request.headers.pop("Cookie", None)
    request.prepare_cookies(request._cookies)
    request.headers["Authorization"] = header
    again: requests.Response = before.connection.send(request, **words)
    again.history = [*response.history, response]
    again.request = request
    return again


def _rewind(request: requests.PreparedRequest, response: requests.Response) -> None:
    """Make the body ready to be sent again."""
    if request.body is None or isinstance(request.body, (bytes, str)):
        return
    try:
        rewind_body(request)
    except requests.exceptions.UnrewindableBodyError:
        raise LoginError(LoginTrouble.BODY_SPENT, "the service asks for a login after it was sent the body, which "
                                                  "can't be read again: "
                         "pass bytes, a file that can be rewound, or preemptive=True", response) from None


def _certificate(response: requests.Response) -> bytes | None:
    """The certificate of the channel that a response came by. (requests has no public way to it.)"""
    for names in (("_connection", "sock"), ("_fp", "fp", "raw", "_sock")):
        channel: Any = response.raw
        for name in names:
            channel = getattr(channel, name, None)
        if isinstance(channel, ssl.SSLSocket):
            return channel.getpeercert(True)
    return None
