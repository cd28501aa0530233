"""The login before an application."""
from __future__ import annotations

import os
from collections.abc import Iterable
from typing import Any

from .._library import fitting
from .._login import store_of
from .._service import Usage
from .._values import Moment
from ..stores import Store
from . import _asgi, _wsgi
from ._events import networks_of
from ._files import Certificates, Path, content, keytab_for, realms_of
from ._gate import Gate, Terms
from ._serving import Serving
from ._sessions import Cookies, Sessions
from ._users import Users


class Negotiate:
    """Logs users in, in front of an application over WSGI or ASGI.

    keytab        the path of the keytab with the service's keys. It is read again when it changes
    service       the name that is served, as ``HTTP/www.example.com@EXAMPLE.COM``
    store         what remembers requests for all processes, and over restarts: a path, or a store of fevstunik.stores.
                  Without it each process refuses everybody for the skew, from its first request on
    users         who is let in, and by which names: by default clients of the service's realm, as ``alice@EXAMPLE.COM``
    sessions      Sessions, or None: then each request needs a token of its own
    certificates  files with the TLS server's certificates in PEM. Channel bindings are checked against them
    bindings      ``"check"`` refuses a client that sends other bindings, ``"require"`` also one that sends none
    exempt        paths of the application for which nobody has to log in: one path, or all below it if it ends with
                  ``/``
    proxies       addresses or networks of trusted proxies, whose X-Forwarded-For says the peer's address for the log.
                  If there is one, a peer at a Unix socket is trusted, too
    token_limit   the longest token, in bytes
    skew          by how many seconds clocks may differ
    first_life    True if every key of the keytab is new, as for Service
    limit, limit_for_client
                  the most requests that are remembered, as for Service
    retry_after   after how many seconds a client that is answered 503 is to try again
    any_name      True to serve each name of the keytab, as for Service. The service is None then

    If the keytab has no key of type 19 or 20 for the service, it raises ValueError; invalid files raise Fault,
    ValueError or OSError, and a store's file that isn't safe StoreFailed.

    >>> from fevstunik.web import Negotiate, Users
    >>> users = Users(realms={"EX": "{user}"})
    >>> negotiate = Negotiate(keytab="examples/service.keytab", service="host/web@EX", users=users)
    >>> @negotiate.wsgi
    ... def app(environ, start_response):
    ...     start_response("200 OK", [("Content-Type", "text/plain")])
    ...     return [environ["REMOTE_USER"].encode()]
    >>> Negotiate(keytab="examples/service.keytab", service="HTTP/web@EX")
    Traceback (most recent call last):
        ...
    ValueError: the keytab has no key of type 19 or 20 for HTTP/web@EX; it has type 19 for host/web@EX
    """

    def __init__(self, *, keytab: Path, service: str | None, store: Store | Path | None = None,
                 users: Users | None = None,
                 sessions: Sessions | None = None, certificates: Iterable[Path] = (), bindings: str = "check",
                 exempt: Iterable[str] = (), proxies: Iterable[str] = (), token_limit: int = 65_536, skew: int = 300,
                 first_life: bool = False, limit: int | None = None, limit_for_client: int | None = None,
                 retry_after: int = 60, any_name: bool = False) -> None:
        path, data = os.fspath(keytab), content(os.fspath(keytab))
        if service is not None or any_name:
            keytab_for(data, service)
        for name, number, least in ("token_limit", token_limit, 1), ("retry_after", retry_after, 0):
            if not isinstance(number, int) or number < least:
                raise ValueError(f"{name} is a whole number from {least} on, not {number!r}")
        _check("users", users, Users)
        _check("sessions", sessions, Sessions)
        users = users if users is not None else Users({it: "{user}@{realm}" for it in realms_of(data, service)})
        named = Certificates(_listed("certificates", certificates))
        terms = Terms(users, named, _needs_bindings(bindings, named), _paths(exempt),
                      networks_of(_listed("proxies", proxies)), token_limit, ("Retry-After", str(retry_after)))
        given: dict[str, Any] = {
            "skew": skew, "first_life": first_life, "limit": limit, "limit_for_client": limit_for_client,
            "anonymous": users.anonymous, "realms": users.realms, "any_name": any_name,
            # (a file is made here, and not at the first request: nobody is let in for a while after that)
            "store": None if store is None else store_of(store, fitting(skew, 32))}
        # (wrong terms are found here, and not at the first request)
        unused = Serving(path, data, service, {**given, "store": None})
        self._unused = unused.usage
        unused.close()
        cookies = None if sessions is None else Cookies(sessions, service or "", users)
        self._gate = Gate(lambda: Serving(path, data, service, given), terms, cookies)
        self._waits = store is not None

    def wsgi(self, app: _wsgi.App) -> _wsgi.App:
        """Return the application with the login before it. It may be used as a decorator.

        The application finds the user's name in ``environ["REMOTE_USER"]``, the User in ``environ["fevstunik.user"]``,
        and the Login in ``environ["fevstunik.login"]``, which is None in a session.

        >>> from fevstunik.web import Negotiate
        >>> negotiate = Negotiate(keytab="examples/service.keytab", service="host/web@EX")
        >>> app = negotiate.wsgi(lambda environ, start_response: [])
        >>> environ = {"REQUEST_METHOD": "GET", "PATH_INFO": "/"}
        >>> app(environ, lambda status, headers: print(status, headers[0]))[0][:34]
        401 Unauthorized ('WWW-Authenticate', 'Negotiate')
        b'This site needs a Kerberos login. '
        """
        return _wsgi.Middleware(self._gate, app)

    def asgi(self, app: _asgi.App) -> _asgi.App:
        """Return the application with the login before it, likewise. It finds the User in ``scope["user"]``.

        >>> from fevstunik.web import Negotiate
        >>> negotiate = Negotiate(keytab="examples/service.keytab", service="host/web@EX")
        >>> @negotiate.asgi
        ... async def app(scope, receive, send):
        ...     await send({"type": "http.response.start", "status": 200, "headers": []})
        ...     await send({"type": "http.response.body", "body": scope["user"].name.encode()})
        """
        return _asgi.Middleware(self._gate, app, self._waits)

    @property
    def counts(self) -> dict[str, int]:
        """How many decisions this process has made, by their causes.

        >>> from fevstunik.web import Negotiate
        >>> Negotiate(keytab="examples/service.keytab", service="host/web@EX").counts
        {}
        """
        return self._gate.events.so_far()

    @property
    def usage(self) -> Usage:
        """How much this process remembers, and the limits, as of a Service. Processes that share a store have a memory
        each, too.

        >>> from fevstunik.web import Negotiate
        >>> Negotiate(keytab="examples/service.keytab", service="host/web@EX", limit=5000).usage
        Usage(remembered=0, held=0, bytes=0, limit=5000, limit_for_client=500, full=0)
        """
        serving = self._gate.serving
        return self._unused if serving is None else serving.usage

    @property
    def latest(self) -> Moment | None:
        """The latest moment at which this process decided about a login, or None before the first one.

        >>> from fevstunik.web import Negotiate
        >>> print(Negotiate(keytab="examples/service.keytab", service="host/web@EX").latest)
        None
        """
        serving = self._gate.serving
        return None if serving is None else serving.latest


def _needs_bindings(bindings: str, certificates: Certificates) -> bool:
    if bindings not in ("check", "require"):
        raise ValueError(f"bindings are \"check\" or \"require\", not {bindings!r}")
    if bindings == "require" and not certificates.known:
        raise ValueError("to require bindings, name the certificates")
    return bindings == "require"


def _listed(name: str, items: Iterable[Any]) -> tuple[Any, ...]:
    if isinstance(items, (str, bytes)):
        raise TypeError(f"`{name}` is a list")
    return tuple(items)


def _paths(exempt: Iterable[str]) -> tuple[str, ...]:
    paths = _listed("exempt", exempt)
    for it in paths:
        if not it.startswith("/"):
            raise ValueError(f"a path begins with `/`: {it!r}")
    return paths


def _check(name: str, value: object, kind: type) -> None:
    if value is not None and not isinstance(value, kind):
        raise TypeError(f"{name} is a {kind.__name__} of fevstunik.web, not a {type(value).__name__}")
