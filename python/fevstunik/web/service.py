"""A service for a reverse proxy, which asks it about each request: auth_request of nginx, forward authentication of
Caddy and Traefik.

It answers 200 with the user in the header Remote-User, percent-encoded, or what the client has to get: 401, 403 or 503.
Over gunicorn:

    gunicorn --bind unix:/run/fevstunik-web/socket 'fevstunik.web.service:app("/etc/fevstunik/web.toml")'

The file is in TOML. Its names are those of the arguments of Negotiate, with tables for `users`, `sessions` and `store`.
A keytab, and the key of sessions, without a leading ``/`` is sought among the files that systemd hands over
(LoadCredential), and else beside it.
"""
from __future__ import annotations

import logging
import os
import re
import tomllib
from collections.abc import Callable, Iterable
from typing import Any
from urllib.parse import quote

from ..stores import PostgreSQL, Redis, SQLite, Store
from ._files import Path, place_of
from ._lines import LogFile
from ._negotiate import Negotiate
from ._sessions import Sessions
from ._users import Users
from ._wsgi import App

_STORES: dict[str, Callable[[str], Store]] = {"redis": Redis, "postgresql": PostgreSQL, "sqlite": SQLite}
# The proxy is on this machine, and says who asks it.
_PROXIES = ("127.0.0.0/8", "::1/128")


def log(level: int) -> None:
    """Write records of this level and above to standard error, with their times and peers, unless the process logs in
    another way."""
    logging.basicConfig(handlers=[LogFile()], level=level)


def app(config: Path) -> App:
    """Return the service of a configuration as an application over WSGI. A name in it that isn't known raises
    ValueError. Decisions are logged (`log`)."""
    log(logging.INFO)
    with open(config, "rb") as file:
        given = tomllib.load(file)
    for table, name in ((given, "keytab"), (given.get("sessions"), "key")):
        if isinstance(table, dict) and isinstance(table.get(name), str):
            table[name] = place_of(table[name], os.path.dirname(os.path.abspath(config)))
    return negotiate_of(given).wsgi(_answer)


def negotiate_of(config: dict[str, Any]) -> Negotiate:
    """Return the Negotiate of a configuration.

    >>> from fevstunik.web.service import negotiate_of
    >>> negotiate_of({"keytab": "examples/service.keytab", "service": "host/web@EX", "users": {"realm": {}}})
    Traceback (most recent call last):
        ...
    ValueError: the configuration is wrong: there is no term `realm`
    """
    given: dict[str, Any] = {"proxies": _PROXIES, **config}
    if "exempt" in given:
        raise ValueError("the proxy decides which paths need a login, so `exempt` isn't taken here")
    try:
        if "users" in given:
            given["users"] = Users(**given["users"])
        if "sessions" in given:
            given["sessions"] = Sessions(**given["sessions"])
        if isinstance(given.get("store"), dict):
            given["store"] = _store_of(given["store"])
        return Negotiate(**given)
    except (TypeError, AttributeError, OverflowError) as error:
        unknown = re.search(r"unexpected keyword argument '(.*)'", str(error))
        trouble = f"there is no term `{unknown[1]}`" if unknown else error
        raise ValueError(f"the configuration is wrong: {trouble}") from None


def _store_of(named: dict[str, Any]) -> Store:
    if len(named) != 1 or not named.keys() <= _STORES.keys():
        raise ValueError(f"`store` is a path, or one of {', '.join(f'{{ {it} = .. }}' for it in _STORES)}, "
                         f"not {', '.join(named) or 'empty'}")
    (kind, where), = named.items()
    return _STORES[kind](where)


def _answer(environ: dict[str, Any], start_response: Callable[..., Any]) -> Iterable[bytes]:
    user = environ.get("REMOTE_USER")
    if user is None:
        # (OPTIONS, which no proxy asks about)
        start_response("405 Method Not Allowed", [("Allow", "GET, HEAD, POST"), ("Content-Length", "0")])
        return []
    start_response("200 OK",
                   [("Remote-User", quote(user, safe="/@")), ("Content-Length", "0"), ("Cache-Control", "no-store")])
    return []
