"""Sessions: a sealed cookie stands for a login."""
from __future__ import annotations

import base64
import binascii
import json
import logging
import re
import threading
import time
from collections.abc import Iterable
from dataclasses import dataclass

from .._errors import Fault
from .._values import Key
from ._files import Path, Watched, session_key
from ._users import NotAllowed, User, Users

# Of those that RFC 3961 leaves to applications (1024 to 2047, even ones for sealing).
USAGE = 1100
_VERSION = 1
# Browsers keep no longer ones.
_LONGEST = 4000
# How many cookies of the name are tried.
_TRIED = 4
_BASE64URL = re.compile(rb"[A-Za-z0-9_-]+\Z")
_log = logging.getLogger("fevstunik.web")


@dataclass(frozen=True)
class Sessions:
    """Sessions of users who have logged in. A cookie, sealed with type 20 under a key of the service, stands for the
    login until it ends.

    hours   how long a session lasts at most. It also ends with the ticket
    key     a file with 32 random bytes, which only its owner may read. It is made if it isn't there. A new file ends
            all sessions. All processes of a service need the same one. Without it each process has a key of its own,
            and its end ends the sessions
    logout  the path at which a session ends, as ``"/logout"``, or None
    secure  whether the cookie is sent over TLS alone. Pass False only to try a service without TLS

    Whoever has the cookie is taken for the user. Within the session nobody asks the KDC, so a user who is locked out
    there stays in until the session ends.

    >>> Sessions(hours=10, key="/run/web/session.key", logout="/logout")
    Sessions(hours=10, key='/run/web/session.key', logout='/logout', secure=True)
    """

    hours: float = 8
    key: Path | None = None
    logout: str | None = None
    secure: bool = True

    def __post_init__(self) -> None:
        if not 0 < self.hours < 10_000:
            raise ValueError(f"a session can't last for {self.hours} hours")
        if self.logout is not None and not self.logout.startswith("/"):
            raise ValueError(f"a path begins with `/`: {self.logout!r}")


class Cookies:
    """The cookies of sessions of a service."""

    def __init__(self, sessions: Sessions, service: str, users: Users) -> None:
        self._seconds, self._service, self._users = int(sessions.hours * 3600), service, users
        self.logout = sessions.logout
        self.name = "__Host-fevstunik" if sessions.secure else "fevstunik"
        self._terms = "; Path=/; HttpOnly; SameSite=Lax" + ("; Secure" if sessions.secure else "")
        self._file = None if sessions.key is None else Watched(sessions.key)
        self._key = Key.random(20) if self._file is None else session_key(self._file.path)
        if self._file is not None:
            self._file.changed()
        self.begin()

    def begin(self) -> None:
        """A process begins."""
        self._lock = threading.Lock()

    def of(self, user: User) -> str | None:
        """The header Set-Cookie for a user who has logged in, or None if the cookie would be too long."""
        end = min(int(time.time()) + self._seconds, user.end)
        held = [_VERSION, self._service, end, user.name, user.client, user.realm, *user.components]
        sealed = self._current().seal(USAGE, json.dumps(held, ensure_ascii=False).encode())
        value = base64.urlsafe_b64encode(sealed).decode().rstrip("=")
        return None if len(value) > _LONGEST else f"{self.name}={value}{self._terms}"

    def ended(self) -> str:
        """The header Set-Cookie that ends a session."""
        return f"{self.name}={self._terms}; Max-Age=0"

    def user(self, cookies: Iterable[bytes]) -> User | None:
        """The user of a session that hasn't ended, by the headers Cookie."""
        found = [value for name, value in _pairs(cookies) if name == self.name.encode()]
        if not found:
            return None
        key, now = self._current(), time.time()
        users = (self._opened(key, value, now) for value in found[:_TRIED])
        return next((it for it in users if it is not None), None)

    def _opened(self, key: Key, value: bytes, now: float) -> User | None:
        if len(value) > _LONGEST or not _BASE64URL.match(value):
            return None
        try:
            sealed = base64.urlsafe_b64decode(value + b"=" * (-len(value) % 4))
            held = json.loads(key.open(USAGE, sealed))
        except (binascii.Error, Fault):
            return None
        version, of, end, name, client, realm, *components = held
        if version != _VERSION or of != self._service or now >= end or not self._is_still(client, name):
            return None
        return User(name, client, realm, tuple(components), end)

    def _is_still(self, client: str, name: str) -> bool:
        """Whether the rules for users, which may have changed since, let the client in by this name."""
        try:
            return self._users.name_of(client) == name
        except NotAllowed:
            return False

    def _current(self) -> Key:
        """The key, as the file has it. If the file can't be read, the one before is kept."""
        if self._file is None:
            return self._key
        with self._lock:
            try:
                if self._file.changed() is not None:
                    self._key = session_key(self._file.path)
            except (OSError, ValueError) as error:
                _log.error("the key of sessions is kept, since the new one can't be read: %s", error)
            return self._key


def _pairs(cookies: Iterable[bytes]) -> Iterable[tuple[bytes, bytes]]:
    for header in cookies:
        for pair in header.split(b";"):
            name, _, value = pair.strip(b" \t").partition(b"=")
            yield name, value
