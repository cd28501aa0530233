"""The service of one process: its keys, what it has seen, and clients between two rounds."""
from __future__ import annotations

import logging
import threading
import time
from collections import OrderedDict
from collections.abc import Hashable
from typing import Any

from .._codes import Code
from .._errors import Fault
from .._login import Connection, Login, Service
from .._service import Refused, Usage
from .._tokens import GoOn
from .._values import Moment
from ._files import Watched, keytab_for

# How many clients may be between two rounds of a negotiation, and for how many seconds.
_ROUNDS, _PATIENCE = 1024, 60.0
# A NegTokenResp begins with it (RFC 4178, section 4.2).
_GOES_ON = b"\xa1"
_log = logging.getLogger("fevstunik.web")


class Serving:
    """A Service that takes a changed keytab by itself.

    file    the keytab's file
    data    what was read of it when the login was made
    name    the name that is served, or None
    terms   the other arguments of Service
    """

    def __init__(self, file: str, data: bytes, name: str | None, terms: dict[str, Any]) -> None:
        self._file, self._data, self._name = Watched(file), data, name
        if terms["store"] is None and not terms["first_life"]:
            terms = {**terms, "started": time.time()}
        self._service = Service(keytab_for(data, name), name, **terms)
        self._lock = threading.Lock()
        self._rounds: OrderedDict[Hashable, tuple[Connection, float]] = OrderedDict()

    def close(self) -> None:
        self._service.close()

    @property
    def usage(self) -> Usage:
        return self._service.usage

    @property
    def latest(self) -> Moment | None:
        return self._service.latest

    def answer(self, token: bytes, connection: Hashable) -> Login | GoOn | Refused:
        """Decide about a token. `connection` stands for the client's connection: the second round of a negotiation
        comes over the same."""
        if self._file.is_due():
            self._look(False)
        # (a proxy's connection carries requests of several clients, so a token that begins a negotiation never goes on
        # with another's)
        going_on = self._taken(connection) if token.startswith(_GOES_ON) else None
        login = going_on or self._service.login()
        decision = login.answer(token)
        has_other_key = isinstance(decision, Refused) and decision.code == Code.BAD_KEY_VERSION
        if has_other_key and self._look(True) and not going_on:
            decision = self._service.login().answer(token)
        if isinstance(decision, GoOn) and connection is not None:
            self._keep(connection, login)
        return decision

    def _taken(self, connection: Hashable) -> Connection | None:
        with self._lock:
            found = self._rounds.pop(connection, None)
        return found[0] if found is not None and time.monotonic() - found[1] < _PATIENCE else None

    def _keep(self, connection: Hashable, login: Connection) -> None:
        with self._lock:
            self._rounds[connection] = login, time.monotonic()
            if len(self._rounds) > _ROUNDS:
                self._rounds.popitem(last=False)

    def _look(self, at_once: bool) -> bool:
        """Take the keytab if it has changed. If it can't be used, the one before is kept."""
        with self._lock:
            try:
                data = self._file.changed(at_once)
                if data is None or data == self._data:
                    return False
                self._service.replace_keytab(keytab_for(data, self._name), self._name)
                self._data = data
            except (OSError, ValueError, Fault) as error:
                _log.error("the old keys are kept, since %s can't be used: %s", self._file.path, error)
                return False
            except MemoryError:
                self._file.read_again()
                _log.error("the old keys are kept for now, since memory ran out for those of %s", self._file.path)
                return False
        _log.info("new keys were read from %s", self._file.path)
        return True
