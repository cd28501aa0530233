"""A store in a database of PostgreSQL, for processes of several machines."""
from __future__ import annotations

import importlib
import select
import time
from contextlib import suppress
from typing import Any

from .._errors import StoreFailed, UnsafeStore
from .._values import Moment
from ._store import SECONDS, Connected, Made, clock, micros, skew_of

_LACKS = "SELECT to_regclass('fevstunik_stamps') IS NULL OR to_regclass('fevstunik_store') IS NULL"
_TABLES = """
SELECT pg_advisory_xact_lock(4120);
CREATE TABLE IF NOT EXISTS fevstunik_store (
  one boolean PRIMARY KEY DEFAULT true CHECK (one), made bigint NOT NULL, largest_skew integer NOT NULL);
CREATE TABLE IF NOT EXISTS fevstunik_stamps (stamp bytea PRIMARY KEY, keep_until bigint NOT NULL);
CREATE INDEX IF NOT EXISTS fevstunik_stamps_until ON fevstunik_stamps (keep_until);
"""
# In microseconds, as all moments in the tables.
_CLOCK = "(extract(epoch FROM clock_timestamp()) * 1000000)::bigint"
_MAKE = f"INSERT INTO fevstunik_store (made, largest_skew) VALUES (greatest(%s, {_CLOCK}), %s) ON CONFLICT DO NOTHING"
_MADE = f"SELECT made, largest_skew, {_CLOCK} FROM fevstunik_store"
# The setting holds for the session then, whatever the server's files say later.
_SETTINGS = """
SELECT current_setting('fsync'), current_setting('full_page_writes'),
  set_config('synchronous_commit', current_setting('synchronous_commit'), false),
  (SELECT bool_and(relpersistence = 'p') FROM pg_class
   WHERE oid IN ('fevstunik_stamps'::regclass, 'fevstunik_store'::regclass))
"""
# One statement, and so one transaction. A stamp is hashed: longer ones than 2,700 bytes don't fit into an index.
_ADD = f"""
WITH old AS (DELETE FROM fevstunik_stamps WHERE stamp IN (
  SELECT stamp FROM fevstunik_stamps WHERE keep_until < {_CLOCK} ORDER BY keep_until LIMIT 2 FOR UPDATE SKIP LOCKED))
INSERT INTO fevstunik_stamps VALUES (sha256(%s), %s) ON CONFLICT DO NOTHING
"""


class PostgreSQL(Connected[Any]):
    """A store in a database of PostgreSQL. It needs the Python package psycopg2 (Debian's python3-psycopg2).

    where         the database, as libpq takes it: ``"dbname=web"``, ``"host=/run/postgresql dbname=web user=web"`` or
                  ``"postgresql://.."``
    largest_skew  the largest skew of the services that use it, in seconds; 300 if this is left out, and the store is
                  new
    seconds       how long to wait for an answer, and for a connection: then the connection is closed, and StoreFailed
                  is raised
    unchecked     True if the server's settings aren't to be looked at

    A stamp is one statement, which also deletes two that needn't be kept any longer. The first process makes the tables
    `fevstunik_stamps` and `fevstunik_store`. Raises UnsafeStore if the server isn't set up as docs/OPERATING.md says
    (`fsync`, `full_page_writes`, `synchronous_commit`), if a table is unlogged or temporary, if the server's clock is
    ahead, or if the store was made with another largest skew. If the tables were made again, the services that use them
    let nobody in until they are started again.
    """

    def __init__(self, where: str, largest_skew: int | None = None, *, seconds: float = SECONDS,
                 unchecked: bool = False) -> None:
        super().__init__(seconds)
        self._where, self._checked, self._wanted = where, not unchecked, skew_of(largest_skew)
        self._module: Any = importlib.import_module("psycopg2")
        self._extensions: Any = importlib.import_module("psycopg2.extensions")
        connection, self._made = self._open(self._last())
        self._idle().append(connection)
        self._made.for_skew(largest_skew)

    def _open(self, last: float) -> tuple[Any, Made]:
        try:
            # (such a connection is waited for here, so a wait has an end)
            connection = self._module.connect(self._where, async_=True)
            try:
                self._wait(connection, last)
                return connection, self._looked_at(connection, last)
            except BaseException:
                self._shut(connection)
                raise
        except self._module.Error as fault:
            raise StoreFailed(str(fault).strip()) from fault

    def _looked_at(self, connection: Any, last: float) -> Made:
        (lacks,) = self._row(connection, last, _LACKS)
        if lacks:
            self._run(connection, last, _TABLES)
        if self._checked:
            _check(*self._row(connection, last, _SETTINGS))
        found = self._row(connection, last, _MADE)
        if found is None:
            self._run(connection, last, _MAKE, clock(), self._wanted)
            found = self._row(connection, last, _MADE)
        at, largest_skew, its_clock = found
        if self._checked and its_clock > clock() + largest_skew * 1_000_000:
            raise UnsafeStore("clock", "the server's is ahead by more than the largest skew")
        return Made(at, largest_skew)

    def _is_open(self, connection: Any) -> bool:
        return not connection.closed and not _ready(connection.fileno(), select.POLLIN, 0)

    def _add(self, connection: Any, stamp: bytes, keep_until: Moment, last: float) -> bool:
        try:
            return bool(self._run(connection, last, _ADD, self._module.Binary(stamp), micros(keep_until)).rowcount == 1)
        except self._module.Error as fault:
            raise StoreFailed(str(fault).strip()) from fault

    def _row(self, connection: Any, last: float, statement: str) -> Any:
        return self._run(connection, last, statement).fetchone()

    def _run(self, connection: Any, last: float, statement: str, *words: object) -> Any:
        cursor = connection.cursor()
        cursor.execute(statement, words)
        self._wait(connection, last)
        return cursor

    def _wait(self, connection: Any, last: float) -> None:
        """Wait for the answer, but not longer than until this moment of the monotonic clock."""
        events = {self._extensions.POLL_READ: select.POLLIN, self._extensions.POLL_WRITE: select.POLLOUT}
        while (state := connection.poll()) != self._extensions.POLL_OK:
            if not _ready(connection.fileno(), events[state], last - time.monotonic()):
                raise self._no_answer()

    def _shut(self, connection: Any) -> None:
        with suppress(self._module.Error):
            connection.close()


def _ready(file: int, events: int, seconds: float) -> bool:
    poll = select.poll()
    poll.register(file, events)
    return bool(poll.poll(max(0, round(1000 * seconds))))


def _check(fsync: str, full_page_writes: str, synchronous_commit: str, is_kept: bool) -> None:
    for name, found in (("fsync", fsync), ("full_page_writes", full_page_writes)):
        if found != "on":
            raise UnsafeStore(name, f"it is {found}, and has to be on")
    if synchronous_commit not in ("on", "remote_apply"):
        raise UnsafeStore("synchronous_commit", f"it is {synchronous_commit}, and has to be on or remote_apply")
    if not is_kept:
        raise UnsafeStore("unlogged", "a table of the store is unlogged or temporary, and would be empty after a crash")
