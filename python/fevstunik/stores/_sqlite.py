"""A store in a file, for the processes of one machine."""
from __future__ import annotations

import os
import random
import sqlite3
import time
import urllib.parse
import weakref
from collections.abc import Callable
from contextlib import suppress
from pathlib import Path

from .._errors import StoreFailed
from .._library import here
from .._values import Moment
from ._place import Place
from ._store import SECONDS, Connected, Made, clock, micros, skew_of

# What was written before a process was killed is in the page cache: so nothing is synced, and a file is used within one
# boot alone.
_TABLES = ("PRAGMA journal_mode = WAL; "
           "CREATE TABLE store (boot TEXT NOT NULL, made INTEGER NOT NULL, largest_skew INTEGER NOT NULL, "
           "forgotten INTEGER NOT NULL, next BLOB NOT NULL); "
           "CREATE TABLE stamps (key BLOB PRIMARY KEY, keep_until INTEGER NOT NULL) WITHOUT ROWID;")
# A service's stamp ends with its time. That comes first in the key, so that new ones are added at the end of the file's
# order, in a page that is at hand.
_TIME = 8
# A stamp that may have been forgotten isn't added: the clock was set back.
_ADD = ("INSERT INTO stamps (key, keep_until) SELECT ?1, ?2 WHERE ?2 > (SELECT forgotten FROM store) "
        "ON CONFLICT DO NOTHING")
# After so many stamps, twice as many are looked at, in the order of their keys, and those that are old are forgotten.
# (An index by time would cost each login as much as the stamp itself.) The last statement notes from which one to go
# on; after the last, that is the first again.
_PORTION = 32
# How often a statement is tried again at once, while another process writes.
_AT_ONCE = 1
_SEEN = f"FROM stamps WHERE key >= (SELECT next FROM store) ORDER BY key LIMIT {2 * _PORTION}"
_HAS_OLD = f"SELECT count(*) FROM (SELECT keep_until {_SEEN}) WHERE keep_until < ?"
_NOTE = f"""UPDATE store SET
forgotten = max(forgotten, ifnull((SELECT max(keep_until) FROM (SELECT keep_until {_SEEN}) WHERE keep_until < ?), 0))"""
_FORGET = f"""DELETE FROM stamps WHERE keep_until < ? AND
key BETWEEN (SELECT next FROM store) AND (SELECT max(key) FROM (SELECT key {_SEEN}))"""
_GO_ON = f"UPDATE store SET next = ifnull((SELECT key {_SEEN} - changes(), 1), x'')"
_PASS_BY = f"UPDATE store SET next = ifnull((SELECT key {_SEEN}, 1), x'')"


class _File:
    """A connection to a file. Two processes that want to write at once try again and again."""

    def __init__(self, path: Path, no_answer: Callable[[], Exception]) -> None:
        # (a text is looked up faster than a Path)
        self.path = str(path)
        found = os.stat(self.path)
        self.file, self.no_answer, self.added = (found.st_dev, found.st_ino), no_answer, 0
        self.base = sqlite3.connect(f"file:{urllib.parse.quote(self.path)}?mode=rw", uri=True, timeout=0,
                                    isolation_level=None, check_same_thread=False)
        # (a cursor for each statement takes as long as a tenth of it)
        self._cursor = self.base.cursor()

    def run(self, last: float, statement: str, *words: object) -> sqlite3.Cursor:
        """Run a statement, and return its cursor, which the next one uses, too. It is tried again while another
        process writes, until this moment of the monotonic clock."""
        tried = 0
        while True:
            try:
                return self._cursor.execute(statement, words)
            except sqlite3.OperationalError as fault:
                if fault.sqlite_errorcode & 0xff not in (sqlite3.SQLITE_BUSY, sqlite3.SQLITE_LOCKED):
                    raise
            if time.monotonic() > last:
                raise self.no_answer()
            _wait(tried)
            tried += 1


def _wait(tried: int) -> None:
    """Wait for another process that writes, after so many tries. Unless it was interrupted, it is done sooner than
    after any sleep (even one of 0 seconds takes 50 microseconds)."""
    if tried >= _AT_ONCE:
        time.sleep(min(0.0001 * 2 ** (tried - _AT_ONCE), 0.002) * random.random())


class SQLite(Connected[_File]):
    """A store in a file, for all processes of one machine: by SQLite, as Python has it.

    path          the file, as ``"/run/web/stamps"``; the name of the machine's boot is put after it. Its folder is the
                  service's user's
    largest_skew  the largest skew of the services that use it, in seconds; 300 if this is left out, and the file is new
    seconds       how long to wait for an answer: then StoreFailed is raised
    boot          the name of the machine's boot: by default /proc/sys/kernel/random/boot_id
    unchecked     True if the file's place and mode aren't to be looked at

    The first process of a boot makes the file, and removes those of earlier boots. So clients are refused with
    JUST_STARTED for the skew after each boot, and never after a service was started again. What a killed process has
    added stays. Nothing is synced: a file of another boot may lack stamps, and isn't used. If the file is removed, the
    services that use it let nobody in until they are started again.

    Raises UnsafeStore if others may write to the folder or read the file, if the file system isn't known to be on this
    machine, or if the file was made with another largest skew.

    >>> import tempfile
    >>> from fevstunik import Moment
    >>> store = SQLite(tempfile.mkdtemp() + "/stamps")
    >>> store.add(b"a stamp", Moment(2_000_000_000)), store.add(b"a stamp", Moment(2_000_000_000))
    (True, False)
    >>> store.largest_skew, store.remembers_from <= Moment.now()
    (300, True)
    """

    def __init__(self, path: str | os.PathLike[str], largest_skew: int | None = None, *, seconds: float = SECONDS,
                 boot: str | None = None, unchecked: bool = False) -> None:
        super().__init__(seconds)
        self._place = Place(path, boot, not unchecked)
        self.path, skew = self._place.path, skew_of(largest_skew)
        try:
            self._place.check_folder()
            self._place.make_if_lacking(lambda new: self._make(new, skew), self._seconds)
            connection, made = self._open(self._last())
        except (OSError, sqlite3.Error) as fault:
            raise StoreFailed(f"{self.path}: {fault}") from fault
        self._made = made
        # (so a process that only makes the store can be forked in any way)
        self._shut(connection)
        made.for_skew(largest_skew)
        _stores.add(self)

    def _make(self, new: Path, largest_skew: int) -> None:
        """Make a file. The clock is read after it was seen that there is none."""
        base = sqlite3.connect(new, isolation_level=None)
        try:
            base.execute("PRAGMA synchronous = OFF")
            base.executescript(_TABLES)
            base.execute("INSERT INTO store VALUES (?, ?, ?, 0, x'')", (self._place.boot, clock(), largest_skew))
        finally:
            base.close()

    def _open(self, last: float) -> tuple[_File, Made]:
        try:
            self._place.check_file()
            _look_for_a_fork()
            file = _File(self.path, self._no_answer)
            _open_now.add(file)
            try:
                boot, *made = file.run(last, "SELECT boot, made, largest_skew FROM store").fetchone()
                file.base.execute("PRAGMA synchronous = OFF")
                self._is_there(file)
                if boot != self._place.boot:
                    raise StoreFailed(f"{self.path} is of another boot")
            except BaseException:
                self._shut(file)
                raise
        except FileNotFoundError:
            raise self._removed() from None
        except (OSError, sqlite3.Error, TypeError) as fault:
            raise StoreFailed(f"{self.path}: {fault}") from fault
        return file, Made(*made)

    def _is_open(self, connection: _File) -> bool:
        return True

    def _add(self, connection: _File, stamp: bytes, keep_until: Moment, last: float) -> bool:
        until = micros(keep_until)
        try:
            if connection.added % _PORTION == 0:
                self._forget(connection, last)
            connection.added += 1
            is_new = connection.run(last, _ADD, stamp[-_TIME:] + stamp[:-_TIME], until).rowcount == 1
            if not is_new and connection.run(last, "SELECT forgotten >= ? FROM store", until).fetchone()[0]:
                raise StoreFailed("the clock was set back, so the stamp may have been forgotten")
            # (after the stamp was added: a file that is made from now on is of a later moment than the request)
            self._is_there(connection)
        except (OSError, sqlite3.Error) as fault:
            raise StoreFailed(f"{self.path}: {fault}") from fault
        return is_new

    def _forget(self, connection: _File, last: float) -> None:
        """Forget those of some stamps that needn't be kept any longer, and note up to which time they were."""
        now = clock()
        # (as a rule there are none, and to see that stops no other process)
        if connection.run(last, _HAS_OLD, now).fetchone() == (0,):
            connection.run(last, _PASS_BY)
            return
        connection.run(last, "BEGIN IMMEDIATE")
        with connection.base:
            connection.run(last, _NOTE, now)
            connection.run(last, _FORGET, now)
            connection.run(last, _GO_ON)

    def _is_there(self, connection: _File) -> None:
        try:
            found = os.stat(connection.path)
        except FileNotFoundError:
            raise self._removed() from None
        if connection.file != (found.st_dev, found.st_ino):
            raise self._removed()

    def _removed(self) -> StoreFailed:
        return StoreFailed(f"{self.path} was removed: start the services that use it again")

    def _shut(self, connection: _File) -> None:
        _open_now.discard(connection)
        with suppress(sqlite3.Error):
            connection.base.close()


# SQLite doesn't notice a fork, and takes locks of the parent for its own, on the same file: so nothing is open when a
# process forks; and if a call of another thread is, the child doesn't open a file.
_stores: weakref.WeakSet[SQLite] = weakref.WeakSet()
_open_now: weakref.WeakSet[_File] = weakref.WeakSet()
_process = here()


def _look_for_a_fork() -> None:
    global _process
    if _process != here():
        if _open_now:
            raise StoreFailed("another thread was asking a store when this process was forked")
        _process = here()


def _before_fork() -> None:
    for it in list(_stores):
        with suppress(StoreFailed):
            it.close()


os.register_at_fork(before=_before_fork)
