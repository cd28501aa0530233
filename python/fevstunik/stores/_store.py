"""What all stores are, and what those of this package share."""
from __future__ import annotations

import time
from abc import ABC, abstractmethod
from dataclasses import dataclass
from typing import Generic, Protocol, TypeVar, runtime_checkable

from .._errors import StoreFailed, UnsafeStore
from .._library import Secret, fitting, here
from .._values import Moment

SECONDS, SKEW = 2.0, 300
_MICROS = 1_000_000


@runtime_checkable
class Store(Protocol):
    """A store, as a service asks it. Any object that has these three is one.

    A store never loses a stamp before `keep_until`, also if it crashes, and its clock isn't ahead of a service's by
    more than `largest_skew`. If it may have lost stamps, `remembers_from` has to be later than what the clocks of
    services said when they were added, and the services that use it are started again.

    >>> import tempfile
    >>> from fevstunik.stores import File, Store
    >>> isinstance(File(tempfile.mkdtemp() + "/stamps"), Store)
    True
    """

    @property
    def remembers_from(self) -> Moment:
        """The moment from which the store has lost no stamp: the start of each service that uses it."""

    @property
    def largest_skew(self) -> int:
        """The largest skew that a service that uses it may have, in seconds."""

    def add(self, stamp: bytes, keep_until: Moment) -> bool:
        """Add a stamp in one step, and return whether it is new. Raises StoreFailed if that isn't known in time."""


@dataclass(frozen=True)
class Made:
    """When a store was made, in microseconds, and for which skew, in seconds. Who knows both knows which store it
    is."""

    at: int
    largest_skew: int

    def for_skew(self, wanted: int | None) -> Made:
        if wanted not in (None, self.largest_skew):
            raise UnsafeStore("largest_skew", f"the store was made with {self.largest_skew}, not {wanted}: it keeps "
                                              f"stamps for this long. "
                                              "To change it, stop all services that use it, and remove it")
        return self


def micros(moment: Moment) -> int:
    return moment.seconds * _MICROS + moment.micros


def clock() -> int:
    """The machine's clock, in microseconds."""
    return time.time_ns() // 1000


def moment_of(at: int) -> Moment:
    """The moment of so many microseconds."""
    return Moment(*divmod(at, _MICROS))


def seconds_of(wanted: float) -> float:
    """How long a store has to answer."""
    if not 0 < wanted < 3600:
        raise ValueError(f"a store has more than 0 and less than 3600 seconds to answer, not {wanted}")
    return float(wanted)


def no_answer(seconds: float) -> StoreFailed:
    return StoreFailed(f"no answer in {seconds:g} seconds")


def made_again() -> StoreFailed:
    return StoreFailed("the store was made again, so it may have lost stamps: start the services that use it again")


def skew_of(wanted: int | None) -> int:
    """The skew of a store that is new."""
    return SKEW if wanted is None else fitting(wanted, 31)


_Connection = TypeVar("_Connection")


class Connected(Secret, ABC, Generic[_Connection]):
    """A store that is asked over connections, one call at a time over each.

    Only a connection over which the whole answer came in time is used again: so no answer can be taken for that about
    another stamp. A process that was forked opens its own.
    """

    _made: Made

    def __init__(self, seconds: float) -> None:
        self._seconds = seconds_of(seconds)
        self._own: tuple[object, list[_Connection]] = here(), []
        self._inherited: list[list[_Connection]] = []

    @property
    def remembers_from(self) -> Moment:
        """The moment at which the store was made."""
        return moment_of(self._made.at)

    @property
    def largest_skew(self) -> int:
        """The largest skew of the services that use it, in seconds."""
        return self._made.largest_skew

    def add(self, stamp: bytes, keep_until: Moment) -> bool:
        """Add a stamp in one step, and return whether it is new. Raises StoreFailed if that isn't known in time."""
        idle = self._idle()
        connection = self._connection(idle)
        last = self._last()
        try:
            is_new = self._add(connection, stamp, keep_until, last)
            self._in_time(last)
        except BaseException:
            self._shut(connection)
            raise
        # (after a fork in between, these are the parent's)
        idle.append(connection)
        return is_new

    def close(self) -> None:
        """Close the connections that no call uses. A later call opens one again."""
        idle = self._idle()
        while idle:
            self._shut(idle.pop())

    def _idle(self) -> list[_Connection]:
        """The connections of this process that no call uses. Those from before a fork stay as they are: they are the
        parent's."""
        if self._own[0] != here():
            self._inherited.append(self._own[1])
            self._own = here(), []
        return self._own[1]

    def _connection(self, idle: list[_Connection]) -> _Connection:
        """One of these connections, or a new one if none of them is still open."""
        while idle:
            try:
                connection = idle.pop()
            except IndexError:
                break
            if self._is_open(connection):
                return connection
            self._shut(connection)
        return self._opened()

    def _opened(self) -> _Connection:
        """A new connection, to the store that this was at first."""
        last = self._last()
        connection, made = self._open(last)
        try:
            self._in_time(last)
            if made != self._made:
                raise made_again()
        except BaseException:
            self._shut(connection)
            raise
        return connection

    def _last(self) -> float:
        return time.monotonic() + self._seconds

    def _in_time(self, last: float) -> None:
        if time.monotonic() > last:
            raise self._no_answer()

    def _no_answer(self) -> StoreFailed:
        return no_answer(self._seconds)

    @abstractmethod
    def _open(self, last: float) -> tuple[_Connection, Made]:
        """A new connection, and what store it leads to."""

    @abstractmethod
    def _is_open(self, connection: _Connection) -> bool:
        """Whether a connection that no call uses is still open, and nothing has come over it."""

    @abstractmethod
    def _add(self, connection: _Connection, stamp: bytes, keep_until: Moment, last: float) -> bool:
        """Whether a stamp is new, over this connection, and if it can be said until this moment of the monotonic
        clock."""

    @abstractmethod
    def _shut(self, connection: _Connection) -> None:
        """Close a connection."""
