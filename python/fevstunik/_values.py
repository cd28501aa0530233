"""Arguments and results: moments, keys, flags, and data with a type."""
from __future__ import annotations

import enum
import math
import os
import threading
import time
from ctypes import byref
from dataclasses import dataclass, field
from typing import Union

from . import _interface
from ._codes import Code
from ._library import Bytes, Secret, Shown, done, filled, fitting, library, octets, text_of

CONFOUNDER = 16
FIRST_SECOND, LAST_SECOND = -62_167_219_200, 253_402_300_799


@dataclass(frozen=True, order=True)
class Moment:
    """A moment of the years 0000 to 9999: seconds since 1970-01-01T00:00:00Z, and microseconds after them.

    >>> Moment(1_700_000_100, 5) < Moment(1_700_000_101)
    True
    >>> Moment(1_700_000_100, 1_000_000)
    Traceback (most recent call last):
        ...
    ValueError: a moment has 0 to 999999 microseconds, not 1000000
    """

    seconds: int
    micros: int = 0

    def __post_init__(self) -> None:
        for number in (self.seconds, self.micros):
            if isinstance(number, bool) or not isinstance(number, int):
                raise TypeError(f"seconds and microseconds of a moment are int, not {number!r}")
        if not FIRST_SECOND <= self.seconds <= LAST_SECOND:
            raise ValueError(f"{self.seconds} seconds are outside the years 0000 to 9999")
        if not 0 <= self.micros < 1_000_000:
            raise ValueError(f"a moment has 0 to 999999 microseconds, not {self.micros}")

    @classmethod
    def now(cls) -> Moment:
        """Return the moment of the machine's clock.

        >>> Moment.now() > Moment(1_700_000_000)
        True
        """
        return moment_of(*divmod(time.time_ns() // 1000, 1_000_000))

    @classmethod
    def of(cls, when: When) -> Moment:
        """Return the moment of a number of seconds, such as time.time() returns.

        >>> Moment.of(1_700_000_100.5)
        Moment(seconds=1700000100, micros=500000)
        """
        if isinstance(when, Moment):
            return when
        if isinstance(when, bool) or not isinstance(when, (int, float)):
            raise TypeError(f"a moment can't be {when!r}")
        if isinstance(when, int):
            return cls(when)
        if not math.isfinite(when):
            raise ValueError(f"a moment can't be {when}")
        seconds = int(when // 1)
        return cls(seconds, min(int((when - seconds) * 1_000_000), 999_999))


When = Union[Moment, int, float]


def moment_of(seconds: int, micros: int) -> Moment:
    """The moment of numbers that needn't be checked."""
    made = object.__new__(Moment)
    object.__setattr__(made, "seconds", seconds)
    object.__setattr__(made, "micros", micros)
    return made


def clock(when: When | None) -> _interface.Time:
    """The moment as the library takes it: the machine's clock by default."""
    if when is None:
        return _interface.Time(*divmod(time.time_ns() // 1000, 1_000_000))
    return _taken(Moment.of(when))


def _taken(moment: Moment) -> _interface.Time:
    return _interface.Time(moment.seconds, moment.micros)


class _OwnMoments:
    """Moments of the machine's clock, each handed out once, in any number of threads, unless the clock is set back by a
    second or more. A clock that stands still, or is set back by less, is counted on by microseconds."""

    def __init__(self) -> None:
        # (a signal handler may ask for a moment while its thread has the lock)
        self._lock = threading.RLock()
        self._last = 0
        # (another thread may hold the lock when the process forks)
        os.register_at_fork(after_in_child=self._forked)

    def _forked(self) -> None:
        self._lock = threading.RLock()

    def next(self) -> Moment:
        with self._lock:
            now = time.time_ns() // 1000
            # A signal handler runs after a call of a function, so never within this line.
            self._last = last = self._last + 1 if 0 <= self._last - now < 1_000_000 else now
        return Moment(*divmod(last, 1_000_000))


_own_moments = _OwnMoments()


def clock_of_request(when: When | None) -> _interface.Time:
    """The same for a client's request: by default a moment that no other request of this process has."""
    return _taken(_own_moments.next() if when is None else Moment.of(when))


class TicketFlags(enum.IntFlag):
    """The flags of a ticket (RFC 4120, section 5.3; ENC_PA_REP: RFC 6806, section 11; ANONYMOUS: RFC 8062, section 3).

    >>> TicketFlags.INITIAL in TicketFlags(0x40600000)
    True
    """

    FORWARDABLE = 1 << 30
    FORWARDED = 1 << 29
    PROXIABLE = 1 << 28
    PROXY = 1 << 27
    MAY_POSTDATE = 1 << 26
    POSTDATED = 1 << 25
    INVALID = 1 << 24
    RENEWABLE = 1 << 23
    INITIAL = 1 << 22
    PRE_AUTHENT = 1 << 21
    HW_AUTHENT = 1 << 20
    TRANSITED_POLICY_CHECKED = 1 << 19
    OK_AS_DELEGATE = 1 << 18
    ENC_PA_REP = 1 << 16
    ANONYMOUS = 1 << 15


@dataclass(frozen=True, repr=False)
class TypedData(Shown):
    """An address, an item of authorization data or a checksum: the number of its type, and its bytes. Its `repr` has
    their number.

    >>> TypedData(2, bytes([192, 0, 2, 1]))
    TypedData(kind=2, data=<4 bytes>)
    """

    kind: int
    data: bytes


# How many bytes a key of each type has.
KEY_SIZES = {19: 16, 20: 32}


@dataclass(frozen=True)
class Key(Secret):
    """A key: the number of its encryption type, and its bytes, which its `repr` doesn't have. It can't be pickled or
    copied.

    Keys of types 19 (16 bytes) and 20 (32 bytes) seal and open texts, and make checksums (RFC 8009), for a usage (RFC
    4120, section 7.5.1). With a key of another type or length, these methods raise Fault.

    >>> Key(19, bytes(16))
    Key(kind=19)
    """

    kind: int
    data: bytes = field(repr=False)

    @classmethod
    def random(cls, kind: int) -> Key:
        """Return a new random key of type 19 or 20.

        >>> len(Key.random(20).data)
        32
        """
        if kind not in KEY_SIZES:
            raise ValueError(f"random keys are of type 19 or 20, not {kind}")
        return cls(kind, os.urandom(KEY_SIZES[kind]))

    def seal(self, usage: int, plain: Bytes) -> bytes:
        """Seal a plain text with a new random confounder, and return the sealed bytes.

        A sealed text can be sent again, to either side, as long as the key is used: put a number into each text, and
        use a usage of its own for each direction.

        >>> len(Key.random(19).seal(1024, b"hello"))
        37
        """
        confounder, plain = os.urandom(CONFOUNDER), octets(plain)
        return filled(lambda *into: library().call("seal", *self._words(usage), confounder, CONFOUNDER, plain,
                                                   len(plain), *into))

    def open(self, usage: int, sealed: Bytes) -> bytes:
        """Return the plain text of a sealed text. Raise the Fault TEXT_INTEGRITY if it wasn't sealed under this key for
        this usage.

        >>> key = Key.random(19)
        >>> key.open(1024, key.seal(1024, b"hello"))
        b'hello'
        >>> key.open(1025, key.seal(1024, b"hello"))
        Traceback (most recent call last):
            ...
        fevstunik.Fault: TEXT_INTEGRITY: the tag is wrong
        """
        sealed = octets(sealed)
        return filled(lambda *into: library().call("open", *self._words(usage), sealed, len(sealed), *into))

    def checksum(self, usage: int, text: Bytes) -> bytes:
        """Return the checksum of a text: 16 bytes (type 19) or 24 (type 20).

        >>> len(Key.random(20).checksum(1025, b"hello"))
        24
        """
        text = octets(text)
        return filled(lambda *into: library().call("checksum", *self._words(usage), text, len(text), *into))

    def verify(self, usage: int, text: Bytes, tag: Bytes) -> bool:
        """Return whether a tag is the whole checksum of a text.

        >>> key = Key.random(20)
        >>> key.verify(1025, b"hello", key.checksum(1025, b"hello")), key.verify(1025, b"hello", bytes(24))
        (True, False)
        """
        text, tag = octets(text), octets(tag)
        answer = library().call("checksum_check", *self._words(usage), text, len(text), tag, len(tag))
        if answer.code == Code.TEXT_INTEGRITY:
            return False
        done(answer)
        return True

    def _words(self, usage: int) -> tuple[int, bytes, int, int]:
        data = octets(self.data)
        return fitting(self.kind, 32, signed=True), data, len(data), fitting(usage, 32)


def chosen(subkey: Key | None, seq: int | None, wants_reply: bool) -> tuple[object, bytes, int]:
    """What a side chooses for its message, as the library takes it."""
    kind, data = (0, b"") if subkey is None else (fitting(subkey.kind, 32, signed=True), octets(subkey.data))
    choice = _interface.Choice(kind, 0 if seq is None else fitting(seq, 32), seq is not None, wants_reply)
    return byref(choice), data, len(data)


def check_name(text: str) -> int:
    """Check that a text is a valid name, such as ``host/web@EX``, and return the number of its components.

    >>> check_name("host/web@EX")
    2
    >>> check_name("host/web")
    Traceback (most recent call last):
        ...
    fevstunik.Fault: NO_REALM: the text has no unescaped `@`
    """
    data = text_of(text)
    return int(done(library().call("name_check", data, len(data))).size)
