"""The service's side: accepts or refuses requests."""
from __future__ import annotations

import ctypes
import enum
from ctypes import byref
from dataclasses import dataclass
from types import TracebackType
from typing import TYPE_CHECKING, Self

from . import _interface
from ._accepted import Accepted, known_by
from ._codes import Code
from ._errors import Error
from ._files import Keytab
from ._interface import Answer
from ._library import Bytes, Handle, Secret, done, filled, fitting, library, octets, text_of
from ._shown import fit_for_a_line
from ._values import Moment, When, clock

if TYPE_CHECKING:
    from ._login import Asked

FIRST_CAUSE, AFTER_CAUSES = 100, 400
# The package's own refusal has the error KRB_ERR_GENERIC, as this one of the library.
_AS_GENERIC = {Code.STORE_FAILED: Code.AUTHORIZATION}
# How many version numbers a text names.
_LISTED = 8


class Refused(Error):
    """A refusal of a request.

    cause     the first cause that applies, such as ``Code.REPEAT``; from Service.answer also a fault of a token, FULL,
              OUT_OF_MEMORY or STORE_FAILED, whose `__cause__` and text say what is wrong with the store
    code      the same
    kerberos  the error code of RFC 4120, section 7.5.9, that belongs to it
    offset    the place of the fault, if the cause is MALFORMED or TOKEN_MALFORMED

    From Service.answer it also has:

    reply     the bytes to send to the client; none if they are empty
    asked     what the request asked for, or None if that isn't known
    held      if the cause is BAD_KEY_VERSION: the version numbers of the keys that the keytab has for it
    serves    if the cause is NOT_US: the one name that the service serves, or None if it serves any

    Its text is fit for a line of a log.

    >>> from fevstunik import Acceptor, Keytab, Refused
    >>> with Acceptor(Keytab.read("examples/service.keytab"), "host/web@EX", first_life=True) as service:
    ...     try:
    ...         service.accept(b"hello")
    ...     except Refused as refused:
    ...         print(refused.cause.name, refused.code.value, refused.kerberos)
    MESSAGE_TYPE 100 40
    """

    def __init__(self, code: int, kerberos: int = 0, offset: int = 0, *, reply: bytes = b"", asked: Asked | None = None,
                 held: tuple[int, ...] = (), serves: str | None = None) -> None:
        super().__init__(code, kerberos, offset)
        self.cause = self.code
        self.reply, self.asked, self.held, self.serves = reply, asked, held, serves

    def __bool__(self) -> bool:
        """Return False: of what Service.answer returns, a Login alone is true."""
        return False

    @property
    def may_pass(self) -> bool:
        """Whether a new request of the client may be accepted a while later: HTTP's status is 503 then.

        >>> from fevstunik import Code, Refused
        >>> Refused(Code.JUST_STARTED).may_pass, Refused(Code.REPEAT).may_pass
        (True, False)
        """
        return self.code in (Code.JUST_STARTED, Code.FULL, Code.OUT_OF_MEMORY, Code.STORE_FAILED)

    def __str__(self) -> str:
        why = "" if self.__cause__ is None else f": {fit_for_a_line(str(self.__cause__))}"
        if self.asked is None:
            return f"{super().__str__()}{why}"
        if self.code != Code.BAD_KEY_VERSION:
            serves = "" if self.serves is None else f"; this service is {fit_for_a_line(self.serves)}"
            return f"{super().__str__()} ({self.asked}){serves}{why}"
        listed = ", ".join(map(str, self.held[:_LISTED])) + (", .." if len(self.held) > _LISTED else "")
        return f"{self.name}: {self.asked}; the keytab has " + (f"kvno {listed}" if listed else "no such key")

    def error(self, service: str, *, now: When | None = None, name_type: int = 3) -> bytes:
        """Return the bytes of the KRB-ERROR for the client, which says why.

        service    the service's name, as ``host/web@EX``
        now        the service's time: the machine's clock by default
        name_type  the type of the service's name (RFC 4120, section 6.2; 3 is a service on a host)

        It isn't sealed: anyone can write such an error.

        >>> len(Refused(Code.REPEAT).error("host/web@EX", now=1_700_000_100))
        73
        """
        name, at = text_of(service), clock(now)
        return filled(lambda *into: library().call(
            "error", fitting(_AS_GENERIC.get(self.code, self.code), 32), name, len(name),
            fitting(name_type, 32, signed=True), byref(at), *into))


class _Restart(enum.IntEnum):
    STARTED = 1
    FIRST_LIFE = 2
    SHARED = 3


@dataclass(frozen=True)
class Usage:
    """What a service remembers, and how much it may.

    remembered        how many requests are remembered
    held              the same, with those that are forgotten and aren't freed yet
    bytes             about how many bytes they take
    limit             the most requests that it remembers
    limit_for_client  the most of one client
    full              how many requests were answered with FULL

    >>> Usage(remembered=3, held=3, bytes=320, limit=5000, limit_for_client=500, full=0).remembered
    3
    """

    remembered: int
    held: int
    bytes: int
    limit: int
    limit_for_client: int
    full: int


class Serving(Secret):
    """What remembers the requests that a service has accepted."""

    def __init__(self, keytab: Keytab, service: str | None, skew: int, options: _interface.AcceptorOptions) -> None:
        name, self._any_name = _wanted(keytab, service, bool(options.any_name)), bool(options.any_name)
        self._handle, self._skew = Handle("acceptor"), skew
        done(self._handle.call("acceptor_new", keytab.data, len(keytab.data), name, len(name), byref(options)))

    def replace_keytab(self, keytab: Keytab, service: str | None) -> None:
        """Take another keytab, for example with a changed key. What the service has seen is kept, so nothing is
        accepted twice. If it was made with first_life, each key that the new keytab adds has to be new, too.

        service  the name that is served; None only for a service that was made with `any_name`

        >>> from fevstunik import Acceptor, Keytab
        >>> keytab = Keytab.read("examples/service.keytab")
        >>> request = bytes.fromhex(open("examples/calls.txt").readline().split()[2])
        >>> service = Acceptor(keytab, "host/web@EX", first_life=True)
        >>> service.accept(request, now=1_700_000_100).close()
        >>> service.replace_keytab(keytab, "host/web@EX")
        >>> service.remembered
        1
        """
        name = _wanted(keytab, service, self._any_name and service is None)
        done(self._handle.call("acceptor_replace_keytab", keytab.data, len(keytab.data), name, len(name),
                               service is None))

    @property
    def remembered(self) -> int:
        """The number of requests that are remembered.

        >>> from fevstunik import Acceptor, Keytab
        >>> Acceptor(Keytab.read("examples/service.keytab"), "host/web@EX", first_life=True).remembered
        0
        """
        return int(self._handle.call("acceptor_count"))

    @property
    def usage(self) -> Usage:
        """How much is remembered, and the limits.

        >>> from fevstunik import Acceptor, Keytab
        >>> service = Acceptor(Keytab.read("examples/service.keytab"), "host/web@EX", first_life=True, limit=5000)
        >>> service.usage
        Usage(remembered=0, held=0, bytes=0, limit=5000, limit_for_client=500, full=0)
        """
        usage = _interface.Usage()
        done(self._handle.call("acceptor_usage", byref(usage)))
        return Usage(usage.remembered, usage.held, usage.bytes, usage.limit, usage.limit_for_client, usage.full)

    @property
    def latest(self) -> Moment | None:
        """The latest moment that accept was given so far, or None. The service decides by it.

        >>> from fevstunik import Acceptor, Keytab
        >>> print(Acceptor(Keytab.read("examples/service.keytab"), "host/web@EX", first_life=True).latest)
        None
        """
        latest = _interface.Time()
        answer = self._handle.call("acceptor_latest", byref(latest))
        if answer.code == Code.NOTHING_THERE:
            return None
        done(answer)
        return Moment(latest.seconds, latest.micros)

    def close(self) -> None:
        """Free what the library holds, including what is remembered. A second call does nothing.

        >>> from fevstunik import Acceptor, Keytab
        >>> Acceptor(Keytab.read("examples/service.keytab"), "host/web@EX", first_life=True).close()
        """
        self._handle.close()

    def __enter__(self) -> Self:
        return self

    def __exit__(self, kind: type[BaseException] | None, fault: BaseException | None,
                 trace: TracebackType | None) -> None:
        self.close()


class Acceptor(Serving):
    """A service. It accepts requests, and remembers them to recognize a repeat.

    keytab      its keys
    service     the name that is served, as ``host/web@EX``. If the keytab has no entry of this name, that is no fault:
                then every ticket is refused. With `any_name` it is None
    skew        by how many seconds clocks may differ
    started     the service's clock at this start, as time.time(). A restarted service has forgotten what it accepted.
                So it refuses requests with the cause JUST_STARTED until its clock and the client's are both later than
                this start by more than the skew
    first_life  True if every key of the keytab is new, so that no service has used one of them before, or if a store of
                stamps has lost nothing (docs/OPERATING.md, "Restarts"). Then the service accepts at once
    limit       the most requests that it remembers: a million by default
    limit_for_client
                the most of one client: a tenth of the limit by default
    any_name    True to serve each name of the keytab: docs/OPERATING.md ("Keys") says what is wrong with that. The
                service is None then

    Pass just one of started and first_life: neither is the default. A start before the year 2020, so any of
    time.monotonic(), raises the Fault EARLY_START.

    Make one and keep it. Any thread may call it. A lock lets one decision run at a time; what was accepted is read
    without that lock. An Acceptor belongs to the process that made it: after a fork, the child's calls raise
    RuntimeError.

    It is a context manager. At the end of the block, or by close(), the library frees what it holds. Then calls raise
    the Fault EMPTY_HANDLE, and `remembered` is 0.

    >>> import time
    >>> from fevstunik import Acceptor, Keytab
    >>> with Acceptor(Keytab.read("examples/service.keytab"), "host/web@EX", started=time.time()) as service:
    ...     service.remembered
    0
    """

    def __init__(self, keytab: Keytab, service: str | None, skew: int = 300, *, started: When | None = None,
                 first_life: bool = False,
                 limit: int | None = None, limit_for_client: int | None = None, any_name: bool = False) -> None:
        super().__init__(keytab, service, skew,
                         options_of(any_name, skew, started, first_life, (limit, limit_for_client)))

    def accept(self, request: Bytes, now: When | None = None) -> Accepted:
        """Accept the bytes of a request, or raise Refused. `now` is the moment, by default of the machine's clock.

        Time doesn't go back: the latest moment given so far is the one that counts. If a limit is reached, so that the
        request can't be remembered, this raises the Fault FULL. Then the request isn't decided, and nothing has
        changed.

        >>> from fevstunik import Acceptor, Keytab
        >>> request = bytes.fromhex(open("examples/calls.txt").readline().split()[2])
        >>> service = Acceptor(Keytab.read("examples/service.keytab"), "host/web@EX", first_life=True)
        >>> service.accept(request, now=1_700_000_100).client
        'alice@EX'
        >>> service.accept(request, now=1_700_000_100)
        Traceback (most recent call last):
            ...
        fevstunik.Refused: REPEAT: a request of this service, client and time was seen before
        """
        request, accepted = octets(request), Handle("accepted")
        done(accepted.call("accepted_new"))
        with self._handle.locked():
            # (the clock is read with the lock: otherwise an earlier moment could come after a later one)
            at = clock(now)
            answer = self._handle.call("acceptor_accept", accepted.pointer, request, len(request), byref(at))
        _decided(answer)
        return known_by(Accepted, accepted, self._skew)


def _wanted(keytab: Keytab, service: str | None, any_name: bool) -> bytes:
    if not isinstance(keytab, Keytab):
        raise TypeError(f"keytab is a Keytab, as Keytab.read(path) returns it, not a {type(keytab).__name__}")
    if service == "":
        raise ValueError("the service's name is empty")
    if service is None and not any_name:
        raise ValueError("name the service, as host/web@EX; or pass any_name=True to serve each name of the keytab")
    if service is not None and any_name:
        raise ValueError("a service that serves any name has none: pass None with any_name=True")
    return b"" if service is None else text_of(service)


def options_of(any_name: bool, skew: int, started: When | None, first_life: bool, limits: tuple[int | None, int | None],
               is_shared: bool = False) -> _interface.AcceptorOptions:
    """What a service is made with, as the library takes it. One that shares a store has a start in its first life, too:
    long ago."""
    if any(limit is not None and limit < 1 for limit in limits):
        raise ValueError("a limit is at least 1")
    for name, flag in ("first_life", first_life), ("any_name", any_name):
        if not isinstance(flag, bool):
            raise TypeError(f"{name} is a bool, not {flag!r}")
    if first_life == (started is not None):
        raise TypeError("pass either started, the clock of this start, or first_life=True, if every key of the keytab "
                        "is new")
    restarts = _Restart.SHARED if is_shared else _Restart.FIRST_LIFE if started is None else _Restart.STARTED
    size, at = ctypes.sizeof(_interface.AcceptorOptions), _interface.Time() if started is None else clock(started)
    all_clients, one_client = (fitting(limit or 0, 64) for limit in limits)
    is_long_ago = is_shared and started is None
    return _interface.AcceptorOptions(size, at, fitting(skew, 32), restarts, any_name, is_long_ago, all_clients,
                                      one_client)


def _decided(answer: Answer) -> None:
    if FIRST_CAUSE <= answer.code < AFTER_CAUSES:
        raise Refused(answer.code, answer.kerberos, answer.at)
    done(answer)
