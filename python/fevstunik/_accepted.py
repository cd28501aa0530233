"""What is known of a client whose request was accepted."""
from __future__ import annotations

import enum
import os
from ctypes import byref, c_int32
from dataclasses import dataclass, field
from functools import lru_cache
from types import TracebackType
from typing import TYPE_CHECKING, Any, Self, TypeVar

from . import _interface
from ._codes import Code
from ._library import Handle, Secret, Shown, done, filled, fitting, read
from ._tokens import CHECKSUM, Context
from ._values import CONFOUNDER, Key, Moment, TicketFlags, TypedData, chosen, moment_of


class _List(enum.IntEnum):
    ADDRESSES = 1
    TICKET_AUTHORIZATION = 2
    AUTHENTICATOR_AUTHORIZATION = 3
    CHECKSUM = 4
    TRANSITED = 5


@dataclass(frozen=True, repr=False)
class Stamp(Shown):
    """What stands for an accepted request in a store that several instances of a service share.

    data        service, client and client's time as bytes: the same if and only if the requests are of the same
                service, client and time
    keep_until  until when the store must keep it, by its own clock, rounded up to what the store can keep: the client's
                time plus twice the skew

    >>> Stamp(b"service, client and time", Moment(1_700_000_700)).keep_until.seconds
    1700000700
    """

    data: bytes
    keep_until: Moment


@dataclass(frozen=True)
class Known(Secret):
    """What is known of a client whose request was accepted. Some of it is made when it is first asked for."""

    client: str
    service: str
    time: Moment
    authtime: int
    starttime: int | None
    endtime: int
    flags: TicketFlags
    session_key: Key
    subkey: Key | None
    seq: int | None
    wants_reply: bool
    client_type: int
    service_type: int
    _handle: Handle = field(repr=False, compare=False)
    _skew: int = field(repr=False, compare=False)
    _lists: dict[_List, tuple[TypedData, ...]] = field(repr=False, compare=False, default_factory=dict)

    # (hidden from mypy, which would let any name be asked for)
    if not TYPE_CHECKING:
        def __getattr__(self, name):
            if name not in _SELDOM:
                raise AttributeError(f"{type(self).__name__!r} object has no attribute {name!r}")
            self.__dict__.update(_seldom(*self.__dict__["_found"]))
            return self.__dict__[name]

    @property
    def addresses(self) -> tuple[TypedData, ...]:
        """The ticket's addresses, which weren't compared with anything. They are read on first use.

        >>> from fevstunik import Acceptor, Keytab
        >>> request = bytes.fromhex(open("examples/calls.txt").readline().split()[2])
        >>> acceptor = Acceptor(Keytab.read("examples/service.keytab"), "host/web@EX", first_life=True)
        >>> acceptor.accept(request, now=1_700_000_100).addresses
        ()
        """
        return self._items(_List.ADDRESSES)

    @property
    def authorization(self) -> tuple[TypedData, ...]:
        """The ticket's authorization data; each item is of type 1 (AD-IF-RELEVANT). They are read on first use.

        >>> from fevstunik import Acceptor, Keytab
        >>> request = bytes.fromhex(open("examples/calls.txt").readline().split()[2])
        >>> acceptor = Acceptor(Keytab.read("examples/service.keytab"), "host/web@EX", first_life=True)
        >>> acceptor.accept(request, now=1_700_000_100).authorization
        ()
        """
        return self._items(_List.TICKET_AUTHORIZATION)

    @property
    def authenticator_authorization(self) -> tuple[TypedData, ...]:
        """The authenticator's authorization data, likewise.

        >>> from fevstunik import Acceptor, Keytab
        >>> request = bytes.fromhex(open("examples/calls.txt").readline().split()[2])
        >>> service = Acceptor(Keytab.read("examples/service.keytab"), "host/web@EX", first_life=True)
        >>> service.accept(request, now=1_700_000_100).authenticator_authorization
        ()
        """
        return self._items(_List.AUTHENTICATOR_AUTHORIZATION)

    @property
    def checksum(self) -> TypedData | None:
        """The authenticator's checksum, which wasn't verified, or None. It is read on first use.

        >>> from fevstunik import Acceptor, Keytab
        >>> request = bytes.fromhex(open("examples/calls.txt").readline().split()[2])
        >>> service = Acceptor(Keytab.read("examples/service.keytab"), "host/web@EX", first_life=True)
        >>> print(service.accept(request, now=1_700_000_100).checksum)
        None
        """
        found = self._items(_List.CHECKSUM)
        return found[0] if found else None

    @property
    def transited(self) -> TypedData:
        """The realms that the ticket passed through between the client's and the service's, as the ticket encodes them
        (RFC 4120, section 5.3). They weren't checked. If there are none, `data` is empty. They are read on first use.

        >>> from fevstunik import Acceptor, Keytab
        >>> request = bytes.fromhex(open("examples/calls.txt").readline().split()[2])
        >>> acceptor = Acceptor(Keytab.read("examples/service.keytab"), "host/web@EX", first_life=True)
        >>> acceptor.accept(request, now=1_700_000_100).transited
        TypedData(kind=1, data=<0 bytes>)
        """
        return self._items(_List.TRANSITED)[0]

    def _items(self, which: _List) -> tuple[TypedData, ...]:
        if which not in self._lists:
            self._lists[which] = _items(self._handle, which)
        return self._lists[which]

    @property
    def context(self) -> Context | None:
        """What a GSS-API client asks for, or None if the authenticator has no checksum of that type (0x8003).

        >>> from fevstunik import Acceptor, Keytab
        >>> request = bytes.fromhex(open("examples/calls.txt").readline().split()[2])
        >>> service = Acceptor(Keytab.read("examples/service.keytab"), "host/web@EX", first_life=True)
        >>> print(service.accept(request, now=1_700_000_100).context)
        None
        """
        found = self.checksum
        return Context.read(found.data) if found is not None and found.kind == CHECKSUM else None

    def stamp(self, skew: int | None = None) -> Stamp:
        """Return the stamp of the request, for a store that several instances of the service share (docs/OPERATING.md
        has the conditions).

        Let the client in only if the store adds the stamp in one step and says that it is new, and if the clock, read
        again after that, isn't later than `time` by more than the skew.

        skew  the largest skew of all instances, in seconds; the acceptor's own by default

        >>> from fevstunik import Acceptor, Keytab
        >>> request = bytes.fromhex(open("examples/calls.txt").readline().split()[2])
        >>> service = Acceptor(Keytab.read("examples/service.keytab"), "host/web@EX", first_life=True)
        >>> stamp = service.accept(request, now=1_700_000_100).stamp()
        >>> len(stamp.data), stamp.keep_until
        (80, Moment(seconds=1700000700, micros=5))
        """
        until = _interface.Time()
        largest = self._skew if skew is None else fitting(skew, 32)
        data = filled(lambda *into: self._handle.call("accepted_stamp", largest, byref(until), *into))
        return Stamp(data, Moment(until.seconds, until.micros))

    def close(self) -> None:
        """Free what the library holds. Values that were read stay valid. A second call does nothing.

        >>> from fevstunik import Acceptor, Keytab
        >>> request = bytes.fromhex(open("examples/calls.txt").readline().split()[2])
        >>> service = Acceptor(Keytab.read("examples/service.keytab"), "host/web@EX", first_life=True)
        >>> service.accept(request, now=1_700_000_100).close()
        """
        self._handle.close()

    def __enter__(self) -> Self:
        return self

    def __exit__(self, kind: type[BaseException] | None, fault: BaseException | None,
                 trace: TracebackType | None) -> None:
        self.close()


@dataclass(frozen=True)
class Accepted(Known):
    """A request that was accepted.

    client        the client, as ``alice@EX``
    service       the service that was asked for, as ``host/web@EX``
    time          the client's time
    authtime      when the client was authenticated, in seconds
    starttime     when the ticket becomes valid, in seconds, or None if the ticket doesn't say: then from authtime on
    endtime       when the ticket expires, in seconds
    flags         the ticket's flags
    session_key   the key that client and service share
    subkey        the key that the client chose, or None; of any type and length
    seq           the client's first sequence number, or None
    wants_reply   whether the client asks for a reply
    client_type   the type of the client's name
    service_type  the type of the service's name, as the ticket has it

    It is a context manager. At the end of the block, or by close(), the library frees what it holds. Then reply and
    stamp raise the Fault EMPTY_HANDLE, and so do addresses, authorization, authenticator_authorization, checksum,
    transited and context, unless they were read before.

    >>> from fevstunik import Acceptor, Keytab
    >>> request = bytes.fromhex(open("examples/calls.txt").readline().split()[2])
    >>> with Acceptor(Keytab.read("examples/service.keytab"), "host/web@EX", first_life=True) as service:
    ...     accepted = service.accept(request, now=1_700_000_100)
    >>> accepted.client, accepted.time, accepted.session_key, accepted.wants_reply
    ('alice@EX', Moment(seconds=1700000100, micros=5), Key(kind=19), False)
    """

    def reply(self, *, subkey: Key | None = None, seq: int | None = None) -> bytes:
        """Return the bytes of the reply. The client waits for it if `wants_reply` is true.

        subkey  a key that the service chooses, as Key.random(20), or None
        seq     the service's first sequence number, or None

        >>> from fevstunik import Acceptor, CredentialCache, Keytab, make_request
        >>> cache = CredentialCache.read("examples/client.ccache")
        >>> request, pending = make_request(cache, "host/web@EX", now=1_700_000_100)
        >>> service = Acceptor(Keytab.read("examples/service.keytab"), "host/web@EX", first_life=True)
        >>> reply = service.accept(request, now=1_700_000_100).reply(seq=7)
        >>> pending.finish(reply).service_seq
        7
        """
        confounder, choice = os.urandom(CONFOUNDER), chosen(subkey, seq, False)
        return filled(lambda *into: self._handle.call("accepted_reply", confounder, CONFOUNDER, *choice, *into))


_Known = TypeVar("_Known", bound=Known)


def known_by(kind: type[_Known], handle: Handle, skew: int, **more: Any) -> _Known:
    """What the handle holds, as an object of this kind, which has more fields. The caller has the handle's lock, or has
    made it. (To set the fields of a frozen dataclass one by one takes five times as long.)"""
    known, data = read(_interface.Known, handle.library.call, "accepted_known", handle.accepted)
    made = object.__new__(kind)
    object.__setattr__(made, "__dict__", {
        "client": known.client.text(data), "starttime": _start(handle), "endtime": known.endtime,
        "flags": _flags(known.flags), "wants_reply": known.wants_reply, "_found": (known, data),
        "_handle": handle, "_skew": skew, "_lists": {}, **more})
    return made


# The fields that few programs ask for.
_SELDOM = frozenset({"service", "time", "authtime", "session_key", "subkey", "seq", "client_type", "service_type"})


def _seldom(known: _interface.Known, data: bytes) -> dict[str, Any]:
    """These fields, by their names."""
    return {
        "service": known.service.text(data), "time": moment_of(known.ctime, known.cusec), "authtime": known.authtime,
        "session_key": Key(known.session_type, known.session_key.of(data)),
        "subkey": Key(known.subkey_type, known.subkey.of(data)) if known.has_subkey else None,
        "seq": known.seq if known.has_seq else None, "client_type": known.name_type, "service_type": known.service_type}


# (a member of an enumeration is found more slowly)
_NOTHING = Code.NOTHING_THERE.value


@lru_cache(maxsize=256)
def _flags(flags: int) -> TicketFlags:
    return TicketFlags(flags)


def _start(handle: Handle) -> int | None:
    start = _interface.Time()
    answer = handle.library.call("accepted_start", handle.accepted, byref(start))
    if answer.code == _NOTHING:
        return None
    done(answer)
    return start.seconds


def _items(handle: Handle, which: _List) -> tuple[TypedData, ...]:
    answer = handle.call("accepted_count", which)
    if answer.code == Code.NO_SUCH_ENTRY:
        return ()
    return tuple(_item(handle, which, index) for index in range(done(answer).size))


def _item(handle: Handle, which: _List, index: int) -> TypedData:
    kind = c_int32()
    data = filled(lambda *into: handle.call("accepted_item", which, index, byref(kind), *into))
    return TypedData(kind.value, data)
