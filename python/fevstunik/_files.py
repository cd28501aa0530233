"""Keytabs and credential caches."""
from __future__ import annotations

import os
import re
from collections.abc import Iterator
from ctypes import byref
from dataclasses import dataclass, field
from types import TracebackType
from typing import Callable, TypeVar

from . import _interface
from ._caches import CacheError, CacheTrouble, default_path, get_ticket
from ._codes import Code
from ._errors import Fault
from ._interface import Answer
from ._library import Bytes, Handle, Secret, done, filled, fitting, library, octets, read, text_of
from ._shown import fit_for_a_line
from ._values import KEY_SIZES, Key, Moment, TicketFlags, When, check_name

# How long a file may be. One byte more is read, so that the library sees that a longer file is too long.
LIMIT = 16_777_216
# A name and its realm (docs/FORMATS.md, "A principal as text").
_WITH_REALM = re.compile(r"((?:[^@\\]|\\.)*)@(.*)")
Item = TypeVar("Item")


def content(path: str | os.PathLike[str]) -> bytes:
    with open(path, "rb") as file:
        return file.read(LIMIT + 1)


# What a file is that begins with these two bytes.
_KINDS = {b"\x05\x02": "a keytab", b"\x05\x01": "a keytab of an older version", b"\x05\x03": "a credential cache",
          b"\x05\x04": "a credential cache"}


def _checked(answer: Answer, data: bytes) -> Answer:
    """What a call says of a file, if that is no fault. The fault of the first two bytes says what file they are of."""
    try:
        return done(answer)
    except Fault as fault:
        if fault.code == Code.FILE_VERSION and data[:2] in _KINDS:
            fault.hint = f"this is {_KINDS[data[:2]]}"
        raise


def _listed(kind: str, data: bytes, item: Callable[[Handle, int], Item]) -> tuple[Item, ...]:
    """The items of a file, which is read once for all of them."""
    handle = Handle(kind)
    count = done(handle.call(f"{kind}_new", data, len(data))).size
    items = tuple(item(handle, index) for index in range(count))
    handle.close()
    return items


@dataclass(frozen=True)
class KeytabEntry(Secret):
    """An entry of a keytab.

    name       whose key it is, as ``host/web@EX``
    key        its key, of any type
    kvno       the key's version number
    timestamp  when the entry was written, in seconds
    name_type  the type of the name (RFC 4120, section 6.2; 3 is a service on a host)

    >>> KeytabEntry("host/web@EX", Key(19, bytes(16)), 3)
    KeytabEntry(name='host/web@EX', key=Key(kind=19), kvno=3, timestamp=0, name_type=3)
    """

    name: str
    key: Key
    kvno: int
    timestamp: int = 0
    name_type: int = 3


class Keytab(Secret):
    """A keytab, from the bytes of a file of version 0x0502. Invalid bytes raise Fault, with an offset.

    >>> keytab = Keytab.read("examples/service.keytab")
    >>> keytab
    <Keytab of 1 entries>
    >>> keytab.entries
    (KeytabEntry(name='host/web@EX', key=Key(kind=19), kvno=3, timestamp=1700000000, name_type=3),)
    """

    def __init__(self, data: Bytes) -> None:
        self._data = octets(data)
        self._entries: tuple[KeytabEntry, ...] | None = None
        self._count = _checked(library().call("keytab_check", self._data, len(self._data)), self._data).size

    @classmethod
    def read(cls, path: str | os.PathLike[str]) -> Keytab:
        """Return the keytab in a file.

        >>> len(Keytab.read("examples/mit-holes.keytab").entries)
        4
        """
        return cls(content(path))

    @property
    def data(self) -> bytes:
        """The bytes of the file, with its keys. Write them only to a file of mode 0600.

        >>> Keytab(bytes.fromhex("0502")).data
        b'\\x05\\x02'
        """
        return self._data

    @property
    def entries(self) -> tuple[KeytabEntry, ...]:
        """The entries, in the file's order. They are read on first use.

        >>> [entry.kvno for entry in Keytab.read("examples/mit-holes.keytab").entries]
        [2, 2, 4, 4]
        """
        if self._entries is None:
            self._entries = _listed("keytab", self._data, self._entry)
        return self._entries

    @staticmethod
    def _entry(handle: Handle, index: int) -> KeytabEntry:
        entry, data = read(_interface.KeyEntry, lambda struct, *into: handle.call("keytab_entry", index, struct, *into))
        return KeytabEntry(entry.name.text(data), Key(entry.key_type, entry.key.of(data)), entry.kvno, entry.timestamp,
                           entry.name_type)

    def added(self, entry: KeytabEntry) -> Keytab:
        """Return a keytab with one more entry, in the first hole that is long enough, or at the end.

        A key of type 19 has 16 bytes, and one of type 20 has 32: another length raises ValueError.

        >>> entry = KeytabEntry("host/web@EX", Key.random(20), 4)
        >>> Keytab(bytes.fromhex("0502")).added(entry).entries == (entry,)
        True
        """
        name, key = text_of(entry.name), octets(entry.key.data)
        parts = _interface.KeyParts(fitting(entry.timestamp, 32), fitting(entry.kvno, 32),
                                    fitting(entry.name_type, 32, signed=True),
                                  fitting(entry.key.kind, 16, signed=True))
        # A record takes at most twice its name's bytes, the key's, and 64 more.
        room = len(self._data) + 2 * len(name) + len(key) + 64
        data = filled(lambda *into: library().call(
            "keytab_add", self._data, len(self._data), name, len(name), key, len(key), byref(parts), *into), room)
        if len(key) != KEY_SIZES.get(entry.key.kind, len(key)):
            raise ValueError(f"a key of type {entry.key.kind} has {KEY_SIZES[entry.key.kind]} bytes, not {len(key)}")
        return Keytab(data)

    def removed(self, index: int) -> Keytab:
        """Return a keytab without the entry at an index. The entry's place becomes a hole of zeros.

        >>> Keytab.read("examples/service.keytab").removed(0).entries
        ()
        """
        index, room = fitting(index, 64), len(self._data)
        return Keytab(filled(lambda *into: library().call("keytab_remove", self._data, len(self._data), index, *into),
                             room))

    def compacted(self) -> Keytab:
        """Return a keytab with the same entries and without holes.

        >>> keytab = Keytab.read("examples/mit-holes.keytab")
        >>> len(keytab.data), len(keytab.compacted().data)
        (476, 318)
        """
        # An entry without a version number of 32 bits gets one.
        room = len(self._data) + 4 * self._count
        return Keytab(filled(lambda *into: library().call("keytab_write", self._data, len(self._data), *into), room))

    def __repr__(self) -> str:
        return f"<Keytab of {self._count} entries>"


def kvnos_of(keytab: Keytab) -> dict[tuple[str, int], list[int]]:
    """The version numbers of a keytab's entries, by name and type. No key is kept."""
    found: dict[tuple[str, int], list[int]] = {}

    def add(handle: Handle, index: int) -> None:
        entry, data = read(_interface.KeyEntry, lambda struct, *into: handle.call("keytab_entry", index, struct, *into))
        found.setdefault((entry.name.text(data), entry.key_type), []).append(entry.kvno)
    _listed("keytab", keytab.data, add)
    return found


@dataclass(frozen=True)
class Owner:
    """The owner of a cache: the default principal, and the offset of its KDC's clock as (seconds, microseconds), if the
    cache has one.

    >>> CredentialCache.read("examples/client.ccache").owner
    Owner(name='alice@EX', name_type=1, clock_offset=None)
    """

    name: str
    name_type: int
    clock_offset: tuple[int, int] | None


@dataclass(frozen=True)
class Credential(Secret):
    """A credential of a cache. Its `repr` has neither the key nor the ticket.

    client      whose ticket it is
    server      the ticket's service; that of a configuration entry ends with ``@X-CACHECONF:``
    key         the session key, of any type
    ticket      the bytes of the ticket, or the value of a configuration entry
    authtime    when the client was authenticated, in seconds
    starttime   when the ticket begins, in seconds, or 0
    endtime     when it ends, in seconds
    renew_till  the end of the time in which it can be renewed, in seconds, or 0
    is_skey     whether the ticket is sealed under another ticket's session key

    >>> credential, = CredentialCache.read("examples/client.ccache").credentials
    >>> credential.server, credential.endtime, credential.key
    ('host/web@EX', 1700036000, Key(kind=19))
    """

    client: str
    server: str
    key: Key
    ticket: bytes = field(repr=False)
    authtime: int
    starttime: int
    endtime: int
    renew_till: int
    flags: TicketFlags
    client_type: int
    server_type: int
    is_skey: bool


def _has_realm(name: str) -> bool:
    """Whether a service's name has a realm. Raises CacheError if it isn't a name."""
    for text, has_realm in ((name, True), (f"{name}@X", False)):
        try:
            check_name(text)
        except Fault:
            continue
        return has_realm
    raise CacheError(CacheTrouble.BAD_SERVICE, f"{fit_for_a_line(name)!r} isn't the name of a service, such as "
                                               f"HTTP/www.example.com")


def _owner(handle: Handle) -> Owner:
    owner, data = read(_interface.Owner, lambda struct, *into: handle.call("cache_owner", struct, *into))
    return Owner(owner.name.text(data), owner.name_type,
                 (owner.offset_seconds, owner.offset_micros) if owner.has_offset else None)


class CredentialCache(Secret):
    """A credential cache, from the bytes of a file of version 0x0503 or 0x0504. Invalid bytes raise Fault, with an
    offset.

    It is a context manager. At the end of the block, or by close(), the library frees what it holds. Then make_request
    raises the Fault EMPTY_HANDLE for it.

    >>> with CredentialCache.read("examples/client.ccache") as cache:
    ...     cache
    <CredentialCache of alice@EX>
    """

    def __init__(self, data: Bytes) -> None:
        self._data = octets(data)
        self._path: str | None = None
        self._credentials: tuple[Credential, ...] | None = None
        self._handle = Handle("cache")
        _checked(self._handle.call("cache_new", self._data, len(self._data)), self._data)
        self._owner = _owner(self._handle)

    @classmethod
    def read(cls, path: str | os.PathLike[str]) -> CredentialCache:
        """Return the cache in a file.

        >>> len(CredentialCache.read("examples/mit-tickets.ccache").credentials)
        9
        """
        made = cls(content(path))
        made._path = os.fsdecode(path)
        return made

    @classmethod
    def default(cls) -> CredentialCache:
        """Return the cache of the user who runs the program, as it is in its file now.

        The variable KRB5CCNAME says where it is: ``FILE:PATH``, a path, or ``DIR:PATH``, the folder's current cache.
        Without it, default_ccache_name of krb5.conf does, and without that the file is /tmp/krb5cc_UID.

        Raises CacheError if there is none (NO_FILE), or if it isn't a file (OTHER_KIND: KEYRING, KCM, MEMORY, API). Its
        text says what to do. Invalid bytes raise Fault.

        >>> import os
        >>> os.environ["KRB5CCNAME"] = "FILE:examples/client.ccache"
        >>> CredentialCache.default()
        <CredentialCache of alice@EX>
        >>> del os.environ["KRB5CCNAME"]
        """
        path = default_path()
        try:
            return cls.read(path)
        except Fault as fault:
            more = f"; {fault.hint}" if fault.hint else ""
            fault.hint = f"the credential cache is {fit_for_a_line(path)}{more}"
            raise
        except FileNotFoundError:
            raise CacheError(CacheTrouble.NO_FILE, f"there is no credential cache at {fit_for_a_line(path)}: run "
                                                   f"`kinit`") from None
        except OSError as fault:
            raise CacheError(
                CacheTrouble.UNREADABLE, f"the credential cache at {fit_for_a_line(path)} can't be read: "
                                         f"{fault.strerror}") from fault

    def ticket_for(self, service: str, *, now: When | None = None) -> Credential | None:
        """Return the owner's ticket for a service that ends last and hasn't ended, or None.

        service  the service's name, as ``host/web@EX``; or as ``host/web``, for that of any realm
        now      the client's clock: the machine's clock by default

        >>> cache = CredentialCache.read("examples/client.ccache")
        >>> cache.ticket_for("host/web", now=1_700_000_100).server
        'host/web@EX'
        >>> cache.ticket_for("host/web") is None
        True
        """
        prefix = service if _has_realm(service) else f"{service}@"
        found = [it for it in self._valid(now)
                 if it.server == service or prefix != service and it.server.startswith(prefix) and it.server != prefix]
        return max(found, key=lambda it: it.endtime) if found else None

    def _valid(self, now: When | None) -> Iterator[Credential]:
        """The owner's tickets that haven't ended."""
        at = (Moment.now() if now is None else Moment.of(now)).seconds
        return (it for it in self.credentials if it.client == self.owner.name and not it.is_skey and it.endtime > at)

    def _in_other_realms(self, service: str, now: When | None = None) -> str:
        """What ends a text about a ticket that isn't there: the other realms in which the cache has one for the
        service."""
        parts = _WITH_REALM.fullmatch(service)
        if parts is None:
            return ""
        name, realm = parts.groups()
        found = {it.server.removeprefix(f"{name}@") for it in self._valid(now) if it.server.startswith(f"{name}@")}
        others = ", ".join(sorted(found - {realm, ""}))
        if not others:
            return ""
        return (f"; the realm {fit_for_a_line(realm)} was looked for, and the cache has a ticket for this service in "
                f"{fit_for_a_line(others)}")

    def fetch(self, service: str, *, seconds: float = 30.0) -> CredentialCache:
        """Return a cache that has a ticket for a service: this one, or what its file holds after ``kvno`` or
        ``kgetcred`` got one.

        service  the service's name, as ``HTTP/www.example.com``: if it has no realm, a ticket of any realm will do, and
                 the program finds the realm
        seconds  how long the program may take. It is found by PATH, and run without a shell

        Raises CacheError, and its `trouble` says why there is no ticket. If the cache has one for the service in
        another realm than that of the name, the text names both.

        >>> CredentialCache(open("examples/client.ccache", "rb").read()).fetch("host/mail@EX")
        Traceback (most recent call last):
            ...
        fevstunik.CacheError: NO_PATH: the cache has no ticket for host/mail@EX, and was made from bytes: ...
        """
        if self.ticket_for(service) is not None:
            return self
        shown, cache = fit_for_a_line(service), self
        try:
            if self._path is None:
                raise CacheError(CacheTrouble.NO_PATH, f"the cache has no ticket for {shown}, and was made from bytes: "
                                                       f"read it from its file")
            get_ticket(self._path, service, seconds)
            cache = CredentialCache.read(self._path)
            if cache.ticket_for(service) is None:
                raise CacheError(CacheTrouble.NO_TICKET, f"the cache at {fit_for_a_line(self._path)} has no ticket for "
                                                         f"{shown} that is still valid, though one was got")
        except CacheError as error:
            error.hint = cache._in_other_realms(service)
            raise
        return cache

    @property
    def owner(self) -> Owner:
        """The owner of the cache.

        >>> CredentialCache.read("examples/client.ccache").owner.name
        'alice@EX'
        """
        return self._owner

    @property
    def credentials(self) -> tuple[Credential, ...]:
        """The credentials, including configuration entries, in the file's order. They are read on first use.

        >>> [credential.server for credential in CredentialCache.read("examples/client.ccache").credentials]
        ['host/web@EX']
        """
        if self._credentials is None:
            self._credentials = _listed("cache", self._data, self._credential)
        return self._credentials

    @staticmethod
    def _credential(handle: Handle, index: int) -> Credential:
        entry, data = read(_interface.CacheEntry,
                           lambda struct, *into: handle.call("cache_credential", index, struct, *into))
        return Credential(
            entry.client.text(data), entry.server.text(data), Key(entry.key_type, entry.key.of(data)),
            entry.ticket.of(data),
            entry.authtime, entry.starttime, entry.endtime, entry.renew_till, TicketFlags(entry.flags),
            entry.client_type, entry.server_type, entry.is_skey)

    def close(self) -> None:
        """Free what the library holds for the cache. A second call does nothing.

        >>> CredentialCache.read("examples/client.ccache").close()
        """
        self._handle.close()

    def __enter__(self) -> CredentialCache:
        return self

    def __exit__(self, kind: type[BaseException] | None, fault: BaseException | None,
                 trace: TracebackType | None) -> None:
        self.close()

    def __repr__(self) -> str:
        return f"<CredentialCache of {self.owner.name}>"
