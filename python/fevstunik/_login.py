"""One call for a login: the service's side."""
from __future__ import annotations

import ctypes
import os
import time
from collections.abc import Iterable
from ctypes import byref
from dataclasses import dataclass, field
from typing import TYPE_CHECKING, Any

from . import _interface
from ._accepted import Known, known_by
from ._codes import Code
from ._errors import Fault, StoreFailed
from ._files import Keytab, kvnos_of
from ._interface import Answer
from ._library import (
    ROOM, Buffer, Bytes, Handle, Secret, bytes_of, done, fault_of, fitting, library, octets, read, text_of)
from ._messages import Messages, Side
from ._service import Refused, Serving, options_of
from ._shown import fit_for_a_line
from ._tokens import GoOn, bindings_of
from ._values import CONFOUNDER, KEY_SIZES, LAST_SECOND, Key, Moment, When, clock, moment_of

if TYPE_CHECKING:
    from .stores import Store

_IGNORED, _IF_SENT, _REQUIRED = range(3)
# What a store says of a stamp, as the library takes it.
_NEW, _KNOWN, _FAILED = range(1, 4)
# The largest skew for which the file of a store is made, unless its service has a larger one.
_SKEW = 300
# (a member of an enumeration is found more slowly)
_OK, _GO_ON, _ASK_STORE, _SHORT = Code.OK.value, Code.GO_ON.value, Code.ASK_STORE.value, Code.SHORT_BUFFER.value
# The call wasn't made as it should be, so nothing was decided.
_MISUSE = frozenset(it.value for it in (Code.EMPTY_HANDLE, Code.BAD_MOMENT, Code.BAD_RANDOM, Code.NOT_WAITING))


@dataclass(frozen=True)
class Asked:
    """What a request asks for. Nothing of this is sealed, so it is fit for a log, and proves nothing.

    name    the service that its ticket is for, as ``host/web@EX``
    etype   the encryption type that the ticket is sealed with
    kvno    the version number of the key that the ticket is sealed with, or None
    mutual  whether the client asks for a reply

    >>> print(Asked("HTTP/www@EX", 20, 5, True))
    ticket for HTTP/www@EX, etype 20, kvno 5
    """

    name: str
    etype: int
    kvno: int | None
    mutual: bool

    @classmethod
    def read(cls, request: Bytes) -> Asked | None:
        """Read what a request asks for, without any key. Returns None for bytes that aren't a request.

        >>> from fevstunik import Asked
        >>> Asked.read(bytes.fromhex(open("examples/calls.txt").readline().split()[2]))
        Asked(name='host/web@EX', etype=19, kvno=3, mutual=False)
        """
        request = octets(request)
        return _asked(lambda *into: library().call("request_asks", request, len(request), *into))

    def __str__(self) -> str:
        kvno = "" if self.kvno is None else f", kvno {self.kvno}"
        return f"ticket for {fit_for_a_line(self.name)}, etype {self.etype}{kvno}"


def _asked(call: Any) -> Asked | None:
    try:
        found, data = read(_interface.Asked, call)
    except Fault as fault:
        # (if memory runs out, there may be no login to ask)
        if fault.code in (Code.NOTHING_THERE, Code.EMPTY_HANDLE):
            return None
        raise
    return Asked(found.service.text(data), found.etype, found.kvno if found.has_kvno else None, found.wants_reply)


@dataclass(frozen=True, kw_only=True)
class Login(Known):
    """A client that is let in.

    client          the client, as ``alice@EX``
    reply           the bytes to send to the client; none if they are empty
    service_subkey  the key that the reply sends, if the service was made with `subkey`, and the client asks for a
                    reply; else None
    list_shown      whether the client's list of mechanisms was checked by its MIC: then each side has sent one
    service         the service that was asked for, as ``host/web@EX``
    time            the client's time
    authtime        when the client was authenticated, in seconds
    starttime       when the ticket becomes valid, in seconds, or None if the ticket doesn't say: then from authtime on
    endtime         when the ticket expires, in seconds
    flags           the ticket's flags
    session_key     the key that client and service share
    subkey          the key that the client chose, or None; of any type and length
    seq             the client's first sequence number, or None
    wants_reply     whether the client asks for a reply
    client_type     the type of the client's name
    service_type    the type of the service's name, as the ticket has it

    It is a context manager. At the end of the block, or by close(), the library frees what it holds. Then stamp raises
    the Fault EMPTY_HANDLE, and so do addresses, authorization, authenticator_authorization, checksum, transited and
    context, unless they were read before.

    >>> from fevstunik import Client, CredentialCache, Keytab, Service
    >>> service = Service(Keytab.read("examples/service.keytab"), "host/web@EX", first_life=True)
    >>> client = Client(CredentialCache.read("examples/client.ccache"), "host/web@EX")
    >>> login = service.answer(client.first(now=1_700_000_100), now=1_700_000_100)
    >>> login.client, client.finish(login.reply).client
    ('alice@EX', 'alice@EX')
    """

    reply: bytes = field(repr=False)
    service_subkey: Key | None
    list_shown: bool = False

    def messages(self, *, any_order: bool = False, repeats: bool = False) -> Messages:
        """Begin the service's messages to this client: MIC and Wrap tokens of the GSS-API. Send `reply` first.

        any_order, repeats  as of Messages

        Call it once for each login: other messages of the same login begin again at the first numbers, and take what
        was taken before.

        If the client asked for no reply, both sides count from its own number, as MIT krb5 does. If its list of
        mechanisms was checked, the messages go on after the MICs of both sides.

        >>> from fevstunik import Client, CredentialCache, Keytab, Service
        >>> service = Service(Keytab.read("examples/service.keytab"), "host/web@EX", first_life=True, subkey=20)
        >>> client = Client(CredentialCache.read("examples/client.ccache"), "host/web@EX")
        >>> login = service.answer(client.first(now=1_700_000_100), now=1_700_000_100)
        >>> token = login.messages().mic(b"hello")
        >>> client.finish(login.reply).messages().verify_mic(b"hello", token).name
        'NEXT'
        """
        first = self.seq or 0
        # (the client's subkey doesn't count then, and may be of any type)
        subkey = self.subkey if self.service_subkey is None else None
        return Messages(Side.SERVICE, self.session_key, client_subkey=subkey, service_subkey=self.service_subkey,
                        client_seq=first,
                        service_seq=0 if self.wants_reply else first, any_order=any_order, repeats=repeats,
                        after_list=self.list_shown)


class Connection(Secret):
    """A client's login over its rounds, as Service.login returns it. Each client has one of its own.

    >>> from fevstunik import GoOn, Keytab, Service
    >>> connection = Service(Keytab.read("examples/service.keytab"), "host/web@EX", first_life=True).login()
    >>> isinstance(connection.answer(bytes.fromhex("601b06062b0601050502a011300fa00d300b06092a864886f712010202")), GoOn)
    True
    """

    def __init__(self, service: Service) -> None:
        self._service, self._handle, self._over = service, _LoginHandle(), False
        self._random = b""

    def answer(self, data: Bytes, now: When | None = None) -> Login | GoOn | Refused:
        """Answer the client's next bytes, as Service.answer does. After GoOn, call it again with the client's next
        message.

        A client whose negotiation names another mechanism before Kerberos is asked for its token and for the MIC of its
        list of mechanisms (RFC 4178, section 5). It isn't let in without that, and sends two or three messages.

        After a Login or a Refused the login is over, and other bytes are refused with NEGOTIATION_OVER.

        >>> from fevstunik import Keytab, Service
        >>> connection = Service(Keytab.read("examples/service.keytab"), "host/web@EX", first_life=True).login()
        >>> print(connection.answer(b"hello"))
        NOT_A_TOKEN: the first byte isn't that of a token
        >>> print(connection.answer(b"hello"))
        NEGOTIATION_OVER: the negotiation is over: it has taken a request, or refused a token
        """
        decision = self._decided(data, now)
        if not isinstance(decision, _Waiting):
            return decision
        decision.ask()
        return decision.settled()

    async def answer_async(self, data: Bytes, now: When | None = None) -> Login | GoOn | Refused:
        """Answer the client's next bytes, as `answer` does, but ask the store in another thread: the loop goes on
        meanwhile.

        >>> import asyncio
        >>> from fevstunik import Keytab, Service
        >>> connection = Service(Keytab.read("examples/service.keytab"), "host/web@EX", first_life=True).login()
        >>> print(asyncio.run(connection.answer_async(b"hello")))
        NOT_A_TOKEN: the first byte isn't that of a token
        """
        from asyncio import to_thread
        decision = self._decided(data, now)
        if not isinstance(decision, _Waiting):
            return decision
        await to_thread(decision.ask)
        return decision.settled()

    def _decided(self, data: Bytes, now: When | None) -> Login | GoOn | Refused | _Waiting:
        """What the service decides; or, if it accepts a request and has a store, what the store has to be asked."""
        with self._handle.locked():
            if self._over:
                return Refused(Code.NEGOTIATION_OVER)
            try:
                return self._decision(octets(data), now)
            except MemoryError:
                return self._out_of_memory()

    def _decision(self, data: bytes, now: When | None) -> Login | GoOn | Refused | _Waiting:
        began, random = 0.0 if now is None else _ticks(), os.urandom(self._service._random)
        answer, reply = self._answer(data, now, random)
        if answer.code == _ASK_STORE:
            self._over = True
            return _Waiting(self, random, now, began)
        return self._outcome(answer, reply, random)

    def _outcome(self, answer: Answer, reply: bytes, random: bytes) -> Login | GoOn | Refused:
        """What comes of a message that is decided on."""
        code = answer.code
        self._over = code != _GO_ON
        if code == _GO_ON:
            self._random = random
            return GoOn(reply)
        if code == _OK:
            return self._let_in(reply, random)
        asked, held = self._for_a_log(answer.code)
        self._handle.close()
        serves = self._service._serves if code == Code.NOT_US else None
        return Refused(answer.code, answer.kerberos, answer.at, reply=reply, asked=asked, held=held, serves=serves)

    def _answer(self, data: bytes, now: When | None, random: bytes) -> tuple[Answer, bytes]:
        """What the service decides, and the bytes that go back."""
        buffer, serving = Buffer(), self._service._handle
        with serving.locked():
            # (the clock is read with the lock: otherwise an earlier moment could come after a later one)
            at = clock(now)
            answer = serving.library.call(
                "service_answer", serving.pointer, self._handle.pointer, data, len(data), byref(at),
                random, len(random), buffer, ROOM)
        return self._whole(answer, buffer)

    def _whole(self, answer: Answer, buffer: Any) -> tuple[Answer, bytes]:
        """What was decided, and the bytes that go back, for which this buffer may be too short."""
        if answer.code == _SHORT:
            buffer = ctypes.create_string_buffer(answer.size)
            answer = self._handle.call("login_answer", buffer, answer.size)
        if answer.code in _MISUSE:
            raise fault_of(answer)
        return answer, bytes_of(buffer, answer.size)

    def _stamp(self) -> tuple[bytes, int, int]:
        """The stamp of the request, and the second and microsecond until which the service would have it kept."""
        handle = self._handle
        with handle.locked():
            until, stamp = read(_interface.Time, handle.library.call, "login_stamp", handle.pointer)
        return stamp, until.seconds, until.micros

    def _settled(self, said: int, at: _interface.Time, random: bytes) -> Login | GoOn | Refused:
        """What is decided after the store has spoken."""
        buffer, handle = Buffer(), self._handle
        with handle.locked():
            answer = handle.library.call("login_settle", handle.pointer, said, byref(at), buffer, ROOM)
            answer, reply = self._whole(answer, buffer)
            return self._outcome(answer, reply, random)

    def _let_in(self, reply: bytes, random: bytes) -> Login:
        kind, shown = self._service._subkey, self._handle.inside("accepted_sent").size == 1
        login = known_by(Login, self._handle, self._service._skew, reply=reply, service_subkey=None, list_shown=shown)
        if kind is not None and login.wants_reply:
            # (nothing goes back to a last message that has a MIC alone: the reply went back before, with other random
            # bytes)
            drawn = random if reply else self._random
            object.__setattr__(login, "service_subkey", Key(kind, drawn[CONFOUNDER:]))
        return login

    def _out_of_memory(self) -> Refused:
        self._over = True
        self._handle.close()
        return Refused(Code.OUT_OF_MEMORY)

    def _for_a_log(self, code: int) -> tuple[Asked | None, tuple[int, ...]]:
        """What a refused request asked for, and which version numbers the keytab has, if there is memory for it."""
        try:
            asked = _asked(lambda *into: self._handle.call("login_asked", *into))
            return asked, self._service._held(asked) if code == Code.BAD_KEY_VERSION else ()
        except MemoryError:
            return None, ()


class _Waiting:
    """A login that waits for the store. Until it is settled, the library lets nobody read the request."""

    def __init__(self, connection: Connection, random: bytes, now: When | None, began: float) -> None:
        self._connection, self._random, self._now, self._began = connection, random, now, began
        self._said = _FAILED
        self._fault: Exception | None = None

    def ask(self) -> None:
        """Ask the store, which may take long. No lock is held."""
        try:
            is_new = self._add()
        except (StoreFailed, Fault, MemoryError) as fault:
            self._fault = fault
            return
        except BaseException:
            self._connection._handle.close()
            raise
        # (what a store returns that isn't a bool lets nobody in)
        self._said = _NEW if is_new is True else _KNOWN if is_new is False else _FAILED

    def _add(self) -> object:
        service = self._connection._service
        store = service._store
        assert store is not None
        stamp, seconds, micros = self._connection._stamp()
        last = seconds + 2 * (store.largest_skew - service._skew)
        if last > LAST_SECOND:
            raise Fault(Code.BAD_MOMENT)
        return store.add(stamp, moment_of(last, micros))

    def settled(self) -> Login | GoOn | Refused:
        """What comes of it."""
        connection = self._connection
        try:
            if isinstance(self._fault, MemoryError):
                raise self._fault
            decision = connection._settled(self._said, _later(self._now, self._began), self._random)
        except MemoryError:
            return connection._out_of_memory()
        if isinstance(decision, Refused):
            decision.__cause__ = self._fault
        return decision


def _ticks() -> float:
    """A clock that nobody sets, in seconds; it also counts while the machine sleeps."""
    return time.clock_gettime(time.CLOCK_BOOTTIME)


def _later(now: When | None, began: float) -> _interface.Time:
    """The service's clock, which said `now` when this clock of the machine said `began`."""
    if now is None:
        return clock(None)
    at = Moment.of(now)
    more, micros = divmod(at.micros + int(1_000_000 * (_ticks() - began)), 1_000_000)
    return _interface.Time(min(at.seconds + more, LAST_SECOND), micros)


class _LoginHandle(Handle):
    """The handle of a login, whose first member is that of what was accepted."""

    def __init__(self) -> None:
        super().__init__("login", _interface.LoginHandle)
        self.accepted = byref(self._opaque.accepted)

    def inside(self, name: str, *words: Any) -> Any:
        first = self.accepted if name.startswith("accepted_") else self.pointer
        return self.library.call(name, first, *words)


class Service(Serving):
    """A service that lets clients in, or says why not. Unlike an Acceptor, it takes what a client sends as it is, and
    makes what goes back.

    keytab      its keys
    service     the name that is served, as ``host/web@EX``, as for Acceptor
    skew        by how many seconds clocks may differ
    store       what all processes of the service share, so that no two let a client in by one request: a path, as
                ``"/run/web/stamps"``, for the processes of one machine, or another store of fevstunik.stores. The
                service's start is the moment at which the store was made, so there is a pause when it is new, and none
                when the service is started again
    started     the service's clock at this start, as time.time(), if there is no store; with one, the later start
                counts
    first_life  True if every key of the keytab is new: Acceptor says what both mean. With a store this leaves out the
                pause after it was made. Take it out again when the service has been started: after the next boot, the
                keys aren't new
    limit, limit_for_client
                the most requests that it remembers, as for Acceptor
    bindings    the bindings of the channel, as tls_server_end_point returns them; None looks at no client's
    bindings_required
                whether each client must send these bindings. Otherwise one that sends none is let in, but none that
                sends others
    anonymous   whether anonymous clients are let in (RFC 8062)
    realms      the realms whose clients are let in, as ["EX"], or None for any: a KDC checked the realms between
    subkey      19 or 20 to send a new key of this type with each reply, or None. Those who go on to seal messages want
                one
    any_name    True to serve each name of the keytab, as for Acceptor. The service is None then

    Pass a store, or just one of started and first_life. The skew is no larger than that of the store.

    A client that breaks these terms is Refused with ANONYMOUS_CLIENT, FOREIGN_REALM or CHANNEL_BINDINGS.

    Make one and keep it. Any thread may call it, for any number of clients at once. A lock lets one decision run at a
    time. A Service belongs to the process that made it: after a fork, the child's calls raise RuntimeError.

    It is a context manager. At the end of the block, or by close(), the library frees what it holds. Then calls raise
    the Fault EMPTY_HANDLE, and `remembered` is 0.

    >>> import time
    >>> from fevstunik import Keytab, Service
    >>> keytab = Keytab.read("examples/service.keytab")
    >>> with Service(keytab, "host/web@EX", started=time.time(), realms=["EX"]) as service:
    ...     print(service.answer(b"hello"))
    NOT_A_TOKEN: the first byte isn't that of a token
    """

    def __init__(self, keytab: Keytab, service: str | None, skew: int = 300, *, started: When | None = None,
                 first_life: bool = False,
                 limit: int | None = None, limit_for_client: int | None = None, bindings: Bytes | None = None,
                 bindings_required: bool = False, anonymous: bool = False, realms: Iterable[str] | None = None,
                 subkey: int | None = None, store: Store | str | os.PathLike[str] | None = None,
                 any_name: bool = False) -> None:
        asked = None if store is None else store_of(store, fitting(skew, 32))
        if asked is not None and not first_life:
            started = _start_over(asked, skew, started)
        options = options_of(any_name, skew, started, first_life, (limit, limit_for_client), asked is not None)
        options.bindings, bound = _bound(bindings, _flag("bindings_required", bindings_required))
        options.bindings_hash = type(options.bindings_hash)(*bound)
        if subkey is not None and (subkey not in KEY_SIZES or isinstance(subkey, bool)):
            raise ValueError(f"subkeys are of type 19 or 20, not {subkey!r}")
        if isinstance(realms, (str, bytes)):
            raise TypeError("realms are a list of texts")
        listed = None if realms is None else [text_of(it) for it in realms]
        options.anonymous, options.only_realms = _flag("anonymous", anonymous), listed is not None
        options.subkey_type = subkey or 0
        super().__init__(keytab, service, skew, options)
        self._subkey, self._keytab, self._store, self._serves = subkey, keytab, asked, service
        # How many random bytes an answer takes.
        self._random = CONFOUNDER + (0 if subkey is None else KEY_SIZES[subkey])
        self._kvnos: tuple[Keytab, dict[tuple[str, int], list[int]]] | None = None
        for realm in listed or []:
            done(self._handle.call("acceptor_add_realm", realm, len(realm)))

    def answer(self, data: Bytes, now: When | None = None) -> Login | GoOn | Refused:
        """Answer what a client sent: a request, a Kerberos token or a token of a negotiation. The first bytes say which
        it is.

        data  what the client sent, whatever it is
        now   the service's clock: the machine's clock by default. Time doesn't go back: the latest moment given so far
              is the one that counts

        Returns a Login, a GoOn or a Refused (it isn't raised); each has the bytes to send back in `reply`, which may be
        empty. Only a Login is true. A GoOn says that the client has sent no request yet: to take its next token, too,
        use login(). If memory runs out, the client is Refused with OUT_OF_MEMORY.

        A service that has a store asks it after it has accepted a request, with no lock held, and then reads its clock
        again: to `now`, if it was passed, the time is added that has gone by. Nothing of the request can be read
        before. Of a stamp that the store has, the client is Refused with REPEAT; if the store fails, or doesn't answer
        in time, with STORE_FAILED.

        >>> from fevstunik import Keytab, Service
        >>> request = bytes.fromhex(open("examples/calls.txt").readline().split()[2])
        >>> service = Service(Keytab.read("examples/service.keytab"), "host/web@EX", first_life=True)
        >>> service.answer(request, now=1_700_000_100).client
        'alice@EX'
        >>> print(service.answer(request, now=1_700_000_100))
        REPEAT: a request of this service, client and time was seen before (ticket for host/web@EX, etype 19, kvno 3)
        """
        try:
            connection = self.login()
        except MemoryError:
            return Refused(Code.OUT_OF_MEMORY)
        return connection.answer(data, now)

    async def answer_async(self, data: Bytes, now: When | None = None) -> Login | GoOn | Refused:
        """Answer what a client sent, as `answer` does, but ask the store in another thread: the loop goes on meanwhile.

        >>> import asyncio
        >>> from fevstunik import Keytab, Service
        >>> request = bytes.fromhex(open("examples/calls.txt").readline().split()[2])
        >>> service = Service(Keytab.read("examples/service.keytab"), "host/web@EX", first_life=True)
        >>> asyncio.run(service.answer_async(request, now=1_700_000_100)).client
        'alice@EX'
        """
        try:
            connection = self.login()
        except MemoryError:
            return Refused(Code.OUT_OF_MEMORY)
        return await connection.answer_async(data, now)

    def login(self) -> Connection:
        """Return the login of one client, which may take several rounds.

        >>> from fevstunik import Keytab, Service
        >>> service = Service(Keytab.read("examples/service.keytab"), "host/web@EX", first_life=True)
        >>> first, second = service.login(), service.login()
        >>> first.answer(bytes.fromhex("601b06062b0601050502a011300fa00d300b06092a864886f712010202"))
        GoOn(reply=<22 bytes>)
        >>> print(second.answer(b"hello"))
        NOT_A_TOKEN: the first byte isn't that of a token
        """
        return Connection(self)

    def replace_bindings(self, bindings: Bytes | None, *, required: bool = False) -> None:
        """Take other channel bindings, for example those of a renewed certificate. All else stays.

        bindings  as tls_server_end_point returns them; None looks at no client's
        required  whether each client must send these bindings, as bindings_required of Service

        A client whose connection was opened before that still sends the old ones, and is refused.

        >>> from fevstunik import Client, CredentialCache, Keytab, Service
        >>> service = Service(Keytab.read("examples/service.keytab"), "host/web@EX", first_life=True, bindings=b"old")
        >>> service.replace_bindings(b"new", required=True)
        >>> client = Client(CredentialCache.read("examples/client.ccache"), "host/web@EX", bindings=b"new")
        >>> service.answer(client.first(now=1_700_000_100), now=1_700_000_100).client
        'alice@EX'
        """
        rule, bound = _bound(bindings, _flag("required", required))
        done(self._handle.call("acceptor_replace_bindings", rule, bound, len(bound)))

    def replace_keytab(self, keytab: Keytab, service: str | None) -> None:
        """Take another keytab, as Acceptor.replace_keytab does. The terms stay.

        >>> from fevstunik import Keytab, Service
        >>> service = Service(Keytab(bytes.fromhex("0502")), "host/web@EX", first_life=True)
        >>> service.replace_keytab(Keytab.read("examples/service.keytab"), "host/web@EX")
        >>> request = bytes.fromhex(open("examples/calls.txt").readline().split()[2])
        >>> service.answer(request, now=1_700_000_100).client
        'alice@EX'
        """
        super().replace_keytab(keytab, service)
        self._keytab, self._serves = keytab, service

    def _held(self, asked: Asked | None) -> tuple[int, ...]:
        """The version numbers of the keys that the keytab has for a ticket's service and encryption type. Nobody needs
        them but to find a fault, so they are read when it is there."""
        keytab, kvnos = self._keytab, self._kvnos
        if asked is None:
            return ()
        if kvnos is None or kvnos[0] is not keytab:
            self._kvnos = kvnos = keytab, kvnos_of(keytab)
        return tuple(kvnos[1].get((asked.name, asked.etype), ()))


def store_of(store: Store | str | os.PathLike[str], skew: int) -> Store:
    """The store that a service of this skew asks: a path stands for a file."""
    if isinstance(store, (str, os.PathLike)):
        from .stores import File
        store = File(store, skew if skew > _SKEW else None)
    if skew > store.largest_skew:
        raise ValueError(f"the store is made for a skew of up to {store.largest_skew} seconds, and the service's is "
                         f"{skew}")
    return store


def _start_over(store: Store, skew: int, started: When | None) -> Moment:
    """The start of a service that has a store. What a service with the store's largest skew may have accepted before
    the store was made isn't later than this start by more than the skew."""
    made = store.remembers_from
    start = Moment(made.seconds + store.largest_skew - skew, made.micros)
    return start if started is None else max(start, Moment.of(started))


def _bound(bindings: Bytes | None, required: bool) -> tuple[int, bytes]:
    """What becomes of a client's bindings, and the hash that they are compared with."""
    if bindings is not None:
        return _REQUIRED if required else _IF_SENT, bindings_of(bindings)
    if required:
        raise ValueError("bindings_required needs the bindings")
    return _IGNORED, b""


def _flag(name: str, value: bool) -> bool:
    if not isinstance(value, bool):
        raise TypeError(f"{name} is a bool, not {value!r}")
    return value
