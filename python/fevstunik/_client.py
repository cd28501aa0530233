"""The client's side: requests, and the replies to them."""
from __future__ import annotations

import os
from ctypes import byref, c_uint8
from dataclasses import dataclass, field
from types import TracebackType
from typing import Callable

from . import _interface
from ._codes import Code
from ._errors import Fault
from ._files import CredentialCache
from ._library import Bytes, Handle, Secret, filled, octets, read, text_of
from ._messages import Messages, Side
from ._shown import fit_for_a_line
from ._tokens import ContextFlags, KrbError, Says, bindings_of, open_answer, read_verdict, wrap_request
from ._values import CONFOUNDER, KEY_SIZES, LAST_SECOND, Key, Moment, When, chosen, clock_of_request


@dataclass(frozen=True)
class Agreed(Secret):
    """What a client and a service agreed on.

    client          the client, as ``alice@EX``
    session_key     the key that client and service share
    service_subkey  the key that the service chose, or None; of any type and length
    service_seq     the service's first sequence number, or None
    client_type     the type of the client's name
    subkey          the key that the client chose, or None
    seq             the client's first sequence number, or None

    >>> Agreed("alice@EX", Key(19, bytes(16)), None, 7, 1)
    Agreed(client='alice@EX', session_key=Key(kind=19), service_subkey=None, service_seq=7, client_type=1)
    """

    client: str
    session_key: Key
    service_subkey: Key | None
    service_seq: int | None
    client_type: int
    subkey: Key | None = field(default=None, repr=False)
    seq: int | None = field(default=None, repr=False)

    def messages(self, *, any_order: bool = False, repeats: bool = False) -> Messages:
        """Begin the client's messages to the service: MIC and Wrap tokens of the GSS-API.

        any_order, repeats  as of Messages

        Call it once for each login: other messages of the same login begin again at the first numbers, and take what
        was taken before.

        >>> from fevstunik import Client, CredentialCache, Keytab, Service
        >>> service = Service(Keytab.read("examples/service.keytab"), "host/web@EX", first_life=True)
        >>> client = Client(CredentialCache.read("examples/client.ccache"), "host/web@EX")
        >>> login = service.answer(client.first(now=1_700_000_100), now=1_700_000_100)
        >>> token = client.finish(login.reply).messages().wrap(b"hello")
        >>> login.messages().unwrap(token).text
        b'hello'
        """
        return Messages(Side.CLIENT, self.session_key, client_subkey=self.subkey, service_subkey=self.service_subkey,
                        client_seq=self.seq or 0, service_seq=self.service_seq or 0, any_order=any_order,
                        repeats=repeats)


class Pending(Secret):
    """A request whose reply is awaited, as make_request returns it.

    It is a context manager. At the end of the block, or by close(), the library frees what it holds. Then finish raises
    the Fault EMPTY_HANDLE.

    >>> from fevstunik import CredentialCache, make_request
    >>> with CredentialCache.read("examples/client.ccache") as cache:
    ...     request, pending = make_request(cache, "host/web@EX", now=1_700_000_100)
    >>> pending.close()
    """

    def __init__(self, handle: Handle, subkey: Key | None = None, seq: int | None = None) -> None:
        self._handle, self._subkey, self._seq = handle, subkey, seq

    def finish(self, reply: Bytes) -> Agreed:
        """Read the bytes of the reply. A wrong reply raises Fault, and the right one may still be read afterwards.

        >>> from fevstunik import Acceptor, CredentialCache, Keytab, make_request
        >>> cache = CredentialCache.read("examples/client.ccache")
        >>> request, pending = make_request(cache, "host/web@EX", now=1_700_000_100)
        >>> service = Acceptor(Keytab.read("examples/service.keytab"), "host/web@EX", first_life=True)
        >>> reply = service.accept(request, now=1_700_000_100).reply(subkey=Key.random(20))
        >>> pending.finish(reply)
        Agreed(client='alice@EX', session_key=Key(kind=19), service_subkey=Key(kind=20), ...)
        """
        reply = octets(reply)
        found, data = read(_interface.Agreement, lambda *into: self._handle.call("finish", reply, len(reply), *into))
        return Agreed(
            found.client.text(data), Key(found.session_type, found.session_key.of(data)),
            Key(found.service_subkey_type, found.service_subkey.of(data)) if found.has_service_subkey else None,
            found.service_seq if found.has_service_seq else None, found.name_type, self._subkey, self._seq)

    def close(self) -> None:
        """Free what the library holds. A second call does nothing.

        >>> from fevstunik import CredentialCache, make_request
        >>> cache = CredentialCache.read("examples/client.ccache")
        >>> request, pending = make_request(cache, "host/web@EX", now=1_700_000_100)
        >>> pending.close()
        """
        self._handle.close()

    def __enter__(self) -> Pending:
        return self

    def __exit__(self, kind: type[BaseException] | None, fault: BaseException | None,
                 trace: TracebackType | None) -> None:
        self.close()


def make_request(cache: CredentialCache, service: str, *, now: When | None = None, subkey: Key | None = None,
                 seq: int | None = None, wants_reply: bool = True, context: ContextFlags | None = None,
                 bindings: Bytes | None = None) -> tuple[bytes, Pending]:
    """Return the bytes of a request for a service, and the Pending that reads its reply.

    cache        has a ticket of its owner for the service
    service      the service's name, as ``host/web@EX``
    now          the client's clock. By default the machine's clock. Then no two requests of this process have the same
                 moment, unless the clock is set back. If you pass `now`, never pass one moment twice: a service refuses
                 the second request
    subkey       a key that the client chooses, as Key.random(20), or None
    seq          the client's first sequence number, or None
    wants_reply  whether to ask the service for a reply
    context      what a GSS-API client asks for, if the request is to be wrapped in a token. Its MUTUAL and DELEGATION
                 don't count: MUTUAL is set if and only if a reply is asked for, and DELEGATION never. The sequence
                 number is random unless `seq` is given
    bindings     the bindings of such a client's channel, as ``b"tls-server-end-point:" + hash``, or None

    Raises Fault if no request can be built: NO_CREDENTIAL, NO_USABLE_KEY or CREDENTIAL_EXPIRED (no ticket fits),
    BAD_TICKET or TOO_LONG. The text of NO_CREDENTIAL names the other realms in which the cache has a ticket for the
    service.

    >>> from fevstunik import CredentialCache, make_request
    >>> with CredentialCache.read("examples/client.ccache") as cache:
    ...     request, pending = make_request(cache, "host/web@EX", now=1_700_000_100)
    >>> request[0] == 0x6e
    True
    """
    if context is None and bindings is not None:
        raise ValueError("bindings are those of a client of GSS-API: give its context, too")
    if context is not None and seq is None:
        seq = int.from_bytes(os.urandom(4), "big") >> 2
    name, at, confounder = text_of(service), clock_of_request(now), os.urandom(CONFOUNDER)
    choice = chosen(subkey, seq, wants_reply)
    call, more = ("request", ()) if context is None else ("context_request", (byref(_context(context, bindings)),))
    pending = Handle("pending")
    try:
        request = filled(lambda *into: cache._handle.call(
            call, pending.pointer, name, len(name), byref(at), confounder, CONFOUNDER, *choice, *more, *into))
    except Fault as fault:
        fault.hint = _HINTS.get(fault.code, "").format(fit_for_a_line(service))
        if fault.code == Code.NO_CREDENTIAL:
            fault.hint += cache._in_other_realms(service, now)
        raise
    return request, Pending(pending, subkey, seq)


# What to do about a fault of a request.
_HINTS = {
    Code.NO_CREDENTIAL: "get one by `kvno {0}`, or by the cache's `fetch`",
    Code.CREDENTIAL_EXPIRED: "get a new one by `kinit` and `kvno {0}`",
    Code.NO_REALM: "the service's name has a realm, as host/web@EX",
    Code.BAD_TEXT: "in the service's name, a byte that isn't visible ASCII is written as \\x and two hexadecimal "
                   "digits",
}
# KRB_AP_ERR_SKEW (RFC 4120, section 7.5.9), and by how many seconds clocks may differ, unless a service has another
# limit.
_SKEW, _MOST = 37, 300
# The first bytes of a reply and of a KRB-ERROR without a token around them.
_REPLY, _ERROR = b"\x6f", b"\x7e"


class ServiceError(Exception):
    """A service refused a client, or answered without a proof that it is the right one.

    error         the KRB-ERROR of its answer, or None. Nobody has signed it: it may be forged
    clock_offset  by how many seconds the service's clock is ahead of the client's, as the error says; or None without
                  an error
    says          what a negotiation says in place of a reply, or None

    >>> from fevstunik import KrbError, Moment, ServiceError
    >>> str(ServiceError(KrbError(37, Moment(1_700_000_100), "host/web@EX"), -400.0))
    'host/web@EX refused the request: KRB_AP_ERR_SKEW; its clock is 400 seconds behind'
    """

    def __init__(self, error: KrbError | None, clock_offset: float | None = None, says: Says | None = None) -> None:
        super().__init__(error, clock_offset, says)
        self.error = error
        self.clock_offset = clock_offset
        self.says = says

    def __str__(self) -> str:
        if self.error is None:
            return _UNPROVED[self.says]
        text = f"{fit_for_a_line(self.error.service)} refused the request: {self.error.name}"
        if self.error.code != _SKEW or self.clock_offset is None:
            return text
        if abs(self.clock_offset) < _MOST:
            return f"{text}; the clocks agree, so the service may have just started: try again in five minutes"
        side = "ahead" if self.clock_offset > 0 else "behind"
        return f"{text}; its clock is {abs(self.clock_offset):.0f} seconds {side}"


_UNPROVED = {
    None: "the service answered nothing",
    Says.REJECTED: "the service refused the request, and didn't say why",
    Says.COMPLETED: "the service says that it let the client in, and sent no reply that proves who it is",
    Says.INCOMPLETE: "the service asks for another token",
}


class Client(Secret):
    """The client's side of a login: makes the first message, and reads the service's answer.

    cache        has a ticket of its owner for the service
    service      the service's name, as ``host/web@EX``
    negotiated   whether the token is in a negotiation (SPNEGO), as web services want it
    context      what a GSS-API client asks for, as of make_request; or None for a request without a token around it
    bindings     the bindings of the channel, as tls_server_end_point returns them, or None
    subkey       a key that the client chooses: by default a random one for each request, of the type of the ticket's
                 key. So messages that were recorded in an earlier login aren't taken again
    wants_reply  whether to ask the service for a reply. Without one, nothing proves who the service is

    It is a context manager. At the end of the block, or by close(), the library frees what it holds.

    >>> from fevstunik import Acceptor, Client, CredentialCache, Keytab
    >>> service = Acceptor(Keytab.read("examples/service.keytab"), "host/web@EX", first_life=True)
    >>> with Client(CredentialCache.read("examples/client.ccache"), "host/web@EX", context=None) as client:
    ...     request = client.first(now=1_700_000_100)
    ...     client.finish(service.accept(request, now=1_700_000_100).reply()).client
    'alice@EX'
    """

    def __init__(self, cache: CredentialCache, service: str, *, negotiated: bool = True,
                 context: ContextFlags | None = ContextFlags(0),
                 bindings: Bytes | None = None, subkey: Key | None = None, wants_reply: bool = True) -> None:
        if not isinstance(cache, CredentialCache):
            raise TypeError(f"cache is a CredentialCache, as CredentialCache.read(path) returns it, not a "
                            f"{type(cache).__name__}")
        self._cache, self._service, self._negotiated, self._wants_reply = cache, service, negotiated, wants_reply
        self._context, self._bindings, self._subkey = context, bindings, subkey
        self._sent: tuple[Pending, Moment] | None = None

    def first(self, *, now: When | None = None, clock_offset: float = 0.0) -> bytes:
        """Return the bytes to send to the service. Another call makes another request, whose answer is then awaited.

        now           the client's clock, as of make_request
        clock_offset  by how many seconds the service's clock is ahead, as a ServiceError says

        Raises Fault if no request can be made.

        >>> from fevstunik import Client, CredentialCache
        >>> Client(CredentialCache.read("examples/client.ccache"), "host/web@EX").first(now=1_700_000_100)[0] == 0x60
        True
        """
        here = clock_of_request(now)
        at = 1_000_000 * here.seconds + here.micros + round(1_000_000 * clock_offset)
        # (an error may name the last moment that there is, and then nobody's ticket is valid)
        moment = Moment(*divmod(min(at, 1_000_000 * LAST_SECOND), 1_000_000))
        subkey = self._subkey or Key.random(self._type_at(moment))
        request, pending = make_request(self._cache, self._service, now=moment, subkey=subkey,
                                        wants_reply=self._wants_reply, context=self._context, bindings=self._bindings)
        self.close()
        self._sent = pending, moment
        return request if self._context is None else wrap_request(request, negotiated=self._negotiated)

    def _type_at(self, moment: Moment) -> int:
        """The type of the session key of the ticket that make_request takes. (The KDC chose it as one that the service
        has.)"""
        kinds = (it.key.kind for it in self._cache.credentials
                 if it.client == self._cache.owner.name and it.server == self._service
                 and len(it.key.data) == KEY_SIZES.get(it.key.kind) and it.endtime > moment.seconds)
        return next(kinds, max(KEY_SIZES))

    def finish(self, answer: Bytes) -> Agreed:
        """Read the service's answer: a token or a message without one. Only after this, the client knows that it talks
        to the service.

        Raises ServiceError if the service refused the client, or didn't reply; and Fault if these bytes aren't the
        reply. The right one may still be read afterwards.

        >>> from fevstunik import Client, CredentialCache
        >>> client = Client(CredentialCache.read("examples/client.ccache"), "host/web@EX")
        >>> token = client.first(now=1_700_000_100)
        >>> client.finish(bytes.fromhex("a1073005a0030a0102"))
        Traceback (most recent call last):
            ...
        fevstunik.ServiceError: the service refused the request, and didn't say why
        """
        if self._sent is None:
            raise RuntimeError("no answer is awaited: call first(), and send what it returns")
        pending, moment = self._sent
        answer = octets(answer)
        if answer[:1] == _REPLY:
            return pending.finish(answer)
        says = read_verdict(answer)
        if not answer or says is not None:
            raise ServiceError(None, None, None if says is None else says.says)
        error = answer if answer[:1] == _ERROR else None
        if error is None:
            opened = open_answer(answer)
            if not opened.is_error:
                return pending.finish(opened.message)
            error = opened.message
        read = KrbError.read(error)
        raise ServiceError(read, read.clock_offset(moment))

    def close(self) -> None:
        """Free what the library holds. A second call does nothing.

        >>> from fevstunik import Client, CredentialCache
        >>> Client(CredentialCache.read("examples/client.ccache"), "host/web@EX").close()
        """
        sent, self._sent = self._sent, None
        if sent is not None:
            sent[0].close()

    def __enter__(self) -> Client:
        return self

    def __exit__(self, kind: type[BaseException] | None, fault: BaseException | None,
                 trace: TracebackType | None) -> None:
        self.close()


def login(cache: CredentialCache, service: str, exchange: Callable[[bytes], bytes], *, now: When | None = None,
          adjust_clock: bool = False, negotiated: bool = True, context: ContextFlags | None = ContextFlags(0),
          bindings: Bytes | None = None, subkey: Key | None = None) -> Agreed:
    """Log in to a service as a Client, and return what both agreed on.

    exchange      sends the service some bytes, and returns what it answers
    now           the client's clock: the machine's clock by default
    adjust_clock  whether to try once more by the service's clock, if it answers that the clocks differ too much (RFC
                  4120, section 5.9.1). Nobody has signed that answer, and a request made by a forged time is of use
                  then. So ask for it only if your machine's clock is known to be wrong

    The others are those of Client. Raises ServiceError or Fault as Client.first and Client.finish do.

    >>> from fevstunik import Acceptor, CredentialCache, Keytab, Refused, Token, login
    >>> service = Acceptor(Keytab.read("examples/service.keytab"), "host/web@EX", first_life=True)
    >>> def exchange(token: bytes) -> bytes:
    ...     opened = Token.open(token)
    ...     try:
    ...         return opened.reply(service.accept(opened.request, now=1_700_000_100).reply())
    ...     except Refused as refused:
    ...         return opened.error(refused.error("host/web@EX", now=1_700_000_100))
    >>> cache = CredentialCache.read("examples/client.ccache")
    >>> login(cache, "host/web@EX", exchange, now=1_700_000_500, adjust_clock=True).client
    'alice@EX'
    """
    with Client(cache, service, negotiated=negotiated, context=context, bindings=bindings, subkey=subkey) as client:
        try:
            return client.finish(exchange(client.first(now=now)))
        except ServiceError as refused:
            ahead = refused.clock_offset
            if not adjust_clock or ahead is None or refused.error is None or refused.error.code != _SKEW:
                raise
        return client.finish(exchange(client.first(now=now, clock_offset=ahead)))


def _context(flags: ContextFlags, bindings: Bytes | None) -> _interface.ContextChoice:
    hashed = bytes(16) if bindings is None else bindings_of(bindings)
    return _interface.ContextChoice(int(flags), (c_uint8 * 16)(*hashed))
