"""SASL's mechanism GSSAPI (RFC 4752): logins of LDAP, IMAP, SMTP, Kafka and others, and what protects the data after
them.

A server answers each response of its client, until it is done:

>>> from fevstunik import CredentialCache, Keytab, Service
>>> from fevstunik.sasl import Client, Layer, Server
>>> service = Service(Keytab.read("examples/service.keytab"), "host/web@EX", first_life=True)
>>> server = Server(service, authorize=lambda login, name: login.client == "alice@EX" and name in ("", "alice"))
>>> client = Client(CredentialCache.read("examples/client.ccache"), "host/web@EX", layers=Layer.CONFIDENTIALITY)
>>> challenge = b""
>>> while not server.is_done:
...     challenge = server.step(client.step(challenge, now=1_700_000_100), now=1_700_000_100)
>>> server.login.client, server.layer == client.layer == Layer.CONFIDENTIALITY
('alice@EX', True)

Then both send their data by `encode`, and read what comes by `decode`:

>>> server.decode(client.encode(b"* 1 EXISTS"))
b'* 1 EXISTS'
"""
from __future__ import annotations

import enum
from collections.abc import Callable, Iterator
from types import TracebackType
from typing import ClassVar, Self

from ._client import Client as FirstSide
from ._errors import Error
from ._files import CredentialCache
from ._library import Bytes, Secret, octets
from ._login import Login, Service
from ._messages import Messages
from ._service import Refused
from ._tokens import ContextFlags, GoOn, Mechanism, Token
from ._values import When

__all__ = ["Client", "Layer", "SaslError", "Server"]

# What a client asks of the context: all that a layer may need.
_FLAGS = ContextFlags.REPLAY | ContextFlags.SEQUENCE | ContextFlags.CONFIDENTIALITY | ContextFlags.INTEGRITY
# The largest token that the size of a layer, which has three bytes, can name; and the largest that a side takes by
# default.
_LARGEST, _SIZE = (1 << 24) - 1, 65_536


class Layer(enum.IntFlag):
    """A security layer, or several: what protects the data after the login (RFC 4752, section 3.1).

    NONE             nothing
    INTEGRITY        nobody can change the data unnoticed, and anyone can read it
    CONFIDENTIALITY  nobody else can read it, either

    >>> Layer.ANY == Layer.NONE | Layer.INTEGRITY | Layer.CONFIDENTIALITY
    True
    """

    NONE = 1
    INTEGRITY = 2
    CONFIDENTIALITY = 4
    PROTECTED = 6
    ANY = 7


class SaslError(Exception):
    """The login failed, or the data after it is invalid. The connection is of no use any more.

    refused  why the service refuses the client, on the server's side; or None

    >>> print(SaslError("the client answered with data"))
    the client answered with data
    """

    def __init__(self, why: str, refused: Refused | None = None) -> None:
        super().__init__(why)
        self.refused = refused


class _Side(Secret):
    """What both sides do: the layer that they agree on, and the data under it."""

    _PEER: ClassVar[str]
    _next: Callable[[bytes, When | None], bytes]

    def __init__(self, layers: Layer, size: int) -> None:
        if not 0 < int(layers) <= Layer.ANY:
            raise ValueError("there has to be a layer: NONE, INTEGRITY or CONFIDENTIALITY")
        if not 128 <= size <= _LARGEST:
            raise ValueError(f"a side takes tokens of at least 128 bytes, and of at most {_LARGEST}, not {size}")
        self._layers, self._size = Layer(layers), size
        self._messages: Messages | None = None
        self._layer: Layer | None = None
        self._theirs, self._read, self._is_over = 0, bytearray(), False

    @property
    def is_done(self) -> bool:
        """Whether the login has succeeded."""
        return self._layer is not None

    @property
    def layer(self) -> Layer:
        """The layer that both sides agreed on. Until then, this raises SaslError."""
        if self._layer is None:
            raise SaslError("the login isn't done")
        return self._layer

    def _stepped(self, data: bytes, now: When | None) -> bytes:
        """What goes to the other side. After any failure, also of what the application was asked, the login is over."""
        self._check_it_goes_on()
        try:
            return self._next(data, now)
        except BaseException:
            self._is_over = True
            raise

    def _check_it_goes_on(self) -> None:
        if self._is_over or self.is_done:
            raise SaslError("the login is over")

    def _begin_messages(self, made: Callable[[], Messages]) -> None:
        try:
            self._messages = made()
        except Error as fault:
            raise SaslError(f"the {self._PEER}'s subkey isn't taken: {fault}") from fault

    def encode(self, data: Bytes) -> bytes:
        """Return what to send for some data, under the layer."""
        data = octets(data)
        if self.layer == Layer.NONE:
            return data
        return b"".join(len(it).to_bytes(4, "big") + it for it in self._tokens(data))

    def _tokens(self, data: bytes) -> Iterator[bytes]:
        messages, is_sealed = self._open_messages(), self.layer == Layer.CONFIDENTIALITY
        most = messages.limit(self._theirs, sealed=is_sealed)
        for at in range(0, len(data), most):
            yield messages.wrap(data[at:at + most], sealed=is_sealed)

    def decode(self, received: Bytes) -> bytes:
        """Return the data of what was received, under the layer: any piece of the stream. What isn't whole yet is kept
        for the next call.

        Raises SaslError if it was changed, repeated or left out, if it isn't protected as agreed, or if it is longer
        than this side takes.
        """
        received = octets(received)
        if self.layer == Layer.NONE:
            return received
        if self._is_over:
            raise SaslError("the data before this was invalid")
        self._read += received
        try:
            return b"".join(self._texts())
        except BaseException:
            self._is_over, self._read = True, bytearray()
            raise

    def _texts(self) -> Iterator[bytes]:
        # (what was read is dropped once, so that many small tokens take no longer than a large one)
        at = 0
        while len(self._read) >= at + 4:
            size = int.from_bytes(self._read[at:at + 4], "big")
            if size > self._size:
                raise SaslError(f"a token of {size} bytes comes, and this side takes {self._size}")
            if len(self._read) < at + 4 + size:
                break
            token, at = bytes(self._read[at + 4:at + 4 + size]), at + 4 + size
            yield self._text(token, self.layer == Layer.CONFIDENTIALITY)
        del self._read[:at]

    def _text(self, token: bytes, is_sealed: bool) -> bytes:
        """The text of a token. It may be sealed though that wasn't agreed on, but not the other way round."""
        try:
            message = self._open_messages().unwrap(token)
        except Error as fault:
            raise SaslError(f"the {self._PEER}'s token isn't taken: {fault}") from fault
        if is_sealed and not message.sealed:
            raise SaslError(f"the {self._PEER}'s token isn't sealed")
        return message.text

    def _open_messages(self) -> Messages:
        if self._messages is None:
            raise SaslError("the login isn't done")
        return self._messages

    def _agree(self, layer: Layer, theirs: int) -> None:
        if layer != Layer.NONE and theirs < 128:
            raise SaslError(f"the {self._PEER} takes tokens of {theirs} bytes, which hold no data")
        self._layer, self._theirs = layer, theirs

    def close(self) -> None:
        """Free what the library holds. A second call does nothing."""
        if self._messages is not None:
            self._messages.close()

    def __enter__(self) -> Self:
        return self

    def __exit__(self, kind: type[BaseException] | None, fault: BaseException | None,
                 trace: TracebackType | None) -> None:
        self.close()


class Server(_Side):
    """A server's side of one login.

    service    the Service that lets clients in
    authorize  whether a client (its Login) may act as a name that it gives; the name is empty if it gives none. It
               decides who comes in: for a server of one realm, compare `login.client` with what you know, never a part
               of it
    layers     the layers that the server offers: without TLS, pass Layer.PROTECTED
    size       how many bytes a token of the client may have

    When `is_done`, `login` and `name` say who it is.
    """

    _PEER = "client"

    def __init__(self, service: Service, *, authorize: Callable[[Login, str], bool], layers: Layer = Layer.ANY,
                 size: int = _SIZE) -> None:
        super().__init__(layers, size)
        self._service, self._authorize = service, authorize
        self._login: Login | None = None
        self._name: str | None = None
        self._next = self._begin

    @property
    def login(self) -> Login:
        """The client. Until the login has succeeded, this raises SaslError."""
        self.layer
        assert self._login is not None
        return self._login

    @property
    def name(self) -> str:
        """The name that the client acts as, which may be empty. Until the login has succeeded, this raises
        SaslError."""
        self.layer
        assert self._name is not None
        return self._name

    def step(self, response: Bytes, now: When | None = None) -> bytes:
        """Return the challenge that answers the client's response. If the login is done then, there is none, and it is
        empty.

        now  the moment, by default of the machine's clock

        Raises SaslError if the login fails. Then send the client a refusal, as your protocol has it.
        """
        return self._stepped(octets(response), now)

    async def step_async(self, response: Bytes, now: When | None = None) -> bytes:
        """Do what `step` does, and let other tasks run while the service asks its store.

        >>> import asyncio
        >>> from fevstunik import CredentialCache, Keytab, Service
        >>> service = Service(Keytab.read("examples/service.keytab"), "host/web@EX", first_life=True)
        >>> server = Server(service, authorize=lambda login, name: login.client == "alice@EX")
        >>> client = Client(CredentialCache.read("examples/client.ccache"), "host/web@EX")
        >>> challenge = asyncio.run(server.step_async(client.step(b"", now=1_700_000_100), now=1_700_000_100))
        >>> len(client.step(challenge, now=1_700_000_100)), server.is_done
        (0, False)
        """
        if self._next != self._begin:
            return self.step(response, now)
        response = octets(response)
        self._check_it_goes_on()
        self._next = self._interrupted
        try:
            _check_mechanism(response)
            return self._decided(await self._service.answer_async(response, now))
        except BaseException:
            self._is_over = True
            raise

    def _interrupted(self, response: bytes, now: When | None) -> bytes:
        raise SaslError("a step began before the last one ended")

    def _begin(self, response: bytes, now: When | None) -> bytes:
        _check_mechanism(response)
        return self._decided(self._service.answer(response, now))

    def _decided(self, decision: Login | GoOn | Refused) -> bytes:
        if isinstance(decision, Refused):
            raise SaslError(str(decision), decision)
        if not isinstance(decision, Login):
            raise SaslError("a negotiation isn't part of this mechanism")
        self._login = decision
        self._begin_messages(decision.messages)
        if not decision.reply:
            return self._offer()
        self._next = self._replied
        return decision.reply

    def _replied(self, response: bytes, now: When | None) -> bytes:
        if response:
            raise SaslError("the client answers the reply with data")
        return self._offer()

    def _offer(self) -> bytes:
        self._next = self._choose
        size = 0 if self._layers == Layer.NONE else self._size
        return self._open_messages().wrap(bytes([self._layers]) + size.to_bytes(3, "big"), sealed=False)

    def _choose(self, response: bytes, now: When | None) -> bytes:
        chosen = self._text(response, False)
        if len(chosen) < 4 or chosen[0] not in (1, 2, 4) or not chosen[0] & self._layers:
            raise SaslError("the client chooses no layer that is offered")
        if chosen[0] == Layer.NONE and any(chosen[1:4]):
            raise SaslError("the client chooses no layer, and names a size")
        try:
            name = chosen[4:].decode()
        except UnicodeDecodeError:
            raise SaslError("the name that the client gives isn't UTF-8") from None
        assert self._login is not None
        if self._authorize(self._login, name) is not True:
            raise SaslError("the client may not act as the name that it gives")
        self._name = name
        self._agree(Layer(chosen[0]), int.from_bytes(chosen[1:4], "big"))
        return b""

    def close(self) -> None:
        """Free what the library holds, also of the login. A second call does nothing."""
        if self._login is not None:
            self._login.close()
        super().close()


def _check_mechanism(response: bytes) -> None:
    """Only the mechanism Kerberos is part of this one, and not in a negotiation (RFC 4752, section 3.1)."""
    try:
        token = Token.open(response)
    except Error as fault:
        raise SaslError(f"the client's first token isn't taken: {fault}") from fault
    if token.negotiated is not None or token.mechanism != Mechanism.KERBEROS:
        raise SaslError("a negotiation isn't part of this mechanism")


class Client(_Side):
    """A client's side of one login.

    cache    has a ticket of its owner for the service
    service  the service's name, as ``imap/mail.example.com@EXAMPLE.COM``
    name     the name to act as; empty for the one that the server has for this client
    layers   the layers that the client takes; it chooses the strongest one that the server offers, too. Without TLS,
             pass Layer.PROTECTED
    size     how many bytes a token of the server may have
    """

    _PEER = "server"

    def __init__(self, cache: CredentialCache, service: str, *, name: str = "", layers: Layer = Layer.ANY,
                 size: int = _SIZE) -> None:
        super().__init__(layers, size)
        self._first = FirstSide(cache, service, negotiated=False, context=_FLAGS)
        self._name = name.encode()
        self._next = self._begin

    def step(self, challenge: Bytes, now: When | None = None) -> bytes:
        """Return the response to the server's challenge. The first one is empty, or the protocol has none.

        now  the client's clock, as of make_request

        When `is_done`, send what is returned, and see what the server says of the login. Raises SaslError if the login
        fails, and Fault if no request can be made.
        """
        return self._stepped(octets(challenge), now)

    def _begin(self, challenge: bytes, now: When | None) -> bytes:
        if challenge:
            raise SaslError("the server begins with data")
        self._next = self._finish
        return self._first.first(now=now)

    def _finish(self, challenge: bytes, now: When | None) -> bytes:
        from ._client import ServiceError
        try:
            agreed = self._first.finish(challenge)
        except (Error, ServiceError) as fault:
            raise SaslError(f"the server's reply isn't taken: {fault}") from fault
        self._begin_messages(agreed.messages)
        self._next = self._choose
        return b""

    def _choose(self, challenge: bytes, now: When | None) -> bytes:
        offer = self._text(challenge, False)
        if len(offer) != 4:
            raise SaslError("the server offers no layers")
        if not offer[0] & Layer.PROTECTED and any(offer[1:]):
            raise SaslError("the server offers no layer, and names a size")
        common = [it for it in (Layer.CONFIDENTIALITY, Layer.INTEGRITY, Layer.NONE) if it & self._layers & offer[0]]
        if not common:
            raise SaslError("the server offers no layer that this client takes")
        layer, theirs = common[0], int.from_bytes(offer[1:], "big")
        size = 0 if layer == Layer.NONE else self._size
        chosen = self._open_messages().wrap(bytes([layer]) + size.to_bytes(3, "big") + self._name, sealed=False)
        self._agree(layer, theirs)
        return chosen

    def close(self) -> None:
        """Free what the library holds. A second call does nothing."""
        self._first.close()
        super().close()
