"""The messages after a login: MIC and Wrap tokens of the GSS-API (RFC 4121, section 4.2)."""
from __future__ import annotations

import ctypes
import enum
import os
from ctypes import byref
from dataclasses import dataclass
from types import TracebackType

from . import _interface
from ._codes import Code
from ._errors import Fault
from ._library import Bytes, Handle, Secret, Shown, done, filled, fitting, octets
from ._values import CONFOUNDER, Key

# How many bytes the token of a text has more than it, at the most.
_MORE = 72
# How a MIC token begins (RFC 4121, section 4.2.6.1).
_MIC = b"\x04\x04"


class Side(enum.IntEnum):
    """A side of a login.

    >>> Side.CLIENT.name
    'CLIENT'
    """

    CLIENT = 1
    SERVICE = 2


class Order(enum.IntEnum):
    """How a message stands to those that were taken before it (RFC 2743, section 1.2.3).

    NEXT    it is the next one
    GAP     those between the next one and this one are missing
    LATE    it was missing until now
    REPEAT  it was taken before
    OLD     it is before the first one, or more than 64 before the next one, so it isn't known whether it was taken

    >>> Order(3).name
    'REPEAT'
    """

    NEXT = 0
    GAP = 1
    LATE = 2
    REPEAT = 3
    OLD = 4


@dataclass(frozen=True, repr=False)
class Message(Shown):
    """A message that was opened.

    text    its text
    sealed  whether the text was encrypted
    number  its sequence number
    order   how it stands to those that were taken before it

    >>> Message(b"hello", True, 0, Order.NEXT)
    Message(text=<5 bytes>, sealed=True, number=0, order=<Order.NEXT: 0>)
    """

    text: bytes
    sealed: bool
    number: int
    order: Order


class Messages(Secret):
    """One side's messages after a login, as Login.messages and Agreed.messages make them. What one side writes, the
    other one checks or opens.

    side            which side this is
    session_key     the key that both sides share
    client_subkey   the key that the client's request has, or None
    service_subkey  the key that the service's reply has, or None
    client_seq      the client's first sequence number: 0 if its request has none
    service_seq     the service's: 0 if its reply has none
    any_order       False: only the other side's next message is taken, and another one raises the Fault MESSAGE_GAP,
                    MESSAGE_REPEAT or MESSAGE_OLD. True: those after a gap and late ones are taken, too, as over
                    datagrams
    repeats         whether, with any_order, repeats are taken too, and those that are too old to tell: then look at
                    each one's order
    after_list      whether each side has sent its first message, the MIC of the client's list of mechanisms (RFC 4178,
                    section 5): the messages go on with the next numbers

    Keys of types 19 and 20 protect messages; the service's subkey counts before the client's, and that before the
    session key.

    Any thread may call it; one call at a time runs. It is a context manager. At the end of the block, or by close(),
    the library frees what it holds. Then calls raise the Fault EMPTY_HANDLE.

    >>> key = Key.random(20)
    >>> client, service = Messages(Side.CLIENT, key), Messages(Side.SERVICE, key)
    >>> service.unwrap(client.wrap(b"hello")).text
    b'hello'
    >>> service.verify_mic(b"hello", client.mic(b"hello")).name
    'NEXT'
    """

    def __init__(self, side: Side, session_key: Key, *, client_subkey: Key | None = None,
                 service_subkey: Key | None = None,
                 client_seq: int = 0, service_seq: int = 0, any_order: bool = False, repeats: bool = False,
                 after_list: bool = False) -> None:
        keys = [session_key, client_subkey, service_subkey]
        kinds = [0 if it is None else fitting(it.kind, 32, signed=True) for it in keys]
        datas = [b"" if it is None else octets(it.data) for it in keys]
        options = _interface.MessageOptions(Side(side), *kinds, fitting(client_seq, 32), fitting(service_seq, 32), 0,
                                            any_order, repeats)
        self._handle = Handle("messages")
        begin = "messages_after_list" if after_list else "messages_new"
        done(self._handle.call(begin, byref(options), *(word for data in datas for word in (data, len(data)))))

    def mic(self, text: Bytes) -> bytes:
        """Return the MIC token of a text: 32 bytes (type 19) or 40 (type 20). Send it with the text.

        >>> len(Messages(Side.CLIENT, Key.random(19)).mic(b"hello"))
        32
        """
        text = octets(text)
        return filled(lambda *into: self._handle.call("messages_mic", text, len(text), *into))

    def verify_mic(self, text: Bytes, token: Bytes) -> Order:
        """Check that a token is the other side's MIC token of a text, and take it. Return how it stands to those before
        it.

        Raises Fault if it isn't one: MESSAGE_DEFECTIVE, MESSAGE_DIRECTION, MESSAGE_OTHER_KEY or MESSAGE_INTEGRITY; or
        if it isn't taken for its order: MESSAGE_GAP, MESSAGE_REPEAT or MESSAGE_OLD.

        >>> key = Key.random(19)
        >>> client, service = Messages(Side.CLIENT, key), Messages(Side.SERVICE, key)
        >>> service.verify_mic(b"hullo", client.mic(b"hello"))
        Traceback (most recent call last):
            ...
        fevstunik.Fault: MESSAGE_INTEGRITY: the message or its text was changed
        """
        text, token, received = octets(text), octets(token), _interface.Received()
        try:
            done(self._handle.call("messages_verify", text, len(text), token, len(token), byref(received)))
        except Fault as fault:
            if fault.code == Code.MESSAGE_DEFECTIVE and text.startswith(_MIC):
                fault.hint = "the text begins as a MIC token does: the text comes first, and then the token"
            raise
        return Order(received.order)

    def wrap(self, text: Bytes, *, sealed: bool = True) -> bytes:
        """Return the Wrap token of a text: sealed, or in plain with a checksum.

        >>> side = Messages(Side.CLIENT, Key.random(20))
        >>> len(side.wrap(b"hello")), len(side.wrap(b"hello", sealed=False))
        (77, 45)
        """
        text, confounder = octets(text), os.urandom(CONFOUNDER)
        return filled(
            lambda *into: self._handle.call("messages_wrap", sealed, confounder, CONFOUNDER, text, len(text), *into),
            len(text) + _MORE)

    def unwrap(self, token: Bytes) -> Message:
        """Open a Wrap token of the other side, and take it. Raises Fault as verify_mic does.

        If its text must be secret, see that `sealed` is true: the other side chooses.

        >>> key = Key.random(20)
        >>> client, service = Messages(Side.CLIENT, key), Messages(Side.SERVICE, key)
        >>> service.unwrap(client.wrap(b"hello", sealed=False))
        Message(text=<5 bytes>, sealed=False, number=0, order=<Order.NEXT: 0>)
        """
        token, received = octets(token), _interface.Received()
        opened = ctypes.create_string_buffer(token, len(token))
        done(self._handle.call("messages_unwrap", opened, len(token), byref(received)))
        text = opened.raw[received.text.at:][:received.text.size]
        return Message(text, received.sealed, received.number, Order(received.order))

    def limit(self, size: int, *, sealed: bool = True) -> int:
        """Return how many bytes a text may have at the most so that its Wrap token has at most so many.

        Raises the Fault TOO_LONG if even the token of an empty text is longer.

        >>> Messages(Side.CLIENT, Key.random(20)).limit(65536)
        65464
        """
        return int(done(self._handle.call("messages_limit", sealed, fitting(size, 63))).size)

    def close(self) -> None:
        """Free what the library holds. A second call does nothing.

        >>> Messages(Side.CLIENT, Key.random(20)).close()
        """
        self._handle.close()

    def __enter__(self) -> Messages:
        return self

    def __exit__(self, kind: type[BaseException] | None, fault: BaseException | None,
                 trace: TracebackType | None) -> None:
        self.close()
