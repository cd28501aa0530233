"""GSS-API tokens, in which web clients, ssh and Windows send a request."""
from __future__ import annotations

import enum
import hashlib
import hmac
from ctypes import byref, c_bool
from dataclasses import dataclass
from threading import RLock

from . import _interface
from ._codes import Code
from ._library import Bytes, Secret, Shown, done, filled, library, octets, read
from ._values import Moment, When

CHECKSUM = 0x8003
# In place of a mechanism: an earlier answer of the negotiation named it.
NAMED = 100


class Mechanism(enum.IntEnum):
    """A name of Kerberos in tokens.

    >>> Mechanism.KERBEROS
    <Mechanism.KERBEROS: 1>
    """

    KERBEROS = 1
    WINDOWS = 2
    DRAFT = 3


class ContextFlags(enum.IntFlag):
    """What a client asks of the context (RFC 4121, section 4.1.1.1).

    >>> ContextFlags.MUTUAL in ContextFlags(0x3e)
    True
    """

    DELEGATION = 1
    MUTUAL = 2
    REPLAY = 4
    SEQUENCE = 8
    CONFIDENTIALITY = 16
    INTEGRITY = 32


def bindings_of(application_data: Bytes) -> bytes:
    """Return the hash of a channel's bindings that have no addresses (RFC 4121, section 4.1.1.2).

    >>> bindings_of(b"tls-server-end-point:").hex()
    '2ea6e9ae9674d953e9d23afaf703e260'
    """
    data = octets(application_data)
    return hashlib.md5(bytes(16) + len(data).to_bytes(4, "little") + data, usedforsecurity=False).digest()


class Says(enum.IntEnum):
    """What a service says in a negotiation without a token of Kerberos (RFC 4178, section 4.2.2).

    COMPLETED   the client is accepted, and no reply is wanted
    INCOMPLETE  the client is to send its token
    REJECTED    the client is refused

    >>> Says(2)
    <Says.INCOMPLETE: 2>
    """

    COMPLETED = 1
    INCOMPLETE = 2
    REJECTED = 3


@dataclass(frozen=True)
class Verdict:
    """A service's answer in a negotiation that holds no reply and no error.

    says       what it says
    mechanism  the mechanism that it names. COMPLETED names the one that the negotiation names first in the first answer
               to a client, and none later; INCOMPLETE names one, and REJECTED none

    >>> from fevstunik import Mechanism, Says, Verdict
    >>> Verdict(Says.COMPLETED, Mechanism.KERBEROS).token().hex()
    'a1143012a0030a0100a10b06092a864886f712010202'
    """

    says: Says
    mechanism: Mechanism | None = None

    def token(self) -> bytes:
        """Return the bytes of the answer. Raises Fault BAD_VERDICT if INCOMPLETE names no mechanism, or REJECTED one.

        >>> from fevstunik import Says, Verdict
        >>> Verdict(Says.REJECTED).token().hex()
        'a1073005a0030a0102'
        """
        verdict = _interface.Verdict(self.says, 0 if self.mechanism is None else self.mechanism)
        return filled(lambda *into: library().call("verdict_token", byref(verdict), *into))


def read_verdict(token: Bytes) -> Verdict | None:
    """Read a service's answer that holds no reply and no error, or return None for other bytes.

    >>> from fevstunik import read_verdict
    >>> read_verdict(bytes.fromhex("a1073005a0030a0102"))
    Verdict(says=<Says.REJECTED: 3>, mechanism=None)
    """
    token, found = octets(token), _interface.Verdict()
    answer = library().call("verdict_read", token, len(token), byref(found))
    if answer.code == Code.NOTHING_THERE:
        return None
    done(answer)
    return Verdict(Says(found.says), Mechanism(found.mechanism) if found.mechanism else None)


@dataclass(frozen=True, repr=False)
class Token(Shown):
    """A token of a client that holds a request, and what its answer is wrapped in.

    request     the request
    mechanism   the object identifier by which the token names Kerberos
    negotiated  the one that a negotiation (SPNEGO) names first, or None if there is no negotiation
    is_later    whether it is a later token of a negotiation, as Negotiation.take returns it

    >>> from fevstunik import Token, wrap_request
    >>> Token.open(wrap_request(b"a request"))
    Token(request=<9 bytes>, mechanism=<Mechanism.KERBEROS: 1>, negotiated=<Mechanism.KERBEROS: 1>, is_later=False)
    """

    request: bytes
    mechanism: Mechanism = Mechanism.KERBEROS
    negotiated: Mechanism | None = None
    is_later: bool = False

    @classmethod
    def open(cls, token: Bytes) -> Token:
        """Open the first token of a client. Raises Fault for bytes that aren't one, for example if the client offers
        NTLM.

        >>> from fevstunik import Token
        >>> Token.open(b"NTLMSSP")
        Traceback (most recent call last):
            ...
        fevstunik.Fault: NOT_A_TOKEN: the first byte isn't that of a token
        """
        token = octets(token)
        wrapped, request = read(_interface.Wrapped,
                                lambda *into: library().call("token_open", token, len(token), *into))
        return cls(request, Mechanism(wrapped.mechanism), Mechanism(wrapped.negotiated) if wrapped.negotiated else None)

    def reply(self, reply: Bytes) -> bytes:
        """Return the token that answers this one with a reply, as `Accepted.reply` returns it.

        >>> from fevstunik import Token, open_answer
        >>> open_answer(Token(b"a request").reply(b"a reply"))
        TokenAnswer(message=<7 bytes>, is_error=False)
        """
        return self._answer("token_reply", octets(reply))

    def error(self, error: Bytes) -> bytes:
        """Return the token that answers this one with a KRB-ERROR, as `Refused.error` returns it.

        >>> from fevstunik import Token, open_answer
        >>> open_answer(Token(b"a request").error(b"an error")).is_error
        True
        """
        return self._answer("token_error", octets(error))

    def completed(self) -> bytes:
        """Return the answer that accepts a client that asked for no reply. It is empty if there is no negotiation: then
        there is nothing to send.

        >>> from fevstunik import Token, read_verdict, wrap_request
        >>> read_verdict(Token.open(wrap_request(b"a request")).completed()).says
        <Says.COMPLETED: 1>
        """
        if self.is_later:
            return Verdict(Says.COMPLETED).token()
        return b"" if self.negotiated is None else Verdict(Says.COMPLETED, self.negotiated).token()

    def rejected(self) -> bytes:
        """Return the answer that refuses a client without a KRB-ERROR, as MIT krb5 answers one that asked for no reply.
        It is empty if there is no negotiation.

        >>> from fevstunik import Token, wrap_request
        >>> Token.open(wrap_request(b"a request")).rejected().hex()
        'a1073005a0030a0102'
        """
        return Verdict(Says.REJECTED).token() if self.is_later or self.negotiated is not None else b""

    def _answer(self, name: str, message: bytes) -> bytes:
        wrapped = (_interface.Wrapped(self.mechanism, NAMED) if self.is_later
                   else _wrapped(self.mechanism, self.negotiated))
        return filled(lambda *into: library().call(name, byref(wrapped), message, len(message), *into))


@dataclass(frozen=True, repr=False)
class GoOn(Shown):
    """What a negotiation answers a client that has to send one more message: send it, and take the client's next one.

    So it goes on with a client that named Kerberos first and sent no token; and, in a Service's login, with one that
    named another mechanism first, which has to show its list of mechanisms.

    reply  the bytes to send

    >>> GoOn(b"an answer").reply
    b'an answer'
    """

    reply: bytes

    def __bool__(self) -> bool:
        """Return False: nobody is let in yet."""
        return False


class Negotiation(Secret):
    """The service's side of one client's negotiation: it takes the client's tokens, one after another.

    A negotiation has at most two rounds. It is over when a token held a request, or was refused. A negotiation whose
    first mechanism isn't Kerberos is refused, also if Kerberos is in its list.

    >>> from fevstunik import GoOn, Negotiation
    >>> Negotiation().take(bytes.fromhex("601b06062b0601050502a011300fa00d300b06092a864886f712010202")).reply.hex()
    'a1143012a0030a0101a10b06092a864886f712010202'
    """

    def __init__(self) -> None:
        self._numbers, self._lock = _interface.Negotiation(), RLock()

    def take(self, token: Bytes) -> Token | GoOn:
        """Take the next token of the client. Raises Fault for bytes that aren't one; then the negotiation is over.

        >>> from fevstunik import Negotiation, wrap_request
        >>> Negotiation().take(wrap_request(b"a request")).request
        b'a request'
        """
        token = octets(token)
        with self._lock:
            wrapped, data = read(_interface.Wrapped, lambda into, *rest: library().call(
                "negotiation_take", byref(self._numbers), token, len(token), into, *rest))
        if not wrapped.mechanism:
            return GoOn(data)
        if wrapped.negotiated == NAMED:
            return Token(data, Mechanism(wrapped.mechanism), None, is_later=True)
        return Token(data, Mechanism(wrapped.mechanism), Mechanism(wrapped.negotiated) if wrapped.negotiated else None)


def _wrapped(mechanism: Mechanism, negotiated: Mechanism | None) -> _interface.Wrapped:
    return _interface.Wrapped(mechanism, 0 if negotiated is None else negotiated)


def wrap_request(request: Bytes, *, negotiated: bool = True) -> bytes:
    """Return the first token of a client for a request. Make the request with the argument `context`: services built on
    other libraries may refuse it otherwise.

    negotiated  whether it is wrapped in a negotiation (SPNEGO), as web services want it

    >>> from fevstunik import wrap_request
    >>> wrap_request(b"a request", negotiated=False)[0] == 0x60
    True
    """
    request, wrapped = octets(request), _wrapped(Mechanism.KERBEROS, Mechanism.KERBEROS if negotiated else None)
    return filled(lambda *into: library().call("token_request", byref(wrapped), request, len(request), *into))


@dataclass(frozen=True, repr=False)
class TokenAnswer(Shown):
    """A service's answer to a client's first token.

    message   the reply, for `Pending.finish`; or the KRB-ERROR
    is_error  whether it is a KRB-ERROR

    >>> TokenAnswer(b"a reply", is_error=False).message
    b'a reply'
    """

    message: bytes
    is_error: bool

    @property
    def error(self) -> KrbError | None:
        """What the KRB-ERROR says, or None for a reply.

        >>> TokenAnswer(b"a reply", is_error=False).error is None
        True
        """
        return KrbError.read(self.message) if self.is_error else None


# The errors of services (RFC 4120, section 7.5.9).
_ERRORS = {
    14: "KDC_ERR_ETYPE_NOSUPP", 31: "KRB_AP_ERR_BAD_INTEGRITY", 32: "KRB_AP_ERR_TKT_EXPIRED", 33: "KRB_AP_ERR_TKT_NYV",
    34: "KRB_AP_ERR_REPEAT", 35: "KRB_AP_ERR_NOT_US", 36: "KRB_AP_ERR_BADMATCH", 37: "KRB_AP_ERR_SKEW",
    38: "KRB_AP_ERR_BADADDR",
    39: "KRB_AP_ERR_BADVERSION", 40: "KRB_AP_ERR_MSG_TYPE", 41: "KRB_AP_ERR_MODIFIED", 42: "KRB_AP_ERR_BADORDER",
    44: "KRB_AP_ERR_BADKEYVER", 45: "KRB_AP_ERR_NOKEY", 46: "KRB_AP_ERR_MUT_FAIL", 47: "KRB_AP_ERR_BADDIRECTION",
    48: "KRB_AP_ERR_METHOD", 49: "KRB_AP_ERR_BADSEQ", 50: "KRB_AP_ERR_INAPP_CKSUM", 51: "KRB_AP_PATH_NOT_ACCEPTED",
    60: "KRB_ERR_GENERIC", 61: "KRB_ERR_FIELD_TOOLONG",
}


@dataclass(frozen=True, repr=False)
class KrbError(Shown):
    """What a KRB-ERROR says (RFC 4120, section 5.9.1). Nobody has signed it: it may be forged.

    code     what went wrong (RFC 4120, section 7.5.9), whose name is `name`: 37 if the clocks differ too much
    time     the service's time
    service  the service's name, as ``host/web@EX``
    text     a text for people, or None
    data     more about the error, or None
    client   the client's name, or None
    ctime    the client's time in the request, or None

    >>> from fevstunik import KrbError, Moment
    >>> KrbError(37, Moment(1_700_000_100, 0), "host/web@EX").code
    37
    """

    code: int
    time: Moment
    service: str
    text: bytes | None = None
    data: bytes | None = None
    client: str | None = None
    ctime: Moment | None = None

    @classmethod
    def read(cls, error: Bytes) -> KrbError:
        """Read a KRB-ERROR. Bytes that aren't one raise Fault.

        >>> from fevstunik import KrbError
        >>> KrbError.read(b"no error")
        Traceback (most recent call last):
            ...
        fevstunik.Fault: ERROR_MALFORMED: the bytes aren't a KRB-ERROR
        """
        error = octets(error)
        found, data = read(_interface.KrbError,
                           lambda *into: library().call("krb_error_read", error, len(error), *into))
        return cls(
            found.code, Moment(found.stime.seconds, found.stime.micros), found.service.text(data),
            found.text.of(data) if found.has_text else None, found.data.of(data) if found.has_data else None,
            found.client.text(data) if found.has_client else None,
            Moment(found.ctime.seconds, found.ctime.micros) if found.has_ctime else None)

    @property
    def name(self) -> str:
        """The name that RFC 4120, section 7.5.9, gives to the code, or ``error N`` for a code that no service uses.

        >>> from fevstunik import KrbError, Moment
        >>> KrbError(37, Moment(1_700_000_400), "host/web@EX").name
        'KRB_AP_ERR_SKEW'
        """
        return _ERRORS.get(self.code, f"error {self.code}")

    def clock_offset(self, now: When) -> float:
        """Return how many seconds the service's clock is ahead of this one, which said `now` when the request was sent.

        >>> from fevstunik import KrbError, Moment
        >>> KrbError(37, Moment(1_700_000_400, 500_000), "host/web@EX").clock_offset(1_700_000_000)
        400.5
        """
        at = Moment.of(now)
        return (self.time.seconds - at.seconds) + (self.time.micros - at.micros) / 1_000_000


def open_answer(token: Bytes) -> TokenAnswer:
    """Open a service's answer to a client's first token. Bytes that aren't one raise Fault.

    >>> from fevstunik import Token, open_answer
    >>> open_answer(Token(b"a request").reply(b"a reply")).message
    b'a reply'
    """
    token, is_error = octets(token), c_bool()
    message = filled(lambda *into: library().call("token_answer", token, len(token), byref(is_error), *into))
    return TokenAnswer(message, is_error.value)


@dataclass(frozen=True, repr=False)
class Context(Shown):
    """What a GSS-API client asks for, in the checksum of its authenticator (RFC 4121, section 4.1.1).

    flags       what it asks of the context
    bindings    a hash of the channel's bindings: 16 bytes, zeros if there are none
    delegation  the credentials that it delegates, a KRB-CRED, or None
    extensions  what is after these, which wasn't looked at

    >>> from fevstunik import Context
    >>> Context.read(bytes([16]) + bytes(19) + bytes([2]) + bytes(3)).flags
    <ContextFlags.MUTUAL: 2>
    """

    flags: ContextFlags
    bindings: bytes
    delegation: bytes | None
    extensions: bytes

    @classmethod
    def read(cls, checksum: Bytes) -> Context:
        """Read the bytes of a checksum of type 0x8003. Check the type first, as `Accepted.context` does: this call
        can't. Bytes that aren't such a checksum raise Fault.

        >>> from fevstunik import Context
        >>> Context.read(bytes([16]) + bytes(22))
        Traceback (most recent call last):
            ...
        fevstunik.Fault: CONTEXT_TRUNCATED: the checksum of type 0x8003 is cut off
        """
        checksum = octets(checksum)
        found, data = read(_interface.Context,
                           lambda *into: library().call("context_read", checksum, len(checksum), *into))
        delegation = found.delegation.of(data) if found.has_delegation else None
        return cls(ContextFlags(found.flags), found.bindings.of(data), delegation, found.extensions.of(data))

    def is_bound_to(self, application_data: Bytes) -> bool:
        """Return whether the client's channel is the one with these bindings, such as ``b"tls-server-end-point:" +
        hash``.

        They have no addresses (RFC 4121, section 4.1.1.2; RFC 5929).

        >>> from fevstunik import Context, ContextFlags
        >>> Context(ContextFlags(0), bytes(16), None, b"").is_bound_to(b"tls-server-end-point:")
        False
        """
        return hmac.compare_digest(bindings_of(application_data), self.bindings)
