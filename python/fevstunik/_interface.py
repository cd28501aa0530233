# Made from crates/krb_c/interface.toml by `make generate`. Don't edit this file.
"""The structs and the functions of the shared library, for ctypes."""
from __future__ import annotations

import ctypes
from ctypes import POINTER, c_bool, c_char_p, c_int16, c_int32, c_int64, c_size_t, c_uint8, c_uint16, c_uint32, c_uint64, c_void_p
from typing import Any

# The version of the library that this is for.
VERSION = (0, 2, 0)


class Opaque(ctypes.Structure):
    """A handle: made all zero, as the library asks, and never copied."""
    _fields_ = [("opaque", c_void_p)]


class LoginHandle(ctypes.Structure):
    """A handle that has another one as its first member."""
    _fields_ = [("accepted", Opaque), ("opaque", c_void_p)]
    accepted: Opaque


class Answer(ctypes.Structure):
    _fields_ = [
        ("code", c_uint32),
        ("kerberos", c_int32),
        ("at", c_size_t),
        ("size", c_size_t),
    ]
    code: int
    kerberos: int
    at: int
    size: int


class Time(ctypes.Structure):
    _fields_ = [
        ("seconds", c_int64),
        ("micros", c_uint32),
    ]
    seconds: int
    micros: int


class Span(ctypes.Structure):
    _fields_ = [
        ("at", c_size_t),
        ("size", c_size_t),
    ]
    at: int
    size: int

    def of(self, data: bytes) -> bytes:
        return data[self.at:self.at + self.size]

    def text(self, data: bytes) -> str:
        return self.of(data).decode()


class Known(ctypes.Structure):
    _fields_ = [
        ("client", Span),
        ("session_key", Span),
        ("subkey", Span),
        ("service", Span),
        ("authtime", c_int64),
        ("endtime", c_int64),
        ("ctime", c_int64),
        ("cusec", c_uint32),
        ("flags", c_uint32),
        ("seq", c_uint32),
        ("name_type", c_int32),
        ("service_type", c_int32),
        ("session_type", c_int32),
        ("subkey_type", c_int32),
        ("has_subkey", c_bool),
        ("has_seq", c_bool),
        ("wants_reply", c_bool),
    ]
    client: Span
    session_key: Span
    subkey: Span
    service: Span
    authtime: int
    endtime: int
    ctime: int
    cusec: int
    flags: int
    seq: int
    name_type: int
    service_type: int
    session_type: int
    subkey_type: int
    has_subkey: bool
    has_seq: bool
    wants_reply: bool


class Agreement(ctypes.Structure):
    _fields_ = [
        ("client", Span),
        ("session_key", Span),
        ("service_subkey", Span),
        ("service_seq", c_uint32),
        ("name_type", c_int32),
        ("session_type", c_int32),
        ("service_subkey_type", c_int32),
        ("has_service_subkey", c_bool),
        ("has_service_seq", c_bool),
    ]
    client: Span
    session_key: Span
    service_subkey: Span
    service_seq: int
    name_type: int
    session_type: int
    service_subkey_type: int
    has_service_subkey: bool
    has_service_seq: bool


class Choice(ctypes.Structure):
    _fields_ = [
        ("subkey_type", c_int32),
        ("seq", c_uint32),
        ("has_seq", c_bool),
        ("wants_reply", c_bool),
    ]
    subkey_type: int
    seq: int
    has_seq: bool
    wants_reply: bool


class KeyEntry(ctypes.Structure):
    _fields_ = [
        ("name", Span),
        ("key", Span),
        ("timestamp", c_uint32),
        ("kvno", c_uint32),
        ("name_type", c_int32),
        ("key_type", c_int16),
    ]
    name: Span
    key: Span
    timestamp: int
    kvno: int
    name_type: int
    key_type: int


class KeyParts(ctypes.Structure):
    _fields_ = [
        ("timestamp", c_uint32),
        ("kvno", c_uint32),
        ("name_type", c_int32),
        ("key_type", c_int16),
    ]
    timestamp: int
    kvno: int
    name_type: int
    key_type: int


class CacheEntry(ctypes.Structure):
    _fields_ = [
        ("client", Span),
        ("server", Span),
        ("key", Span),
        ("ticket", Span),
        ("authtime", c_uint32),
        ("starttime", c_uint32),
        ("endtime", c_uint32),
        ("renew_till", c_uint32),
        ("flags", c_uint32),
        ("client_type", c_int32),
        ("server_type", c_int32),
        ("key_type", c_int16),
        ("is_skey", c_bool),
    ]
    client: Span
    server: Span
    key: Span
    ticket: Span
    authtime: int
    starttime: int
    endtime: int
    renew_till: int
    flags: int
    client_type: int
    server_type: int
    key_type: int
    is_skey: bool


class Owner(ctypes.Structure):
    _fields_ = [
        ("name", Span),
        ("name_type", c_int32),
        ("offset_seconds", c_int32),
        ("offset_micros", c_int32),
        ("has_offset", c_bool),
    ]
    name: Span
    name_type: int
    offset_seconds: int
    offset_micros: int
    has_offset: bool


class Wrapped(ctypes.Structure):
    _fields_ = [
        ("mechanism", c_uint32),
        ("negotiated", c_uint32),
    ]
    mechanism: int
    negotiated: int


class Negotiation(ctypes.Structure):
    _fields_ = [
        ("stage", c_uint32),
        ("asked", c_uint32),
    ]
    stage: int
    asked: int


class Verdict(ctypes.Structure):
    _fields_ = [
        ("says", c_uint32),
        ("mechanism", c_uint32),
    ]
    says: int
    mechanism: int


class KrbError(ctypes.Structure):
    _fields_ = [
        ("service", Span),
        ("client", Span),
        ("text", Span),
        ("data", Span),
        ("stime", Time),
        ("ctime", Time),
        ("code", c_int32),
        ("service_type", c_int32),
        ("has_client", c_bool),
        ("has_text", c_bool),
        ("has_data", c_bool),
        ("has_ctime", c_bool),
    ]
    service: Span
    client: Span
    text: Span
    data: Span
    stime: Time
    ctime: Time
    code: int
    service_type: int
    has_client: bool
    has_text: bool
    has_data: bool
    has_ctime: bool


class Context(ctypes.Structure):
    _fields_ = [
        ("bindings", Span),
        ("delegation", Span),
        ("extensions", Span),
        ("flags", c_uint32),
        ("has_delegation", c_bool),
    ]
    bindings: Span
    delegation: Span
    extensions: Span
    flags: int
    has_delegation: bool


class ContextChoice(ctypes.Structure):
    _fields_ = [
        ("flags", c_uint32),
        ("bindings", c_uint8 * 16),
    ]
    flags: int


class AcceptorOptions(ctypes.Structure):
    _fields_ = [
        ("size", c_size_t),
        ("started", Time),
        ("skew", c_uint32),
        ("restarts", c_uint32),
        ("any_name", c_bool),
        ("any_start", c_bool),
        ("limit", c_size_t),
        ("limit_for_client", c_size_t),
        ("bindings", c_uint32),
        ("subkey_type", c_uint32),
        ("bindings_hash", c_uint8 * 16),
        ("anonymous", c_bool),
        ("only_realms", c_bool),
    ]
    size: int
    started: Time
    skew: int
    restarts: int
    any_name: bool
    any_start: bool
    limit: int
    limit_for_client: int
    bindings: int
    subkey_type: int
    anonymous: bool
    only_realms: bool


class Asked(ctypes.Structure):
    _fields_ = [
        ("service", Span),
        ("etype", c_int32),
        ("kvno", c_uint32),
        ("service_type", c_int32),
        ("has_kvno", c_bool),
        ("wants_reply", c_bool),
    ]
    service: Span
    etype: int
    kvno: int
    service_type: int
    has_kvno: bool
    wants_reply: bool


class Usage(ctypes.Structure):
    _fields_ = [
        ("remembered", c_size_t),
        ("held", c_size_t),
        ("bytes", c_size_t),
        ("limit", c_size_t),
        ("limit_for_client", c_size_t),
        ("full", c_size_t),
    ]
    remembered: int
    held: int
    bytes: int
    limit: int
    limit_for_client: int
    full: int


class MessageOptions(ctypes.Structure):
    _fields_ = [
        ("role", c_uint32),
        ("session_type", c_int32),
        ("client_subkey_type", c_int32),
        ("service_subkey_type", c_int32),
        ("client_seq", c_uint32),
        ("service_seq", c_uint32),
        ("rotation", c_uint16),
        ("any_order", c_bool),
        ("repeats", c_bool),
    ]
    role: int
    session_type: int
    client_subkey_type: int
    service_subkey_type: int
    client_seq: int
    service_seq: int
    rotation: int
    any_order: bool
    repeats: bool


class Received(ctypes.Structure):
    _fields_ = [
        ("number", c_uint64),
        ("text", Span),
        ("order", c_uint32),
        ("sealed", c_bool),
    ]
    number: int
    text: Span
    order: int
    sealed: bool


HANDLE, DATA, INTO = POINTER(Opaque), (c_char_p, c_size_t), (c_void_p, c_size_t)
# What each function returns and takes, by its name without ``fevstunik_``; after it, what of the package calls it.
FUNCTIONS: dict[str, tuple[Any, tuple[Any, ...]]] = {
    "version": (c_uint32, ()),  # version
    "keytab_check": (Answer, (*DATA,)),  # Keytab
    "cache_check": (Answer, (*DATA,)),  # CredentialCache
    "keytab_new": (Answer, (HANDLE, *DATA)),  # Keytab
    "keytab_entry": (Answer, (HANDLE, c_size_t, POINTER(KeyEntry), *INTO)),  # Keytab.entries
    "keytab_free": (None, (HANDLE,)),  # Keytab
    "cache_new": (Answer, (HANDLE, *DATA)),  # CredentialCache
    "cache_credential": (Answer, (HANDLE, c_size_t, POINTER(CacheEntry), *INTO)),  # CredentialCache.credentials
    "cache_owner": (Answer, (HANDLE, POINTER(Owner), *INTO)),  # CredentialCache.owner
    "cache_free": (None, (HANDLE,)),  # CredentialCache.close
    "keytab_add": (Answer, (*DATA, *DATA, *DATA, POINTER(KeyParts), *INTO)),  # Keytab.added
    "keytab_remove": (Answer, (*DATA, c_size_t, *INTO)),  # Keytab.removed
    "keytab_write": (Answer, (*DATA, *INTO)),  # Keytab.compacted
    "name_check": (Answer, (*DATA,)),  # check_name
    "acceptor_new": (Answer, (HANDLE, *DATA, *DATA, POINTER(AcceptorOptions))),  # Acceptor
    "acceptor_replace_keytab": (Answer, (HANDLE, *DATA, *DATA, c_bool)),  # Acceptor.replace_keytab
    "accepted_new": (Answer, (HANDLE,)),  # Acceptor.accept
    "acceptor_accept": (Answer, (HANDLE, HANDLE, *DATA, POINTER(Time))),  # Acceptor.accept
    "accepted_known": (Answer, (HANDLE, POINTER(Known), *INTO)),  # Acceptor.accept
    "accepted_stamp": (Answer, (HANDLE, c_uint32, POINTER(Time), *INTO)),  # Accepted.stamp
    "accepted_start": (Answer, (HANDLE, POINTER(Time))),  # Accepted.starttime
    "accepted_sent": (Answer, (HANDLE,)),  # Login.messages
    "accepted_count": (Answer, (HANDLE, c_uint32)),  # Accepted.addresses
    "accepted_item": (Answer, (HANDLE, c_uint32, c_size_t, POINTER(c_int32), *INTO)),  # Accepted.addresses
    "accepted_reply": (Answer, (HANDLE, *DATA, POINTER(Choice), *DATA, *INTO)),  # Accepted.reply
    "accepted_free": (None, (HANDLE,)),  # Accepted.close
    "error": (Answer, (c_uint32, *DATA, c_int32, POINTER(Time), *INTO)),  # Refused.error
    "acceptor_count": (c_size_t, (HANDLE,)),  # Acceptor.remembered
    "acceptor_usage": (Answer, (HANDLE, POINTER(Usage))),  # Acceptor.usage
    "acceptor_latest": (Answer, (HANDLE, POINTER(Time))),  # Acceptor.latest
    "acceptor_add_realm": (Answer, (HANDLE, *DATA)),  # Service
    "acceptor_replace_bindings": (Answer, (HANDLE, c_uint32, *DATA)),  # Service.replace_bindings
    "acceptor_free": (None, (HANDLE,)),  # Acceptor.close
    "service_answer": (Answer, (HANDLE, POINTER(LoginHandle), *DATA, POINTER(Time), *DATA, *INTO)),  # Service.answer
    "login_answer": (Answer, (POINTER(LoginHandle), *INTO)),  # Service.answer
    "login_stamp": (Answer, (POINTER(LoginHandle), POINTER(Time), *INTO)),  # Service.answer
    "login_settle": (Answer, (POINTER(LoginHandle), c_uint32, POINTER(Time), *INTO)),  # Service.answer
    "login_asked": (Answer, (POINTER(LoginHandle), POINTER(Asked), *INTO)),  # Refused.asked
    "login_free": (None, (POINTER(LoginHandle),)),  # Service.answer
    "request_asks": (Answer, (*DATA, POINTER(Asked), *INTO)),  # asked_by
    "request": (Answer, (HANDLE, HANDLE, *DATA, POINTER(Time), *DATA, POINTER(Choice), *DATA, *INTO)),  # make_request
    "context_request": (Answer, (HANDLE, HANDLE, *DATA, POINTER(Time), *DATA, POINTER(Choice), *DATA, POINTER(ContextChoice), *INTO)),  # make_request
    "finish": (Answer, (HANDLE, *DATA, POINTER(Agreement), *INTO)),  # Pending.finish
    "pending_free": (None, (HANDLE,)),  # Pending.close
    "seal": (Answer, (c_int32, *DATA, c_uint32, *DATA, *DATA, *INTO)),  # Key.seal
    "open": (Answer, (c_int32, *DATA, c_uint32, *DATA, *INTO)),  # Key.open
    "checksum": (Answer, (c_int32, *DATA, c_uint32, *DATA, *INTO)),  # Key.checksum
    "checksum_check": (Answer, (c_int32, *DATA, c_uint32, *DATA, *DATA)),  # Key.verify
    "token_open": (Answer, (*DATA, POINTER(Wrapped), *INTO)),  # Token.open
    "token_request": (Answer, (POINTER(Wrapped), *DATA, *INTO)),  # wrap_request
    "token_reply": (Answer, (POINTER(Wrapped), *DATA, *INTO)),  # Token.reply
    "token_error": (Answer, (POINTER(Wrapped), *DATA, *INTO)),  # Token.error
    "token_answer": (Answer, (*DATA, POINTER(c_bool), *INTO)),  # open_answer
    "negotiation_take": (Answer, (POINTER(Negotiation), *DATA, POINTER(Wrapped), *INTO)),  # Negotiation.take
    "krb_error_read": (Answer, (*DATA, POINTER(KrbError), *INTO)),  # KrbError.read
    "verdict_token": (Answer, (POINTER(Verdict), *INTO)),  # Verdict.token
    "verdict_read": (Answer, (*DATA, POINTER(Verdict))),  # read_verdict
    "context_read": (Answer, (*DATA, POINTER(Context), *INTO)),  # Context.read
    "messages_new": (Answer, (HANDLE, POINTER(MessageOptions), *DATA, *DATA, *DATA)),  # Messages
    "messages_after_list": (Answer, (HANDLE, POINTER(MessageOptions), *DATA, *DATA, *DATA)),  # Messages
    "messages_mic": (Answer, (HANDLE, *DATA, *INTO)),  # Messages.mic
    "messages_verify": (Answer, (HANDLE, *DATA, *DATA, POINTER(Received))),  # Messages.verify_mic
    "messages_wrap": (Answer, (HANDLE, c_bool, *DATA, *DATA, *INTO)),  # Messages.wrap
    "messages_unwrap": (Answer, (HANDLE, *INTO, POINTER(Received))),  # Messages.unwrap
    "messages_limit": (Answer, (HANDLE, c_bool, c_size_t)),  # Messages.limit
    "messages_free": (None, (HANDLE,)),  # Messages.close
}
