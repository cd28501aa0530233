"""The exceptions."""
from __future__ import annotations

from ._codes import Code


class Error(Exception):
    """An answer of the library other than success.

    code      the code of the answer
    name      its name, as ``"REPEAT"``
    kerberos  the error code of RFC 4120, section 7.5.9, that belongs to it, or 0
    offset    the place of a fault, in bytes from the start of the argument, or 0 if the fault has no place

    >>> from fevstunik import Error, check_name
    >>> try:
    ...     check_name("host/web")
    ... except Error as error:
    ...     print(error.name, error.code.value, error.kerberos, error.offset)
    NO_REALM 811 0 0
    """

    def __init__(self, code: int, kerberos: int = 0, offset: int = 0) -> None:
        super().__init__(code, kerberos, offset)
        self.code = Code(code)
        self.name = self.code.name
        self.kerberos = kerberos
        self.offset = offset
        # what to do, if that is known where the fault is raised
        self.hint = ""

    def __str__(self) -> str:
        place = f", at {self.offset}" if self.offset else ""
        hint = f": {self.hint}" if self.hint else ""
        return f"{self.name}: {self.code.text}{place}{hint}"


class Fault(Error):
    """A file, a name, a key, a number, a reply, a token or a checksum is invalid, or there is no ticket for a request.

    >>> from fevstunik import Fault, Keytab
    >>> try:
    ...     Keytab(bytes.fromhex("0502 00000005 00"))
    ... except Fault as fault:
    ...     print(fault.name, fault.code.value, fault.offset)
    FILE_TRUNCATED 502 2
    """


class LibraryError(OSError):
    """The shared library can't be loaded, or lacks a function that this package calls.

    >>> import fevstunik
    >>> fevstunik.load("/nowhere/libfevstunik.so.0")
    Traceback (most recent call last):
        ...
    fevstunik.LibraryError: the shared library /nowhere/libfevstunik.so.0 can't be loaded: ...
    """


class StoreFailed(Exception):
    """The store doesn't say in time whether a stamp is new. It may have added the stamp.

    A service then lets nobody in: it refuses the client with STORE_FAILED, and the client may try again with a new
    request.

    >>> from fevstunik.stores import StoreFailed
    >>> print(StoreFailed("no answer in 2 seconds"))
    no answer in 2 seconds
    """


class UnsafeStore(StoreFailed):
    """A store isn't set up as its promise needs, so a request could be let in twice.

    name  the setting that is wrong, as ``"appendfsync"``

    >>> from fevstunik.stores import UnsafeStore
    >>> print(UnsafeStore("appendfsync", "it is everysec, and has to be always"))
    appendfsync: it is everysec, and has to be always
    """

    def __init__(self, name: str, why: str) -> None:
        super().__init__(name, why)
        self.name, self.why = name, why

    def __str__(self) -> str:
        return f"{self.name}: {self.why}"
