"""Files that may change while the service runs: the keytab, certificates, and the key of sessions."""
from __future__ import annotations

import errno
import os
import ssl
import stat
import tempfile
import time
from collections.abc import Iterable
from typing import Union

from .._bindings import tls_server_end_point
from .._files import LIMIT, Keytab, kvnos_of
from .._tokens import bindings_of
from .._values import Key, check_name
from ._users import realm_of

Path = Union[str, "os.PathLike[str]"]
# Files are looked at no more often than this, in seconds.
_PAUSE = 1.0
_KEY_SIZE, _KEY_TYPE = 32, 20
_TYPES = (19, 20)
# How many keys a text names.
_LISTED = 8
# Where systemd puts the files that it hands over to a service (LoadCredential).
_HANDED_OVER = "CREDENTIALS_DIRECTORY"


class Watched:
    """A file, which is looked at once a second at most."""

    def __init__(self, path: Path) -> None:
        self.path = os.fspath(path)
        self._seen: tuple[int, ...] | None = None
        self._looked, self._is_readable = -_PAUSE, True

    def is_due(self) -> bool:
        """Whether it is a second since the file was looked at."""
        return time.monotonic() >= self._looked + _PAUSE

    def changed(self, at_once: bool = False) -> bytes | None:
        """The file's bytes, if it isn't the one that was read last. A file that can't be read raises OSError, once; the
        next looks try again."""
        if not at_once and not self.is_due():
            return None
        self._looked = time.monotonic()
        try:
            it = os.stat(self.path)
            seen = (it.st_dev, it.st_ino, it.st_size, it.st_mtime_ns, it.st_ctime_ns)
            # (to open a pipe may take for ever)
            if not stat.S_ISREG(it.st_mode):
                raise OSError(errno.EINVAL, "it isn't a regular file")
            data = None if seen == self._seen else content(self.path)
        except OSError:
            was_readable, self._is_readable = self._is_readable, False
            if was_readable:
                raise
            return None
        self._seen, self._is_readable = seen, True
        return data

    def read_again(self) -> None:
        """Have the next look read the file: memory ran out for what was made of it."""
        self._seen = None


def content(path: str) -> bytes:
    with open(path, "rb") as file:
        return file.read(LIMIT + 1)


def keytab_for(data: bytes, service: str | None) -> Keytab:
    """The keytab, if it has a key that is used for the service. Otherwise a ValueError or a Fault says why not."""
    keytab = Keytab(data)
    held = kvnos_of(keytab)
    if not any(etype in _TYPES and service in (None, name) for name, etype in held):
        if service is not None:
            check_name(service)
        raise ValueError(f"the keytab has no key of type 19 or 20{'' if service is None else f' for {service}'}; "
                         f"{_has(held)}")
    return keytab


def _has(held: Iterable[tuple[str, int]]) -> str:
    """What a keytab has, for who has made it."""
    named = [f"type {etype} for {name}" for name, etype in sorted(held)]
    if not named:
        return "it is empty"
    return f"it has {', '.join(named[:_LISTED])}{', ..' if len(named) > _LISTED else ''}"


def realms_of(data: bytes, service: str | None) -> list[str]:
    """The realms of the names that are served."""
    names = [service] if service is not None else sorted({name for name, _ in kvnos_of(Keytab(data))})
    return [realm_of(it) for it in names]


class Certificates:
    """The certificates of a TLS server: a client's channel may have any of them. `known` has their hashes so far."""

    def __init__(self, paths: Iterable[Path]) -> None:
        self._files = [Watched(it) for it in paths]
        self.known = [hash_of(content(it.path), it.path) for it in self._files]
        for it in self._files:
            it.changed()

    def hashes(self) -> list[bytes]:
        """The hashes of the bindings, as clients send them (RFC 4121, section 4.1.1.2). A file that can't be read
        raises OSError or ValueError, and what was read of it before is kept."""
        for index, file in enumerate(self._files):
            data = file.changed()
            if data is not None:
                self.known[index] = hash_of(data, file.path)
        return self.known


def hash_of(data: bytes, path: str) -> bytes:
    """The hash of the bindings `tls-server-end-point` of the first certificate in a PEM file."""
    begin, end = b"-----BEGIN CERTIFICATE-----", b"-----END CERTIFICATE-----"
    first, ended, _ = data.partition(begin)[2].partition(end)
    if not first or not ended:
        raise ValueError(f"{path} has no certificate in PEM")
    return bindings_of(tls_server_end_point(ssl.PEM_cert_to_DER_cert((begin + first + end).decode("ascii", "replace"))))


def place_of(name: str, folder: str) -> str:
    """The path of a file that a configuration in a folder names: one that systemd hands over, or else in that
    folder."""
    path = os.path.join(os.environ.get(_HANDED_OVER, folder), name)
    return path if os.path.exists(path) else os.path.join(folder, name)


def session_key(path: str) -> Key:
    """The key in a file, which is made if it isn't there, but not among what systemd hands over. A file that others may
    read raises ValueError."""
    is_handed_over = os.path.dirname(os.path.abspath(path)) == os.environ.get(_HANDED_OVER)
    if not is_handed_over and not os.path.lexists(path):
        _make_key(path)
    with open(path, "rb") as file:
        found = os.fstat(file.fileno())
        data = file.read(_KEY_SIZE + 1)
    # (systemd lets the service's user read by a list of access, which the mode shows as a right of the group)
    others = 0o037 if is_handed_over else 0o077
    if not stat.S_ISREG(found.st_mode) or found.st_mode & others or found.st_uid not in (0, os.geteuid()):
        raise ValueError(f"{path} has to be a file that only its owner may read: chmod 600 {path}")
    if len(data) != _KEY_SIZE:
        raise ValueError(f"{path} has to have {_KEY_SIZE} random bytes")
    return Key(_KEY_TYPE, data)


def _make_key(path: str) -> None:
    """Make the file whole or not at all, also if the power fails. Of several processes that do so at once, one makes
    it."""
    with tempfile.NamedTemporaryFile(dir=os.path.dirname(os.path.abspath(path))) as file:
        file.write(os.urandom(_KEY_SIZE))
        file.flush()
        os.fsync(file.fileno())
        try:
            os.link(file.name, path)
        except FileExistsError:
            pass
