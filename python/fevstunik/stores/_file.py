"""A store in a file to which records are appended, for the processes of one machine.

The system appends one record at a time. So the order of the file is the same for all processes, and of equal stamps the
first is the new one: nobody waits for another. A process appends its stamp, and reads on up to it what others have
appended; what it has read, it keeps in memory.

When a file has grown, a process closes it by a record of its own, and makes the next one of what is to be kept. What is
appended to a file after it was closed doesn't count: who finds that goes on with the next file, which has the same
name.
"""
from __future__ import annotations

import os
import struct
import threading
import time
from array import array
from collections.abc import Callable
from contextlib import suppress
from hashlib import sha256
from pathlib import Path

from .._errors import StoreFailed
from .._library import Secret, here
from .._values import Moment
from ._folder import locked
from ._place import Place
from ._store import SECONDS, Made, clock, made_again, micros, moment_of, no_answer, seconds_of, skew_of

# What a file begins with: what it is, when the store was made and for which skew, up to which time stamps were
# forgotten, and the boot. What was written before a process was killed is in the page cache: so nothing is synced, and
# a file is used within one boot alone.
_HEAD, _MAGIC = struct.Struct("=16sqqq64s24x"), b"fevstunik stamps"
# A stamp: its hash, until when it is kept, and a number that tells it from equal ones: a process counts from a random
# one. A page of the system has a whole number of records, so none is ever written in part.
_SIZE, _KEY, _REST, _NUMBERS = 32, 16, struct.Struct("=qQ"), 1 << 64
_CLOSED = b"closed".ljust(_SIZE)
# So much is read at once, and kept or forgotten as a whole. A file is closed when it is so large, and twice as large as
# at first.
_PART, _LARGE = 2048 * _SIZE, 1 << 20


class _Opened:
    """A file that has or had the store's name, and what of it was read so far."""

    def __init__(self, place: Place) -> None:
        self._place, self.path = place, str(place.path)
        try:
            place.check_file()
            # (it is closed when it is no longer used)
            self._raw = open(self.path, "r+b", buffering=0, opener=_appending)
        except FileNotFoundError:
            raise self.removed() from None
        self._file = self._raw.fileno()
        self._is = _identity(os.fstat(self._file))
        head = os.pread(self._file, _HEAD.size, 0)
        if len(head) != _HEAD.size or not head.startswith(_MAGIC):
            raise StoreFailed(f"{self.path} is no store of this kind: stop the services that use it, remove it, and "
                              f"start them")
        _, made, largest_skew, self._forgotten, boot = _HEAD.unpack(head)
        if boot.rstrip(b"\0") != place.boot.encode():
            raise StoreFailed(f"{self.path} is of another boot")
        self.made = Made(made, largest_skew)
        self._seen, self._number = set[bytes](), int.from_bytes(os.urandom(8), "big")
        self._at, self.is_closed = _HEAD.size, False
        self.read_all()
        self._large = max(_LARGE, 2 * self._at)

    @property
    def is_large(self) -> bool:
        return self._at >= self._large

    def add(self, key: bytes, until: int) -> bool | None:
        """Append a stamp, and return whether it is the first one of its hash; or None, if the file was closed
        before."""
        if until <= self._forgotten:
            raise StoreFailed("the clock was set back, so the stamp may have been forgotten")
        if key in self._seen:
            return False
        self._number = (self._number + 1) % _NUMBERS
        own = key + _REST.pack(until, self._number)
        if os.write(self._file, own) != _SIZE:
            raise StoreFailed(f"{self.path} is full")
        return self._read_up_to(own)

    def _read_up_to(self, own: bytes) -> bool | None:
        # (a place is passed by once all before it is kept: memory may run out)
        seen = self._seen
        while part := self._part():
            for at in range(0, len(part), _SIZE):
                record = part[at:at + _SIZE]
                key = record[:_KEY]
                if record == own:
                    is_new = key not in seen
                    seen.add(key)
                    self._at += at + _SIZE
                    return is_new
                if record == _CLOSED:
                    self._at += at
                    self.is_closed = True
                    return None
                seen.add(key)
            self._at += len(part)
        raise StoreFailed(f"{self.path} has lost what was written to it: stop the services that use it, remove it, and "
                          f"start them")

    def read_all(self) -> None:
        """Read all that there is now, or all up to where the file was closed."""
        while not self.is_closed and (part := self._part()):
            records = [part[at:at + _SIZE] for at in range(0, len(part), _SIZE)]
            end = records.index(_CLOSED) if _CLOSED in records else len(records)
            self._seen.update(it[:_KEY] for it in records[:end])
            self._at += end * _SIZE
            self.is_closed = end < len(records)

    def _part(self) -> bytes:
        """The next records, or none if there are no more."""
        part = os.pread(self._file, _PART, self._at)
        if len(part) % _SIZE:
            raise StoreFailed(f"{self.path} is damaged: stop the services that use it, remove it, and start them")
        return part

    def has_name(self) -> bool:
        """Whether this file still has the store's name."""
        try:
            return self._is == _identity(os.stat(self.path))
        except FileNotFoundError:
            raise self.removed() from None

    def removed(self) -> StoreFailed:
        return StoreFailed(f"{self.path} was removed: start the services that use it again")

    def replace(self) -> None:
        """Close the file, and put the next one in its place. (If this process is killed in between, another one does
        it.) Whoever calls it has locked the folder."""
        self.read_all()
        if not self.is_closed:
            os.write(self._file, _CLOSED)
            self.read_all()
        self._place.put(self._write_next)

    def _write_next(self, new: Path) -> None:
        """Write a file of what isn't old."""
        now, forgotten, kept = clock(), self._forgotten, []
        for at in range(_HEAD.size, self._at, _PART):
            part = os.pread(self._file, min(_PART, self._at - at), at)
            latest = max(array("q", part)[_KEY // 8::_SIZE // 8])
            if latest < now:
                forgotten = max(forgotten, latest)
            else:
                kept.append(part)
        new.write_bytes(_head(self.made, forgotten, self._place.boot) + b"".join(kept))


def _head(made: Made, forgotten: int, boot: str) -> bytes:
    return _HEAD.pack(_MAGIC, made.at, made.largest_skew, forgotten, boot.encode())


def _appending(path: str, flags: int) -> int:
    return os.open(path, flags | os.O_APPEND | os.O_CLOEXEC)


def _identity(found: os.stat_result) -> tuple[int, int]:
    return found.st_dev, found.st_ino


class _NotNow(Exception):
    """Another process has locked the folder."""


class _Reader:
    """The store as a process has it open. One call is in it at a time."""

    def __init__(self, place: Place, seconds: float) -> None:
        self.lock = threading.Lock()
        self._place, self._seconds, self._file = place, seconds, _Opened(place)
        self.made = self._file.made

    def add(self, key: bytes, until: int, last: float) -> bool:
        is_new = self._file.add(key, until)
        while is_new is None:
            self._follow(last)
            is_new = self._file.add(key, until)
        # (after the stamp was added: a store that is made from now on is of a later moment than the request)
        if not self._file.has_name():
            self._file.read_all()
            if not self._file.is_closed:
                raise self._file.removed()
            self._follow(last)
        elif self._file.is_large:
            with suppress(_NotNow):
                self._follow(0.0, _NotNow)
        return is_new

    def _follow(self, last: float, late: Callable[[], Exception] | None = None) -> None:
        """Go on with the next file, which is made now unless another process has done that."""
        if self._file.has_name():
            with locked(self._place.folder, last, late or self._no_answer):
                if self._file.has_name():
                    self._file.replace()
        found = _Opened(self._place)
        if found.made != self.made:
            raise made_again()
        self._file = found

    def _no_answer(self) -> Exception:
        return no_answer(self._seconds)


class File(Secret):
    """A store in a file, for all processes of one machine.

    path          the file, as ``"/run/web/stamps"``; the name of the machine's boot is put after it. Its folder is the
                  service's user's
    largest_skew  the largest skew of the services that use it, in seconds; 300 if this is left out, and the file is new
    seconds       how long to wait for an answer: then StoreFailed is raised
    boot          the name of the machine's boot: by default /proc/sys/kernel/random/boot_id
    unchecked     True if the file's place and mode aren't to be looked at

    The first process of a boot makes the file, and removes those of earlier boots. So clients are refused with
    JUST_STARTED for the skew after each boot, and never after a service was started again. What a killed process has
    added stays. Nothing is synced: a file of another boot may lack stamps, and isn't used. If the file is removed, the
    services that use it let nobody in until they are started again. Each process keeps in memory the hashes of the
    stamps, about 100 bytes each.

    Raises UnsafeStore if others may write to the folder or read the file, if the file system isn't known to be on this
    machine, or if the file was made with another largest skew.

    >>> import tempfile
    >>> from fevstunik import Moment
    >>> store = File(tempfile.mkdtemp() + "/stamps")
    >>> store.add(b"a stamp", Moment(2_000_000_000)), store.add(b"a stamp", Moment(2_000_000_000))
    (True, False)
    >>> store.largest_skew, store.remembers_from <= Moment.now()
    (300, True)
    """

    def __init__(self, path: str | os.PathLike[str], largest_skew: int | None = None, *, seconds: float = SECONDS,
                 boot: str | None = None, unchecked: bool = False) -> None:
        self._seconds, self._place = seconds_of(seconds), Place(path, boot, not unchecked)
        self.path, skew = self._place.path, skew_of(largest_skew)
        try:
            self._place.check_folder()
            self._place.make_if_lacking(lambda new: self._make(new, skew), self._seconds)
            reader = _Reader(self._place, self._seconds)
        except OSError as fault:
            raise StoreFailed(f"{self.path}: {fault}") from fault
        self._made = reader.made.for_skew(largest_skew)
        self._own: tuple[object, _Reader] | None = (here(), reader)

    @property
    def remembers_from(self) -> Moment:
        """The moment at which the store was made."""
        return moment_of(self._made.at)

    @property
    def largest_skew(self) -> int:
        """The largest skew of the services that use it, in seconds."""
        return self._made.largest_skew

    def add(self, stamp: bytes, keep_until: Moment) -> bool:
        """Add a stamp in one step, and return whether it is new. Raises StoreFailed if that isn't known in time."""
        last = time.monotonic() + self._seconds
        key, until = sha256(stamp).digest()[:_KEY], micros(keep_until)
        try:
            reader = self._reader()
            if not reader.lock.acquire(timeout=self._seconds):
                raise no_answer(self._seconds)
            try:
                is_new = reader.add(key, until, last)
            finally:
                reader.lock.release()
        except OSError as fault:
            raise StoreFailed(f"{self.path}: {fault}") from fault
        if time.monotonic() > last:
            raise no_answer(self._seconds)
        return is_new

    def close(self) -> None:
        """Close the file, and forget what was read of it. A later call opens it again."""
        self._own = None

    def _reader(self) -> _Reader:
        """The file as this process has it open. (In a child, the parent's may be in the midst of a call. If two threads
        open it at once, both readers are right.)"""
        own, process = self._own, here()
        if own is not None and own[0] == process:
            return own[1]
        reader = _Reader(self._place, self._seconds)
        if reader.made != self._made:
            raise made_again()
        self._own = process, reader
        return reader

    def _make(self, new: Path, largest_skew: int) -> None:
        """Write a file that has no stamps. The clock is read after it was seen that there is none."""
        new.write_bytes(_head(Made(clock(), largest_skew), 0, self._place.boot))
