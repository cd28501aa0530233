"""Where the file of a store may be: in the folder of the service's user, on a file system of this machine."""
from __future__ import annotations

import contextlib
import fcntl
import os
import re
import stat
import time
from collections.abc import Callable, Iterator
from pathlib import Path

from .._errors import UnsafeStore

# What a process has written to a file of these stays if the process is killed, and locks are seen by all processes.
_LOCAL = {"tmpfs", "ramfs", "ext2", "ext3", "ext4", "xfs", "btrfs", "f2fs", "zfs", "bcachefs", "jfs", "overlay"}
_OTHERS_WRITE = stat.S_IWGRP | stat.S_IWOTH
_MOUNTED, _OCTAL = Path("/proc/self/mountinfo"), re.compile(rb"\\([0-7]{3})")


def check_folder(folder: Path) -> None:
    """Raise UnsafeStore if others may write to a folder, or rename it, or if it is on another machine."""
    for it in (folder, *folder.parents):
        found = it.stat()
        # (who may write to a folder with the sticky bit, as /tmp, can't rename what others have there)
        if found.st_mode & _OTHERS_WRITE and (it == folder or not found.st_mode & stat.S_ISVTX):
            raise UnsafeStore("folder", f"others than its owner may write to {it}")
        if found.st_uid not in (0, os.geteuid()):
            raise UnsafeStore("folder", f"{it} belongs to another user")
    kind = _file_system(folder)
    if kind not in _LOCAL:
        raise UnsafeStore("file system", f"{folder} is on {kind}, which isn't known to be on this machine")


def check_file(path: Path) -> None:
    """Raise UnsafeStore if a file isn't its owner's alone."""
    found = path.lstat()
    if not stat.S_ISREG(found.st_mode) or found.st_uid != os.geteuid() or stat.S_IMODE(found.st_mode) != 0o600:
        raise UnsafeStore("mode", f"{path} isn't a file of this user with the mode 0600")


def _file_system(folder: Path) -> str:
    """The type of the file system that a folder is on (proc(5), mountinfo)."""
    best, kind = -1, "an unknown file system"
    # (a path has any bytes; the file has spaces, tabs, ends of lines and backslashes in octal)
    for line in _MOUNTED.read_bytes().rstrip(b"\n").split(b"\n"):
        front, _, back = line.partition(b" - ")
        point = Path(os.fsdecode(_OCTAL.sub(lambda it: bytes([int(it[1], 8)]), front.split(b" ")[4])))
        # (of two at one place, the later one covers the other)
        if (folder == point or point in folder.parents) and len(point.parts) >= best:
            best, kind = len(point.parts), back.split(b" ")[0].decode("ascii", "replace")
    return kind


@contextlib.contextmanager
def locked(folder: Path, last: float, no_answer: Callable[[], Exception]) -> Iterator[None]:
    """One process at a time, of those that lock this folder; not later than this moment of the monotonic clock."""
    opened = os.open(folder, os.O_RDONLY | os.O_DIRECTORY | os.O_CLOEXEC)
    try:
        while True:
            try:
                fcntl.flock(opened, fcntl.LOCK_EX | fcntl.LOCK_NB)
                break
            except BlockingIOError:
                if time.monotonic() > last:
                    raise no_answer() from None
                time.sleep(0.001)
        try:
            yield
        finally:
            # (a child that another thread has forked meanwhile has the lock, too)
            fcntl.flock(opened, fcntl.LOCK_UN)
    finally:
        os.close(opened)
