"""What a store's file is called, and who makes it."""
from __future__ import annotations

import os
import re
import time
from collections.abc import Callable
from pathlib import Path

from ._folder import check_file, check_folder, locked
from ._store import no_answer

BOOT = Path("/proc/sys/kernel/random/boot_id")
# Names of a boot, and what SQLite puts after a file's name.
_NAME, _BESIDE = re.compile(r"[0-9A-Za-z-]{1,64}"), "(-wal|-shm|-journal)?"


class Place:
    """The file of a store: beside a path, with the name of the machine's boot after it."""

    def __init__(self, path: str | os.PathLike[str], boot: str | None, is_checked: bool) -> None:
        self.boot = BOOT.read_text().strip() if boot is None else boot
        if not _NAME.fullmatch(self.boot):
            raise ValueError(f"a boot is named by letters, digits and hyphens, not {self.boot!r}")
        if os.path.basename(os.fspath(path)) in ("", ".", ".."):
            raise ValueError(f"the path of a store is that of a file, not {os.fspath(path)!r}")
        given = Path(os.path.abspath(path))
        self.folder, self._name, self._checked = given.parent.resolve(), given.name, is_checked
        self.path = self.folder / f"{self._name}.boot-{self.boot}"

    def check_folder(self) -> None:
        if self._checked:
            check_folder(self.folder)

    def check_file(self) -> None:
        if self._checked:
            check_file(self.path)

    def make_if_lacking(self, make: Callable[[Path], None], seconds: float) -> None:
        """Have the file made, unless it is there. One process does that, and removes first what others have left."""
        if self.path.exists():
            return
        with locked(self.folder, time.monotonic() + seconds, lambda: no_answer(seconds)):
            if not self.path.exists():
                self._remove_others()
                self.put(make)

    def put(self, make: Callable[[Path], None]) -> None:
        """Have a file made under another name, and give it this one. Whoever calls it has locked the folder."""
        new = self.path.with_name(f"{self.path.name}.new")
        new.unlink(missing_ok=True)
        os.close(os.open(new, os.O_CREAT | os.O_EXCL | os.O_RDWR | os.O_CLOEXEC, 0o600))
        os.chmod(new, 0o600)
        make(new)
        new.rename(self.path)

    def _remove_others(self) -> None:
        """Remove what earlier boots have left, and what is left of a file that was removed."""
        names = re.compile(rf"{re.escape(self._name)}\.boot-{_NAME.pattern}(\.new)?{_BESIDE}")
        for it in self.folder.iterdir():
            if names.fullmatch(it.name):
                it.unlink()
