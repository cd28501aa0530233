"""A log of lines, a decision each."""
from __future__ import annotations

import logging
import os
import time

from ._files import Path

_FORMATTER = logging.Formatter("%(asctime)s %(levelname)s %(peer)s %(message)s", defaults={"peer": "-"})
_STANDARD_ERROR = 2


class LogFile(logging.Handler):
    """A handler for logging that appends a line for each record to a file: when it was, the level, the peer, and what
    was decided.

    path  the file, or None for standard error

    The lines are those of a logging.FileHandler whose format is ``%(asctime)s %(levelname)s %(peer)s %(message)s``,
    which takes twice as long, but that the later lines of a record are indented. Processes may share the file: each
    line is written at once. If it is renamed, as logrotate does it, a new one is made within a second.

    >>> import logging, tempfile
    >>> from fevstunik.web import LogFile
    >>> path = tempfile.mkdtemp() + "/log"
    >>> logging.getLogger("example").addHandler(LogFile(path))
    >>> logging.getLogger("example").warning("a line", extra={"peer": "192.0.2.7"})
    >>> open(path).read()[24:]
    'WARNING 192.0.2.7 a line\\n'
    """

    def __init__(self, path: Path | None = None) -> None:
        super().__init__()
        self.setFormatter(_FORMATTER)
        self._path = None if path is None else os.path.abspath(path)
        self._file = _STANDARD_ERROR if self._path is None else _opened(self._path)
        self._shown = 0, ""

    def close(self) -> None:
        """Close the file.

        >>> from fevstunik.web import LogFile
        >>> LogFile().close()
        """
        file, self._file = self._file, _STANDARD_ERROR
        if file != _STANDARD_ERROR:
            os.close(file)
        super().close()

    def emit(self, record: logging.LogRecord) -> None:
        """Write a record, as logging asks for it.

        >>> import logging
        >>> from fevstunik.web import LogFile
        >>> LogFile("/dev/null").emit(logging.makeLogRecord({"msg": "a line"}))
        """
        try:
            self._look()
            # (a text of more than one line, as a traceback, doesn't pass for more than one record)
            self._append("\n    ".join(self.format(record).splitlines()))
        except Exception:
            self.handleError(record)

    def takes(self, level: int) -> bool:
        """Return whether it writes each record of a level as `write` does: without filters, and in this form.

        >>> from fevstunik.web import LogFile
        >>> LogFile("/dev/null").takes(20)
        True
        """
        return level >= self.level and not self.filters and self.formatter is _FORMATTER

    def write(self, level: int, peer: str, text: str) -> None:
        """Write the line that a record of a level, a peer and a text would have.

        >>> from fevstunik.web import LogFile
        >>> LogFile("/dev/null").write(20, "192.0.2.7", "a line")
        """
        now = time.time()
        try:
            self._append(f"{self._second(int(now))},{int(now % 1 * 1000):03d} {logging.getLevelName(level)} {peer} "
                         f"{text}")
        except OSError:
            self.handleError(logging.makeLogRecord({"levelno": level, "msg": text, "peer": peer}))

    def _second(self, second: int) -> str:
        """A second as a text, which is kept until the next one."""
        at, shown = self._shown
        if at != second:
            self._look()
            shown = time.strftime("%Y-%m-%d %H:%M:%S", time.localtime(second))
            self._shown = second, shown
        return shown

    def _append(self, line: str) -> None:
        os.write(self._file, f"{line}\n".encode("utf-8", "backslashreplace"))

    def _look(self) -> None:
        """Make the file again if it was renamed or removed."""
        if self._path is None or self._file == _STANDARD_ERROR:
            return
        try:
            found = os.stat(self._path)
        except FileNotFoundError:
            found = None
        if found is None or not os.path.samestat(found, os.fstat(self._file)):
            new = _opened(self._path)
            # (another thread may be writing to the old one: its descriptor is now the new one's)
            os.dup2(new, self._file, inheritable=False)
            os.close(new)


def only_handler(logger: logging.Logger) -> LogFile | None:
    """The LogFile that gets all records of a logger, unless others get them, too, or they are filtered."""
    found, it = None, logger
    if logger.filters:
        return None
    while True:
        for handler in it.handlers:
            if found is not None or not isinstance(handler, LogFile):
                return None
            found = handler
        if it.parent is None or not it.propagate:
            return found
        it = it.parent


def _opened(path: str) -> int:
    return os.open(path, os.O_WRONLY | os.O_APPEND | os.O_CREAT | os.O_CLOEXEC, 0o640)
