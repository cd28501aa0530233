"""Runs the service for a reverse proxy: python3 -m fevstunik.web --config FILE --socket PATH

Started by a socket of systemd, it takes that one, and needs no --socket. Messages go to standard error.
"""
import argparse
import logging
import os
import socket
import stat
import sys

from .._errors import Fault, StoreFailed
from ._server import serve
from .service import app, log

_BACKLOG, _FIRST = 1024, 3


def listener_at(path: str | None) -> socket.socket:
    """The socket that systemd has passed, or a new one at a path. An old one there is replaced, if nobody listens."""
    if os.environ.get("LISTEN_PID") == str(os.getpid()) and os.environ.get("LISTEN_FDS") == "1":
        return socket.socket(fileno=_FIRST)
    if path is None:
        sys.exit("fevstunik.web: --socket is needed, if systemd passes none")
    made = socket.socket(socket.AF_UNIX)
    with socket.socket(socket.AF_UNIX) as other:
        if os.path.exists(path) and stat.S_ISSOCK(os.stat(path).st_mode) and other.connect_ex(path):
            os.unlink(path)
    made.bind(path)
    made.listen(_BACKLOG)
    return made


def main() -> None:
    """Run it."""
    words = argparse.ArgumentParser(prog="python3 -m fevstunik.web", description="Logs users in for a reverse proxy.")
    words.add_argument("--config", required=True, help="the configuration, in TOML")
    words.add_argument("--socket", help="the path of the Unix socket on which it listens")
    words.add_argument("--verbose", action="store_true", help="log each request")
    given = words.parse_args()
    log(logging.DEBUG if given.verbose else logging.INFO)
    try:
        login = app(given.config)
    except (OSError, ValueError, Fault, StoreFailed, ImportError) as error:
        sys.exit(f"fevstunik.web: {given.config}: {error}")
    try:
        listener = listener_at(given.socket)
    except OSError as error:
        sys.exit(f"fevstunik.web: {given.socket or 'the socket of systemd'}: {error}")
    serve(login, listener)


if __name__ == "__main__":
    main()
