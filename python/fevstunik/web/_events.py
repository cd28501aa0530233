"""What is logged and counted: one record for each decision."""
from __future__ import annotations

import importlib
import ipaddress
import logging
import threading
from collections import Counter
from collections.abc import Iterable
from functools import lru_cache
from typing import Any, NamedTuple

from .._login import Asked
from .._shown import fit_for_a_line
from ._lines import only_handler
from ._users import User

_log = logging.getLogger("fevstunik.web")
# Decisions of every request, which nobody reads but to find a fault.
_QUIET = frozenset({"NO_TOKEN", "GO_ON", "SESSION", "EXEMPT", "LOGOUT"})
# What an operator has to look at.
_LOUD = frozenset({"FULL", "OUT_OF_MEMORY", "STORE_FAILED"})
# The levels of these decisions; the others are of level INFO.
_LEVELS = dict.fromkeys(_QUIET, logging.DEBUG) | dict.fromkeys(_LOUD, logging.ERROR)
# How many proxies a request comes over at the most.
_HOPS = 32
Networks = list["ipaddress.IPv4Network | ipaddress.IPv6Network"]


class Event(NamedTuple):
    """A decision.

    cause   its cause
    text    why, for a refusal
    user    who is let in
    client  the client's name, once a request of its was accepted
    asked   what a refused request asked for
    """

    cause: str
    text: str = ""
    user: User | None = None
    client: str | None = None
    asked: Asked | None = None


class Events:
    """Logs and counts decisions."""

    def __init__(self) -> None:
        self._counter = _prometheus()
        # (a look-up by name takes longer than to count)
        self._counters: dict[str, Any] = {}
        self.begin()

    def begin(self) -> None:
        """A process begins."""
        self._lock, self._counts = threading.Lock(), Counter[str]()

    def so_far(self) -> dict[str, int]:
        with self._lock:
            return dict(self._counts)

    def add(self, event: Event, peer: str) -> None:
        cause = event.cause
        with self._lock:
            self._counts[cause] += 1
        if self._counter is not None:
            (self._counters.get(cause) or self._counter_of(cause)).inc()
        level = _LEVELS.get(cause, logging.INFO)
        if not _log.isEnabledFor(level):
            return
        file = only_handler(_log)
        if file is not None and file.takes(level):
            file.write(level, fit_for_a_line(peer), _line(event))
        else:
            # (Logger.log would look for the line of the source, which takes as long as the rest)
            record = _log.makeRecord(_log.name, level, __file__, 0, _line(event), (), None)
            record.__dict__.update(_fields(event, peer))
            _log.handle(record)

    def _counter_of(self, cause: str) -> Any:
        found = self._counters[cause] = self._counter.labels(cause=cause)
        return found


def _line(event: Event) -> str:
    if event.user is not None:
        return f"let in: {fit_for_a_line(event.user.name)} ({event.user.client}, {event.cause})"
    return event.text if event.cause in _QUIET else f"denied: {event.text}"


def _fields(event: Event, peer: str) -> dict[str, Any]:
    user, asked = event.client if event.user is None else event.user.client, event.asked
    shown = {"cause": event.cause, "peer": fit_for_a_line(peer), "user": user}
    if asked is None:
        return {**shown, "asked": None, "etype": None, "kvno": None}
    return {**shown, "asked": fit_for_a_line(asked.name), "etype": asked.etype, "kvno": asked.kvno}


@lru_cache(maxsize=None)
def _prometheus() -> Any:
    """The counter of all services of this process, if the module prometheus_client is installed."""
    try:
        module = importlib.import_module("prometheus_client")
    except ImportError:
        return None
    return module.Counter("fevstunik_web_decisions", "Decisions about requests, by their cause", ["cause"])


def networks_of(proxies: Iterable[str]) -> Networks:
    """The addresses of trusted proxies."""
    return [ipaddress.ip_network(it) for it in proxies]


def peer_of(address: str, forwarded: Iterable[bytes], trusted: Networks) -> str:
    """The client's address: the last one of X-Forwarded-For that isn't a trusted proxy's. A peer without an address, at
    a Unix socket, is trusted if any is."""
    if not trusted:
        return address
    named = [it.strip() for header in forwarded for it in header.decode("latin-1").rsplit(",", _HOPS)][-_HOPS:]
    while named and _is_of(address, trusted):
        address = named.pop()
    return address


def _is_of(address: str, trusted: Networks) -> bool:
    try:
        it = ipaddress.ip_address(address)
    except ValueError:
        return not address
    # (a server that listens over IPv6 for both may name a peer over IPv4 so)
    it = getattr(it, "ipv4_mapped", None) or it
    return any(it in network for network in trusted)
