"""What a test sees on a busy machine, where a process may get no processor for a while: stores that wait long, and
limits in seconds that are measured in several tries."""
import time

from fevstunik import stores

# How long a store waits for an answer where that isn't what is tested: longer than a test may take.
PATIENT = 900.0


def let_stores_wait(monkeypatch):
    """Has stores wait so long, unless they are told how long. (By default it is two seconds.)"""
    for kind in (stores.File, stores.SQLite, stores.Redis, stores.PostgreSQL):
        monkeypatch.setitem(kind.__init__.__kwdefaults__, "seconds", PATIENT)


def least_seconds(call, most, tries=10):
    """The least time that a call takes, of some tries. The first that takes less than `most` ends them."""
    least = float("inf")
    for _ in range(tries):
        began = time.monotonic()
        call()
        least = min(least, time.monotonic() - began)
        if least < most:
            break
    return least
