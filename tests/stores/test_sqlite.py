"""The store over SQLite: what it forgets, and what is refused. What it has in common with the other store in a file is
in test_files.py."""
import contextlib
import sqlite3

import pytest

from fevstunik import Moment
from fevstunik.stores import SQLite, StoreFailed

from support.forked import in_processes
from support.patience import PATIENT, least_seconds

# (a moment that no run of the tests reaches, however long ago this module was read)
LATER, PAST = Moment(4_000_000_000, 7), Moment(1_700_000_000)


@pytest.fixture
def path(tmp_path):
    return tmp_path / "stamps"


def rows(store, statement="SELECT count(*) FROM stamps"):
    with contextlib.closing(sqlite3.connect(store.path)) as base:
        return base.execute(statement).fetchone()


def test_a_fork_while_a_store_is_asked(path):
    """The child would take the parent's locks for its own: it refuses, and the parent goes on."""
    store = SQLite(path)
    busy = store._connection(store._idle())

    def child(_):
        for call in (lambda: store.add(b"a", LATER), lambda: SQLite(path)):
            with pytest.raises(StoreFailed, match="forked"):
                call()
        return True

    assert in_processes(1, child) == [True] and store.add(b"a", LATER)
    store._shut(busy)
    assert in_processes(2, lambda number: store.add(b"%d" % number, LATER)) == [True, True]


# ---------------------------------------------------------------- what it forgets


def test_old_stamps_are_forgotten(path):
    """In small portions, and never one that has to be kept."""
    store = SQLite(path)
    with contextlib.closing(sqlite3.connect(store.path)) as base, base:
        base.executemany("INSERT INTO stamps VALUES (?, ?)", [(b"old %d" % it, it) for it in range(300)])
    before = rows(store)[0]
    for number in range(300):
        assert store.add(b"new %d" % number, LATER)
        left = rows(store)[0]
        assert 0 <= before + 1 - left <= 64
        before = left
    assert before == 300 and all(not store.add(b"new %d" % it, LATER) for it in range(300))


def test_old_stamps_after_many_that_are_kept(path):
    """Those that are kept are passed by, a portion at a time."""
    store = SQLite(path)
    until = LATER.seconds * 1_000_000
    with contextlib.closing(sqlite3.connect(store.path)) as base, base:
        base.executemany("INSERT INTO stamps VALUES (?, ?)", [(b"a%03d" % it, until) for it in range(200)])
        base.executemany("INSERT INTO stamps VALUES (?, ?)", [(b"z%03d" % it, 1) for it in range(10)])
    for number in range(3 * 32 + 1):
        assert store.add(b"%d" % number + b"b" * 8, LATER)
    assert rows(store, "SELECT count(*) FROM stamps WHERE key >= x'7a'") == (10,)
    for number in range(3 * 32):
        assert store.add(b"%d" % number + b"c" * 8, LATER)
    assert rows(store, "SELECT count(*) FROM stamps WHERE key >= x'7a'") == (0,)
    assert rows(store, "SELECT count(*) FROM stamps") == (200 + 6 * 32 + 1,)


def test_a_stamp_that_may_have_been_forgotten(path):
    """The clock was ahead, so stamps were forgotten, and then it was set right: such a stamp isn't called new."""
    store = SQLite(path)
    assert store.add(b"old", PAST) and not store.add(b"old", PAST)
    for number in range(100):
        assert store.add(b"%d" % number, LATER)
    assert rows(store, "SELECT forgotten FROM store") == (1_700_000_000_000_000,)
    for stamp, until in ((b"old", PAST), (b"other", PAST), (b"older", Moment(PAST.seconds - 1, 999_999))):
        with pytest.raises(StoreFailed, match="clock was set back"):
            store.add(stamp, until)
    assert store.add(b"newer", Moment(PAST.seconds, 1))


# ---------------------------------------------------------------- in time


def test_another_process_writes(path):
    """Nobody waits for it for longer than was said; then all is as before."""
    store = SQLite(path, seconds=0.5)

    def gives_up():
        with pytest.raises(StoreFailed, match="no answer in 0.5 seconds"):
            store.add(b"a", LATER)

    with contextlib.closing(sqlite3.connect(store.path, isolation_level=None)) as base:
        base.execute("BEGIN IMMEDIATE")
        assert 0.4 < least_seconds(gives_up, 5) < 5
        base.execute("COMMIT")
        store._seconds = PATIENT
        assert store.add(b"a", LATER)
    for seconds in (0, -1, 3600, float("nan")):
        with pytest.raises(ValueError, match="seconds"):
            SQLite(path, seconds=seconds)


def test_a_full_disk(path):
    store = SQLite(path)
    store.add(b"first", LATER)
    connection, = store._idle()
    pages, = connection.base.execute("PRAGMA page_count").fetchone()
    connection.base.execute(f"PRAGMA max_page_count = {pages + 1}")
    with pytest.raises(StoreFailed, match="full"):
        for number in range(1000):
            store.add(b"%d" % number * 50, LATER)
    assert store.add(b"a", LATER)
