"""The store in a file to which stamps are appended: what becomes of it when it has grown, and what is refused. What it
has in common with the store over SQLite is in test_files.py."""
import os
import random
import resource
import threading
import time
from collections import Counter
from types import SimpleNamespace

import pytest

from fevstunik import Moment
from fevstunik.stores import File, SQLite, StoreFailed, _file

from support.descriptors import open_below
from support.forked import in_processes
from support.patience import PATIENT, least_seconds

# (a moment that no run of the tests reaches, however long ago this module was read)
LATER, PAST = Moment(4_000_000_000, 7), Moment(1_700_000_000)


@pytest.fixture
def path(tmp_path):
    return tmp_path / "stamps"


@pytest.fixture
def small(monkeypatch):
    """A file is closed when it has some 60 stamps, or twice as many as at first. Eight are read at once."""
    monkeypatch.setattr(_file, "_LARGE", 2048)
    monkeypatch.setattr(_file, "_PART", 8 * 32)


def head(store):
    """When the store was made, and up to which time stamps were forgotten."""
    _, made, _, forgotten, _ = _file._HEAD.unpack(store.path.read_bytes()[:_file._HEAD.size])
    return made, forgotten


def stamps(name, count):
    return [b"%s %d" % (name, it) for it in range(count)]


def all_added(store, these, until=LATER):
    """Adds stamps, and says which are new."""
    return [it for it in these if store.add(it, until)]


# ---------------------------------------------------------------- equal stamps


def test_what_names_no_file():
    for given in "", "/", "stamps/", ".", "..", "stamps/..":
        with pytest.raises(ValueError, match="the path of a store is that of a file"):
            File(given)
        with pytest.raises(ValueError, match="the path of a store is that of a file"):
            SQLite(given)


def test_processes_that_add_the_same(path):
    """At the same time, in an order of their own: each stamp is new for one of them."""
    store, these = File(path), stamps(b"both", 500)

    def child(number):
        draw = random.Random(number)
        return all_added(store, sorted(these, key=lambda it: draw.randrange(40) + these.index(it)))

    found = Counter(it for each in in_processes(8, child) for it in each)
    assert found == Counter(these) and not all_added(File(path), these)


def test_a_record_is_never_written_in_part(path):
    """One of a page has a whole number of them, and a file begins with some."""
    assert 4096 % _file._SIZE == 0 == _file._HEAD.size % _file._SIZE
    store = File(path)
    for number in range(300):
        store.add(b"%d" % number, LATER)
        assert store.path.stat().st_size == _file._HEAD.size + (number + 1) * _file._SIZE


def test_a_stamp_that_is_known_takes_no_room(path):
    store, other = File(path), File(path)
    for it in (store, other, store, other):
        it.add(b"a", LATER)
    # (the other one had not read it yet)
    assert store.path.stat().st_size == _file._HEAD.size + 2 * _file._SIZE


def test_numbers_of_records_differ(path):
    """Or one process would take the record of another for its own."""
    assert len({File(path, boot="a")._own[1]._file._number for _ in range(20)}) == 20


# ---------------------------------------------------------------- a file that has grown


def test_it_is_replaced(path, small, monkeypatch):
    """What is kept is known as before, to all who have it open, and who open it."""
    store, idle, these = File(path), File(path), stamps(b"a", 500)
    replaced, replace = [], _file._Opened.replace
    monkeypatch.setattr(_file._Opened, "replace", lambda it: replaced.append(it._at) or replace(it))
    assert all_added(idle, these[:1]) == these[:1] and all_added(store, these[1:]) == these[1:]
    # (each is twice as large as the one before)
    assert replaced == [2048, 4096, 8192]
    for it in (store, idle, File(path)):
        assert not all_added(it, these) and it.add(b"new for %d" % id(it), LATER)
    assert {it.name for it in path.parent.iterdir()} == {store.path.name}
    assert store.path.stat().st_mode & 0o777 == 0o600


def test_old_stamps_are_forgotten(path, small):
    """And those from before that time are refused: the clock was set back."""
    store, idle = File(path), File(path)
    made, _ = head(store)
    assert all_added(idle, stamps(b"old", 40), PAST) and not idle.add(b"old 1", PAST)
    assert all_added(store, stamps(b"new", 300))
    assert head(store) == (made, 1_700_000_000_000_000) and store.remembers_from == idle.remembers_from
    # (who hasn't read that it was forgotten still knows it)
    assert not idle.add(b"old 1", PAST)
    for it in (store, idle, File(path)):
        for stamp, until in ((b"old 1", PAST), (b"other", PAST), (b"older", Moment(PAST.seconds - 1, 999_999))):
            with pytest.raises(StoreFailed, match="clock was set back"):
                it.add(stamp, until)
        assert it.add(b"newer %d" % id(it), Moment(PAST.seconds, 1)) and not all_added(it, stamps(b"new", 300))


def test_it_stays_small(path, small):
    """While as many stamps become old as are added. One that is kept for long keeps only those that stand beside it."""
    store = File(path)
    assert store.add(b"for long", LATER)
    for number in range(3000):
        assert store.add(b"%d" % number, Moment(PAST.seconds + number))
        assert store.path.stat().st_size <= 2048 + 2 * _file._SIZE
    assert not store.add(b"for long", LATER)


def test_processes_while_it_is_replaced(path, small):
    """Again and again: each stamp is new for one of them, and none is lost."""
    store, these = File(path), stamps(b"both", 600)
    # (some are forgotten in any case: if the processes take turns, nothing that they add stands among old stamps alone)
    assert all_added(store, stamps(b"older", 40), PAST)
    old = [Moment(PAST.seconds + 1 + it) for it in range(600)]

    def child(number):
        draw, found = random.Random(number), []
        for at in sorted(range(600), key=lambda it: draw.randrange(40) + it):
            found += all_added(store, these[at:at + 1])
            try:
                store.add(b"old %d %d" % (number, at), old[at])
            except StoreFailed as fault:
                assert "clock was set back" in str(fault)
        return found

    found = Counter(it for each in in_processes(6, child) for it in each)
    assert found == Counter(these)
    assert not all_added(File(path), these)
    assert head(store)[1] >= micros(PAST)


def micros(moment):
    return moment.seconds * 1_000_000 + moment.micros


def test_a_process_that_was_killed_while_it_replaced_it(path, small):
    """After it had closed the file, and had begun to write the next one. What was appended since doesn't count."""
    store, idle = File(path), File(path)
    assert all_added(store, stamps(b"a", 20)) == stamps(b"a", 20)
    with open(store.path, "ab") as file:
        file.write(_file._CLOSED + bytes(2 * _file._SIZE))
    path.with_name(f"{store.path.name}.new").write_bytes(b"fevst")

    def child(number):
        return all_added(File(path) if number % 2 else store, stamps(b"a", 20) + stamps(b"b", 20))

    found = Counter(it for each in in_processes(6, child) for it in each)
    assert found == Counter(stamps(b"b", 20))
    assert not all_added(idle, stamps(b"a", 20) + stamps(b"b", 20)) and idle.add(b"c", LATER)
    assert [it.name for it in path.parent.iterdir()] == [store.path.name]


def test_a_stamp_that_is_added_just_before_the_file_is_closed(path, small, monkeypatch):
    """By a process that has seen no end of it: the next file has the stamp."""
    store, other, added, write = File(path), File(path), [], os.write

    def closing(file, data):
        if data == _file._CLOSED:
            added.append(other.add(b"late", LATER))
        return write(file, data)

    monkeypatch.setattr("fevstunik.stores._file.os.write", closing)
    assert all_added(store, stamps(b"a", 80)) and added == [True]
    assert not any(it.add(b"late", LATER) for it in (store, other, File(path)))


def test_a_file_that_was_removed_after_it_was_replaced(path, small):
    """One who still has the first one open lets nobody in, also when others have made a new store."""
    store, idle = File(path), File(path)
    assert all_added(store, stamps(b"a", 100))
    store.path.unlink()
    for _ in range(2):
        with pytest.raises(StoreFailed, match="was removed"):
            idle.add(b"b", LATER)
    made = File(path)
    assert made.add(b"b", LATER)
    for it in (idle, store) * 2:
        with pytest.raises(StoreFailed, match="made again|was removed"):
            it.add(b"c", LATER)
    assert made.add(b"c", LATER)


def test_a_copy_in_its_place(path):
    """It may lack what was added since."""
    store, copy = File(path), path.with_name("copy")
    assert store.add(b"a", LATER)
    copy.write_bytes(store.path.read_bytes())
    copy.chmod(0o600)
    copy.rename(store.path)
    for _ in range(2):
        with pytest.raises(StoreFailed, match="was removed"):
            store.add(b"b", LATER)


# ---------------------------------------------------------------- what is refused


def test_another_kind_of_store(path):
    """Of two services that have stores of different kinds at one place, as of two versions, one doesn't start."""
    for first, second in ((File, SQLite), (SQLite, File)):
        before = first(path)
        with pytest.raises(StoreFailed, match="not a database|no store of this kind"):
            second(path)
        assert before.add(b"a", LATER)
        before.path.unlink()


def test_a_file_that_was_changed(path):
    """Nobody is let in: neither by who has it open, nor by who opens it."""
    for number, change in enumerate((lambda it: it[:-1], lambda it: it + b"a", lambda it: it[:_file._HEAD.size - 32],
                                     lambda it: b"", lambda it: b"x" + it[1:-5])):
        store = File(path, boot=f"a{number}")
        assert all_added(store, stamps(b"a", 5))
        store.path.write_bytes(change(store.path.read_bytes()))
        for _ in range(2):
            with pytest.raises(StoreFailed, match="damaged|has lost|no store"):
                store.add(b"b", LATER)
        with pytest.raises(StoreFailed, match="damaged|no store|another boot"):
            File(path, boot=f"a{number}").add(b"b", LATER)


def test_a_file_of_another_boot(path):
    File(path, boot="a").path.rename(path.with_name("stamps.boot-b"))
    with pytest.raises(StoreFailed, match="another boot"):
        File(path, boot="b")


def test_a_full_disk(path):
    """Nobody is let in, and then all goes on. (A limit on the size of a file stands for the disk.)"""
    store = File(path)

    def child(_):
        resource.setrlimit(resource.RLIMIT_FSIZE, (_file._HEAD.size + 10 * _file._SIZE, resource.RLIM_INFINITY))
        assert len(all_added(store, stamps(b"a", 10))) == 10
        for _ in range(3):
            with pytest.raises(StoreFailed, match="too large"):
                store.add(b"b", LATER)
        resource.setrlimit(resource.RLIMIT_FSIZE, (resource.RLIM_INFINITY, resource.RLIM_INFINITY))
        return store.add(b"b", LATER)

    assert in_processes(1, child) == [True]
    assert not all_added(store, [*stamps(b"a", 10), b"b"])


def test_no_room_for_the_next_file(path, small, monkeypatch):
    """The file stays closed until there is room."""
    store, other = File(path), File(path)
    with monkeypatch.context() as full:
        full.setattr(_file._Opened, "_write_next", no_room)
        with pytest.raises(StoreFailed, match="No space"):
            all_added(store, stamps(b"a", 100))
        for it in (store, other):
            with pytest.raises(StoreFailed, match="No space"):
                it.add(b"b", LATER)
    known = [it for it in stamps(b"a", 100) if not other.add(it, LATER)]
    assert known == stamps(b"a", len(known)) and len(known) > 50 and store.add(b"b", LATER)


class NoMemory(set):
    """A set for which memory runs out, so many times."""
    left = 0

    def add(self, it):
        self.check()
        super().add(it)

    def update(self, these):
        self.check()
        super().update(these)

    def check(self):
        if self.left:
            self.left -= 1
            raise MemoryError


@pytest.mark.parametrize("others", [0, 1, 5])
def test_memory_runs_out(path, others):
    """While the file is read: then all of that is read again, and no stamp is new twice."""
    store, other = File(path), File(path)
    assert not all_added(store, []) and len(all_added(other, stamps(b"a", others))) == others
    opened = store._own[1]._file
    opened._seen = NoMemory(opened._seen)
    for left in range(1, others + 2):
        opened._seen.left = left
        with pytest.raises(MemoryError):
            store.add(b"own %d" % left, LATER)
        opened._seen.left = 0
        assert not store.add(b"own %d" % left, LATER)
    assert not all_added(store, stamps(b"a", others)) and store.add(b"b", LATER) and not other.add(b"b", LATER)


def test_memory_runs_out_while_it_is_replaced(path):
    """Nothing that was added is lost."""
    store, other = File(path), File(path)
    assert len(all_added(other, stamps(b"a", 59))) == 59
    opened = store._own[1]._file
    opened._seen = NoMemory(opened._seen)
    with open(store.path, "ab") as file:
        file.write(_file._CLOSED)
    for left in (1, 1, 2):
        opened._seen.left = left
        with pytest.raises(MemoryError):
            opened.read_all()
        with pytest.raises(MemoryError):
            opened._seen.left = left
            opened.replace()
    opened._seen.left = 0
    assert store.add(b"b", LATER) and not all_added(File(path), stamps(b"a", 59) + [b"b"])


def no_room(*_):
    raise OSError(28, "No space left on device")


# ---------------------------------------------------------------- in time, and over forks


def test_another_thread_is_in_it(path):
    store = File(path, seconds=0.5)
    with store._own[1].lock:
        assert 0.4 < least_seconds(lambda: gives_up(store, b"a"), 5) < 5
    store._seconds = PATIENT
    assert store.add(b"a", LATER)


def gives_up(store, stamp):
    """A store that waits half a second waits for no longer."""
    with pytest.raises(StoreFailed, match="no answer in 0.5 seconds"):
        store.add(stamp, LATER)


def test_another_process_has_locked_the_folder(path, small):
    """Nobody waits for it while the file isn't closed, and for no longer than was said if it is."""
    store, hasty = File(path), File(path, seconds=0.5)
    with _file.locked(path.parent, time.monotonic() + 1, RuntimeError):
        assert all_added(store, stamps(b"a", 100)) == stamps(b"a", 100)
        assert store.path.stat().st_size == _file._HEAD.size + 100 * _file._SIZE
        with open(store.path, "ab") as file:
            file.write(_file._CLOSED)
        assert 0.4 < least_seconds(lambda: gives_up(hasty, b"b"), 5) < 5
    assert store.add(b"b", LATER) and not all_added(File(path), stamps(b"a", 100) + [b"b"])


def test_an_answer_that_comes_too_late(path, monkeypatch):
    store, ticks = File(path, seconds=2), iter([0.0, 2.1])
    monkeypatch.setattr(_file, "time", SimpleNamespace(monotonic=lambda: next(ticks)))
    with pytest.raises(StoreFailed, match="no answer in 2 seconds"):
        store.add(b"a", LATER)


def test_a_fork_while_a_thread_is_in_it(path):
    """The child opens the file for itself."""
    store = File(path)
    assert store.add(b"a", LATER)
    with store._own[1].lock:
        found = in_processes(2, lambda _: [store.add(it, LATER) for it in (b"a", b"b")])
    assert sorted(found) == [[False, False], [False, True]] and not store.add(b"b", LATER)


def test_a_child_of_a_store_that_was_made_again(path):
    store = File(path)
    store.path.unlink()
    File(path)

    def child(_):
        with pytest.raises(StoreFailed, match="made again"):
            store.add(b"a", LATER)
        return True

    assert in_processes(1, child) == [True]


def test_nothing_stays_open(path, small):
    """But the file that has the name."""
    store = File(path)
    assert len(all_added(store, stamps(b"a", 500))) == 500
    assert open_below(store.path.parent) == [str(store.path)]
    store.close()
    assert open_below(store.path.parent) == [] and not store.add(b"a 1", LATER)


def test_threads_that_open_it_at_once(path):
    store, barrier, found = File(path), threading.Barrier(8), []
    store.close()

    def work():
        barrier.wait()
        found.extend(all_added(store, stamps(b"a", 50)))

    threads = [threading.Thread(target=work) for _ in range(8)]
    for it in threads:
        it.start()
    for it in threads:
        it.join()
    assert sorted(found) == sorted(stamps(b"a", 50))
