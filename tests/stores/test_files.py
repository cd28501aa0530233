"""The stores in a file: what is new, who makes it and when it may be used, and what is refused."""
import os
import pickle
import time
from concurrent.futures import ThreadPoolExecutor
from pathlib import Path

import pytest

from fevstunik import Moment
from fevstunik.stores import File, SQLite, Store, StoreFailed, UnsafeStore, _folder

from support.forked import in_processes

# (a moment that no run of the tests reaches, however long ago this module was read)
LATER = Moment(4_000_000_000, 7)


@pytest.fixture
def path(tmp_path):
    return tmp_path / "stamps"


@pytest.fixture(params=[File, SQLite])
def kind(request):
    return request.param


# ---------------------------------------------------------------- what is new


def test_a_stamp_is_new_once(kind, path):
    store = kind(path)
    assert isinstance(store, Store) and store.largest_skew == 300
    found = [store.add(it, LATER) for it in (b"a", b"b", b"a", b"", b"a\0", b"")]
    assert found == [True, True, False, True, True, False]
    assert not kind(path).add(b"b", LATER)
    with pytest.raises(TypeError):
        pickle.dumps(store)
    store.close()
    assert not store.add(b"a", LATER) and store.add(b"x" * 100_000, LATER)


def test_threads_share_a_store(kind, path):
    store, stamps = kind(path), [b"%d" % it for it in range(200)]
    with ThreadPoolExecutor(8) as pool:
        found = list(pool.map(lambda it: store.add(it, LATER), stamps * 8))
    again = kind(path)
    assert sum(found) == 200 and not any(again.add(it, LATER) for it in stamps)


def test_a_store_after_a_fork(kind, path):
    store = kind(path)
    assert store.add(b"before", LATER)

    def child(number):
        return [store.add(it, LATER) for it in (b"before", b"both", b"%d" % number)]

    found = in_processes(4, child)
    assert sorted(it[1] for it in found) == [False] * 3 + [True] and all(it[0::2] == [False, True] for it in found)
    assert not store.add(b"both", LATER)


# ---------------------------------------------------------------- who makes it, and when


def test_one_of_many_makes_it(kind, path):
    found = in_processes(16, lambda _: kind(path, boot="a").remembers_from)
    assert len(set(found)) == 1 and abs(found[0].seconds - time.time()) < 600
    assert {it.name for it in path.parent.iterdir()} <= {f"stamps.boot-a{it}" for it in ("", "-wal", "-shm")}


def test_another_boot(kind, path):
    """What an earlier boot has left isn't used, whatever it holds; other files stay."""
    before = kind(path, boot="a")
    assert before.add(b"a", LATER)
    for name in ("stamps.boot-c", "stamps.boot-d-wal", "stamps.boot-b.new", "stamps.boot-b-wal"):
        path.with_name(name).write_bytes(os.urandom(9000))
    names = "stamps", "stamps.bak", "stamps.boot-a.txt", "other.boot-a", "xstamps.boot-a"
    others = {path.with_name(name) for name in names}
    for it in others:
        it.write_text("")
    found = in_processes(8, lambda _: kind(path, boot="b").remembers_from)
    assert len(set(found)) == 1 and found[0] > before.remembers_from
    left = set(path.parent.iterdir()) - {Path(f"{path}.boot-b{it}") for it in ("-wal", "-shm")}
    assert left == others | {Path(f"{path}.boot-b")}
    assert kind(path, boot="b").add(b"a", LATER)
    with pytest.raises(StoreFailed, match="was removed"):
        before.add(b"b", LATER)


def test_a_file_that_was_removed(kind, path):
    store = kind(path)
    store.add(b"a", LATER)
    store.path.unlink()
    for _ in range(2):
        with pytest.raises(StoreFailed, match="was removed|No such file|unable to open"):
            store.add(b"b", LATER)
    made = kind(path)
    assert made.remembers_from > store.remembers_from and made.add(b"a", LATER)
    with pytest.raises(StoreFailed, match="made again|was removed"):
        store.add(b"c", LATER)
    assert not made.add(b"a", LATER)


@pytest.mark.parametrize("content", [b"", b"text", bytes(8192)])
def test_a_file_that_is_no_store(kind, path, content):
    file = path.with_name("stamps.boot-a")
    file.write_bytes(content)
    file.chmod(0o600)
    with pytest.raises(StoreFailed, match="stamps.boot-a"):
        kind(path, boot="a")


def test_the_boot_of_this_machine(kind, path):
    assert kind(path).path.name == f"stamps.boot-{Path('/proc/sys/kernel/random/boot_id').read_text().strip()}"
    for boot in ("", "../a", "a b", "a" * 65):
        with pytest.raises(ValueError, match="boot"):
            kind(path, boot=boot)


# ---------------------------------------------------------------- what is refused


def test_another_skew(kind, path):
    assert kind(path, 600, boot="a").largest_skew == kind(path, boot="a").largest_skew == 600
    for skew in (300, 599, 601):
        with pytest.raises(UnsafeStore, match="made with 600") as raised:
            kind(path, skew, boot="a")
        assert raised.value.name == "largest_skew"
    assert kind(path, 60, boot="b").largest_skew == 60
    for skew, fault in ((-1, OverflowError), (True, TypeError), (2**31, OverflowError)):
        with pytest.raises(fault):
            kind(path, skew)


def refused(kind, path, name):
    with pytest.raises(UnsafeStore) as raised:
        kind(path)
    assert raised.value.name == name and str(raised.value).startswith(f"{name}: ")
    return kind(path, unchecked=True)


@pytest.mark.parametrize("mode", [0o770, 0o702, 0o1777])
def test_a_folder_of_others(kind, path, mode):
    path.parent.chmod(mode)
    assert refused(kind, path, "folder").add(b"a", LATER)


def test_a_folder_in_one_of_others(kind, tmp_path):
    """Who may write to the outer folder may rename the inner one, unless its sticky bit is set, as that of /tmp."""
    inner = tmp_path / "outer" / "inner"
    inner.mkdir(parents=True)
    inner.parent.chmod(0o1777)
    kind(inner / "stamps")
    inner.parent.chmod(0o777)
    refused(kind, inner / "stamps", "folder")


def test_a_folder_that_is_not_there(kind, tmp_path):
    for unchecked in (False, True):
        with pytest.raises(StoreFailed, match=f"{tmp_path}/run/stamps.boot-.*: .*No such file or directory"):
            kind(tmp_path / "run/stamps", unchecked=unchecked)


@pytest.mark.root
def test_a_folder_of_another_user(kind, path):
    os.chown(path.parent, 1, -1)
    refused(kind, path, "folder")


@pytest.mark.parametrize("mode", [0o640, 0o604, 0o700])
def test_a_file_of_others(kind, path, mode):
    store = kind(path)
    store.path.chmod(mode)
    refused(kind, path, "mode")
    store.path.rename(path.with_name("other"))
    store.path.symlink_to(path.with_name("other"))
    refused(kind, path, "mode")


def test_what_it_makes_is_its_users_alone(kind, path):
    before = os.umask(0)
    try:
        kind(path).add(b"a", LATER)
    finally:
        os.umask(before)
    assert {it.stat().st_mode & 0o777 for it in path.parent.iterdir()} == {0o600}


def test_another_machines_files(kind, path, monkeypatch):
    monkeypatch.setattr(_folder, "_LOCAL", set())
    refused(kind, path, "file system")
    assert _folder._file_system(Path("/proc/self")) == "proc" and _folder._file_system(Path("/sys")) == "sysfs"


@pytest.mark.parametrize("shown, folder", [
    ("/srv/données", "/srv/données/web"), ("/srv/two\\040words", "/srv/two words"), ("/srv/a\\134b", "/srv/a\\b"),
    ("/srv/line\x85\u2028\x0b\r", "/srv/line\x85\u2028\x0b\r/web"), ("/srv/\udce9", "/srv/\udce9"),
], ids=["umlauts", "space", "backslash", "ends of lines", "no UTF-8"])
def test_where_another_machines_files_are(kind, path, monkeypatch, tmp_path, shown, folder):
    """Paths have any bytes. One that isn't UTF-8 hinders no store in another place."""
    mounted = tmp_path / "mounted"
    mounted.write_bytes(os.fsencode(f"22 1 8:1 / / rw shared:1 - ext4 /dev/sda1 rw\n"
                                    f"23 22 0:45 / {shown} rw,relatime shared:2 - nfs4 host:/srv rw\n"))
    monkeypatch.setattr(_folder, "_MOUNTED", mounted)
    assert _folder._file_system(Path(folder)) == "nfs4"
    assert kind(path).add(b"a", LATER)


# ---------------------------------------------------------------- in time


def test_another_process_makes_it(kind, path):
    with _folder.locked(path.parent, time.monotonic() + 1, RuntimeError), pytest.raises(StoreFailed, match="no answer"):
        kind(path, seconds=0.3)
    assert kind(path).add(b"a", LATER)
