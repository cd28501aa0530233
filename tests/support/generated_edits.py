"""Cases of `remove-key` and `add-keys` that are made and not stored: each entry of each keytab and one past the last;
the keys of each keytab added to each; and each beginning of a keytab.

What is expected comes from tests/support/reference.py, and from the edits of tests/support/drawn_files.py.
"""
import struct

from support import EXAMPLES, drawn_files, reference
from support.generated_exchange import entry, keytab_of


def keytabs():
    yield from ((path.name, path.read_bytes()) for path in sorted(EXAMPLES.glob("*.keytab")))
    one = [entry([b"host", b"web"], 3 + at, 19, bytes([at]) * 16) for at in range(3)]
    data = keytab_of(one)
    yield "an end word", data + bytes(4) + b"what follows"
    yield "holes around entries", data[:2] + b"\xff\xff\xff\xfe\1\2" + data[2:] + b"\xff\xff\xff\xc0" + b"\5" * 64
    yield "no entries", b"\x05\x02"


# ---------------------------------------------------------------- remove-key


def removing(name, data, index):
    words = ["remove-key", "f", str(index), "--out", "out"]
    files = {"f": data, "out": b"old"}
    case = {"name": f"remove-key: {name}, entry {index}", "args": words, "files": files}
    try:
        count = len(reference.keytab(data))
    except reference.Fault as fault:
        return {**case, "stderr": f"krbtool: f: {fault}\n", "status": 1, "after": files}
    if index >= count:
        return {**case, "stderr": "krbtool: remove-key: NoSuchEntry\n", "status": 1, "after": files}
    made = drawn_files.removed(data, index)
    return {**case, "stdout": f"wrote {len(made)}\n", "after": {"f": data, "out": made}}


def remove_cases():
    for name, data in keytabs():
        for index in range(len(reference.keytab(data)) + 1):
            yield removing(name, data, index)
        for index in (0, 1):
            yield from (removing(f"{name}, its first {size} bytes", data[:size], index)
                        for size in range(0, len(data), 1 + len(data) // 100))
    many = keytab_of([entry([b"host", b"web"], 1 + at % 1000, 19, bytes(16)) for at in range(100_000)])
    yield from (removing("100,000 entries", many, index) for index in (0, 50_000, 99_999, 100_000))
    room = reference.LIMIT - 60
    limit = b"\x05\x02" + many[2:56] + struct.pack(">i", -room) + b"\xaa" * room
    yield removing("a file at the limit", limit, 0)
    yield removing("a byte past the limit", limit + b"\0", 0)


# ---------------------------------------------------------------- add-keys


def key_of(it):
    """What makes two entries the same key."""
    return it["realm"], tuple(it["components"]), it["etype"], it["kvno"], it["key"]


def extended(data, others):
    """The keytab with the keys of another that it lacks."""
    held = set(map(key_of, reference.keytab(data)))
    for it in reference.keytab(others):
        if key_of(it) not in held:
            held.add(key_of(it))
            data = drawn_files.added(data, reference.record_of(it))
    return data


def adding(name, data, others):
    files = {"f": data, "g": others, "out": b"old"}
    case = {"name": f"add-keys: {name}", "args": ["add-keys", "f", "g", "--out", "out"], "files": files}
    for file in ("f", "g"):
        try:
            reference.keytab(files[file])
        except reference.Fault as fault:
            return {**case, "stderr": f"krbtool: {file}: {fault}\n", "status": 1, "after": files}
    try:
        made = extended(data, others)
    except reference.Fault as fault:
        return {**case, "stderr": f"krbtool: f: {fault}\n", "status": 1, "after": files}
    return {**case, "stdout": f"wrote {len(made)}\n", "after": {**files, "out": made}}


def with_a_rest(size):
    """A keytab of one entry that has so many bytes, most of them after the entry."""
    record = reference.record_of(entry([b"host", b"web"], 1, 19, bytes(16)))
    body = record[4:] + bytes(size - 2 - len(record))
    return b"\x05\x02" + len(body).to_bytes(4, "big") + body


def add_cases():
    drawn = dict(keytabs())
    emptied = {f"{name} with a hole": drawn_files.removed(data, 0) for name,
               data in drawn.items() if reference.keytab(data)}
    for name, data in (drawn | emptied).items():
        for other, keys in drawn.items():
            yield adding(f"{other} to {name}", data, keys)
    data, keys = drawn["an end word"], drawn["holes around entries"]
    yield from (adding(f"to the first {size} bytes", data[:size], keys) for size in range(0, len(data), 3))
    yield from (adding(f"of the first {size} bytes", keys, data[:size]) for size in range(0, len(data), 3))
    many = keytab_of([entry([b"host", b"web"], 1 + at, 19, bytes(16)) for at in range(1_000)])
    more = keytab_of([entry([b"host", b"web"], 501 + at, 19, bytes(16)) for at in range(1_000)])
    yield adding("1,000 keys, half of them there already, to 1,000", many, more)
    key = entry([b"host", b"web"], 2, 19, bytes(16))
    room = len(reference.record_of(key))
    yield adding("up to the limit", with_a_rest(reference.LIMIT - room), keytab_of([key]))
    yield adding("a byte past the limit", with_a_rest(reference.LIMIT + 1 - room), keytab_of([key]))
    yield adding("the second of two is past the limit", with_a_rest(reference.LIMIT - room),
                 keytab_of([key, {**key, "kvno": 3}]))
    yield adding("one that is there already, at the limit", with_a_rest(reference.LIMIT),
                 keytab_of([{**key, "kvno": 1}]))
