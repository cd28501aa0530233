"""Cases that are made and not stored: each beginning of a file, each file with one byte changed, files at the limit,
each way of closing the standard streams, a service that was started long ago, and files of as many items, and with as
long names, as there may be.

What is expected comes from tests/support/reference.py and tests/support/readable.py. A case is made when it is asked
for.
"""
import struct
import tomllib
from itertools import combinations, islice

from support import (
    EXAMPLES, TESTS, drawn_files, fixture, generated_edits, generated_exchange, generated_full,
    generated_tokens, readable, reference,
)

# How long a message may be.
MESSAGE_LIMIT = 1_048_576

FIXTURE_KEYTAB = fixture.keytab()
HOLED_KEYTAB = bytes.fromhex(
    "0502" "fffffffc01020304"
    "0000002e0001000245580005616c696365000000016553f10000001300103705d96080c17728a0e800eab6e0d23c00000100"
    "fffffff800000000ffffffff" "0000000011"
)
FIXTURE_CACHE = fixture.cache()
OLD_CACHE = fixture.old_cache()
CONFIGURED_CACHE = fixture.configured_cache()

# A moment, and the words that ask for a table of a cache then.
NOW = 1_700_036_000
NOW_TABLE = f"list-ccache --readable --now {NOW}"


def expected(command, data):
    """Standard output, standard error and status of a command on a file 'f' of these bytes."""
    try:
        return {"stdout": command(data)}
    except reference.Fault as fault:
        return {"stderr": f"krbtool: f: {fault}\n", "status": 1}


def on_bytes(word, name, data, command):
    return {"name": f"{word}: {name}", "args": [*word.split(), "f"], "files": {"f": bytes(data)},
            **expected(command, data)}


def converting(word, name, data, command):
    """A convert command: what it says, and what the file that it makes holds; a faulty file leaves that empty."""
    case = {"name": f"{word}: {name}", "args": [word, "f", "out"], "files": {"f": bytes(data), "out": b"old"}}
    try:
        made = command(data)
    except reference.Fault as fault:
        return {**case, "stderr": f"krbtool: f: {fault}\n", "status": 1, "after": {"out": b""}}
    return {**case, "stdout": f"wrote {len(made)}\n", "after": {"out": made}}


def beginnings(word, name, data, command):
    for size in range(len(data) + 1):
        yield on_bytes(word, f"{name}, its first {size} bytes", data[:size], command)


def changes(word, name, data, command):
    for at in range(len(data)):
        for mask in (0x01, 0x80, 0xFF):
            changed = bytearray(data)
            changed[at] ^= mask
            yield on_bytes(word, f"{name}, byte {at} xor {mask:02x}", changed, command)


def full_keytabs():
    """As many records as the limit has room for: each is read as one of them alone is."""
    for name, size in {"no 32-bit kvno": 17, "a 32-bit kvno": 21}.items():
        record = struct.pack(">I", size) + bytes(8) + b"\x01\x07" + bytes(size - 10)
        count = (reference.LIMIT - 2) // len(record)
        many, one = b"\x05\x02" + record * count, reference.record_of(*reference.keytab(b"\x05\x02" + record))
        made = b"\x05\x02" + one * count
        yield on_bytes("check-keytab", f"a full file of records with {name}", many, lambda data: f"ok {count}\n")
        yield converting("convert-keytab", f"a full file of records with {name}", many,
                         lambda data: reference.within_limit(made))


def checked_keytabs(real):
    small = {"fixture": FIXTURE_KEYTAB, "holes": HOLED_KEYTAB}
    for name, data in {**real, **small}.items():
        yield on_bytes("check-keytab", name, data, reference.check_keytab)
        yield converting("convert-keytab", name, data, reference.convert_keytab)
    for name, data in small.items():
        yield from beginnings("check-keytab", name, data, reference.check_keytab)
        for size in range(len(data)):
            yield converting("convert-keytab", f"{name}, its first {size} bytes", data[:size], reference.convert_keytab)
    yield from full_keytabs()


def keytab_table(data):
    return readable.keytab_table(reference.keytab(data))


def cache_table_at(now):
    """What list-ccache prints as a table at this moment."""
    return lambda data: readable.cache_table(reference.cache(data), now)


def keytab_cases():
    real = {path.name: path.read_bytes() for path in sorted(EXAMPLES.glob("*.keytab"))}
    for name, data in {**real, "fixture": FIXTURE_KEYTAB, "holes": HOLED_KEYTAB}.items():
        yield from beginnings("list-keytab", name, data, reference.list_keytab)
        yield on_bytes("list-keytab --readable", name, data, keytab_table)
    for name, data in {"fixture": FIXTURE_KEYTAB, "holes": HOLED_KEYTAB}.items():
        yield from changes("list-keytab", name, data, reference.list_keytab)
        yield from beginnings("list-keytab --readable", name, data, keytab_table)
        yield from changes("list-keytab --readable", name, data, keytab_table)
    yield from checked_keytabs(real)
    over = b"\x05\x02" + bytes(reference.LIMIT - 1)
    yield on_bytes("list-keytab", "one byte past the limit", over, reference.list_keytab)
    yield on_bytes("list-keytab", "at the limit", over[:-1], reference.list_keytab)
    hole = b"\x05\x02" + (-(reference.LIMIT - 6) & 0xFFFFFFFF).to_bytes(4, "big") + b"\xaa" * (reference.LIMIT - 6)
    yield on_bytes("list-keytab", "one hole up to the limit", hole, reference.list_keytab)


def full_caches():
    """As many of the smallest credentials as the limit has room for, and one byte past the limit."""
    name = bytes(12)
    one = name + name + bytes(2 + 4 + 16 + 1 + 4 + 4 + 4 + 4 + 4)
    start = b"\x05\x04\x00\x00" + name
    count = (reference.LIMIT - len(start)) // len(one)
    assert len(reference.cache(start + one)[2]) == 1
    full, over = start + one * count, bytes(reference.LIMIT + 1)
    yield on_bytes("check-ccache", "as many credentials as there is room for", full, lambda data: f"ok {count}\n")
    yield converting("convert-ccache", "as many credentials as there is room for", full, lambda data: data)
    yield on_bytes("check-ccache", "one byte past the limit", over, reference.check_ccache)
    yield converting("convert-ccache", "one byte past the limit", over, reference.convert_ccache)
    old = b"\x05\x03" + struct.pack(">iIII", 1, 1, 0, reference.LIMIT - 18) + bytes(reference.LIMIT - 18)
    yield on_bytes("check-ccache", "version 0x0503, as long as may be", old, reference.check_ccache)
    yield converting("convert-ccache", "version 0x0503, as long as may be", old, reference.convert_ccache)


def cache_cases():
    real = {path.name: path.read_bytes() for path in sorted(EXAMPLES.glob("*.ccache"))}
    small = {"fixture": FIXTURE_CACHE, "old fixture": OLD_CACHE, "configured": CONFIGURED_CACHE,
             **dict(drawn_files.two_credentials())}
    for name, data in {**real, **small}.items():
        yield from beginnings("list-ccache", name, data, reference.list_ccache)
        yield on_bytes("list-ccache --readable", name, data, cache_table_at(None))
        yield on_bytes("check-ccache", name, data, reference.check_ccache)
        yield converting("convert-ccache", name, data, reference.convert_ccache)
    for name in ("fixture", "old fixture", "configured"):
        yield from changes("list-ccache", name, small[name], reference.list_ccache)
        yield from beginnings(NOW_TABLE, name, small[name], cache_table_at(NOW))
        yield from changes(NOW_TABLE, name, small[name], cache_table_at(NOW))
    for name, data in small.items():
        yield from beginnings("check-ccache", name, data, reference.check_ccache)
        for size in range(len(data)):
            yield converting("convert-ccache", f"{name}, its first {size} bytes", data[:size], reference.convert_ccache)
    yield from full_caches()


COMMANDS = {
    "list-keytab": (HOLED_KEYTAB, reference.list_keytab),
    "list-keytab --readable": (HOLED_KEYTAB, keytab_table),
    "check-keytab": (HOLED_KEYTAB, reference.check_keytab),
    "convert-keytab": (HOLED_KEYTAB, reference.convert_keytab),
    "list-ccache": (CONFIGURED_CACHE, reference.list_ccache),
    NOW_TABLE: (CONFIGURED_CACHE, cache_table_at(NOW)),
    "check-ccache": (CONFIGURED_CACHE, reference.check_ccache),
    "convert-ccache": (CONFIGURED_CACHE, reference.convert_ccache),
}


def without(streams, case):
    """The case with these standard streams closed: nothing is written there, and a line that can't be printed has its
    own fault."""
    case = {**case, "name": f"{case['name']}, without stream {' and '.join(map(str, streams))}",
            "closed": list(streams)}
    if 1 in streams and case.get("stdout"):
        case = {**case, "stdout": "", "stderr": "krbtool: output: Write\n", "status": 3}
    return {**case, "stderr": ""} if 2 in streams else case


def stream_cases():
    """Each way of closing standard streams, for each command, on a good file and on a faulty one."""
    ways = [streams for size in (1, 2, 3) for streams in combinations((0, 1, 2), size)]
    for word, (data, command) in COMMANDS.items():
        made = converting if word.startswith("convert") else on_bytes
        for streams in ways:
            yield without(streams, made(word, "a good file", data, command))
            yield without(streams, made(word, "a faulty file", data[:20], command))


def mode_cases():
    """A new OUT is its owner's alone, also where FILE is faulty; one that is there keeps its mode. Under each usual
    umask."""
    for word in ("convert-keytab", "convert-ccache"):
        data, command = COMMANDS[word]
        for umask in ("000", "022", "077"):
            for name, file in (("a good file", data), ("a faulty file", data[:20])):
                case = {**converting(word, f"{name}, umask {umask}, a new OUT", file, command), "umask": umask,
                        "modes": {"out": "600"}}
                yield {**case, "files": {"f": file}}
                there = {"files": {"f": file, "out": data + data}, "modes": {"out": "640"}}
                yield {**case, "name": f"{word}: {name}, umask {umask}, an OUT that is there", **there}


def request_cases():
    """The longest request that there may be, and one that is a byte longer."""
    words = ["request", "f", "host/web@EX", "--time=1700000100", "--usec=5",
             f"--confounder={bytes(range(0x20, 0x30)).hex()}"]
    some = MESSAGE_LIMIT - 1000
    size = some + MESSAGE_LIMIT - len(fixture.request(of=fixture.ticket(bytes(some))))
    for more, name in (0, "of as many bytes as there may be"), (1, "of a byte more"):
        ticket = fixture.ticket(bytes(size + more))
        made = fixture.request(of=ticket)
        assert len(made) == MESSAGE_LIMIT + more
        wanted = {"stderr": "krbtool: request: TooLong\n", "status": 1} if more else {"stdout": made.hex() + "\n"}
        yield {"name": f"request: {name}", "args": words, "files": {"f": fixture.cache(ticket)}, **wanted}


def started_cases():
    """The stored cases of `accept` again, for a service that was started so long ago that it answers as one without an
    earlier life."""
    with open(TESTS / "program/accept.toml", "rb") as file:
        for case in tomllib.load(file)["case"]:
            words = case["args"]
            if case.get("status") != 2 and "--help" not in words:
                yield {**case, "name": f"{case['name']}, started long ago",
                       "args": [words[0], "--started=0", *words[1:]]}


# The cases, each part with its name. The larger ones are run in several pieces.
PARTS = {
    "started": (started_cases, 1),
    "keytabs": (keytab_cases, 2),
    "caches": (cache_cases, 16),
    "requests": (request_cases, 1),
    "remove-key": (generated_edits.remove_cases, 1),
    "add-keys": (generated_edits.add_cases, 1),
    "pick-key": (generated_exchange.pick_cases, 1),
    "finish": (generated_exchange.finish_cases, 1),
    "drawn-tokens": (generated_tokens.drawn_cases, 1),
    "tokens": (generated_tokens.cases, 1),
    "full-files": (generated_full.cases, 1),
    "streams": (stream_cases, 1),
    "modes": (mode_cases, 1),
}


def pieces():
    """Each piece of each part: its name and a function that makes its cases."""
    for name, (cases, count) in PARTS.items():
        for at in range(count):
            piece = f"{name}-{at + 1}-of-{count}" if count > 1 else name
            yield piece, lambda cases=cases, at=at, count=count: islice(cases(), at, None, count)
