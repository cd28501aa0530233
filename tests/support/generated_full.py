"""Cases of files with as many items, and with as long names, as a file has room for, and of very many lines: none is
answered with out of memory, which a contract allows at any moment.

What is expected of many items is what is expected of one (tests/support/reference.py and tests/support/readable.py),
again and again.
"""
import struct

from support import fixture, readable, reference
from support.generated_exchange import entry, keytab_of

LIMIT = reference.LIMIT
KEYTAB, CACHE = b"\x05\x02", b"\x05\x04\x00\x00" + fixture.principal(1, b"EX", b"alice")
TIMES = 1_700_000_000, 0, 1_700_036_000, 0
CONFOUNDER = bytes(range(0x20, 0x30)).hex()
AT = ["--time=1700000100", "--usec=5"]
# A moment when a table shows whether a ticket has expired.
NOW = 1_700_036_001


def keytab_table(data):
    return readable.keytab_table(reference.keytab(data))


def cache_table(data):
    return readable.cache_table(reference.cache(data), NOW)


LISTINGS = {
    "list-keytab": reference.list_keytab,
    "list-keytab --readable": keytab_table,
    "list-ccache": reference.list_ccache,
    f"list-ccache --readable --now {NOW}": cache_table,
}


def credential(server, ticket=b"t"):
    """A credential of alice@EX for host/SERVER@EX."""
    client = fixture.principal(1, b"EX", b"alice")
    return fixture.credential(client, fixture.principal(3, b"EX", b"host", server), 19, fixture.SESSION_KEY, TIMES,
                              ticket)


LINES = (reference.list_keytab, reference.list_ccache)


def small_items(word):
    """How a file begins, and a small item of it."""
    if "keytab" in word:
        return KEYTAB, reference.record_of(entry([b"h"], 7, 19, b""))
    return CACHE, credential(b"w")


def times_that_fit(start, item, room=0):
    """So many times the item that a file has just this room left, or less than an item more."""
    return (LIMIT - room - len(start)) // len(item)


def full_listings():
    """As many small items as there is room for, of a table as many as a quarter has room for: each has the line that it
    has alone."""
    for word, command in LISTINGS.items():
        start, item = small_items(word)
        count = times_that_fit(start, item, 0 if command in LINES else LIMIT // 4 * 3)
        *head, line = command(start + item).splitlines(keepends=True)
        yield {"name": f"{word}: {count} items", "args": [*word.split(), "f"], "files": {"f": start + item * count},
               "stdout": "".join(head) + line * count}


def long_names():
    """A name of nearly as many bytes as there is room for is listed as a short one is."""
    parts = [b"a" * 65_535] * 255
    files = {
        "keytab": (keytab_of([entry([b"a"], 1, 19, b"")]), keytab_of([entry(parts, 1, 19, b"")]),
                   "/".join(it.decode() for it in parts)),
        "ccache": (CACHE.replace(b"\0\0\0\x05alice", b"\0\0\0\x01a"),
                   CACHE.replace(b"\0\0\0\x05alice", fixture.data(b"a" * 16_000_000)), "a" * 16_000_000),
    }
    for word, command in LISTINGS.items():
        short, long, text = files["keytab" if "keytab" in word else "ccache"]
        yield {"name": f"{word}: a name of {len(text)} bytes", "args": [*word.split(), "f"], "files": {"f": long},
               "stdout": command(short).replace("a@EX", f"{text}@EX")}


def last_ones():
    """The last of as many items as there is room for is the one that is wanted: of a cache that of a service, of a
    keytab the key."""
    last = credential(b"web", fixture.ticket())
    other = credential(b"wex", fixture.ticket())
    cache = CACHE + other * times_that_fit(CACHE, other, len(last)) + last
    words = ["f", "host/web@EX", *AT]
    yield {"name": "request: by the last credential of a full file",
           "args": ["request", *words, f"--confounder={CONFOUNDER}"], "files": {"f": cache},
           "stdout": fixture.request().hex() + "\n"}
    yield {"name": "finish: by the last credential of a full file",
           "args": ["finish", *words, f"--reply={fixture.reply().hex()}"], "files": {"f": cache},
           "stdout": "agreed alice@EX 19\n"}
    one, service = reference.record_of(entry([b"host", b"wex"], 3, 19, bytes(16))), fixture.keytab()[2:]
    keytab = KEYTAB + one * times_that_fit(KEYTAB, one, len(service)) + service
    answer = "accepted alice@EX 19 1700000100 5 plain\n"
    yield {"name": "accept: by the last key of a full file", "args": ["accept", "f"], "files": {"f": keytab},
           "stdin": f"1700000100 5 {fixture.request().hex()}\n", "stdout": answer}


def many_lines():
    """A request after very many lines of another form."""
    count = 100_000
    yield {"name": f"accept: {count} bad lines, and a request", "args": ["accept", "f"],
           "files": {"f": fixture.keytab()}, "status": 1,
           "stdin": "hello\n" * count + f"1700000100 5 {fixture.request().hex()}\n",
           "stdout": "bad line\n" * count + "accepted alice@EX 19 1700000100 5 plain\n"}


def many_keys():
    """Very many keys are added. The keytab already has some of them."""
    records = [reference.record_of(entry([b"host", b"n%06d" % at], 3, 19, struct.pack(">QQ", at, 0)))
               for at in range(90_000)]
    data, keys = (KEYTAB + b"".join(it) for it in (records[:60_000], records[30_000:]))
    made = KEYTAB + b"".join(records)
    yield {"name": "add-keys: 60,000 keys, half of them there already, to 60,000",
           "args": ["add-keys", "f", "g", "--out", "out"],
           "files": {"f": data, "g": keys}, "stdout": f"wrote {len(made)}\n",
           "after": {"f": data, "g": keys, "out": made}}


def many_versions():
    """Very many version numbers of one key are added. The keytab already has some of them. (To compare each two of them
    would take minutes.)"""
    records = [reference.record_of(entry([b"host", b"web"], 1 + at, 19, bytes(16))) for at in range(90_000)]
    data, keys = (KEYTAB + b"".join(it) for it in (records[:60_000], records[30_000:]))
    made = KEYTAB + b"".join(records)
    yield {"name": "add-keys: 60,000 keys of one name, half of them there already, to 60,000",
           "args": ["add-keys", "f", "g", "--out", "out"],
           "files": {"f": data, "g": keys}, "stdout": f"wrote {len(made)}\n",
           "after": {"f": data, "g": keys, "out": made}}


def many_holes():
    """Very many keys are added to a keytab of very many holes. Every second key finds its hole only after those that
    are too short."""
    keys = [entry([b"host", b"n%06d" % at], 3, 19, struct.pack(">QQ", at, 0)) for at in range(40_000)]
    keys = [{**it, "components": [*it["components"], b"longer"]} if at % 2 else it for at, it in enumerate(keys)]
    records = [reference.record_of(it) for it in keys]
    short, long = (hole_of(len(it)) for it in records[:2])
    data = KEYTAB + short * 20_000 + long * 10_000
    made = KEYTAB + b"".join([*records[0::2], *records[1:20_000:2], *records[20_001::2]])
    yield {"name": "add-keys: 40,000 keys to 30,000 holes, of which 20,000 are too short for half of them",
           "args": ["add-keys", "f", "g", "--out", "out"],
           "files": {"f": data, "g": KEYTAB + b"".join(records)}, "stdout": f"wrote {len(made)}\n",
           "after": {"f": data, "g": KEYTAB + b"".join(records), "out": made}}


def hole_of(size):
    """A hole of so many bytes, its size among them."""
    return struct.pack(">i", 4 - size) + bytes(size - 4)


def cases():
    for part in (full_listings, long_names, last_ones, many_lines, many_keys, many_versions, many_holes):
        yield from part()
