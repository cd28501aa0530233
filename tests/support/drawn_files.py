"""Draws cases of keytabs, credential caches and names, for the library for C (files_in_c.py) and for the program of
crates/krb_calls_files (calls.py runs them).

What is answered is worked out here: of whole files by tests/support/reference.py, of readers by a second walk over a
source that gives a few bytes a read. Nothing is taken from the program's sources. Fields are asked of a source one
after another; the numbers after a session key's bytes, up to the flags, at once, and an encryption type that stands
twice, too.
"""
import random
import struct

from support import fixture, reference
from support.calls import TOP, shown
from support.der_rules import packed
from support.exchange_made import name_word
from support.reference import NEW, OLD, Fault, Reader, Short, credential_of, data16_of, name_of, record_of

PROGRAM, IN_C = "krb_calls_files", "files_in_c"
LIMIT = reference.LIMIT
# A longer text is shown by its length and its hash.
TEXT = 1024

HOLES = (TOP / "examples/mit-holes.keytab").read_bytes()
KEY = bytes.fromhex("3705d96080c17728a0e800eab6e0d23c")


# What is shown.


def text_shown(text):
    return text if len(text) <= TEXT else shown(text.encode())


def name_shown(name):
    return f"{name['name_type']}/{text_shown(reference.name_text(name))}"


def entry_shown(it):
    return f"{name_shown(it)} {it['timestamp']} {it['kvno']} {it['etype']} {shown(it['key'])}"


def truth(value):
    return "true" if value else "false"


def credential_shown(it):
    """What the library for C says of a credential."""
    names = f"{name_shown(it['client'])} {name_shown(it['server'])}"
    times = " ".join(str(it[word]) for word in ("authtime", "starttime", "endtime", "renew_till"))
    key, ticket = shown(it["key"]), shown(it["ticket"])
    return f"{names} {it['etype']} {key} {times} {truth(it['is_skey'])} {it['flags']} {ticket}"


def typed_shown(items):
    return " ".join([str(len(items)), *(f"{kind} {shown(text)}" for kind, text in items)])


def all_shown(it):
    """All of a credential."""
    lists = f"{typed_shown(it['addresses'])} {typed_shown(it['authdata'])}"
    return f"{credential_shown(it)} {shown(it['second_ticket'])} {lists} {truth(reference.is_configuration(it))}"


def fault_shown(fault):
    return fault.name if fault.at is None else f"{fault.name} {{ at: {fault.at} }}"


def offset_shown(fields):
    offset = next((struct.unpack(">ii", value) for tag, value in fields if tag == 1), None)
    return f"{offset[0]} {offset[1]}" if offset else "none"


def entries_shown(entries):
    return " ".join([str(len(entries)), *map(entry_shown, entries)])


def cache_shown(fields, default, credentials, credential=credential_shown):
    return " ".join([name_shown(default), offset_shown(fields), str(len(credentials)), *map(credential, credentials)])


def converted(convert, file):
    """The bytes of a file as they are written, or the fault."""
    try:
        return f"ok {shown(convert(file))}"
    except Fault as fault:
        return fault_shown(fault)


# Reading off a source of pieces.


class Failed(Exception):
    """A read failed."""


class Item(str):
    """An item as it is shown, where a fault or the end might be."""


class Source:
    """Gives some bytes a read; its read of the number `failing` fails."""

    def __init__(self, data, piece, failing=None):
        self.data, self.piece, self.failing = data, piece, failing
        self.at = self.reads = self.failures = 0

    def read(self, most):
        self.reads += 1
        if self.reads == self.failing:
            self.failures += 1
            raise Failed
        count = min(self.piece, most, len(self.data) - self.at)
        self.at += count
        return count

    def spelled(self):
        return f"piece:{self.piece}" + ("" if self.failing is None else f":{self.failing}")

    def back(self):
        return f"failures {self.failures} left {len(self.data) - self.at}"


class AtHand:
    """The bytes of a source that are at hand, of which the most are counted."""

    def __init__(self, source):
        self.source, self.start, self.held = source, 0, 0

    def bytes(self):
        return self.source.data[self.start : self.source.at]

    def clear(self):
        self.start = self.source.at

    def fill(self, count):
        while count:
            came = self.source.read(min(count, 65_536))
            self.held = max(self.held, self.source.at - self.start)
            if not came:
                return False
            count -= came
        return True

    def pass_over(self, count):
        while count:
            came = self.source.read(min(count, 4_096))
            if not came:
                return False
            count -= came
        return True

    def run_out(self):
        while self.source.at <= LIMIT:
            if not self.source.read(min(LIMIT - self.source.at + 1, 4_096)):
                return True
        return False


class Entries:
    """Answers as a reader of entries does."""

    def __init__(self, source):
        self.hand, self.last, self.is_begun = AtHand(source), None, False

    def concluded(self, answer):
        return answer if self.hand.run_out() else "TooLong"

    def step(self):
        source = self.hand.source
        if not self.is_begun:
            self.is_begun = True
            whole = self.hand.fill(2)
            if self.hand.bytes() != b"\5\2":
                return self.concluded("Version") if whole else "Version"
        while True:
            at = source.at
            self.hand.clear()
            whole = self.hand.fill(min(4, LIMIT - at))
            few = self.hand.bytes()
            if len(few) < 4:
                last = f"Truncated {{ at: {at} }}" if few else "end"
                return self.concluded(last) if whole else last
            size = struct.unpack(">i", few)[0]
            if size == 0:
                return self.concluded("end")
            if abs(size) > LIMIT - source.at:
                return self.concluded(f"Truncated {{ at: {at} }}")
            if size < 0:
                if not self.hand.pass_over(-size):
                    return f"Truncated {{ at: {at} }}"
                continue
            self.hand.clear()
            if not self.hand.fill(size):
                return f"Truncated {{ at: {at} }}"
            try:
                return Item(entry_shown(reference.keytab_entry(self.hand.bytes(), 0, size)))
            except Short:
                return self.concluded(f"BadEntry {{ at: {at} }}")

    def next(self):
        if self.last is None:
            try:
                answer = self.step()
            except Failed:
                answer = "Read"
            if isinstance(answer, Item):
                return answer
            self.last = answer
        return self.last


class Stop(Exception):
    """The bytes of a part aren't there; `is_out` if the source is at its end."""

    def __init__(self, is_out):
        super().__init__()
        self.is_out = is_out


class Credentials:
    """Answers as a reader of credentials does."""

    def __init__(self, source):
        self.hand, self.last = AtHand(source), None

    def take(self, count):
        if count > LIMIT - self.hand.source.at:
            raise Stop(False)
        if not self.hand.fill(count):
            raise Stop(True)

    def number(self, form, after=0):
        """The number after so many bytes, with which it is taken."""
        size = struct.calcsize(form)
        self.take(after + size)
        source = self.hand.source
        return struct.unpack(form, source.data[source.at - size : source.at])[0]

    # Each of these takes a part but for its last bytes, after so many others, and gives how many the last ones are.

    def name(self, last=0):
        count, last = self.number(">I", last + 4), self.number(">I")
        for _ in range(count):
            last = self.number(">I", last)
        return last

    def list(self, last):
        count, last = self.number(">I", last), 0
        for _ in range(count):
            last = self.number(">I", last + 2)
        return last

    def credential(self):
        server = self.name(self.name())
        key = self.number(">I", server + (4 if self.found == OLD else 2))
        self.number("B", key + 16)
        authdata = self.list(self.list(4))
        ticket = self.number(">I", authdata)
        self.take(self.number(">I", ticket))
        return reference.credential(Reader(self.hand.bytes()), self.found)

    def version(self):
        self.take(2)
        self.found = self.hand.bytes()
        if self.found not in (OLD, NEW):
            raise Stop(False)

    def header(self):
        if self.found == OLD:
            return []
        self.take(self.number(">H"))
        return reference.header_fields(self.hand.bytes()[2:])

    def default(self):
        self.take(self.name())
        return reference.cache_principal(Reader(self.hand.bytes()))

    def part(self, function, fault):
        """What the function gives, or the fault as it is shown."""
        self.hand.clear()
        try:
            return function(), None
        except Failed:
            return None, "Read"
        except Stop as stop:
            if stop.is_out:
                return None, fault
        except Short:
            pass
        try:
            return None, fault if self.hand.run_out() else "TooLong"
        except Failed:
            return None, "Read"

    def open(self):
        """The fault, or None."""
        _, fault = self.part(self.version, "Version")
        if not fault:
            self.fields, fault = self.part(self.header, "Header")
        if not fault:
            self.name_found, fault = self.part(self.default, f"BadItem {{ at: {self.hand.source.at} }}")
        return fault

    def next(self):
        if self.last is None:
            at = self.hand.source.at
            item, fault = self.part(self.credential, f"BadItem {{ at: {at} }}")
            if not fault:
                return Item(all_shown(item))
            is_end = fault == f"BadItem {{ at: {at} }}" and self.hand.source.at == at
            self.last = "end" if is_end else fault
        return self.last


def conversation(reader, calls, count):
    """So many times these calls in turn, each followed by `held`; up to one answer after the last."""
    words, answers, left = [], [], 1
    for it in range(count):
        call = calls[it % len(calls)]
        answer = reader.next()
        is_item = isinstance(answer, Item)
        passed = {"end": "false"}.get(answer, answer) if not is_item else "true"
        words += [call, "held"]
        answers += [passed if call == "pass" else answer, str(reader.hand.held)]
        if not is_item:
            left -= 1
            if left < 0:
                break
    return " ".join(words), " ".join([*answers, reader.hand.source.back()])


def entry_case(name, file, piece, failing=None, calls=("next",)):
    source = Source(file, piece, failing)
    words, answer = conversation(Entries(source), calls, 100_000)
    return PROGRAM, name, [f"entries {source.spelled()} {packed(file)} {words}"], [answer]


def credential_case(name, file, piece, failing=None, calls=("next",)):
    source = Source(file, piece, failing)
    reader = Credentials(source)
    line, fault = f"credentials {source.spelled()} {packed(file)}", reader.open()
    if fault:
        return PROGRAM, name, [line], [f"{fault} {source.back()}"]
    words, answer = conversation(reader, calls, 100_000)
    front = f"{name_shown(reader.name_found)} {offset_shown(reader.fields)}"
    return PROGRAM, name, [f"{line} {words}"], [f"{front} {answer}"]


def each_call(case, name, file, piece, failing=None):
    for calls in (("next",), ("pass",), ("pass", "next")):
        yield case(f"{name}, by {' and '.join(calls)}", file, piece, failing, calls)


def reading_case(kind, name, file, piece, found):
    """What is read of a source that gives so many bytes a read."""
    back = f"failures 0 left {max(0, len(file) - LIMIT - 1)}"
    return PROGRAM, f"{name}, off a source", [f"{kind} piece:{piece} {packed(file)}"], [f"{found} {back}"]


def keytab_cases(name, file, piece=4_096):
    """What a keytab is parsed as and written as, and what is read of a source."""
    try:
        found = entries_shown(reference.keytab(file))
    except Fault as fault:
        found = fault_shown(fault)
        yield IN_C, name, [f"keytab parse {packed(file)}"], [found]
    else:
        written = converted(reference.convert_keytab, file)
        yield IN_C, name, [f"keytab parse {packed(file)}", f"keytab write {packed(file)}"], [f"ok {found}", written]
    yield reading_case("keytab", name, file, piece, found)


def cache_cases(name, file, piece=4_096):
    """What a cache is parsed as; and what is read of a source, and written."""
    try:
        parts = reference.cache(file)
    except Fault as fault:
        found = parsed = fault_shown(fault)
    else:
        parsed = f"ok {cache_shown(*parts)}"
        found = f"{cache_shown(*parts, all_shown)} {converted(reference.convert_ccache, file).removeprefix('ok ')}"
    yield IN_C, name, [f"cache parse {packed(file)}"], [parsed]
    yield reading_case("cache", name, file, piece, found)


# What is drawn of a file: the calls of its reader and of what reads it as a whole.

KEYTABS, CACHES = (entry_case, keytab_cases), (credential_case, cache_cases)


def read_in_each_way(kinds, name, file, piece):
    reader, whole = kinds
    yield reader(name, file, piece)
    yield from whole(f"{name}, as a whole", file, piece)


def read_and_parsed(kinds, name, file, pieces, most=4_096):
    reader, whole = kinds
    for piece in pieces:
        yield from each_call(reader, f"{name}, {piece} a read", file, piece)
    yield from whole(f"{name}, as a whole", file, most)


def beginnings(kinds, name, file, pieces):
    for length in range(len(file) + 1):
        yield from read_and_parsed(kinds, f"{length} bytes of {name}", file[:length], pieces, 50)


def with_other_bytes(kinds, name, file, values, piece):
    for at in range(len(file)):
        for value in values:
            changed = file[:at] + bytes([value]) + file[at + 1 :]
            yield from read_and_parsed(kinds, f"{value} at {at} of {name}", changed, (piece,))


def with_failures(kinds, name, file, pieces, most):
    for piece in pieces:
        for failing in range(1, most):
            yield from each_call(kinds[0], f"{name} of whose reads {failing} fails", file, piece, failing)


# Keytabs.


def record(components, key, kvno=3, realm=b"EX"):
    return record_of({"realm": realm, "components": components, "name_type": 1, "timestamp": 1_700_000_000,
                      "kvno": kvno, "etype": 19, "key": key})


START = b"\5\2"
ALICE = record([b"alice"], KEY, 256)


def entry_words(components, key):
    return f"1/4558/{components} 1700000000 3 19 {key}"


def keytabs_of_sizes():
    """Names of 0 to 300 components, and keys of as many bytes; and files of 0 to 300 entries."""
    for count in range(301):
        file = START + record([b"host"] * count, b"\7" * count)
        yield from keytab_cases(f"a keytab with a name of {count} components", file)
        # (the text of a name without components is that of one with an empty component)
        if count:
            words = entry_words(f"686f7374^{count}", f"07*{count}")
            yield IN_C, f"an entry of {count} components is added", [f"keytab add 0502 {words}"], [f"ok {shown(file)}"]
    one, words, file = record([b"host"] * 2, b"\7\7"), entry_words("686f7374^2", "0707"), START
    for count in range(301):
        lines = [f"keytab add {packed(file)} {words}", f"keytab turned {packed(file)}"]
        yield IN_C, f"an entry is added to {count}", lines, [f"ok {shown(file + one)}", "same"]
        yield from keytab_cases(f"a keytab of {count} entries", file)
        file += record([b"host", b"web%d" % count], b"\7" * 32, count)


def other_keytabs():
    """Beginnings of a file of MIT's, and one with each byte another; sources that fail."""
    yield from beginnings(KEYTABS, "a keytab", HOLES, (1, 7))
    yield from with_other_bytes(KEYTABS, "a keytab", START + ALICE, (0, 1, 0x7F, 0x80, 0xFF), 3)
    yield from with_failures(KEYTABS, "a keytab", HOLES, (50,), 30)


# Caches.


HOST = {"name_type": 1, "realm": b"EX", "components": [b"host"]}
NONE = {"client": HOST, "server": HOST, "etype": 19, "key": b"", "authtime": 1, "starttime": 2, "endtime": 3,
        "renew_till": 4, "is_skey": 0, "flags": 5, "addresses": [], "authdata": [], "ticket": b"", "second_ticket": b""}


def host(size, **more):
    """A name of so many components."""
    return {**HOST, "components": [b"host"] * size, **more}


def sized(size):
    """The bytes of a credential whose names, lists, key and tickets have so many components, elements and bytes."""
    lists = [(2, b"\x7f\0\0\1")] * size
    texts = {"key": b"\x09" * size, "ticket": b"\7" * size, "second_ticket": b"\x08" * size}
    names = {"client": host(size), "server": host(size)}
    return credential_of({**NONE, **names, **texts, "etype": 20, "addresses": lists, "authdata": lists})


def cache_of(*credentials, fields=(), default=HOST):
    """The bytes of a cache of these credentials. Of its header's fields each is a tag and a value."""
    header = b"".join(struct.pack(">H", tag) + data16_of(value) for tag, value in fields)
    return NEW + data16_of(header) + name_of(default) + b"".join(credentials)


def made_case(name, fields, *credentials, default=HOST):
    """A cache is made of the fields of a header and of the credentials of a file that has none."""
    bare, file = cache_of(*credentials, default=default), cache_of(*credentials, fields=fields, default=default)
    words = " ".join([str(len(fields)), *(f"{tag} {packed(value)}" for tag, value in fields)])
    _, default, found = reference.cache(bare)
    written = shown(file) if len(file) <= LIMIT else "TooLong"
    answer = f"{cache_shown(fields, default, found, all_shown)} {written}"
    yield PROGRAM, f"{name} is made", [f"made slice {packed(bare)} {words}"], [answer]
    yield from cache_cases(name, file)


def caches_of_sizes():
    """Caches with so many of each: components, elements and bytes. The header has as many fields of as many bytes, but
    100 at most."""
    for size in range(301):
        fields = [(2, b"\6" * size)] * min(size, 100)
        yield from made_case(f"a cache with {size} of each", fields, sized(size), default=host(size))
    for count in range(0, 301, 10):
        yield from made_case(f"a cache of {count} credentials", [(2, b"\6")], *[sized(1)] * count, default=host(1))


def unreal_ticket():
    """The client's ticket, whose cipher is no real one."""
    return fixture.ticket(bytes((3 + 7 * it) % 256 for it in range(151)))


def full_credential(again=b""):
    """A credential in which each field has a value of its own; with these bytes after its encryption type."""
    client, server = fixture.principal(3, b"EX", b"host", b"web"), fixture.principal(1, b"EX", b"alice")
    lists = struct.pack(">IHI", 1, 2, 4) + b"\x7f\0\0\1" + struct.pack(">IHI", 2, 1, 2) + b"ab"
    lists += struct.pack(">HI", 65_535, 0)
    numbers = struct.pack(">4IBI", 1, 2, 3, 4, 1, 0x4061_0000)
    key = struct.pack(">h", -3) + again + fixture.data(b"\x09")
    return client + server + key + numbers + lists + fixture.data(b"t") + fixture.data(b"uv")


def full_cache():
    return b"\5\4\0\0" + fixture.principal(1, b"EX", b"alice") + full_credential()


def bare_credential(again=b""):
    """A credential without addresses, authorization data and a second ticket."""
    client = fixture.principal(1, b"EX", b"alice")
    return fixture.credential(client, fixture.principal(2, b"EX", b"krbtgt", b"EX"), 20, b"\x07\x08", (5, 6, 7, 8),
                              b"tu", again)


def two_credentials():
    """Caches of both versions with two credentials, of which the first has all fields, or none of the lists and the
    second ticket."""
    default = fixture.principal(1, b"EX", b"alice")
    for version, start, again in (("0x0504", b"\5\4\0\0", b""), ("0x0503", b"\5\3", b"\0\x11")):
        full, bare = full_credential(again), bare_credential(again)
        yield f"two credentials of {version}, the first with all fields", start + default + full + bare
        yield f"two credentials of {version}, the first without lists", start + default + bare + full


def old_caches():
    """Beginnings of caches of version 0x0503, one with each byte another, and sources that fail; and of caches with two
    credentials."""
    files = dict(two_credentials())
    files["the client's cache of 0x0503"] = fixture.old_cache(unreal_ticket())
    for name, whole in files.items():
        yield from beginnings(CACHES, name, whole, (1, 7))
    whole = files["two credentials of 0x0503, the first with all fields"]
    yield from with_other_bytes(CACHES, "a cache of 0x0503", whole, (0, 1, 2, 4, 0xFF), 64)
    yield from with_failures(CACHES, "a cache of 0x0503", whole, (7, 50), 41)
    for again in (b"\0\0", b"\0\x12", b"\x13\0", b"\xff\xff"):
        yield from cache_cases(f"a second encryption type of {again.hex()}", fixture.old_cache(unreal_ticket(), again))
    for length in (LIMIT, LIMIT + 1):
        size = length - 18
        file = OLD + struct.pack(">iIII", 1, 1, 0, size) + b"\7" * size
        yield from read_in_each_way(CACHES, f"a cache of 0x0503 of {length} bytes without credentials", file, 65_536)


def drawn_text(draw, most):
    return draw.randbytes(draw.randrange(most))


def drawn_name(draw):
    components = [drawn_text(draw, 6) for _ in range(draw.randrange(4))]
    return fixture.principal(draw.randrange(-(2**31), 2**31), drawn_text(draw, 6), *components)


def drawn_list(draw):
    items = [struct.pack(">H", draw.randrange(2**16)) + fixture.data(drawn_text(draw, 6))
             for _ in range(draw.randrange(3))]
    return struct.pack(">I", len(items)) + b"".join(items)


def drawn_cache(draw, is_old):
    """The bytes of a cache of either version."""
    fields = b"".join(struct.pack(">H", 2 + draw.randrange(9)) + data16_of(drawn_text(draw, 6))
                      for _ in range(draw.randrange(3)))
    if draw.randrange(2):
        fields += struct.pack(">HH", 1, 8) + draw.randbytes(8)
    found = OLD if is_old else NEW + data16_of(fields)
    found += drawn_name(draw)
    for _ in range(draw.randrange(4)):
        found += drawn_name(draw) + drawn_name(draw)
        found += draw.randbytes(4 if is_old else 2) + fixture.data(drawn_text(draw, 20))
        found += draw.randbytes(16) + bytes([draw.randrange(2)]) + draw.randbytes(4)
        found += drawn_list(draw) + drawn_list(draw)
        found += fixture.data(drawn_text(draw, 20)) + fixture.data(drawn_text(draw, 6))
    return found


def drawn_caches():
    """500 caches of each version; one in three with a byte another."""
    draw = random.Random("credential caches")
    for number in range(1_000):
        data = drawn_cache(draw, number % 2)
        if draw.randrange(3) == 0:
            at = draw.randrange(len(data))
            data = data[:at] + draw.randbytes(1) + data[at + 1 :]
        yield from read_in_each_way(CACHES, f"drawn cache {number}", data, draw.randrange(1, 70))


def other_caches():
    """Beginnings of three caches, one with each byte another or with four, and sources that fail."""
    files = {"ticket": fixture.cache(unreal_ticket()), "configured": fixture.configured_cache(), "full": full_cache()}
    for name, whole in files.items():
        yield from beginnings(CACHES, f"the {name} cache", whole, (7,))
    whole = files["ticket"]
    for length in range(len(whole) + 1):
        for piece in (1, 2, 3):
            yield credential_case(f"{length} bytes of a ticket's cache, {piece} a read", whole[:length], piece)
    yield from with_other_bytes(CACHES, "a cache", files["full"], (0, 1, 2, 0xFF), 64)
    yield from with_failures(CACHES, "a cache", whole, (7, 50), 41)
    empty = cache_of(sized(0), default=host(0))
    for at in range(len(empty) - 3):
        yield from cache_cases(f"a count of 4294967295 at {at}", empty[:at] + b"\xff" * 4 + empty[at + 4 :])


# Sizes at which memory is taken. There is ample memory, so out of memory is a wrong answer to any of them.


LONG = b"\x61" * 60_000


def large_caches():
    plain, long = credential_of(NONE), {**HOST, "realm": LONG}
    yield "a realm of 60000 bytes", cache_of(plain, default=long)
    yield "a component of 60000 bytes", cache_of(plain, default={**long, "components": [LONG]})
    names = {"client": {**long, "components": [LONG] * 2}, "server": {**long, "components": [LONG]}}
    yield "names of 60000 bytes", cache_of(credential_of({**NONE, **names}))
    for part in ("key", "ticket", "second_ticket"):
        yield f"a {part} of 60000 bytes", cache_of(credential_of({**NONE, part: LONG}))
    for part in ("addresses", "authdata"):
        yield f"{part} of 60000 bytes", cache_of(credential_of({**NONE, part: [(3, LONG)] * 2}))
        yield f"1000 {part}", cache_of(credential_of({**NONE, part: [(3, b"abcd")] * 1_000}))
    many = host(1_000)
    yield "names of 1000 components", cache_of(credential_of({**NONE, "client": many, "server": many}), default=many)
    yield "a header field of 60000 bytes", cache_of(plain, fields=[(2, LONG)])
    yield "1000 header fields", cache_of(plain, fields=[(3, b"abcd")] * 1_000)
    yield "2000 credentials", cache_of(*(credential_of({**NONE, "ticket": struct.pack(">I", it)})
                                         for it in range(2_000)))


def long_keytabs():
    yield "a realm of 60000 bytes", START + record([b"host"], KEY, realm=LONG)
    yield "components of 60000 bytes", START + record([LONG] * 2, KEY)
    yield "a key of 60000 bytes", START + record([b"host"], LONG)
    yield "1000 components", START + record([b"host"] * 1_000, KEY)
    yield "2000 entries", START + b"".join(record([b"host"] * 2, KEY, it) for it in range(2_000))
    hole = struct.pack(">i", -150_000) + b"\x09" * 150_000
    yield "a hole of 150000 bytes between two entries", START + ALICE + hole + ALICE


def removed(data, index):
    """The keytab with the record of an entry made a hole."""
    at = 2
    while True:
        size = struct.unpack(">i", data[at : at + 4])[0]
        if size > 0:
            if not index:
                return data[:at] + struct.pack(">i", -size) + bytes(size) + data[at + 4 + size :]
            index -= 1
        at += 4 + abs(size)


def added(data, one):
    """The keytab with this record more: in the first hole that is long enough, or in place of the end."""
    at = 2
    while at < len(data):
        size = struct.unpack(">i", data[at : at + 4])[0]
        if size == 0:
            break
        if -size >= len(one) - 4:
            rest = -size - len(one) + 4
            return data[:at] + struct.pack(">i", -size) + one[4:] + bytes(rest) + data[at + 4 - size :]
        at += 4 + abs(size)
    return reference.within_limit(data[:at] + one)


def edited_case(name, file, one, words):
    """The keytab with this entry more, or why there is none."""
    lines = [f"keytab add {packed(file)} {words}"]
    try:
        made = added(file, one)
    except Fault as fault:
        return IN_C, name, lines, [f"{fault.name} {shown(file)}"]
    return IN_C, name, lines, [f"ok {shown(made)}"]


def edits_of_large_files():
    words = f"1/4558/616c696365 1700000000 256 19 {KEY.hex()}"
    hole = struct.pack(">i", -200_000) + b"\x09" * 200_000
    yield edited_case("an entry is added into a hole of 200000 bytes", START + ALICE + hole + ALICE, ALICE, words)
    entries = START + ALICE * 20_001
    yield edited_case("an entry is added to a file of 1 MB", entries, ALICE, words)
    gone = removed(entries, 19_999)
    name = "an entry of a file of 1 MB is removed"
    yield IN_C, name, [f"keytab remove 19999 {packed(entries)}"], [f"ok {shown(gone)}"]
    for key in (65_209, 65_208):
        yield edited_case(f"an entry is added to a file of {16_711_958 + key} bytes", full_keytab(key), ALICE, words)


def full_keytab(key):
    """A keytab of one entry, with 255 components of 65535 bytes and a key of so many, without a version number of 32
    bits. It has 16711958 bytes and those of the key."""
    name = b"\0\xff\0\0" + data16_of(b"\x61" * 65_535) * 255
    numbers = struct.pack(">iIBh", 1, 0, 1, 18)
    return START + struct.pack(">I", 16_711_952 + key) + name + numbers + data16_of(b"\7" * key)


def most_of_a_keytab():
    """Keytabs at the limit, and a byte past it; one that is longer where it is written."""
    for key in (65_258, 65_254):
        file = full_keytab(key)
        yield from keytab_cases(f"a keytab of {len(file)} bytes, written", file, 65_536)
    file = full_keytab(65_258)
    yield entry_case(f"a reader of a keytab of {len(file)} bytes", file, 65_536)
    yield from read_in_each_way(KEYTABS, f"a keytab of {len(file) + 1} bytes", file + b"\0", 65_536)


def most_of_a_cache():
    # (a header's field of one byte has five)
    small = len(cache_of(credential_of(NONE))) + 5
    for length in (65_535, 65_536, 100_000, LIMIT - small, LIMIT - small + 1):
        one, name = credential_of({**NONE, "ticket": b"\7" * length}), f"a cache with a ticket of {length} bytes"
        yield from made_case(name, [(2, b"\6")], one)
        yield credential_case(f"a reader of {name}", cache_of(one, fields=[(2, b"\6")]), 65_536)


# Of so many items, a file of small ones still has room.
MOST = 20_000


def many_items():
    """Very many entries and credentials."""
    yield from keytab_cases(f"a keytab of {MOST} entries", START + record([b"host"] * 2, KEY) * MOST, 65_536)
    yield from cache_cases(f"a cache of {MOST} credentials", cache_of(credential_of(NONE) * MOST), 65_536)


def wide_records():
    """Entries and credentials of 1 MiB, with very many components."""
    file = START + record([b"\7" * 14] * 65_535, b"", realm=b"")
    yield from each_call(entry_case, "an entry of 65535 components", file, 65_536)
    body = b"\xff\xff\0\0" + data16_of(b"\7" * 14) * 65_535 + struct.pack(">iIBhB", 1, 0, 1, 19, 0)
    cut = START + struct.pack(">i", len(body)) + body
    yield from each_call(entry_case, "an entry of 65535 components, cut", cut, 65_536)
    name = {"name_type": 0, "realm": b"", "components": []}
    zeros = {**dict.fromkeys(("etype", "authtime", "starttime", "endtime", "renew_till", "flags"), 0), "client": name}
    for flag in (1, 2):
        wide = {**name, "name_type": 1, "components": [b""] * 262_000}
        file = cache_of(credential_of({**NONE, **zeros, "server": wide, "is_skey": flag}), default=name)
        yield from each_call(credential_case, f"a credential of 262000 components, of flag {flag}", file, 65_536)


def sizes():
    for name, file in long_keytabs():
        yield from read_and_parsed(KEYTABS, f"a keytab with {name}", file, (4_096,))
    for name, file in large_caches():
        yield from read_and_parsed(CACHES, f"a cache with {name}", file, (4_096,))
    for part in (edits_of_large_files, most_of_a_keytab, most_of_a_cache, many_items, wide_records, long_words):
        yield from part()


def long_words():
    """Strings, names and lists, made by the calls themselves."""
    long, told = "61*60000", shown(b"a" * 60_000)
    lines = [f"bytes {long} {long}", "list 1000" + " 2 7f000001" * 1_000]
    answers = [f"60000 false {told} {told} true", f"false {typed_shown([(2, bytes.fromhex('7f000001'))] * 1_000)}"]
    yield PROGRAM, "long strings and lists", lines, answers
    for realm, components in ((b"a" * 1_000_000, [b"b"]), (b"EX", [b"a" * 1_000_000]), (b"EX", [b"host"] * 20_000)):
        name = {"name_type": 3, "realm": realm, "components": components}
        text = reference.name_text(name)
        line = " ".join([f"name 3/{text} 3 {len(components)} {realm.hex()}", *(it.hex() for it in components)])
        items = " ".join(map(shown, components))
        yield PROGRAM, f"a name of {len(text)} letters", [line], [f"{len(components)} false {items} {name_shown(name)}"
                                                                  + " true" * 4]


# Lengths and counts that the bytes don't bear out.

CLAIMED = struct.pack(">I", 16_000_000)


def claims():
    """A name, and the bytes of a file that claims 16 MB by a length or a count, and has a few bytes."""
    start, name, small = b"\5\2", fixture.principal(1, b"EX", b"alice"), b"\0" * 8
    for what, body in {"a record": CLAIMED + small, "a hole": struct.pack(">i", -16_000_000) + small}.items():
        yield what, start + body
    counted = struct.pack(">i", 16) + b"\xff\xff" + bytes(14)
    yield "the components of an entry", start + counted
    front, key = b"\5\4\0\0", struct.pack(">h", 19)
    numbers, item = struct.pack(">4IBI", 1, 2, 3, 4, 0, 5), struct.pack(">HI", 2, 2) + b"ab"
    yield "a header", b"\5\4\xff\xff" + small
    yield "a field of a header", b"\5\4\0\x08\0\2\xff\xff" + small
    claiming, short = struct.pack(">i", 1) + CLAIMED, fixture.data(b"EX") + fixture.data(b"a")
    yield "the components of the default principal", front + claiming + short
    yield "the realm of the default principal", front + struct.pack(">iI", 1, 1) + CLAIMED + b"EX"
    yield "a component of the default principal", front + struct.pack(">iI", 1, 2) + short + CLAIMED + b"b"
    begun = front + name
    yield "the components of a client", begun + claiming + short
    yield "the components of a server", begun + name + claiming + short
    begun += name + name + key
    yield "a session key", begun + CLAIMED + small
    begun += fixture.data(b"") + numbers
    yield "the addresses of a credential", begun + CLAIMED + item
    yield "an address", begun + struct.pack(">I", 2) + item + b"\0\2" + CLAIMED + b"ab"
    begun += bytes(4)
    yield "the authorization data of a credential", begun + CLAIMED + item
    yield "an element of authorization data", begun + struct.pack(">I", 1) + b"\0\1" + CLAIMED + b"ab"
    begun += bytes(4)
    yield "a ticket", begun + CLAIMED + small
    yield "a second ticket", begun + fixture.data(b"t") + CLAIMED + small


def claim_cases():
    for name, data in claims():
        yield from read_and_parsed(KEYTABS if data[1] == 2 else CACHES, f"16 MB are claimed by {name}", data, (100,))


# Names.


def names():
    """Names of 1 to 300 components become texts and names again."""
    for count in range(1, 301):
        parts = [*(b"c%d" % it for it in range(1, count)), b"last"]
        text, word = reference.principal_text(b"EX", parts), name_word(1, b"EX", parts)
        told = f"={text}" if len(text) <= TEXT else shown(text.encode())
        yield IN_C, f"a name of {count} components", [f"name text {word}", f"name read 1 ={text}"], [told, word]


PARTS = (names, keytabs_of_sizes, other_keytabs, caches_of_sizes, other_caches, old_caches, drawn_caches, sizes,
         claim_cases)
