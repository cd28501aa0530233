"""Calls of names, keytabs and credential caches by the library for C, which a test loads by the fixture `in_c`: one
answer for each line (calls.py).

A name that is given is `TYPE/REALM/COMPONENTS`, of bytes: components are joined by `,`, `.` stands for none, and
`ITEM^N` for an item N times. A name that is shown is `TYPE/TEXT`. A text of more than 1,024 letters stands as
`#LENGTH:SHA256`.

    new                                 is answered `new`: nothing is kept from line to line
    name read TYPE =TEXT                the name, as it is written into a keytab, like one that is given
    name text NAME                      the text of the name, after a `=`
    keytab parse FILE                   the entries, each NAME TIMESTAMP KVNO ETYPE KEY
    keytab write FILE                   the new file
    keytab remove INDEX FILE            the new file; or the fault, and the bytes that were given
    keytab add FILE ENTRY               likewise
    keytab turned FILE                  each entry is removed and added again: `same` if the file is then as it was
    entry new ENTRY                     the entry; or `none` if it doesn't fit into a keytab
    cache parse FILE                    the owner, the offset and the credentials, each CLIENT SERVER ETYPE KEY AUTHTIME
                                        STARTTIME ENDTIME RENEW_TILL IS_SKEY FLAGS TICKET

A fault is shown by its word in one of two tables; those of the second have an offset.
"""
import ctypes
from ctypes import byref

from fevstunik import Code, Error
from fevstunik._interface import CacheEntry, KeyEntry, KeyParts, Owner
from fevstunik._library import Handle, done, filled, library, read
from support import reference
from support.calls import bytes_of
from support.exchange_made import name_word, shown

EMPTY = b"\5\2"
# What the codes are called; those of the second table in a keytab, a cache or a name.
WORDS = {Code.FILE_VERSION: "Version", Code.FILE_HEADER: "Header", Code.TOO_LONG: "TooLong",
         Code.NO_SUCH_ENTRY: "NoSuchEntry", Code.NO_REALM: "NoRealm"}
PLACED = {("keytab", Code.FILE_TRUNCATED): "Truncated", ("keytab", Code.FILE_BAD_ITEM): "BadEntry",
          ("cache", Code.FILE_BAD_ITEM): "BadItem", ("name", Code.BAD_TEXT): "BadText"}
# A longer text is shown by its length and its hash.
SHOWN = 1024


def fault_shown(kind, fault):
    if isinstance(fault, MemoryError):
        return "OutOfMemory"
    placed = PLACED.get((kind, fault.code))
    return f"{placed} {{ at: {fault.offset} }}" if placed else WORDS.get(fault.code, fault.name)


def text_shown(text):
    return text if len(text) <= SHOWN else shown(text.encode())


def name_shown(name_type, span, data):
    return f"{name_type}/{text_shown(span.text(data))}"


# Names.


def name_of(word):
    """The type, realm and components that a word says."""
    name_type, realm, listed = word.split("/")
    components = []
    for item in listed.split(",") if listed != "." else ():
        digits, _, count = item.partition("^")
        components += [bytes_of(digits)] * int(count or 1)
    return {"name_type": int(name_type), "realm": bytes_of(realm), "components": components}


def name_read(*words):
    """Reads a text in both ways. (The name is decoded from the bytes of a keytab, by the rules of the format.)"""
    name_type, text = " ".join(words).split(" =", 1)
    data = text.encode()
    checked = library().call("name_check", data, len(data))
    try:
        file = added(EMPTY, data, b"", KeyParts(0, 0, int(name_type), 0))
    except Error as fault:
        is_same = (fault.code, fault.offset) == (checked.code, checked.at)
        return fault_shown("name", fault) if is_same else f"the check says {Code(checked.code).name} at {checked.at}"
    name = reference.keytab(file)[0]
    if (checked.code, checked.size) != (Code.OK, len(name["components"])):
        return f"the check says {Code(checked.code).name}, {checked.size}"
    return name_word(name["name_type"], name["realm"], name["components"])


def name_text(word):
    entry = {**name_of(word), "timestamp": 0, "kvno": 0, "etype": 0, "key": b""}
    _, (found,) = items("keytab", EMPTY + reference.record_of(entry), entry_at)
    text = found[0].name.text(found[1])
    return f"={text}" if len(text) <= SHOWN else text_shown(text)


# Files.


def items(kind, file, item_at):
    """A handle of a file that is read, and its items. The check of the file alone returns the same."""
    handle = Handle(kind)
    checked = library().call(f"{kind}_check", file, len(file))
    answer = handle.call(f"{kind}_new", file, len(file))
    if (answer.code, answer.at, answer.size) != (checked.code, checked.at, checked.size):
        raise ValueError(f"{Code(answer.code).name} at {answer.at}, but the check says {Code(checked.code).name}")
    return handle, [item_at(handle, index) for index in range(done(answer).size)]


def entry_at(handle, index):
    return read(KeyEntry, handle.call, "keytab_entry", index)


def entry_shown(found):
    it, data = found
    return f"{name_shown(it.name_type, it.name, data)} {it.timestamp} {it.kvno} {it.key_type} {shown(it.key.of(data))}"


def keytab_shown(file):
    _, entries = items("keytab", file, entry_at)
    return " ".join(["ok", str(len(entries)), *map(entry_shown, entries)])


def credential_shown(handle, index):
    it, data = read(CacheEntry, handle.call, "cache_credential", index)
    names = name_shown(it.client_type, it.client, data), name_shown(it.server_type, it.server, data)
    times = it.authtime, it.starttime, it.endtime, it.renew_till
    return " ".join(map(str, (*names, it.key_type, shown(it.key.of(data)), *times, str(it.is_skey).lower(), it.flags,
                              shown(it.ticket.of(data)))))


def cache_shown(file):
    handle, credentials = items("cache", file, credential_shown)
    owner, data = read(Owner, handle.call, "cache_owner")
    offset = f"{owner.offset_seconds} {owner.offset_micros}" if owner.has_offset else "none"
    return " ".join(["ok", name_shown(owner.name_type, owner.name, data), offset, str(len(credentials)), *credentials])


# Edits.


def added(file, name, key, parts):
    room = len(file) + 2 * len(name) + len(key) + 64
    return filled(lambda *into: library().call("keytab_add", file, len(file), name, len(name), key, len(key),
                                               byref(parts), *into), room)


def removed(file, index):
    return filled(lambda *into: library().call("keytab_remove", file, len(file), index, *into), len(file))


def written(file):
    return filled(lambda *into: library().call("keytab_write", file, len(file), *into), 2 * len(file))


def entry_of(words):
    """The name's text, the key and the other parts of an entry that is given."""
    name, timestamp, kvno, etype, key = words
    found = name_of(name)
    parts = KeyParts(int(timestamp), int(kvno), found["name_type"], int(etype))
    return reference.principal_text(found["realm"], found["components"]).encode(), bytes_of(key), parts


def edited(edit, file, *words):
    """The file that an edit gives; or its fault, and the bytes that were given, which it leaves as they were."""
    given = ctypes.create_string_buffer(file, len(file))
    try:
        return f"ok {shown(edit(given, *words))}"
    except (Error, MemoryError) as fault:
        return f"{fault_shown('keytab', fault)} {shown(given.raw)}"


def turned(file):
    for index, (it, data) in enumerate(items("keytab", file, entry_at)[1]):
        parts = KeyParts(it.timestamp, it.kvno, it.name_type, it.key_type)
        if added(removed(file, index), it.name.of(data), it.key.of(data), parts) != file:
            return f"differs at {index}"
    return "same"


def made(*words):
    """An entry that is written into an empty keytab, and read."""
    try:
        file = added(EMPTY, *entry_of(words))
    except Error as fault:
        return "none" if fault.code == Code.TOO_LONG else fault_shown("keytab", fault)
    return f"entry {entry_shown(items('keytab', file, entry_at)[1][0])}"


# The calls, by their first two words; each takes the others.
CALLS = {
    "name read": name_read, "name text": name_text, "entry new": made,
    "keytab parse": lambda file: keytab_shown(bytes_of(file)),
    "keytab write": lambda file: f"ok {shown(written(bytes_of(file)))}",
    "keytab remove": lambda index, file: edited(removed, bytes_of(file), int(index)),
    "keytab add": lambda file, *words: edited(added, bytes_of(file), *entry_of(words)),
    "keytab turned": lambda file: turned(bytes_of(file)), "cache parse": lambda file: cache_shown(bytes_of(file)),
}


def answer(line):
    if line == "new":
        return line
    kind, call, *words = line.split(" ")
    try:
        return CALLS[f"{kind} {call}"](*words)
    except (Error, MemoryError) as fault:
        return fault_shown(kind, fault)


def answers(lines):
    """The answer to each line."""
    return map(answer, lines)
