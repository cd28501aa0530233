"""A second reading of the file formats, written from their rules alone, for what the built program must answer.

docs/FORMATS.md states the rules. Nothing here is taken from the program's sources.
"""
import struct

LIMIT = 16_777_216


class Fault(Exception):
    """A named fault, with its offset where it has one."""

    def __init__(self, name, at=None):
        super().__init__(name)
        self.name = name
        self.at = at

    def __str__(self):
        return self.name if self.at is None else f"{self.name} at {self.at}"


class Short(Exception):
    """The bytes end too early."""


class Reader:
    def __init__(self, data, at=0, end=None):
        self.data, self.at, self.end = data, at, len(data) if end is None else end

    def take(self, count):
        if self.end - self.at < count:
            raise Short
        self.at += count
        return self.data[self.at - count : self.at]

    def number(self, form):
        return struct.unpack(">" + form, self.take(struct.calcsize(form)))[0]

    def data16(self):
        return self.take(self.number("H"))

    def data32(self):
        return self.take(self.number("I"))


def letter(byte):
    if byte in b"/@\\":
        return "\\" + chr(byte)
    return chr(byte) if 0x21 <= byte <= 0x7E else f"\\x{byte:02x}"


LETTERS = list(map(letter, range(256)))


def escaped(text):
    return "".join(map(LETTERS.__getitem__, text))


def principal_text(realm, components):
    return "/".join(escaped(it) for it in components) + "@" + escaped(realm)


def keytab_entry(data, at, end):
    reader = Reader(data, at, end)
    count = reader.number("H")
    realm = reader.data16()
    components = [reader.data16() for _ in range(count)]
    name_type = reader.number("i")
    timestamp = reader.number("I")
    kvno = reader.number("B")
    etype = reader.number("h")
    key = reader.data16()
    if reader.end - reader.at >= 4:
        kvno = reader.number("I") or kvno
    return {"realm": realm, "components": components, "name_type": name_type, "timestamp": timestamp, "kvno": kvno,
            "etype": etype, "key": key}


def keytab(data):
    """The entries of a keytab; raises its Fault."""
    if len(data) > LIMIT:
        raise Fault("TooLong")
    if data[:2] != b"\x05\x02":
        raise Fault("Version")
    entries, at = [], 2
    while at < len(data):
        if len(data) - at < 4:
            raise Fault("Truncated", at)
        size = struct.unpack(">i", data[at : at + 4])[0]
        if size == 0:
            break
        end = at + 4 + abs(size)
        if end > len(data):
            raise Fault("Truncated", at)
        if size > 0:
            try:
                entries.append(keytab_entry(data, at + 4, end))
            except Short:
                raise Fault("BadEntry", at) from None
        at = end
    return entries


def keytab_line(entry):
    name = principal_text(entry["realm"], entry["components"])
    return f"{entry['kvno']} {entry['etype']} {entry['timestamp']} {name}\n"


def list_keytab(data):
    return "".join(map(keytab_line, keytab(data)))


def check_keytab(data):
    return f"ok {len(keytab(data))}\n"


def data16_of(text):
    return struct.pack(">H", len(text)) + text


def record_of(entry):
    body = struct.pack(">H", len(entry["components"])) + data16_of(entry["realm"])
    body += b"".join(data16_of(it) for it in entry["components"])
    body += struct.pack(">iIBh", entry["name_type"], entry["timestamp"], entry["kvno"] % 256, entry["etype"])
    body += data16_of(entry["key"]) + struct.pack(">I", entry["kvno"])
    return struct.pack(">i", len(body)) + body


def within_limit(made):
    if len(made) > LIMIT:
        raise Fault("TooLong")
    return made


def convert_keytab(data):
    """The keytab without holes, rests and end word."""
    return within_limit(b"\x05\x02" + b"".join(record_of(it) for it in keytab(data)))


# What credential caches begin with: the older version has no header, and each encryption type twice.
OLD, NEW = b"\x05\x03", b"\x05\x04"


def cache_principal(reader):
    name_type, count = reader.number("i"), reader.number("I")
    realm = reader.data32()
    components = []
    for _ in range(count):
        components.append(reader.data32())
    return {"name_type": name_type, "realm": realm, "components": components}


def typed_list(reader):
    count, items = reader.number("I"), []
    for _ in range(count):
        items.append((reader.number("H"), reader.data32()))
    return items


def credential(reader, version):
    item = {"client": cache_principal(reader), "server": cache_principal(reader)}
    item["etype"] = reader.number("h")
    if version == OLD:
        reader.take(2)
    item["key"] = reader.data32()
    for word in ("authtime", "starttime", "endtime", "renew_till"):
        item[word] = reader.number("I")
    item["is_skey"] = reader.number("B")
    if item["is_skey"] > 1:
        raise Short
    item["flags"] = reader.number("I")
    item["addresses"], item["authdata"] = typed_list(reader), typed_list(reader)
    item["ticket"], item["second_ticket"] = reader.data32(), reader.data32()
    return item


def header_fields(data):
    reader, fields = Reader(data), []
    while reader.at < reader.end:
        tag, value = reader.number("H"), reader.data16()
        if tag == 1 and len(value) != 8:
            raise Short
        fields.append((tag, value))
    return fields


def cache(data):
    """Header fields, default principal and credentials of a credential cache; raises its Fault."""
    if len(data) > LIMIT:
        raise Fault("TooLong")
    version = data[:2]
    if version not in (OLD, NEW):
        raise Fault("Version")
    reader = Reader(data, 2)
    try:
        fields = header_fields(reader.data16()) if version == NEW else []
    except Short:
        raise Fault("Header") from None
    start = reader.at
    try:
        default = cache_principal(reader)
        credentials = []
        while reader.at < reader.end:
            start = reader.at
            credentials.append(credential(reader, version))
    except Short:
        raise Fault("BadItem", start) from None
    return fields, default, credentials


def name_text(name):
    return principal_text(name["realm"], name["components"])


def is_configuration(item):
    """Whether a credential is none, but keeps something about others."""
    server = item["server"]
    return server["realm"] == b"X-CACHECONF:" and server["components"][:1] == [b"krb5_ccache_conf_data"]


def credential_line(item):
    server = item["server"]
    if is_configuration(item):
        return f"config {name_text(server)}\n"
    times = " ".join(str(item[word]) for word in ("authtime", "starttime", "endtime", "renew_till"))
    return f"ticket {item['etype']} {times} {item['flags']:08x} {name_text(item['client'])} {name_text(server)}\n"


def list_ccache(data):
    fields, default, credentials = cache(data)
    offset = next((struct.unpack(">ii", value) for tag, value in fields if tag == 1), None)
    lines = [f"default {name_text(default)}\n"]
    if offset:
        lines.append(f"offset {offset[0]} {offset[1]}\n")
    return "".join(lines + [credential_line(it) for it in credentials])


def check_ccache(data):
    return f"ok {len(cache(data)[2])}\n"


def data32_of(text):
    return struct.pack(">I", len(text)) + text


def name_of(name):
    components = b"".join(map(data32_of, name["components"]))
    return struct.pack(">iI", name["name_type"], len(name["components"])) + data32_of(name["realm"]) + components


def list_of(items):
    return struct.pack(">I", len(items)) + b"".join(struct.pack(">H", kind) + data32_of(text) for kind, text in items)


def credential_of(item):
    front = name_of(item["client"]) + name_of(item["server"])
    front += struct.pack(">h", item["etype"]) + data32_of(item["key"])
    times = [item[word] for word in ("authtime", "starttime", "endtime", "renew_till")]
    lists = list_of(item["addresses"]) + list_of(item["authdata"])
    return front + struct.pack(">4IBI", *times, item["is_skey"],
                               item["flags"]) + lists + data32_of(item["ticket"]) + data32_of(item["second_ticket"])


def convert_ccache(data):
    """A cache that can be read is written as one of the newer version: if it is of that, as the same bytes."""
    _, default, credentials = cache(data)
    if data[:2] == NEW:
        return data
    return within_limit(NEW + bytes(2) + name_of(default) + b"".join(map(credential_of, credentials)))
