"""What a strict reader of Kerberos messages answers, and what a writer writes.

The messages are those of tests/support/msg_values.py, and der_rules reads them, by the rules at its head. The shapes
below are the tables of RFC 4120 (sections 5.2, 5.3, 5.5.1, 5.5.2 and 5.9.1), written out from that document alone. The
cases:

* Each message as it stands is read, with all its fields; copied and written again, it is the same bytes.
* Each beginning of it that is not the whole is Truncated at its end.
* With a zero byte after it, it is Trailing at its end.
* With one byte changed by xor 01 or xor 80, it is either a message still, with its fields, or has the fault that the
rules tell.
* Without one of its fields, or of the fields of its parts, the same; of each type a message without optional fields is
taken.
* As each other type it has the wrong tag.
* Messages whose sequence numbers stand as negative numbers are read, and written again without them; beyond either end
of the range
  they are refused.
* Messages with many components and elements, and with a part of many bytes, up to the limit, are read, copied and
written again: none is refused because memory runs out, which no contract can say.

The second, the third and the sixth are worked out here too, and this script fails where they do not hold.
"""
from support import der
from support.der import encrypted, flags, key, name, octets, sequence, string, ticket, time
from support.der_rules import LIMIT, PROGRAM, Refused, head, packed, read
from support.msg_values import VALUES


def may(shape):
    """A field that may be left out."""
    return "may", shape


def fields(*shapes):
    """A SEQUENCE of fields that are numbered from 0 on. Each must be there, if it isn't one that may be left out."""
    ways = [it if isinstance(it, tuple) and it[0] == "may" else ("must", it) for it in shapes]
    return [(way, (0xA0 + number, shape)) for number, (way, shape) in enumerate(ways)]


def application(number, *shapes):
    return 0x60 + number, fields(*shapes)


def list_of(shape):
    return [("each", shape)]


# Section 5.2: Realm and KerberosString, KerberosTime, PrincipalName, HostAddresses, AuthorizationData, EncryptedData,
# EncryptionKey and Checksum. Section 5.3: TransitedEncoding.
PRINCIPAL_NAME = fields("int32", list_of("string"))
HOST_ADDRESSES = list_of(fields("int32", "octets"))
AUTHORIZATION_DATA = list_of(fields("int32", "octets"))
ENCRYPTED_DATA = fields("int32", may("uint32"), "octets")
ENCRYPTION_KEY = fields("int32", "octets")
CHECKSUM = fields("int32", "octets")
TRANSITED_ENCODING = fields("int32", "octets")

# Section 5.3: tkt-vno, realm, sname, enc-part.
TICKET = application(1, "five", "string", PRINCIPAL_NAME, ENCRYPTED_DATA)

# Section 5.3: flags, key, crealm, cname, transited, authtime, starttime, endtime, renew-till, caddr,
# authorization-data.
ENC_TICKET_PART = application(
    3, "flags", ENCRYPTION_KEY, "string", PRINCIPAL_NAME, TRANSITED_ENCODING, "time", may("time"), "time", may("time"),
    may(HOST_ADDRESSES),
    may(AUTHORIZATION_DATA),
)

# Section 5.5.1: pvno, msg-type, ap-options, ticket, authenticator.
AP_REQ = application(14, "five", "fourteen", "flags", TICKET, ENCRYPTED_DATA)

# Section 5.5.1: authenticator-vno, crealm, cname, cksum, cusec, ctime, subkey, seq-number, authorization-data.
AUTHENTICATOR = application(
    2, "five", "string", PRINCIPAL_NAME, may(CHECKSUM), "microseconds", "time", may(ENCRYPTION_KEY), may("seq_number"),
    may(AUTHORIZATION_DATA),
)

# Section 5.5.2: pvno, msg-type, enc-part.
AP_REP = application(15, "five", "fifteen", ENCRYPTED_DATA)

# Section 5.5.2: ctime, cusec, subkey, seq-number.
ENC_AP_REP_PART = application(27, "time", "microseconds", may(ENCRYPTION_KEY), may("seq_number"))

# Section 5.9.1: pvno, msg-type, ctime, cusec, stime, susec, error-code, crealm, cname, realm, sname, e-text, e-data.
KRB_ERROR = application(
    30, "five", "thirty", may("time"), may("microseconds"), "time", "microseconds", "int32", may("string"),
    may(PRINCIPAL_NAME), "string",
    PRINCIPAL_NAME, may("string"), may("octets"),
)

# The types by the names that the program gives them.
TYPES = {
    "ticket": TICKET,
    "enc-ticket": ENC_TICKET_PART,
    "ap-req": AP_REQ,
    "authenticator": AUTHENTICATOR,
    "ap-rep": AP_REP,
    "enc-ap-rep": ENC_AP_REP_PART,
    "krb-error": KRB_ERROR,
}

# The tag of the field that is a sequence number.
NUMBERED = {"authenticator": 0xA7, "enc-ap-rep": 0xA3}

# Of each type a message without optional fields.
SHORTEST = ["SHORT_TICKET", "ENC_TICKET", "SHORT_AP_REQ", "AUTHENTICATOR", "SHORT_AP_REP", "ENC_AP_REP", "KRB_ERROR"]


def type_of(word):
    """The type of one of the messages of msg_values: the longest of their names in which its own ends."""
    return max((it for it in TYPES if word.replace("_", "-").lower().endswith(it)), key=len)


def plain(kind, data):
    """What is written for a message: itself, but for a sequence number that stands as a negative number."""
    tag, (inner,) = parts_of(data)
    fields = parts_of(inner)[1]
    for at, it in enumerate(fields):
        number = int.from_bytes(it[4:], "big", signed=True)
        if it[0] == NUMBERED.get(kind) and number < 0:
            fields[at] = der.field(it[0] - 0xA0, der.element(0x02, (number + 2**32).to_bytes(5, "big")))
    return der.element(tag, sequence(*fields))


def parse(kind, data):
    """The line that reads data as a message of this type, and its answer: its fields and what is written for it, or the
    fault."""
    line = f"msg parse {kind} {packed(data)}"
    try:
        return line, " ".join([*read(TYPES[kind], data), packed(plain(kind, data))])
    except Refused as fault:
        return line, str(fault)


def expect(found, wanted, data):
    if found != wanted:
        raise ValueError(f"{data.hex()} is {found}, not {wanted}")


def written(kind, data):
    """A message is read, copied, and written again."""
    line, found = parse(kind, data)
    expect(found, " ".join([*read(TYPES[kind], data), packed(data)]), data)
    return [line], [found]


def beginnings(kind, data):
    lines = []
    for end in range(len(data)):
        lines.append(parse(kind, data[:end]))
        expect(lines[-1][1], f"Truncated at {end}", data[:end])
    lines.append(parse(kind, data + b"\0"))
    expect(lines[-1][1], f"Trailing at {len(data)}", data + b"\0")
    return zip(*lines)


def flips(kind, data, mask):
    return zip(*(parse(kind, data[:at] + bytes([data[at] ^ mask]) + data[at + 1 :]) for at in range(len(data))))


def others(kind, data):
    """As each other type the message has the wrong tag."""
    lines = [parse(it, data) for it in TYPES if it != kind]
    for _, found in lines:
        expect(found, "Tag at 0", data)
    return zip(*lines)


def parts_of(data):
    """The tag of an element, and the elements that it is made of: none where it is a text or a number."""
    tag = data[0]
    at, end = head(data, 0, len(data), tag)
    parts = []
    while tag & 0x20 and at < end:
        after = head(data, at, end, data[at])[1]
        parts.append(data[at:after])
        at = after
    return tag, parts


def lacking(data):
    """The element without one of its fields, or of the fields of its parts, one after another."""
    tag, parts = parts_of(data)
    for number, part in enumerate(parts):
        if part[0] & 0xE0 == 0xA0:
            yield der.element(tag, b"".join(parts[:number] + parts[number + 1 :]))
        for changed in lacking(part):
            yield der.element(tag, b"".join([*parts[:number], changed, *parts[number + 1 :]]))


def of_value(title, word, data):
    """The cases of one of the messages of msg_values."""
    kind = type_of(word)
    yield f"{title} ({word})", *written(kind, data)
    yield f"{word}, its beginnings, and a byte more", *beginnings(kind, data)
    yield f"{word} with one byte xor 01", *flips(kind, data, 0x01)
    yield f"{word} with one byte xor 80", *flips(kind, data, 0x80)
    yield f"{word} as another type", *others(kind, data)
    if word in SHORTEST:
        yield f"{word} without a field", *zip(*(parse(kind, it) for it in lacking(data)))


def message(kind, many, parts, number=2**32 - 1):
    """A message whose names have so many components and lists so many elements, and with parts of so many bytes: a
    realm, a last component of a name, what is sealed or a key, what stands beside it, a last element of a list, and one
    of a second list. A sequence number is this one."""
    realm, last, main, beside, one, two = (b"\x07" * it for it in parts)

    def named(content=last):
        return name(1, *[b"web"] * many, *[content] * bool(content))

    def listed(content):
        return sequence(*[key(1, bytes([7] * 2))] * many, *[key(1, content)] * bool(content))

    moment, main_key, cipher = time("20231114221500Z"), key(19, main), encrypted(19, main, 3)
    shared = ticket(realm, named(), cipher)
    made = {
        "ticket": lambda: shared,
        "enc-ticket": lambda: der.message(0x63, flags(0), main_key, string(realm), named(), key(1, beside),
                                          *[moment] * 4, listed(one), listed(two)),
        "ap-req": lambda: der.request(1 << 29, shared, encrypted(19, beside, 3)),
        "authenticator": lambda: der.message(0x62, 5, string(realm), named(), key(1, beside), 5, moment, main_key,
                                             number, listed(one)),
        "ap-rep": lambda: der.reply(cipher),
        "enc-ap-rep": lambda: der.message(0x7B, moment, 5, main_key, number),
        "krb-error": lambda: der.message(0x7E, 5, 30, moment, 5, moment, 5, 37, string(one), named(two), string(realm),
                                         named(), string(beside),
                                         octets(main)),
    }
    return made[kind]()


def filled(kind, part, size):
    """A message of just so many bytes, nearly all of them in one part; None where its type has no such part."""
    parts = [0] * 6
    parts[part] = size - 1000
    length = len(message(kind, 2, parts))
    if length < parts[part]:
        return None
    parts[part] += size - length
    return parts


# Of so many components and elements, a message with two lists or two names still has room.
MOST = 10_000


def many():
    for count in (*range(301), MOST):
        for kind in TYPES:
            yield f"{kind} with {count} components and elements", *written(kind, message(kind, count, [0] * 6))


def of_negative_numbers():
    """A message whose sequence number stands as a negative number has the value of the one that is written for it."""
    for kind in ("authenticator", "enc-ap-rep"):
        for number in (-(2**31), -(2**31) + 1, -32_769, -129, -128, -1):
            signed, unsigned = (message(kind, 2, [0] * 6, it) for it in (number, number + 2**32))
            line, found = parse(kind, signed)
            expect(found, parse(kind, unsigned)[1], signed)
            yield f"{kind} with the sequence number {number}", [line], [found]
        for number in (-(2**31) - 1, 2**32):
            data = message(kind, 2, [0] * 6, number)
            line = parse(kind, data)
            expect(line[1].split()[0], "Integer", data)
            yield f"{kind} with the sequence number {number}", [line[0]], [line[1]]


def long():
    """Messages of 100,000 bytes, and of as many as there may be, most of them in one part."""
    for size in (100_000, LIMIT):
        tried = 0
        for kind in TYPES:
            for part in range(6):
                parts = filled(kind, part, size)
                if parts:
                    data = message(kind, 2, parts)
                    expect(len(data), size, data[:100])
                    yield f"{kind} of {size} bytes, most of them in its part {part}", *written(kind, data)
                    tried += 1
        expect(tried, 26, b"")


def drawn():
    """Cases of calls: program, name, lines, answers."""
    for title, word, data in VALUES:
        for it in of_value(title, word, data):
            yield PROGRAM, it[0], list(it[1]), list(it[2])
    for it in (*many(), *of_negative_numbers(), *long()):
        yield PROGRAM, it[0], list(it[1]), list(it[2])
