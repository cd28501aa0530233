"""What a strict reader of the DER subset answers, worked out from the rules alone.

The rules (X.690, sections 8.1, 8.3, 8.6, 8.7 and 10.1; RFC 4120, section 5.2):

* An element is a tag byte, a length, and that many bytes of content. A length below 128 is one byte. Any other is the
  byte 80 + n (hexadecimal) with n from 1 to 4, and n bytes, the most significant first, of which the first is not 0;
  the number is at least 128.
* Whole numbers are two's complement in the fewest bytes, and lie in the range of their kind. A sequence number may also
be the
  negative number of the same 32 bits, from -2147483648 on; it is read as the number that those bits are without a sign.
* Flags are 00 and four bytes. A time is YYYYMMDDHHMMSSZ on the calendar, without a second 60.
* An element with a tag round it has exactly that element as its content; a SEQUENCE has its fields in order, one that
may be
  left out is there exactly where its tag is the next byte; a SEQUENCE OF has elements up to its end.
* Elements are read from left to right, contents before what follows, and the first fault is the answer.
* Where a fault comes: nothing left, or a length or content cut off: Truncated at the end of what encloses the element;
  another tag: Tag at the element; an invalid length: Length after the tag; a content that spells no value: Integer,
  Flags or Time at the element; bytes after the last element: Trailing at the first of them; a message above 1,048,576
  bytes: TooLong at 0, before all else.

The cases are calls of the program krb_calls_wire (calls.py). What is read is shown value by value: numbers in decimal
digits, a time in seconds from 1970-01-01T00:00:00Z on, texts in hexadecimal digits, `none` for what is left out, a list
between `[` and `]`.
"""
import functools
import re

from support import der
from support.der import sequence

PROGRAM = "krb_calls_wire"
# How many bytes a message has at most.
LIMIT = 1_048_576
TOO_LONG = f"the message would be longer than {LIMIT} bytes"


class Refused(Exception):
    def __init__(self, kind, at):
        super().__init__(f"{kind} at {at}")


CONSTANTS = {"five": 5, "fourteen": 14, "fifteen": 15, "thirty": 30}
NUMBERS = ["int32", "uint32", "seq_number", "microseconds", *CONSTANTS]
TAGS = {kind: 0x02 for kind in NUMBERS} | {"octets": 0x04, "string": 0x1B, "flags": 0x03, "time": 0x18}


def head(data, at, end, tag):
    """The start and the end of the content of the element with this tag at `at`."""
    if at == end:
        raise Refused("Truncated", end)
    if data[at] != tag:
        raise Refused("Tag", at)
    if at + 1 == end:
        raise Refused("Truncated", end)
    first = data[at + 1]
    if first < 0x80:
        length, start = first, at + 2
    elif 0x81 <= first <= 0x84:
        count = first - 0x80
        if at + 2 + count > end:
            raise Refused("Truncated", end)
        digits = data[at + 2 : at + 2 + count]
        length, start = int.from_bytes(digits, "big"), at + 2 + count
        if digits[0] == 0 or length < 128:
            raise Refused("Length", at + 1)
    else:
        raise Refused("Length", at + 1)
    if start + length > end:
        raise Refused("Truncated", end)
    return start, start + length


def whole(content):
    """The whole number, or None where the content is empty or not the shortest."""
    if not content:
        return None
    value = int.from_bytes(content, "big", signed=True)
    shortest = max(1, (value + (value < 0)).bit_length() // 8 + 1)
    return value if len(content) == shortest else None


@functools.cache
def days_before(year):
    return sum(366 if y % 4 == 0 and (y % 100 != 0 or y % 400 == 0) else 365 for y in range(year))


def seconds(content):
    text = bytes(content)
    if len(text) != 15 or text[14:] != b"Z" or any(c not in b"0123456789" for c in text[:14]):
        return None
    year, month, day = int(text[:4]), int(text[4:6]), int(text[6:8])
    hour, minute, second = int(text[8:10]), int(text[10:12]), int(text[12:14])
    leap = year % 4 == 0 and (year % 100 != 0 or year % 400 == 0)
    days = [31, 29 if leap else 28, 31, 30, 31, 30, 31, 31, 30, 31, 30, 31]
    if not 1 <= month <= 12 or not 1 <= day <= days[month - 1] or hour > 23 or minute > 59 or second > 59:
        return None
    # Days from 0000-01-01: whole years, whole months, days. 1970-01-01 is day 719528 of them.
    number = days_before(year) + sum(days[: month - 1]) + day - 1 - 719528
    return 86400 * number + 3600 * hour + 60 * minute + second


RANGES = {"int32": (-(2**31), 2**31 - 1), "uint32": (0, 2**32 - 1), "seq_number": (-(2**31), 2**32 - 1),
          "microseconds": (0, 999_999)}
RANGES |= {kind: (value, value) for kind, value in CONSTANTS.items()}


# The start of a long run of one byte.
RUN = re.compile(rb"(?s)(.)\1{31}")


def packed(text):
    """Bytes as a word of a case: long runs of one byte as `HEX*N`."""
    pieces, at, run = [], 0, RUN.search(text)
    while run:
        end = len(text) - len(text[run.start() :].lstrip(run[1]))
        pieces += [text[at : run.start()].hex(), f"{run[1].hex()}*{end - run.start()}"]
        at, run = end, RUN.search(text, end)
    return "+".join(it for it in [*pieces, text[at:].hex()] if it) or "-"


def leaf_at(kind, data, at, end):
    """The value, in a list of none where it is always the same, and where what follows begins."""
    start, after = head(data, at, end, TAGS[kind])
    content = data[start:after]
    if kind in RANGES:
        value, (low, high) = whole(content), RANGES[kind]
        if value is None or not low <= value <= high:
            raise Refused("Integer", at)
        if kind in CONSTANTS:
            return [], after
        if kind == "seq_number":
            value %= 2**32
    elif kind == "flags":
        if len(content) != 5 or content[0] != 0:
            raise Refused("Flags", at)
        value = int.from_bytes(content[1:], "big")
    elif kind == "time":
        value = seconds(content)
        if value is None:
            raise Refused("Time", at)
    else:
        value = packed(content)
    return [str(value)], after


# A shape is the name of an element without parts, (tag, shape) for one with a tag round it, or a list of fields for a
# SEQUENCE: ("must", shape), ("may", shape), or ("each", shape) alone.
SHAPES = {kind: kind for kind in TAGS} | {
    "tagged": (0xA0, "int32"),
    "nested": (0x61, (0xA0, "octets")),
    "pair": [("must", (0xA0, "int32")), ("must", (0xA1, "string"))],
    "options": [("may", (0xA0, "int32")), ("may", (0xA1, "octets")), ("may", (0xA2, "flags"))],
    "mixed": (0x6E, [("must", (0xA0, "five")), ("may", (0xA1, "time")), ("must", (0xA2, "uint32")),
                     ("may", (0xA3, "octets"))]),
    "numbers": [("each", "int32")],
    "texts": [("each", "string")],
    "name": [("must", (0xA0, "int32")), ("must", (0xA1, [("each", "string")]))],
}


def tag_of(shape):
    return TAGS[shape] if isinstance(shape, str) else 0x30 if isinstance(shape, list) else shape[0]


def element_at(shape, data, at, end):
    """The values of the elements without parts, and where what follows begins."""
    if isinstance(shape, str):
        return leaf_at(shape, data, at, end)
    start, after = head(data, at, end, tag_of(shape))
    if isinstance(shape, list):
        return fields_at(shape, data, start, after), after
    value, left = element_at(shape[1], data, start, after)
    if left != after:
        raise Refused("Trailing", left)
    return value, after


def fields_at(fields, data, at, end):
    values = []
    for way, shape in fields:
        if way == "each":
            found, at = list_at(shape, data, at, end)
        elif way == "must" or (at < end and data[at] == tag_of(shape)):
            found, at = element_at(shape, data, at, end)
        else:
            found = ["none"]
        values += found
    if at != end:
        raise Refused("Trailing", at)
    return values


def list_at(shape, data, at, end):
    values = ["["]
    while at != end:
        found, at = element_at(shape, data, at, end)
        values += found
    return [*values, "]"], at


def read(shape, data):
    """The values of a message of this shape: its element is all of the data."""
    if len(data) > LIMIT:
        raise Refused("TooLong", 0)
    values, end = element_at(shape, data, 0, len(data))
    if end != len(data):
        raise Refused("Trailing", end)
    return values


def answer(shape, data):
    """What a call that reads data of this shape answers: the values, or the first fault and its offset."""
    try:
        return " ".join(read(shape, data)) or str(CONSTANTS[shape])
    except Refused as fault:
        return str(fault)


def element(tag, content, size=None):
    """An element, whose length may be spelled otherwise."""
    return der.element(tag, bytes(content)) if size is None else bytes([tag]) + size + content


def cases():
    edges = sorted({s * v + d for v in [0] + [2 ** (8 * n - 1) for n in range(1, 6)]
                    + [2 ** (8 * n) for n in range(1, 5)] for s in (1, -1) for d in (-1, 0, 1)})
    for value in edges:
        content = value.to_bytes(max(1, (value + (value < 0)).bit_length() // 8 + 1), "big", signed=True)
        for kind in ("int32", "uint32", "seq_number"):
            yield kind, element(0x02, content)
    for value in (0, 1, 127, 128, 999_999, 1_000_000, -1):
        content = value.to_bytes(max(1, (value + (value < 0)).bit_length() // 8 + 1), "big", signed=True)
        yield "microseconds", element(0x02, content)
    for content in ([5], [0, 5], [4], [6], [], [0, 0, 5]):
        yield "five", element(0x02, content)
    for content in ([], [0, 0], [0, 127], [0, 128], [255, 255], [255, 128], [255, 127], [0, 0, 128], [255, 255, 127],
                    [0, 255, 255, 255, 255], [1, 0, 0, 0, 0], [0] * 6, [255] * 6, [127] * 6):
        for kind in ("int32", "uint32", "seq_number"):
            yield kind, element(0x02, content)
    # lengths, in all five forms, good and bad, whole and cut off
    for length in (0, 1, 127, 128, 129, 255, 256, 257):
        yield "octets", element(0x04, [7] * length)
        yield "string", element(0x1B, [7] * length)
    for size in ("80", "85", "8101", "817f", "820001", "820080", "8200ff", "83000100", "8300ffff", "8400000100",
                 "8400ffffff", "ff"):
        yield "octets", bytes.fromhex("04" + size) + bytes([7] * 4)
    for cut in ("", "04", "0481", "0482", "048201", "0483", "048301", "04830100", "0484", "048401", "04840100",
                "0484010000", "0401", "04020a", "0481800a", "0482010000", "048301000000", "0484010000000000", "0480",
                "0485"):
        yield "octets", bytes.fromhex(cut)
    for wrong in ("0500", "0200", "1b00", "00", "ff"):
        yield "octets", bytes.fromhex(wrong)
    for more in ("040000", "04010a0b", "0481"):
        yield "octets", bytes.fromhex(more)
    for content in ([0, 0, 0, 0, 0], [0, 128, 0, 0, 0], [0, 64, 0, 0, 1], [0, 255, 255, 255, 255], [1, 0, 0, 0, 0],
                    [7, 0, 0, 0, 128], [0, 0, 0, 0], [0, 0, 0, 0, 0, 0], [], [0]):
        yield "flags", element(0x03, content)
    for text in (
        "19700101000000Z", "00000101000000Z", "99991231235959Z", "20240229120000Z", "20230229120000Z",
        "19000228000000Z", "19000229000000Z",
        "20000229000000Z", "00000229000000Z", "00040229000000Z", "01000229000000Z", "04000229000000Z",
        "99960229000000Z", "99000229000000Z",
        "20240228235959Z", "20240301000000Z", "20231231235959Z", "20240131000000Z", "20240132000000Z",
        "20240430000000Z", "20240431000000Z",
        "20240630000000Z", "20240631000000Z", "20240930000000Z", "20240931000000Z", "20241130000000Z",
        "20241131000000Z", "20240100000000Z",
        "20240001000000Z", "20241201000000Z", "20241301000000Z", "20240101240000Z", "20240101236000Z",
        "20240101235960Z", "20240229120060Z",
        "20240101230000Z", "20240101000000", "20240101000000z", "2024010100000Z", "202401010000000Z", "2024-101000000Z",
        "20240101 00000Z",
        "20240101000000.0Z", "/0240101000000Z", ":0240101000000Z", "19691231235959Z", "20380119031408Z",
        "20231114221320Z", "20231115081320Z",
    ):
        yield "time", element(0x18, text.encode())

    for year in (0, 4, 100, 400, 1900, 1970, 2000, 2023, 2024, 2100, 9900, 9996, 9999):
        for rest in ("0101000000", "0228235959", "0229000000", "0301000000", "1231235959"):
            yield "time", element(0x18, f"{year:04}{rest}Z".encode())
    yield from nested_cases()


def tagged(number, *parts):
    return der.field(number, b"".join(parts))


def nested_cases():
    one, five, name = element(2, [1]), element(2, [5]), element(0x1B, b"alice")
    text, flags, time = element(4, b"xy"), element(3, [0, 0, 0, 0, 3]), element(0x18, b"19700101000010Z")
    # an element with a tag round it: no content, a cut one, another tag inside, a bad value, something after it inside
    # and outside
    for data in (tagged(0, one), b"", b"\xa0", b"\xa0\x03\x02\x01", tagged(0), tagged(1, one), tagged(0, name),
                 tagged(0, one, one), tagged(0, one) + b"\0",
        bytes.fromhex("a003020201"), bytes.fromhex("a004028101ff"), bytes.fromhex("a002 0200"),
        bytes.fromhex("a004 02020001"), bytes.fromhex("a0810302 0101"),
        bytes.fromhex("a0 01 02"), bytes.fromhex("a0 02 0280"), bytes.fromhex("a0 02 0281"), one):
        yield "tagged", data
    inner = tagged(0, text)
    for data in (element(0x61, inner), element(0x61, text), element(0x61, inner + inner),
                 element(0x61, tagged(0, text, text)), element(0x61, b""), element(0x62, inner),
        element(0x61, tagged(0)), bytes.fromhex("6104a00404026162"), bytes.fromhex("6105a003040261"),
        bytes.fromhex("6106a00304026162"), element(0x61, element(0xA0, b"", b"\x84")),
        element(0x61, tagged(0, bytes.fromhex("048100"))), element(0x61, tagged(0, element(4, [9] * 130)))):
        yield "nested", data
    first, second = tagged(0, one), tagged(1, name)
    for data in (sequence(first, second), sequence(first), sequence(), sequence(second), sequence(second, first),
                 sequence(first, first, second), sequence(first, second, first),
        sequence(first, tagged(1, text)), sequence(tagged(0, element(2, [0, 1])), second), sequence(first, second)[:-1],
        sequence(first, b"\xa1"), sequence(first, b"\xa1\x03\x1b\x02a"),
        sequence(first, second) + first, element(0x31, first + second), element(0x30, first + second, b"\x81\x0e")):
        yield "pair", data
    a, b, c = tagged(0, one), tagged(1, text), tagged(2, flags)
    for data in (sequence(), sequence(a), sequence(b), sequence(c), sequence(a, b), sequence(a, c), sequence(b, c),
                 sequence(a, b, c), sequence(b, a), sequence(c, b), sequence(a, a),
        sequence(tagged(3, one)), sequence(a, one), sequence(a, b, c, c), sequence(b"\xa1"), sequence(a, b"\xa1\x80"),
        sequence(b"\xa0\x01"), sequence(a, tagged(1, one)), sequence(a, tagged(2)),
        sequence(tagged(0, element(2, [0] * 2)), b), sequence(a, b, tagged(2, element(3, [0] * 4)))):
        yield "options", data
    v, t, u, o = tagged(0, five), tagged(1, time), tagged(2, element(2, [7])), tagged(3, text)
    for parts in ((v, t, u, o), (v, u), (v, t, u), (v, u, o), (v, o), (v,), (v, t), (), (u,), (v, u, t), (v, t, o),
                  (v, t, t, u), (v, u, o, o), (tagged(0, one), u),
        (v, tagged(1, element(0x18, b"19000229000000Z")), u), (v, tagged(2, element(2, [255]))), (v, u, tagged(3, one)),
        (v, u, tagged(4, text)), (v, u, b"\0"), (v, b"\xa1\x00", u)):
        yield "mixed", element(0x6E, sequence(*parts))
    for data in (element(0x6E, v + u), element(0x6E, sequence(v, u) + o), element(0x6F, sequence(v, u)),
                 element(0x6E, sequence(v, u))[:-1], sequence(v, u)):
        yield "mixed", data
    # a list: none, some, another tag is Tag and not Trailing, the second one is cut off
    for data in (sequence(), sequence(name), sequence(name, element(0x1B, b"")),
                 sequence(*[element(0x1B, [n] * n) for n in range(9)]), sequence(text), sequence(name, text),
        sequence(name, b"\x1b"), sequence(name, b"\x1b\x05ab"), sequence(name, b"\x1b\x81\x01a"), sequence(name, b"\0"),
        sequence(name) + name, name, b"\x30\x81\x00", b"\x30\x05\x1b\x01a"):
        yield "texts", data
    alice = sequence(tagged(0, one), tagged(1, sequence(name)))
    yield "name", alice
    yield "name", alice[:1] + b"\x81" + alice[1:]
    for parts in (b"", name + name, text, name + one, b"\x1b\x06alice"):
        yield "name", sequence(tagged(0, one), tagged(1, sequence(parts)))
    yield "name", sequence(tagged(0, one), tagged(1, name))
    yield "name", sequence(tagged(0, one), tagged(1, sequence(name), name))
    for cut in range(len(alice)):
        yield "name", alice[:cut]


# The bytes of contents at the edges of the forms of a length, and the longest that a message has room for.
SIZES = [0, 1, 127, 128, 255, 256, 65_535, 65_536, 100_000, 500_000, 1_000_000, 1_048_571]


def sizes():
    """Texts of any length are written and read: none is refused because memory runs out, which no contract can say."""
    for size in SIZES:
        content = b"\x07" * size
        word = packed(content)
        for kind in ("octets", "string"):
            whole = packed(element(TAGS[kind], content))
            yield f"{size} bytes of {kind}", [f"der encoded {kind} {word}", f"der read {kind} {whole}"], [whole, word]
        both = element(TAGS["octets"], content) + element(TAGS["string"], content)
        whole = sequence(both)
        yield f"{size} bytes, call by call", [f"der written {word}"], [
            f"true {len(both) // 2} {len(both)} {len(whole)} false {packed(whole)}"]
    for size in (LIMIT - 4, LIMIT, LIMIT + 1, 3_000_000):
        yield f"{size} bytes are too many", [f"der encoded octets 07*{size}",
                                             f"der encoded string 07*{size}"], [TOO_LONG] * 2
    # A list of many elements, each of which has room.
    yield "too many elements", [" ".join(["der encoded texts", *["07*1024"] * 1024])], [f"{TOO_LONG} {TOO_LONG}"]


def lists():
    """Lists of 0 to 300 numbers are written and read."""
    for many in range(301):
        numbers = [str(it) for it in range(many)]
        whole = sequence(*(element(0x02, it.to_bytes(it.bit_length() // 8 + 1, "big")) for it in range(many)))
        lines = [" ".join(["der encoded numbers", *numbers]), f"der read numbers {packed(whole)}"]
        yield f"a list of {many}", lines, [packed(whole), " ".join(["[", *numbers, "]"])]


def drawn():
    """Cases of calls: program, name, lines, answers."""
    for kind, data in cases():
        lines = [f"der read {kind} {packed(data)}"]
        yield PROGRAM, f"DER by the rules: {kind} {data.hex()}", lines, [answer(SHAPES[kind], data)]
    for name, lines, answers in [*sizes(), *lists()]:
        yield PROGRAM, f"DER: {name}", lines, answers
