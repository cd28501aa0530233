"""Cases of `pick-key` and `finish` that are made and not stored: each name, type and version number of each keytab; and
replies of each kind, each beginning of one, and one with each byte changed.

What is expected comes from tests/support/model.py and tests/support/reference.py.
"""
from support import EXAMPLES, der, der_rules, fixture, model, msg_rules, reference

MICROS = 1_000_000
# The moment of the fixture's request.
SECONDS, USEC = 1_700_000_100, 5
CONFOUNDER = bytes(range(0x30, 0x40))
KEYS = {19: bytes(range(0x40, 0x50)), 20: bytes(range(0x40, 0x60))}

# ---------------------------------------------------------------- pick-key

# What the program calls the wants of a choice.
WANTS = {"NotUs": "NoName", "NoKey": "NoKey", "BadKeyVersion": "NoVersion"}


def picking(name, data, whose, etype, kvno):
    """A case of pick-key. `whose` is a realm and the components."""
    words = [reference.principal_text(*whose), str(etype), *([] if kvno is None else [f"--kvno={kvno}"])]
    case = {"name": f"pick-key: {name}, {' '.join(words)}", "args": ["pick-key", "f", *words], "files": {"f": data}}
    is_usable = etype in KEYS
    try:
        entry = model.picked(reference.keytab(data), (whose[0], tuple(whose[1])), etype, kvno, any_key=not is_usable)
    except model.Refused as refused:
        return {**case, "stderr": f"krbtool: pick-key: {WANTS[str(refused)]}\n", "status": 1}
    except reference.Fault as fault:
        return {**case, "stderr": f"krbtool: f: {fault}\n", "status": 1}
    case["stdout"] = reference.keytab_line(entry)
    return case if is_usable else {**case, "stderr": "krbtool: pick-key: UnusableType\n", "status": 1}


def versions_of(entries):
    """No version number, the least and the greatest, and each of an entry and the next."""
    found = {it["kvno"] for it in entries}
    return [None, *sorted({0, 0xFFFFFFFF} | found | {it + 1 for it in found if it < 0xFFFFFFFF})]


def entry(components, kvno, etype, key):
    return {"realm": b"EX", "components": components, "name_type": 1, "timestamp": kvno, "kvno": kvno, "etype": etype,
            "key": key}


def keytab_of(entries):
    return b"\x05\x02" + b"".join(map(reference.record_of, entries))


def keytabs():
    yield from ((path.name, path.read_bytes()) for path in sorted(EXAMPLES.glob("*.keytab")))
    one, other = [b"host", b"web"], [b"host/web"]
    yield "versions in no order", keytab_of([
        entry(one, 2, 19, bytes(16)), entry(one, 256, 19, b"\1" * 16), entry(one, 256, 19, b"\2" * 16),
        entry(one, 255, 20, bytes(32)),
        entry(other, 300, 19, bytes(16)), entry(one, 1, 19, bytes(16)),
    ])
    yield "keys that aren't usable", keytab_of([
        entry(one, 9, 19, bytes(32)), entry(one, 8, 20, bytes(16)), entry(one, 7, 18, bytes(32)),
        entry(one, 6, 19, b""),
        entry(other, 5, 20, bytes(32)), entry(one, 1, 19, bytes(16)),
    ])
    yield "types that aren't usable", keytab_of([
        entry(one, 2, 18, bytes(32)), entry(one, 4, 18, b"\1" * 32), entry(one, 4, 18, b"\2" * 32),
        entry(one, 3, 18, b""), entry(one, 1, 17, bytes(16)), entry(one, 0, 23, bytes(16)),
        entry(other, 9, 18, bytes(32)), entry(one, 5, 0, b""), entry(one, 7, -18, bytes(32)),
    ])
    yield "no entries", b"\x05\x02"


def pick_cases():
    for name, data in keytabs():
        entries = reference.keytab(data)
        names = {(it["realm"], tuple(it["components"]))
                 for it in entries if it["components"]} | {(b"EX", (b"nobody",)), (b"ex", (b"host", b"web"))}
        for whose in sorted(names):
            for etype in (0, 17, 18, 19, 20, 23):
                yield from (picking(name, data, whose, etype, kvno) for kvno in versions_of(entries))
    data = keytab_of([entry([b"host", b"web"], 3, 19, bytes(16))])
    for size in range(len(data) + 1):
        yield picking(f"its first {size} bytes", data[:size], (b"EX", [b"host", b"web"]), 19, None)
    many = [entry([b"host", b"web"], 1 + at % 1000, 19 + at % 2, bytes(16 + at % 2 * 16)) for at in range(100_000)]
    yield picking("100,000 entries", keytab_of(many), (b"EX", [b"host", b"web"]), 20, 500)


# ---------------------------------------------------------------- finish


def cache_of(etype):
    """The fixture's cache, with a session key of this type."""
    client, server = fixture.principal(1, b"EX", b"alice"), fixture.principal(3, b"EX", b"host", b"web")
    times = (1_700_000_000, 0, 1_700_036_000, 0)
    return b"\x05\x04\x00\x00" + client + fixture.credential(client, server, etype, KEYS[etype], times,
                                                             fixture.ticket())


def part(time=SECONDS, usec=USEC, subkey=None, number=None):
    return der.enc_reply_part(time, usec, None if subkey is None else der.key(*subkey), number)


def reply_of(seals, etype, plain, told_etype=None, usage=12):
    cipher = seals.seal(etype, KEYS[etype], usage, CONFOUNDER, plain)
    sealed = der.encrypted(etype if told_etype is None else told_etype, cipher)
    return der.reply(sealed)


def refusal(cause):
    return {"stderr": f"krbtool: finish: {cause}\n", "status": 1}


def opened(seals, etype, data):
    """The part that the reply is opened to, or None."""
    sealed = model.read(msg_rules.AP_REP, data)[2]
    plain = seals.opened(etype, KEYS[etype], model.REPLY_USAGE, sealed[2]) if sealed[0] == etype else None
    return None if plain is None else model.read(msg_rules.ENC_AP_REP_PART, plain)


def finished(seals, etype, data):
    """What the program says of a reply."""
    if data and data[0] != 0x6F:
        return refusal("MessageType")
    try:
        der_rules.read(msg_rules.AP_REP, data)
    except der_rules.Refused as refused:
        return refusal(f"Malformed at {str(refused).rsplit(' ', 1)[1]}")
    told = opened(seals, etype, data)
    if told is None:
        return refusal("Integrity")
    if (told[0], told[1]) != (SECONDS, USEC):
        return refusal("Mismatch")
    seq = "" if told.get(3) is None else f" seq {told[3]}"
    subkey = "" if told.get(2) is None else f" subkey {told[2][0]}"
    return {"stdout": f"agreed alice@EX {etype}{seq}{subkey}\n"}


def finishing(seals, name, etype, data):
    words = ["finish", "f", "host/web@EX", f"--time={SECONDS}", f"--usec={USEC}", f"--reply={data.hex()}"]
    return {"name": f"finish: {name}, type {etype}", "args": words, "files": {"f": cache_of(etype)},
            **finished(seals, etype, data)}


SUBKEYS = (None, (19, bytes(16)), (20, bytes(32)), (23, b"abc"), (-1, b""), (-0x80000000, b"k"))
NUMBERS = (None, 0, 5, 0x7FFFFFFF, 0x80000000, 0xFFFFFFFF)


def finish_cases():
    seals = model.Seals()
    for etype in KEYS:
        for subkey in SUBKEYS:
            for number in NUMBERS:
                yield finishing(seals, f"subkey {subkey}, number {number}", etype,
                                reply_of(seals, etype, part(subkey=subkey, number=number)))
        for time, usec in ((SECONDS, 4), (SECONDS - 1, 5), (SECONDS + 1, 5), (SECONDS, 999_999)):
            yield finishing(seals, f"of {time} and {usec}", etype, reply_of(seals, etype, part(time, usec)))
        yield finishing(seals, "for another use of the key", etype, reply_of(seals, etype, part(), usage=11))
        yield finishing(seals, "of another type", etype, reply_of(seals, etype, part(), told_etype=39 - etype))
        yield finishing(seals, "that opens to no part", etype, reply_of(seals, etype, part()[:-1]))
    good = reply_of(seals, 19, part(subkey=(20, bytes(32)), number=7))
    yield from (finishing(seals, f"its first {size} bytes", 19, good[:size]) for size in range(len(good)))
    yield finishing(seals, "a byte more", 19, good + b"\0")
    for at in range(len(good)):
        changed = bytearray(good)
        changed[at] ^= 0x01
        yield finishing(seals, f"byte {at} changed", 19, bytes(changed))
