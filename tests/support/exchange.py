"""Draws keytabs, requests and caches, with what a second client and service answer (model.py).

Keytabs, tickets, authenticators, caches and moments are drawn so that each cause comes often: keys of other types,
lengths, versions and entries; names that differ in one part; times at the edges of the skew; flags, authorization data
and usages; messages bent byte by byte.
"""
import struct

from support import der, fixture, model, reference

LINES = 30
BASE = 1_700_000_000
CLIENTS = [(b"EX", (b"alice",)), (b"EX", (b"bob",)), (b"OTHER", (b"alice",)), (b"EX", (b"alice", b"admin")),
           (b"EX", (b"a/b", b"\xff")), (b"", ())]
NAMES = [(b"EX", (b"host", b"web")), (b"EX", (b"host", b"mail")), (b"OTHER", (b"host", b"web")),
         (b"EX", (b"host/web",)), (b"EX", (b"host",))]
NAMED = (b"EX", (b"host", b"web"))
KVNOS = [1, 2, 3, 255, 256, 300, 70_000]


def often(draw, usual, *others):
    """The usual value, nine times of ten."""
    return usual if draw.random() < 0.9 else draw.choice(others)


def some_key(draw):
    """A type and a key, usually one that is usable."""
    etype = draw.choice([19, 20])
    named = often(draw, etype, 17, 18, 39 - etype, -1)
    return named, draw.randbytes(often(draw, model.KEY_LENGTHS[etype], 0, 15, 17, 31, 33))


def keytab(draw):
    """A keytab of some entries and holes."""
    made = b"\x05\x02"
    for _ in range(draw.randint(1, 6)):
        etype, key = some_key(draw)
        kvno = draw.choice(KVNOS)
        (realm, components), name_type = often(draw, NAMES[0], *NAMES), draw.choice([0, 1, 3])
        one = {"realm": realm, "components": components, "name_type": name_type, "timestamp": BASE, "kvno": kvno,
               "etype": etype, "key": key}
        entry = reference.record_of(one)[4:-4]
        entry += draw.choice([b"", struct.pack(">I", kvno), struct.pack(">I", 0), struct.pack(">I", kvno) + b"rest"])
        made += struct.pack(">i", len(entry)) + entry
        if draw.random() < 0.2:
            made += struct.pack(">i", -7) + bytes(7)
    return made


def authorization(draw):
    """A list of elements that may be ignored, or one that mayn't, or none."""
    kinds = often(draw, None, [], [1], [1, 1], [1, 2], [2, 1], [-1], [128])
    if kinds is None:
        return None
    return der.sequence(*(der.key(kind, b"data") for kind in kinds))


def bent(draw, data):
    """The message, now and then with a byte changed, cut off or put after it, or with a length in another form."""
    how = draw.random()
    if how > 0.06 or not data:
        return data
    at = draw.randrange(len(data))
    if how < 0.03:
        return data[:at] + bytes([data[at] ^ 1 << draw.randrange(8)]) + data[at + 1:]
    return draw.choice([data[:at], data + b"\0", data[:1] + b"\x81" + data[1:], data[:at] + data[at + 1:], data[1:],
                        b""])


def some_time(draw, near):
    """A second about this one, now and then at an edge of the skew or far away."""
    return near + often(draw, 0, 1, -1, 300, -300, 301, -301, 36_000, -36_000)


def ticket_part(draw, client, session):
    etype, key = session
    flags = often(draw, draw.choice([0, 1 << 19, 0x40E80000]), 1 << 24, 0xFFFFFFFF, 0x40E00000)
    renew, addresses = draw.choice([None, 2**31 - 1]), draw.choice([None, der.sequence(der.key(2, b"\x7f\0\0\1"))])
    start, name = draw.choice([None, some_time(draw, BASE)]), der.name(draw.choice([0, 1]), *client[1])
    authtime = often(draw, BASE - 100, some_time(draw, BASE))
    times = authtime, often(draw, BASE + 36_000, BASE - 299, BASE - 300, BASE - 301)
    lists = {"addresses": addresses, "data": authorization(draw)}
    return der.enc_ticket_part(flags, der.key(etype, key), client[0], name, *times, transited=der.key(2, client[0]),
                               start=start, renew=renew, **lists)


def authenticator(draw, client, seconds, micros):
    etype, key = some_key(draw)
    subkey, number = draw.choice([None, der.key(etype, key)]), draw.choice([None, 0, 2**32 - 1, 2**31, -1, -(2**31)])
    checksum = draw.choice([None, der.key(-3, b"sum")])
    name, data = der.name(draw.choice([0, 1, 7]), *client[1]), authorization(draw)
    return der.authenticator(client[0], name, micros, seconds, checksum=checksum, subkey=subkey, number=number,
                             data=data)


def ticket(draw, seals, entries, client, session):
    """A ticket under a key of the keytab, or nearly."""
    entry = draw.choice(entries)
    usable = [it for it in entries if model.is_usable(it["etype"], it["key"])]
    usable = usable or [{**entry, "etype": 19, "key": bytes(16)}]
    entry = often(draw, draw.choice(usable), *usable)
    etype, key = entry["etype"], often(draw, entry["key"], bytes(len(entry["key"])))
    cipher = seals.seal(etype, key, often(draw, 2, 11), draw.randbytes(16),
                        bent(draw, ticket_part(draw, client, session)))
    kvno = often(draw, entry["kvno"], None, *KVNOS)
    realm, components = often(draw, (entry["realm"], entry["components"]), *NAMES)
    name = der.name(draw.choice([1, 3]), *components)
    return der.ticket(realm, name, der.encrypted(often(draw, etype, 18, 39 - etype), cipher, kvno))


def request(draw, seals, entries, now):
    client = draw.choice(CLIENTS)
    etype, key = some_key(draw)
    made = ticket(draw, seals, entries, client, (etype, key))
    sealed_as, under = (etype, key) if model.is_usable(etype, key) else (19, bytes(16))
    shown = authenticator(draw, often(draw, client, *CLIENTS), some_time(draw, now // 1_000_000),
                          draw.choice([now % 1_000_000, 0, 999_999]))
    cipher = seals.seal(sealed_as, under, often(draw, 11, 2, 12), draw.randbytes(16), bent(draw, shown))
    options = often(draw, draw.choice([0, 0x20000000, 0x1FFFFFFF, 0xBFFFFFFF]), 0x40000000, 0xFFFFFFFF)
    part = der.encrypted(often(draw, sealed_as, 18, 39 - sealed_as), cipher, draw.choice([None, None, 9]))
    return bent(draw, der.request(options, made, part))


def line_of(draw, data, now, confounder):
    text = draw.choice([data.hex(), data.hex().upper()]) or "-"
    seconds, micros = divmod(now, 1_000_000)
    return f"{seconds} {micros} {text}" + (f" {confounder.hex()}" if confounder else "")


def conversation(draw):
    """A keytab, the command's words, and lines, each with the answer of a second service."""
    seals, file, skew = model.Seals(), keytab(draw), draw.choice([300, 300, 300, 0, 1, 86_400])
    started = draw.choice([None, None, BASE - skew - 1, BASE - skew, BASE, max(0, BASE - 2 * skew)])
    service = model.Service(seals, file, skew, started)
    named = NAMED if draw.random() < 0.7 else None
    lines, answers, sent = [], [], []
    for _ in range(LINES):
        now = 1_000_000 * (BASE + draw.choice([0, 0, 1, 2, 300, -300])) + draw.choice([0, 5, 999_999])
        data = draw.choice(sent) if sent and draw.random() < 0.2 else request(draw, seals, service.entries, now)
        sent.append(data)
        confounder = draw.randbytes(16) if draw.random() < 0.5 else None
        lines.append(line_of(draw, data, now, confounder))
        answers.append(model.answered(service, data, now, confounder, named))
    words = ["accept", "f", "--skew", str(skew), *(["--service", "host/web@EX"] if named else [])]
    words += [] if started is None else ["--started", str(started)]
    return file, words, lines, answers


def cache(draw):
    """A cache whose tickets are for few services, so that many are for the one that is asked for."""
    default = draw.choice(CLIENTS[:3])
    made = b"\x05\x04\0\0" + fixture.principal(1, default[0], *default[1])
    for _ in range(draw.randint(0, 5)):
        etype, key = some_key(draw)
        server = draw.choice([NAMED, NAMED, NAMED, NAMES[1], (b"X-CACHECONF:", (b"krb5_ccache_conf_data", b"it"))])
        client = often(draw, default, *CLIENTS[:3])
        part = der.encrypted(often(draw, 19, 18), draw.randbytes(draw.randint(0, 200)), draw.choice([None, 1]))
        body = der.ticket(b"EX", fixture.WEB, part)
        times = (BASE - 5, 0, draw.choice([BASE, BASE + 1, BASE - 1, BASE + 9]), 0)
        names = [fixture.principal(draw.choice(kinds), name[0], *name[1])
                 for kinds, name in (([0, 1, -128], client), ([0, 3], server))]
        made += fixture.credential(*names, etype, key, times, bent(draw, often(draw, body, b"", b"yes", body[:-1])))
    return made


def asked(draw):
    """A cache, the command's words, and the answer of a second client: standard output, standard error and status."""
    seals, file = model.Seals(), cache(draw)
    micros, confounder, is_mutual = draw.choice([0, 1, 999_999]), draw.randbytes(16), draw.random() < 0.5
    words = ["request", "f", "host/web@EX", "--time", str(BASE), "--usec", str(micros), "--confounder",
             confounder.hex(), *(["--mutual"] if is_mutual else [])]
    name = {"realm": NAMED[0], "components": list(NAMED[1])}
    try:
        made = model.request(seals, file, name, BASE, micros, confounder, is_mutual)
    except model.Refused as refusal:
        return file, words, ("", f"krbtool: request: {refusal}\n", 1)
    return file, words, (f"{made.hex()}\n", "", 0)


def lacking(causes, seen):
    """Whether each cause came at least a few times, so that the input is worth the name."""
    rare = {cause: seen.count(cause) for cause in causes if seen.count(cause) < 3}
    return f"too rare: {rare}" if rare else None
