"""Messages and files that differ from the fixture's in what a text says, made by the standards' rules alone
(fixture.py, model.py).

The cases of the exchange (calls.py) name them in braces, `{WHAT WORD ..}`, words being mostly NAME=VALUE:

    {keytab [KVNO:ETYPE:KEY ..]}     keys of host/web@EX; without a word, the fixture's key for both types
    {name TYPE TEXT}                 a name as the program reads it
    {ticket ..}, {request ..}        of what differs from the fixture: the fields of Made
    {cache [CREDENTIAL ..]}          alice@EX's cache with the credentials of these names (CREDENTIALS)
    {cache-of ..}                    the cache of the ticket's client, with the one ticket of what differs; of Made, and
                                     `realm` its realm
    {accepted ..}                    what the library for C answers to the request
    {stamp ..}                       the bytes of what it remembers of the request
    {reply ..}                       of what differs from the fixture's reply: the fields of Replied
    {error CODE}                     the fixture's error with this code
    {cut LENGTH WHAT ..}             the first bytes of this
    {CARRIER WHAT ..}                this in what it goes in (CARRIERS)
    {asking}, {asked}, {completed}, {completed-later}, {rejected}    what a negotiation says without a message
    {turned PLACE:BITS WHAT ..}      this with these bits of a byte turned

KEY and VALUE of bytes are hexadecimal digits, or `service` and `session` for the fixture's keys, or HEX*N for HEX N
times.
"""
import functools
import hashlib
import struct
from dataclasses import dataclass, fields, replace

from support import der, der_rules, fixture, gss_rules, model
from support.sealing import sealed

sealed = functools.lru_cache(maxsize=None)(sealed)

# A longer text is shown by its length and its hash.
SHOWN = 1024

KEYS = {"service": fixture.SERVICE_KEY, "session": fixture.SESSION_KEY}
LENGTHS = {19: 16, 20: 32}
TICKET_CONFOUNDER, CONFOUNDER, REPLY_CONFOUNDER = (bytes(range(it, it + 16)) for it in (0x10, 0x20, 0x30))
AUTHTIME, ENDTIME = 1_700_000_000, 1_700_036_000
ALL = 1 << 30


@dataclass(frozen=True)
class Sent:
    """What may differ of a request and of a reply. Each default is the fixture's."""

    seconds: int = 1_700_000_100
    micros: int = 5
    # The type of the session key, and the one that is named where it isn't that of the key that seals.
    session_etype: int = 19
    told_etype: int = None
    kvno: int = None
    # How what is sealed is bent: how many bytes of its plain text are kept, how many zeros stand after them, and how
    # many bytes of it are sent.
    kept: int = ALL
    zeros: int = 0
    sent: int = ALL
    # The sender's choices.
    subkey: str = None
    number: int = None


@dataclass(frozen=True)
class Made(Sent):
    """What may differ of a request."""

    options: int = 0
    flags: int = 0
    # The names that the ticket and the authenticator tell, and the type of the client's.
    service: str = "host/web@EX"
    ticket_client: str = "alice@EX"
    client: str = "alice@EX"
    client_type: int = 1
    # The key that seals the ticket, as long as its type asks for, and the one in the ticket, of so many bytes.
    kvno: int = 3
    service_key: bytes = fixture.SERVICE_KEY
    service_etype: int = 19
    session_len: int = 16
    # The type that is named for the authenticator, where it isn't that of the key.
    sealed_etype: int = None
    starttime: int = None
    # The usages for which both are sealed, and how the ticket is bent.
    ticket_usage: int = model.TICKET_USAGE
    usage: int = model.AUTHENTICATOR_USAGE
    ticket_kept: int = ALL
    ticket_zeros: int = 0
    ticket_sent: int = ALL
    # The type of the one element of authorization data of each.
    ticket_data: int = None
    data: int = None
    # The realms that the ticket passed through, as TYPE/HEX.
    transited: str = None
    # Whether ticket and authenticator carry all that they may; and how often each list has its elements, and the
    # checksum, the subkey and the realms have their bytes.
    full: int = 0
    many: int = 1
    # The realm of the client's cache, where it isn't the ticket's.
    realm: bytes = None
    # The channel bindings that a client of GSS-API sends, and its flags.
    bindings: bytes = None
    context_flags: int = 0


@dataclass(frozen=True)
class Replied(Sent):
    """What may differ of a reply."""

    usage: int = model.REPLY_USAGE
    confounder: bytes = REPLY_CONFOUNDER


def bytes_of(text):
    if text in KEYS:
        return KEYS[text]
    digits, _, count = text.partition("*")
    return bytes.fromhex("" if digits == "-" else digits) * int(count or 1)


def value_of(kind, text):
    if text == "none":
        return None
    return {int: lambda it: int(it, 0), str: str, bytes: bytes_of}[kind](text)


def of_words(kind, words):
    """What differs from the defaults, as words NAME=VALUE say."""
    kinds = {it.name: it.type for it in fields(kind)}
    given = dict(it.split("=", 1) for it in words)
    return kind(**{name: value_of(kinds[name], text) for name, text in given.items()})


def stretched(key, size):
    """The bytes again and again, so many of them."""
    return (key * (size // len(key) + 1))[:size]


def parts_of(name):
    """The realm and the components of a name without escapes."""
    components, _, realm = name.rpartition("@")
    return realm.encode(), [it.encode() for it in components.split("/")]


def word_of(data):
    """Bytes as a word of a case."""
    return data.hex() or "-"


def shown(text):
    """Bytes, as a program shows them."""
    if len(text) > SHOWN:
        return f"#{len(text)}:{hashlib.sha256(text).hexdigest()}"
    return word_of(text)


def name_word(name_type, realm, components):
    return f"{name_type}/{word_of(realm)}/{','.join(map(word_of, components)) or '.'}"


def bent(etype, key, usage, confounder, plain, kept, zeros, sent):
    return sealed(etype, key, usage, confounder, plain[:kept] + bytes(zeros))[:sent]


def two(kind, byte):
    """An element of one byte and one of two."""
    return [(kind, bytes([byte])), (kind, bytes([byte, byte]))]


def listed(elements):
    return None if elements is None else der.sequence(*(der.key(*it) for it in elements))


# What a full request and a full reply carry: a key of a type that we don't know, and the checksum.
OTHER_KEY, CHECKSUM = "18/0707070707", (32_771, b"\xd0" * 4)
# The realms that a ticket passed through, of a full request and of another one (RFC 4120, section 5.3).
TRANSITED, NO_REALMS = (-2, b"\xc0" * 3), (1, b"")
HIGHEST = 2**32 - 1


def chosen_key(text):
    """A key that one side chose, from ETYPE/HEX; or realms, from TYPE/HEX."""
    return None if text is None else (int(text.partition("/")[0]), bytes_of(text.partition("/")[2]))


def repeated(typed, count):
    """Typed bytes, with their bytes so often."""
    return typed[0], typed[1] * count


def filled(made):
    """With the choices of a full request."""
    return replace(made, flags=1 << 31 - model.TRANSITED_CHECKED, starttime=AUTHTIME + 1,
                   subkey=f"{OTHER_KEY}*{made.many}", number=HIGHEST) if made.full else made


def lists_of(made):
    """The addresses, the ticket's authorization data and the authenticator's."""
    if made.full:
        return tuple(two(kind, byte) * made.many for kind, byte in ((2, 0xA0), (1, 0xB0), (1, 0xE0)))
    return None, *(None if kind is None else [(kind, b"")] for kind in (made.ticket_data, made.data))


def transited_of(made):
    return chosen_key(made.transited) or (repeated(TRANSITED, made.many) if made.full else NO_REALMS)


def ticket_part(made):
    made = filled(made)
    realm, components = parts_of(made.ticket_client)
    addresses, data, _ = lists_of(made)
    return der.enc_ticket_part(
        made.flags, der.key(made.session_etype, stretched(fixture.SESSION_KEY, made.session_len)), realm,
        der.name(1, *components), AUTHTIME, ENDTIME,
        transited=der.key(*transited_of(made)), start=made.starttime,
        renew=1_700_100_000 if made.full else None,
        addresses=listed(addresses), data=listed(data))


def authenticator(made):
    made = filled(made)
    realm, components = parts_of(made.client)
    subkey = chosen_key(made.subkey)
    checksum = repeated(CHECKSUM, made.many) if made.full else None
    if made.bindings is not None:
        checksum = 0x8003, struct.pack("<I16sI", 16, made.bindings, made.context_flags)
    return der.authenticator(
        realm, der.name(made.client_type, *components), made.micros, made.seconds,
        checksum=checksum and der.key(*checksum),
        subkey=subkey and der.key(*subkey), number=made.number, data=listed(lists_of(made)[2]))


def ticket(made):
    key = stretched(made.service_key, LENGTHS[made.service_etype])
    cipher = bent(made.service_etype, key, made.ticket_usage, TICKET_CONFOUNDER, ticket_part(made), made.ticket_kept,
                  made.ticket_zeros, made.ticket_sent)
    realm, components = parts_of(made.service)
    etype = made.service_etype if made.told_etype is None else made.told_etype
    return der.ticket(realm, der.name(3, *components), der.encrypted(etype, cipher, made.kvno))


def session_key(etype):
    return stretched(fixture.SESSION_KEY, LENGTHS[etype])


def request(made):
    cipher = bent(made.session_etype, session_key(made.session_etype), made.usage, CONFOUNDER, authenticator(made),
                  made.kept, made.zeros, made.sent)
    etype = made.session_etype if made.sealed_etype is None else made.sealed_etype
    return der.request(made.options, ticket(made), der.encrypted(etype, cipher))


def item_word(kind, data):
    return f"{kind}/{shown(data)}"


def items_word(elements):
    return "none" if elements is None else ",".join(item_word(*it) for it in elements) or "."


def or_none(it):
    return "none" if it is None else str(it)


def accepted(made):
    """What a service answers to the request."""
    made = filled(made)
    addresses, ticket_data, data = lists_of(made)
    is_mutual = made.options >> 31 - model.MUTUAL & 1
    return " ".join([
        "accepted", name_word(1, *parts_of(made.ticket_client)), name_word(3, *parts_of(made.service)),
        f"{made.session_etype}/{session_key(made.session_etype).hex()}", str(made.flags),
        items_word([transited_of(made)]), str(AUTHTIME),
        or_none(made.starttime),
        str(ENDTIME), items_word(addresses), items_word(ticket_data), str(made.seconds), str(made.micros),
        or_none(made.subkey and item_word(*chosen_key(made.subkey))), or_none(made.number),
        item_word(*repeated(CHECKSUM, made.many)) if made.full else "none", items_word(data),
        "mutual" if is_mutual else "plain",
    ])


def counted(text):
    return struct.pack(">Q", len(text)) + text


def name_bytes(realm, components):
    return counted(realm) + struct.pack(">Q", len(components)) + b"".join(map(counted, components))


def stamp_bytes(service, client, seconds, micros):
    """What a service remembers of a request, as the bytes that a shared store may keep; of names in their parts."""
    return name_bytes(*service) + name_bytes(*client) + struct.pack(">q", 1_000_000 * seconds + micros)


def stamp(made):
    return stamp_bytes(parts_of(made.service), parts_of(made.ticket_client), made.seconds, made.micros)


def reply_part(replied):
    subkey = chosen_key(replied.subkey)
    return der.enc_reply_part(replied.seconds, replied.micros, subkey and der.key(*subkey), replied.number)


def reply(replied):
    etype, key = replied.session_etype, session_key(replied.session_etype)
    cipher = bent(etype, key, replied.usage, replied.confounder, reply_part(replied), replied.kept, replied.zeros,
                  replied.sent)
    return der.reply(der.encrypted(etype if replied.told_etype is None else replied.told_etype, cipher, replied.kvno))


def keytab(keys):
    """The keytab of host/web@EX with these keys, each as long as its type asks for."""
    return fixture.keytab([(kvno, etype, stretched(key, LENGTHS[etype])) for kvno, etype, key in keys])


BOTH = [(3, 19, fixture.SERVICE_KEY), (3, 20, fixture.SERVICE_KEY)]


def keytab_of(words):
    return keytab([(int(kvno), int(etype), bytes_of(key)) for kvno, etype, key in (it.split(":") for it in words)]
                  or BOTH)


@dataclass(frozen=True)
class Held:
    """What may differ of a credential."""

    client: str = "alice@EX"
    server: str = "host/web@EX"
    etype: int = 19
    key_len: int = 16
    endtime: int = ENDTIME
    ticket: bytes = None


CREDENTIALS = {
    "held": Held(),
    "expired": Held(endtime=1_700_000_100),
    "other-type": Held(etype=18),
    "long-key": Held(key_len=32),
    "other-key": Held(etype=20, key_len=32),
    "broken": Held(ticket=b"\x61\0"),
    "bob": Held(client="bob@EX"),
    "mail": Held(server="host/mail@EX"),
    # An entry that is no ticket.
    "configuration": Held(server="krb5_ccache_conf_data/fast_avail@X-CACHECONF:"),
}


def credential(held):
    client, server = parts_of(held.client), parts_of(held.server)
    return fixture.credential(
        fixture.principal(1, client[0], *client[1]), fixture.principal(3, server[0], *server[1]), held.etype,
        stretched(fixture.SESSION_KEY, held.key_len),
        (AUTHTIME, 0, held.endtime, 0), fixture.ticket() if held.ticket is None else held.ticket)


def cache(names):
    return b"\x05\x04\0\0" + fixture.principal(1, b"EX",
                                               b"alice") + b"".join(credential(CREDENTIALS[it]) for it in names)


def cache_of(made):
    """The cache of the client of a ticket, whose name is of type 2, with this ticket alone."""
    realm, components = parts_of(made.ticket_client)
    client = fixture.principal(2, realm if made.realm is None else made.realm, *components)
    server, key = fixture.principal(3, b"EX", b"host", b"web"), stretched(fixture.SESSION_KEY, made.session_len)
    return b"\x05\x04\0\0" + client + fixture.credential(client, server, made.session_etype, key,
                                                         (AUTHTIME, 0, ENDTIME, 0), ticket(made))


def token(message, token_id=b"\x01\0"):
    """A token of Kerberos."""
    return gss_rules.kerberos(gss_rules.KERBEROS, message, token_id)


# What a message stands in, by the word before it.
CARRIERS = {
    "framed": token,
    "framed-reply": lambda it: token(it, b"\x02\0"),
    "framed-error": lambda it: token(it, b"\x03\0"),
    "proposed": lambda it: gss_rules.negotiation([gss_rules.KERBEROS], token(it)),
    "foreign": lambda it: gss_rules.negotiation([gss_rules.NTLM, gss_rules.KERBEROS], token(it)),
    "going-on": lambda it: gss_rules.going_on(token(it)),
    "accepted-with": lambda it: gss_rules.response(gss_rules.KERBEROS, token(it, b"\x02\0"), 0),
    "rejected-with": lambda it: gss_rules.response(gss_rules.KERBEROS, token(it, b"\x03\0"), 2),
    "accepted-later-with": lambda it: gss_rules.response(None, token(it, b"\x02\0"), 0),
    "rejected-later-with": lambda it: gss_rules.response(None, token(it, b"\x03\0"), 2),
}


def made_of(words):
    """The bytes that a text in braces says, without the braces."""
    what, *words = words
    if what in CARRIERS:
        return CARRIERS[what](made_of(words))
    if what == "cut":
        return made_of(words[1:])[: int(words[0])]
    if what == "turned":
        place, bits = (int(it, 0) for it in words[0].split(":"))
        data = made_of(words[1:])
        return data[:place] + bytes([data[place] ^ bits]) + data[place + 1 :]
    return {
        "keytab": keytab_of,
        "ticket": lambda it: ticket(of_words(Made, it)),
        "request": lambda it: request(of_words(Made, it)),
        "cache": cache,
        "configured": lambda _: fixture.configured_cache(),
        "cache-of": lambda it: cache_of(of_words(Made, it)),
        "reply": lambda it: reply(of_words(Replied, it)),
        "error": lambda it: fixture.error(int(it[0])),
        "stamp": lambda it: stamp(of_words(Made, it)),
        "asking": lambda _: gss_rules.negotiation([gss_rules.KERBEROS], None),
        "asked": lambda _: gss_rules.response(gss_rules.KERBEROS, None, 1),
        "completed": lambda _: gss_rules.response(gss_rules.KERBEROS, None, 0),
        "completed-later": lambda _: gss_rules.response(None, None, 0),
        "rejected": lambda _: gss_rules.response(None, None, 2),
    }[what](words)


def written(text):
    """What a case has in the place of a text in braces."""
    words = text.split(" ")
    if words[0] == "accepted":
        return accepted(of_words(Made, words[1:]))
    if words[0] == "name":
        return name_word(int(words[1]), *parts_of(words[2]))
    return der_rules.packed(made_of(words))
