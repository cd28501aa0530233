"""A second service and a second client, written from RFC 4120 (sections 3.2 and 5), RFC 8009 and docs/ACCEPTANCE.md
alone.

Nothing here is taken from the program's sources. Bytes are read by der_rules and msg_rules, files by reference.py, and
sealed by sealing.py. What opens is looked up among what was sealed, once its tag is right, so nothing is decrypted.
"""
from support import der, der_rules, msg_rules, reference, sealing

KEY_LENGTHS = {19: 16, 20: 32}
SHORTEST = {19: 32, 20: 40}
CODES = {
    "MessageType": 40, "Malformed": 60, "UserToUser": 45, "TicketEtype": 14, "NotUs": 35, "NoKey": 45,
    "BadKeyVersion": 44,
    "TicketIntegrity": 31, "SessionKey": 14, "AuthenticatorIntegrity": 31, "BadMatch": 36, "Skew": 37,
    "JustStarted": 37, "Repeat": 34, "NotYetValid": 33,
    "Expired": 32, "Transited": 60, "Authorization": 60,
}
TICKET_USAGE, AUTHENTICATOR_USAGE, REPLY_USAGE = 2, 11, 12
USER_TO_USER, MUTUAL = 1, 2
INVALID, TRANSITED_CHECKED = 7, 12
RELEVANT = 1


class Refused(Exception):
    """A request that isn't accepted, by its cause."""


def value_at(shape, data, at, end):
    """What an element that is good by the rules holds: a number, bytes, a dictionary of fields or a list. And where
    what follows begins."""
    if isinstance(shape, str):
        start, after = der_rules.head(data, at, end, der_rules.TAGS[shape])
        if shape in ("octets", "string"):
            return data[start:after], after
        words, after = der_rules.leaf_at(shape, data, at, end)
        return int(words[0]) if words else None, after
    start, after = der_rules.head(data, at, end, der_rules.tag_of(shape))
    if isinstance(shape, tuple):
        return value_at(shape[1], data, start, after)[0], after
    if shape and shape[0][0] == "each":
        items = []
        while start < after:
            item, start = value_at(shape[0][1], data, start, after)
            items.append(item)
        return items, after
    fields = {}
    for way, inner in shape:
        if way == "must" or start < after and data[start] == der_rules.tag_of(inner):
            fields[inner[0] - 0xA0], start = value_at(inner, data, start, after)
    return fields, after


def read(shape, data):
    """The fields of a message, or None where the data is none."""
    try:
        der_rules.read(shape, data)
    except der_rules.Refused:
        return None
    return value_at(shape, data, 0, len(data))[0]


def bit(flags, number):
    return flags >> (31 - number) & 1


def is_usable(etype, key):
    return KEY_LENGTHS.get(etype) == len(key)


class Seals:
    """What was sealed, by its bytes."""

    def __init__(self):
        self.plain = {}

    def seal(self, etype, key, usage, confounder, plain):
        cipher = sealing.sealed(etype, key, usage, confounder, plain)
        self.plain[etype, key, usage, cipher] = plain
        return cipher

    def opened(self, etype, key, usage, cipher):
        """The plain text, or None where the text doesn't open."""
        if len(cipher) < SHORTEST[etype]:
            return None
        size = sealing.TYPES[etype][2]
        tag = sealing.mac(etype, sealing.derived(etype, key, usage, 0x55), bytes(16) + cipher[:-size])
        return self.plain[etype, key, usage, cipher] if tag == cipher[-size:] else None


def picked(entries, name, etype, kvno, any_key=False):
    named = [it for it in entries if (it["realm"], tuple(it["components"])) == name]
    if not named:
        raise Refused("NotUs")
    usable = [it for it in named if it["etype"] == etype and (any_key or is_usable(etype, it["key"]))]
    if not usable:
        raise Refused("NoKey")
    if kvno is None:
        return max(usable, key=lambda it: it["kvno"])
    of_version = [it for it in usable if it["kvno"] == kvno]
    if not of_version:
        raise Refused("BadKeyVersion")
    return of_version[0]


class Service:
    """A service that remembers all that it was shown. One that had an earlier life was started again at a second."""

    def __init__(self, seals, keytab, skew, started=None):
        self.seals, self.entries, self.skew = seals, reference.keytab(keytab), skew * 1_000_000
        # the last moment of its quiet start
        self.quiet_until = None if started is None else 1_000_000 * started + self.skew
        self.latest, self.shown = None, set()

    def replace_keytab(self, keytab):
        """It decides by this keytab from now on, and keeps all else."""
        self.entries = reference.keytab(keytab)

    def opened(self, data):
        """The request, its ticket's part and its authenticator."""
        if data and data[0] != 0x6E:
            raise Refused("MessageType")
        request = read(msg_rules.AP_REQ, data)
        if request is None:
            raise Refused("Malformed")
        if bit(request[2], USER_TO_USER):
            raise Refused("UserToUser")
        ticket = request[3]
        etype = ticket[3][0]
        if etype not in KEY_LENGTHS:
            raise Refused("TicketEtype")
        entry = picked(self.entries, (ticket[1], tuple(ticket[2][1])), etype, ticket[3].get(1))
        part = self.part(msg_rules.ENC_TICKET_PART, etype, entry["key"], TICKET_USAGE, ticket[3][2], "TicketIntegrity")
        etype, key = part[1][0], part[1][1]
        if not is_usable(etype, key):
            raise Refused("SessionKey")
        if request[4][0] != etype:
            raise Refused("AuthenticatorIntegrity")
        shown = self.part(msg_rules.AUTHENTICATOR, etype, key, AUTHENTICATOR_USAGE, request[4][2],
                          "AuthenticatorIntegrity")
        if (part[2], part[3][1]) != (shown[1], shown[2][1]):
            raise Refused("BadMatch")
        return request, part, shown

    def part(self, shape, etype, key, usage, cipher, cause):
        plain = self.seals.opened(etype, key, usage, cipher)
        fields = None if plain is None else read(shape, plain)
        if fields is None:
            raise Refused(cause)
        return fields

    def accept(self, data, now):
        """The accepted request, its ticket's part and its authenticator; or Refused."""
        self.latest = now if self.latest is None else max(self.latest, now)
        request, part, shown = self.opened(data)
        moment = 1_000_000 * shown[5] + shown[4]
        if abs(moment - self.latest) > self.skew:
            raise Refused("Skew")
        stamp = (request[3][1], tuple(request[3][2][1]), part[2], tuple(part[3][1]), moment)
        if self.quiet_until is not None and min(self.latest, moment) <= self.quiet_until:
            self.shown.add(stamp)
            raise Refused("JustStarted")
        if stamp in self.shown:
            raise Refused("Repeat")
        self.shown.add(stamp)
        self.judge(request, part, shown)
        return request, part, shown

    def judge(self, request, part, shown):
        start = 1_000_000 * part.get(6, part[5])
        if start > self.latest + self.skew or bit(part[0], INVALID):
            raise Refused("NotYetValid")
        if self.latest > 1_000_000 * part[7] + self.skew:
            raise Refused("Expired")
        if part[2] != request[3][1] and not bit(part[0], TRANSITED_CHECKED):
            raise Refused("Transited")
        if any(it[0] != RELEVANT for it in part.get(10, []) + shown.get(8, [])):
            raise Refused("Authorization")

    def reply(self, part, shown, confounder):
        """The answer to a request that asks for one, without a subkey and a number."""
        plain = der.enc_reply_part(shown[5], shown[4])
        cipher = self.seals.seal(part[1][0], part[1][1], REPLY_USAGE, confounder, plain)
        return der.reply(der.encrypted(part[1][0], cipher))


def error(code, now, realm, components):
    seconds, micros = divmod(now, 1_000_000)
    return der.error(code, seconds, micros, realm, der.name(3, *components))


def answered(service, data, now, confounder=None, named=None):
    """The line that a call is answered by. `named` is the service that errors speak of."""
    try:
        request, part, shown = service.accept(data, now)
    except Refused as refusal:
        cause = str(refusal)
        tail = f" error {error(CODES[cause], now, *named).hex()}" if named else ""
        return f"refused {CODES[cause]} {cause}{tail}\n"
    is_mutual = bit(request[2], MUTUAL)
    tail = f" reply {service.reply(part, shown, confounder).hex()}" if is_mutual and confounder else ""
    client = reference.principal_text(part[2], part[3][1])
    return f"accepted {client} {part[1][0]} {shown[5]} {shown[4]} {'mutual' if is_mutual else 'plain'}{tail}\n"


def chosen(cache, service, seconds):
    """The credential that a request is made of; or Refused."""
    _, default, credentials = cache
    found = [it for it in credentials if same(it["client"], default) and same(it["server"], service)
             and not reference.is_configuration(it)]
    if not found:
        raise Refused("NoCredential")
    found = [it for it in found if is_usable(it["etype"], it["key"])]
    if not found:
        raise Refused("NoUsableKey")
    found = [it for it in found if it["endtime"] > seconds]
    if not found:
        raise Refused("Expired")
    if read(msg_rules.TICKET, found[0]["ticket"]) is None:
        raise Refused("BadTicket")
    return found[0]


def same(one, other):
    return (one["realm"], one["components"]) == (other["realm"], other["components"])


def request(seals, cache, service, seconds, micros, confounder, is_mutual, subkey=None, number=None):
    """The request that a client makes of a cache's bytes, with a subkey as ETYPE/HEX and a number; or Refused."""
    credential = chosen(reference.cache(cache), service, seconds)
    client = credential["client"]
    name = der.name(client["name_type"], *client["components"])
    key = subkey and der.key(int(subkey.split("/")[0]), bytes.fromhex(subkey.split("/")[1]))
    plain = der.authenticator(client["realm"], name, micros, seconds, subkey=key, number=number)
    cipher = seals.seal(credential["etype"], credential["key"], AUTHENTICATOR_USAGE, confounder, plain)
    return der.request(0x20000000 if is_mutual else 0, credential["ticket"], der.encrypted(credential["etype"], cipher))
