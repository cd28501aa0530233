"""Calls of the exchange that are drawn with a stored seed, and what a second service, client and memory answer
(model.py): by the library for C, and of a service with a list and of memories by krb_calls_exchange.

Keytabs, tickets, authenticators, caches and moments come from exchange.py; what is said of an accepted request, of a
reply and of a memory is worked out here, from RFC 4120 (sections 3.2 and 5) and docs/ACCEPTANCE.md alone.
"""
import random
from dataclasses import dataclass

from support import der, der_rules, exchange, exchange_made, fixture, model, msg_rules
from support.calls import shown as told_bytes
from support.exchange_made import CONFOUNDER, REPLY_CONFOUNDER, Made, Replied, items_word, name_word, or_none, word_of

RATTLE, IN_C = "krb_calls_exchange", "exchange_in_c"
MEMORIES = ("list", "timed")
SEED = 3306
SERVICES, LINES, CLIENTS = 50, 30, 100
SCHEDULES, PACKETS, DELIVERIES = 2_000, 20, 20
MEMORY_CALLS = 1_500
BASE = exchange.BASE
SKEW = 300_000_000
FIXTURE = Made()
# What is answered to requests, and to what a client asks for and is sent.
SERVICE_ANSWERS = [
    "MessageType", "Malformed", "UserToUser", "TicketEtype", "NotUs", "NoKey", "BadKeyVersion", "TicketIntegrity",
    "SessionKey",
    "AuthenticatorIntegrity", "BadMatch", "Skew", "JustStarted", "Repeat", "NotYetValid", "Expired", "Transited",
    "Authorization", "accepted",
]
CLIENT_ANSWERS = ["NoCredential", "NoUsableKey", "Expired", "BadTicket", "MessageType", "Malformed", "Integrity",
                  "Mismatch", "agreed"]
# What the library for C says of a request that wasn't accepted.
NOTHING = "refused NothingThere"
MICROS = 1_000_000


def fault_of(shape, data):
    """What a reader of the rules says of bytes that are none."""
    try:
        der_rules.read(shape, data)
    except der_rules.Refused as refused:
        return str(refused)
    raise ValueError("the bytes are well formed")


def placed(fault):
    """The place of a fault."""
    return fault.partition(" ")[2]


def time_words(moment):
    return "{} {}".format(*divmod(moment, MICROS))


def pair(typed):
    """A key or a checksum, as an answer shows it."""
    return "none" if typed is None else f"{typed[0]}/{word_of(typed[1])}"


def elements(fields):
    return items_word(None if fields is None else [(it[0], it[1]) for it in fields])


def accepted(request, part, shown):
    """What is answered to an accepted request, of its fields, its ticket's and its authenticator's."""
    return " ".join([
        "accepted", name_word(part[3][0], part[2], part[3][1]),
        name_word(request[3][2][0], request[3][1], request[3][2][1]), pair(part[1]),
        str(part[0]), pair(part[4]), str(part[5]), or_none(part.get(6)), str(part[7]), elements(part.get(9)),
        elements(part.get(10)), str(shown[5]), str(shown[4]),
        pair(shown.get(6)), or_none(shown.get(7)), pair(shown.get(3)), elements(shown.get(8)),
        "mutual" if model.bit(request[2], model.MUTUAL) else "plain",
    ])


class Told:
    """A second service, and what it says."""

    def __init__(self, seals, file, skew, started=None):
        self.service, self.asked, self.taken = model.Service(seals, file, skew, started), None, None

    def answer(self, data, now):
        """What the library for C answers, and what krb_calls_exchange does."""
        self.taken = None
        try:
            self.asked, *self.taken = self.service.accept(data, now)
        except model.Refused as refusal:
            cause = str(refusal)
            if cause != "Malformed":
                return f"refused {cause}", f"refused {cause}"
            fault = fault_of(msg_rules.AP_REQ, data)
            return f"refused Malformed {placed(fault)}", f"refused Malformed {fault}"
        return accepted(self.asked, *self.taken), f"accepted {self.stamp()}"

    def stamp(self):
        """Of the request that was accepted."""
        ticket, (part, shown) = self.asked[3], self.taken
        return word_of(exchange_made.stamp_bytes((ticket[1], ticket[2][1]), (part[2], part[3][1]), shown[5], shown[4]))

    def held(self, memory):
        service = self.service
        held = [it for it in service.shown if memory == "list" or it[-1] >= service.latest - service.skew]
        return f"{len(held)} {time_words(service.latest)}"


def some_choice(draw):
    """A usable key as `ETYPE/HEX`, or none, and a sequence number, or none."""
    etype = draw.choice([19, 20])
    key = draw.choice([None, f"{etype}/{draw.randbytes(model.KEY_LENGTHS[etype]).hex()}"])
    return key, draw.choice([None, 0, 127, 128, 2**31 - 1, 2**31, 2**32 - 1, draw.randrange(2**32)])


def choice_words(choice):
    return " ".join(map(or_none, choice))


def reply_of(seals, part, shown, confounder, choice):
    """The reply to an accepted request."""
    made = Replied(seconds=shown[5], micros=shown[4], subkey=choice[0], number=choice[1])
    cipher = seals.seal(part[1][0], part[1][1], model.REPLY_USAGE, confounder, exchange_made.reply_part(made))
    return der.reply(der.encrypted(part[1][0], cipher))


def some_calls(draw, seals, told, sent):
    """Requests and moments, some of them repeated."""
    for _ in range(draw.choice([1, 1, 1, 1, 4])):
        now = MICROS * (BASE + draw.choice([0, 0, 1, 2, 300, -300])) + draw.choice([0, 5, 999_999])
        again = sent and draw.random() < 0.2
        data = draw.choice(sent) if again else exchange.request(draw, seals, told.service.entries, now)
        sent.append(data)
        yield data, now


def conversation(draw):
    """The lines and answers of a service with each memory: the list by krb_calls_exchange, and the other by the library
    for C."""
    seals, file, skew = model.Seals(), exchange.keytab(draw), draw.choice([300, 300, 300, 0, 1, 86_400])
    started = draw.choice([None, None, BASE - skew - 1, BASE - skew, BASE])
    told, sent = Told(seals, file, skew, started), []
    start = "" if started is None else f" {started} 0"
    listed, timed = ([(f"service {it} {skew} {file.hex()}{start}", "service")] for it in MEMORIES)
    for _ in range(LINES):
        calls = list(some_calls(draw, seals, told, sent))
        said = [told.answer(data, now) for data, now in calls]
        words = [f"{time_words(now)} {word_of(data)}" for data, now in calls]
        timed += [(f"accept {it}", in_c) for it, (in_c, _) in zip(words, said)]
        short = [it for _, it in said]
        is_one = len(calls) == 1
        listed.append((f"accept {words[0]}", short[0]) if is_one else
                      (" ".join(["serve", *words]), " | ".join([str(len(calls)), *short])))
        for lines, memory in zip((listed, timed), MEMORIES):
            lines.append(("held", told.held(memory)))
        timed.append(("stamp", told.stamp() if told.taken else NOTHING))
        if draw.random() < 0.5:
            confounder, choice = draw.randbytes(16), some_choice(draw)
            reply = word_of(reply_of(seals, *told.taken, confounder, choice)) if told.taken else NOTHING
            timed.append((f"reply {confounder.hex()} {choice_words(choice)}", reply))
        if draw.random() < 0.05:
            file = exchange.keytab(draw)
            told.service.replace_keytab(file)
            for lines in (listed, timed):
                lines.append((f"keytab {word_of(file)}", "keytab"))
    return listed, timed


def refused(answers):
    """The causes that answers name, and `accepted`, one for each request."""
    for text in answers:
        for words in (it.split() for it in text.split(" | ")):
            if words[0] in ("accepted", "agreed"):
                yield words[0]
            if words[0] == "refused":
                yield words[1]


def often_enough(what, wanted, cases):
    """The cases, once it is seen that each of these answers comes among them."""
    cases = list(cases)
    seen = [it for _, _, _, answers in cases for it in refused(answers)]
    lacking = exchange.lacking(wanted, seen)
    if lacking:
        raise ValueError(f"{what}: {lacking}")
    return cases


def services(draw):
    for number in range(SERVICES):
        for program, memory, lines in zip((RATTLE, IN_C), MEMORIES, conversation(draw)):
            yield program, f"service {number}, {memory}", *map(list, zip(*lines))


def finished(seals, asked, data):
    """What the client says of a reply. `asked` are the credential and the moment of its request."""
    credential, moment = asked
    if data and data[0] != 0x6F:
        return "refused MessageType"
    fields = model.read(msg_rules.AP_REP, data)
    if fields is None:
        return f"refused Malformed {placed(fault_of(msg_rules.AP_REP, data))}"
    etype, key = credential["etype"], credential["key"]
    plain = seals.opened(etype, key, model.REPLY_USAGE, fields[2][2]) if fields[2][0] == etype else None
    part = None if plain is None else model.read(msg_rules.ENC_AP_REP_PART, plain)
    if part is None:
        return "refused Integrity"
    if MICROS * part[0] + part[1] != moment:
        return "refused Mismatch"
    client = credential["client"]
    name = name_word(client["name_type"], client["realm"], client["components"])
    return f"agreed {name} {etype}/{key.hex()} {pair(part.get(2))} {or_none(part.get(3))}"


def some_reply(draw, seals, asked):
    """A reply, good or nearly."""
    credential, moment = asked
    etype, key = credential["etype"], credential["key"]
    moment = exchange.often(draw, moment, moment + 1, moment - 1, moment + MICROS)
    choice = draw.choice([some_choice(draw), (f"{draw.choice([18, -1])}/{draw.randbytes(5).hex()}",
                                              draw.choice([9, -1, -(2**31), -(2**31) - 1]))])
    plain = exchange_made.reply_part(Replied(seconds=moment // MICROS, micros=moment % MICROS, subkey=choice[0],
                                             number=choice[1]))
    usage = exchange.often(draw, model.REPLY_USAGE, model.AUTHENTICATOR_USAGE, model.TICKET_USAGE)
    cipher = seals.seal(etype, key, usage, draw.randbytes(16), exchange.bent(draw, plain))
    cipher = exchange.often(draw, cipher, cipher[:-1], b"", cipher[:31])
    told = exchange.often(draw, etype, 18, 39 - etype)
    return exchange.bent(draw, der.message(exchange.often(draw, 0x6F, 0x7E), 5, 15,
                                           der.encrypted(told, cipher, draw.choice([None, 9]))))


def client(draw):
    """A cache, requests of it, and replies to those that are made."""
    seals, file, micros = model.Seals(), exchange.cache(draw), draw.choice([0, 1, 999_999])
    name = {"realm": exchange.NAMED[0], "components": list(exchange.NAMED[1])}
    lines, answers, count = [f"cache {file.hex()}"], ["cache"], 0
    for _ in range(3):
        confounder, is_mutual, choice = draw.randbytes(16), draw.random() < 0.5, some_choice(draw)
        service = name_word(draw.choice([0, 1, 3]), *exchange.NAMED)
        how = "mutual" if is_mutual else "plain"
        lines.append(f"request {service} {BASE} {micros} {confounder.hex()} {how} {choice_words(choice)}")
        try:
            asked = model.chosen(model.reference.cache(file), name, BASE), MICROS * BASE + micros
        except model.Refused as refusal:
            answers.append(f"refused {refusal}")
            continue
        answers.append(word_of(model.request(seals, file, name, BASE, micros, confounder, is_mutual, *choice)))
        for _ in range(4):
            reply = some_reply(draw, seals, asked)
            lines.append(f"finish {count} {word_of(reply)}")
            answers.append(finished(seals, asked, reply))
        count += 1
    return lines, answers


def clients(draw):
    for number in range(CLIENTS):
        yield IN_C, f"client {number}", *client(draw)


def beginnings():
    """Each beginning of the fixture's request and reply is cut off where it ends."""
    request, reply = fixture.request(), fixture.reply()
    lines, answers = ["service timed 300 " + fixture.keytab().hex()], ["service"]
    for size in range(len(request)):
        lines.append(f"accept 1700000100 5 {word_of(request[:size])}")
        answers.append(f"refused Malformed at {size}")
    yield IN_C, "each beginning of the request", lines, answers
    lines, answers = asking(FIXTURE)
    for size in range(len(reply)):
        lines.append(f"finish 0 {word_of(reply[:size])}")
        answers.append(f"refused Malformed at {size}")
    yield IN_C, "each beginning of the reply", lines, answers


def asking(made):
    """A client that made a request of its cache."""
    request = exchange_made.request(Made(seconds=made.seconds, micros=made.micros, options=1 << 31 - model.MUTUAL,
                                         client_type=2))
    line = f"request {name_word(1, *exchange.NAMED)} {made.seconds} {made.micros} {CONFOUNDER.hex()} mutual none none"
    return [f"cache {exchange_made.cache_of(made).hex()}", line], ["cache", request.hex()]


def turned(place):
    """What is answered where the lowest bit of this byte of the fixture's request is turned, by hand from the request's
    layout."""
    if place in (*range(23, 27), 55):
        # options that aren't looked at, and the type of the service's name
        return "accepted"
    causes = {
        "MessageType": [0], "TicketEtype": [81], "NotUs": [45, 46, *range(62, 66), *range(68, 71)],
        "BadKeyVersion": [86],
        "TicketIntegrity": range(93, 244), "AuthenticatorIntegrity": [252, *range(257, 348)],
    }
    return next((f"refused {cause}" for cause, places in causes.items() if place in places), "refused Malformed")


def each_byte():
    """By the layout of the request, and once more by the model."""
    request, file = fixture.request(), exchange_made.keytab(exchange_made.BOTH)
    seals = model.Seals()
    seals.seal(19, fixture.SERVICE_KEY, 2, exchange_made.TICKET_CONFOUNDER, fixture.ticket_part())
    seals.seal(19, fixture.SESSION_KEY, 11, CONFOUNDER, fixture.authenticator())
    lines, answers = [], []
    for place in range(len(request)):
        data = request[:place] + bytes([request[place] ^ 1]) + request[place + 1 :]
        said, _ = Told(seals, file, 300).answer(data, MICROS * 1_700_000_100 + 5)
        if not said.startswith(turned(place)):
            raise ValueError(f"byte {place} turned: {said}, not {turned(place)}")
        lines += [f"service timed 300 {file.hex()}", f"accept 1700000100 5 {data.hex()}"]
        answers += ["service", said]
    yield IN_C, "each byte of the request", lines, answers


class Plain:
    """A service in plain words: the latest moment, and the moments of all requests that were near to it."""

    def __init__(self):
        self.latest, self.shown = None, set()

    def answer(self, sent, now):
        self.latest = now if self.latest is None else max(self.latest, now)
        if abs(self.latest - sent) > SKEW:
            return "refused Skew"
        if sent in self.shown:
            return "refused Repeat"
        self.shown.add(sent)
        return None


def some_moment(draw):
    """Of some twenty minutes."""
    return MICROS * (BASE + draw.randrange(1_300)) + draw.randrange(MICROS)


@dataclass(frozen=True)
class Packet:
    """A request: its moment, the line that makes it, its bytes, and what is said of it if it is accepted: by the
    library for C, and by krb_calls_exchange."""

    moment: int
    line: str
    request: str
    accepted: str
    stamp: str


def packet(draw):
    moment, choice = some_moment(draw), some_choice(draw)
    made = Made(seconds=moment // MICROS, micros=moment % MICROS, options=1 << 31 - model.MUTUAL, client_type=2,
                subkey=choice[0], number=choice[1])
    name = name_word(1, *exchange.NAMED)
    line = f"request {name} {time_words(moment)} {CONFOUNDER.hex()} mutual {choice_words(choice)}"
    return Packet(moment, line, exchange_made.request(made).hex(), exchange_made.accepted(made),
                  f"accepted {word_of(exchange_made.stamp(made))}")


def delivered(draw, packets, plain, replies, listed):
    """A packet comes to the service, and to the one with a list; the reply, if there is one, to its client and to
    another."""
    which, other = draw.randrange(PACKETS), draw.randrange(PACKETS)
    it, now = packets[which], some_moment(draw)
    refusal, accept = plain.answer(it.moment, now), f"accept {time_words(now)}"
    listed.append((f"{accept} {it.request}", refusal or it.stamp))
    yield f"{accept} made:{which}", refusal or it.accepted
    if refusal:
        return
    subkey, number = choice = draw.choice(replies)
    made = Replied(seconds=it.moment // MICROS, micros=it.moment % MICROS, subkey=subkey, number=number)
    yield f"reply {REPLY_CONFOUNDER.hex()} {choice_words(choice)}", exchange_made.reply(made).hex()
    name, key = name_word(2, b"EX", [b"alice"]), f"19/{fixture.SESSION_KEY.hex()}"
    agreed = f"agreed {name} {key} {choice_words(choice)}"
    yield f"finish {which} replied", agreed
    yield f"finish {other} replied", agreed if other == which else "refused Mismatch"


def schedules(draw):
    """Requests that are lost, repeated and reordered, and their replies, to services with both memories."""
    packets, replies = [packet(draw) for _ in range(PACKETS)], [some_choice(draw) for _ in range(10)]
    keytab, again = exchange_made.keytab(exchange_made.BOTH).hex(), random.Random(draw.random())
    listed, timed = [], [(f"cache {exchange_made.cache_of(FIXTURE).hex()}", "cache")]
    timed += [(it.line, it.request) for it in packets]
    for _ in range(SCHEDULES):
        plain = Plain()
        for lines, memory in zip((listed, timed), MEMORIES):
            lines.append((f"service {memory} 300 {keytab}", "service"))
        for _ in range(again.randrange(DELIVERIES + 1)):
            timed += delivered(again, packets, plain, replies, listed)
    if sum(it.startswith("accepted") for _, it in listed) <= SCHEDULES:
        raise ValueError("too few requests are accepted")
    for program, lines, memory in zip((RATTLE, IN_C), (listed, timed), MEMORIES):
        yield program, f"schedules of any order, {memory}", *map(list, zip(*lines))


# How many tuples are remembered at most. A list is gone through for each.
TUPLES = {"timed": 100_000, "list": 4_000}
WEB, ALICE = "3/4558/686f7374,776562", "1/4558/616c696365"


def many_tuples():
    """Many tuples, in an order that jumps to and fro in time: none is dropped or doubled."""
    for memory, count in TUPLES.items():
        lines, answers = [f"memory {memory}"], ["memory"]
        for number in range(count):
            lines.append(f"remember {WEB} {ALICE} {7919 * number % count} 5")
            answers.append("ok")
        lines, answers = [*lines, "len"], [*answers, str(count)]
        for number in range(count):
            lines.append(f"contains {WEB} {ALICE} {number} 5")
            answers.append("true")
        forgotten = 0 if memory == "list" else 10_000
        lines, answers = [*lines, "advance 10300 5 300", "len"], [*answers, "ok", str(count - forgotten)]
        for number in range(count):
            lines.append(f"contains {WEB} {ALICE} {number} 5")
            answers.append("true" if number >= forgotten else "false")
        yield RATTLE, f"many tuples, {memory}", lines, answers


def many_calls():
    """One call after another is answered, of very many at once."""
    request, answer = exchange_made.request(FIXTURE).hex(), f"accepted {word_of(exchange_made.stamp(FIXTURE))}"
    call, count = f"1700000100 5 {request}", 3_000
    for memory in MEMORIES:
        service = f"service {memory} 300 {exchange_made.keytab(exchange_made.BOTH).hex()}"
        yield RATTLE, f"{count} calls at once, {memory}", [service, " ".join(["serve", *[call] * count])], [
            "service", " | ".join([str(count), answer, *["refused Repeat"] * (count - 1)])]


def long_messages():
    """A reply with a long subkey is taken, errors with long names are built, and of long names there are the bytes of a
    tuple."""
    lines, answers = asking(FIXTURE)
    subkey = f"18/{bytes(60_000).hex()}"
    lines.append(f"finish 0 {exchange_made.reply(Replied(subkey=subkey)).hex()}")
    client, key = name_word(2, b"EX", [b"alice"]), fixture.SESSION_KEY.hex()
    answers.append(f"agreed {client} 19/{key} 18/{told_bytes(bytes(60_000))} none")
    tuples = []
    for realm, components in ((b"E" * 1_000_000, [b"host", b"web"]), (b"EX", [b"h" * 1_000_000, b"web"]),
                              (b"EX", [b"host"] * 100_000)):
        name = name_word(3, realm, components)
        lines.append(f"error Repeat 1700000100 7 {name}")
        answers.append(told_bytes(model.error(model.CODES["Repeat"], MICROS * 1_700_000_100 + 7, realm, components)))
        stamp = exchange_made.stamp_bytes((realm, components), (b"EX", [b"alice"]), 1_700_000_100, 5)
        tuples.append((f"tuple bytes {name} {ALICE} 1700000100 5", told_bytes(stamp)))
    yield IN_C, "long messages and names", lines, answers
    yield RATTLE, "tuples with long names", *map(list, zip(*tuples))


def memory_calls(draw, memory):
    """Calls of a memory in any order, and what a set of tuples answers."""
    lines, answers, held, latest = [f"memory {memory}"], ["memory"], set(), None
    names = [name_word(0, realm, components)[2:] for realm, components in (*exchange.NAMES[:3], *exchange.CLIENTS)]
    for _ in range(MEMORY_CALLS):
        tuple_of = draw.choice(names), draw.choice(names), MICROS * draw.randrange(60) + draw.choice([0, 1, 999_999])
        service, client = (f"{draw.choice([0, 1, 3])}/{it}" for it in tuple_of[:2])
        words = f"{service} {client} {time_words(tuple_of[2])}"
        call = draw.choice(["remember", "remember", "contains", "contains", "len", "latest", "advance"])
        if call == "remember":
            held.add(tuple_of)
        if call == "advance":
            moment, skew = MICROS * draw.randrange(-5,
                                                   60) + draw.choice([0, 1, 999_999]), draw.choice([0, 1, 10, 86_400])
            latest = moment if latest is None else max(latest, moment)
            held = {it for it in held if memory == "list" or it[2] >= latest - MICROS * skew}
            words = f"{time_words(moment)} {skew}"
        lines.append(call if call in ("len", "latest") else f"{call} {words}")
        answers.append({
            "remember": "ok", "advance": "ok", "contains": str(tuple_of in held).lower(), "len": str(len(held)),
            "latest": "none" if latest is None else time_words(latest),
        }[call])
    return lines, answers


def memories(draw):
    for number in range(4):
        for memory in MEMORIES:
            yield RATTLE, f"memory {number}, {memory}", *memory_calls(draw, memory)


# What is drawn, each part with a seed of its own.
PARTS = {
    "services": lambda draw: often_enough("services", SERVICE_ANSWERS, services(draw)),
    "clients": lambda draw: often_enough("clients", CLIENT_ANSWERS, clients(draw)),
    "beginnings": lambda _: beginnings(),
    "each_byte": lambda _: each_byte(),
    "schedules": schedules,
    "many_tuples": lambda _: many_tuples(),
    "many_calls": lambda _: many_calls(),
    "long_messages": lambda _: long_messages(),
    "memories": memories,
}


def drawn(part):
    """The cases of a part: program, name, lines, answers."""
    for program, name, lines, answers in PARTS[part](random.Random(f"{SEED} {part}")):
        yield program, f"exchange: {name}", lines, answers
