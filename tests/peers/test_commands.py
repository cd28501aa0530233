"""`krbtool finish` given the replies of their services; `krbtool pick-key` beside what their tools list and their
libraries pick; and `krbtool add-keys` beside their tools."""
import pytest

from support import der_rules, msg_rules, tickets
from support.checks import slug
from support.kdc import Trouble, ran
from support.sides import LIBRARIES, first_words, now
from support.tickets import AES128, AES256, NUMBERS, klist_keytab

pytestmark = [pytest.mark.packages, pytest.mark.slow, pytest.mark.xdist_group("realms")]
EACH_KEYTAB = pytest.mark.parametrize("keytab", tickets.KEYTABS, indirect=True, ids=slug)

# ---------------------------------------------------------------- finish

# What their services choose for a reply.
CHOICES = [[], ["number"], ["subkey"], ["number", "subkey"]]
MICROS = 7
# How the protocol's version number, 5, stands in a message (RFC 4120, section 5.5.2).
VERSION = bytes.fromhex("a003020105")


class Exchange:
    """A request of `krbtool request --mutual` at one moment, and the reply of a library's service, with what that says
    of it."""

    def __init__(self, peers, library, ticket, words):
        self.peers, self.ticket, self.second = peers, ticket, now()
        self.request = peers.request(ticket.cache, ticket.service, self.second, MICROS, "--mutual")
        line = f"{self.second} 0 {self.request}"
        answer = peers.served(ticket.realm, library, ticket.keytab, [line], ticket.service, words)[0]
        self.accepted = first_words(answer)
        if not answer.startswith("accepted "):
            raise Trouble(f"{library}'s service for {ticket.label}: {answer}")
        self.subkey, number, self.reply = answer.split()[-3:]
        self.number = number if "number" in words else None

    def agreed(self):
        """What the service has chosen, as `finish` writes it."""
        number = "" if self.number is None else f" seq {self.number}"
        subkey = "" if self.subkey == "none" else f" subkey {self.subkey}"
        return f"agreed {self.ticket.client} {self.ticket.etype}{number}{subkey}\n"

    def finished(self, reply, micros=MICROS):
        """What `finish` says of a reply: its line, or the name of the fault alone."""
        it, moment = self.ticket, ["--time", self.second, "--usec", micros]
        out, said, status = self.peers.tried("finish", it.cache, it.service, *moment, "--reply", reply)
        if (said, status) == ("", 0):
            return out
        named = not out and status == 1 and said.startswith("krbtool: finish: ") and said.endswith("\n")
        return said[len("krbtool: finish: ") : -1] if named else (out, said, status)


def fault_of(reply):
    """The fault of bytes that are no reply, by the rules of DER alone."""
    try:
        der_rules.read(msg_rules.AP_REP, bytes.fromhex(reply))
    except der_rules.Refused as refused:
        return f"Malformed at {str(refused).rsplit(' ', 1)[1]}"
    return None


def changed(reply, at):
    """The reply with one bit of the byte at this offset changed."""
    made = bytearray.fromhex(reply)
    made[at] ^= 1
    return made.hex()


def bent(exchange, other):
    """Replies that aren't the one awaited: what was done to it, the bytes, and the fault that is awaited."""
    reply = exchange.reply
    yield "of no bytes", "", fault_of("")
    yield "without its last byte", reply[:-2], fault_of(reply[:-2])
    yield "with a byte more", reply + "00", fault_of(reply + "00")
    yield "with another version number", changed(reply, bytes.fromhex(reply).index(VERSION) + len(VERSION) - 1), None
    yield "whose first byte is of a request", changed(reply, 0), "MessageType"
    yield "that is the request", exchange.request, "MessageType"
    yield "with its last byte changed", changed(reply, -1), "Integrity"
    yield "to another ticket", other.reply, "Integrity"


@pytest.mark.parametrize("ticket", tickets.OF_EACH_TYPE, indirect=True, ids=slug)
def test_finish(checks, world, peers, ticket):
    """The replies of their services with each choice of theirs, and some that were bent. The other ticket has another
    session key."""
    at = tickets.OF_EACH_TYPE.index(ticket.label)
    other = world.tickets[tickets.OF_EACH_TYPE[(at + 1) % len(tickets.OF_EACH_TYPE)]]
    for library in LIBRARIES:
        for words in CHOICES:
            exchange = Exchange(peers, library, ticket, words)
            name = f"finish: {library}'s reply, {ticket.label}, {' '.join(words) or 'plain'}"
            wanted = f"accepted {ticket.client} {ticket.etype} {exchange.second} {MICROS} mutual"
            checks.equal(name, [exchange.accepted, exchange.finished(exchange.reply)], [wanted, exchange.agreed()])
            checks.equal(f"{name}, to another moment", exchange.finished(exchange.reply, MICROS + 1), "Mismatch")
            if "subkey" in words:
                checks.equal(f"{name}, chose a key", exchange.subkey in ("19", "20"), True)
            if "number" in words:
                checks.equal(f"{name}, chose a number", int(exchange.number) > 0, True)
        for how, reply, fault in bent(exchange, Exchange(peers, library, other, [])):
            wanted = fault if fault is not None else fault_of(reply)
            checks.equal(f"finish: {library}'s reply, {ticket.label}, {how}", exchange.finished(reply), wanted)


# ---------------------------------------------------------------- pick-key

USABLE = (NUMBERS[AES128], NUMBERS[AES256])
# A type that isn't usable, and a name and a version number that no keytab has.
UNUSABLE, NOBODY, NEVER = 18, "host/nobody.example@ELSE.TEST", 99


def listed_by_heimdal(heimdal, path):
    """The version number, type and name of each line of Heimdal's `ktutil list`."""
    for line in heimdal.ktutil(path, "list").splitlines()[1:]:
        words = line.split()
        if len(words) >= 3 and words[0].isdigit():
            yield words[0], str(NUMBERS[words[1]]), words[2]


def listed_by_mit(realm, path):
    """The version number, type, name and time of each line of MIT's `klist -kte`."""
    for line, _ in klist_keytab(realm, path):
        kvno, etype, moment, name = line.split()
        yield kvno, etype, name, moment


def chosen(lines, name, etype, kvno):
    """The line that a ticket's key is in: the first of those with the highest number, or with the wanted one; or why
    there is none."""
    of_name = [line for line in lines if line[2] == name]
    of_key = [line for line in of_name if line[1] == str(etype)]
    fitting = [line for line in of_key if kvno in (None, int(line[0]))]
    if fitting:
        return max(fitting, key=lambda line: int(line[0]))
    return "NoVersion" if of_key else "NoKey" if of_name else "NoName"


def picked(peers, path, name, etype, kvno):
    """What `pick-key` says: the words of its line in the order of `chosen`, or the name of the fault alone."""
    out, said, status = peers.tried("pick-key", path, name, etype, *([] if kvno is None else ["--kvno", kvno]))
    note = ("", 0) if etype in USABLE else ("krbtool: pick-key: UnusableType\n", 1)
    if (said, status) == note and out.count("\n") == 1 and len(out.split()) == 4:
        kvno, etype, moment, name = out.split()
        return kvno, etype, name, moment
    named = not out and status == 1 and said.startswith("krbtool: pick-key: ")
    return said[len("krbtool: pick-key: ") : -1] if named else (out, said, status)


def picked_by(peers, realm, library, path, asked):
    """What krb5_kt_get_entry of a library gives for each that is asked for."""
    lines = "".join(f"{name} {etype} {kvno or 0}\n" for name, etype, kvno in asked)
    return ran([peers.path("pick", library), f"FILE:{path}"], env=realm.environment("default"),
               input=lines).splitlines()


def is_clear(lines, name, etype, kvno):
    """Whether MIT's library takes the highest number: beside one above 240 it takes one below 128 for a larger one that
    was cut."""
    numbers = [int(line[0]) for line in lines if line[2] == name and line[1] == str(etype)]
    return kvno is not None or not numbers or max(numbers) <= 240 or min(numbers) >= 128


def asked_of(lines):
    """Each name of a keytab and one that it hasn't, with each type, without a version number and with each."""
    names, numbers = sorted({line[2] for line in lines}), sorted({int(line[0]) for line in lines})
    return [(name, etype, kvno) for name in [*names, NOBODY] for etype in (*USABLE, UNUSABLE)
            for kvno in (None, *numbers, NEVER)]


@EACH_KEYTAB
def test_pick_key(checks, world, peers, keytab):
    """Each name, type and version number of a keytab, as the tools' lists and the libraries' own choice have it."""
    (realm, path), heimdal = keytab, world.heimdal
    lines, short = list(listed_by_mit(realm, path)), list(listed_by_heimdal(heimdal, path))
    asked = asked_of(lines)
    found = {it: picked(peers, path, *it) for it in asked}
    label = f"pick-key: {path.name} of {realm.name}"
    checks.equal(f"{label}, asked", len(asked) >= 18 and any(isinstance(it, tuple) for it in found.values()), True)
    checks.equal(f"{label}, by MIT's klist", found, {it: chosen(lines, *it) for it in asked})
    shortened = {it: answer[:3] if isinstance(answer, tuple) else answer for it, answer in found.items()}
    checks.equal(f"{label}, by Heimdal's ktutil", shortened, {it: chosen(short, *it) for it in asked})
    for library in LIBRARIES:
        clear = [it for it in asked if library != "MIT" or is_clear(lines, *it)]
        ours = [f"{it[0]} {it[1]} {it[3]}" if isinstance(it, tuple) else "none" for it in map(found.get, clear)]
        checks.equal(f"{label}, by {library}'s krb5_kt_get_entry", ours, picked_by(peers, realm, library, path, clear))


# ---------------------------------------------------------------- add-keys


def keys_of(realm, path):
    """The version number, type, name and bytes of each key of a keytab, as MIT's `klist -kteK` prints them."""
    for line, key in klist_keytab(realm, path):
        kvno, etype, _, name = line.split()
        yield kvno, etype, name, key


@pytest.mark.parametrize("more", [tickets.KEYTABS[0], tickets.KEYTABS[-1]], ids=slug)
@EACH_KEYTAB
def test_add_keys(checks, world, peers, keytab, more):
    """The keys of a keytab added to another, as MIT's `ktutil` puts both into one; no key is there more often than
    before."""
    (realm, one), (_, other), heimdal = keytab, world.keytabs[more], world.heimdal
    made, merged = one.with_suffix(f".with-{other.stem}"), one.with_suffix(f".beside-{other.stem}")
    label = f"add-keys: {other.name} to {one.name} of {realm.name}"
    checks.equal(label, peers.said("add-keys", one, other, "--out", made), f"wrote {made.stat().st_size}\n")
    realm.run("default", "ktutil", input=f"rkt {one}\nrkt {other}\nwkt {merged}\nquit\n")
    held, found = list(keys_of(realm, one)), list(keys_of(realm, made))
    lacking = {key for key in keys_of(realm, other)} - set(held)
    checks.equal(f"{label}, by MIT's ktutil", set(found), set(keys_of(realm, merged)))
    checks.equal(f"{label}, each once", sorted(found), sorted([*held, *lacking]))
    listed = sorted((kvno, etype, name) for kvno, etype, name, _ in found)
    checks.equal(f"{label}, by Heimdal's ktutil", sorted(listed_by_heimdal(heimdal, made)), listed)
