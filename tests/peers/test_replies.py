"""Replies and errors: theirs read by our client, and ours by theirs. Our side is the library for C."""
from pathlib import Path

import pytest

from support import exchange_in_c, tickets
from support.checks import slug
from support.exchange_made import name_word, parts_of
from support.sides import LIBRARIES, now

pytestmark = [pytest.mark.packages, pytest.mark.slow, pytest.mark.xdist_group("realms")]
OF_EACH_TYPE = pytest.mark.parametrize("ticket", tickets.OF_EACH_TYPE, indirect=True, ids=slug)
HIGHEST = 4294967295
CONFOUNDER = "5a" * 16
SUBKEY = f"20/{'07' * 32}"
# The type of a service's name (NT-SRV-HST, RFC 4120, section 6.2).
SERVICE = 3


def text_of(name):
    """The text of a NAME."""
    _, realm, components = name.split("/")
    parts = [bytes.fromhex(it).decode() for it in components.split(",")]
    return f"{'/'.join(parts)}@{bytes.fromhex(realm).decode()}"


class Sides:
    """Our client and our service at one second, for a ticket; with `chosen` they choose a subkey and a sequence
    number."""

    def __init__(self, ticket, second, how="none"):
        self.ticket, self.second = ticket, second
        self.choice = f"{SUBKEY} {HIGHEST}" if how == "chosen" else "none none"
        self.name = name_word(SERVICE, *parts_of(ticket.service))

    def said(self, *lines):
        """What is answered to these lines."""
        return list(exchange_in_c.answers(lines))

    def client(self, micros, *lines):
        cache = Path(self.ticket.cache).read_bytes().hex()
        return self.said(f"cache {cache}",
                         f"request {self.name} {self.second} {micros} {CONFOUNDER} mutual {self.choice}", *lines)[1:]

    def asked(self, micros):
        return self.client(micros)[0]

    def finished(self, micros, reply):
        """What the client of that request says of a reply: client, and types of the keys and number, 0 and -1 if there
        are none."""
        answer = self.client(micros, f"finish 0 {reply}")[1].split()
        if answer[0] != "agreed":
            return " ".join(answer)
        _, client, key, subkey, number = answer
        chosen = "0" if subkey == "none" else subkey.split("/")[0]
        return f"agreed {text_of(client)} {key.split('/')[0]} {chosen} {'-1' if number == 'none' else number}"

    def served(self, micros, request):
        """What our service says to a request and to its repetition, and the reply and the error that it sends."""
        keytab = Path(self.ticket.keytab).read_bytes().hex()
        accept, at = f"accept {self.second} {micros} {request}", f"{self.second} {micros}"
        lines = [f"service timed 300 {keytab}", accept, f"reply {CONFOUNDER} {self.choice}", accept,
                 f"error Repeat {at} {self.name}"]
        _, accepted, reply, refused, error = self.said(*lines)
        return accepted.split()[0], refused, reply, error


@OF_EACH_TYPE
def test_theirs_to_ours(checks, peers, in_c, ticket):
    """Replies of their services, with and without a subkey and a number of theirs, to requests of ours, with and
    without ours."""
    for how, given in (("none", "none 0"), ("chosen", f"20 {HIGHEST}")):
        for library in LIBRARIES:
            for words in ([], ["number"], ["subkey"], ["subkey", "number"]):
                sides = Sides(ticket, now(), how)
                line = f"{sides.second} 0 {sides.asked(7)}"
                *told, subkey, number, reply = peers.served(ticket.realm, library, ticket.keytab, [line],
                                                            ticket.service, words)[0].split()
                chosen = f"{subkey.replace('none', '0')} {number if 'number' in words else -1}"
                wanted = f"agreed {ticket.client} {ticket.etype} {chosen}"
                name = f"reply: {library}'s to ours, {ticket.label}, {how}, {' '.join(words) or 'plain'}"
                checks.equal(name, [" ".join(told[7:9]), sides.finished(7, reply)], [given, wanted])
                checks.equal(f"{name}, to another request", sides.finished(8, reply), "refused Mismatch")


@OF_EACH_TYPE
def test_ours_to_theirs(checks, peers, in_c, ticket):
    """Replies of ours, with and without a subkey and a number, to requests of theirs; and the error that we send for a
    repeat."""
    for how, wanted in (("none", "agreed none 0"), ("chosen", f"agreed 20 {HIGHEST}")):
        for library in LIBRARIES:
            for words in (["mutual"], ["mutual", "subkey", "number"]):
                sides = Sides(ticket, now(), how)
                client, request = peers.client(ticket.realm, library, ticket.cache, ticket.service, 0, words)
                accepted, refused, reply, error = sides.served(9, request)
                told = client.communicate(f"{reply}\n{error}\n", timeout=300)[0].splitlines()
                name = f"reply: ours to {library}'s, {ticket.label}, {how}, {' '.join(words)}"
                checks.equal(name, [accepted, refused, *told],
                             ["accepted", "refused Repeat", wanted, f"error 34 {sides.second} 9 {ticket.service}"])


@OF_EACH_TYPE
def test_commands_to_theirs(checks, peers, ticket):
    """What the command accept puts after its answers, given to their clients: a reply, and the error for the same
    request again."""
    for library in LIBRARIES:
        second = now()
        client, request = peers.client(ticket.realm, library, ticket.cache, ticket.service, 0, ["mutual"])
        line = f"{second} 9 {request} {CONFOUNDER}"
        accepted, refused = peers.accept(ticket.keytab, [line, line], "--service", ticket.service)
        reply, error = accepted.partition(" reply ")[2], refused.partition(" error ")[2]
        told = client.communicate(f"{reply}\n{error}\n", timeout=300)[0].splitlines()
        wanted = ["agreed none 0", f"error 34 {second} 9 {ticket.service}"]
        checks.equal(f"reply: the command's to {library}'s, {ticket.label}", told, wanted)
