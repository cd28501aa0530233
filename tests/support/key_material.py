"""What a run of the library's calls is given, and each secret that it handles: keys, the keys that follow from them,
and the plain texts of tickets, authenticators and replies. All keys are drawn from a stored seed.

Everything is made by the standards' rules alone.
"""
import random
from dataclasses import dataclass, field

from support import aes, der, fixture
from support.sealing import TYPES, derived, sealed
from support.sha2 import SHA256, SHA384, hmac_states

TICKET, AUTHENTICATOR, REPLY, CHOSEN = 2, 11, 12, 1024
PURPOSES = {"Kc": 0x99, "Ke": 0xAA, "Ki": 0x55}
ETYPES = (19, 20)
# A piece of a secret that is looked for.
PIECE = 8
NOW = fixture.CLIENT_TIME


@dataclass
class Material:
    """The files of a run by their names, and its secrets by theirs."""

    files: dict = field(default_factory=dict)
    secrets: dict = field(default_factory=dict)

    def pieces(self):
        """Each piece of a secret, with the secret's name, except what the files have in the clear
        and what says nothing."""
        clear = b"\0".join(self.clear())
        found = {}
        for name, secret in self.secrets.items():
            for at in range(len(secret) - PIECE + 1):
                piece = secret[at : at + PIECE]
                if len(set(piece)) > PIECE // 2 and piece not in clear:
                    found.setdefault(piece, name)
        return found

    def clear(self):
        """The files without the keys in them."""
        for name, data in self.files.items():
            if not name.startswith("key-"):
                for key in self.keys():
                    data = data.replace(key, b"\0")
                yield data

    def keys(self):
        return [data for name, data in self.files.items() if name.startswith("key-")]

    def write(self, folder):
        """Writes the files, and the pieces with their names."""
        for name, data in self.files.items():
            (folder / name).write_bytes(data)
        lines = (f"{piece.hex()} {name.replace(' ', '-')}\n" for piece, name in self.pieces().items())
        (folder / "pieces").write_text("".join(lines))


def of_key(name, etype, key, usages):
    """A key, and all that follows from it."""
    made = {name: key}
    for usage in usages:
        for purpose, byte in PURPOSES.items():
            inner = derived(etype, key, usage, byte)
            made[f"{name}, {purpose} of usage {usage}"] = inner
            if purpose == "Ke":
                for at, it in enumerate(aes.round_keys(inner)[1:], 1):
                    made[f"{name}, round key {at} of usage {usage}"] = it
            else:
                made |= states(f"{name}, {purpose} of usage {usage}", etype, inner)
    return made | states(name, etype, key)


def states(name, etype, key):
    """The states of HMAC, as words of the processor."""
    function, size = (SHA256, 4) if etype == 19 else (SHA384, 8)
    return {f"{name}, {which} state": b"".join(it.to_bytes(size, "little") for it in state)
            for which, state in zip(("inner", "outer"), hmac_states(function, key))}


def cache(etype, key, ticket):
    client, server = fixture.principal(1, b"EX", b"alice"), fixture.principal(3, b"EX", b"host", b"web")
    times = (fixture.AUTHTIME, 0, fixture.ENDTIME, 0)
    return b"\x05\x04\x00\x00" + client + fixture.credential(client, server, etype, key, times, ticket)


def made(seed=75):
    """The files and the secrets of a run. The other side of a conversation chooses subkeys, too."""
    draw = random.Random(seed)
    drawn = lambda count: draw.randbytes(count)
    it = Material()
    service = {etype: drawn(TYPES[etype][1]) for etype in ETYPES}
    it.files["keytab"] = fixture.keytab([(3, etype, key) for etype, key in service.items()])
    for etype in ETYPES:
        size = TYPES[etype][1]
        session, client_subkey, service_subkey, chosen = (drawn(size) for _ in range(4))
        seal = lambda key, usage, text: sealed(etype, key, usage, drawn(16), text)
        encrypted = lambda key, usage, text, kvno=None: der.encrypted(etype, seal(key, usage, text), kvno)
        part = der.enc_ticket_part(0, der.key(etype, session), b"EX", fixture.ALICE, fixture.AUTHTIME, fixture.ENDTIME)
        ticket = der.ticket(b"EX", fixture.WEB, encrypted(service[etype], TICKET, part, 3))
        subkey = der.key(etype, client_subkey)
        authenticator = der.authenticator(b"EX", fixture.ALICE, etype, NOW, subkey=subkey, number=77)
        reply = der.enc_reply_part(NOW, etype, der.key(etype, service_subkey), 78)
        plain = drawn(100)
        it.files |= {
            f"request-{etype}": der.request(1 << 29, ticket, encrypted(session, AUTHENTICATOR, authenticator)),
            f"reply-{etype}": der.reply(encrypted(session, REPLY, reply)),
            f"cache-{etype}": cache(etype, session, ticket),
            f"sealed-{etype}": sealed(etype, chosen, CHOSEN, drawn(16), plain),
            f"key-chosen-{etype}": chosen,
            f"key-subkey-{etype}": client_subkey,
            f"key-service-{etype}": service[etype],
            f"key-session-{etype}": session,
            f"key-random-{etype}": drawn(16) + client_subkey,
            f"key-plain-{etype}": plain,
        }
        it.secrets |= of_key(f"service key {etype}", etype, service[etype], (TICKET,))
        it.secrets |= of_key(f"session key {etype}", etype, session, (AUTHENTICATOR, REPLY))
        it.secrets |= of_key(f"chosen key {etype}", etype, chosen, (CHOSEN,))
        it.secrets |= {
            f"client's subkey {etype}": client_subkey,
            f"service's subkey {etype}": service_subkey,
            f"plain text {etype}": plain,
            f"ticket's plain text {etype}": part,
            f"authenticator's plain text {etype}": authenticator,
            f"reply's plain text {etype}": reply,
        }
    return it
