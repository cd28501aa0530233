"""Makes the small exchange that tests share: a ticket, a credential cache, requests, replies and an error, by the
standards' rules alone.

DER is written by der.py, and sealing is that of sealing.py.
"""
import struct

from support import der, reference
from support.sealing import sealed

SERVICE_KEY = bytes.fromhex("3705d96080c17728a0e800eab6e0d23c")
SESSION_KEY = bytes(range(16))
AUTHTIME, ENDTIME, CLIENT_TIME = 1_700_000_000, 1_700_036_000, 1_700_000_100
ALICE, WEB = der.name(1, b"alice"), der.name(3, b"host", b"web")


def ticket_part():
    return der.enc_ticket_part(0, der.key(19, SESSION_KEY), b"EX", ALICE, AUTHTIME, ENDTIME)


def ticket(cipher=None):
    """The client's ticket, or one with another sealed part."""
    cipher = cipher or sealed(19, SERVICE_KEY, 2, bytes(range(0x10, 0x20)), ticket_part())
    return der.ticket(b"EX", WEB, der.encrypted(19, cipher, 3))


def data(text):
    return struct.pack(">I", len(text)) + text


def principal(name_type, realm, *components):
    return struct.pack(">iI", name_type, len(components)) + data(realm) + b"".join(data(it) for it in components)


def credential(client, server, etype, key, times, ticket_bytes, second_etype=b""):
    return (client + server + struct.pack(">h", etype) + second_etype + data(key) + struct.pack(">4I", *times)
            + struct.pack(">BI", 0, 0) + struct.pack(">II", 0, 0) + data(ticket_bytes) + data(b""))


def keytab(keys=((3, 19, SERVICE_KEY),)):
    """The keytab of host/web@EX with these keys: version number, type and bytes."""
    names = {"realm": b"EX", "components": [b"host", b"web"], "name_type": 3, "timestamp": AUTHTIME}
    entries = ({**names, "kvno": kvno, "etype": etype, "key": key} for kvno, etype, key in keys)
    return b"\x05\x02" + b"".join(map(reference.record_of, entries))


def cache(of=None):
    """The client's cache, with its ticket or another."""
    client, server = principal(1, b"EX", b"alice"), principal(3, b"EX", b"host", b"web")
    times = (AUTHTIME, 0, ENDTIME, 0)
    return b"\x05\x04\x00\x00" + client + credential(client, server, 19, SESSION_KEY, times, of or ticket())


def old_cache(of=None, second_etype=b"\x00\x13"):
    """The same cache of version 0x0503: without a header, and with the encryption type twice."""
    client, server = principal(1, b"EX", b"alice"), principal(3, b"EX", b"host", b"web")
    times = (AUTHTIME, 0, ENDTIME, 0)
    return b"\x05\x03" + client + credential(client, server, 19, SESSION_KEY, times, of or ticket(), second_etype)


def configured_cache():
    client = principal(1, b"EX", b"alice")
    server = principal(0, b"X-CACHECONF:", b"krb5_ccache_conf_data", b"fast_avail")
    header = bytes.fromhex("00010008fffffffe00000007" "00020003aabbcc")
    entry = credential(client, server, 0, b"", (0, 0, 0, 0), b"yes")
    return b"\x05\x04" + struct.pack(">H", len(header)) + header + client + entry


def context(is_mutual, flags=0, bindings=bytes(16)):
    """The checksum of a client of GSS-API (RFC 4121, section 4.1.1): delegation (1) is never set, and mutual (2) if it
    asks for a reply."""
    flags = flags & ~3 | (2 if is_mutual else 0)
    return der.key(0x8003, struct.pack("<I16sI", 16, bindings, flags))


def authenticator(subkey=None, number=None, checksum=None):
    """The client's, at 1,700,000,100 seconds and 5 microseconds."""
    return der.authenticator(b"EX", ALICE, 5, CLIENT_TIME, checksum=checksum, subkey=subkey, number=number)


def request(options=0, subkey=None, number=None, of=None, checksum=None):
    cipher = sealed(19, SESSION_KEY, 11, bytes(range(0x20, 0x30)), authenticator(subkey, number, checksum))
    return der.request(options, of or ticket(), der.encrypted(19, cipher))


def reply_part(subkey=None, number=None):
    return der.enc_reply_part(CLIENT_TIME, 5, subkey, number)


def reply(subkey=None, number=None):
    cipher = sealed(19, SESSION_KEY, 12, bytes(range(0x30, 0x40)), reply_part(subkey, number))
    return der.reply(der.encrypted(19, cipher))


def error(code):
    return der.error(code, CLIENT_TIME, 7, b"EX", WEB)


def made():
    """What tests keep, by its name."""
    long_key, short_key = der.key(20, bytes(range(32, 64))), der.key(19, bytes(range(64, 80)))
    return {
        "ticket part": ticket_part(),
        "ticket": ticket(),
        "keytab": keytab(),
        "cache": cache(),
        "configured cache": configured_cache(),
        "request": request(),
        "mutual request with a subkey and a number": request(1 << 29, long_key, 4_294_967_295),
        "reply": reply(),
        "reply with a subkey and a number": reply(short_key, 128),
        "error": error(37),
    }
