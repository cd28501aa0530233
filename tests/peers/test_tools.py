"""MIT krb5's own tools on files that the built program wrote (Debian's package krb5-user)."""
import datetime
import os
import re
import struct
from itertools import product

import pytest

from support import EXAMPLES, fixture, generated, reference
from support.kdc import ran

pytestmark = pytest.mark.packages
TYPES = {19: "aes128-cts-hmac-sha256-128", 20: "aes256-cts-hmac-sha384-192"}


def listed_by_klist(path):
    """Key version number, principal, enctype and key of each entry, as klist tells them."""
    lines = ran(["klist", "-kteK", str(path)], env={**os.environ, "TZ": "UTC"}).splitlines()
    start = next(at for at, line in enumerate(lines) if line.startswith("----"))
    return [tuple(line.split()) for line in lines[start + 1 :]]


def listed_by_ktutil(path):
    said = ran(["ktutil"], input=f"read_kt {path}\nlist -e\nquit\n").splitlines()
    start = next(at for at, line in enumerate(said) if line.startswith("----"))
    return [tuple(line.split()[1:]) for line in said[start + 1 :] if line.split() and line.split()[0].isdigit()]


def told_by_the_rules(data):
    return [
        (str(it["kvno"]), reference.principal_text(it["realm"], it["components"]), f"({TYPES[it['etype']]})",
         f"(0x{it['key'].hex()})")
        for it in reference.keytab(data)
    ]


KEYTABS = {**{it.name: it.read_bytes() for it in sorted(EXAMPLES.glob("*.keytab"))},
           "fixture": generated.FIXTURE_KEYTAB,
           "holes": generated.HOLED_KEYTAB}
CACHES = {**{it.name: it.read_bytes() for it in sorted(EXAMPLES.glob("*.ccache"))}, "fixture": generated.FIXTURE_CACHE}


def converted(program, command, folder, name, data):
    """A file of these bytes, and what the program's command makes of it."""
    given, made = folder / f"{name}.given", folder / f"{name}.made"
    given.write_bytes(data)
    ran([program, command, str(given), str(made)])
    return given, made


@pytest.mark.parametrize("name", KEYTABS)
def test_converted_keytab(program, tmp_path, name):
    _, made = converted(program, "convert-keytab", tmp_path, name, KEYTABS[name])
    wanted = told_by_the_rules(KEYTABS[name])
    assert [(it[0], it[3], it[4], it[5]) for it in listed_by_klist(made)] == wanted
    assert [it[:3] for it in listed_by_ktutil(made)] == [it[:3] for it in wanted]


def keys_of(path):
    """Key version number, principal, enctype and key of each entry, without its time, as klist prints them."""
    return [(it[0], *it[3:6]) for it in listed_by_klist(path)]


@pytest.mark.parametrize("name, other", product(KEYTABS, repeat=2))
def test_added_keys(program, tmp_path, name, other):
    """The keys of a keytab added to another are those that ktutil puts into one from both, and none is there more often
    than before."""
    one, two, made, merged = (tmp_path / word for word in ("one", "two", "made", "merged"))
    one.write_bytes(KEYTABS[name])
    two.write_bytes(KEYTABS[other])
    ran([program, "add-keys", one, two, "--out", made])
    ran(["ktutil"], input=f"read_kt {one}\nread_kt {two}\nwrite_kt {merged}\nquit\n")
    held = keys_of(one)
    assert sorted(keys_of(made)) == sorted([*held, *(set(keys_of(merged)) - set(held))])


def listed_caches(path):
    """What klist prints of a cache: its principal, and the times and the service of each ticket."""
    return ran(["klist", "-e", "-f", "-c", f"FILE:{path}"], env={**os.environ, "TZ": "UTC"}).splitlines()[1:]


@pytest.mark.parametrize("name", CACHES)
def test_converted_cache(program, tmp_path, name):
    """A converted cache is the same to klist as the one that it was made of, and names the services that we list."""
    given, made = converted(program, "convert-ccache", tmp_path, name, CACHES[name])
    told = listed_caches(made)
    assert told == listed_caches(given)
    ours = [line.split()[-1] for line in ran([program, "list-ccache", made]).splitlines() if line.startswith("ticket ")]
    assert ours == [line.split()[-1] for line in told if line[:2].isdigit()]


def moment(day, clock):
    """A date and a time of klist's, as a table has them."""
    form = "%m/%d/%y" if len(day) == 8 else "%m/%d/%Y"
    return datetime.datetime.strptime(f"{day} {clock}", f"{form} %H:%M:%S").isoformat() + "Z"


def rows_of(table):
    """The rows of a table, without its head. (No cell has a space.)"""
    return [line.split() for line in table.splitlines()
            if not line.startswith(("default ", "offset ", "KVNO ", "KIND "))]


def klist_keys(path):
    """Key version number, enctype, time and principal of each entry, as klist tells them."""
    return [[it[0], it[4].strip("()"), moment(it[1], it[2]), it[3]] for it in listed_by_klist(path)]


def klist_tickets(path):
    """Enctype of the session key, beginning, end, renewal, flags and service of each ticket, as klist tells them."""
    found = []
    for line in listed_caches(path):
        if line[:2].isdigit():
            words = line.split()
            found.append(["", moment(*words[:2]), moment(*words[2:4]), "-", "-", words[4]])
        for word, at in ((r"renew until (\S+ [\d:]+)", 3), (r"Flags: (\w+)", 4), (r"Etype \(skey, tkt\): (\S+),", 0)):
            told = re.search(word, line) if found else None
            if told:
                found[-1][at] = moment(*told[1].split()) if at == 3 else told[1]
    return found


def our_tickets(table):
    """The same of a table of ours: a ticket without starttime begins at its authtime."""
    tickets = [it for it in rows_of(table) if it[0] != "config"]
    return [[it[1], it[2] if it[3] == "-" else it[3], it[4], it[5], it[6], it[8]] for it in tickets]


def with_flags(number):
    """A cache whose ticket has these flags, begins after its authtime, and can be renewed."""
    client, server = fixture.principal(1, b"EX", b"alice"), fixture.principal(3, b"EX", b"host", b"web")
    times = (1_700_000_000, 1_700_000_060, 1_700_036_000, 1_700_122_400)
    made = bytearray(fixture.credential(client, server, 20, bytes(32), times, fixture.ticket()))
    at = len(client) + len(server) + struct.calcsize(">hI32s4IB")
    made[at:at + 4] = struct.pack(">I", number)
    return b"\x05\x04\x00\x00" + client + made


@pytest.mark.parametrize("name", KEYTABS)
def test_table_of_a_keytab(program, tmp_path, name):
    """The table has the names, types and times that klist prints."""
    (tmp_path / "keys").write_bytes(KEYTABS[name])
    ours = rows_of(ran([program, "list-keytab", "--readable", tmp_path / "keys"]))
    assert ours and ours == klist_keys(tmp_path / "keys")


@pytest.mark.parametrize("name", [*CACHES, *(f"flag-{bit}" for bit in range(32))])
def test_table_of_a_cache(program, tmp_path, name):
    """The table of a real file, or of a ticket with this flag, has the names, types, flags and times that klist
    prints."""
    bit = name.removeprefix("flag-")
    (tmp_path / "cache").write_bytes(with_flags(1 << (31 - int(bit))) if bit != name else CACHES[name])
    ours = our_tickets(ran([program, "list-ccache", "--readable", tmp_path / "cache"]))
    assert ours and ours == klist_tickets(tmp_path / "cache")
