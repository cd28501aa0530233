"""Keytabs and caches that real tools made, read and written anew by the program, and what the tools say of the
latter."""
import re
from datetime import datetime, timezone

import pytest

from support import reference, tickets
from support.checks import slug
from support.sides import now
from support.tickets import NUMBERS, Ticket, klist_keytab

pytestmark = [pytest.mark.packages, pytest.mark.slow, pytest.mark.xdist_group("realms")]


def ktutil_keytab(realm, path):
    said = realm.run("default", "ktutil", input=f"read_kt {path}\nlist -e\nquit\n").splitlines()
    begin = next(at for at, line in enumerate(said) if line.startswith("----"))
    return [line.split()[1:3] for line in said[begin + 1 :] if line.split() and line.split()[0].isdigit()]


@pytest.mark.parametrize("keytab", tickets.KEYTABS, indirect=True, ids=slug)
def test_keytab(checks, world, peers, keytab):
    """Keytabs that the tools made are listed and counted as MIT's klist does; their converted form is the same to
    klist, ktutil and Heimdal's ktutil."""
    (realm, path), heimdal = keytab, world.heimdal
    told = list(klist_keytab(realm, path))
    lines = [line for line, _ in told]
    checks.equal(f"file: list-keytab {path.name}", peers.said("list-keytab", path).splitlines(), lines)
    checks.equal(f"file: check-keytab {path.name}", peers.said("check-keytab", path), f"ok {len(lines)}\n")
    made = path.with_suffix(".converted")
    checks.equal(f"file: convert-keytab {path.name}", peers.said("convert-keytab", path, made),
                 f"wrote {made.stat().st_size}\n")
    checks.equal(f"file: klist of the converted {path.name}", list(klist_keytab(realm, made)), told)
    checks.equal(f"file: ktutil of the converted {path.name}", ktutil_keytab(realm, made),
                 [[line.split()[0], line.split()[3]] for line in lines])
    listed = [heimdal.ktutil(it, "list", "--keys", "--timestamp").splitlines()[1:] for it in (path, made)]
    checks.equal(f"file: Heimdal's ktutil of the converted {path.name}", listed[1], listed[0])


FLAG_LETTERS = {1: "F", 2: "f", 3: "P", 4: "p", 5: "D", 6: "d", 7: "i", 8: "R", 9: "I", 11: "H", 10: "A", 12: "T",
                13: "O", 16: "a"}


def klist_cache(realm, path):
    """The default principal, and for each ticket start, end, renewal, flags, type of the session key and service, as
    klist tells them."""
    text = realm.run("default", "klist", "-e", "-f", "-c", path)
    default = re.search(r"Default principal: (\S+)", text).group(1)
    form = (r"(\S+ \S+)  (\S+ \S+)  (\S+)\n\t(?:renew until (\S+ \S+), )?"
            r"Flags: (\w*)(?:\n\t|, )Etype \(skey, tkt\): (\S+), ")
    tickets = [
        (seconds(start), seconds(end), seconds(renewal) if renewal else 0, flags, NUMBERS[etype], service)
        for start, end, service, renewal, flags, etype in re.findall(form, text)
    ]
    return [default, *tickets]


def seconds(text):
    return int(datetime.strptime(text, "%m/%d/%y %H:%M:%S").replace(tzinfo=timezone.utc).timestamp())


def ours_as_klist(text):
    """What klist tells, of the lines that we list."""
    lines = [line.split() for line in text.splitlines()]
    told = [line[1] for line in lines if line[0] == "default"]
    for line in lines:
        if line[0] == "ticket":
            etype, authtime, starttime, endtime, renew_till, flags, _, server = line[1:]
            letters = "".join(letter for bit, letter in FLAG_LETTERS.items() if int(flags, 16) >> (31 - bit) & 1)
            told.append((int(starttime) or int(authtime), int(endtime), int(renew_till), letters, int(etype), server))
    return told


@pytest.mark.parametrize("cache", tickets.CACHES, indirect=True, ids=slug)
def test_cache(checks, peers, cache):
    """Caches that the tools made are listed as by their format's rules and by klist; their converted form is the same
    to klist, and is used."""
    realm, path = cache
    name, data = f"{path.stem} of {realm.name}", path.read_bytes()
    listed = peers.said("list-ccache", path)
    checks.equal(f"file: list-ccache {name}", listed, reference.list_ccache(data))
    checks.equal(f"file: klist of {name}", ours_as_klist(listed), klist_cache(realm, path))
    checks.equal(f"file: check-ccache {name}", peers.said("check-ccache", path), reference.check_ccache(data))
    made = path.with_suffix(".converted")
    wanted = reference.convert_ccache(data)
    checks.equal(f"file: convert-ccache {name}", peers.said("convert-ccache", path, made), f"wrote {len(wanted)}\n")
    checks.equal(f"file: the converted {name}", made.read_bytes(), wanted)
    checks.equal(f"file: klist of the converted {name}", klist_cache(realm, made), klist_cache(realm, path))
    checks.equal(f"file: Heimdal's klist of the converted {name}", heimdal_klist(realm, made),
                 converted(heimdal_klist(realm, path)))


def test_old_cache(checks, world, peers):
    """A cache that Heimdal wrote with `fcache_version = 3` is of version 0x0503, and its converted form of 0x0504; both
    give requests."""
    ticket = world.tickets["a cache of version 0x0503, 19"]
    checks.equal("file: the version that Heimdal writes", ticket.cache.read_bytes()[:2], reference.OLD)
    made = ticket.cache.with_suffix(".newer")
    peers.said("convert-ccache", ticket.cache, made)
    checks.equal("file: the version that we write", made.read_bytes()[:2], reference.NEW)
    second = now()
    for version, cache in (("0x0503", ticket.cache), ("0x0504", made)):
        line = f"{second} 0 {peers.request(cache, ticket.service, second, 5)}"
        wanted = f"accepted {ticket.client} {ticket.etype} {second} 5 plain"
        checks.equal(f"file: a request of the cache of version {version}", peers.accept(ticket.keytab, [line]),
                     [wanted])


def converted(lines):
    """What Heimdal's klist prints of a cache, as of the newer version."""
    return [line.replace("Cache version: 3", "Cache version: 4") for line in lines]


def heimdal_klist(realm, path):
    return realm.run("default", realm.heimdal / "usr/bin/heimtools", "klist", "-v", "-c", path).splitlines()[1:]


@pytest.mark.parametrize("keytab, kind, name", [
    ("alice of PEER.TEST", "one", "host/plain.example"), ("alice of HEIM.TEST", "default", "host/web.example")],
    indirect=["keytab"])
def test_used(checks, peers, keytab, kind, name):
    """A converted keytab logs a user in, and a converted cache fetches a ticket."""
    realm, path = keytab
    made, cache = realm.folder / "alice.used", realm.folder / "used.ccache"
    peers.said("convert-keytab", path, made)
    copy = realm.folder / "used.converted"
    realm.run(kind, "kinit", "-c", cache, "-k", "-t", made, "alice")
    peers.said("convert-ccache", cache, copy)
    realm.run(kind, "kvno", "-q", "-c", copy, name)
    ticket = Ticket("", realm, copy, name, 20, True)
    checks.equal(f"file: a ticket by our files from {realm.name}", ticket.credential()["etype"], 20)
