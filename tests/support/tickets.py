"""Realms with users, services and keytabs, and tickets whose session keys come to be of type 19 or 20 in each advised
way."""
import os
import re
import textwrap
from datetime import datetime, timezone

from support import TOP, reference
from support.kdc import PASSWORD, HeimdalRealm, MitRealm, Trouble, ran
from support.sides import LIBRARIES

AES128, AES256 = "aes128-cts-hmac-sha256-128", "aes256-cts-hmac-sha384-192"
OLD = "aes256-cts-hmac-sha1-96"
NUMBERS = {AES128: 19, AES256: 20, OLD: 18}
# The labels of the tickets that `of_mit`, `of_heimdal`, `with_addresses` and `of_both` make, and four with session keys
# of both types.
LABELS = (
    "setstr for one service, 20", "setstr for one service, 19", "permitted_enctypes of one client, 20",
    "permitted_enctypes of one client, 19",
    "a service without PAC", "permitted_enctypes of a KDC without PACs, 20",
    "permitted_enctypes of a KDC without PACs, 19",
    "Heimdal's tools at MIT's KDC, 20", "Heimdal's tools at MIT's KDC, 19", "MIT's tools at Heimdal's KDC, 20",
    "MIT's tools at Heimdal's KDC, 19",
    "Heimdal's tools at Heimdal's KDC, 20", "Heimdal's tools at Heimdal's KDC, 19", "a cache of version 0x0503, 20",
    "a cache of version 0x0503, 19",
    "with addresses, forwardable and proxiable", "another realm's client at Heimdal's KDC, 20",
    "another realm's client at MIT's KDC, 19",
)
OF_EACH_TYPE = (*LABELS[:2], *LABELS[11:13])
KEYTABS = (
    *(f"{it} of PEER.TEST" for it in ("web", "alice", "merged", "turned-both", "turned-new", "turned-holed", "wrong")),
    *(f"{it} of HEIM.TEST" for it in ("web", "alice", "holed-web", "filled-web")), "rotated of PEER.TEST",
    "rotated of HEIM.TEST",
)
CACHES_OF_MIT = ("addressed", "advised-early", "advised-late", "all", "heimdal", "old", "one", "postdated", "service",
                 "to-heimdal", "to-mit",
                 "turned-early", "turned-late")
CACHES_OF_HEIMDAL = ("Heimdal", "MIT", "old")
CACHES = (*(f"{it} of PEER.TEST" for it in CACHES_OF_MIT), *(f"{it} of HEIM.TEST" for it in CACHES_OF_HEIMDAL))


def advice():
    """The lines that docs/OPERATING.md gives for session keys and service keys of type 19 or 20."""
    text = (TOP / "docs/OPERATING.md").read_text().replace('"$service"', "NAME")
    forms = (r"`(permitted_enctypes = [^`]*)`", r"^ *kadmin\.local (setstr NAME session_enctypes .*)$",
             r"^(ktadd -k FILE -e .* NAME)$")
    found = [re.search(form, text, re.M) for form in forms]
    if None in found:
        raise Trouble("docs/OPERATING.md has other words than these cases look for")
    return [it.group(1) for it in found]


def filled_in(command, keytab, name):
    """The words of a command, with a keytab for FILE and a service for NAME."""
    return [{"FILE": keytab, "NAME": name}.get(it, it) for it in command.split()]


def mit_realm(folder, heimdal):
    """Services whose keys and session keys come to be of type 19 or 20 in each way that is advised, and some that
    don't."""
    _, setstr, ktadd = advice()
    realm = MitRealm(folder / "mit", "PEER.TEST", heimdal, " ".join(f"{it}:normal" for it in (AES256, AES128, OLD)))
    realm.kadmin("addprinc", "-pw", PASSWORD, "alice")

    def service(name, *options, adding=ktadd, keytab="web"):
        realm.kadmin("addprinc", "-randkey", *options, name)
        realm.kadmin(*filled_in(adding, realm.folder / f"{keytab}.keytab", name))

    for name in ("host/web.example", "host/web19.example", "host/plain.example"):
        service(name)
    realm.kadmin(*filled_in(setstr, None, "host/web.example"))
    realm.kadmin("setstr", "host/web19.example", "session_enctypes", AES128)
    service("host/only19.example", adding=f"ktadd -k FILE -e {AES128}:normal NAME")
    service("host/bare.example", "+no_auth_data_required")
    service("host/other.example", keytab="other")
    service("host/old.example", adding=f"ktadd -k FILE -e {OLD}:normal NAME")
    return realm


def heimdal_realm(folder, heimdal):
    realm = HeimdalRealm(folder / "heimdal", "HEIM.TEST", heimdal, f"{AES256}:pw-salt {AES128}:pw-salt")
    realm.kadmin("add", f"--password={PASSWORD}", "--use-defaults", "alice")
    keytabs = {"host/web.example": "web", "host/only19.example": "web", "host/other.example": "other"}
    for name in keytabs:
        realm.kadmin("add", "--random-key", "--use-defaults", name)
    realm.kadmin("del_enctype", "host/only19.example", AES256)
    for name, keytab in keytabs.items():
        realm.kadmin("ext_keytab", "-k", realm.folder / f"{keytab}.keytab", name)
    return realm


class Ticket:
    """A ticket in a cache: how it came to be, for which service of a realm, and what is known of it."""

    def __init__(self, label, realm, cache, service, etype, pac, client=None):
        self.label, self.realm, self.cache, self.service = label, realm, cache, f"{service}@{realm.name}"
        self.etype, self.pac, self.client = etype, "pac" if pac else "bare", client or f"alice@{realm.name}"
        self.keytab = realm.folder / "web.keytab"

    def credential(self):
        """The credential of the cache, by the rules of the format."""
        items = reference.cache(self.cache.read_bytes())[2]
        return next(it for it in items if reference.name_text(it["server"]) == self.service)


def of_mit(realm):
    """Tickets with session keys of type 19 and 20 in each way that docs/OPERATING.md tells, with a PAC and without."""
    permitted = advice()[0]
    realm.start("default")
    realm.start("all", [permitted], ["disable_pac = true"])
    realm.client("one", "default", permitted)
    realm.client("asker", "all")
    (realm.folder / "asker.conf").write_text((realm.folder / "asker.conf").read_text().replace(f"  {permitted}\n", ""))
    service = realm.cache("service", "default", ["host/web.example", "host/web19.example"])
    one = realm.cache("one", "one", ["host/plain.example", "host/only19.example", "host/bare.example"])
    everyone = realm.cache("all", "asker", ["host/plain.example", "host/only19.example"])
    heimdal = realm.cache("heimdal", "default", ["host/web.example", "host/web19.example"], tools="Heimdal")
    return [
        Ticket("setstr for one service, 20", realm, service, "host/web.example", 20, True),
        Ticket("setstr for one service, 19", realm, service, "host/web19.example", 19, True),
        Ticket("permitted_enctypes of one client, 20", realm, one, "host/plain.example", 20, True),
        Ticket("permitted_enctypes of one client, 19", realm, one, "host/only19.example", 19, True),
        Ticket("a service without PAC", realm, one, "host/bare.example", 20, False),
        Ticket("permitted_enctypes of a KDC without PACs, 20", realm, everyone, "host/plain.example", 20, False),
        Ticket("permitted_enctypes of a KDC without PACs, 19", realm, everyone, "host/only19.example", 19, False),
        Ticket("Heimdal's tools at MIT's KDC, 20", realm, heimdal, "host/web.example", 20, True),
        Ticket("Heimdal's tools at MIT's KDC, 19", realm, heimdal, "host/web19.example", 19, True),
    ]


def of_heimdal(realm):
    """Tickets of either library's tools; and of Heimdal's where they are told to write caches of version 0x0503."""
    realm.start()
    realm.client("old", "default", "fcache_version = 3")
    services = ["host/web.example", "host/only19.example"]
    caches = {f"{tools}'s tools at Heimdal's KDC": realm.cache(tools, "default", services, tools=tools)
              for tools in LIBRARIES}
    caches["a cache of version 0x0503"] = realm.cache("old", "old", services, tools="Heimdal")
    return [
        Ticket(f"{label}, {etype}", realm, cache, service, etype, False)
        for label, cache in caches.items()
        for service, etype in zip(services, (20, 19))
    ]


def share_key(mit, heimdal, name):
    """Gives both realms the same key of a principal: Heimdal's, as it dumps it, becomes MIT's. (A password makes other
    keys in Heimdal, which salts them at random.)"""
    mit_keytab, heimdal_keytab, dump = (mit.folder / f"shared.{it}" for it in ("mit", "heimdal", "dump"))
    mit.kadmin("addprinc", "-randkey", "-e", f"{AES256}:normal", name)
    mit.kadmin("ktadd", "-norandkey", "-k", mit_keytab, name)
    heimdal.kadmin("add", "--random-key", "--use-defaults", name)
    heimdal.kadmin("del_enctype", name, AES128)
    heimdal.kadmin("ext_keytab", "-k", heimdal_keytab, name)
    new, old = (reference.keytab(it.read_bytes())[-1]["key"].hex().upper() for it in (mit_keytab, heimdal_keytab))
    heimdal.kadmin("dump", dump)
    lines = [line for line in dump.read_text().splitlines() if line.startswith(f"{name} ")]
    dump.write_text("".join(f"{line.replace(old, new)}\n" for line in lines))
    heimdal.kadmin("merge", dump)


def of_both(mit, heimdal):
    """Tickets of each realm's user for a service of the other, by keys that the realms share."""
    for name in (f"krbtgt/{heimdal.name}@{mit.name}", f"krbtgt/{mit.name}@{heimdal.name}"):
        share_key(mit, heimdal, name)
    other = f"  {heimdal.name} = {{\n    kdc = 127.0.0.1:{heimdal.port}\n  }}\n"
    (mit.folder / "both.conf").write_text((mit.folder / "one.conf").read_text() + other)
    to_heimdal = mit.cache("to-heimdal", "both", [f"host/web.example@{heimdal.name}"])
    to_mit = mit.cache("to-mit", "both", [f"host/web19.example@{mit.name}"], user=f"alice@{heimdal.name}")
    return [
        Ticket("another realm's client at Heimdal's KDC, 20", heimdal, to_heimdal, "host/web.example", 20, False,
               f"alice@{mit.name}"),
        Ticket("another realm's client at MIT's KDC, 19", mit, to_mit, "host/web19.example", 19, False,
               f"alice@{heimdal.name}"),
    ]


def with_addresses(realm):
    """A ticket for the addresses of this machine."""
    realm.client("addressed", "one", "extra_addresses = 127.0.0.1")
    cache = realm.cache("addressed", "addressed", ["host/plain.example"], ["-a", "-f", "-p"])
    return Ticket("with addresses, forwardable and proxiable", realm, cache, "host/plain.example", 20, True)


# ---------------------------------------------------------------- tickets and keytabs of other keys


def turned(realm):
    """A service whose key was changed, from number 2 to 300: tickets of both, and keytabs with one, both, or the later
    and a hole."""
    service, ktadd = "host/turned.example", advice()[2]
    both, old, new, holed = (realm.folder / f"turned-{it}.keytab" for it in ("both", "old", "new", "holed"))
    realm.kadmin("addprinc", "-randkey", service)
    realm.kadmin(*filled_in(ktadd, both, service))
    old.write_bytes(both.read_bytes())
    early = Ticket("the old key", realm, realm.cache("turned-early", "one", [service]), service, 20, True)
    realm.kadmin("modprinc", "-kvno", "299", service)
    realm.kadmin(*filled_in(ktadd, both, service))
    realm.kadmin("ktadd", "-norandkey", "-k", new, service)
    late = Ticket("the new key", realm, realm.cache("turned-late", "one", [service]), service, 20, True)
    holed.write_bytes(both.read_bytes())
    realm.kadmin("ktremove", "-k", holed, service, "2")
    return (early, [both, old], [new, holed]), (late, [both, new, holed], [old])


def lines_below(heading):
    """The shell's lines below a heading of docs/OPERATING.md, a text for each block."""
    part = re.search(rf"^#+ {heading}\n(.*?)^#+ ", (TOP / "docs/OPERATING.md").read_text(), re.S | re.M)[1]
    return [textwrap.dedent(it) for it in re.findall(r"^ *```sh\n(.*?)^ *```$", part, re.S | re.M)]


def advised(realm):
    """A service that is made, and whose key is then changed, by the lines of docs/OPERATING.md: tickets of both keys,
    and its keytabs."""
    service, folder = "HTTP/www.example.com", realm.folder / "advised"
    both, new = folder / "www.keytab", folder / "new.keytab"
    folder.mkdir()

    def shell(*blocks, **more):
        path = f"{TOP / 'build'}:{os.environ['PATH']}"
        return ran(["sh", "-ec", "".join(blocks)], cwd=folder, env=realm.environment("admin", PATH=path, **more))

    made, (known, given, explained, removed) = lines_below("Keys")[0], lines_below("Without a refused login")
    shell(made)
    early = Ticket("the key before an advised change", realm, realm.cache("advised-early", "one", [service]), service,
                   20, True)
    both.unlink()
    shell(known, given)
    late = Ticket("the key after an advised change", realm, realm.cache("advised-late", "one", [service]), service, 20,
                  True)
    seen = shell(explained, CACHE=str(late.cache), NAME=late.service)
    if "\naccepted, unless" not in seen:
        raise Trouble(f"the keytab's key isn't the KDC's: {seen}")
    shell(removed)
    return (early, [both], [new]), (late, [both, new], [])


def rotated_keytabs(mit, heimdal):
    """Keytabs of both after two changes of a key, the first written as docs/OPERATING.md says, so with keys that are
    listed twice."""
    service, both, theirs = "host/rotated.example", mit.folder / "rotated.keytab", heimdal.folder / "rotated.keytab"
    mit.kadmin("addprinc", "-randkey", service)
    heimdal.kadmin("add", "--random-key", "--use-defaults", service)
    for turn in range(3):
        if turn:
            mit.kadmin("cpw", "-randkey", "-keepold", "-e", f"{AES256}:normal,{AES128}:normal", service)
            heimdal.kadmin("cpw", "--random-key", service)
        mit.kadmin("ktadd", "-k", both, "-norandkey", service)
        heimdal.kadmin("ext_keytab", "-k", theirs, service)
    return [(mit, both), (heimdal, theirs)]


def bend(keytab, bent):
    """Writes a keytab with other keys under the same names and numbers."""
    turned = [{**it, "key": it["key"][::-1]} for it in reference.keytab(keytab.read_bytes())]
    bent.write_bytes(b"\x05\x02" + b"".join(map(reference.record_of, turned)))


def keytabs_of_mit(realm):
    """Keytabs of kadmin and ktutil: several services and types, version numbers above 255, holes, and what ktutil took
    out."""
    folder = realm.folder
    realm.kadmin("ktadd", "-norandkey", "-k", folder / "alice.keytab", "alice")
    lines = [f"rkt {folder}/web.keytab", f"rkt {folder}/turned-holed.keytab", "delent 2", f"wkt {folder}/merged.keytab"]
    realm.run("default", "ktutil", input="\n".join([*lines, "quit", ""]))
    names = ("web", "alice", "merged", "turned-both", "turned-new", "turned-holed", "wrong")
    return [(realm, folder / f"{name}.keytab") for name in names]


def keytabs_of_heimdal(realm):
    """Keytabs of Heimdal's kadmin and ktutil, one with an entry taken out and one with another put into its place."""
    folder = realm.folder
    realm.kadmin("ext_keytab", "-k", folder / "alice.keytab", "alice")
    (folder / "holed-web.keytab").write_bytes((folder / "web.keytab").read_bytes())
    realm.ktutil(folder / "holed-web.keytab", "remove", "-p", "host/web.example", "-e", AES256)
    (folder / "filled-web.keytab").write_bytes((folder / "holed-web.keytab").read_bytes())
    realm.ktutil(folder / "filled-web.keytab", "add", "-p", "bob", "-V", "70000", "-e", AES128, "-w", PASSWORD)
    return [(realm, folder / f"{name}.keytab") for name in ("web", "alice", "holed-web", "filled-web")]


def klist_keytab(realm, path):
    """The lines that we print for a keytab, as klist of MIT krb5 tells them, and with each its key."""
    lines = realm.run("default", "klist", "-kteK", path).splitlines()
    begin = next(at for at, line in enumerate(lines) if line.startswith("----"))
    for line in lines[begin + 1 :]:
        kvno, day, hour, principal, etype, key = line.split()
        moment = datetime.strptime(f"{day} {hour}", "%m/%d/%y %H:%M:%S").replace(tzinfo=timezone.utc)
        yield f"{kvno} {NUMBERS[etype.strip('()')]} {int(moment.timestamp())} {principal}", key
