"""The client and the service of examples/service beside those over MIT krb5 (tests/c/mit_client.c and mit_service.c),
over TCP.

A KDC of MIT krb5 issues the tickets, with session keys of type 19 and 20. In each conversation both sides agree on the
client's name, and a text and its receipt go under the subkeys of both; then the same request is sent again, and is
refused. A service whose keytab has other keys refuses the first.
"""
import subprocess

from support import TOP, kdc, reference, tickets

REALM = "PEER.TEST"
SERVICES = {19: "host/only19.example", 20: "host/web.example"}
MIT = ["mit_client", "mit_service"]
# Ours, by their names: their sources, and the libraries that they need.
STORES = ("store", "sqlite_store", "redis_store")
SOURCES = {"client": [TOP / "examples/service/client.c"],
           "service": [TOP / f"examples/service/{it}.c" for it in ("service", *STORES)]}
LIBRARIES = ("-lsqlite3", "-lhiredis")
# How long each side waits for the other. (By itself a client of the service has ten seconds.)
SECONDS = 300
DEFINED = ("-D_DEFAULT_SOURCE", "-pthread", f"-DSECONDS={SECONDS}")
# What each side says of a repeat and of a ticket that the keytab doesn't open: our service its own code, the others RFC
# 4120's.
REPEAT, BENT_KEY = {"our": "FEVSTUNIK_REPEAT", "MIT's": 34}, {"our": "FEVSTUNIK_TICKET_INTEGRITY", "MIT's": 31}


def built(folder):
    """Compiles the client and the service over MIT krb5."""
    flags = kdc.ran(["krb5-config.mit", "--cflags", "--libs", "krb5"]).split()
    strict = ["-std=c99", "-O1", "-Wall", "-Wextra", "-Werror", "-Wno-unused-function", "-D_DEFAULT_SOURCE"]
    for name in MIT:
        kdc.ran(["gcc", *strict, f"-I{TOP}/examples/service", TOP / f"tests/c/{name}.c", *flags, "-o", folder / name])


def realm_in(folder):
    """A realm with a KDC, a service for each type, a user's cache with a ticket for each, a keytab, and one with other
    keys."""
    permitted, _, ktadd = tickets.advice()
    realm = kdc.MitRealm(folder / "realm", REALM, None, f"{tickets.AES256}:normal {tickets.AES128}:normal")
    realm.kadmin("addprinc", "-pw", kdc.PASSWORD, "alice")
    for etype, adding in ((20, ktadd), (19, f"ktadd -k FILE -e {tickets.AES128}:normal NAME")):
        realm.kadmin("addprinc", "-randkey", SERVICES[etype])
        realm.kadmin(*tickets.filled_in(adding, realm.folder / "good.keytab", SERVICES[etype]))
    tickets.bend(realm.folder / "good.keytab", realm.folder / "bent.keytab")
    try:
        realm.start("default", [permitted])
        realm.cache("alice", "default", SERVICES.values())
    except kdc.Trouble:
        realm.stop()
        raise
    return realm


def said(service, clients, env):
    """The lines of a service, and those of the clients that speak to it one after another."""
    serving = subprocess.Popen([str(it) for it in service], stdout=subprocess.PIPE, stderr=subprocess.PIPE, text=True,
                               env=env)
    try:
        port = serving.stdout.readline().strip()
        told = [kdc.ran([*client[:3], port, *client[3:]], seconds=SECONDS, env=env).splitlines() for client in clients]
        lines = serving.communicate(timeout=SECONDS)[0].splitlines()
        return lines, [line for lines in told for line in lines]
    finally:
        serving.kill()
        serving.wait()


def conversation(folder, realm, etype, client, service, keytab, more):
    """One client, which sends its request twice, to one service, with more words in the environment."""
    name = f"{SERVICES[etype]}@{REALM}"
    programs = {"our": ("client", "service"), "MIT's": ("mit_client", "mit_service")}
    env = realm.environment("default",
                            KRB5RCACHENAME=f"file2:{folder}/replays.{client}.{etype}.{keytab}".replace("'", ""), **more)
    first = ["first"] if service == "our" else []
    return said([folder / programs[service][1], realm.folder / f"{keytab}.keytab", name, "2", *first],
                [[folder / programs[client][0], realm.folder / "alice.ccache", name, "a text", "twice"]], env)


# A client and a service, and the type of the session key.
PAIRS = [(client, service, etype) for client, service in (("MIT's", "our"), ("our", "MIT's")) for etype in SERVICES]


def check(folder, realm, client, service, etype, **more):
    """Two conversations of programs in the folder: the realm's has good.keytab and bent.keytab, and alice.ccache with
    the tickets."""
    asked = f", ticket for {SERVICES[etype]}@{REALM}" if service == "our" else ""
    lines, told = conversation(folder, realm, etype, client, service, "good", more)
    assert lines == [f"alice@{realm.name}: a text", f"refused {REPEAT[service]}{asked}"]
    agreed, last = told
    assert (agreed, last) == (f"agreed as alice@{realm.name}", "refused 34"), told
    lines, told = conversation(folder, realm, etype, client, service, "bent", more)
    assert lines == [f"refused {BENT_KEY[service]}{asked}"] * 2
    assert told == ["refused 31"] * 2


def session_types(realm):
    items = reference.cache((realm.folder / "alice.ccache").read_bytes())[2]
    found = {reference.name_text(it["server"]).split("@")[0]: it["etype"] for it in items}
    return {etype: found.get(name) for etype, name in SERVICES.items()}
