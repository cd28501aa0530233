"""SASL GSSAPI beside others: Cyrus SASL's sample client and server, and OpenLDAP's server, with each security layer."""
import base64
import itertools
import os
import socket
import subprocess

import pytest

from support import kdc
from support.web_realm import ALICE, REALM, realm_in

pytestmark = [pytest.mark.packages, pytest.mark.slow, pytest.mark.xdist_group("sasl")]
# (The sample server goes by the name of its machine.)
SERVICE, THEIRS, LDAP = "imap/localhost", f"imap/{socket.gethostname()}", "ldap/localhost"
# What Cyrus SASL calls each layer: the least and the most of its strength.
STRENGTHS = {"NONE": "min=0,max=0", "INTEGRITY": "min=1,max=1", "CONFIDENTIALITY": "min=56,max=256"}
EACH_LAYER = pytest.mark.parametrize("layer", list(STRENGTHS))


@pytest.fixture(scope="module")
def sasl(library):
    import fevstunik
    from fevstunik import sasl

    fevstunik.load(library)
    return sasl


@pytest.fixture(scope="module")
def realm(tmp_path_factory):
    made = realm_in(tmp_path_factory.mktemp("sasl"), (SERVICE, THEIRS, LDAP))
    try:
        made.run("default", "kvno", "-q", "-c", made.folder / "alice.ccache", SERVICE, THEIRS, LDAP)
        yield made
    finally:
        made.stop()


def keytab_and_cache(realm):
    from fevstunik import CredentialCache, Keytab

    return Keytab((realm.folder / "www.keytab").read_bytes()), CredentialCache(
        (realm.folder / "alice.ccache").read_bytes()
    )


class Sample:
    """A sample program of Cyrus SASL: it prints lines as `C: BASE64`, and reads those of the other side as `S: ..`."""

    def __init__(self, realm, name, mine, theirs, *words):
        env = realm.environment(
            "default",
            KRB5CCNAME=str(realm.folder / "alice.ccache"),
            KRB5_KTNAME=str(realm.folder / "www.keytab"),
            KRB5RCACHENAME="none:",
        )
        self.mine, self.theirs = mine, theirs
        self.process = subprocess.Popen(
            ["stdbuf", "-oL", name, *words],
            stdin=subprocess.PIPE,
            stdout=subprocess.PIPE,
            stderr=subprocess.STDOUT,
            env=env,
        )
        self.said = []

    def __enter__(self):
        return self

    def __exit__(self, *_):
        self.process.kill()
        self.process.wait()
        self.process.stdin.close()
        self.process.stdout.close()

    def read(self):
        """The bytes of its next line."""
        for line in self.process.stdout:
            line = line.decode(errors="replace").rstrip("\n")
            self.said.append(line)
            if line.startswith(self.mine):
                return base64.b64decode(line.removeprefix(self.mine))
        raise kdc.Trouble("\n".join(self.said))

    def write(self, data):
        self.process.stdin.write((self.theirs + base64.b64encode(data).decode() + "\n").encode())
        self.process.stdin.flush()

    def rest(self):
        """All that it says to its end."""
        self.process.stdin.close()
        self.said += self.process.stdout.read().decode(errors="replace").splitlines()
        self.process.wait(300)
        return "\n".join(self.said)


@EACH_LAYER
def test_their_client(checks, sasl, realm, layer):
    """Cyrus SASL's client at our server."""
    from fevstunik import Service

    keytab, _ = keytab_and_cache(realm)
    words = ["-s", "imap", "-n", "localhost", "-m", "GSSAPI", "-u", "anna", "-b", STRENGTHS[layer]]
    with Service(keytab, f"{SERVICE}@{REALM}", first_life=True) as service, Sample(
        realm, "sasl-sample-client", "C: ", "S: ", *words
    ) as peer:
        server = sasl.Server(service, authorize=lambda login, name: (login.client, name) == (ALICE, "anna"))
        peer.write(b"GSSAPI")
        first = peer.read()
        assert first.startswith(b"GSSAPI\0"), first
        challenge = server.step(first.removeprefix(b"GSSAPI\0"))
        while not server.is_done:
            peer.write(challenge)
            challenge = server.step(peer.read())
        checks.equal(
            "who it is, and the layer", (server.login.client, server.name, server.layer.name), (ALICE, "anna", layer)
        )
        peer.write(server.encode(b"srv message 1\0"))
        checks.equal("what the client sends", server.decode(peer.read()), b"client message 1\0")
        checks.equal("what it reads", "srv message 1" in peer.rest(), True)


@EACH_LAYER
def test_their_server(checks, sasl, realm, layer):
    """Our client at Cyrus SASL's server."""
    _, cache = keytab_and_cache(realm)
    with Sample(
        realm, "sasl-sample-server", "S: ", "C: ", "-s", "imap", "-m", "GSSAPI", "-b", STRENGTHS[layer]
    ) as peer:
        client = sasl.Client(cache, f"{THEIRS}@{REALM}")
        checks.equal("what it offers", peer.read(), b"GSSAPI")
        peer.write(b"GSSAPI\0" + client.step(b""))
        while not client.is_done:
            peer.write(client.step(peer.read()))
        checks.equal("the layer", client.layer.name, layer)
        checks.equal("what it sends", client.decode(peer.read()), b"srv message 1\0")
        peer.write(client.encode(b"client message 1\0"))
        checks.equal("what it reads", "client message 1" in peer.rest(), True)


# ---- OpenLDAP's server


def element(tag, *parts):
    content = b"".join(parts)
    size = bytes([len(content)]) if len(content) < 128 else b"\x82" + len(content).to_bytes(2, "big")
    return bytes([tag]) + size + content


def content_of(data, at=0):
    """The tag and the content of an element, and where it ends."""
    size, begins = data[at + 1], at + 2
    if size > 127:
        begins += size - 128
        size = int.from_bytes(data[at + 2 : begins], "big")
    return data[at], data[begins : begins + size], begins + size


def elements(data):
    found, at = [], 0
    while at < len(data):
        tag, content, at = content_of(data, at)
        found.append((tag, content))
    return found


class Ldap:
    """A connection to a server of LDAP (RFC 4511), by a client's side of a login."""

    def __init__(self, port, client):
        self.client, self.ids = client, itertools.count(1)
        self.socket = socket.create_connection(("127.0.0.1", port), timeout=300)

    def asked(self, operation, out=lambda data: data, into=lambda data: data):
        """The parts of the answer to an operation."""
        self.socket.sendall(out(element(0x30, element(2, bytes([next(self.ids)])), operation)))
        read = b""
        while len(read) < 2 or content_of(read)[2] > len(read):
            more = self.socket.recv(65_536)
            assert more, "the server closed the connection"
            read += into(more)
        return elements(elements(content_of(read)[1])[1][1])

    def bind(self):
        """The result of the login."""
        challenge = b""
        while True:
            credentials = self.client.step(challenge)
            sasl = element(0xA3, element(4, b"GSSAPI"), element(4, credentials))
            parts = self.asked(element(0x60, element(2, b"\x03"), element(4), sasl))
            if parts[0][1] != bytes([14]):
                return parts[0][1][0]
            challenge = dict(parts).get(0x87, b"")

    def who(self):
        """Who the server says that this is (RFC 4532)."""
        parts = self.asked(
            element(0x77, element(0x80, b"1.3.6.1.4.1.4203.1.11.3")), self.client.encode, self.client.decode
        )
        return dict(parts)[0x8B].decode()


@pytest.fixture(scope="module")
def ldap(realm):
    """The port of a server of LDAP."""
    folder, port = realm.folder, kdc.free_port()
    lines = "sasl-host localhost", f"sasl-realm {REALM}", f"pidfile {folder}/slapd.pid", "sasl-secprops none", ""
    (folder / "slapd.conf").write_text("\n".join(lines))
    env = realm.environment("default", KRB5_KTNAME=str(folder / "www.keytab"), KRB5RCACHENAME="none:")
    with open(folder / "slapd.log", "wb") as log:
        process = subprocess.Popen(
            ["slapd", "-f", folder / "slapd.conf", "-h", f"ldap://127.0.0.1:{port}", "-d", "0"],
            stdout=log,
            stderr=log,
            env={**env, "PATH": f"{os.environ['PATH']}:/usr/sbin"},
        )
    try:
        assert kdc.wait_for(lambda: kdc.listens(port), process), (folder / "slapd.log").read_text()
        yield port
    finally:
        process.kill()
        process.wait()


@EACH_LAYER
def test_ldap(checks, sasl, realm, ldap, layer):
    """Our client at OpenLDAP's server: it logs in, and asks who it is."""
    _, cache = keytab_and_cache(realm)
    client = sasl.Client(cache, f"{LDAP}@{REALM}", layers=sasl.Layer[layer])
    connection = Ldap(ldap, client)
    checks.equal("the result", connection.bind(), 0)
    checks.equal("the layer", client.layer.name, layer)
    checks.equal("who it is", connection.who(), f"dn:uid=alice,cn={REALM.lower()},cn=gssapi,cn=auth")
    connection.socket.close()
