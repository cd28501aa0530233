"""Messages after a login beside the GSS-API of MIT (python3-gssapi), Heimdal and Java, as client and as service: with
session keys of both types, with and without a subkey of the service, with and without a reply; after a negotiation
whose list of mechanisms names NTLM first; and examples/sign."""
import os
import subprocess
from pathlib import Path

import pytest

from support import TESTS, TOP, gss_rules, kdc, tickets
from support.der import element
from support.web_realm import ALICE, PYTHON, REALM, SERVICE, realm_in

pytestmark = [pytest.mark.packages, pytest.mark.slow, pytest.mark.xdist_group("messages")]
SIDE = TESTS / "peers/messages/side.py"
TEXTS = (b"", b"hello", bytes(range(256)) * 5, os.urandom(70_000))
NAMES = [gss_rules.NTLM, gss_rules.KERBEROS]
LIST = element(0x30, *(element(0x06, it) for it in NAMES))


@pytest.fixture(scope="module")
def fevstunik(library):
    import fevstunik

    fevstunik.load(library)
    return fevstunik


@pytest.fixture(scope="module")
def realm(tmp_path_factory):
    made = realm_in(tmp_path_factory.mktemp("messages"))
    try:
        for number, name in ((19, tickets.AES128), (20, tickets.AES256)):
            path = made.folder / f"alice{number}.ccache"
            made.run("default", "kinit", "-c", path, "alice", input=f"{kdc.PASSWORD}\n")
            made.run("default", "kvno", "-q", "-e", name, "-c", path, SERVICE)
        (made.folder / "ntlm").write_text("REALM:alice:password\n")
        yield made
    finally:
        made.stop()


def over_mit(folder, realm):
    return [PYTHON, "-B", SIDE]


def over_heimdal(folder, realm):
    program = folder / "heimdal"
    if not program.exists():
        flags = kdc.ran(["krb5-config.heimdal", "--cflags", "--libs", "gssapi"]).split()
        kdc.ran(
            [
                "gcc",
                "-std=c99",
                "-Wall",
                "-Wextra",
                "-Werror",
                "-pedantic",
                SIDE.with_suffix(".c"),
                *flags,
                "-o",
                program,
            ]
        )
    return [program]


def over_java(folder, realm):
    if not (folder / "java").exists():
        kdc.ran(["javac", "-d", folder / "java", SIDE.with_name("Side.java")])
    return [
        "java",
        "-XX:TieredStopAtLevel=1",
        f"-Djava.security.krb5.conf={realm.folder}/default.conf",
        "-Djavax.security.auth.useSubjectCredsOnly=false",
        "-cp",
        folder / "java",
        "Side",
    ]


# How the other side is run, and what it says of what it doesn't take.
LIBRARIES = {
    "MIT": (over_mit, "fault BadMICError"),
    "Heimdal": (over_heimdal, "fault 60000"),
    "Java": (over_java, "fault 11"),
}
# Without a reply, Heimdal's client awaits the number 0, so it would say that a first message comes after a gap.
CLIENTS = [("MIT", "mutual"), ("MIT", "plain"), ("Heimdal", "mutual"), ("Java", "mutual"), ("Java", "plain")]


class Peer:
    """The other side, by another library."""

    def __init__(self, realm, folder, library, *words, cache="alice"):
        env = realm.environment(
            "default",
            KRB5CCNAME=str(realm.folder / f"{cache}.ccache"),
            KRB5_KTNAME=str(realm.folder / "www.keytab"),
            KRB5RCACHENAME="none:",
            NTLM_USER_FILE=str(realm.folder / "ntlm"),
        )
        command, self.fault = LIBRARIES[library][0](folder, realm), LIBRARIES[library][1]
        self.process = subprocess.Popen(
            [str(it) for it in (*command, *words)], stdin=subprocess.PIPE, stdout=subprocess.PIPE, text=True, env=env
        )

    def __enter__(self):
        return self

    def __exit__(self, *_):
        self.process.stdin.close()
        self.process.wait(300)
        self.process.stdout.close()

    def line(self):
        return self.process.stdout.readline().strip()

    def bytes(self):
        line = self.line()
        return b"" if line == "-" else bytes.fromhex(line)

    def ask(self, *words):
        self.process.stdin.write(" ".join(it if isinstance(it, str) else it.hex() or "-" for it in words) + "\n")
        self.process.stdin.flush()

    def said(self, *words):
        self.ask(*words)
        return self.line()


def exchanged(ours, peer, checks, what):
    """Each side takes what the other one sends, and refuses it when it comes again."""
    for text in TEXTS:
        for kind in ("sealed", "plain"):
            name = f"{what}: {len(text)} bytes {kind}"
            token = ours.wrap(text, sealed=kind == "sealed")
            checks.equal(f"{name}, to them", peer.said("unwrap", token), f"{kind} {text.hex() or '-'}")
            peer.ask("wrap", kind, text)
            opened = ours.unwrap(peer.bytes())
            checks.equal(
                f"{name}, from them", (opened.text, opened.sealed, opened.order.name), (text, kind == "sealed", "NEXT")
            )
        checks.equal(
            f"{what}: a MIC of {len(text)} bytes, to them", peer.said("verify", text, ours.mic(text)), "verified"
        )
        peer.ask("mic", text)
        checks.equal(f"{what}: a MIC of {len(text)} bytes, from them", ours.verify_mic(text, peer.bytes()).name, "NEXT")


def refused(fevstunik, ours, peer, checks, what):
    """What is bent, sent back, repeated or left out."""
    token = ours.wrap(b"some text")
    bent = token[:20] + bytes([token[20] ^ 1]) + token[21:]
    checks.equal(f"{what}: a bent token, to them", peer.said("unwrap", bent), peer.fault)
    peer.ask("wrap", "sealed", b"first")
    first = peer.bytes()
    peer.ask("wrap", "sealed", b"second")
    second = peer.bytes()
    for name, it in (
        ("MESSAGE_INTEGRITY", first[:20] + bytes([first[20] ^ 1]) + first[21:]),
        ("MESSAGE_DIRECTION", token),
        ("MESSAGE_GAP", second),
        ("MESSAGE_DEFECTIVE", first[:15]),
    ):
        with pytest.raises(fevstunik.Fault) as found:
            ours.unwrap(it)
        checks.equal(f"{what}: {name}", found.value.name, name)
    checks.equal(f"{what}: the next one", ours.unwrap(first).text, b"first")
    with pytest.raises(fevstunik.Fault) as found:
        ours.unwrap(first)
    checks.equal(f"{what}: a repeat", found.value.name, "MESSAGE_REPEAT")
    checks.equal(f"{what}: the one after it", ours.unwrap(second).text, b"second")


def limits(ours, peer, checks, what):
    """How long a text may be, as both say it."""
    for kind in ("sealed", "plain"):
        for size in (100, 1000, 65_536):
            checks.equal(
                f"{what}: a token of {size} bytes {kind}",
                str(ours.limit(size, sealed=kind == "sealed")),
                peer.said("limit", kind, str(size)),
            )


@pytest.fixture(scope="module")
def folder(tmp_path_factory):
    return tmp_path_factory.mktemp("sides")


@pytest.mark.parametrize("subkey", [None, 19, 20], ids=lambda it: f"subkey {it}")
@pytest.mark.parametrize("number", [19, 20])
@pytest.mark.parametrize("theirs, mode", CLIENTS, ids=lambda it: it)
def test_their_client(checks, fevstunik, realm, folder, theirs, number, mode, subkey):
    """Another library's client at our service."""
    keytab = fevstunik.Keytab((realm.folder / "www.keytab").read_bytes())
    with fevstunik.Service(keytab, f"{SERVICE}@{REALM}", first_life=True, subkey=subkey) as service, Peer(
        realm, folder, theirs, "initiate", "HTTP@localhost", mode, cache=f"alice{number}"
    ) as peer:
        login = service.answer(peer.bytes())
        checks.equal("who it is", login.client, ALICE)
        # (Java asks the KDC for a ticket of its own)
        checks.equal("the session key", login.session_key.kind, 20 if theirs == "Java" else number)
        if mode == "mutual":
            checks.equal("the client takes the reply", peer.said("token", login.reply), "complete")
        what = f"{theirs}'s client, type {number}, {mode}, subkey {subkey}"
        with login.messages() as ours:
            exchanged(ours, peer, checks, what)
            # (Java leaves more room than its tokens need)
            if theirs != "Java":
                limits(ours, peer, checks, what)
            refused(fevstunik, ours, peer, checks, what)


def field_of(answer, tag):
    """The content of the OCTET STRING in a field of a NegTokenResp."""
    fields = gss_rules.Reader(answer, 0, len(answer)).enter(0xA1).enter(0x30)
    while fields.at < fields.end:
        found = answer[fields.at]
        part = fields.enter(found)
        if found == tag:
            return part.enter(0x04).left()
    return None


@pytest.mark.parametrize("subkey", [None, 19, 20], ids=lambda it: f"subkey {it}")
@pytest.mark.parametrize("number", [19, 20])
@pytest.mark.parametrize("theirs, mode", CLIENTS, ids=lambda it: it)
def test_their_mic_of_a_list(checks, fevstunik, realm, folder, theirs, number, mode, subkey):
    """Another library's client in a negotiation that this test writes, which names NTLM first: its MIC, and ours."""
    keytab = fevstunik.Keytab((realm.folder / "www.keytab").read_bytes())
    with fevstunik.Service(keytab, f"{SERVICE}@{REALM}", first_life=True, subkey=subkey) as service, Peer(
        realm, folder, theirs, "initiate", "HTTP@localhost", mode, cache=f"alice{number}"
    ) as peer:
        token, connection = peer.bytes(), service.login()
        asks = connection.answer(gss_rules.negotiation(NAMES, None))
        checks.equal("it is asked", asks.reply, gss_rules.response(gss_rules.KERBEROS, None, 3))
        if mode == "mutual":
            sent = connection.answer(gss_rules.going_on(token)).reply
            checks.equal("the client takes the reply", peer.said("token", field_of(sent, 0xA2)), "complete")
            checks.equal("the client takes our MIC", peer.said("verify", LIST, field_of(sent, 0xA3)), "verified")
            peer.ask("mic", LIST)
            login = connection.answer(gss_rules.going_on(None, mic=peer.bytes()))
        else:
            peer.ask("mic", LIST)
            login = connection.answer(gss_rules.going_on(token, mic=peer.bytes()))
            mic = field_of(login.reply, 0xA3)
            checks.equal("the client takes our MIC", peer.said("verify", LIST, mic), "verified")
        checks.equal("who it is", (login.client, login.list_shown), (ALICE, True))
        what = f"{theirs}'s client after a list, type {number}, {mode}, subkey {subkey}"
        with login.messages() as ours:
            exchanged(ours, peer, checks, what)
            refused(fevstunik, ours, peer, checks, what)


# What an attacker does to the messages of a client that names NTLM first, and how its login ends.
ATTACKS = {
    "none": None,
    "changes the list": "LIST_MIC_WRONG",
    "takes NTLM off the list": "LIST_MIC_WRONG",
    "leaves the MIC out": "LIST_MIC_MISSING",
    "bends the MIC": "LIST_MIC_WRONG",
}


def attacked(attack, number, token):
    """What arrives of the client's message of this number."""
    if number == 0 and attack == "changes the list":
        return token.replace(gss_rules.NTLM, gss_rules.NTLM[:-1] + b"\x0b", 1)
    if number == 0 and attack == "takes NTLM off the list":
        return gss_rules.negotiation([gss_rules.IAKERB, gss_rules.KERBEROS], None)
    mic = field_of(token, 0xA3) if number else None
    if mic is None:
        return token
    bent = {"leaves the MIC out": None, "bends the MIC": mic[:-1] + bytes([mic[-1] ^ 1])}.get(attack, mic)
    return gss_rules.going_on(field_of(token, 0xA2), b"\1", mic=bent) if bent != mic else token


@pytest.mark.parametrize("attack", ATTACKS)
@pytest.mark.parametrize("subkey", [None, 20], ids=lambda it: f"subkey {it}")
@pytest.mark.parametrize("mode", ["mutual", "plain"])
def test_ntlm_first(checks, fevstunik, realm, folder, mode, subkey, attack):
    """MIT's client with Debian's gss-ntlmssp, which offers NTLM first with a token of its, and Kerberos after it."""
    keytab = fevstunik.Keytab((realm.folder / "www.keytab").read_bytes())
    with fevstunik.Service(keytab, f"{SERVICE}@{REALM}", first_life=True, subkey=subkey) as service, Peer(
        realm, folder, "MIT", "initiate", "HTTP@localhost", mode, "listed", cache="alice20"
    ) as peer:
        connection, token, said, number = service.login(), peer.bytes(), "incomplete", 0
        checks.equal("its list", LIST in token, True)
        decision = connection.answer(attacked(attack, number, token))
        while isinstance(decision, fevstunik.GoOn):
            said, token = peer.said("step", decision.reply).split()
            number += 1
            if said == "fault":
                # (the client has seen by our MIC that its list was changed, and ends; somebody goes on in its place)
                checks.equal("who finds out", attack in ("changes the list", "takes NTLM off the list"), True)
                token = gss_rules.going_on(None, b"\1").hex()
            decision = connection.answer(attacked(attack, number, bytes.fromhex(token)))
        if attack != "none":
            checks.equal(attack, decision.cause.name, "LIST_MIC_MISSING" if said == "fault" else ATTACKS[attack])
            return
        if decision.reply:
            said, token = peer.said("step", decision.reply).split()
        checks.equal("the client", said, "complete")
        checks.equal("how many messages", number, 2 if mode == "mutual" else 1)
        checks.equal("who it is", (decision.client, decision.list_shown), (ALICE, True))
        with decision.messages() as ours:
            exchanged(ours, peer, checks, f"after NTLM, {mode}")
            refused(fevstunik, ours, peer, checks, f"after NTLM, {mode}")


@pytest.mark.parametrize("mode", ["mutual", "plain"])
def test_heimdals_negotiation(checks, fevstunik, realm, folder, mode):
    """Heimdal's client names Kerberos first. Somebody who puts NTLM before it gets nobody in."""
    keytab = fevstunik.Keytab((realm.folder / "www.keytab").read_bytes())
    words = (realm, folder, "Heimdal", "initiate", "HTTP@localhost", mode, "negotiated")
    with fevstunik.Service(keytab, f"{SERVICE}@{REALM}", first_life=True) as service:
        with Peer(*words, cache="alice20") as peer:
            login = service.login().answer(peer.bytes())
            checks.equal("who it is", (login.client, login.list_shown), (ALICE, False))
        with Peer(*words, cache="alice20") as peer:
            peer.bytes()
            asks = service.login().answer(gss_rules.negotiation(NAMES, None))
            checks.equal("the client ends", peer.said("step", asks.reply).split()[0], "fault")


@pytest.mark.parametrize("subkey", [None, 19, 20], ids=lambda it: f"subkey {it}")
@pytest.mark.parametrize("number", [19, 20])
@pytest.mark.parametrize("theirs", ["MIT", "Heimdal"])
def test_their_service(checks, fevstunik, realm, folder, theirs, number, subkey):
    """Our client at another library's service."""
    cache = fevstunik.CredentialCache((realm.folder / f"alice{number}.ccache").read_bytes())
    key = None if subkey is None else fevstunik.Key.random(subkey)
    with fevstunik.Client(cache, f"{SERVICE}@{REALM}", negotiated=False, subkey=key) as client, Peer(
        realm, folder, theirs, "accept", "HTTP@localhost"
    ) as peer:
        peer.ask(client.first())
        agreed = client.finish(peer.bytes())
        checks.equal("the session key", agreed.session_key.kind, number)
        what = f"{theirs}'s service, type {number}, subkey {subkey}"
        with agreed.messages() as ours:
            exchanged(ours, peer, checks, what)
            limits(ours, peer, checks, what)
            refused(fevstunik, ours, peer, checks, what)


@pytest.fixture(scope="module")
def signs(library, tmp_path_factory):
    """The words of the example in C and in Python."""
    program = tmp_path_factory.mktemp("sign") / "sign"
    sources = [TOP / "examples/sign/sign.c", Path(library).parent / "libfevstunik.a"]
    kdc.ran(
        [
            "gcc",
            "-std=c11",
            "-D_GNU_SOURCE",
            "-Wall",
            "-Wextra",
            "-Werror",
            "-I",
            TOP / "include",
            *sources,
            "-o",
            program,
        ]
    )
    return {"C": [program], "Python": [PYTHON, "-B", TOP / "examples/sign/sign.py"]}


@pytest.mark.parametrize("asking", ["C", "Python"])
@pytest.mark.parametrize("serving", ["C", "Python"])
def test_example(checks, signs, realm, library, serving, asking):
    """examples/sign in C and in Python, in either role."""
    env = {**os.environ, "FEVSTUNIK_LIBRARY": str(library), "PYTHONPATH": str(TOP / "python")}
    first = "first" if serving == "C" else "--first"
    words = [*signs[serving], "serve", realm.folder / "www.keytab", f"{SERVICE}@{REALM}", first]
    with subprocess.Popen([str(it) for it in words], stdout=subprocess.PIPE, text=True, env=env) as server:
        port = server.stdout.readline().strip()
        words = [*signs[asking], "ask", realm.folder / "alice20.ccache", f"{SERVICE}@{REALM}", port]
        said = kdc.ran(words, input="hello\n*\nüber\n", env=env)
        checks.equal(f"{asking} at {serving}", said, "".join(f"{ALICE}: {it}\n" for it in ("hello", "*", "über")))
        checks.equal(f"{serving} ends", server.wait(300), 0)


def test_example_refuses(checks, signs, realm, library):
    """A server that has just started lets nobody in."""
    env = {**os.environ, "FEVSTUNIK_LIBRARY": str(library), "PYTHONPATH": str(TOP / "python")}
    for serving in signs:
        words = [*signs[serving], "serve", realm.folder / "www.keytab", f"{SERVICE}@{REALM}"]
        with subprocess.Popen(
            [str(it) for it in words], stdout=subprocess.PIPE, stderr=subprocess.PIPE, text=True, env=env
        ) as server:
            port = server.stdout.readline().strip()
            asked = kdc.done(
                [*signs["C"], "ask", realm.folder / "alice20.ccache", f"{SERVICE}@{REALM}", port],
                env=env,
                input="hello\n",
            )
            checks.equal(f"{serving}: the client", (asked.returncode != 0, asked.stdout), (True, ""))
            checks.equal(f"{serving}: the server", server.wait(300), 1)
            said = server.stderr.read()
            checks.equal(f"{serving}: why", said if "started" not in said else "started", "started")
