"""Who is let in, by which name, and on which channel."""
import ssl
import subprocess
import time

import pytest

from fevstunik import tls_server_end_point
from fevstunik._tokens import bindings_of
from fevstunik.web import NotAllowed, Users, _users
from support import web
from support.web import negotiate, token

RULES = Users(realms={"EX": "{user}", "PARTNER": "{user}@{realm}", "A@B/C": "{user}"})


@pytest.mark.parametrize("client, name", [
    ("alice@EX", "alice"),
    ("alice/admin@EX", "alice/admin"),
    (r"j\xc3\xbcrgen@EX", "jürgen"),
    (r"\xe7\x8e\x8b@EX", "王"),
    (r"two\x20words@EX", "two words"),
    ("carol@PARTNER", "carol@PARTNER"),
    (r"carol@A\@B\/C", "carol"),
    # Of a realm that isn't let in, also if another one's name is in it.
    ("carol@OTHER", None),
    (r"carol@OTHER\@EX", None),
    ("carol@EX2", None),
    (r"EX@", None),
    # What could be taken for another name.
    (r"carol\@PARTNER@EX", None),
    (r"alice\/admin@EX", None),
    (r"DOMAIN\\alice@EX", None),
    (r"alice\x0a@EX", None),
    (r"\x20alice@EX", None),
    (r"alice\x00@EX", None),
    (r"al\xe2\x80\xaeice@EX", None),
    (r"\xff@EX", None),
    ("@EX", None),
    ("alice/@EX", None),
    ("/alice@EX", None),
    ("WELLKNOWN/ANONYMOUS@EX", None),
])
def test_names(client, name):
    if name is not None:
        assert RULES.name_of(client) == name
    else:
        with pytest.raises(NotAllowed):
            RULES.name_of(client)


@pytest.mark.parametrize("terms", [
    {"realms": {"EX": "alice"}}, {"realms": {"EX": "{client}"}}, {"realms": {"EX": "{user}{"}},
    {"realms": {}, "others": "{user}"}, {"realms": {}, "others": "{realm}"}])
def test_rules_that_make_one_user_of_two(terms):
    with pytest.raises(ValueError):
        Users(**terms)


@pytest.mark.parametrize("terms", [{"only": "alice"}, {"anonymous": "yes"}])
def test_wrong_kinds(terms):
    with pytest.raises(TypeError):
        Users(realms={}, **terms)


def test_the_realm_of_a_name():
    """A separator with a backslash before it belongs to a component or to the realm."""
    assert _users.realm_of(r"a\@b/\\@E\@X\/Y@Z") == "E@X/Y@Z"


def test_a_name_of_many_components():
    """With a backslash in it, too, it is read in one go: a foreign KDC may name its clients so."""
    before = time.process_time()
    assert _users._unescaped(r"\\/" + "a/" * 800_000 + r"\x41@EX") == (("\\", *"a" * 800_000, "A"), "EX")
    assert time.process_time() - before < 20


ANYBODY = {"realms": {}, "others": "{user}@{realm}"}
NOBODY = (("WELLKNOWN", "ANONYMOUS"), "WELLKNOWN:ANONYMOUS")
LET_IN = {
    "own realm": ({}, {}, "alice@EX"),
    "another realm": ({}, {"realm": b"OTHER"}, 403),
    "any realm": (ANYBODY, {"realm": b"OTHER"}, "alice@OTHER"),
    "one of those": ({"realms": {"EX": "{user}"}, "only": ["alice"]}, {}, "alice"),
    "none of those": ({"realms": {"EX": "{user}"}, "only": ["bob"]}, {}, 403),
    "anonymous": (ANYBODY, {"flags": web.ANONYMOUS}, 403),
    "anonymous is taken": ({"realms": {"EX": "{user}"}, "anonymous": True}, {"flags": web.ANONYMOUS | 1 << 19,
                           "client": (b"WELLKNOWN", b"ANONYMOUS"), "realm": b"WELLKNOWN:ANONYMOUS"},
                           "WELLKNOWN/ANONYMOUS@WELLKNOWN:ANONYMOUS"),
    "anonymous of a realm": ({"realms": {"EX": "{user}"}, "anonymous": True},
                             {"flags": web.ANONYMOUS, "client": (b"WELLKNOWN", b"ANONYMOUS")}, "WELLKNOWN/ANONYMOUS"),
    "a name like another": ({"realms": {"EX": "{user}"}}, {"client": (b"carol@PARTNER",)}, 403),
    "Unicode": ({"realms": {"EX": "{user}"}}, {"client": ("jürgen".encode(),)}, "jürgen"),
}


@pytest.mark.parametrize("rules, more, wanted", LET_IN.values(), ids=LET_IN)
def test_who_comes_in(made, over, rules, more, wanted):
    ask = over(made(**({"users": Users(**rules)} if rules else {})))
    client = more.get("client", (b"alice",))
    more = {name: value for name, value in more.items() if name != "client"}
    answer = ask(headers=[("Authorization", negotiate(token(*client, **more)))])
    assert (answer.status if isinstance(wanted, int) else answer.body.decode()) == wanted
    assert isinstance(wanted, str) or b"let in" in answer.body


# ---------------------------------------------------------------- channels


@pytest.fixture(scope="module")
def certificates(tmp_path_factory):
    """Two certificates in PEM, one with a chain after it, and the hashes of their bindings."""
    folder, paths, hashes = tmp_path_factory.mktemp("certificates"), [], []
    for name, kind in (("rsa", "rsa:2048"), ("ec", "ec")):
        path = folder / f"{name}.pem"
        more = ["-pkeyopt", "ec_paramgen_curve:P-384", "-sha384"] if kind == "ec" else []
        subprocess.run(["openssl", "req", "-x509", "-newkey", kind, *more, "-nodes", "-subj", f"/CN={name}", "-keyout",
                        folder / f"{name}.key", "-out", path], check=True, capture_output=True)
        hashes.append(bindings_of(tls_server_end_point(ssl.PEM_cert_to_DER_cert(path.read_text()))))
        paths.append(path)
    paths[1].write_text(paths[1].read_text() + paths[0].read_text())
    return paths, hashes


BOUND = [("check", "own", 200), ("check", "none", 200), ("check", "no checksum", 200), ("check", "other", 401),
         ("require", "own", 200), ("require", "none", 401), ("require", "no checksum", 401), ("require", "other", 401)]


@pytest.mark.parametrize("which", [0, 1])
@pytest.mark.parametrize("rule, sent, status", BOUND)
def test_channels(made, over, certificates, rule, sent, status, which):
    """Each certificate's bindings are taken, and no others."""
    paths, hashes = certificates
    ask = over(made(certificates=paths, bindings=rule))
    bindings = {"own": hashes[which], "none": bytes(16), "no checksum": None, "other": hashes[which][::-1]}[sent]
    value = [("Authorization", negotiate(token(bindings=bindings)))]
    assert ask(headers=value).status == status
    assert ask(headers=value).status == 401


def test_a_checksum_that_cannot_be_read(made, over, certificates):
    ask = over(made(certificates=certificates[0]))
    value = negotiate(token(checksum=web.der.key(0x8003, bytes(5))))
    assert ask(headers=[("Authorization", value)]).status == 401


def test_certificates_are_read_again(made, over, certificates, tmp_path, monkeypatch):
    paths, hashes = certificates
    path = tmp_path / "now.pem"
    path.write_bytes(paths[0].read_bytes())
    ask = over(made(certificates=[path], bindings="require"))
    monkeypatch.setattr("fevstunik.web._files._PAUSE", 0)

    def asked(index):
        return ask(headers=[("Authorization", negotiate(token(bindings=hashes[index])))]).status
    assert [asked(0), asked(1)] == [200, 401]
    for spoil in lambda: path.write_text("no certificate"), path.unlink:
        spoil()
        assert [asked(0), asked(1)] == [200, 401]
    path.write_bytes(paths[1].read_bytes())
    assert [asked(0), asked(1)] == [401, 200]


@pytest.mark.parametrize("terms", [{"bindings": "require"}, {"bindings": "yes"}, {"certificates": ["/dev/null"]}])
def test_no_channel(made, terms):
    with pytest.raises(ValueError):
        made(**terms)
