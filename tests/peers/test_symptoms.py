"""What MIT krb5's tools and curl say if a login can't begin: docs/TROUBLESHOOTING.md quotes it."""
import http.server
import threading

import pytest

from support import TOP, kdc

TYPES = "aes256-cts-hmac-sha384-192:normal,aes128-cts-hmac-sha256-128:normal"
NAME = "HTTP/www.example.com"
PAGE = (TOP / "docs/TROUBLESHOOTING.md").read_text()


class Asking(http.server.BaseHTTPRequestHandler):
    """Asks each client to log in."""

    def do_GET(self):
        self.send_response(401)
        self.send_header("WWW-Authenticate", "Negotiate")
        self.send_header("Content-Length", "0")
        self.end_headers()

    def log_message(self, *words):
        pass


@pytest.fixture(scope="module")
def url():
    server = http.server.ThreadingHTTPServer(("127.0.0.1", 0), Asking)
    threading.Thread(target=server.serve_forever, daemon=True).start()
    yield f"http://127.0.0.1:{server.server_port}/"
    server.shutdown()
    server.server_close()


@pytest.fixture(scope="module")
def realm(tmp_path_factory):
    """A realm whose service has keys of types 19 and 20; clients of some kinds; and a keytab that is old."""
    made = kdc.MitRealm(tmp_path_factory.mktemp("symptoms") / "realm", "SYMPTOMS.TEST", None,
                        TYPES.replace(",", " ") + " aes256-cts-hmac-sha1-96:normal")
    made.kadmin("addprinc", "-pw", kdc.PASSWORD, "alice")
    for name, types in ((NAME, TYPES), ("host/set", TYPES), ("host/old", "aes256-cts-hmac-sha1-96:normal")):
        made.kadmin("addprinc", "-randkey", "-e", types, name)
    made.kadmin("setstr", "host/set", "session_enctypes", "aes256-cts-hmac-sha384-192")
    made.kadmin("ktadd", "-k", made.folder / "old.keytab", "-norandkey", NAME)
    made.kadmin("cpw", "-randkey", "-e", TYPES, NAME)
    made.start("default")
    made.client("new", "default", "permitted_enctypes = aes256-cts-hmac-sha384-192")
    made.client("legacy", "default", "permitted_enctypes = aes256-cts-hmac-sha1-96")
    made.cache("alice", "default", [NAME])
    yield made
    made.stop()


CURL = ["curl", "-sv", "--negotiate", "-u", ":", "URL"]
OLD = ["kvno", "-k", "KEYTAB", NAME]
# The kind of client, its cache, the command, and what it says.
SAID = {
    "curl, no ticket": ("default", "none", CURL, "No credentials were supplied"),
    "curl, no such service": ("default", "alice", CURL, "not found in Kerberos database"),
    "kvno, no such service": ("default", "alice", ["kvno", "HTTP/none"], "not found in Kerberos database"),
    "kvno, not offered": ("legacy", "alice", ["kvno", "host/set"], "KDC has no support for encryption type"),
    "kvno, not permitted": ("new", "alice", ["kvno", "host/old"],
                            "No credentials found with supported encryption types"),
    "kvno, an old keytab": ("default", "alice", OLD, "keytab entry invalid"),
    "kvno, why": ("default", "alice", OLD, "Wrong principal in request"),
    "klist, type 18": ("default", "alice", ["klist", "-e"], "Etype (skey, tkt): aes256-cts-hmac-sha1-96"),
}


@pytest.mark.packages
@pytest.mark.parametrize("case", SAID)
def test_symptom(realm, url, case):
    """A tool says this, and the page quotes it."""
    kind, cache, command, wanted = SAID[case]
    words = [{"URL": url, "KEYTAB": realm.folder / "old.keytab"}.get(it, it) for it in command]
    env = realm.environment(kind, KRB5CCNAME=f"FILE:{realm.folder}/{cache}.ccache")
    ran = kdc.done(words, env=env)
    assert wanted in ran.stdout + ran.stderr
    assert wanted in PAGE
