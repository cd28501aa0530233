"""A service on this machine that asks for a login by Negotiate, and each way in which it, or somebody in its place,
may answer."""
import base64
import contextlib
import ssl
import subprocess
import threading
import time
from http.server import BaseHTTPRequestHandler, ThreadingHTTPServer
from urllib.parse import parse_qs, urlsplit

from fevstunik import Asked, CredentialCache, Keytab, Login, Service, Token, tls_server_end_point

from support import der, fixture, reference
from support.sealing import sealed

REALM, CLIENT = "EX", "alice@EX"
# The hosts of the services, and by how much the clock is ahead of one that says so.
HOSTS = ("localhost", "127.0.0.1")
AHEAD = 1_000
BASIC = 'Basic realm="a \\" quote, Negotiate, and more"'


def cache(hosts=HOSTS, ends=36_000):
    """A cache with tickets for the services of these hosts, which end so many seconds from now."""
    now = int(time.time())
    client, times = fixture.principal(1, b"EX", b"alice"), (now - 100, 0, now + ends, 0)
    part = der.enc_ticket_part(0, der.key(19, fixture.SESSION_KEY), b"EX", fixture.ALICE, times[0], times[2])
    cipher = sealed(19, fixture.SERVICE_KEY, 2, bytes(range(16)), part)
    made = b"\x05\x04\x00\x00" + client
    for host in hosts:
        ticket = der.ticket(b"EX", der.name(3, b"HTTP", host.encode()), der.encrypted(19, cipher, 3))
        server = fixture.principal(3, b"EX", b"HTTP", host.encode())
        made += fixture.credential(client, server, 19, fixture.SESSION_KEY, times, ticket)
    return CredentialCache(made)


def keytab():
    entry = {"realm": b"EX", "name_type": 3, "timestamp": 0, "kvno": 3, "etype": 19, "key": fixture.SERVICE_KEY}
    return Keytab(b"\x05\x02" + b"".join(reference.record_of({**entry, "components": [b"HTTP", host.encode()]})
                                         for host in HOSTS))


def certificate(folder, *words):
    """A new certificate of localhost, and its key: the path of the file with both."""
    path = folder / "localhost.pem"
    made = subprocess.run(["openssl", "req", "-x509", *(words or ["-newkey", "rsa:2048"]), "-nodes", "-keyout",
                           folder / "key.pem", "-subj", "/CN=localhost", "-addext",
                           "subjectAltName=DNS:localhost,IP:127.0.0.1", "-out", folder / "one.pem"],
                          capture_output=True)
    assert made.returncode == 0, made.stderr
    path.write_bytes((folder / "one.pem").read_bytes() + (folder / "key.pem").read_bytes())
    return path


class Handler(BaseHTTPRequestHandler):
    """Each path is one way to answer: `answer_NAME` for /NAME."""

    protocol_version = "HTTP/1.1"
    disable_nagle_algorithm = True

    def do_GET(self):
        self.body = self.read_body()
        self.url = urlsplit(self.path)
        scheme, _, text = self.headers.get("Authorization", "").partition(" ")
        self.token = base64.b64decode(text) if scheme == "Negotiate" else None
        name = self.url.path.strip("/") or "page"
        if self.token is not None:
            asked = Asked.read(Token.open(self.token).request)
            self.server.tokens.append((self.headers["Host"].split(":")[0], asked.name, name))
            self.server.is_mutual.add(asked.mutual)
            self.server.sent.append(self.token)
        getattr(self, f"answer_{name}")()

    do_POST = do_GET

    def read_body(self):
        if self.headers.get("Transfer-Encoding") != "chunked":
            return self.rfile.read(int(self.headers.get("Content-Length", 0)))
        found = b""
        while size := int(self.rfile.readline(), 16):
            found += self.rfile.read(size + 2)[:size]
        self.rfile.readline()
        return found

    def say(self, status, text, *tokens, **more):
        self.send_response(status)
        fields = [("WWW-Authenticate", f"Negotiate {base64.b64encode(it).decode()}".strip()) for it in tokens]
        for name, value in [*fields, *((name.replace("_", "-"), value) for name, value in more.items()),
                            ("Content-Length", str(len(text.encode())))]:
            self.send_header(name, value)
        self.end_headers()
        self.wfile.write(text.encode())

    def logged_in(self, service=None, ahead=0):
        """The Login of a request, or None if it was answered."""
        if self.token is None:
            self.say(401, "who are you?\n", b"")
            return None
        decision = (service or self.server.service).answer(self.token, time.time() + ahead)
        if isinstance(decision, Login):
            return decision
        self.say(401, f"{decision.cause}\n", decision.reply)
        return None

    def hello(self, login, *tokens, **more):
        if login is not None:
            self.say(200, f"hello {login.client}, {len(self.body)}\n", *(tokens or [login.reply]), **more)

    def answer_page(self):
        self.hello(self.logged_in())

    def answer_open(self):
        self.say(200, "anybody\n")

    def answer_moved(self):
        """To the place that the query names, without asking who it is."""
        self.say(302, "", Location=parse_qs(self.url.query)["to"][0])

    def answer_inside(self):
        """To the page, for those who are logged in."""
        login = self.logged_in()
        if login is not None:
            self.say(302, "", login.reply, Location="/")

    def answer_silent(self):
        """Without a proof of who it is."""
        login = self.logged_in()
        if login is not None:
            self.say(200, "hello\n")

    def answer_forged(self):
        """With a reply that somebody wrote who doesn't know the key."""
        login = self.logged_in()
        self.hello(login, login and login.reply[:-1] + bytes([login.reply[-1] ^ 1]))

    def answer_garbled(self):
        login = self.logged_in()
        if login is not None:
            self.say(200, "hello\n", WWW_Authenticate="Negotiate AAA")

    def answer_replayed(self):
        """With the reply to another request."""
        login = self.logged_in()
        if login is not None:
            self.server.replies.append(login.reply)
            self.hello(login, self.server.replies[0])

    def answer_repeat(self):
        """As if somebody else had sent the first token before."""
        if self.token is not None and not self.server.repeated:
            self.server.repeated = True
            self.server.service.answer(self.token)
        self.hello(self.logged_in())

    def answer_another(self):
        """As a service does that asks for another token after a repeat."""
        is_first = self.token is not None and not self.server.repeated
        self.server.repeated = self.server.repeated or is_first
        if is_first:
            self.say(401, "once more\n", b"")
        else:
            self.hello(self.logged_in())

    def answer_repeats(self):
        """The same for all tokens."""
        if self.token is not None:
            self.server.service.answer(self.token)
        self.hello(self.logged_in())

    def answer_ahead(self):
        """By a clock that is ahead."""
        self.hello(self.logged_in(self.server.later, AHEAD))

    def answer_rejects(self):
        """As a service does that doesn't know the key."""
        self.say(401, "no\n", *([b""] if self.token is None else [bytes.fromhex("a1073005a0030a0102")]))

    def answer_refuses(self):
        self.say(401, "no\n", b"")

    def answer_basic(self):
        self.say(401, "who are you?\n", WWW_Authenticate=BASIC)

    def answer_both(self):
        """With another way to log in."""
        if self.token is None:
            self.say(401, "who are you?\n", WWW_Authenticate=f"{BASIC}, nEGOTIATE")
        else:
            self.hello(self.logged_in())

    def answer_cookie(self):
        """Whoever has the session's cookie needs no token."""
        if "session=1" in self.headers.get("Cookie", ""):
            self.say(200, "hello again\n")
        else:
            self.hello(self.logged_in(), Set_Cookie="session=1")

    def answer_marked(self):
        """For those who send a token with the cookie of the first answer."""
        if self.token is None:
            self.say(401, "who are you?\n", b"", Set_Cookie="mark=1")
        elif "mark=1" in self.headers.get("Cookie", ""):
            self.hello(self.logged_in())
        else:
            self.say(400, "no cookie\n")

    def answer_missing(self):
        login = self.logged_in()
        if login is not None:
            self.say(404, "there is no such page\n", login.reply)

    def answer_bound(self):
        """For those who bind their token to the channel."""
        self.hello(self.logged_in(self.server.bound))

    def log_message(self, *_):
        pass


class Server(ThreadingHTTPServer):
    """`tokens` has for each token the host that it was sent to, the service that it is for, and the page; `is_mutual`
    has whether one asks for a reply, `sent` the tokens."""

    daemon_threads = True

    def __init__(self, tls=None):
        super().__init__(("127.0.0.1", 0), Handler)
        self.service, self.later = (Service(keytab(), None, any_name=True, first_life=True) for _ in range(2))
        self.tokens, self.sent, self.is_mutual, self.replies, self.repeated = [], [], set(), [], False
        self.url = f"{'https' if tls else 'http'}://localhost:{self.server_port}"
        if tls:
            bindings = tls_server_end_point(ssl.PEM_cert_to_DER_cert(tls.read_text().partition("-----BEGIN PRIV")[0]))
            self.bound = Service(keytab(), None, any_name=True, first_life=True, bindings=bindings,
                                 bindings_required=True)
            context = ssl.SSLContext(ssl.PROTOCOL_TLS_SERVER)
            context.load_cert_chain(tls)
            self.socket = context.wrap_socket(self.socket, server_side=True)

    def handle_error(self, *_):
        """(a client may go away)"""


@contextlib.contextmanager
def serving(tls=None):
    with Server(tls) as server:
        thread = threading.Thread(target=server.serve_forever, args=(0.01,))
        thread.start()
        try:
            yield server
        finally:
            server.shutdown()
            thread.join()
