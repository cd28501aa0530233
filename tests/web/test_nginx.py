"""The service for a reverse proxy, and nginx in front of it with the site file of examples/negotiate."""
import http.client
import os
import re
import socket
import subprocess
import sys
from concurrent.futures import ThreadPoolExecutor

import pytest

from support import kdc, web, web_realm, web_servers
from support.web_nginx import Nginx

pytestmark = [pytest.mark.packages, pytest.mark.slow, pytest.mark.xdist_group("web-nginx")]
HSTS = "max-age=31536000"
CONFIG = """
keytab = "web.keytab"
service = "host/web@EX"
first_life = {first}
retry_after = 30
[users]
realms = {{ "EX" = "{{user}}" }}
only = ["alice", "jürgen"]
[sessions]
key = "session.key"
logout = "/logout"
"""


def service(folder, first="true", keytab=None, name=web.NAME):
    """The service on a Unix socket in the folder."""
    realm = name.partition("@")[2]
    config = CONFIG.format(first=first).replace(web.NAME, name).replace('"EX"', f'"{realm}"')
    (folder / "web.toml").write_text(config)
    (folder / "web.keytab").write_bytes(keytab or web.fixture.keytab())
    path = folder / "socket"
    command = [sys.executable, "-m", "fevstunik.web", "--config", folder / "web.toml", "--socket", path]
    return web_servers.Server(folder, command, None, path)


@pytest.fixture(scope="module")
def folder(tmp_path_factory, library):
    with pytest.MonkeyPatch.context() as patch:
        patch.setenv("FEVSTUNIK_LIBRARY", str(library))
        patch.setenv("PYTHONPATH", os.environ.get("PYTHONPATH", ""))
        yield tmp_path_factory.mktemp("nginx")


@pytest.fixture(scope="module")
def nginx(folder):
    made = Nginx(folder)
    yield made
    made.process.stop()


@pytest.fixture(scope="module")
def site(folder, nginx):
    with service(folder):
        yield nginx


def test_a_login(site):
    answer = site.ask(token=web.token())
    assert (answer.status, answer.body) == (200, b"user 'alice', token ''")
    assert answer.token and answer.one("Strict-Transport-Security") == HSTS
    assert answer.one("Set-Cookie").startswith("__Host-fevstunik=")


def test_a_name_in_unicode(site):
    assert site.ask(token=web.token("jürgen".encode())).body == b"user 'j%C3%BCrgen', token ''"


@pytest.mark.parametrize("path, status", [("/404", 404), ("/500", 500), ("/302", 302)])
def test_the_token_comes_with_each_status(site, path, status):
    answer = site.ask(path=path, token=web.token())
    assert answer.status == status and answer.token and answer.one("Strict-Transport-Security") == HSTS
    assert status != 500 or answer.body == b"the application's own"


def test_a_login_is_asked_for_once(site):
    answer = site.ask()
    assert (answer.status, answer.token, answer.one("Strict-Transport-Security")) == (401, b"", HSTS)
    assert b"<h1>Log in with Kerberos</h1>" in answer.body


def test_a_client_that_awaits_a_reply_sees_why(site):
    answer = site.ask(token=web.token(kvno=7))
    assert (answer.status, bool(answer.token)) == (401, True)
    assert site.ask(token=web.token(kvno=7, mutual=False)).token == b""


def test_a_user_who_is_not_let_in(site):
    answer = site.ask(token=web.token(b"bob"))
    assert answer.status == 403 and b"You aren't let in here" in answer.body and answer.token


@pytest.mark.parametrize("header", ["Remote-User", "Remote_User", "X-Remote-User", "remote-user"])
def test_no_client_names_itself(site, header):
    assert site.ask(headers={header: "mallory"}).status == 401
    answer = site.ask(token=web.token(), headers={header: "mallory"})
    assert answer.body == b"user 'alice', token ''"


def test_sessions(site):
    cookie = site.ask(token=web.token()).one("Set-Cookie").partition(";")[0]
    assert site.ask(headers={"Cookie": cookie}).body == b"user 'alice', token ''"
    out = site.ask(path="/logout")
    assert out.status == 200 and "Max-Age=0" in out.one("Set-Cookie")


def test_methods(site):
    assert site.ask("POST", token=web.token(), body=b"posted" * 1000).status == 200
    assert site.ask("POST", body=b"posted").status == 401
    head = site.ask("HEAD", token=web.token())
    assert (head.status, head.body) == (200, b"") and head.token


@pytest.mark.parametrize("size", [9_000, 44_000])
def test_large_tokens(site, size):
    assert site.ask(token=web.token(size=size)).status == 200


def test_logins_in_parallel(site):
    """200 at once."""
    tokens = [web.token() for _ in range(200)]
    with ThreadPoolExecutor(100) as pool:
        answers = list(pool.map(lambda it: site.ask(token=it), tokens))
    assert {it.status for it in answers} == {200}


def test_many_slow_clients(site):
    """500 connections that send a byte: others log in meanwhile, and these in the end."""
    slow = [site.connection() for _ in range(500)]
    for it in slow:
        it.connect()
        it.sock.sendall(b"G")
    assert {site.ask(token=web.token()).status for _ in range(5)} == {200}
    value = web.negotiate(web.token(mutual=False)).encode()
    for it in slow:
        it.sock.sendall(b"ET / HTTP/1.0\r\nHost: www.example.com\r\nAuthorization: " + value + b"\r\n\r\n")
        value = web.negotiate(web.token(mutual=False)).encode()
    assert all(it.sock.recv(100).startswith(b"HTTP/1.1 200 ") for it in slow)
    for it in slow:
        it.close()


SMUGGLED = {
    "a length and chunks": b"POST / HTTP/1.1\r\nHost: a\r\nContent-Length: 6\r\n"
                           b"Transfer-Encoding: chunked\r\n\r\n0\r\n\r\n",
    "two lengths": b"POST / HTTP/1.1\r\nHost: a\r\nContent-Length: 0\r\nContent-Length: 40\r\n\r\n",
    "a coding that is hidden": b"POST / HTTP/1.1\r\nHost: a\r\nTransfer-Encoding: xchunked\r\n\r\n",
    "GET with a body": b"GET / HTTP/1.1\r\nHost: a\r\nContent-Length: %d\r\n\r\n",
}


@pytest.mark.parametrize("name", SMUGGLED)
def test_nobody_gets_another_ones_answer(site, name):
    """A request that hides another one: what is hidden gets in by no other client's login."""
    hidden = b"GET /404 HTTP/1.1\r\nHost: a\r\nX: "
    data = SMUGGLED[name] % len(hidden) if b"%d" in SMUGGLED[name] else SMUGGLED[name]
    connection = site.connection()
    connection.connect()
    connection.sock.sendall(data + hidden)
    answer = site.ask(token=web.token())
    assert (answer.status, answer.body) == (200, b"user 'alice', token ''")
    found = connection.sock.recv(100_000)
    assert re.match(rb"HTTP/1\.1 (4\d\d|501) ", found) and b" 200 " not in found
    connection.close()


def test_over_http_2(site, folder):
    command = ["curl", "-sSki", "--http2", "-H", f"Authorization: {web.negotiate(web.token())}", "--connect-to",
               f"www.example.com:443:127.0.0.1:{site.port}", "https://www.example.com/"]
    said = subprocess.run(command, capture_output=True, text=True, timeout=web_servers.SECONDS).stdout
    assert said.startswith("HTTP/2 200") and "www-authenticate: Negotiate o" in said and "user 'alice'" in said


def test_plain_http_is_sent_on(site):
    connection = http.client.HTTPConnection("127.0.0.1", site.plain, timeout=web_servers.SECONDS)
    connection.request("GET", "/a?b", headers={"Host": "www.example.com", "Authorization": "Negotiate YQ=="})
    answer = connection.getresponse()
    assert (answer.status, answer.getheader("Location")) == (301, "https://www.example.com/a?b")


def without_a_service(nginx):
    answer = nginx.ask(token=web.token())
    assert (answer.status, answer.one("Retry-After"), answer.token) == (503, "60", None)
    assert b"try again" in answer.body and answer.one("Strict-Transport-Security") == HSTS


def test_a_service_that_is_down_or_has_just_started(nginx, folder, tmp_path_factory):
    """(`site` may hold the socket's path: another folder has one of its own.)"""
    other = tmp_path_factory.mktemp("down")
    own = Nginx(other)
    try:
        without_a_service(own)
        with service(other, first="false"):
            without_a_service(own)
            assert own.ask().status == 401
        assert "denied: JUST_STARTED" in (other / "server.log").read_text()
        # A socket that a killed service has left is no obstacle.
        with service(other):
            assert own.ask(token=web.token()).status == 200
    finally:
        own.process.stop()


@pytest.mark.parametrize("version, line", [("--http1.1", "HTTP/1.1 200 OK"), ("--http2", "HTTP/2 200 ")])
def test_curl_with_a_ticket(curl, version, line):
    """Of a KDC of MIT krb5. Another user's ticket shows the page of 403, and none that of 401."""
    said = curl("alice", version)
    assert said.startswith(line) and "ww-authenticate: negotiate o" in said.lower() and "user 'alice'" in said
    assert "You aren't let in here" in curl("bob", version)
    assert "<h1>Log in with Kerberos</h1>" in curl("nobody", version)


@pytest.fixture(scope="module")
def curl(folder, tmp_path_factory):
    """Gives what curl sees with the tickets of a user."""
    other = tmp_path_factory.mktemp("realm")
    realm = web_realm.realm_in(other)
    realm.kadmin("addprinc", "-pw", kdc.PASSWORD, "bob")
    realm.cache("bob", "default", [web_realm.SERVICE], user="bob")
    keytab = (realm.folder / "www.keytab").read_bytes()
    site = Nginx(other)

    def asked(user, version):
        env = realm.environment("default", KRB5CCNAME=str(realm.folder / f"{user}.ccache"))
        url = f"https://localhost:{site.port}/"
        return kdc.done(["curl", "-sSki", version, "--negotiate", "-u", ":", url], env=env).stdout
    with service(other, keytab=keytab, name=f"{web_realm.SERVICE}@{web_realm.REALM}"):
        yield asked
    site.process.stop()
    realm.stop()


# ---------------------------------------------------------------- the service by itself


def test_the_socket_of_systemd(folder, tmp_path):
    (tmp_path / "web.toml").write_text(CONFIG.format(first="true"))
    (tmp_path / "web.keytab").write_bytes(web.fixture.keytab())
    with socket.socket(socket.AF_UNIX) as listener:
        listener.bind(str(tmp_path / "socket"))
        listener.listen()
        script = (f"exec 3<&{listener.fileno()}; LISTEN_FDS=1 LISTEN_PID=$$ exec {sys.executable} -m fevstunik.web "
                  f"--config {tmp_path}/web.toml")
        process = subprocess.Popen(["bash", "-c", script], pass_fds=[listener.fileno()])
    try:
        server = web_servers.Server.__new__(web_servers.Server)
        server.port, server.path = None, tmp_path / "socket"
        answer = server.ask(token=web.token())
        assert (answer.status, answer.one("Remote-User")) == (200, "alice")
        assert server.ask("OPTIONS").status == 405
    finally:
        process.kill()
        process.wait()


WRONG = {
    'service = "host/web@EX"\nkeytabs = 1': "there is no term `keytabs`",
    'service = "host/web@EX"\nstore = { memory = 1 }': "{ sqlite = .. }, not memory",
    'service = "host/web@EX"\nstore = { redis = "a", sqlite = "b" }': "one of { redis = .. }",
    'service = "host/web@EX"\nstore = {}': "`store` is a path",
    'service = "host/web@EX"\nskew = -1': "-1 doesn't fit",
    'service = "host/web@EX"\nexempt = ["/"]': "`exempt` isn't taken",
    'service = "HTTP/web@EX"': "no key of type 19 or 20 for HTTP/web@EX",
    'service = "host/web@EX"\n[users]\nrealms = 1': "int",
    'service = "host/web@EX"\nsessions = 1': "int",
    'service = "host/web@EX"\nfirst_life = 1': "bool",
    "=": "web.toml",
}


def test_a_file_in_the_place_of_the_socket_stays(tmp_path, keytab):
    (tmp_path / "web.toml").write_text('keytab = "web.keytab"\nservice = "host/web@EX"\n')
    (tmp_path / "socket").write_text("kept")
    command = [sys.executable, "-m", "fevstunik.web", "--config", "web.toml", "--socket", "socket"]
    ran = subprocess.run(command, capture_output=True, text=True, timeout=web_servers.SECONDS, cwd=tmp_path)
    assert ran.returncode == 1 and "in use" in ran.stderr and (tmp_path / "socket").read_text() == "kept"


def test_a_socket_in_a_folder_that_is_not_there(tmp_path, keytab):
    """As after a boot, below /run. The text names the socket, and not the configuration."""
    (tmp_path / "web.toml").write_text('keytab = "web.keytab"\nservice = "host/web@EX"\n')
    command = [sys.executable, "-m", "fevstunik.web", "--config", "web.toml", "--socket", "run/socket"]
    ran = subprocess.run(command, capture_output=True, text=True, timeout=web_servers.SECONDS, cwd=tmp_path)
    assert (ran.returncode, ran.stderr) == (1, "fevstunik.web: run/socket: [Errno 2] No such file or directory\n")


@pytest.mark.parametrize("lines, said", WRONG.items(), ids=str)
def test_configurations_that_are_wrong(tmp_path, keytab, lines, said):
    (tmp_path / "web.toml").write_text(f'keytab = "web.keytab"\n{lines}\n')
    command = [sys.executable, "-m", "fevstunik.web", "--config", "web.toml", "--socket", tmp_path / "socket"]
    ran = subprocess.run(command, capture_output=True, text=True, timeout=web_servers.SECONDS, cwd=tmp_path)
    assert ran.returncode == 1 and "Traceback" not in ran.stderr and said in ran.stderr, ran.stderr
