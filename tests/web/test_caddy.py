"""Caddy in front of the service for a reverse proxy, with the site file of examples/negotiate."""
import os
import sys
import threading
from wsgiref import simple_server

import pytest

from support import TOP, kdc, web, web_servers

pytestmark = [pytest.mark.packages, pytest.mark.slow, pytest.mark.xdist_group("web-caddy")]
SITE = (TOP / "examples/negotiate/Caddyfile").read_text()
CONFIG = """
keytab = "web.keytab"
service = "host/web@EX"
first_life = true
users = { realms = { "EX" = "{user}" } }
sessions = { logout = "/logout" }
"""


def application(environ, start_response):
    path = environ["PATH_INFO"].strip("/")
    names = ("REMOTE_USER", "AUTHORIZATION", "NEGOTIATE_ANSWER", "NEGOTIATE_COOKIE")
    seen = {name: environ[f"HTTP_{name}"] for name in names if f"HTTP_{name}" in environ}
    start_response(f"{path or 200} Status", [("Content-Type", "text/plain")])
    return [repr(seen).encode()]


@pytest.fixture(scope="module")
def folder(tmp_path_factory, library):
    with pytest.MonkeyPatch.context() as patch:
        patch.setenv("FEVSTUNIK_LIBRARY", str(library))
        patch.setenv("PYTHONPATH", os.environ.get("PYTHONPATH", ""))
        yield tmp_path_factory.mktemp("caddy")


@pytest.fixture(scope="module")
def caddy(folder):
    # (this server takes `_` in a name for `-`, as many do)
    server = simple_server.make_server("127.0.0.1", 0, application)
    threading.Thread(target=server.serve_forever, daemon=True).start()
    port, site = kdc.free_port(), SITE
    for old, new in (("www.example.com {", f"http://127.0.0.1:{port} {{"),
                     ("127.0.0.1:9000", f"127.0.0.1:{server.server_port}"),
                     ("unix//run/fevstunik-web/socket", f"unix/{folder}/socket")):
        assert old in site
        site = site.replace(old, new)
    (folder / "Caddyfile").write_text("{\n\tadmin off\n\tauto_https off\n}\n" + site)
    process = kdc.Process(["caddy", "run", "--adapter", "caddyfile", "--config", folder / "Caddyfile"],
                          folder / "caddy.log", {**os.environ, "HOME": str(folder)})
    process.wait_for(port)
    made = web_servers.Server.__new__(web_servers.Server)
    made.port, made.path = port, None
    yield made
    process.stop()
    server.shutdown()


@pytest.fixture(scope="module")
def site(folder, caddy):
    (folder / "web.toml").write_text(CONFIG)
    (folder / "web.keytab").write_bytes(web.fixture.keytab())
    command = [sys.executable, "-m", "fevstunik.web", "--config", folder / "web.toml", "--socket", folder / "socket"]
    with web_servers.Server(folder, command, None, folder / "socket"):
        yield caddy


@pytest.mark.parametrize("path, status", [("/", 200), ("/404", 404), ("/500", 500)])
def test_a_login(site, path, status):
    headers = dict.fromkeys(["Remote-User", "Remote_User", "Negotiate-Answer", "Negotiate-Cookie"], "mallory")
    answer = site.ask(path=path, token=web.token(), headers=headers)
    assert (answer.status, answer.body) == (status, b"{'REMOTE_USER': 'alice'}") and answer.token
    assert answer.one("Set-Cookie").startswith("__Host-fevstunik=") and answer.one("Strict-Transport-Security")


def test_a_session(site):
    cookie = site.ask(token=web.token()).one("Set-Cookie").partition(";")[0]
    answer = site.ask(headers={"Cookie": cookie})
    assert (answer.status, answer.body, answer.token) == (200, b"{'REMOTE_USER': 'alice'}", None)
    assert answer.one("Set-Cookie") is None
    out = site.ask(path="/logout", headers={"Cookie": cookie})
    assert (out.status, out.body) == (200, b"You have logged out.\n") and "Max-Age=0" in out.one("Set-Cookie")


def test_refusals(site):
    """The client sees the service's own page."""
    answer = site.ask("POST", headers={"Accept": "text/html", "Remote-User": "mallory"}, body=b"posted")
    assert (answer.status, answer.token) == (401, b"") and b"<h1>401 Unauthorized</h1>" in answer.body
    assert site.ask(token=web.token(realm=b"OTHER")).status == 403
    assert site.ask(token=web.token(kvno=7)).token
