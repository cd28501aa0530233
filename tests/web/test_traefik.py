"""The service for a reverse proxy as Traefik asks it. Traefik itself isn't here: this sends by hand what the page about
its middleware ForwardAuth says that it sends, and does with the answer what that page says."""
import pytest

from support import kdc, web, web_servers

pytestmark = [pytest.mark.packages, pytest.mark.slow, pytest.mark.xdist_group("web-traefik")]
# What docs/WEB.md names for `authResponseHeaders`.
COPIED = ["Remote-User"]
CONFIG = """
keytab = "web.keytab"
service = "host/web@EX"
first_life = {first}
[users]
realms = {{ "EX" = "{{user}}" }}
[sessions]
logout = "/logout"
"""


@pytest.fixture
def service(tmp_path, keytab):
    """Starts the service on a port: Traefik asks no Unix socket."""
    def start(first="true"):
        (tmp_path / "web.toml").write_text(CONFIG.format(first=first))
        port = kdc.free_port()
        app = f'fevstunik.web.service:app("{tmp_path}/web.toml")'
        return web_servers.Server(tmp_path, [*web_servers.GUNICORN, "--bind", f"127.0.0.1:{port}", app], port)
    return start


def asked(service, method="GET", uri="/page", **headers):
    """The headers that the application gets, or the answer that the client gets. The request for the service is always
    a GET without a body, at the path of the middleware's `address`."""
    headers = {name.replace("_", "-"): value for name, value in headers.items()}
    answer = service.ask("GET", "/", headers={
        **headers, "X-Forwarded-Method": method, "X-Forwarded-Proto": "https", "X-Forwarded-Host": "www.example.com",
        "X-Forwarded-Uri": uri, "X-Forwarded-For": "198.51.100.1"})
    if not 200 <= answer.status < 300:
        return answer
    kept = {name: value for name, value in headers.items() if name not in COPIED}
    return {**kept, **{name: answer.one(name) for name in COPIED if answer.one(name) is not None}}


def test_traefik(service):
    with service() as running:
        refused = asked(running, Accept="text/html", Remote_User="mallory")
        assert (refused.status, refused.token) == (401, b"") and b"<h1>401 Unauthorized</h1>" in refused.body
        for method in ("GET", "POST", "DELETE"):
            passed = asked(running, method, Authorization=web.negotiate(web.token()), Remote_User="mallory")
            assert passed["Remote-User"] == "alice"
        assert asked(running, "OPTIONS").status == 401
        assert asked(running, Authorization=web.negotiate(web.token(realm=b"OTHER"))).status == 403
        # The client's path is only told: it asks for nothing of the service's own.
        assert asked(running, uri="/logout").status == 401
        out = running.ask(path="/logout")
        assert out.status == 200 and "Max-Age=0" in out.one("Set-Cookie")


def test_traefik_while_nobody_can_log_in(service):
    with service("false") as running:
        refused = asked(running, Accept="text/html", Authorization=web.negotiate(web.token()))
        assert (refused.status, refused.one("Retry-After")) == (503, "60") and b"just started" in refused.body
