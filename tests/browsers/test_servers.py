"""Each client at each server that docs/WEB.md has a page for: it logs in, has the service's answer checked if it asks
for that, follows a redirect, and stays logged in by its session."""
import contextlib
import functools
import sys

import pytest

from support import TESTS, TOP, kdc, web_nginx, web_servers
from support.browsers import BROWSERS
from support.web_realm import ADDRESS, ALICE, PYTHON, REALM, SECONDS, SERVICE

pytestmark = [pytest.mark.packages, pytest.mark.slow, pytest.mark.xdist_group("browsers")]
NGINX = "nginx, auth_request"
SERVERS = [*web_servers.KINDS, NGINX]
CONFIG = """
keytab = "www.keytab"
service = "{service}"
first_life = true
users = {{ realms = {{ "{realm}" = "{{user}}@{{realm}}" }} }}
sessions = {{}}
"""


class At:
    """Where a server is, and what is read there: `hello` by who has logged in, and `how` if a page says how."""

    def __init__(self, url, hello, inside, how):
        self.url, self.hello, self.inside, self.how = url, hello, inside, how


def started(stack, world, folder, kind):
    keytab = world.realm.folder / "www.keytab"
    if kind != NGINX:
        terms = {"service": f"{SERVICE}@{REALM}", "first_life": True, "store": str(folder / "stamps"),
                 "sessions": {"key": str(folder / "key"), "secure": False}}
        server = stack.enter_context(web_servers.KINDS[kind](folder, keytab=keytab, **terms))
        return At(f"http://localhost:{server.port}/", ALICE, "inside", "how")
    (folder / "www.keytab").write_bytes(keytab.read_bytes())
    (folder / "web.toml").write_text(CONFIG.format(service=f"{SERVICE}@{REALM}", realm=REALM))
    command = [sys.executable, "-m", "fevstunik.web", "--config", folder / "web.toml", "--socket", folder / "socket"]
    stack.enter_context(web_servers.Server(folder, command, None, folder / "socket"))
    site = web_nginx.Nginx(folder)
    stack.callback(site.process.stop)
    return At(f"https://localhost:{site.port}/", f"user '{ALICE}', token ''", "302", None)


@pytest.fixture(scope="module")
def servers(world, library, tmp_path_factory):
    """Gives the server of a name, which is started once."""
    with contextlib.ExitStack() as stack:
        patch = stack.enter_context(pytest.MonkeyPatch.context())
        patch.setenv("FEVSTUNIK_LIBRARY", str(library))
        patch.setenv("PYTHONPATH", str(TOP / "python"))

        @functools.cache
        def start(kind):
            folder = tmp_path_factory.mktemp("server")
            folder.chmod(0o700)
            return started(stack, world, folder, kind)
        yield start


@pytest.fixture(params=SERVERS)
def at(request, servers):
    return servers(request.param)


def ran(world, *command):
    env = {**world.env(), "PYTHONPATH": str(TOP / "python"), "FEVSTUNIK_LIBRARY": str(world.library)}
    return kdc.ran(command, seconds=SECONDS, env=env)


def by_curl(world, at, tmp_path, version):
    words = ["curl", "-sSkL", version, "-b", tmp_path / "jar", "-c", tmp_path / "jar"]
    login = ["--negotiate", "-u", ":"]
    assert ran(world, *words, *login, at.url).strip() == at.hello
    # The jar has the session's cookie.
    assert ran(world, *words, at.url + at.inside).strip() == at.hello
    if at.how:
        assert ran(world, *words, at.url + at.how) == "session"
    (tmp_path / "jar").unlink()
    assert ran(world, *words, *login, at.url + at.inside).strip() == at.hello


def test_curl(world, at, tmp_path):
    by_curl(world, at, tmp_path, "--http1.1")


@pytest.mark.parametrize("at", [NGINX], indirect=True)
def test_curl_over_http_2(world, at, tmp_path):
    by_curl(world, at, tmp_path, "--http2")


# Asks for three pages in a session, the last without a login. The service has to prove who it is.
PROGRAMS = """
import sys, warnings
import httpx, requests, requests_kerberos
from fevstunik import CredentialCache
from fevstunik.clients import httpx as for_httpx, requests as for_requests
CredentialCache.fetch.__kwdefaults__["seconds"] = 300
kind, *urls = sys.argv[1:]
warnings.simplefilter("ignore")
if kind == "httpx":
    session = httpx.Client(auth=for_httpx.Negotiate(), verify=False, trust_env=False, follow_redirects=True,
                           timeout=300)
else:
    session = requests.Session()
    session.verify = session.trust_env = False
    session.auth = (for_requests.Negotiate() if kind == "requests" else
                    requests_kerberos.HTTPKerberosAuth(mutual_authentication=requests_kerberos.REQUIRED))
for number, url in enumerate(urls, 1):
    if number == len(urls):
        session.auth = None
    answer = session.get(url)
    print(answer.status_code, answer.text.strip())
"""


@pytest.mark.parametrize("kind", ["requests-kerberos", "requests", "httpx"])
def test_programs(world, at, kind):
    said = ran(world, PYTHON, "-B", "-c", PROGRAMS, kind, at.url, at.url + at.inside, at.url + (at.how or ""))
    assert said.splitlines() == [f"200 {at.hello}"] * 2 + ["200 session" if at.how else f"200 {at.hello}"]


@pytest.fixture(scope="module")
def java(world):
    kdc.ran(["javac", "-d", world.folder / "java", TESTS / "peers/web/Client.java"])
    return ["java", "-XX:TieredStopAtLevel=1", f"-Djava.security.krb5.conf={world.realm.folder}/default.conf",
            "-Djavax.security.auth.useSubjectCredsOnly=false", "-cp", world.folder / "java", "Client"]


@pytest.mark.parametrize("at", web_servers.KINDS, indirect=True)
def test_java(world, at, java):
    """(It doesn't trust nginx's certificate.)"""
    for page in ("", at.inside):
        assert ran(world, *java, at.url + page).strip() == f"200 {at.hello}"


@pytest.fixture(scope="module")
def browser_of(world):
    """Gives the browser of a name, which is started once and logs in at localhost."""
    env = {name: world.env()[name] for name in ("KRB5_CONFIG", "KRB5CCNAME")}
    with contextlib.ExitStack() as stack:
        yield functools.cache(lambda name: stack.enter_context(
            BROWSERS[name](world.folder / f"{name}-at-servers", ["localhost"], env)))


@pytest.mark.parametrize("name", BROWSERS)
def test_browsers(browser_of, at, name):
    browser = browser_of(name)
    assert browser.page_with(at.url, at.hello) == at.hello
    assert browser.page(at.url + at.inside) == (at.url, at.hello)
    if at.how:
        assert browser.page(at.url + at.how)[1] == "session"
        # At a host that it isn't set to log in to, it shows why.
        assert "This site needs a Kerberos login." in browser.page(at.url.replace("localhost", ADDRESS))[1]
