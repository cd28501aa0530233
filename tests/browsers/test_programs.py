"""Programs at web services: curl over HTTP/1.1 and HTTP/2, requests with requests-kerberos, and ours for requests and
httpx. The latter get their tickets from the KDC by kvno."""
import base64
import contextlib
import os
import re
import sys

import pytest

from support import TOP, http_service, kdc
from support.web_realm import ADDRESS, ALICE, PYTHON, SECONDS, leading

pytestmark = [pytest.mark.packages, pytest.mark.slow, pytest.mark.xdist_group("browsers")]
HELLO = f"hello {ALICE}\n"

NGINX = """
user root;
daemon off;
worker_processes 1;
pid {folder}/nginx.pid;
error_log {folder}/nginx.log;
events {{ }}
http {{
    access_log off;
    client_body_temp_path {folder}/nginx-body;
    proxy_temp_path {folder}/nginx-proxy;
    fastcgi_temp_path {folder}/nginx-fastcgi;
    uwsgi_temp_path {folder}/nginx-uwsgi;
    scgi_temp_path {folder}/nginx-scgi;
    server {{
        listen 127.0.0.1:{port} ssl http2;
        ssl_certificate {certificate};
        ssl_certificate_key {certificate};
        location / {{ proxy_pass http://127.0.0.1:{service}; }}
    }}
}}
"""


@pytest.fixture(scope="module")
def certificate(tmp_path_factory):
    return http_service.certificate(tmp_path_factory.mktemp("certificate"))


@pytest.fixture(scope="module")
def front(world, certificate, tmp_path_factory):
    """The URL of the service behind nginx with TLS and HTTP/2."""
    folder, port = tmp_path_factory.mktemp("front"), kdc.free_port()
    (folder / "nginx.conf").write_text(NGINX.format(folder=folder, port=port, certificate=certificate,
                                                    service=world["web"].port))
    with contextlib.ExitStack() as stack:
        process = kdc.Process(["/usr/sbin/nginx", "-p", folder, "-e", folder / "nginx.log", "-c",
                               folder / "nginx.conf"], folder / "nginx.out", os.environ)
        stack.callback(process.stop)
        process.wait_for(port)
        yield f"https://localhost:{port}/"


@pytest.mark.parametrize("version, first", [("--http1.1", "HTTP/1.1 200 OK"), ("--http2", "HTTP/2 200")])
def test_curl(world, front, certificate, version, first):
    said = kdc.ran(["curl", "-sS", "-i", version, "--cacert", certificate, "--negotiate", "-u", ":", "-L",
                    leading(front, front)], seconds=SECONDS, env=world.env())
    head, _, page = said.replace("\r", "").rpartition("\n\n")
    last = head.rpartition("\n\n")[2]
    answer = re.search(r"^www-authenticate: Negotiate (\S+)$", last, re.M | re.I)
    assert last.splitlines()[0].strip() == first and page == HELLO and base64.b64decode(answer[1])


REQUESTS_KERBEROS = """
import sys
import requests
from requests_kerberos import HTTPKerberosAuth, REQUIRED
session = requests.Session()
session.auth, session.trust_env = HTTPKerberosAuth(mutual_authentication=REQUIRED), False
for url in sys.argv[1:]:
    answer = session.get(url)
    print(answer.status_code, answer.text, end="")
"""


def test_requests_kerberos(world):
    """It checks the proof of who the service is. After a redirect it sends its token again, and then a new one."""
    here = world["web"].url
    said = kdc.ran([PYTHON, "-B", "-c", REQUESTS_KERBEROS, here, here, leading(here, here, "inside")],
                   seconds=SECONDS, env=world.env())
    assert said == f"200 {HELLO}" * 3
    said = kdc.ran([PYTHON, "-B", "-c", REQUESTS_KERBEROS, world["with a wrong clock"].url], seconds=SECONDS,
                   env=world.env())
    assert said.startswith("401 ")


# Each URL is asked for, and the page or the error is printed.
OURS = """
import asyncio, sys
import httpx, requests
from fevstunik import CredentialCache
from fevstunik.clients import LoginError, httpx as for_httpx, requests as for_requests
# (httpx waits for 5 seconds by default, and this package for a ticket 30)
CredentialCache.fetch.__kwdefaults__["seconds"] = 300
kind, certificate, *urls = sys.argv[1:]
words = {"verify": certificate, "trust_env": False, "follow_redirects": True, "timeout": 300}

def show(answer):
    print(answer.status_code, answer.text, end="")

def by_requests():
    session = requests.Session()
    session.auth, session.verify, session.trust_env = for_requests.Negotiate(), certificate, False
    for url in urls:
        show(session.get(url))

def by_httpx():
    with httpx.Client(auth=for_httpx.Negotiate(), **words) as session:
        for url in urls:
            show(session.get(url))

async def in_coroutines():
    async with httpx.AsyncClient(auth=for_httpx.Negotiate(), **words) as session:
        for url in urls:
            show(await session.get(url))

try:
    {"requests": by_requests, "httpx": by_httpx, "coroutines": lambda: asyncio.run(in_coroutines())}[kind]()
except LoginError as error:
    print(error)
"""


class Ours:
    """Our client of a kind, with a new cache that has a ticket for the KDC alone."""

    def __init__(self, world, certificate, kind):
        self.world, self.certificate, self.kind = world, certificate, kind
        self.cache = f"only-{kind}"
        world.realm.cache(self.cache, "default", [])

    def ask(self, *urls):
        env = {**self.world.env(self.cache), "PYTHONPATH": str(TOP / "python"),
               "FEVSTUNIK_LIBRARY": str(self.world.library)}
        return kdc.ran([sys.executable, "-B", "-c", OURS, self.kind, self.certificate, *urls], seconds=SECONDS, env=env)


@pytest.fixture(params=["requests", "httpx", "coroutines"])
def ours(world, certificate, request):
    return Ours(world, certificate, request.param)


def test_ours(world, front, ours):
    here = world["web"].url
    there = here.replace("localhost", ADDRESS)
    urls = [here, here, front, leading(here, front), f"{here}inside", leading(front, f"{front}inside")]
    assert ours.ask(*urls, world["sessions"].url, world["sessions"].url) == f"200 {HELLO}" * (len(urls) + 2)
    assert ours.ask(leading(here, leading(there, here), "inside")) == f"200 {HELLO}"


@pytest.mark.parametrize("service, said", [
    ("with a wrong clock", "REFUSED: .*KRB_AP_ERR_SKEW; its clock is 3[56].. seconds ahead"),
    ("with another key", "REFUSED: .*KRB_AP_ERR_BAD_INTEGRITY"),
    ("of another realm", "NOT_PROVED: .*answered with status 403 and sent no proof")])
def test_ours_is_refused(world, ours, service, said):
    found = ours.ask(world[service].url)
    assert re.match(said, found), found


def test_ours_without_a_ticket(world, ours):
    """A user who hasn't logged in to the realm reads what to do."""
    ours.cache = "nobody"
    found = ours.ask(world["web"].url)
    assert found.startswith("NO_TICKET: there is no token for http://localhost:") and "run `kinit`" in found
