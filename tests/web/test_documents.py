"""What docs/WEB.md shows is run: the applications by their commands, and each term is one of Negotiate."""
import inspect
import re
import shlex
from collections import Counter

import pytest

from fevstunik.web import Negotiate
from support import TOP, kdc, web, web_servers

pytestmark = [pytest.mark.packages, pytest.mark.slow, pytest.mark.xdist_group("web-documents")]
TEXT = (TOP / "docs/WEB.md").read_text()
# What lets a server wait for a process that gets no processor.
PATIENT = {"gunicorn": ["--timeout", str(web_servers.SECONDS)]}


def page(title, *kinds):
    """What a page shows of some kinds."""
    text = re.search(rf"^## {title}\n(.*?)(?=^## )", TEXT, re.S | re.M)[1]
    return [re.search(rf"^```{kind}\n(.*?)^```$", text, re.S | re.M)[1] for kind in kinds]


def write_app(folder, keytab, title):
    """Writes the page's program. The paths and the name are the tests'; the keys are new, so nobody waits."""
    program, = page(title, "python")
    assert len([it for it in program.splitlines() if "egotiate" in it]) == 3
    (folder / "run").mkdir(mode=0o700)
    for old, new in (("/etc/web/www.keytab", str(keytab)), ("HTTP/www.example.com@EXAMPLE.COM", web.NAME),
                     ('store="/run/web/stamps"', f'store="{folder}/run/stamps", first_life=True')):
        assert old in program
        program = program.replace(old, new)
    (folder / "app.py").write_text(program)


def greets(server, greeting):
    assert server.ask().status == 401
    answer = server.ask(token=web.token())
    assert (answer.status, answer.body) == (200, greeting) and answer.token


@pytest.mark.parametrize("title, greeting", [("gunicorn", b"hello alice@EX\n"), ("uvicorn", b"hello alice@EX\n")])
def test_from_nothing_to_a_login(tmp_path, monkeypatch, keytab, title, greeting):
    write_app(tmp_path, keytab, title)
    command, = page(title, "sh")
    port = kdc.free_port()
    words = [*shlex.split(command.replace("8000", str(port))), *PATIENT.get(title, [])]
    monkeypatch.chdir(tmp_path)
    with web_servers.Server(tmp_path, ["/usr/bin/python3", "-m", *words], port) as server:
        greets(server, greeting)


def test_uwsgi(tmp_path, monkeypatch, keytab):
    """Behind nginx, with the lines of the page."""
    write_app(tmp_path, keytab, "gunicorn")
    command, lines = page("uWSGI", "sh", "nginx")
    assert "/run/web-socket/" in command and "/run/web-socket/" in lines
    here, port = tmp_path / "web-socket", kdc.free_port()
    here.mkdir()
    front = web_servers.nginx(tmp_path, port, lines.replace("/run/web-socket", str(here)).replace(
        "include uwsgi_params", "include /etc/nginx/uwsgi_params"))
    monkeypatch.chdir(tmp_path)
    words = [*shlex.split(command.replace("/run/web-socket", str(here))), "--die-on-term"]
    with web_servers.Server(tmp_path, words, port, front=front) as server:
        server.wait_for(here / "uwsgi")
        assert (here / "uwsgi").stat().st_mode & 0o777 == 0o660
        greets(server, b"hello alice@EX\n")
        assert server.ask(token=web.token(size=44_000)).status == 200


def test_the_service_over_several_processes(tmp_path, monkeypatch, keytab):
    """Which share a store: each token is good once, over all of them and over a restart."""
    command = re.search(r"^gunicorn [^`]* unix:/run/fevstunik-web/socket [^`]*\n(?=```)", TEXT, re.M)[0]
    command = command.replace("\\\n", "")
    (tmp_path / "run").mkdir(mode=0o700)
    (tmp_path / "web.toml").write_text(f'keytab = "{keytab}"\nservice = "{web.NAME}"\nfirst_life = true\n'
                                       f'store = "{tmp_path}/run/stamps"\n')
    words = shlex.split(command.replace("/run/fevstunik-web", str(tmp_path)).replace("/etc/fevstunik", str(tmp_path)))
    words += PATIENT["gunicorn"]
    monkeypatch.chdir(tmp_path)
    tokens, let_in = [web.token() for _ in range(10)], Counter()
    in_time = set(tokens)
    for _ in range(2):
        with web_servers.Server(tmp_path, ["/usr/bin/python3", "-m", *words], None, tmp_path / "socket") as server:
            asked = [(it, server.ask(token=it)) for _ in range(4) for it in tokens]
            assert {it.status for _, it in asked} <= {200, 401, 503}
            assert all(it.one("Remote-User") == "alice@EX" and it.token for _, it in asked if it.status == 200)
            let_in.update(it for it, answer in asked if answer.status == 200)
            # (the store has two seconds: a worker that gets no processor for so long lets nobody in)
            in_time -= {it for it, answer in asked if answer.status == 503}
            assert in_time and in_time <= set(let_in) and set(let_in.values()) == {1}
            assert 200 in (server.ask(token=web.token()).status for _ in range(5))


def test_terms():
    named = re.findall(r"^\| (`.*?) \|", TEXT, re.M)
    listed = {it for row in named for it in re.findall(r"`(\w+)`", row)}
    assert set(inspect.signature(Negotiate).parameters) <= listed
