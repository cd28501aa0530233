"""Servers that serve the applications of tests/web/apps.py, and what is asked of them."""
import contextlib
import http.client
import json
import os
import socket
import sys

from support import TESTS, TOP, kdc, web
from support.web import Answer

# How long a client waits. The servers are told to wait as long for a process that gets no processor.
SECONDS = 300
GUNICORN = [sys.executable, "-m", "gunicorn", "--log-level", "warning", "--limit-request-field_size", "0", "--timeout",
            str(SECONDS)]
UWSGI = ["uwsgi", "--plugin", "python3", "--master", "--die-on-term", "--need-app", "--disable-logging",
         "--buffer-size", "65535", "--listen", "1024", "--socket-timeout", str(SECONDS)]
# The same for nginx.
PATIENCE = "\n    ".join(f"{it} {SECONDS}s;" for it in (
    "client_header_timeout", "client_body_timeout", "send_timeout", "keepalive_timeout", "proxy_connect_timeout",
    "proxy_send_timeout", "proxy_read_timeout", "uwsgi_connect_timeout", "uwsgi_send_timeout", "uwsgi_read_timeout"))
# nginx with TLS left out, in front of an application that has a port of its own.
NGINX = """
user root;
daemon off;
pid {folder}/nginx.pid;
error_log {folder}/nginx.log;
worker_processes 2;
events {{ worker_connections 2048; }}
http {{
    access_log off;
    client_body_temp_path {folder}/body;
    proxy_temp_path {folder}/proxy;
    fastcgi_temp_path {folder}/fastcgi;
    uwsgi_temp_path {folder}/uwsgi;
    scgi_temp_path {folder}/scgi;
    {patience}
    server {{
        listen 127.0.0.1:{port} backlog=1024;
{lines}
    }}
}}
"""
UVICORN = [sys.executable, "-m", "uvicorn", "--factory", "--log-level", "warning", "--no-access-log"]


class Server:
    """A running server, on a port or on a Unix socket. `front` is the command of a proxy before it, which then has the
    port."""

    def __init__(self, folder, command, port, socket_path=None, front=None, **terms):
        env = {**os.environ, "WEB_TERMS": json.dumps(terms, default=str),
               "PYTHONPATH": os.pathsep.join([str(TOP / "python"), str(TESTS / "web"), os.environ["PYTHONPATH"]])}
        self.port, self.path, self.log = port, socket_path, folder / "server.log"
        self.process = kdc.Process(command, self.log, env)
        self.front = kdc.Process(front, folder / "front.log", env) if front else None
        self.wait_for(self.port or self.path)

    def wait_for(self, place):
        """Waits for a port or a Unix socket, or stops it all."""
        try:
            (self.front if self.front and place == self.port else self.process).wait_for(place)
        except kdc.Trouble:
            self.__exit__()
            raise

    def __enter__(self):
        return self

    def __exit__(self, *_):
        for it in filter(None, (self.front, self.process)):
            it.stop()

    def ask(self, method="GET", path="/", token=None, headers=None, body=None):
        """The answer to one request, in a connection of its own."""
        more = {} if token is None else {"Authorization": web.negotiate(token)}
        connection = http.client.HTTPConnection("127.0.0.1", self.port, timeout=SECONDS)
        if self.path:
            connection.sock = socket.socket(socket.AF_UNIX)
            connection.sock.settimeout(SECONDS)
            connection.sock.connect(str(self.path))
        try:
            connection.request(method, path, body=body, headers={**more, **(headers or {})})
            answer = connection.getresponse()
            return Answer(answer.status, answer.getheaders(), answer.read())
        finally:
            connection.close()

    def raw(self, data):
        """All that is answered to these bytes."""
        with socket.create_connection(("127.0.0.1", self.port), timeout=SECONDS) as stream:
            stream.sendall(data)
            if not self.front:
                stream.shutdown(socket.SHUT_WR)
                with stream.makefile("rb") as answers:
                    return answers.read()
            # (nginx answers nobody who has shut down)
            return b"".join(self._until_silence(stream))

    @staticmethod
    def _until_silence(stream):
        with contextlib.suppress(TimeoutError):
            while part := stream.recv(65_536):
                yield part
                stream.settimeout(2)


def gunicorn(folder, app, *words, **terms):
    port = kdc.free_port()
    return Server(folder, [*GUNICORN, "--bind", f"127.0.0.1:{port}", *words, f"apps:{app}()"], port, **terms)


def uvicorn(folder, app, *words, **terms):
    port = kdc.free_port()
    return Server(folder, [*UVICORN, "--port", str(port), *words, f"apps:{app}"], port, **terms)


def nginx(folder, port, lines):
    """The command of nginx with these lines for its server."""
    (folder / "nginx.conf").write_text(NGINX.format(folder=folder, port=port, lines=lines, patience=PATIENCE))
    return ["/usr/sbin/nginx", "-p", folder, "-e", folder / "nginx.log", "-c", folder / "nginx.conf"]


def uwsgi(folder, app, *words, **terms):
    """Behind nginx, as docs/WEB.md has it."""
    port, inner = kdc.free_port(), folder / "uwsgi-socket"
    lines = f"""large_client_header_buffers 4 128k;
        location / {{ include /etc/nginx/uwsgi_params; uwsgi_pass unix:{inner}; }}"""
    command = [*UWSGI, "--socket", inner, *words, "--module", f"apps:{app}()"]
    server = Server(folder, command, port, front=nginx(folder, port, lines), **terms)
    server.wait_for(inner)
    return server


# The servers by name: how one is started.
KINDS = {
    "Flask, gunicorn": lambda folder, **terms: gunicorn(folder, "flask", "--workers", "4", **terms),
    "Flask, gunicorn, preloaded": lambda folder, **terms: gunicorn(
        folder, "flask", "--workers", "4", "--preload", "--worker-class", "gthread", "--threads", "8", **terms),
    "Django, gunicorn": lambda folder, **terms: gunicorn(folder, "django_wsgi", "--workers", "2", **terms),
    "Flask, uWSGI": lambda folder, **terms: uwsgi(folder, "flask", "--processes", "4", **terms),
    "plain, gunicorn": lambda folder, **terms: gunicorn(folder, "plain", "--workers", "2", **terms),
    "Starlette, uvicorn": lambda folder, **terms: uvicorn(folder, "starlette", "--workers", "2", **terms),
    "Django, uvicorn": lambda folder, **terms: uvicorn(folder, "django_asgi", **terms),
}
