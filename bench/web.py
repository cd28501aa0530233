#!/usr/bin/python3
"""Times web logins by fevstunik.web beside Apache's mod_auth_gssapi, and prints a table: logins a second, and processor
time for one.

    bench/web.py [WORD..]       servers whose names have one of these words, or all
      --write                   writes the tables of all servers into bench/README.md, and those of 1,000 users into
                                docs/WEB.md

Each server has four workers, and answers a page to who has logged in. In each round all get the same tokens, in turn:
each has a new authenticator, of one user or of 1,000 users with a ticket each. A program in C sends them
(bench/web_load.c). The servers log who was let in. Needs a C compiler and Debian's packages apache2,
libapache2-mod-auth-gssapi, uwsgi, uwsgi-plugin-python3, gunicorn, nginx and python3-gssapi (so run it by
/usr/bin/python3, as ./test does). It takes one or two minutes, once the library is proved and built. Nothing here is a
test: it asserts nothing but that each login is let in.
"""
import argparse
import base64
import contextlib
import itertools
import os
import shutil
import statistics
import subprocess
import sys
import tempfile
import time
from pathlib import Path

import builds
from builds import HERE, TOP

import exchange
import written
from support import kdc

SERVICE = "host/web0.example.test@EXAMPLE.TEST"
WORKERS, LOGINS, ROUNDS, USERS = 4, 1_500, 5, (1, 1_000)
# How the connections are used, and how many there are at once.
WAYS = {"a connection for each login": (0, 16), "connections that stay": (1, WORKERS)}
APP = '''
import logging
from fevstunik.web import LogFile, Negotiate
logging.basicConfig(handlers=[LogFile({log!r})], level=logging.INFO)

def page(environ, start_response):
    start_response("200 OK", [("Content-Type", "text/plain"), ("Content-Length", "6")])
    return [b"hello\\n"]

negotiate = Negotiate(keytab={keytab!r}, service={service!r}, first_life=True, store={store!r})
application = negotiate.wsgi(page)
'''
APACHE = '''
ServerRoot {folder}
ServerName web0.example.test
PidFile {folder}/pid
Listen 127.0.0.1:{port}
ErrorLog {folder}/error.log
LogFormat "%h %l %u %t \\"%r\\" %>s %O" common
CustomLog {folder}/access.log common
LoadModule mpm_{mpm}_module {modules}/mod_mpm_{mpm}.so
LoadModule authn_core_module {modules}/mod_authn_core.so
LoadModule authz_core_module {modules}/mod_authz_core.so
LoadModule authz_user_module {modules}/mod_authz_user.so
LoadModule auth_gssapi_module {modules}/mod_auth_gssapi.so
ServerLimit {workers}
StartServers {workers}
MaxConnectionsPerChild 0
MaxKeepAliveRequests 0
KeepAliveTimeout 30
{sizes}
DocumentRoot {folder}/pages
<Location />
    AuthType GSSAPI
    GssapiCredStore keytab:{folder}/keytab
    Require valid-user
</Location>
'''
SIZES = {"prefork": f"MinSpareServers {WORKERS}\nMaxSpareServers {WORKERS}\nMaxRequestWorkers {WORKERS}",
         "event": f"ThreadsPerChild 25\nMaxRequestWorkers {25 * WORKERS}\nMinSpareThreads 25\nMaxSpareThreads "
                  f"{25 * WORKERS}"}
NGINX = '''
daemon off;
pid {folder}/nginx.pid;
error_log {folder}/error.log;
worker_processes {workers};
events {{ }}
http {{
    access_log off;
    client_body_temp_path {folder}/body;
    proxy_temp_path {folder}/proxy;
    fastcgi_temp_path {folder}/fastcgi;
    uwsgi_temp_path {folder}/uwsgi;
    scgi_temp_path {folder}/scgi;
    keepalive_requests 100000;
    server {{
        listen 127.0.0.1:{port};
        large_client_header_buffers 4 128k;
        location / {{
            include /etc/nginx/uwsgi_params;
            uwsgi_pass unix:{run}/socket;
        }}
    }}
}}
'''
IS_ROOT = os.geteuid() == 0
OTHER = "www-data"
# A file system in memory, as /run is on most machines: what remembers requests is there.
MEMORY = "/dev/shm"


def other_words(user, group):
    """How root starts a server as another user."""
    return [user, OTHER, group, OTHER] if IS_ROOT else []


def given_away(path):
    if IS_ROOT:
        shutil.chown(path, OTHER)


class Server:
    """A running server, on a port of its own, in a folder of its own."""

    def __init__(self, folder, memory, name, kind):
        self.folder, self.port = folder / name.replace(" ", "-"), kdc.free_port()
        self.run = memory / self.folder.name
        self.processes = []
        self._lay_out(folder / "keytab")
        env = {**os.environ, "KRB5RCACHEDIR": str(self.run), "PYTHONPATH": str(TOP / "python")}
        commands, more = kind(self)
        for number, command in enumerate(commands):
            # (each in a session of its own: Apache ends all processes of its own, and the kernel shares the processors
            # between sessions)
            self.processes.append(kdc.Process(["setsid", *command], self.folder / f"out{number}", {**env, **more}))
        try:
            self.processes[-1].wait_for(self.port)
        except kdc.Trouble as trouble:
            self.stop()
            sys.exit(f"{name}: {trouble}")

    def _lay_out(self, keytab):
        for it in (self.folder, self.folder / "pages", self.run):
            it.mkdir()
        self.run.chmod(0o700)
        shutil.copy(keytab, self.folder / "keytab")
        (self.folder / "pages/page").write_text("hello\n")
        for it in (self.folder, self.run, self.folder / "keytab"):
            given_away(it)

    def write_app(self, has_store):
        """Writes the application to app.py."""
        store = str(self.run / "stamps") if has_store else None
        (self.folder / "app.py").write_text(APP.format(log=str(self.run / "log"), keytab=str(self.folder / "keytab"),
                                                       service=SERVICE, store=store))

    def processor_time(self):
        """What the server's processes have used, in seconds."""
        return sum(used(pid) for it in self.processes for pid in descendants(it.process.pid))

    def stop(self):
        for it in self.processes:
            it.stop()


def descendants(pid):
    children = Path(f"/proc/{pid}/task/{pid}/children").read_text().split()
    return [pid, *(it for child in children for it in descendants(int(child)))]


def used(pid):
    return sum(int(it.read_text().split()[0]) for it in Path(f"/proc/{pid}/task").glob("*/schedstat")) / 1e9


def apache(mpm, **env):
    def kind(server):
        text = APACHE.format(folder=server.folder, port=server.port, modules="/usr/lib/apache2/modules", mpm=mpm,
                             workers=WORKERS, sizes=SIZES[mpm])
        (server.folder / "apache.conf").write_text(text + (f"User {OTHER}\nGroup {OTHER}\n" if IS_ROOT else ""))
        return [["/usr/sbin/apache2", "-f", server.folder / "apache.conf", "-DFOREGROUND"]], env
    return kind


def uwsgi_command(server, *listening):
    return ["uwsgi", "--plugin", "python3", "--master", "--die-on-term", "--processes", WORKERS, *listening,
            "--buffer-size", 65535, "--listen", 1024,
            "--disable-logging", "--need-app", "--chdir", server.folder, "--wsgi-file", "app.py",
            *other_words("--uid", "--gid")]


def uwsgi(has_store):
    """By itself."""
    def kind(server):
        server.write_app(has_store)
        return [uwsgi_command(server, "--http11-socket", f"127.0.0.1:{server.port}")], {}
    return kind


def nginx_uwsgi(has_store):
    """Behind nginx, over a Unix socket."""
    def kind(server):
        server.write_app(has_store)
        words = {"folder": server.folder, "run": server.run, "port": server.port, "workers": WORKERS}
        (server.folder / "nginx.conf").write_text((f"user {OTHER};" if IS_ROOT else "") + NGINX.format(**words))
        return [uwsgi_command(server, "--socket", server.run / "socket"),
                ["/usr/sbin/nginx", "-p", server.folder, "-e", server.folder / "error.log", "-c",
                 server.folder / "nginx.conf"]], {}
    return kind


def gunicorn(has_store):
    def kind(server):
        server.write_app(has_store)
        return [[sys.executable, "-m", "gunicorn", "--workers", WORKERS, "--bind", f"127.0.0.1:{server.port}",
                 "--chdir", server.folder,
                 "--limit-request-field_size", 0, *other_words("--user", "--group"), "app:application"]], {}
    return kind


# The first is what the others are compared with.
SERVERS = {
    "Apache event, mod_auth_gssapi, its replay cache": apache("event"),
    "Apache prefork, mod_auth_gssapi, its replay cache": apache("prefork"),
    "Apache event, mod_auth_gssapi, no replay cache": apache("event", KRB5RCACHENAME="none:"),
    "uWSGI, fevstunik.web, a file": uwsgi(True),
    "uWSGI, fevstunik.web, no store": uwsgi(False),
    "nginx and uWSGI, fevstunik.web, a file": nginx_uwsgi(True),
    "gunicorn, fevstunik.web, a file": gunicorn(True),
}


def library():
    """The library that the variable FEVSTUNIK_LIBRARY names, or the built one that the loader would take here."""
    if "FEVSTUNIK_LIBRARY" in os.environ:
        return os.environ["FEVSTUNIK_LIBRARY"]
    kind = builds.supported()[-1]
    subprocess.run(["make", "-s", f"build/{kind}/libfevstunik.a"], cwd=TOP, check=True)
    path, = (TOP / "build" / kind).glob("libfevstunik.so.*")
    return str(path)


def write_caches(folder, users):
    """The keytab, and a credential cache for each user."""
    now = int(time.time()) - 60
    (folder / "keytab").write_bytes(exchange.keytab(20, 1))
    for index in range(users):
        session = {20: index.to_bytes(32, "big")}
        (folder / f"cache{index}").write_bytes(exchange.cache(20, now, 0, b"user%d" % index, session))


class Tokens:
    """Makes tokens as MIT krb5 makes them for a browser, of some users in turn."""

    def __init__(self, folder, users):
        import gssapi
        self._gssapi = gssapi
        self._name = gssapi.Name(SERVICE, gssapi.NameType.kerberos_principal)
        self._mechanism = gssapi.OID.from_int_seq("1.3.6.1.5.5.2")
        self._held = [gssapi.Credentials(usage="initiate", store={"ccache": f"FILE:{folder}/cache{index}"})
                      for index in range(users)]

    def made(self, count):
        return [self._one(self._held[index % len(self._held)]) for index in range(count)]

    def _one(self, credentials):
        context = self._gssapi.SecurityContext(name=self._name, creds=credentials, mech=self._mechanism,
                                               usage="initiate",
                                               flags=[self._gssapi.RequirementFlag.mutual_authentication])
        return base64.b64encode(context.step())


def run(program, server, way, tokens):
    """The logins in a second, and the processor time of one in microseconds."""
    reused, width = WAYS[way]
    before = server.processor_time()
    ran = subprocess.run([program, str(server.port), str(width), str(reused), str(len(tokens))],
                         input=b"\n".join(tokens) + b"\n", capture_output=True)
    if ran.returncode:
        sys.exit(f"{ran.stderr.decode()}: see {server.folder}")
    let_in, seconds = ran.stdout.split()
    if int(let_in) != len(tokens):
        sys.exit(f"{int(let_in)} of {len(tokens)} logins were let in: see {server.folder}")
    return len(tokens) / float(seconds), (server.processor_time() - before) / len(tokens) * 1e6


def rounds(program, servers, way, tokens):
    """What each server did in each round, by its name."""
    found = {name: [] for name in servers}
    for _ in range(ROUNDS):
        given = tokens.made(LOGINS)
        for name, server in servers.items():
            found[name].append(run(program, server, way, given))
    return found


def median_of(pairs, at):
    return statistics.median(it[at] for it in pairs)


def shown(ratios):
    return f"{statistics.median(ratios):.2f} ({min(ratios):.2f} to {max(ratios):.2f})"


def table_of(title, found):
    """Each row has the ratios of its rounds to those of the first server, which is Apache's alone."""
    first = next(iter(found))
    rows = [f"| {title} | logins a second | beside the first row | processor time for one "
            "| the first row's beside it |", "|---|---|---|---|---|"]
    for name, pairs in found.items():
        faster = [ours / theirs for (ours, _), (theirs, _) in zip(pairs, found[first])]
        less = [theirs / ours for (_, ours), (_, theirs) in zip(pairs, found[first])]
        rows.append(f"| {name} | {median_of(pairs, 0):,.0f} | {shown(faster)} | {median_of(pairs, 1):,.0f} µs | "
                    f"{shown(less)} |")
    return "\n".join(rows)


def overview(found):
    """The table of docs/WEB.md: `found` has what the servers did, by the way in which connections are used."""
    rows = [f"| | {' | '.join(WAYS)} | processor time for one |", f"|---|{'---|' * len(WAYS)}---|"]
    for name in next(iter(found.values())):
        rates = [f"{median_of(it[name], 0):,.0f} a second" for it in found.values()]
        times = sorted(median_of(it[name], 1) for it in found.values())
        rows.append(f"| {name} | {' | '.join(rates)} | {times[0]:,.0f} to {times[-1]:,.0f} µs |")
    return "\n".join(rows)


def write(found):
    """Writes what was found, by the number of users and the way, into the documents."""
    tables = "\n\n".join(table_of(title_of(*it), what) for it, what in found.items())
    written.replaced(TOP / "bench/README.md", "web logins", f"{written.setting(True)}\n\n{tables}")
    many = {way: what for (users, way), what in found.items() if users == max(USERS)}
    written.replaced(TOP / "docs/WEB.md", "speed", overview(many))


def title_of(users, way):
    return f"{'one user' if users == 1 else f'{users:,} users'}, {way}"


def main():
    parser = argparse.ArgumentParser()
    parser.add_argument("words", nargs="*")
    parser.add_argument("--write", action="store_true")
    given = parser.parse_args()
    if given.write and given.words:
        parser.error("only the tables of all servers are written")
    os.environ["FEVSTUNIK_LIBRARY"] = library()
    chosen = {name: kind for name, kind in SERVERS.items() if not given.words or any(it in name for it in given.words)}
    with contextlib.ExitStack() as stack:
        folder, memory = (Path(stack.enter_context(tempfile.TemporaryDirectory(dir=it))) for it in (None, MEMORY))
        for it in (folder, memory):
            it.chmod(0o755)
        os.environ["KRB5_CONFIG"] = str(folder / "krb5.conf")
        (folder / "krb5.conf").write_text("[libdefaults]\n default_realm = EXAMPLE.TEST\n dns_canonicalize_hostname = "
                                          "false\n")
        write_caches(folder, max(USERS))
        subprocess.run(["cc", "-O2", "-D_GNU_SOURCE", HERE / "web_load.c", "-o", folder / "web_load"], check=True)
        servers = {}
        for server, kind in chosen.items():
            servers[server] = Server(folder, memory, server, kind)
            stack.callback(servers[server].stop)
        print(f"{WORKERS} workers, {ROUNDS} rounds of {LOGINS:,} logins; the machine's load is "
              f"{os.getloadavg()[0]:.1f} on {os.cpu_count()} processors")
        found = {}
        for it in itertools.product(USERS, WAYS):
            users, way = it
            found[it] = rounds(folder / "web_load", servers, way, Tokens(folder, users))
            print(f"\n{table_of(title_of(*it), found[it])}", flush=True)
    if given.write:
        write(found)


if __name__ == "__main__":
    main()
