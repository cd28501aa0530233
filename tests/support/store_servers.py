"""Stores for tests: files, and servers of Redis and PostgreSQL (Debian's redis-server and postgresql), each in a
folder of its own, on a socket there, with no port; and a proxy that delays what a server says.

They keep what they were told, also when they are killed, as docs/OPERATING.md configures it. `age` makes a store one
that has been in use for long: then there is no pause any more.
"""
import contextlib
import glob
import hashlib
import os
import pwd
import re
import shutil
import signal
import socket
import sqlite3
import subprocess
import tempfile
import threading
import time
from pathlib import Path

from fevstunik.stores import File, PostgreSQL, SQLite, _file

from support import TOP

# How long a server may take to start or to answer on a busy machine; and how old a store becomes by `age`.
SECONDS, AGE = 300, 1000


def statements():
    """The SQL of the document, which makes the database."""
    (found,) = re.findall(r"^ *```sql\n(.*?)^ *```$", (TOP / "docs/OPERATING.md").read_text(), re.S | re.M)
    return found.strip().splitlines()


def wait_for(is_so, what, process=None):
    last = time.monotonic() + SECONDS
    while not is_so():
        if time.monotonic() > last or (process and process.poll() is not None):
            raise OSError(what)
        time.sleep(0.02)


def said(words, **more):
    return subprocess.run([str(it) for it in words], capture_output=True, text=True, timeout=SECONDS, **more)


class InAFile:
    """A store in a file, and the name of a boot in another one."""

    def __init__(self, place=None):
        self.folder = Path(tempfile.mkdtemp(prefix=f"{self.name.lower()}-", dir=place))
        self.path, self.boot_file, self.boots = self.folder / "stamps", self.folder / "boot", 0
        # (for examples/shared.py)
        self.where = str(self.path)

    def start(self):
        self.boot()

    def boot(self):
        self.boots += 1
        self.boot_file.write_text(f"boot-{self.boots}\n")

    def opened(self):
        return self.kind(self.path, boot=self.boot_file.read_text().strip())

    def close(self):
        shutil.rmtree(self.folder)


class OfRecords(InAFile):
    """A File of fevstunik.stores."""
    name, kind = "File", File

    def age(self):
        path = self.opened().path
        what, made, *rest = _file._HEAD.unpack(path.read_bytes()[:_file._HEAD.size])
        with open(path, "r+b") as file:
            file.write(_file._HEAD.pack(what, made - AGE * 1_000_000, *rest))


class OfSQLite(InAFile):
    """An SQLite of fevstunik.stores."""
    name, kind = "SQLite", SQLite

    def __init__(self, place=None):
        super().__init__(place)
        # (for examples/service/service)
        self.where = self.in_c = f"sqlite:{self.path}"
        self.env = {"BOOT_FILE": str(self.boot_file)}

    def age(self):
        store = self.opened()
        with contextlib.closing(sqlite3.connect(store.path)) as base, base:
            base.execute("UPDATE store SET made = made - ?", (AGE * 1_000_000,))
        store.close()


class Server:
    """A process over a folder, which is removed at the end."""

    def __init__(self):
        self.folder, self.process = Path(tempfile.mkdtemp(prefix=f"{self.name.lower()}-")), None

    def signalled(self, number):
        self.process.send_signal(number)

    def kill(self):
        self.process.kill()
        self.process.wait()

    def close(self):
        if self.process and self.process.poll() is None:
            self.kill()
        shutil.rmtree(self.folder)


def lines_of_redis(first):
    """The lines of redis.conf of the document's block that begins with this word."""
    return re.search(rf"^```text\n({first} .*?)^```$", (TOP / "docs/OPERATING.md").read_text(), re.S | re.M)[1]


class Redis(Server):
    name = "Redis"

    def __init__(self):
        super().__init__()
        self.socket = self.folder / "redis.sock"
        self.where, self.in_c, self.env = f"unix://{self.socket}", f"redis:{self.socket}", {}

    def start(self, users="", wanted="PONG\n"):
        more = f'port 0\nunixsocket {self.socket}\ndir {self.folder}\nsave ""\n{users}'
        settings = lines_of_redis("appendonly") + more
        (self.folder / "redis.conf").write_text(settings)
        self.process = subprocess.Popen(["redis-server", self.folder / "redis.conf"], stdout=subprocess.DEVNULL,
                                        stderr=subprocess.DEVNULL)
        wait_for(lambda: self.said("ping").startswith(wanted), "redis-server doesn't answer", self.process)

    def start_with_user(self, password):
        """Starts it with the document's users. Nobody may do anything without a password, not even a ping."""
        self.start(lines_of_redis("user").replace("HASH", hashlib.sha256(password.encode()).hexdigest()), "NOAUTH")

    def wait_for_the_file(self):
        """Waits until the file is written, after `appendonly` was switched on: before, a server that is killed loses
        what it was given."""
        done = {"aof_rewrite_in_progress:0", "aof_rewrite_scheduled:0"}
        wait_for(lambda: done <= {*self.said("info", "persistence").split()}, "the file isn't written", self.process)

    def age(self):
        self.said("set", "fevstunik-store", f"{(int(time.time()) - AGE) * 1_000_000} 300")

    def said(self, *command, user=()):
        """What redis-cli prints of a command; the user is a name and a password."""
        login = ["--no-auth-warning", "--user", user[0], "--pass", user[1]] if user else []
        return said(["redis-cli", "-s", self.socket, *login, *command]).stdout


class Postgres(Server):
    """It refuses to run as root, so it then runs as the user postgres, whom the package makes. Instances are the user
    web of its own."""
    name = "PostgreSQL"

    def __init__(self):
        super().__init__()
        self.where = f"host={self.folder} dbname=web user=web"
        self.user, self.tools = {}, None

    def make(self):
        self.tools = Path(max(glob.glob("/usr/lib/postgresql/*/bin"), key=lambda it: float(it.split("/")[-2])))
        if os.geteuid() == 0:
            account = pwd.getpwnam("postgres")
            os.chown(self.folder, account.pw_uid, account.pw_gid)
            self.user = {"user": account.pw_uid, "group": account.pw_gid, "extra_groups": []}
        words = ["-D", self.folder / "data", "-A", "trust", "-U", "postgres", "-E", "UTF8", "--locale=C", "--no-sync"]
        made = said([self.tools / "initdb", *words], cwd=self.folder, **self.user)
        if made.returncode:
            raise OSError(made.stderr)

    def start(self, port=5432, **more):
        is_first = self.tools is None
        if is_first:
            self.make()
        settings = {"listen_addresses": "", "unix_socket_directories": self.folder, "shared_buffers": "16MB",
                    "fsync": "on", "synchronous_commit": "on", "port": port, **more}
        words = [self.tools / "postgres", "-D", self.folder / "data",
                 *(word for it in settings.items() for word in ("-c", "=".join(map(str, it))))]
        with open(self.folder / "log", "ab") as log:
            self.process = subprocess.Popen([str(it) for it in words], cwd=self.folder, stdout=log, stderr=log,
                                            **self.user)
        wait_for(lambda: said([self.tools / "pg_isready", "-q", "-h", self.folder, "-p", str(port)]).returncode == 0,
                 "postgres doesn't answer", self.process)
        if is_first:
            for it in statements():
                self.run(it, "postgres")

    def age(self):
        PostgreSQL(self.where).close()
        self.run(f"UPDATE fevstunik_store SET made = made - {AGE * 1_000_000}")

    def run(self, statement, database="web"):
        """What psql says of a statement."""
        ran = said([self.tools / "psql", "-h", self.folder, "-U", "postgres", "-v", "ON_ERROR_STOP=1", "-c", statement,
                    database])
        if ran.returncode:
            raise OSError(ran.stderr)
        return ran.stdout.strip()

    def signalled(self, number):
        """Signals each process that the server started, and the server, which is stopped before, so that it starts no
        more."""
        self.process.send_signal(signal.SIGSTOP)
        state = Path(f"/proc/{self.process.pid}/stat")
        wait_for(lambda: state.read_text().rpartition(")")[2].split()[0] in "TZ", "postgres doesn't stop")
        started = Path(f"/proc/{self.process.pid}/task/{self.process.pid}/children").read_text().split()
        for it in started:
            with contextlib.suppress(ProcessLookupError):
                os.kill(int(it), number)
        self.process.send_signal(number)
        return started

    def kill(self):
        started = self.signalled(signal.SIGKILL)
        self.process.wait()
        wait_for(lambda: not any(Path(f"/proc/{it}/exe").exists() for it in started), "a process of postgres goes on")


class Proxy:
    """Hands on what a server says: at once, or held back from `hold` on until `release`. What comes after `go_on` is
    handed on at once again, though what was held before stays so."""

    def __init__(self, server, folder):
        name = server.socket.name if server.name == "Redis" else ".s.PGSQL.5432"
        self.to, self.holds = str(server.folder / name), threading.Event()
        self.at_once = self.gate = threading.Event()
        self.at_once.set()
        self.where = server.where.replace(str(server.folder), str(folder))
        self.listening = socket.socket(socket.AF_UNIX)
        self.listening.bind(str(folder / name))
        self.listening.listen()
        threading.Thread(target=self.accept, daemon=True).start()

    def accept(self):
        while True:
            client, server = self.listening.accept()[0], socket.socket(socket.AF_UNIX)
            server.connect(self.to)
            for words in ((client, server, lambda: self.at_once), (server, client, lambda: self.gate)):
                threading.Thread(target=self.hand_on, args=words, daemon=True).start()

    def hold(self):
        self.holds.clear()
        self.gate = threading.Event()

    def go_on(self):
        """Waits until something is held, and hands on what comes from now on. Returns what releases what is held."""
        assert self.holds.wait(SECONDS), "the server says nothing"
        held, self.gate = self.gate, self.at_once
        return held.set

    def hand_on(self, source, to, gate):
        try:
            while data := source.recv(65536):
                passed = gate()
                if not passed.is_set():
                    self.holds.set()
                    passed.wait()
                to.sendall(data)
            to.shutdown(socket.SHUT_RDWR)
        except OSError:
            pass
