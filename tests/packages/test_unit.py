"""The sample units for systemd: they are valid, give the web service few rights, and the service runs by its command, with what they take
away."""
import re
import shlex
import socket
import subprocess

import pytest
from support.packing import KEYTAB, ROOT, run, well, wrong

pytestmark = pytest.mark.packages
UNIT = ROOT / "examples/negotiate/fevstunik-web.service"
SOCKET, CONFIG, SITE = UNIT.with_suffix(".socket"), UNIT.with_name("web.toml"), UNIT.with_name("nginx.conf")
# The exposure that `systemd-analyze security` may find, of 100 for a unit that says nothing.
EXPOSURE = 15
# Memory that is written is never run: what MemoryDenyWriteExecute=yes asks of the kernel (PR_SET_MDWE, Linux 6.3).
DENY_WRITE_EXECUTE = """import ctypes, os, sys
libc = ctypes.CDLL(None, use_errno=True)
if libc.prctl(65, 1, 0, 0, 0):
    sys.exit(os.strerror(ctypes.get_errno()))
os.execv(sys.argv[1], sys.argv[1:])
"""


def value(name, unit=UNIT):
    (found,) = re.findall(rf"^{name}=(.*)$", unit.read_text(), re.M)
    return found


def test_systemd_accepts_it():
    ran = run("systemd-analyze", "verify", UNIT, SOCKET)
    assert (ran.returncode, ran.stdout + ran.stderr) == (0, "")


def test_rights_are_few(tmp_path):
    ran = run("systemd-analyze", "security", "--offline=true", f"--threshold={EXPOSURE}", UNIT)
    assert ran.returncode == 0, wrong(ran)
    (tmp_path / UNIT.name).write_text("".join(it for it in UNIT.read_text().splitlines(True) if not it.startswith(("Protect", "Restrict", "System"))))
    without = run("systemd-analyze", "security", "--offline=true", f"--threshold={EXPOSURE}", tmp_path / UNIT.name)
    assert without.returncode != 0, "the threshold says nothing"


def test_the_proxy_asks_at_the_socket():
    asked = set(re.findall(r"http://unix:([^:]+):", SITE.read_text()))
    assert asked == {value("ListenStream", SOCKET)}


def test_the_configuration_names_what_systemd_hands_over():
    handed = set(re.findall(r"^LoadCredential=([^:]+):", UNIT.read_text(), re.M))
    assert handed == {CONFIG.name, re.search(r'^keytab = "(.*)"$', CONFIG.read_text(), re.M)[1]}
    assert value("ExecStart").endswith(f" --config ${{CREDENTIALS_DIRECTORY}}/{CONFIG.name}")
    assert f'\nstore = "/run/{value("RuntimeDirectory")}/' in CONFIG.read_text()


def test_the_key_of_sessions_can_be_handed_over():
    """The unit has the line, and web.toml and docs/WEB.md have the same name."""
    (named,) = re.findall(r"^#(LoadCredential=([^:]+):.*)$", UNIT.read_text(), re.M)
    assert re.search(r'^# key = .* "(.*)", if the unit hands it over$', CONFIG.read_text(), re.M)[1] == named[1]
    text = " ".join((ROOT / "docs/WEB.md").read_text().split())
    assert f"`{named[0]}`" in text and f'`key = "{named[1]}"`' in text and f"$CREDENTIALS_DIRECTORY/{named[1]}" in text
    assert f"/dev/urandom > {named[0].partition(':')[2]})" in text


@pytest.mark.parametrize("has_key", [False, True], ids=["plain", "with a key of sessions"])
def test_the_command_serves(unpacked, tmp_path, has_key):
    """With the keytab where systemd puts it, on the socket that systemd passes, and in memory that is never both written and run."""
    config = CONFIG.read_text().replace("HTTP/www.example.com@EXAMPLE.COM", "host/web@EX")
    (tmp_path / "store").mkdir(mode=0o700)
    (tmp_path / CONFIG.name).write_text(config.replace(f"/run/{value('RuntimeDirectory')}", str(tmp_path / "store"))
                                        + ('[sessions]\nkey = "session.key"\n' if has_key else ""))
    (tmp_path / "www.keytab").write_bytes(KEYTAB.read_bytes())
    if has_key:
        (tmp_path / "session.key").write_bytes(bytes(range(32)))
        # (as of a file of root's that has a list of access)
        (tmp_path / "session.key").chmod(0o440)
    words = shlex.split(value("ExecStart").replace("${CREDENTIALS_DIRECTORY}", str(tmp_path)))
    command = shlex.join(["/usr/bin/python3", "-c", DENY_WRITE_EXECUTE, *words])
    with socket.socket(socket.AF_UNIX) as listener:
        listener.bind(str(tmp_path / "socket"))
        listener.listen()
        script = f"exec 3<&{listener.fileno()}; LISTEN_FDS=1 LISTEN_PID=$$ exec {command}"
        environment = {**unpacked.environment(), "CREDENTIALS_DIRECTORY": str(tmp_path)}
        server = subprocess.Popen(["bash", "-c", script], env=environment, pass_fds=[listener.fileno()], stderr=subprocess.PIPE)
    try:
        with socket.socket(socket.AF_UNIX) as stream:
            stream.settimeout(300)
            stream.connect(str(tmp_path / "socket"))
            stream.sendall(b"GET / HTTP/1.1\r\nHost: web\r\nConnection: close\r\n\r\n")
            said = stream.makefile("rb").read()
        assert said.startswith(b"HTTP/1.1 401 ") and b"\r\nWWW-Authenticate: Negotiate\r\n" in said
    finally:
        server.terminate()
        server.wait()


def test_the_kernel_knows_what_is_asked_of_it():
    """Otherwise the test above would show less than it says."""
    script = "import mmap; mmap.mmap(-1, 4096, prot=mmap.PROT_READ | mmap.PROT_WRITE | mmap.PROT_EXEC)"
    ran = run("/usr/bin/python3", "-c", DENY_WRITE_EXECUTE, "/usr/bin/python3", "-c", script)
    assert ran.returncode != 0 and "Permission denied" in ran.stderr, ran.stderr
    assert well("/usr/bin/python3", "-c", DENY_WRITE_EXECUTE, "/usr/bin/python3", "-c", "print(1)") == "1\n"
