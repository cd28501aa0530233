"""The wheel for pip: what it has, the platform that its name promises, and that a login works with it in fresh environments of Debian's
versions of Python, in roots that don't have the library."""
import csv
import hashlib
import base64
import re
import shutil
import zipfile

from support import packing
import pytest
from support.packing import BUILDS, ROOT, VERSION, WITHOUT_RATTLE, run, tracked, well, wrong

INFO = f"fevstunik-{VERSION}.dist-info"
LIBRARIES = {"x86-64": "fevstunik/lib", **{it: f"fevstunik/lib/glibc-hwcaps/{it}" for it in BUILDS if it != "x86-64"}}
# The releases of Debian in whose roots it is installed, each with its version of Python.
RELEASES = {"bookworm": (3, 11), "trixie": (3, 13)}

LOGIN = """import sys
import fevstunik
from fevstunik import Acceptor, CredentialCache, Keytab, Refused, make_request
cache, service = CredentialCache.read(sys.argv[2]), Acceptor(Keytab.read(sys.argv[1]), "host/web@EX", first_life=True)
request, pending = make_request(cache, "host/web@EX", now=1_700_000_100)
accepted = service.accept(request, now=1_700_000_100)
print(sys.version_info[:2], fevstunik.version(), accepted.client, pending.finish(accepted.reply()).client)
try:
    service.accept(request, now=1_700_000_100)
except Refused as refused:
    print(refused.cause.name)
print(*sorted({line.split()[-1] for line in open("/proc/self/maps") if "libfevstunik" in line}))
"""


def logged_in(version):
    return f"{version} (0, 2, 0) alice@EX alice@EX\nREPEAT\n"


def contents(wheel):
    with zipfile.ZipFile(wheel) as archive:
        return {it.filename: archive.read(it) for it in archive.infolist()}


@pytest.fixture(scope="session")
def libraries(wheel, once):
    """The wheel's files, in a folder."""
    return once("wheel-files", lambda at: zipfile.ZipFile(wheel).extractall(at))


def test_name(wheel):
    assert wheel.name == f"fevstunik-{VERSION}-py3-none-manylinux_2_17_x86_64.manylinux2014_x86_64.whl"


def test_contents(wheel, built):
    files = contents(wheel)
    python = {it.removeprefix("python/") for it in tracked("python/fevstunik")}
    native = {f"{it}/libfevstunik.so.0" for it in LIBRARIES.values()} | {"fevstunik/lib/libfevstunik.so"}
    assert set(files) == python | native | {f"{INFO}/{it}" for it in ("METADATA", "NOTICES", "RECORD", "WHEEL")}
    assert files[f"{INFO}/NOTICES"] == (built / "NOTICES").read_bytes()
    for cpu, folder in LIBRARIES.items():
        assert files[f"{folder}/libfevstunik.so.0"] == (built / cpu / f"libfevstunik.so.{VERSION}").read_bytes()


def test_record_has_each_files_checksum(wheel):
    files = contents(wheel)
    rows = {name: (digest, size) for name, digest, size in csv.reader(files[f"{INFO}/RECORD"].decode().splitlines())}
    digest = lambda data: "sha256=" + base64.urlsafe_b64encode(hashlib.sha256(data).digest()).decode().rstrip("=")
    assert rows.pop(f"{INFO}/RECORD") == ("", "")
    assert rows == {name: (digest(data), str(len(data))) for name, data in files.items() if name != f"{INFO}/RECORD"}


def test_tags_in_it_are_those_of_its_name(wheel):
    rows = [it.split(": ", 1) for it in contents(wheel)[f"{INFO}/WHEEL"].decode().splitlines()]
    assert ["Root-Is-Purelib", "false"] in rows
    assert {value for name, value in rows if name == "Tag"} == {f"py3-none-{it}" for it in wheel.stem.split("-")[-1].split(".")}


def test_platform_is_what_the_libraries_need(libraries):
    """As auditwheel has it: no symbol of a newer glibc, no library but those of the platform, no path that leads out of the wheel, and no code
    of a newer processor but where only the loader takes it."""
    for path in sorted(libraries.rglob("*.so*")):
        assert {int(it) for it in re.findall(r"GLIBC_2\.(\d+)", well("objdump", "-T", path))} <= set(range(18)), path
        assert set(re.findall(r"GLIBC(?:XX|CXX|_ABI)\w*", well("readelf", "-VW", path))) <= {"GLIBC_ABI"}, path
        dynamic = well("readelf", "-dW", path)
        needed, paths = re.findall(r"NEEDED.*\[(.*)\]", dynamic), re.findall(r"(?:RPATH|RUNPATH|Library rpath).*\[(.*)\]", dynamic)
        is_entry = path.name == "libfevstunik.so"
        assert (needed, paths) == ((["libfevstunik.so.0"], ["$ORIGIN"]) if is_entry else (["libc.so.6"], [])), path
        assert "RWE" not in well("readelf", "-lW", path)


def test_the_same_bytes_again(wheel, built, tmp_path):
    room = packing.copied(tmp_path / "copy")
    script = "umask 077; touch python/fevstunik/*; exec make wheel"
    well("sh", "-c", script, cwd=room, env={"PATH": "/usr/bin:/bin", "TZ": "Pacific/Apia"})
    (again,) = (room / "build").glob("*.whl")
    assert (again.name, again.read_bytes()) == (wheel.name, wheel.read_bytes())


def test_source_date_epoch_is_taken(built, tmp_path):
    room = packing.copied(tmp_path / "copy")
    well("make", "wheel", cwd=room, env={**WITHOUT_RATTLE, "SOURCE_DATE_EPOCH": "1700000000"})
    (made,) = (room / "build").glob("*.whl")
    assert {it.date_time for it in zipfile.ZipFile(made).infolist()} == {(2023, 11, 14, 22, 13, 20)}


def test_a_library_that_needs_a_newer_glibc_changes_the_name(built, tmp_path):
    room = packing.copied(tmp_path / "copy")
    (tmp_path / "newer.c").write_text('#include <sys/random.h>\nint newer(void) { char byte; return (int)getrandom(&byte, 1, 0); }\n')
    well("gcc", "-shared", "-fPIC", tmp_path / "newer.c", "-o", room / f"build/x86-64-v3/libfevstunik.so.{VERSION}")
    well("make", "wheel", cwd=room, env=WITHOUT_RATTLE)
    assert [it.name for it in (room / "build").glob("*.whl")] == [f"fevstunik-{VERSION}-py3-none-manylinux_2_25_x86_64.whl"]


def test_a_library_that_needs_more_than_glibc_is_refused(built, tmp_path):
    room = packing.copied(tmp_path / "copy")
    library = room / f"build/x86-64/libfevstunik.so.{VERSION}"
    well("sh", "-c", 'echo "int more(void) { return 0; }" | gcc -shared -fPIC -x c - -Wl,--no-as-needed -lm -o "$1"', "sh", library)
    ran = run("make", "wheel", cwd=room, env=WITHOUT_RATTLE)
    assert ran.returncode != 0 and "libm.so.6" in ran.stderr, wrong(ran)


@pytest.mark.parametrize("cpu, build", {"qemu64": "x86-64", "Nehalem": "x86-64-v2", "Haswell": "x86-64-v3"}.items())
@pytest.mark.packages
def test_the_loader_takes_the_build_for_the_processor(libraries, cpu, build):
    script = f"import ctypes; ctypes.CDLL({str(libraries / 'fevstunik/lib/libfevstunik.so')!r}); print(open('/proc/self/maps').read())"
    ran = well("qemu-x86_64", "-cpu", cpu, "/usr/bin/python3", "-c", script, env={"PATH": "/usr/bin:/bin"})
    assert set(re.findall(r"/(fevstunik/lib/\S*libfevstunik\.so\.0)$", ran, re.M)) == {f"{LIBRARIES[build]}/libfevstunik.so.0"}


def test_its_own_library_goes_before_others_that_are_installed(libraries, staged, tmp_path):
    words = ["/usr/bin/python3", "-c", LOGIN, packing.KEYTAB, ROOT / "examples/client.ccache"]
    said = well(*words, env={"PATH": "/usr/bin:/bin", "LD_LIBRARY_PATH": str(staged.libraries), "PYTHONPATH": str(libraries)})
    loaded = said.splitlines()[-1].split()
    assert len(loaded) == 2 and all(it.startswith(f"{libraries}/fevstunik/lib/") for it in loaded)


@pytest.mark.packages
def test_login_in_a_fresh_environment(wheel, tmp_path):
    well("/usr/bin/python3", "-m", "venv", tmp_path / "venv")
    well(tmp_path / "venv/bin/pip", "install", "--no-index", wheel)
    words = [tmp_path / "venv/bin/python", "-c", LOGIN, packing.KEYTAB, ROOT / "examples/client.ccache"]
    said = well(*words, cwd=tmp_path, env={"PATH": "/usr/bin:/bin"})
    assert said.startswith(logged_in(RELEASES["bookworm"]))
    assert all(it.startswith(f"{tmp_path}/venv/lib/") for it in said.splitlines()[-1].split())
    well(tmp_path / "venv/bin/pip", "uninstall", "-y", "fevstunik")
    assert [it for it in (tmp_path / "venv").rglob("*fevstunik*")] == []


@pytest.mark.parametrize("release", RELEASES)
@pytest.mark.packages
@pytest.mark.root
@pytest.mark.slow
def test_login_in_a_root_without_the_library(wheel, fresh, release):
    root = fresh(release, "python3-venv")
    assert list(root.folder.rglob("libfevstunik*")) == []
    for it in (wheel, packing.KEYTAB, ROOT / "examples/client.ccache"):
        shutil.copy(it, root.work)
    (root.work / "login.py").write_text(LOGIN)
    made = root.shell("python3 -m venv venv; venv/bin/pip install --no-index ./*.whl")
    assert made.returncode == 0, wrong(made)
    said = root.shell("venv/bin/python login.py service.keytab client.ccache")
    assert said.stdout.startswith(logged_in(RELEASES[release])), wrong(said)
