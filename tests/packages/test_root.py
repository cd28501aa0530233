"""The Debian packages in a fresh Debian root: they are installed there by apt, used from C, Python and the shell as a user does, tested by
autopkgtest, and removed. The root has only what compiles a program in C, the Python that the package needs, and what autopkgtest asks for."""
import re
import shutil

from support import packing
import pytest
from support.packing import ANSWERS, BUILDS, REQUEST, ROOT, wrong
from support.roots import this_release

pytestmark = [pytest.mark.packages, pytest.mark.root, pytest.mark.slow]
HAS = "apt-utils,dpkg-dev,gcc,libc6-dev,pkg-config,python3"
NAMES = ["fevstunik-doc", "krbtool", "libfevstunik-dev", "libfevstunik0", "python3-fevstunik"]


@pytest.fixture
def root(fresh, debs):
    """A fresh root, with the packages' files, a program and examples in its folder /home/work."""
    root = fresh(this_release(), HAS)
    for it in (*debs.values(), ROOT / "tests/c/installed.c", packing.KEYTAB, ROOT / "examples/mit-holes.keytab"):
        shutil.copy(it, root.work)
    (root.work / "accept.py").write_text(packing.FROM_PYTHON)
    return root


def installed(root):
    """By apt, from the files alone: what they depend on must be in the root, or be one of them."""
    ran = root.shell("apt-get install -y --no-install-recommends ./*.deb")
    assert ran.returncode == 0, wrong(ran)
    listed = root.run("dpkg-query", "-W", "-f", "${Package} ${db:Status-Abbrev}\n", *NAMES)
    assert listed.stdout == "".join(f"{name} ii \n" for name in NAMES), wrong(listed)


def test_removed_packages_leave_nothing(root):
    before = root.files()
    installed(root)
    assert root.run("dpkg", "--verify", *NAMES).stdout == ""
    assert len(root.files() - before) > 80
    removed = root.shell(f"apt-get remove -y {' '.join(NAMES)}")
    assert removed.returncode == 0, wrong(removed)
    assert sorted(root.files() ^ before) == []


def test_packages_in_use(root):
    installed(root)
    from_c(root)
    from_python(root)
    by_the_program(root)
    root.shell(f"apt-get remove -y {' '.join(NAMES)}")
    assert "libfevstunik.so.0" in root.shell("./shared a b c || true").stderr
    assert root.shell("./static a b || test $? = 2").returncode == 0


def from_c(root):
    words = "-std=c99 -Wall -Wextra -Werror installed.c"
    built = {"shared": f"cc {words} $(pkg-config --cflags --libs fevstunik) -o shared",
             "static": f"cc -static {words} $(pkg-config --static --cflags --libs fevstunik) -o static"}
    for name, command in built.items():
        ran = root.shell(command)
        assert ran.returncode == 0, wrong(ran)
        for service, answer in ANSWERS.items():
            assert root.shell(f"./{name} service.keytab {service} {REQUEST}").stdout == f"{answer}\n", (name, service)
    found = re.findall(r"libfevstunik\.so\.0 => (?:/usr)?(/\S+)/libfevstunik\.so\S+ ", root.shell("ldd shared").stdout)
    assert found and f"usr{found[0]}" in BUILDS.values()


def from_python(root):
    assert root.shell("python3 -c 'import fevstunik; print(fevstunik.version())'").stdout == "(0, 2, 0)\n"
    for service, answer in ANSWERS.items():
        assert root.shell(f"python3 accept.py service.keytab {service} {REQUEST}").stdout == f"{answer}\n"
    example = f"echo {REQUEST} | python3 /usr/share/doc/fevstunik/examples/serve.py service.keytab host/web@EX --first --at 1700000100"
    assert root.shell(example).stdout == "accepted alice@EX -\n"


def by_the_program(root):
    listed = root.shell("krbtool list-keytab mit-holes.keytab | cut -d' ' -f1,2,4").stdout
    name = "host/web.peer.test@PEER.TEST"
    assert listed == "".join(f"{kvno} {etype} {name}\n" for kvno in (2, 4) for etype in (20, 19))


def test_autopkgtest(root, debs, tmp_path):
    """All tests of debian/tests pass over the installed packages."""
    sources = packing.copied(tmp_path / "sources", built=False)
    names = re.findall(r"^Tests: (.*)$", (ROOT / "debian/tests/control").read_text(), re.M)
    words = ["autopkgtest", "--no-built-binaries", f"--output-dir={tmp_path}/said", *debs.values(), f"{sources}/", "--", "chroot", root.folder]
    ran = packing.run(*words, timeout=1700)
    results = dict(line.split()[:2] for line in (tmp_path / "said/summary").read_text().splitlines())
    assert results == {name: "PASS" for name in names} and ran.returncode == 0, wrong(ran)
