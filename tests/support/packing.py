"""The packages and what `make install` puts into a folder: how they are made, and how compilers, the loader and Python find them there."""
import os
import re
import shutil
import subprocess
from pathlib import Path

ROOT = Path(__file__).resolve().parents[2]
VERSION = "0.2.0"
LIBDIR = "usr/lib/x86_64-linux-gnu"
# The folder of each build of the shared library: the loader takes the last one that its processor runs.
BUILDS = {"x86-64": LIBDIR, **{cpu: f"{LIBDIR}/glibc-hwcaps/{cpu}" for cpu in ("x86-64-v2", "x86-64-v3")}}
IN_PYTHON = "usr/lib/python3/dist-packages"
KEYTAB = ROOT / "examples/service.keytab"
# A request to the service of this keytab at the second 1700000101, in hexadecimal digits.
REQUEST = (ROOT / "examples/calls.txt").read_text().split()[2]
# What a program that accepts it answers, by the service that it is asked for. (From Python a code has no prefix.)
ANSWERS = {"host/web@EX": "alice@EX", "host/mail@EX": "FEVSTUNIK_NOT_US"}

FROM_PYTHON = """import sys, fevstunik
service = fevstunik.Acceptor(fevstunik.Keytab.read(sys.argv[1]), sys.argv[2], first_life=True)
try:
    print(service.accept(bytes.fromhex(sys.argv[3]), now=1_700_000_100).client)
except fevstunik.Refused as refused:
    print("FEVSTUNIK_" + refused.cause.name)
"""


# The commands that packing takes. Rattle's isn't among them: whatever has to be proved and built again fails there.
WITHOUT_RATTLE = {**os.environ, "PATH": "/usr/sbin:/usr/bin:/sbin:/bin"}


def run(*words, **more):
    return subprocess.run([str(it) for it in words], capture_output=True, text=True, cwd=more.pop("cwd", ROOT), **more)


def wrong(ran):
    """What a command that ended ill said."""
    return None if ran.returncode == 0 else f"status {ran.returncode}: {(ran.stdout + ran.stderr)[-1500:]}"


def well(*words, **more):
    """What a command prints, which has to end well."""
    ran = run(*words, **more)
    assert ran.returncode == 0, f"{' '.join(map(str, words))}: {wrong(ran)}"
    return ran.stdout


def files_below(room):
    """The files and links below a folder, as they are named from there."""
    return {str(it.relative_to(room)) for it in room.rglob("*") if not it.is_dir() or it.is_symlink()}


def tracked(*folders):
    """The files of the repository, also those that git doesn't have yet."""
    names = run("git", "ls-files", "--cached", "--others", "--exclude-standard", *folders).stdout.splitlines()
    return {it for it in names if (ROOT / it).is_file()}


def header_functions():
    return set(re.findall(r"^[a-z_0-9]+ \*?(fevstunik_\w+)\(", (ROOT / "include/fevstunik.h").read_text(), re.M))


# What `make install` installs. These have another place under each LIBDIR, the others under each PREFIX.
LIBRARIES = {
    "libfevstunik.a", "libfevstunik.so", "libfevstunik.so.0", f"libfevstunik.so.{VERSION}", "pkgconfig/fevstunik.pc",
    *(f"glibc-hwcaps/{cpu}/{name}" for cpu in ("x86-64-v2", "x86-64-v3") for name in ("libfevstunik.so.0", f"libfevstunik.so.{VERSION}")),
}
DOCUMENTS = {it for it in tracked() if re.fullmatch(r"docs/\w+\.md|(bench|tests)/README\.md|[A-Z]+\.md|examples/.*", it)}
OTHERS = {
    "bin/krbtool", "include/fevstunik.h", "share/man/man1/krbtool.1", "share/man/man3/fevstunik.3",
    "share/bash-completion/completions/krbtool", "share/zsh/site-functions/_krbtool",
    *(f"share/doc/fevstunik/{it}" for it in {*DOCUMENTS, "NOTICES"}),
}


class Installed:
    """A folder that has the library as it is installed, and is no root: all that uses it is given the folder."""

    def __init__(self, root):
        self.root, self.libraries = root, root / LIBDIR

    def environment(self, **more):
        """In which pkg-config finds the library in this folder and no other one, the loader finds it, and Python the package."""
        known = {it: value for it, value in os.environ.items() if it != "FEVSTUNIK_LIBRARY"}
        return {**known, "PKG_CONFIG_LIBDIR": f"{self.libraries}/pkgconfig", "PKG_CONFIG_SYSROOT_DIR": str(self.root),
                "LD_LIBRARY_PATH": str(self.libraries), "PYTHONPATH": str(self.root / IN_PYTHON), "PYTHONDONTWRITEBYTECODE": "1", **more}

    def run(self, *words, **more):
        return run(*words, env=self.environment(), **more)

    def flags(self, *words):
        """What pkg-config says of the library."""
        return self.run("pkg-config", *words, "fevstunik").stdout.split()

    def compiled(self, source, program, *words, static=False):
        """Compiles a program in C over the library, the shared one unless it is to be the static one."""
        strict = ["-std=c99", "-O1", "-Wall", "-Wextra", "-Werror"]
        kind = ["--static"] if static else []
        return self.run("gcc", *strict, *words, *(["-static"] if static else []), source, *self.flags(*kind, "--cflags", "--libs"), "-o", program)

    def answers(self, *program):
        """What a program answers to the request, by the service that it is asked for."""
        return {service: self.run(*program, KEYTAB, service, REQUEST).stdout.strip() for service in ANSWERS}


def of_tests(folder, names):
    """What tests keep in the folder of what is built: it isn't packed, and changes while they run."""
    kept = ("pytest", "heimdal", "pictures", ".lock", "tmp")
    return [it for it in names if it.startswith(kept)] if Path(folder) == ROOT / "build" else []


def copied(room, built=True):
    """A copy of the repository, with what was built unless it is to be left out: packing there leaves no file here."""
    for name in tracked():
        (room / name).parent.mkdir(parents=True, exist_ok=True)
        shutil.copy2(ROOT / name, room / name)
    if built:
        shutil.copytree(ROOT / "build", room / "build", symlinks=True, ignore=of_tests)
    return room


def packed(room):
    """Makes the Debian packages in this folder, from a copy in its folder `source`; gives the run and their files."""
    copied(room / "source")
    # (-nc: what is built stays, and nothing is proved)
    ran = run("dpkg-buildpackage", "-b", "-nc", "-us", "-uc", cwd=room / "source", env=WITHOUT_RATTLE)
    return ran, sorted(room.glob("*.deb"))


def unpacked(packages, root):
    """The packages' files, in a folder that they can be used from."""
    root.mkdir(parents=True, exist_ok=True)
    for it in packages:
        subprocess.run(["dpkg-deb", "-x", it, root], check=True)
    return Installed(root)
