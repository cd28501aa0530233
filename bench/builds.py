"""The library for C and krbtool, as they are timed: as `make` left them in build/, or else built. Whoever imports this
first finds the package for Python, and what the tests share."""
import os
import subprocess
import sys
from pathlib import Path

HERE = Path(__file__).resolve().parent
TOP = HERE.parent
sys.path += [str(TOP), str(TOP / "tests"), str(TOP / "python")]
# The builds for each kind of processor, the newest last.
KINDS = ("x86-64", "x86-64-v2", "x86-64-v3")
LOADER = "/lib64/ld-linux-x86-64.so.2"
# The variables with which krbtool takes its build for every x86-64: the C library then says that the processor lacks an
# extension.
OLDEST = {"GLIBC_TUNABLES": "glibc.cpu.hwcaps=-SSSE3"}


def said(*command, **more):
    """What a command that ends well prints."""
    done = subprocess.run([str(word) for word in command], capture_output=True, text=True, **more)
    if done.returncode:
        sys.exit(f"{' '.join(map(str, command))} ended with {done.returncode}: {(done.stdout + done.stderr)[-2000:]}")
    return done.stdout


def supported():
    """The builds that this processor can run, by the dynamic loader, which takes the last of them if the library is
    installed."""
    searched = said(LOADER, "--help")
    return [KINDS[0], *(cpu for cpu in KINDS[1:] if f"  {cpu} (supported, searched)" in searched)]


def made_folder():
    """The folder in which `make` leaves what it builds; FEVSTUNIK_BUILD names another."""
    return Path(os.environ.get("FEVSTUNIK_BUILD", TOP / "build"))


def archive_of(folder, cpu):
    """The path of the static library for this kind of processor: as `make` left it, or built in this folder."""
    made = made_folder() / cpu / "libfevstunik.a"
    path = made if made.exists() else folder / cpu / "libfevstunik.a"
    if not path.exists():
        said(TOP / "packaging/build-library", cpu, folder / cpu, said(TOP / "packaging/version").strip())
    return path
