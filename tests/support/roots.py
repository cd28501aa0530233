"""Fresh Debian roots, which mmdebstrap makes, and commands in them."""
import os
import subprocess
from pathlib import Path

from support.packing import well

# What dpkg, apt and the loader keep for themselves, and where the tests work.
KEPT = ("var/lib/dpkg/", "var/lib/apt/", "var/cache/", "var/log/", "etc/ld.so.cache", "home/", "proc/", "sys/", "dev/", "tmp/", "root/")


def this_release():
    """The name of the Debian that runs here."""
    lines = [it.split("=", 1) for it in Path("/etc/os-release").read_text().splitlines() if "=" in it]
    return dict(lines)["VERSION_CODENAME"]


def archived(release, packages, folder):
    """Makes a root with these packages, in the folder's file root.tar."""
    folder.mkdir(parents=True)
    include = [f"--include={packages}"] if packages else []
    well("mmdebstrap", "--quiet", "--variant=apt", *include, "--dpkgopt=force-unsafe-io", release, folder / "root.tar")


class Root:
    """A fresh Debian, unpacked from its archive, with a folder /home/work."""

    def __init__(self, archive, folder):
        folder.mkdir(parents=True)
        well("tar", "-xf", archive, "-C", folder)
        self.folder, self.work = folder, folder / "home/work"
        self.work.mkdir()

    def run(self, *words):
        env = {"PATH": "/usr/sbin:/usr/bin:/sbin:/bin", "LC_ALL": "C.UTF-8", "DEBIAN_FRONTEND": "noninteractive", "HOME": "/root",
               "PYTHONDONTWRITEBYTECODE": "1"}
        return subprocess.run(["chroot", self.folder, *map(str, words)], capture_output=True, text=True, env=env, timeout=1200)

    def shell(self, script, *words):
        """Runs a script in /home/work."""
        return self.run("sh", "-ec", f"cd /home/work; {script}", "sh", *words)

    def files(self):
        """Each file, folder and link, but for what dpkg, apt and the loader keep."""
        found = set()
        for at, folders, names in os.walk(self.folder):
            below = os.path.relpath(at, self.folder)
            found |= {os.path.normpath(os.path.join(below, name)) for name in (*folders, *names)}
        return {it for it in found if not f"{it}/".startswith(KEPT)}
