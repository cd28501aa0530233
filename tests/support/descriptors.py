"""What this process has open."""
import contextlib
import os


def open_below(folder):
    """The files of a folder that are open, and the folder itself. (What else is open may change meanwhile, by other
    threads, and as objects of earlier tests are freed.)"""
    found = []
    for it in os.listdir("/proc/self/fd"):
        with contextlib.suppress(OSError):
            found.append(os.readlink(f"/proc/self/fd/{it}"))
    return sorted(it for it in found if f"{it}/".startswith(f"{folder}/"))
