"""Where a user's credential cache is, and how a ticket comes into it."""
from __future__ import annotations

import enum
import getpass
import glob
import os
import re
import shutil
import subprocess
from collections.abc import Callable, Iterator

from ._shown import fit_for_a_line

# What names the cache, the configuration's files, and the cache if nothing does (MIT krb5's defaults on Linux).
_VARIABLE, _CONFIG = "KRB5CCNAME", "KRB5_CONFIG"
_CONFIG_FILES, _DEFAULT = "/etc/krb5.conf", "FILE:/tmp/krb5cc_%{uid}"
# The types of caches that are files.
_FILE_TYPES = ("FILE", "WRFILE")
# In a folder of caches: the file that names the current one, and its name if that file isn't there.
_PRIMARY, _FIRST = "primary", "tkt"
# How deep files may include each other.
_DEEPEST = 10


class CacheTrouble(enum.Enum):
    """Why there is no credential cache, or no ticket in it.

    NO_FILE        the file of the cache isn't there
    UNREADABLE     the file, or the configuration that names it, can't be read
    OTHER_KIND     the cache isn't a file: it is in the kernel's keyring, in a server's or a process's memory
    BAD_LOCATION   the place of the cache isn't one that is understood
    NO_PATH        the cache was made from bytes, so no program can put a ticket into it
    BAD_SERVICE    the service's name isn't one that a ticket can be asked for
    NO_TOOL        neither kvno (MIT krb5) nor kgetcred (Heimdal) is installed
    TOOL_FAILED    the program that gets tickets ended with an error
    TIMED_OUT      it didn't end in time
    NO_TICKET      the cache has no ticket for the service that is still valid

    >>> from fevstunik import CacheTrouble
    >>> CacheTrouble("no_file")
    <CacheTrouble.NO_FILE: 'no_file'>
    """

    NO_FILE = "no_file"
    UNREADABLE = "unreadable"
    OTHER_KIND = "other_kind"
    BAD_LOCATION = "bad_location"
    NO_PATH = "no_path"
    BAD_SERVICE = "bad_service"
    NO_TOOL = "no_tool"
    TOOL_FAILED = "tool_failed"
    TIMED_OUT = "timed_out"
    NO_TICKET = "no_ticket"


class CacheError(Exception):
    """A credential cache can't be found, or a ticket doesn't come into it. Its text says what to do.

    trouble  why

    >>> from fevstunik import CacheError, CacheTrouble
    >>> str(CacheError(CacheTrouble.NO_FILE, "there is no credential cache at /tmp/none: run kinit"))
    'NO_FILE: there is no credential cache at /tmp/none: run kinit'
    """

    def __init__(self, trouble: CacheTrouble, text: str) -> None:
        super().__init__(trouble, text)
        self.trouble = trouble
        # what ends the text, if more is known where it is raised
        self.hint = ""

    def __str__(self) -> str:
        return f"{self.trouble.name}: {self.args[1]}{self.hint}"


def default_path() -> str:
    """The file of the user's credential cache: KRB5CCNAME says where it is, or default_ccache_name of krb5.conf."""
    named = os.environ.get(_VARIABLE)
    if named:
        return path_of(named, _VARIABLE)
    return path_of(_expanded(_configured() or _DEFAULT), "default_ccache_name of krb5.conf")


def path_of(location: str, source: str) -> str:
    """The file of a cache by its location, as ``FILE:/tmp/krb5cc_0``, ``DIR:/run/user/0/krb5cc`` or a path."""
    kind, colon, rest = location.partition(":")
    if not colon or "/" in kind:
        return location
    if kind in _FILE_TYPES and rest:
        return rest
    if kind == "DIR" and rest:
        return rest[1:] if rest.startswith(":") else _primary(rest)
    shown = fit_for_a_line(location)
    if kind in _ELSEWHERE:
        raise CacheError(CacheTrouble.OTHER_KIND, f"{source} is {shown}: {_ELSEWHERE[kind]}. Keep the tickets in a "
                                                  f"file: `export "
                         f"{_VARIABLE}=FILE:/tmp/krb5cc_{os.getuid()}`, then `kinit`; for all programs, set "
                         f"`default_ccache_name = "
                         f"{_DEFAULT}` in [libdefaults] of krb5.conf")
    raise CacheError(CacheTrouble.BAD_LOCATION, f"{source} is {shown}: name a file (FILE:/path), or a folder "
                                                f"(DIR:/path)")


_ELSEWHERE = {
    "KEYRING": "such a cache is in the kernel's keyring, which only the libraries of MIT krb5 read",
    "KCM": "such a cache is in the memory of a server (sssd-kcm or Heimdal's kcm), which only the Kerberos libraries "
           "ask",
    "MEMORY": "such a cache is in the memory of one process",
    "API": "such a cache is kept by the system's credential server, which only the Kerberos libraries ask",
    "SCC": "such a cache is a database of Heimdal",
}


def _primary(folder: str) -> str:
    """The current cache of a folder of caches."""
    try:
        with open(os.path.join(folder, _PRIMARY), encoding="utf-8", errors="surrogateescape") as file:
            name = file.readline().rstrip("\n")
    except FileNotFoundError:
        name = _FIRST
    except OSError as fault:
        shown = fit_for_a_line(folder)
        raise CacheError(CacheTrouble.UNREADABLE,
                         f"the folder of caches {shown} can't be read: {fault.strerror}") from fault
    if not name.startswith(_FIRST) or "/" in name:
        raise CacheError(CacheTrouble.BAD_LOCATION, f"the file `primary` in {fit_for_a_line(folder)} doesn't name a "
                                                    f"cache in that folder")
    return os.path.join(folder, name)


# ---- krb5.conf

def _configured() -> str | None:
    """The value of default_ccache_name. The first one counts, over all files."""
    for path in os.environ.get(_CONFIG, _CONFIG_FILES).split(":"):
        for section, line in _lines(path, _DEEPEST):
            value = re.match(r"default_ccache_name\s*=\s*(.*)", line)
            if value and section == "libdefaults":
                return value[1].strip().strip('"')
    return None


def _lines(path: str, deepest: int) -> Iterator[tuple[str, str]]:
    """The lines of a configuration file that aren't in braces, each with its section, and those of the files that it
    includes."""
    try:
        with open(path, encoding="utf-8", errors="surrogateescape") as file:
            lines = [it.strip() for it in file]
    except FileNotFoundError:
        return
    except OSError as fault:
        raise CacheError(CacheTrouble.UNREADABLE,
                         f"the file {fit_for_a_line(path)} can't be read: {fault.strerror}") from fault
    section, depth = "", 0
    for line in lines:
        word, _, operand = line.partition(" ")
        depth += line.endswith("{") - line.startswith("}")
        if word in ("include", "includedir") and deepest:
            for included in _included(word, operand.strip()):
                yield from _lines(included, deepest - 1)
        elif line.startswith("["):
            section, depth = line.strip("[]"), 0
        elif not depth:
            yield section, line


def _included(word: str, operand: str) -> list[str]:
    """The files that a line includes. In a folder these are those named by letters, digits, `-` and `_`, or ending in
    ``.conf``."""
    if word == "include":
        return [operand]
    paths = sorted(glob.glob(os.path.join(glob.escape(operand), "*")))
    return [it for it in paths if re.search(r"(^|/)([\w-]+|[^./][^/]*\.conf)$", it, re.A)]


def _expanded(value: str) -> str:
    """The value with the words in ``%{..}`` replaced."""
    words: dict[str, Callable[[], object]] = {
        "uid": os.getuid, "USERID": os.getuid, "euid": os.geteuid, "username": getpass.getuser, "null": str,
        "TEMP": lambda: os.environ.get("TMPDIR", "/tmp")}

    def word(found: re.Match[str]) -> str:
        if found[1] not in words:
            raise CacheError(CacheTrouble.BAD_LOCATION, f"default_ccache_name of krb5.conf has "
                                                        f"{fit_for_a_line(found[0])}, which isn't "
                             f"understood: set {_VARIABLE}")
        return str(words[found[1]]())
    return re.sub(r"%\{([^}]*)\}", word, value)


# ---- getting a ticket

def get_ticket(path: str, service: str, seconds: float) -> None:
    """Have kvno or kgetcred put a ticket for a service into the cache at a path."""
    tool, shown = shutil.which("kvno") or shutil.which("kgetcred"), fit_for_a_line(service)
    if tool is None:
        raise CacheError(CacheTrouble.NO_TOOL, f"the cache has no ticket for {shown}, and neither kvno (Debian's "
                                               f"krb5-user) nor kgetcred "
                         "(heimdal-clients) is installed to get one")
    environment = {**os.environ, _VARIABLE: f"FILE:{os.path.abspath(path)}"}
    try:
        ran = subprocess.run([tool, "--", service], env=environment, stdin=subprocess.DEVNULL, stdout=subprocess.PIPE,
                             stderr=subprocess.STDOUT, timeout=seconds, encoding="utf-8", errors="replace")
    except subprocess.TimeoutExpired:
        raise CacheError(CacheTrouble.TIMED_OUT, f"{tool} got no ticket for {shown} in {seconds:g} seconds") from None
    except OSError as fault:
        raise CacheError(CacheTrouble.NO_TOOL, f"{tool} can't be run: {fault.strerror}") from fault
    if ran.returncode:
        said = ran.stdout.strip().splitlines()[-1:] or [f"it ended with {ran.returncode}"]
        raise CacheError(CacheTrouble.TOOL_FAILED, f"{tool} got no ticket for {shown}: {fit_for_a_line(said[0])}")
