"""The crate of the library for C beside the table that its header is made of: structs, prototypes and lists.

The header, the codes and the tables of the Python package are made of crates/krb_c/interface.toml (tools/generate), which says itself if a
text is wrong. Each check is a pair: its name, and what is wrong, or None.
"""
import re
import subprocess
import sys
import tomllib

from support import TOP
from tools.generate.interface import TABLE, Interface

CRATE = TOP / "crates/krb_c"
HEADER = TOP / "include/fevstunik.h"
INTERFACE = Interface(tomllib.loads((TOP / TABLE).read_text()))
# What the handles are called in the crate.
HANDLES = {
    "ServiceHandle": "acceptor",
    "AcceptedHandle": "accepted",
    "Login": "login",
    "KeytabHandle": "keytab",
    "CacheHandle": "cache",
    "PendingHandle": "pending",
    "MessagesHandle": "messages",
}
# Functions that the header has whole.
INLINE = {"fevstunik_code_name", "fevstunik_code_text"}


def differs(found, wanted):
    return None if found == wanted else f"only here: {sorted(found - wanted)}, only there: {sorted(wanted - found)}"


def header_functions():
    """The functions that the header takes from the archive."""
    text = re.sub(r"/\*.*?\*/", "", HEADER.read_text(), flags=re.S)
    return set(re.findall(r"\b(fevstunik_\w+)\s*\(", text)) - INLINE


def header_codes():
    return {it.name: it.number for it in INTERFACE.codes if not it.hidden}


def documented():
    """The names of the codes that each function returns, for those that return one."""
    return {f"fevstunik_{it.name}": set(it.codes) for it in INTERFACE.functions if it.codes}


def reading():
    """The functions that take a struct as const."""
    return sorted(f"fevstunik_{it.name}" for it in INTERFACE.functions if any(kind.startswith("in ") for _, kind in it.parts))


def kerberos_codes():
    """The codes of RFC 4120 that stand beside those of the library."""
    return {it.name: it.kerberos for it in INTERFACE.codes if it.kerberos is not None}


def made():
    """The files that are made of tables are what they make."""
    ran = subprocess.run([sys.executable, "-m", "tools.generate", "--check"], cwd=TOP, capture_output=True, text=True)
    return ran.stderr.strip()[-500:] if ran.returncode else None


def lists():
    """The numbers of lists, of how repeats are refused across starts, and of what a store says, are the crate's."""
    table = {(one["name"].removeprefix("LIST_"), str(one["number"])) for it in INTERFACE.types if it.name in ("list", "restart", "said") for one in it.numbers}
    return differs(table, set(re.findall(r"^const (\w+): u32 = (\d+);", crate_text(), re.M)))


def crate_text():
    return "\n".join(path.read_text() for path in sorted((CRATE / "src").glob("*.rt")))


def snake(name):
    """The table's name of a type of the crate: key_entry for KeyEntry."""
    return re.sub(r"(?<=.)[A-Z]", lambda it: "_" + it[0], name).lower()


def structs():
    """The table's structs have the crate's fields, in their order."""
    form = r"#\[repr\(C\)\]\n#\[derive\(Clone, Copy\)\]\npub struct (\w+) \{\n(.*?)\n\}"
    of = lambda it: it if it.startswith("[") or it.islower() else snake(it)
    crate = {(snake(name), tuple((field, of(kind)) for field, kind in re.findall(r"^    pub (\w+): ([^,]+),$", body, re.M)))
             for name, body in re.findall(form, crate_text(), re.S)}
    return differs({(it.name, tuple((one.name, one.type) for one in it.fields)) for it in INTERFACE.structs}, crate)


def argument(name, of):
    """An argument of the crate as the table has it."""
    at = re.sub(r"^&(mut )?", "", of)
    if at == "[u8]":
        return f"{name}: {'buffer' if of.startswith('&mut ') else 'bytes'}"
    if at in HANDLES:
        return f"{name}: handle {HANDLES[at]}"
    how = "out " if of.startswith("&mut ") else "in " if of.startswith("&") else ""
    return f"{name}: {how}{at if at.islower() or at[0] != at[0].upper() else snake(at)}"


def prototypes():
    """The table's functions are the crate's exports: their arguments, in their order, and what they return."""
    crate = set()
    for name, words, result in re.findall(r'pub extern "C" fn fevstunik_(\w+)\((.*?)\)(?: -> (\w+))?\n', crate_text(), re.S):
        arguments = tuple(argument(one, of) for one, of in re.findall(r"(\w+): ([^,]+?)(?:,|\s*$)", words) if of != "Global")
        crate.add((name, arguments, snake(result) if result else "nothing"))
    return differs({(it.name, tuple(it.arguments), it.result) for it in INTERFACE.functions}, crate)


def header_checks():
    yield "what is made of tables is what they make", made()
    yield "the table's numbers are the crate's", lists()
    yield "the table's structs are the crate's", structs()
    yield "the table's functions are the crate's", prototypes()
