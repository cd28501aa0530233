"""Counts what a reader must believe for each promise as a whole.

That is the contracts that state it, and the definitions that they are written in. The table stands in docs/PROOFS.md.
The words of a contract are looked up in the crates' specs/, and so are the words of each definition that was found,
until nothing is new. Words of the standard library, and types of the sources (`declared`), aren't counted. Neither are
lines without code.
"""
import re
from dataclasses import dataclass
from functools import lru_cache

from . import ROOT, layout

DOCUMENT = "docs/PROOFS.md"
SEALING = [
    "krb_enc/key::new", "krb_enc/key::bytes", "krb_enc/key::seal", "krb_enc/key::open",
    "krb_enc/laws::sealed_text_opens",
]
ACCEPT, MAKE, FINISH = "krb_ap/acceptor::accept", "krb_ap/request::make_request", "krb_ap/finish::finish"
# (a new service stands for the empty history)
NEW = ["krb_ap/acceptor::new", "krb_ap/acceptor::started"]
ONCE = ["krb_ap/laws::no_stamp_twice", "krb_ap/acceptor::serve", "krb_ap/laws::no_stamp_twice_in_a_life"]
# (these make the world's events of calls)
REPLIES = ["krb_ap/reply::reply", "krb_ap/errors::error_reply"]
SETTLES = [
    "krb_ap/accepted::tuple", "krb_replay/tuple::to_bytes", "krb_login/question::settle",
    "krb_login/laws::let_in_by_a_store",
]
LOGIN = ["krb_login/service::answer", "krb_login/laws::only_by_right", "krb_login/laws::answers_that"]
# The promises, and the functions whose contracts state them: laws, and calls of the library.
PROMISES = [
    ("Each layer meets its definition: sealing", SEALING),
    ("Acceptance is sound", [ACCEPT, *NEW, "krb_ap/laws::one_answer", *ONCE]),
    ("A good request gets in", [ACCEPT, MAKE, "krb_ap/laws::built_is_accepted"]),
    ("Both sides agree", [ACCEPT, FINISH, "krb_ap/laws::both_agree", MAKE, *NEW, *REPLIES]),
    ("A shared store lets in once", [ACCEPT, "krb_ap/laws::a_store_lets_in_once", *SETTLES]),
    ("A login in one call", LOGIN),
]
WORD = re.compile(r"[^\W\d]\w*'*(?:◌\w+◌)?|◌[^\s◌]+◌")
USE = re.compile(r"^[ \t]*(?:ghost |pub )*use Rattle\.([\w.]+)\.\{(.*?)\}", re.M | re.S)
START = re.compile(r"\s*(?:(?:abbrev|unfoldable|pub|record|data) )*([^\W\d]\w*'*|◌\S+◌)(?= :| \(| \{)")
DATA = re.compile(r"\s*(?:\w+ )*data ")
NESTING = re.compile(r"\s*(?:module _ .*where|(?:abbrev )?mutual)$")
COMMENT = re.compile(r"^[ \t]*(?:--|//).*$", re.M)


@dataclass(frozen=True)
class Definition:
    path: str
    first: int
    lines: tuple[str, ...]

    @property
    def words(self):
        return set(WORD.findall("\n".join(self.lines)))

    @property
    def size(self):
        return sum(bool(line.strip()) for line in self.lines)


@lru_cache(maxsize=None)
def text_of(path):
    return COMMENT.sub("", (ROOT / path).read_text())  # (a comment leaves an empty line)


@lru_cache(maxsize=None)
def imported(path):
    """The words that a file takes from others: the module and the name there, by the word."""
    found = {}
    for module, names in USE.findall(text_of(path)):
        for name in filter(None, (it.strip() for it in names.split(","))):
            there, _, here = name.partition(" as ")
            found[here or there] = module, there
    return found


def path_of(module):
    """The file of a module of definitions; None for one of the standard library or of the types of the sources."""
    parts = module.split(".")
    if "specs" not in parts or "declared" in parts or not (ROOT / "crates" / parts[0]).is_dir():
        return None
    return f"crates/{parts[0]}/specs/{'/'.join(parts[2:])}.antt"


def starts(lines):
    """Where definitions begin, and their names. Those of a nameless module or a mutual block are indented."""
    base = 0
    for at, line in enumerate(lines):
        indent = len(line) - len(line.lstrip())
        if not line.strip() or indent > base:
            continue
        base = indent
        if NESTING.match(line):
            base += 2
        elif found := START.match(line):
            yield at, found[1]


@lru_cache(maxsize=None)
def definitions(path):
    """The definitions of a file, by name; the name of a constructor is its type's."""
    lines, found = text_of(path).split("\n"), {}
    begun = list(starts(lines))
    for (at, name), (end, _) in zip(begun, [*begun[1:], (len(lines), "")]):
        before = found.get(name, Definition(path, at + 1, ()))
        made = Definition(path, before.first, (*before.lines, *lines[at:end]))
        found[name] = made
        if DATA.match(lines[at]):
            names = [it for line in made.lines[1:] for it in re.findall(r"^\s+([\w-]+(?: [\w-]+)*) :", line)]
            found |= {it: made for it in " ".join(names).split()}
    return found


def known(path, word):
    """The definition of a word in a file: its own, or that of the file that it is taken from, which may take it too."""
    if path.endswith(".antt") and word in definitions(path):
        return definitions(path)[word]
    if word not in imported(path):
        return None
    module, name = imported(path)[word]
    other = path_of(module)
    if other is None:
        return None
    if not (ROOT / other).exists():
        raise LookupError(f"{path}: there is no file of definitions {other}, of which `{name}` should be")
    found = known(other, name)
    if found is None and path_of(imported(other).get(name, (module, ""))[0]) is not None:
        raise LookupError(f"{path}: {other} doesn't define `{name}`")
    return found


def place_of(function):
    """The file, and the name there, of `crate/file::name`."""
    file, _, name = function.partition("::")
    crate, _, file = file.partition("/")
    return f"crates/{crate}/src/{file}.rt", name


def contract(function):
    """What a function promises, and where."""
    path, name = place_of(function)
    text = text_of(path)
    begin = re.search(rf"^ *pub fn {name}\(", text, re.M).start()
    end = re.compile(r"\n *\{\}?$", re.M).search(text, begin).start()
    return Definition(path, text[:begin].count("\n") + 1, tuple(text[begin:end].strip().split("\n")))


def believed(functions):
    """The contracts, and all definitions that they rest on."""
    found, left = set(), [contract(it) for it in functions]
    while left:
        it = left.pop()
        if it not in found:
            found.add(it)
            left += [other for word in it.words if (other := known(it.path, word))]
    return found


def row(promise, functions):
    found = believed(functions)
    crates = sorted({it.path.split("/")[1] for it in found})
    named = ", ".join(f"`{place_of(it)[1]}` ({contract(it).path}:{contract(it).first})" for it in functions)
    files, lines = len({it.path for it in found}), sum(it.size for it in found)
    return f"| {promise} | {named} | {', '.join(f'`{it}`' for it in crates)} | {files} | {lines:,} |"


def files():
    """The document with its table made again."""
    head = ["| promise | contracts | definitions of | files | lines |", "|---|---|---|---|---|"]
    table = "\n".join([*head, *(row(*it) for it in PROMISES)])
    return {DOCUMENT: layout.with_parts((ROOT / DOCUMENT).read_text(), {"believed": table}, DOCUMENT)}
