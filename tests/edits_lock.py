"""Says which edits were refused, and of which texts that was so, by tests/edits.lock:

    toolchain LOGIC            the logic that `rt version` prints; it goes for the lines that follow
    CRATE/WHAT.edit HASH       this edit was refused

Whether an edit is refused depends on the edit, on the functions that it changes and their proofs, on the heads of the functions that these name
(tests/edits_stated.py), on the definitions, lemmas, types and traits of its crate and the crates below to which the names in all that lead
(tests/edits_items.py), and on the toolchain. The hash is of all that, without comments. (An edit of what stands outside functions, or of a
const fn, depends on all sources and proofs of its crate.) A line holds only while the edit applies, since an edit may name a comment.

Lines are believed, but not for long: the edits are dealt to slots, and each commit has the slot of its number (`share`).
"""
import hashlib
import os
import subprocess
from functools import lru_cache

from edits_items import FORMATS, Item, Reached, formats
from edits_stated import OWN_PROOF, files_below, read, source, stated, without_its_comments, words_of
from source_text import without_comments

FILE = "tests/edits.lock"
# After so many commits each edit's turn has come.
SLOTS = 24
# Of these, the slots of edits that change what stands outside functions: they need a check of their own, and of the whole crate.
OUTSIDE = 4


def toolchain():
    """The logic of the toolchain. Toolchains of several names have the same one (README.md), and check the same proofs: what one refuses, the
    others refuse. (If one found a proof that another doesn't find, it would show when the edit's turn comes.)"""
    text = subprocess.run(["rt", "version"], capture_output=True, text=True).stdout.strip()
    return text.partition(" ")[2] or text


def sum_of(*parts):
    """The hash of texts and of lists of texts."""
    made = hashlib.sha256()
    for it in parts:
        text = repr(it).encode("utf-8", "surrogateescape")
        made.update(b"%d:" % len(text) + text)
    return made.hexdigest()


@lru_cache(maxsize=None)
def proofs_of(folder):
    """The proofs of a crate: the folder that each file stands in if it is of one function's own proof, else '', with its path and text."""
    found = []
    for path in files_below(f"{folder}/proofs"):
        inside, name = os.path.split(os.path.relpath(path, folder))
        found.append((os.path.basename(inside) if name in OWN_PROOF else "", os.path.relpath(path, folder), without_its_comments(path)))
    return tuple(found)


@lru_cache(maxsize=None)
def items_below(crate, known):
    """The items of a crate and of those below, as a check comes to them."""
    all_stated = [(it, stated(known[it].folder)) for it in sorted([crate.name, *crate.below])]
    traits = frozenset().union(*(it.traits for _, it in all_stated))
    # (to come to an item of a crate is to come to the crate first, and to a definition, to its module)
    whole = lambda name, words: frozenset({name + it if it.startswith(".") else it for it in words} | {name})
    named = lambda name, it: Item(repr((name, it.text)), it.words, tuple(whole(name, words) for words in it.names))
    return Reached([named(name, it) for name, found in all_stated for it in found.items_for(traits, name != crate.name)])


def words_said(crate, known, texts):
    """The names that a check of these texts says, and those that macros may write there."""
    of_macros = (stated(known[it].folder).of_macros for it in [crate.name, *crate.below])
    may_format = [FORMATS] if any(map(formats, texts)) else []
    return frozenset([crate.name, *may_format]).union(*of_macros, *map(words_of, texts))


def functions_named(crate, known, words):
    """The functions that these words name, each with its type, if it is of one, and its head."""
    all_stated = [(it, stated(known[it].folder)) for it in sorted([crate.name, *crate.below])]
    words = words | {own for _, it in all_stated for other, own in it.renamed if other in words}
    return [(of_type, (name, head)) for name, it in all_stated for of_type, head in it.named(words, name != crate.name)]


def matters(crate, known, words):
    """The heads and the items that matter to a check that says these words. A function of a type does if it is named and its type matters."""
    named, heads, found = functions_named(crate, known, words), [], []
    while True:
        found, said = items_below(crate, known).of(words)
        more = [head for of_type, head in named if head not in heads and (not of_type or of_type in said)]
        if not more:
            return sorted(map(repr, heads)), sorted(it.text for it in found)
        heads += more
        words = said.union(*(words_of(repr(it)) for it in more))


def hash_of(edit, known, version):
    """The hash of all that decides whether an edit is refused."""
    crate = edit.crate
    changed = [(path, *it.key(), " ".join(without_comments(crate.texts[path][it.start : it.ends]).split())) for path, it in edit.functions()]
    names = {it.name for _, it in edit.functions()}
    proofs = [it for it in proofs_of(crate.folder) if it[0] in names]
    whole = ()
    if edit.is_outside or edit.is_seen or not changed:
        whole = ([without_its_comments(it) for it in files_below(f"{crate.folder}/src")], proofs_of(crate.folder))
    owners = [words for _, owner, *_ in changed for _, words in owner]
    texts = [text for *_, text in [*changed, *proofs]] + [*edit.changed.values(), *owners] + (whole[0] if whole else [])
    imports = [(path, source(f"{crate.folder}/{path}").imported(text)) for path, *_, text in changed]
    heads, items = matters(crate, known, words_said(crate, known, texts).union(words_of(repr(imports))))
    parts = (crate.name, heads, items, imports, changed, proofs, whole)
    return sum_of(version, " ".join(read(edit.file).split()), *parts)[:32]


def read_lock(top):
    """The hash of each toolchain and edit in the lock."""
    path, rows, version = f"{top}/{FILE}", {}, ""
    if os.path.isfile(path):
        with open(path, encoding="utf-8") as it:
            for line in it:
                word, _, rest = line.strip().partition(" ")
                if word == "toolchain":
                    version = rest
                elif rest:
                    rows[version, word] = rest
    return rows


def write_lock(top, rows):
    os.makedirs(os.path.dirname(f"{top}/{FILE}"), exist_ok=True)
    with open(f"{top}/{FILE}.new", "w", encoding="utf-8") as it:
        last = None
        for (version, name), made in sorted(rows.items()):
            if version != last:
                it.write(f"toolchain {version}\n")
                last = version
            it.write(f"{name} {made}\n")
    os.replace(f"{top}/{FILE}.new", f"{top}/{FILE}")


def commits(top):
    """The number of commits that led to what is checked out (outside of git, 0)."""
    ran = subprocess.run(["git", "-C", top, "rev-list", "--count", "HEAD"], capture_output=True, text=True)
    return int(ran.stdout) if ran.returncode == 0 else 0


def dealt(edits, slots):
    """Deals edits to slots, in their order, so that those of one crate are in few slots: they are tried in one check."""
    return [edits[len(edits) * it // slots : len(edits) * (it + 1) // slots] for it in range(slots)]


def share(edits, number):
    """The edits whose turn it is at the commit of this number."""
    lone = [it for it in edits if it.is_outside]
    slots = dealt([it for it in edits if not it.is_outside], SLOTS - OUTSIDE) + dealt(lone, OUTSIDE)
    return slots[number % SLOTS]


class Lock:
    """The lock of a repository, and what it says of the edits of these crates."""

    def __init__(self, top, known, crates):
        self.top, self.known, self.version, self.made = top, Known(known), toolchain(), {}
        self.edits = {it.name: it for crate in crates for it in crate.edits}
        rows = read_lock(top)
        self.held = {name for name, it in self.edits.items() if (made := rows.get((self.version, name))) and made == self.row(it, self.version)}
        self.turn = {it.name for it in share(list(self.edits.values()), commits(top))}

    def row(self, edit, version):
        """What the lock has to say of an edit under a toolchain; None if the edit can't be applied."""
        if (edit.name, version) not in self.made:
            self.made[edit.name, version] = None if edit.fault else hash_of(edit, self.known, version)
        return self.made[edit.name, version]

    def holds(self, edit):
        return edit.name in self.held

    def is_due(self, edit):
        """Whether the edit is to be tried: its line is missing or of other texts, or it is its turn."""
        return not self.holds(edit) or edit.name in self.turn

    def keep(self, edits):
        """Writes what came of these edits, and drops the lines that no longer hold: of edits that are gone or that depend on other texts now."""
        rows = {}
        for (version, name), made in read_lock(self.top).items():
            if name in self.edits and made == self.row(self.edits[name], version):
                rows[version, name] = made
        for it in edits:
            rows.pop((self.version, it.name), None)
            if it.outcome == "refused":
                rows[self.version, it.name] = self.row(it, self.version)
        write_lock(self.top, rows)


class Known(dict):
    """Crates by name. (There is one such value in a run, so what is found out of it is kept by its identity.)"""

    def __hash__(self):
        return id(self)

    def __eq__(self, other):
        return self is other
