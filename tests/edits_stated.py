"""What a crate's sources state, in pieces, so that the lock of edits (tests/edits_lock.py) can say what an edit depends
on.

A check of a function sees of other functions what stands before their bodies, and only of those that it calls. It
calls by name a function of a module or of a type, and by the type's name, too, one of a type that takes no `self`. It
may call without a name a function of a trait (an operator, `?`, a loop, the end of a value), and so may a macro. So a
source is cut into these pieces: for each function that is called by name its head, with the attributes before it; and
the other items, without bodies: types, constants, traits and their implementations. With each piece goes what it
imports. A file of definitions is cut into its definitions.

An item or a definition matters to a check that can come to it by names: the check names it, or a piece does that
matters. An implementation has no name; it matters if its type does, and its trait.
"""
import os
import re
from collections import defaultdict
from functools import lru_cache

from edits_items import definitions_of, items_handed_on, items_of_source, traits_of, type_and_trait, words_of
from source_text import functions_of, without_comments

# The files of a function's own proof.
OWN_PROOF = ("Answers.antt", "Invariants.antt", "Proof.antt")
WORD = re.compile(r"[A-Za-z_]\w*")
SHOWN = re.compile(r"(?:#\[[^\[\]]*\]\s*)*pub\s")
ATTRIBUTES = re.compile(r"(?:\s*#\[[^\[\]]*\])+\s*\Z")
PUBLIC_IMPORT = re.compile(r"\b(?:ghost\s+)?pub(?:\([^)]*\))?\s+use\s[^;]*;")
IMPORT = re.compile(r"\b(?:ghost\s+)?use\s+([^;]*);")
MODULE = re.compile(r"(?:#\[[^\[\]]*\]\s*)?(?:\bpub(?:\([^)]*\))?\s+)?\bmod\s+\w+\s*;")
ALIAS = re.compile(r"\btype\s+(\w+)[^=;]*=([^;]*);")
EMPTY = re.compile(r"\bimpl\b[^{};]*\{\s*\}")
COMMENT_OF_ANTT = re.compile(r"(?m)(?:^|(?<=\s))--(?=\s|$).*$")


def files_below(folder):
    for at, folders, names in os.walk(folder):
        folders.sort()
        for name in sorted(names):
            yield f"{at}/{name}"


@lru_cache(maxsize=None)
def read(path):
    with open(path, encoding="utf-8", errors="surrogateescape") as it:
        return it.read()


@lru_cache(maxsize=None)
def without_its_comments(path):
    """A file's text without its comments, with single spaces."""
    text = read(path)
    if path.endswith(".rt"):
        text = without_comments(text)
    elif path.endswith(".antt"):
        text = COMMENT_OF_ANTT.sub("", text)
    return " ".join(text.split())


def leaves(tree):
    """The names that an import's tree `a::{b, c::d as e}` binds, each with its path."""
    parts, depth, at = [], 0, 0
    for i, it in enumerate(tree):
        depth += (it == "{") - (it == "}")
        if it == "," and not depth:
            parts.append(tree[at:i])
            at = i + 1
    for it in filter(None, map(str.strip, [*parts, tree[at:]])):
        above, brace, inner = it.partition("{")
        if brace:
            yield from ((name, above + path) for name, path in leaves(inner.rpartition("}")[0]))
        else:
            path, _, name = it.partition(" as ")
            yield (name or path.rpartition("::")[2]).strip(), it


def is_called_by_name(function):
    """Whether a function can only be called by its name: it is no trait's."""
    owners = [it for it in function.owner if it[0] != "mod"]
    is_of_trait = any(kind == "trait" or " for " in words for kind, words in owners)
    return bool(function.name) and not function.is_const and not is_of_trait


def type_of(function):
    """The type that the function is one of, or nothing."""
    kind, words = ([it for it in function.owner if it[0] != "mod"] or [("", "")])[-1]
    return type_and_trait(words)[0] if kind == "impl" else ""


def is_used(name, words, text):
    """Whether a text uses a name that is imported: it may have a sign of antt's without its places for operands."""
    if WORD.fullmatch(name) or name == "*":
        return name in words or name in "_*"
    return all(it in text for it in name.split("◌"))


class Source:
    """The pieces of a source: the rest, and the heads of functions, each with their names and owners."""

    def __init__(self, text):
        kept, at, self.heads = [], 0, []
        for it in functions_of(text):
            if it.is_const:
                continue
            before, head = without_comments(text[at : it.start]), without_comments(text[it.start : it.opens])
            if is_called_by_name(it):
                found = ATTRIBUTES.search(before)
                before, head = (before[: found.start()], found[0] + head) if found else (before, head)
                self.heads.append((it.name, it.owner, " ".join(head.split()), type_of(it)))
                kept.append(before)
            else:
                kept += [before, head, "{}"]
            at = it.ends
        code = "".join([*kept, without_comments(text[at:])])
        public = [" ".join(it.split()) for it in PUBLIC_IMPORT.findall(code)]
        code = PUBLIC_IMPORT.sub("", code)
        self.imports = [it for tree in IMPORT.findall(code) for it in leaves(" ".join(tree.split()))]
        code = MODULE.sub("", IMPORT.sub("", code))
        code = " ".join(EMPTY.sub(lambda it: it[0] if " for " in it[0] else "", code).split())
        every = [*self.imports, *(leaf for it in public for leaf in leaves(IMPORT.search(it)[1]))]
        renamed = [(name, path.rpartition(" as ")[0]) for name, path in every if " as " in path]
        self.renamed = [(name, path.rpartition("::")[2]) for name, path in renamed]
        self.renamed += [(name, word) for name, target in ALIAS.findall(code) for word in words_of(target)]
        # the code that stands beside these functions, and what it hands on
        self.rest, self.public = code, public

    def imported(self, text):
        """What a piece of the source uses of what is imported, and what is imported without a word."""
        words = words_of(text)
        return tuple(sorted({path for name, path in self.imports if is_used(name, words, text)}))


@lru_cache(maxsize=None)
def source(path):
    return Source(read(path))


class Stated:
    """What a crate states: the rest of each source, its definitions, and the heads of its functions by name."""

    def __init__(self, folder):
        self.heads, self.renamed, self.items = defaultdict(list), [], []
        sources = [(os.path.relpath(path, folder), source(path)) for path in files_below(f"{folder}/src")]
        self.traits = frozenset().union(*(traits_of(it.rest) for _, it in sources))
        self.sources = sources
        for name, it in sources:
            self.renamed += it.renamed
            self.items += items_handed_on(name, it.public, leaves)
            for function, owner, head, of_type in it.heads:
                self.heads[function].append((of_type, (name, owner, head, it.imported(head))))
        lemmas = [it for it in files_below(f"{folder}/proofs") if os.path.basename(it) not in OWN_PROOF]
        for path in [*files_below(f"{folder}/specs"), *lemmas]:
            self.items += definitions_of(os.path.relpath(path, folder), COMMENT_OF_ANTT.sub("", read(path)))
        # what a macro writes isn't named where the macro is used
        with_macros = [it for it in files_below(f"{folder}/src") if "macro_rules!" in read(it)]
        self.of_macros = frozenset().union(*(words_of(without_its_comments(it)) for it in with_macros))

    def items_for(self, traits, is_below):
        """Its definitions and the items of its sources, if these are the traits of the repository; of a crate below,
        the items that it shows."""
        items = (items_of_source(name, it.rest, it.imported, traits, is_below) for name, it in self.sources)
        return [*self.items, *(item for found in items for item in found)]

    def named(self, words, is_below):
        """The functions with these names, each with its type, if it is of one, and its head; of a crate below, those
        that it shows."""
        found = [it for name in sorted(words & self.heads.keys()) for it in self.heads[name]]
        return [(of_type, head) for of_type, head in found if not is_below or SHOWN.match(head[2])]


@lru_cache(maxsize=None)
def stated(folder):
    return Stated(folder)
