"""Cuts what stands beside functions into items and definitions, each with the names by which a check comes to it, so
that the lock of edits (tests/edits_lock.py) can say which of them matter to an edit.

A check comes to an item by one of its names, if the check says it, or another item that matters. (A trait has its
functions' names, too, in its own crate. Elsewhere its own name has to be said, since a trait must be in scope for a
call.) An implementation has no name: it matters if its type does, and its trait, if that is one of the repository; one
for any type, if its trait does. What shows a value matters only to a check that formats one. What has no name that
could be found here matters always.
"""
import re
from collections import defaultdict
from dataclasses import dataclass

from source_text import blanked, end_of, parameters_left_out

WORD = re.compile(r"[A-Za-z_]\w*")
PATH = re.compile(r"Rattle(?:\.\w+)+")
ATTRIBUTES = r"(?:#\[[^\[\]]*\]\s*)*"
PUB = r"(?:pub(?:\([^)]*\))?\s+)?"
KINDS = r"(?:struct|enum|trait|union|const|static|type|macro_rules!)"
NAMED = re.compile(rf"{ATTRIBUTES}{PUB}{KINDS}\s+(?:mut\s+)?(\w+)")
TRAIT = re.compile(rf"\s*{ATTRIBUTES}{PUB}trait\s+(\w+)")
METHOD = re.compile(r"\bfn\s+(\w+)")
STRUCT = re.compile(rf"{ATTRIBUTES}(?:pub\s+)?struct\s+(\w+)")
VALUE = re.compile(r"\bghost\s+(?:view|invariant|inverse)\s*=\s*\{[^{}]*(?:\{[^{}]*\}[^{}]*)*\}\s*;")
IMPLEMENTS = re.compile(rf"{ATTRIBUTES}(?:unsafe\s+)?impl\b(.*?)(?:\bwhere\b.*)?\{{", re.S)
INNER = re.compile(r"#!\[[^\[\]]*\]")
# What shows a value, and the word that is said of a check that may format one.
SHOWS = ("Debug", "Display")
FORMATS = "{}"
FORMATTING = re.compile(
    r"\b(?:Debug|Display|fmt|\w+_output|to_string|unwrap(?:_err)?\b|expect(?:_err)?\(\s*\"|"
    r"(?:format|write|writeln|e?print|e?println|panic|dbg|assert\w*)!)"
)
DERIVES = re.compile(r"#\[derive\(([^()]*)\)\]")
# After a block with one of these an item goes on: it was a clause's.
GOES_ON = re.compile(r"\s*(?:[;,=.)]|ensures|requires|where)")
FRONT = re.compile(r"(?:(?:pub|abbrev|unfoldable|opaque|record|data)\s+)*")
OPEN = re.compile(r"(?:pub )?(?:abbrev|unfoldable|record|data)\b")
LOOSE = re.compile(r"(?:use|open|import|infix[lr]?|mod|pub\s+(?:use|mod|open))\b")
IMPORT = re.compile(r"\buse ((?:[^{}\s]+(?:\{[^{}]*\})?|\{[^{}]*\})+(?: as [\w-]+)?)")


@dataclass(frozen=True, eq=False)
class Item:
    """A text, its words, and its names: each a set of words that have to be said."""

    text: object
    words: frozenset
    names: tuple


def words_of(text):
    """The words of a text, and the modules of definitions that its paths lead through, as `krb_enc.specs.Key`."""
    return frozenset(WORD.findall(text)).union(*map(modules_of, PATH.findall(text)))


def formats(text):
    """Whether a check of this text may come to what shows a value: by a macro, say, that doesn't name it."""
    return bool(FORMATTING.search(text))


def modules_of(path):
    parts = path.split(".")[1:]
    return {".".join(parts[: length + 1]) for length in range(1, len(parts))}


def module_of(path):
    """The module that a file of definitions is, below its crate."""
    return path.removesuffix(".antt").removesuffix("/Lib").replace("/", ".")


def pieces_of(code):
    """The items of a source without function bodies."""
    yield " ".join(INNER.findall(code))
    code = INNER.sub("", code)
    blank, at, i = blanked(code), 0, 0
    while i < len(code):
        if blank[i] in "([":
            i = end_of(blank, i)
        elif blank[i] == "{":
            i = end_of(blank, i)
            if not GOES_ON.match(blank, i):
                yield code[at:i]
                at = i
        elif blank[i] == ";":
            i += 1
            yield code[at:i]
            at = i
        else:
            i += 1
    yield code[at:]


def type_and_trait(words):
    """The last names of the type and the trait in an implementation's head; nothing if it is of no named type."""
    words, parameters = parameters_left_out(words.strip())
    trait, between, of_type = words.partition(" for ")
    last = lambda text: (re.match(r"\s*(?:\w+::)*(\w+)", text) or [None, ""])[1]
    named, implemented = (last(of_type), last(trait)) if between else (last(trait), "")
    return ("" if named in parameters else named), implemented


def names_of_item(text, traits, is_below):
    """The names of an item, if these are the traits of the repository."""
    if found := TRAIT.match(text):
        functions = [] if is_below else METHOD.findall(text)
        return tuple(frozenset({it}) for it in dict.fromkeys([found[1], *functions]))
    if found := NAMED.match(text):
        return (frozenset({found[1]}),)
    if found := IMPLEMENTS.match(text):
        named, trait = type_and_trait(found[1])
        if named and trait in SHOWS and trait not in traits:
            return (frozenset({named, FORMATS}),)
        if named or trait in traits:
            return (frozenset({named} - {""} | ({trait} & traits)),)
    return ()


def split_fields(inside):
    """The fields of a type, which commas divide."""
    blank, depth, at = blanked(inside), 0, 0
    for i, it in enumerate(blank):
        depth += (it in "([{<") - (it in ")]}" or (it == ">" and blank[i - 1] not in "-="))
        if it == "," and not depth:
            yield inside[at:i].strip()
            at = i + 1
    yield inside[at:].strip()


def is_public(text):
    return bool(re.match(rf"{ATTRIBUTES}(?:pub\s|macro_rules)", text))


def shown_of_struct(text, hidden):
    """A type's text without its private fields. If it has some, its name is added to the hidden ones."""
    found = STRUCT.match(text)
    at = re.search(r"[({]", text[found.end() :])
    if not at:
        return text
    opens = found.end() + at.start()
    ends = end_of(blanked(text), opens)
    fields = [it for it in split_fields(text[opens + 1 : ends - 1]) if it]
    public = [it for it in fields if is_public(it)]
    if len(public) < len(fields):
        hidden.add(found[1])
    return f"{text[: opens + 1]}{', '.join(public)}{text[ends - 1 :]}"


def shown(texts):
    """What the items of a source show to the crates above: not private items, nor the private fields of types, nor how
    the value of a type with such fields is made of them."""
    hidden, private, kept = set(), set(), []
    for it in texts:
        named = NAMED.match(it)
        if named and not is_public(it):
            private.add(named[1])
        elif not it.startswith("#!"):
            kept.append(shown_of_struct(it, hidden) if STRUCT.match(it) else it)
    for it in kept:
        implements = IMPLEMENTS.match(it)
        named, trait = type_and_trait(implements[1]) if implements else ("", "")
        if named not in private:
            yield " ".join(VALUE.sub("", it).split()) if trait == "Model" and named in hidden else it


def split_derived(text):
    """A type's text without the Debug that it derives, and the names by which a check comes to that, if any."""
    found, named = DERIVES.match(text), NAMED.match(text)
    derived = found[1].replace(" ", "").split(",") if found else []
    if not named or "Debug" not in derived:
        return text, ()
    others = ", ".join(it for it in derived if it != "Debug")
    return f"#[derive({others})]{text[found.end() :]}", (frozenset({named[1], FORMATS}),)


def items_of_source(name, code, imported, traits, is_below):
    """The items of a source's code without bodies, each with what it imports; of a crate below, what it shows."""
    texts = [text for it in pieces_of(code) if (text := " ".join(it.split()))]
    for whole in shown(texts) if is_below else texts:
        text, of_debug = split_derived(whole)
        if text:
            used, names = imported(text), names_of_item(text, traits, is_below)
            yield Item((name, text, used), words_of(text).union(*map(words_of, used)), names)
        if of_debug:
            yield Item((name, "Debug", whole), frozenset(), of_debug)


def traits_of(code):
    """The names of the traits that a source's code has."""
    return frozenset(found[1] for it in pieces_of(code) if (found := TRAIT.match(it)))


def items_handed_on(name, public, leaves):
    """The names that a source hands on."""
    for it in public:
        for word, path in leaves(it.partition("use ")[2].rstrip("; ")):
            yield Item((name, path), words_of(path), (frozenset({word}),) if WORD.fullmatch(word) else ())


class Definitions:
    """A file of definitions, cut: the lines of each definition, the imports, and lines that no name was found for."""

    def __init__(self, text, is_of_lemmas):
        self.found, self.imports, self.loose = defaultdict(list), [], []
        self.is_of_lemmas, self.above, self.kept = is_of_lemmas, "", self.loose
        for line in text.split("\n"):
            self.take(line)

    def take(self, line):
        words = " ".join(line.split())
        if line.startswith("module "):
            self.above, self.kept = words, []
            return
        if line and not line[0].isspace() and re.match(r"\w", line):
            self.above = ""
        within = line[2:] if self.above else line
        if re.match(r"[\w◌]", within):
            self.kept = self.place_of(within)
        if words:
            self.kept.append(words)

    def place_of(self, line):
        """Where a line goes that begins a definition, an equation of one, or something else."""
        front = FRONT.match(line)
        word = re.match(r"[\w'-]+", line[front.end() :])
        if line.startswith("use "):
            return self.imports
        if re.match(r"(?:pub )?mod ", line):
            return []
        if LOOSE.match(line) or not word:
            return self.loose
        key = (self.above, word[0])
        is_proof = self.is_of_lemmas and key in self.found and not OPEN.match(self.found[key][0])
        return [] if is_proof else self.found[key]


def definitions_of(path, text):
    """The definitions of a file, and the statements of its lemmas, each with what it imports."""
    it = Definitions(text, path.startswith("proofs/"))
    imported = list(imports_of(" ".join(it.imports)))
    for (above, word), lines in [*it.found.items(), (("", ""), it.loose)]:
        if lines:
            text = "\n".join([above, *lines])
            words = words_of(text)
            is_used = lambda it: words_of(it) <= words if words_of(it) else all(sign in text for sign in it.split("◌"))
            used = tuple(sorted(whole for name, whole in imported if is_used(name)))
            names = names_of_definition(path, word, lines) if word else ()
            yield Item((path, word, text, used), words.union(*map(words_of, used)), names)


def names_of_definition(path, word, lines):
    """The names of a definition: its own and those of variants, each beside its module. (One may have hyphens.)"""
    names = [word]
    if any(it.startswith("pub data ") for it in lines):
        names += [found[1] for it in lines[1:] if (found := re.match(r"([\w'-]+) :", it))]
    return tuple(frozenset(WORD.findall(it)) | {f".{module_of(path)}"} for it in dict.fromkeys(names))


def imports_of(text):
    """The names that a file of definitions imports, each with its path."""
    for tree in IMPORT.findall(text):
        above, brace, inner = tree.partition("{")
        if not brace:
            path, _, name = tree.partition(" as ")
            yield name or path.rpartition(".")[2], tree
        else:
            for it in filter(None, map(str.strip, inner.rpartition("}")[0].split(","))):
                path, _, name = it.partition(" as ")
                yield name or path, f"{above}{it}"


class Reached:
    """Which items matter, of some crates'."""

    def __init__(self, items):
        self.always = [it for it in items if not it.names]
        self.waiting = defaultdict(list)
        for it in items:
            for words in it.names:
                for word in words:
                    self.waiting[word].append((it, words))

    def of(self, words):
        """The items that matter to a check that says these words, and all words that are said then."""
        said, found, new = set(), dict.fromkeys(self.always), set(words)
        for it in self.always:
            new |= it.words
        while new:
            said |= new
            waiting = [it for word in new for it in self.waiting.get(word, ())]
            more = dict.fromkeys(item for item, needed in waiting if item not in found and needed <= said)
            found.update(more)
            new = frozenset().union(*(it.words for it in more)) - said
        return list(found), said
