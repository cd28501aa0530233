"""Reads the text of a Rattle source file: its comments, its functions, and the names that the checker has for these."""
import re

TEXT_OR_COMMENT = re.compile(
    r"""//[^\n]*|/\*.*?\*/|[bc]?r(#*)".*?"\1|[bc]?"(?:[^"\\]|\\.)*"|'(?:\\[^\n']+|[^\\\n'])'""", re.S
)
PLAIN_TYPE = re.compile(r"\b(?:bool|char|str|[iu](?:8|16|32|64|128|size))\b")
CLAUSE = re.compile(r"(?:\b(?:requires|ensures)\s*\*?\s*\w*|\bghost(?:\s+\w+)?\s*:?|\bdecreases(?:\s+\w+)?)\s*\Z")


def blanked(text):
    """Returns the text with comments, strings and characters made blank, so that each brace left is one of code."""
    return TEXT_OR_COMMENT.sub(lambda it: re.sub(r"[^\n]", " ", it[0]), text)


def without_comments(text):
    """Returns the text without its comments."""
    return TEXT_OR_COMMENT.sub(lambda it: " " if it[0].startswith(("//", "/*")) else it[0], text)


def end_of(text, at):
    """Returns where the bracket that opens at this place has closed."""
    depth = 0
    for i in range(at, len(text)):
        if text[i] in "([{":
            depth += 1
        elif text[i] in ")]}":
            depth -= 1
            if not depth:
                return i + 1
    return len(text)


def block_of(text, at):
    """Returns where the first block at or after this place opens that is no clause's, and where it closes, or None before a ';'."""
    i, since = at, at
    while i < len(text):
        if text[i] in "([":
            i = end_of(text, i)
        elif text[i] == "{":
            end = end_of(text, i)
            if not CLAUSE.search(text, since, i):
                return i, end
            i = since = end
        elif text[i] in ";}":
            return None
        else:
            i += 1
    return None


class Function:
    """A function of a source file: its place, its name, and the block (impl, trait or module) that it stands in."""

    def __init__(self, name, start, opens, ends, owner, is_const):
        self.name, self.start, self.opens, self.ends = name, start, opens, ends
        self.owner, self.is_const = owner, is_const

    def key(self):
        return self.owner, self.name


def functions_of(text):
    """Returns the functions of a source text, those inside other functions left out."""
    code = blanked(text)
    found = []

    def walk(at, end, owner):
        head = re.compile(r"\b(fn|impl|trait|mod)\b(?!\s*!)")
        while True:
            it = head.search(code, at, end)
            if not it:
                return
            block = block_of(code, it.end())
            if not block:
                at = it.end()
                continue
            opens, ends = block
            name = re.match(r"\s*(\w+)", code[it.end() :])
            if it[1] == "fn":
                before = code.rfind("\n", 0, it.start()) + 1
                is_const = bool(re.search(r"\bconst\b", code[before : it.start()]))
                found.append(Function(name[1] if name else "", before, opens, ends, owner, is_const))
            elif it[1] == "mod":
                walk(opens + 1, ends - 1, owner + (("mod", name[1] if name else ""),))
            else:
                words = " ".join(code[it.end() : opens].split())
                walk(opens + 1, ends - 1, owner + ((it[1], words),))
            at = ends

    walk(0, len(code), ())
    return found


def parameters_left_out(words):
    """Returns an impl's head without its parameters, and the names of those."""
    depth = 0
    for at, it in enumerate(words if words.startswith("<") else ""):
        depth += (it == "<") - (it == ">" and words[at - 1] not in "-=")
        if not depth:
            return words[at + 1 :], {*re.findall(r"(?:^<|,)\s*(?:const\s+)?(\w+)", words[: at + 1])}
    return words, set()


def names_of(crate, path, function, known):
    """Returns the checker's names that the function can have, of those that are known: mostly one."""
    module = [it for it in re.sub(r"^src/|\.rt$", "", path).split("/") if it not in ("lib", "main", "mod")]
    module += [name for kind, name in function.owner if kind == "mod"]
    above = "::".join([crate, *module])
    owners = [it for it in function.owner if it[0] != "mod"]
    if not owners:
        return {f"{above}::{function.name}"} & known
    kind, words = owners[-1]
    words, parameters = parameters_left_out(words)
    words = words.partition(" where ")[0]
    if kind == "trait" or " for " not in words:
        # (an impl of a type's own methods can stand in another module than the type)
        owner = re.match(r"\s*(?:\w+::)*(\w*)", words)[1]
        own = {it for it in known if it.endswith(f"::{owner}::{function.name}")}
        return {f"{above}::{owner}::{function.name}"} & own or own
    # the name of an impl is made of the names in its head, those of the language's own types (u8, bool) with a capital
    named = {*re.findall(r"\b[A-Z]\w*", words)} - parameters
    plain = {it.capitalize() for it in PLAIN_TYPE.findall(words)}
    for parts in (named | plain, named):
        found = {}
        for it in known:
            inner, _, name = it[len(above) + 2 :].rpartition("::")
            if name == function.name and it.startswith(f"{above}::") and "::" not in inner and all(p in inner for p in parts):
                found[it] = len(inner)
        if found:
            return {it for it, length in found.items() if length == min(found.values())}
    return set()
