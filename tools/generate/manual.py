"""Texts of the library's manual page, fevstunik(3), in mdoc.

What the header says stands there word for word, but how it is linked. The abbreviated names of codes are written out, and lines of code
that are too long are broken. The program below EXAMPLES is README's, and the date that of the version in debian/changelog.
"""
import email.utils
import re
import sys

from . import ROOT, layout

# How wide a line of the page is, and one of code in a list, which a terminal of 80 columns shows.
WIDTH, CODE_WIDTH = 80, 64
# What begins the paragraphs of the header's head that aren't below DESCRIPTION itself.
OWED, RETURNED = "What is proved of a call holds if", "A function that returns bytes"
# What is marked in a text: what stands in backticks, names of the library, abbreviated names of codes, and C's names.
MARK = re.compile(r"`(?P<quoted>[^`]+)`|(?P<own>fevstunik_\w+)|\b(?P<big>[A-Z_]*[A-Z]_[A-Z]\w*|_[A-Z]\w*|NULL)\b")
SENTENCE_ENDS = re.compile(r"[.!?][)'\"]*$")
# The functions that the header has whole.
INLINE = ("code_name", "code_text")


def escaped(text):
    text = text.replace("\\", "\\e")
    return "\\&" + text if text[:1] in (".", "'") else text


def literal(text):
    return escaped(text).replace("'", "\\(aq").replace("`", "\\(ga").replace("^", "\\(ha").replace("~", "\\(ti").replace("-", "\\-")


def argument(text):
    return f'"{text}"' if " " in text else text


def bare(line):
    """A line of code with its strings made blank."""
    return re.sub(r'"(?:[^"\\]|\\.)*"', lambda it: "x" * len(it[0]), line)


def whole(lines):
    """Lines of code, those in one that stand inside the brackets of one call."""
    found = []
    for line in lines:
        if found and bare(found[-1]).count("(") > bare(found[-1]).count(")"):
            found[-1] += " " + line.lstrip()
        else:
            found.append(line)
    return found


def broken(line):
    """A line of code as lines that aren't too long: each but the last ends in a comma, a semicolon or an equals sign."""
    indent = " " * (len(line) - len(line.lstrip()) + 4)
    while len(line) > CODE_WIDTH:
        places = [it.end() for it in re.finditer(r"(?<=[,;=]) ", bare(line)) if len(indent) < it.end() <= CODE_WIDTH + 1]
        if not places:
            break
        yield line[: places[-1]].rstrip()
        line = indent + line[places[-1] :]
    yield line


def code(lines, *words):
    """A piece of code."""
    return "\n".join([" ".join([".Bd -literal", *words]), *(literal(part) for line in whole(lines) for part in broken(line)), ".Ed"])


class Page:
    """The page of an interface."""

    def __init__(self, interface):
        self.functions = {f"fevstunik_{it.name}" for it in interface.functions} | {f"fevstunik_{it}" for it in INLINE}
        self.codes = {f"FEVSTUNIK_{it.name}" for it in interface.codes}
        self.head = layout.blocks(interface.head)

    def marked(self, found):
        """The macro of what is marked."""
        if found["own"]:
            return ("Fn " if found["own"] in self.functions else "Vt ") + found["own"]
        if found["big"]:
            long = "FEVSTUNIK_" + found["big"].removeprefix("_")
            return "Dv " + (long if long in self.codes else found["big"])
        if re.fullmatch(r"[a-z_]\w*", found["quoted"]):
            return "Fa " + found["quoted"]
        # (a mark at the end would be taken for one after the quotes)
        return "Ql " + escaped(found["quoted"]) + ("\\&" if found["quoted"][-1] in ";.,:" else "")

    def macro(self, word):
        """The line for a word that has something marked, or None. (What stands in quotes is a text.)"""
        found = list(MARK.finditer(word))
        if not found or word.startswith('"'):
            return None
        before, after = word[: found[0].start()], word[found[0].end() :]
        rest, closing = re.fullmatch(r"(.*?)([.,:;)]*)", after).groups()
        if len(found) > 1 or before not in ("", "(") or "`" in rest:
            sys.exit(f"fevstunik(3): how is {word!r} marked?")
        name, _, marked_text = self.marked(found[0]).partition(" ")
        return " ".join([f".{name}", *before, marked_text, *(["Ns", rest] if rest else []), *closing])

    def lines(self, text):
        """The lines of a paragraph: each sentence begins one, and what is marked has one of its own."""
        lines, line = [], ""
        for word in re.findall(r"(?:`[^`]*`|\S)+", text):
            own = self.macro(word)
            if line and (own or len(line) + len(word) >= WIDTH):
                lines.append(line)
                line = ""
            if own:
                lines.append(own)
                continue
            line = f"{line} {word}" if line else escaped(word)
            if SENTENCE_ENDS.search(word):
                lines.append(line)
                line = ""
        return lines + ([line] if line else [])

    def told(self, text):
        return "\n".join(self.lines(" ".join(text.split())))

    def body(self, found, first=True):
        """Paragraphs, lists and code; none begins with a break if the first stands below a heading."""
        lines = []
        for kind, parts in layout.blocks(found) if isinstance(found, str) else found:
            if kind == "text":
                lines += ([".Pp"] if lines or not first else []) + self.lines(parts)
            elif kind == "list":
                lines += [".Bl -bullet"] + [line for it in parts for line in (".It", *self.lines(it))] + [".El"]
            else:
                lines.append(code(parts))
        return "\n".join(lines)


def split(interface):
    """The head's paragraphs: those of the description, what a caller owes, and what is returned."""
    parts, begins = [[]], [OWED, RETURNED]
    for kind, text in layout.blocks(interface.head):
        if begins and kind == "text" and text.startswith(begins[0]):
            parts.append([])
            del begins[0]
        # (the page doesn't say how the repository's own archives are linked)
        parts[-1].append((kind, re.sub(r" ?Link with .*?\.(?= |$)", "", text) if kind == "text" else text))
    if begins:
        sys.exit(f"fevstunik(3): no paragraph of the header's head begins with {begins[0]!r}")
    return parts


def subject(interface):
    """What the library is for."""
    return re.match(r"Fevstunik: (.*?) \(", layout.blocks(interface.head)[0][1])[1]


def date():
    """The date of the version."""
    day = email.utils.parsedate_to_datetime(re.search(r"^ -- .*?>  (.*)$", (ROOT / "debian/changelog").read_text(), re.M)[1])
    return f"{day:%B} {day.day}, {day.year}"


def program():
    """The lines of README's program in C."""
    return re.search(r"^```c\n(.*?)\n```$", (ROOT / "README.md").read_text(), re.S | re.M)[1].split("\n")
