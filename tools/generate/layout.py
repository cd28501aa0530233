"""Lays out texts: comments of C and of Rattle, prototypes, pages for man, files in Rattle, and parts of documents."""
import pathlib
import re
import shutil
import subprocess
import sys
import tempfile
import textwrap

# How wide a line of a comment and one of C's code may be.
COMMENT_WIDTH, LINE_WIDTH = 100, 140
RATTLE = pathlib.Path(shutil.which("rt") or "/opt/rattle/bin/rt").resolve().parent / "rattle"


def blocks(text):
    """A text's paragraphs, lists and pieces of code: pairs of what it is and its text, items or lines."""
    found = []
    for part in re.split(r"\n\s*\n", text.strip("\n")):
        if part.startswith("    "):
            found.append(("code", [line[4:] for line in part.split("\n")]))
        elif part.startswith("- "):
            found.append(("list", [" ".join(item.split()) for item in re.split(r"^- ", part, flags=re.M)[1:]]))
        elif part.strip():
            found.append(("text", " ".join(part.split())))
    return found


def filled(text, first, then, width=COMMENT_WIDTH):
    """The lines of a text, the first after one beginning, the others after another. Code between backticks isn't broken."""
    kept = re.sub(r"`[^`]*`", lambda it: it[0].replace(" ", "\0"), text)
    lines = textwrap.wrap(kept, width, initial_indent=first, subsequent_indent=then, break_long_words=False, break_on_hyphens=False)
    return [line.replace("\0", " ") for line in lines]


def comment(text):
    """A comment of C: in one line if it fits."""
    found = blocks(text)
    if len(found) == 1 and found[0][0] == "text" and len(found[0][1]) <= COMMENT_WIDTH - 6:
        return f"/* {found[0][1]} */"
    lines, before = [], None
    for kind, parts in found:
        if before and (kind != "list" and before != "list"):
            lines.append(" *")
        if kind == "text":
            lines += filled(parts, " * ", " * ")
        elif kind == "list":
            lines += [line for it in parts for line in filled(it, " *  - ", " *    ")]
        else:
            lines += [f" *     {line}".rstrip() for line in parts]
        before = kind
    return "\n".join(["/" + lines[0][1:], *lines[1:], " */"])


def inner_comment(text):
    """A comment within braces."""
    return "\n".join(filled(text + " */", "    /* ", "     * "))


def prototype(result, name, parameters):
    """A function of C, in lines that aren't too long."""
    return listed(f"{result}{'' if result.endswith('*') else ' '}{name}(", parameters or ["void"])


def listed(begin, words, end=");"):
    """Words in brackets, in lines that aren't too long."""
    lines, line = [], begin
    for at, it in enumerate(words):
        word = it + (", " if at + 1 < len(words) else end)
        if len(line) + len(word.rstrip()) > LINE_WIDTH:
            lines.append(line.rstrip())
            line = " " * len(begin)
        line += word
    return "\n".join([*lines, line if words else begin + end])


def members(rows):
    """Lines of a struct or an enum with a comment each, which begin in one column."""
    width = max(len(code) for code, _ in rows)
    return "\n".join(f"    {code:{width}} /* {said} */" if said else f"    {code}" for code, said in rows)


def doc(text, indent=""):
    """A comment of Rattle's documentation."""
    return "\n".join(filled(text, f"{indent}/// ", f"{indent}/// "))


def definition_comment(text):
    """A comment of a definition."""
    return "\n".join(filled(text, "-- ", "-- "))


def sentence(text):
    """A remark as a sentence."""
    return text[0].upper() + text[1:] + ("" if text.endswith(".") else ".")


def laid_out(texts):
    """The texts of files in Rattle, by their paths, in the layout of `rt fmt`."""
    with tempfile.TemporaryDirectory() as room:
        folder = pathlib.Path(room)
        for path, text in texts.items():
            (folder / path).parent.mkdir(parents=True, exist_ok=True)
            (folder / path).write_text(text)
        subprocess.run([RATTLE, "fmt", "--write", *texts], cwd=folder, check=True, stdout=subprocess.DEVNULL)
        return {path: (folder / path).read_text() for path in texts}


def with_parts(text, parts, path):
    """A document with its made parts anew: each stands between `<!-- NAME: made of .. -->` and `<!-- end -->`."""
    for name, made in parts.items():
        found = re.search(rf"(<!-- {name}: made of [^>]*-->\n).*?(?=<!-- end -->)", text, re.S)
        if not found:
            sys.exit(f"{path} has no place for the part {name}")
        text = text[: found.end(1)] + made + "\n" + text[found.end() :]
    return text
