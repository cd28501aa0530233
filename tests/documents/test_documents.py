"""The documents beside what is there: their code is a program's, their commands are run, what they name as proved has
these names, and their files exist. mandoc finds nothing wrong with the manual pages. (test_tables.py compares what
is made of tables.)
"""
import ast
import os
import re
import subprocess
import textwrap

import pytest

from support import TOP, reflow

EXAMPLE = TOP / "crates/krb_example"
# How long the README may be.
LINES = 200
# Those whose lines are laid out, and whose commands are run.
LAID_OUT = ("README.md", "CONTRIBUTING.md", "CHANGELOG.md", "SECURITY.md", "docs/KRBTOOL.md", "docs/LIBRARY.md",
            "docs/OPERATING.md", "docs/PROOFS.md", "docs/PYTHON.md", "docs/WEB.md")
OF_THE_EXAMPLE = ("README.md", "docs/LIBRARY.md")
OF_THE_PROGRAM = ("README.md", "docs/KRBTOOL.md")
# All that link to files.
LINKING = ("README.md", "CONTRIBUTING.md", "SECURITY.md", "tests/README.md", "bench/README.md",
           *(f"docs/{it.name}" for it in sorted((TOP / "docs").glob("*.md"))))


def text_of(name):
    return (TOP / name).read_text()


def blocks(name, language):
    return re.findall(rf"^```{language}\n(.*?)^```$", text_of(name), re.S | re.M)


# ---------------------------------------------------------------- code


@pytest.mark.parametrize("name", OF_THE_EXAMPLE)
def test_code(name):
    """Each block of code stands in the example."""
    program = (EXAMPLE / "src/hello.rt").read_text()
    assert blocks(name, "rust")
    assert [it for it in blocks(name, "rust") if it not in program] == []


def doc_blocks(text):
    """The blocks of code in the documentation of a source file."""
    lines = [re.sub(r"^ *//[/!] ?", "", it) if re.match(r" *//[/!]", it) else "" for it in text.split("\n")]
    return re.findall(r"^```rust\n(.*?)^```$", "\n".join(lines), re.DOTALL | re.MULTILINE)


def test_crate_examples():
    """Each block of code in the documentation of a crate stands in a function of krb_example."""
    programs = "".join(it.read_text() for it in (EXAMPLE / "src").glob("*.rt"))
    found = [(path, it) for path in sorted((TOP / "crates").glob("*/src/**/*.rt"))
             for it in doc_blocks(path.read_text())]
    assert [str(path.relative_to(TOP)) for path, it in found if textwrap.indent(it, "    ") not in programs] == []
    assert len(found) >= 11


def test_example_output():
    """What the example prints stands in the document of the library."""
    assert (EXAMPLE / "stdout").read_text() in blocks("docs/LIBRARY.md", "text")


# What stands around a block of C, so that it compiles.
AROUND = """#include <stdio.h>
#include <unistd.h>
#include "fevstunik.h"
void example(const uint8_t *keytab, size_t keytab_size, const uint8_t *input, size_t input_size, const uint8_t *random,
             fevstunik_time start, fevstunik_time now, int client);
void example(const uint8_t *keytab, size_t keytab_size, const uint8_t *input, size_t input_size, const uint8_t *random,
             fevstunik_time start, fevstunik_time now, int client)
{
%s}
"""


def test_c_code():
    """Each block of C of README compiles by the header."""
    assert blocks("README.md", "c")
    for block in blocks("README.md", "c"):
        words = ["gcc", "-std=c99", "-Wall", "-Wextra", "-Werror", "-pedantic", f"-I{TOP}/include", "-fsyntax-only",
                 "-x", "c", "-"]
        ran = subprocess.run(words, input=AROUND % block, capture_output=True, text=True)
        assert ran.returncode == 0, ran.stderr


@pytest.mark.parametrize("name", ("README.md", "docs/PYTHON.md", "docs/WEB.md"))
def test_python_code(name):
    """Each block of Python is Python, and what it imports of the package is there."""
    assert blocks(name, "python")
    for block in blocks(name, "python"):
        tree = ast.parse(block, name)
        found = [it for it in ast.walk(tree) if isinstance(it, ast.ImportFrom) and it.module.startswith("fevstunik")]
        for it in found:
            known = (TOP / "python" / it.module.replace(".", "/")).with_suffix(".py")
            text = (known if known.exists() else known.with_suffix("") / "__init__.py").read_text()
            assert [name for name in (one.name for one in it.names) if name not in text] == []


# ---------------------------------------------------------------- commands


def test_options(program):
    """Each command and option that the program's help has is in the manual, in its document and in the completions."""
    manual = text_of("docs/man/krbtool.1").replace("Fl -", "--")
    texts = [manual, *map(text_of, ("docs/KRBTOOL.md", *(f"packaging/completion/{it}"
                                                         for it in ("krbtool.bash", "_krbtool"))))]
    said = subprocess.run([program, "--help"], capture_output=True, text=True).stdout
    commands = re.findall(r"^  ([a-z]+(?:-[a-z]+)?)  ", said, re.M)
    words = set(commands)
    for command in commands:
        if command != "help":
            words |= set(re.findall(r"--[a-z]+",
                                    subprocess.run([program, command, "--help"], capture_output=True,
                                                   text=True).stdout))
    assert len(words) >= 12
    assert sorted(it for it in words - {"help", "--help"} if any(it not in text for text in texts)) == []


# The words of a command line, and what the last one is completed to.
COMPLETED = {
    "krbtool req": "request", "krbtool list-": "list-keytab list-ccache", "krbtool request f --m": "--mutual",
    "krbtool list-keytab --r": "--readable", "krbtool list-ccache --readable --now -": "",
    "krbtool pick-key k host/web@EX 19 --k": "--kvno", "krbtool finish --time -": "", "krbtool help fin": "finish",
    "krbtool none -": "",
}


@pytest.mark.parametrize("words", COMPLETED)
def test_completed(words):
    """What bash completes words to."""
    script = (f'. "$1"; COMP_WORDS=({words}); COMP_CWORD=$((${{#COMP_WORDS[@]}} - 1)); '
              '_krbtool; echo "${COMPREPLY[*]}"')
    ran = subprocess.run(["bash", "-c", script, "bash", TOP / "packaging/completion/krbtool.bash"], capture_output=True,
                         text=True)
    assert (ran.stdout, ran.stderr) == (f"{COMPLETED[words]}\n", "")


@pytest.mark.packages
@pytest.mark.parametrize("path", sorted((TOP / "docs/man").iterdir()), ids=lambda it: it.name)
def test_mandoc(path):
    """mandoc finds nothing wrong with a manual page. (Whether other pages are installed depends on the machine.)"""
    said = subprocess.run(["mandoc", "-T", "lint", path], capture_output=True, text=True).stdout.splitlines()
    assert [it for it in said if "referenced manual not found" not in it] == []


def commands_of(block):
    """The commands of a block, each with what it says. A line that ends in a backslash or a pipe goes on in the
    next."""
    for part in re.split(r"^\$ ", block, flags=re.M)[1:]:
        command, _, said = part.partition("\n")
        while command.endswith(("\\", "|")):
            more, _, said = said.partition("\n")
            command += "\n" + more
        yield command, said


@pytest.mark.parametrize("name", OF_THE_PROGRAM)
def test_commands(program, tmp_path, checks, name):
    """Each command of a document says what stands below it."""
    (tmp_path / "krbtool").symlink_to(program)
    (tmp_path / "examples").symlink_to(TOP / "examples")
    for command, wanted in (it for block in blocks(name, "console") for it in commands_of(block)):
        ran = subprocess.run(["sh", "-c", command], cwd=tmp_path, stdout=subprocess.PIPE, stderr=subprocess.STDOUT,
                             timeout=300, text=True)
        checks.equal(command, ran.stdout, wanted)


# ---------------------------------------------------------------- names, links, layout


def headings(path):
    """The names by which the headings of a document are linked to, or the lines of another file."""
    if path.suffix != ".md":
        return {f"L{at}" for at in range(1, len(path.read_text().splitlines()) + 1)}
    text = re.sub(r"^ *```.*?^ *```", "", path.read_text(), flags=re.S | re.M)
    return {re.sub(r"[^\w\- ]", "", it.lower()).replace(" ", "-") for it in re.findall(r"^#+ (.*)$", text, re.M)}


@pytest.mark.parametrize("name", LINKING)
def test_links(name):
    """The files and headings that a document links to are there."""
    path = TOP / name
    for file, heading in re.findall(r"\]\(([^)#\s]*)(?:#([^)\s]*))?\)", path.read_text()):
        other = path.parent / file if file else path
        if "://" not in file:
            assert other.exists(), file
            assert not heading or heading in headings(other), f"{heading} in {other}"


@pytest.mark.parametrize("name", LAID_OUT)
def test_layout(name):
    """No paragraph could be laid out otherwise (tests/support/reflow.py NAME lays it out)."""
    assert reflow.laid_out(text_of(name)) == text_of(name)


def test_length_of_readme():
    assert len(text_of("README.md").splitlines()) <= LINES


def names_of(crate):
    """The names of a crate's calls, clauses, types, variants and fields, and of the files of its definitions that a
    reader has to know."""
    folder = TOP / "crates" / crate
    specs = [it for it in (folder / "specs").rglob("*.antt") if "Inner" not in it.parts]
    sources = [it for it in (folder / "src").rglob("*.rt") if "test" not in it.name]
    text = "\n".join(it.read_text() for it in [*sources, *specs])
    forms = [
        r"\b(?:fn|mod|struct|enum|trait|const|ensures|record|data|abbrev pub) (\w+)",
        r"^  pub (\w+) :",
        r"^    ([A-Z]\w*)[,(]",
    ]
    return {name for form in forms for name in re.findall(form, text, re.M)} | {it.stem for it in specs} | {crate}


def unknown_names(part):
    """The words in backticks that name nothing of the crates of a heading."""
    heading, _, body = part.partition("\n")
    known = set().union(*(names_of(it) for it in re.findall(r"`(krb\w+)`", heading)))
    words = [" ".join(it.split()) for it in re.findall(r"`([^`]*)`", re.sub(r"<!--.*?-->", "", body))]
    return [word for word in words if word.rstrip(":").split("::")[-1] not in known]


def test_names():
    """What docs/PROOFS.md names as proved has these names."""
    parts = re.split(r"^## ", text_of("docs/PROOFS.md"), flags=re.M)
    unknown = {part.partition("\n")[0]: unknown_names(part) for part in parts if part.startswith("`krb")}
    assert {heading: words for heading, words in unknown.items() if words} == {}
    assert len(parts) >= 9


# A table of a store, and a counter of web logins.
NO_FUNCTIONS = {"fevstunik_store", "fevstunik_web_decisions_total"}


@pytest.mark.parametrize("name", LINKING)
def test_functions(name):
    """The functions of the library for C that a document names are in its header."""
    header = (TOP / "include/fevstunik.h").read_text()
    named = set(re.findall(r"\bfevstunik_[a-z_]+[a-z]\b", text_of(name))) - NO_FUNCTIONS
    assert sorted(it for it in named if it not in header) == []


def test_toolchain():
    """README names the toolchain that is used here."""
    version = subprocess.run(["rt", "version"], capture_output=True, text=True).stdout.strip()
    kit, _, logic = version.partition(" ")
    text = " ".join(text_of("README.md").split())
    assert logic and f"`{logic}`" in text
    assert f"`{kit}`" in text or f"`-{kit.rpartition('-')[2]}`" in text


def test_examples_are_commands():
    """Each example that names its interpreter can be run as documents run it."""
    files = [it for it in (TOP / "examples").rglob("*") if it.is_file() and it.read_bytes()[:2] == b"#!"]
    assert len(files) >= 4 and [it for it in files if not os.access(it, os.X_OK)] == []
