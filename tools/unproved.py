#!/usr/bin/env python3
"""Runs krbtool with these words by `rt try`, which compiles the sources and proves nothing.

    tools/unproved.py WORD..

Answers, faults and the exit status are those of the proved program; standard error begins with a line that says what this run is. `rt try`
runs the program in a folder of its own: so files are named by their absolute paths there, and a pipe that is read is copied first. It gives
the program 60 seconds and takes 1 MiB of output. A command that needs more, and `accept` at a terminal, say what to do instead (status 3).
"""
import os
import re
import shutil
import stat
import subprocess
import sys
import tempfile
import tomllib

CRATES = os.path.join(os.path.dirname(os.path.dirname(os.path.abspath(__file__))), "crates")
CRATE = os.path.join(CRATES, "krbtool")
with open(os.path.join(CRATES, "krb_command_line", "commands.toml"), "rb") as file:
    TABLE = tomllib.load(file)
# The operands of each command. Those named in READ are files that it reads, and OUT is one that it writes.
OPERANDS = {
    it["name"]: [TABLE["operand"][key]["name"] for key in it["arguments"] if key in TABLE["operand"]] for it in TABLE["command"]
}
READ = {it["name"] for it in TABLE["operand"].values() if it.get("file")} - {"OUT"}
# The options that are followed by a value, those whose value is a file, and those whose file the command reads.
OPTIONS = {f"--{it.get('name', key)}": it for key, it in TABLE["option"].items()}
VALUED = {*OPTIONS}
NAMING = {name for name, it in OPTIONS.items() if it.get("file")}
OPENED = {name for name in NAMING if OPTIONS[name]["value"] != "OUT"}
# A file or standard input that is longer can't be handed to the program.
LIMIT = 1 << 26
# What `rt try` says at its end if the program ended, and what it says if not.
ENDED = re.compile(rb"^checked: ended status=\d+\n(?:.*\n)*run=ended status=(\d+) .*proved=no\n\Z", re.M)
REASON = re.compile(rb"^checked: (.*)$", re.M)
MAKE = "run `make`, which proves and builds the program"


class NotSo(Exception):
    """The command can't be run by `rt try`."""


def operands_of(words):
    """The place of each operand of the command, with its name."""
    names, places, at = OPERANDS.get(words[0], []) if words else [], [], 1
    while at < len(words):
        word = words[at]
        if word == "--":
            places += range(at + 1, len(words))
            break
        if word.startswith("-"):
            at += word in VALUED
        else:
            places.append(at)
        at += 1
    return list(zip(places, names))


def named_by_options(words):
    """The place of each option's file, what stands before it in that word, and whether the command reads it."""
    options = words[: words.index("--")] if "--" in words else words
    for at, word in enumerate(options):
        name, equals, _ = word.partition("=")
        if name in NAMING and (equals or at + 1 < len(words)):
            yield (at, word[: len(name) + 1], name in OPENED) if equals else (at + 1, "", name in OPENED)


def is_passing(path):
    """Whether what is read there is gone after it was read, or is of this process alone."""
    try:
        return path.startswith(("/dev/stdin", "/dev/fd/", "/proc/self/")) or stat.S_ISFIFO(os.stat(path).st_mode)
    except OSError:
        return False


def kept(source, path):
    """Copies all that a file gives to a new file, and returns its path."""
    with open(path, "wb") as to:
        for piece in iter(lambda: source.read(1 << 20), b""):
            to.write(piece)
            if to.tell() > LIMIT:
                raise NotSo("more than 64 MiB of input")
    return path


def located(words, room):
    """The words with files named so that they are found from any folder, and each name as it was given by the one that it has there."""
    found, given = list(words), {}
    files = [(at, "", name in READ) for at, name in operands_of(words) if name in (*READ, "OUT") and words[at]]
    for at, before, is_read in [*files, *named_by_options(words)]:
        name = words[at][len(before) :]
        path = os.path.join(os.getcwd(), name) if name else name
        if is_read and is_passing(path):
            with open(path, "rb") as source:
                path = kept(source, f"{room}/{at}")
        found[at], given[path] = before + path, name
    return found, given


def reads_input(words):
    """Whether the command reads standard input."""
    if words[:1] == ["explain"]:
        return not operands_of(words) and not [*named_by_options(words)]
    return words[:1] == ["accept"]


def standard_input(words, room):
    """The file that the program reads as its standard input."""
    if not reads_input(words):
        return os.devnull
    if sys.stdin is None:
        raise NotSo("standard input is closed")
    if words[0] == "accept" and sys.stdin.isatty():
        raise NotSo("it can't answer line by line")
    return kept(sys.stdin.buffer, f"{room}/stdin")


def as_given(text, given):
    """What the program wrote, with the names of files as they were given, and with its own."""
    for path, name in given.items():
        text = text.replace(os.fsencode(f"krbtool: {path}: "), os.fsencode(f"krbtool: {name}: "))
    return text.replace(b"Usage: program", b"Usage: krbtool")


def run(words):
    """Runs the command, and returns its status, and what it wrote on standard output and standard error."""
    with tempfile.TemporaryDirectory(prefix="krbtool-") as room:
        found, given = located(words, room)
        with open(standard_input(words, room), "rb") as stdin:
            ran = subprocess.run(["rt", "try", "--", *found], cwd=CRATE, stdin=stdin, capture_output=True)
    ended = ENDED.search(ran.stderr)
    if not ended:
        reason = REASON.search(ran.stderr)
        raise NotSo(os.fsdecode(reason[1]) if reason else os.fsdecode(ran.stderr[-2000:]).strip())
    return int(ended[1]), as_given(ran.stdout, {}), as_given(ran.stderr[: ended.start()], given)


def main():
    words = sys.argv[1:]
    if not shutil.which("rt"):
        print("krbtool: the program isn't built, and building it needs the Rattle toolchain (rt)", file=sys.stderr)
        return 3
    # (about a minute goes by before the answer)
    print(f"krbtool: compiled for this run and not proved; for the proved program {MAKE}", file=sys.stderr, flush=True)
    try:
        status, out, said = run(words)
    except NotSo as why:
        print(f"krbtool: this can't be run unproved ({why}): {MAKE}", file=sys.stderr)
        return 3
    try:
        sys.stdout.buffer.write(out)
        sys.stdout.buffer.flush()
    except (OSError, AttributeError):
        said, status = b"krbtool: output: Write\n", 3
    sys.stderr.buffer.write(said)
    return status


if __name__ == "__main__":
    sys.exit(main())
