"""The program within less and less address space, in steps (setrlimit, as the shell's `ulimit -v`).

Wherever the program starts at all, a run ends by itself: it does what it should, or says that there was no memory; no
signal ends it, and nothing wrong is written.
"""
import resource
import struct
import subprocess

import pytest

from support import EXAMPLES, fixture, generated, preload
from support.checks import slug
from support.preload import Command, Found

STEP = 128 * 1024
# How long the one record of a file is.
LONG = 1024 * 1024
SAID = ("krbtool: words: OutOfMemory\n", "krbtool: f: OutOfMemory\n")


def run(program, room, command, limit):
    def limited():
        resource.setrlimit(resource.RLIMIT_AS, (limit, limit))

    (room / "out").write_bytes(preload.OLD)
    done = subprocess.run([program, *command.words], cwd=room, preexec_fn=limited, input=command.stdin,
                          capture_output=True, timeout=preload.SECONDS)
    return Found(done.returncode, done.stdout, done.stderr.decode(errors="replace"), (room / "out").read_bytes())


def is_named(command, found):
    """Whether a run says that there was no memory, and wrote nothing wrong."""
    said = (*SAID, f"krbtool: {command.words[0]}: OutOfMemory\n")
    begins = command.wrote.startswith(found.wrote) and found.out in (b"", preload.OLD)
    return found.status == 3 and found.said in said and begins


def least(program, room):
    """The least address space, in steps, in which the program starts."""
    command = Command(["--help"], b"", b"", None, preload.OLD)
    limit = STEP
    while run(program, room, command, limit).status != 0:
        limit += STEP
    return limit


def file_of(word):
    """A file that takes some steps more than none: of many records, or for a check, which has one at hand at a time, of
    a long one."""
    record = (EXAMPLES / "service.keytab").read_bytes()[6:]
    cache = (EXAMPLES / "client.ccache").read_bytes()
    if word == "check-keytab":
        return b"\x05\x02" + struct.pack(">i", len(record) + LONG) + record + bytes(LONG)
    if word == "check-ccache":
        names = fixture.principal(1, b"EX", b"alice"), fixture.principal(3, b"EX", b"host", b"web")
        return cache[:27] + fixture.credential(*names, 19, bytes(16), (0, 0, 0, 0), bytes(LONG))
    if "keytab" in word:
        return b"\x05\x02" + (struct.pack(">i", len(record)) + record) * 20_000
    return cache[:27] + cache[27:] * 3_000


def stepped(program, room, command, first):
    """What is wrong with a run in one of the steps, or None."""
    (room / "f").write_bytes(command.file)
    wanted = run(program, room, command, resource.RLIM_INFINITY)
    if wanted.status != command.status:
        return f"with ample memory it gives {wanted.status} {wanted.said!r}"
    command = Command(command.words, command.file, command.stdin, wanted.wrote, wanted.out, wanted.status)
    named, limit = 0, first
    while (found := run(program, room, command, limit)) != wanted:
        if not is_named(command, found):
            return f"within {limit} bytes it gives {found.status} {found.wrote[:200]!r} {found.said!r}"
        named += 1
        limit += STEP
    return None if named or command.stdin or len(command.file) < STEP else "no run was short of memory"


def reading(word):
    """A command that reads a file of some steps."""
    words = [word, "f", "out"] if word.startswith("convert") else [*word.split(), "f"]
    return Command(words, file_of(word), b"", None, preload.OLD)


COMMANDS = {
    **{slug(word): lambda _, word=word: reading(word) for word in generated.COMMANDS},
    "request": lambda _: preload.requested(),
    "request-token": lambda _: preload.requested_token(),
    "accept-with-replies": preload.calls_with_tails,
    "accept-tokens": preload.calls_with_tokens,
}


@pytest.mark.parametrize("name", COMMANDS)
def test_less_and_less_memory(program, tmp_path, name):
    wrong = stepped(program, tmp_path, COMMANDS[name](program), least(program, tmp_path))
    assert wrong is None
