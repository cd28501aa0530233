"""Gives each command a file without an end (a named pipe), and counts what the program takes of it.

A file has at most 16,777,216 bytes. An engine takes one byte more, to know that there is one; the program reads pieces
of 64 KiB, so it takes at most a piece more, and says TooLong.
"""
import os
import struct
import subprocess
import time

import pytest

from support import EXAMPLES

LIMIT = 16_777_216
PIECE = bytes(64 * 1024)
SECONDS = 300
# How each kind of file begins: a hole, and a second ticket, that is longer than any file may be.
KEYTAB = b"\x05\x02" + struct.pack(">i", -0x7fffffff)
CACHE = (EXAMPLES / "client.ccache").read_bytes()
LONG = CACHE[:-4] + struct.pack(">I", 0x7fffffff)
SERVICE = "host/web.example.com@EXAMPLE.COM"
OTHER = str(EXAMPLES / "service.keytab")
AT = ["--time", "1700000000", "--usec", "0"]
COMMANDS = (
    (KEYTAB, ["list-keytab", "f"]),
    (KEYTAB, ["list-keytab", "--readable", "f"]),
    (KEYTAB, ["check-keytab", "f"]),
    (KEYTAB, ["convert-keytab", "f", "out"]),
    (KEYTAB, ["convert-keytab", "f", "out", "--replace"]),
    (KEYTAB, ["pick-key", "f", SERVICE, "19"]),
    (KEYTAB, ["remove-key", "f", "0", "--out", "out"]),
    (KEYTAB, ["add-keys", "f", OTHER, "--out", "out"]),
    (KEYTAB, ["add-keys", OTHER, "f", "--out", "out"]),
    (KEYTAB, ["accept", "f"]),
    (KEYTAB, ["accept", "f", "--tokens"]),
    (LONG, ["list-ccache", "f"]),
    (LONG, ["list-ccache", "--readable", "--now", "1700000000", "f"]),
    (LONG, ["check-ccache", "f"]),
    (LONG, ["convert-ccache", "f", "out"]),
    (LONG, ["request", "f", SERVICE, *AT, "--confounder", "00" * 16]),
    (LONG, ["request", "f", SERVICE, *AT, "--confounder", "00" * 16, "--token", "spnego"]),
    (LONG, ["finish", "f", SERVICE, *AT, "--reply", "00"]),
)


def written(pipe, child, head):
    """How many bytes were written into the pipe until the program ended."""
    count, left, last = 0, head, time.monotonic() + SECONDS
    while child.poll() is None:
        if time.monotonic() > last:
            child.kill()
        try:
            wrote = os.write(pipe, left or PIECE)
        except BlockingIOError:
            time.sleep(0.0005)
            continue
        count, left = count + wrote, left[wrote:]
    return count


def remaining(pipe):
    """How many bytes the program left in the pipe."""
    count = 0
    while True:
        try:
            count += len(os.read(pipe, len(PIECE)))
        except BlockingIOError:
            return count


def taken(program, room, head, words):
    """How many bytes of the pipe the program took, and how it ended."""
    os.mkfifo(room / "f")
    pipe = os.open(room / "f", os.O_RDWR | os.O_NONBLOCK)
    try:
        how = {"cwd": room, "stdin": subprocess.DEVNULL, "stdout": subprocess.PIPE, "stderr": subprocess.PIPE,
               "text": True}
        with subprocess.Popen([program, *words], **how) as child:
            count = written(pipe, child, head)
            wrote, said = child.communicate()
        return count - remaining(pipe), (child.returncode, wrote, said)
    finally:
        os.close(pipe)
        os.remove(room / "f")


@pytest.mark.parametrize("head, words", COMMANDS,
                         ids=lambda it: "-".join(map(str, it[:2])) if isinstance(it, list) else "")
def test_endless(program, tmp_path, head, words):
    """A command takes at most a piece more of a file than it may have."""
    count, found = taken(program, tmp_path, head, words)
    assert found == (1, "", "krbtool: f: TooLong\n")
    assert LIMIT < count <= LIMIT + 1 + len(PIECE)
