"""The program's commands, run beside a preloaded library of C (refuse.c, fail.c; a C compiler makes them)."""
import os
import subprocess
import tempfile
from dataclasses import dataclass, field
from pathlib import Path

import pytest

from support import EXAMPLES, TESTS, der, drawn_files, fixture, generated, generated_edits, gss_rules, reference
from support.checks import slug
from support.generated_exchange import entry

OLD = b"what OUT held"
# More calls than any command makes.
ALL = 1_000_000
# How many times the words are collected: where room for all words at once is refused, std asks again as it goes.
PASSED_OVER = 2
SECONDS = 300
TAILS = ("--service", "host/web@EX")
CONFOUNDER = bytes(range(0x20, 0x30)).hex()
# A key that no hole of the examples is long enough for.
LONG = entry([b"host", b"w" * 300], 7, 20, bytes(range(32)))


@dataclass
class Command:
    """A command's words; the bytes of its file and of standard input; what it writes where all goes well, on standard
    output (None where that is clap's text) and into OUT; its status then; and the bytes of a second file, if it has
    one."""
    words: list
    file: bytes
    stdin: bytes
    wrote: bytes
    out: bytes
    status: int = 0
    other: bytes | None = None

    @property
    def is_replacing(self):
        """Whether OUT is replaced by a new file, so that it always holds what it held or all that it is to hold."""
        return "--out" in self.words or "--replace" in self.words

    def is_begun(self, out):
        """Whether OUT may hold this if the command fails."""
        if self.is_replacing:
            return out in (OLD, self.out)
        return self.out.startswith(out)


@dataclass
class Found:
    """Status, standard output, standard error, OUT, and the names of files that weren't there before."""
    status: int
    wrote: bytes
    said: str
    out: bytes
    left: list = field(default_factory=list)

    def is_well(self, command):
        return self == Found(command.status, command.wrote, "", command.out)


def file_commands():
    keytab, cache = ((EXAMPLES / it).read_bytes() for it in ("mit-holes.keytab", "heimdal.ccache"))
    for word, (_, command) in generated.COMMANDS.items():
        file = keytab if "keytab" in word else cache
        if word.startswith("convert"):
            made = command(file)
            wrote = f"wrote {len(made)}\n".encode()
            yield Command([word, "f", "out"], file, b"", wrote, made)
            yield Command([word, "f", "out", "--replace"], file, b"", wrote, made)
        else:
            yield Command([*word.split(), "f"], file, b"", command(file).encode(), OLD)
    yield requested()
    yield requested_token()
    yield finished()
    yield picked()
    yield removed(keytab)
    yield added(keytab)


def requested():
    words = "request f host/web@EX --time 1700000100 --usec 5 --mutual --confounder".split() + [CONFOUNDER]
    return Command(words, fixture.cache(), b"", f"{fixture.request(0x20000000).hex()}\n".encode(), OLD)


def requested_token():
    command, request = requested(), fixture.request(0x20000000, number=0, checksum=fixture.context(True))
    token = gss_rules.negotiation([gss_rules.KERBEROS], gss_rules.kerberos(gss_rules.KERBEROS, request))
    return Command([*command.words, "--token", "spnego"], command.file, b"", f"{token.hex()}\n".encode(), OLD)


def finished():
    words = "finish f host/web@EX --time 1700000100 --usec 5 --reply".split()
    reply = fixture.reply(der.key(20, bytes(32)), 7)
    return Command([*words, reply.hex()], fixture.cache(), b"", b"agreed alice@EX 19 seq 7 subkey 20\n", OLD)


def picked():
    words = "pick-key f host/web@EX 19 --kvno 3".split()
    return Command(words, fixture.keytab(), b"", b"3 19 1700000000 host/web@EX\n", OLD)


def removed(keytab):
    made = drawn_files.removed(keytab, 2)
    return Command("remove-key f 2 --out out".split(), keytab, b"", f"wrote {len(made)}\n".encode(), made)


def added(keytab):
    """Two keys are added to a keytab with a hole: one fits, the other comes last."""
    others = (EXAMPLES / "service.keytab").read_bytes() + reference.record_of(LONG)
    made = generated_edits.extended(keytab, others)
    return Command("add-keys f g --out out".split(), keytab, b"", f"wrote {len(made)}\n".encode(), made, other=others)


def called(lines, *more):
    """The command accept over these lines. What it answers is not known yet."""
    return Command(["accept", "f", *more], (EXAMPLES / "service.keytab").read_bytes(), b"".join(lines), None,
                   OLD)


def library(folder, name):
    """The library of this name (tests/support/NAME.c), built in the folder."""
    made = folder / f"{name}.so"
    words = ["cc", "-shared", "-fPIC", "-O1", "-o", made, TESTS / f"support/{name}.c"]
    built = subprocess.run(words, capture_output=True, text=True)
    if built.returncode:
        pytest.fail(built.stderr)
    return made


def numbers(first, lasting, met):
    """The variables that name the calls which a preloaded library meets (preloaded.h): one, or all from it on; and the
    file that it then makes."""
    return {"CALL_FIRST": str(first), "CALL_LAST": str(ALL if lasting else first), "CALL_MET": str(met)}


def run(program, command, preloaded=None, first=1, lasting=False, **more):
    """What a run gives, and whether the library met a call."""
    with tempfile.TemporaryDirectory(prefix="krbtool-preload-") as name:
        room = Path(name)
        (room / "f").write_bytes(command.file)
        if command.other is not None:
            (room / "g").write_bytes(command.other)
        (room / "out").write_bytes(OLD)
        (room / "stdin").write_bytes(command.stdin)
        if preloaded:
            more = {"LD_PRELOAD": str(preloaded), **numbers(first, lasting, room / "met"), **more}
        with open(room / "stdin", "rb") as stdin:
            done = subprocess.run([program, *command.words], cwd=room, env={**os.environ, **more}, stdin=stdin,
                                  capture_output=True, timeout=SECONDS)
        left = sorted({it.name for it in room.iterdir()} - {"f", "g", "out", "stdin", "met"})
        said, out = done.stderr.decode(errors="replace"), (room / "out").read_bytes()
        found = Found(done.returncode, done.stdout, said, out, left)
        return found, (room / "met").exists()


def with_answer(program, command):
    """The command, with what it writes and its status where all goes well."""
    found, _ = run(program, command)
    return Command(command.words, command.file, command.stdin, found.wrote, found.out, found.status)


def calls(program):
    """Lines of each kind: a request, the same again, no request, another form, and a repeat."""
    lines = (EXAMPLES / "calls.txt").read_bytes().splitlines(keepends=True)
    return with_answer(program, called(lines + lines[:1]))


def calls_with_tails(program):
    """A service of this name, which gets a request for a reply, no request, another form, and the first again."""
    mutual = f"1700000100 5 {fixture.request(0x20000000).hex()} {'5a' * 16}\n".encode()
    return with_answer(program, called([mutual, b"1700000100 7 -\n", b"hello\n", mutual], *TAILS))


def calls_for_another(program):
    """A service of another name than the request's, which refuses it."""
    return with_answer(program, called([f"1700000100 5 {fixture.request().hex()}\n".encode()], "--only",
                                       "host/other@EX"))


def calls_with_tokens(program):
    """The same service, which gets tokens: a request for a reply, no request, another form, bytes that aren't a token,
    and the first again."""
    around = [lambda it: gss_rules.kerberos(gss_rules.KERBEROS, it),
              lambda it: gss_rules.negotiation([gss_rules.MICROSOFT], gss_rules.kerberos(gss_rules.KERBEROS, it))]
    mutual, none = around[1](fixture.request(0x20000000)), around[0](b"")
    lines = [f"1700000100 {micros} {token.hex()} {'5a' * 16}\n".encode() for micros,
             token in ((5, mutual), (7, none), (8, mutual[:-1]), (9, mutual))]
    return with_answer(program, called([*lines[:2], b"hello\n", *lines[2:]], *TAILS, "--tokens"))


def parameters(*more):
    """The commands that read files, and those of a name and a function that makes one of the program: parameters `make`
    of a test."""
    of_files = [pytest.param(lambda _, it=it: it, id=slug(" ".join(it.words[:4]))) for it in file_commands()]
    return pytest.mark.parametrize("make", [*of_files, *(pytest.param(make, id=name) for name, make in more)])


# A service that gets lines of each kind, and one that gets tokens.
SERVICES = [("accept", calls), ("accept-with-replies", calls_with_tails), ("accept-tokens", calls_with_tokens)]
