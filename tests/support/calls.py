"""Makes calls of the libraries by the programs of the crates krb_calls_*, and compares what they answer.

Such a program reads one call a line and answers one line for each; its crate's documentation says which calls. The
cases of a file tests/*/*.toml that names a program:

    program = "krb_calls_wire"     the program that makes the calls; a case may name another
    [[case]]
    name    what it shows; where its values come from, if not said once for the file
    lines   a call, or a list of calls; what an earlier line of the case made is there for the later ones
    answers what is answered: a text, or a list

A program that isn't one of crates/krb_calls_* is a module of tests/support, whose `answers(lines)` makes the calls by
the library for C (a test of such cases asks for the fixture `in_c`).

A case begins with nothing made: the line `new` goes before it, and is answered `new`. Bytes are hexadecimal digits, `-`
where there are none, `HEX*N` for HEX N times, several such joined by `+`; `@PATH` is a file of the repository. In an
answer, a word of bytes of more than 1,024 bytes stands as `#LENGTH:SHA256` (in a case it is written like the bytes of a
call). Of the programs krb_calls_exchange and exchange_in_c a text in braces stands for what exchange_made.py makes of
it.

A case of the exchange may have `calls` in place of lines: what follows `accept` in the line of a request. Each of them,
made to a fresh service over the keytab `keytab` (if there is none, the fixture's for both types) with a skew of 300 s,
has the answer of the same place: by the library for C; with both memories of krb_replay, by `serve` all at once; and
with the list by `accept`. (Of what is malformed the library for C says the place alone. Of what is accepted it says
all, and krb_calls_exchange the tuple.)
"""
import re
import subprocess
import tomllib
from collections import defaultdict
from importlib import import_module

from support import TESTS, TOP, exchange_made
from support.checks import slug
from support.exchange_made import SHOWN, shown

# How long a program may take for all calls of a test.
SECONDS = 1500

# The programs for whose cases messages are made.
EXCHANGE = ("krb_calls_exchange", "exchange_in_c")

PIECE = re.compile(r"(?:[0-9a-f]{2})+(?:\*[0-9]+)?")


def bytes_of(word):
    """The bytes that a word stands for, or None where it is no word of bytes."""
    if word == "-":
        return b""
    pieces = word.split("+")
    if not all(PIECE.fullmatch(it) for it in pieces):
        return None
    found = b""
    for it in pieces:
        digits, _, count = it.partition("*")
        found += bytes.fromhex(digits) * int(count or 1)
    return found


def given(line):
    """A call's line as the program reads it."""
    return " ".join((TOP / it[1:]).read_bytes().hex() if it.startswith("@") else it for it in line.split(" "))


def wanted(line):
    """An answer as the program gives it."""

    def word(it):
        if it.startswith("@"):
            return shown((TOP / it[1:]).read_bytes())
        is_long = ("*" in it or len(it) > 2 * SHOWN) and bytes_of(it) is not None
        return shown(bytes_of(it)) if is_long else it

    return " ".join(map(word, line.split(" ")))


def listed(it):
    return [it] if isinstance(it, str) else it


def spelled(program, texts):
    """Lines or answers, with what is made in the place of braces."""
    if program not in EXCHANGE:
        return texts
    return [re.sub(r"\{(\w[^}]*)\}", lambda it: exchange_made.written(it[1]), text) for text in texts]


def forms(case, program):
    """Each form of a case: the program, what is added to its name, the lines and the answers."""
    answers = listed(case["answers"])
    if "lines" in case:
        yield case.get("program", program), "", listed(case["lines"]), answers
        return
    calls, keytab = listed(case["calls"]), case.get("keytab", "{keytab}")
    accepts = [f"accept {it}" for it in calls]
    places = [re.sub(r"Malformed \w+", "Malformed", it) for it in answers]
    yield "exchange_in_c", ", timed, accept", [f"service timed 300 {keytab}", *accepts], ["service", *places]
    tuples = [it.replace("{accepted", "accepted {stamp") for it in answers]
    yield program, ", list, accept", [f"service list 300 {keytab}", *accepts], ["service", *tuples]
    for memory in ("list", "timed"):
        lines = [f"service {memory} 300 {keytab}", " ".join(["serve", *calls])]
        yield program, f", {memory}, serve", lines, ["service", " | ".join([str(len(tuples)), *tuples])]


def stored(folder="*"):
    """The cases of the files of a folder: program, name, lines, answers. Braces stand as they are."""
    for path in sorted(TESTS.glob(f"{folder}/*.toml")):
        with open(path, "rb") as file:
            table = tomllib.load(file)
        for case in table["case"] if "program" in table else ():
            unknown = set(case) - {"name", "lines", "answers", "calls", "keytab", "program"}
            if unknown:
                raise ValueError(f"{path.name}: {case.get('name')}: unknown keys {sorted(unknown)}")
            for program, form, lines, answers in forms(case, table["program"]):
                yield program, f"{path.stem}: {case['name']}{form}", lines, answers


def title(case):
    """The name of a case, as `pytest -k` takes it."""
    return slug(case[1])


def by_program(cases):
    """The cases of each program, each as a name, the lines that are given and those that are wanted."""
    found = defaultdict(list)
    for program, name, lines, answers in cases:
        if len(lines) != len(answers):
            raise ValueError(f"{name}: {len(lines)} lines, {len(answers)} answers")
        lines, answers = spelled(program, lines), spelled(program, answers)
        found[program].append((name, ["new", *map(given, lines)], ["new", *map(wanted, answers)]))
    return found


def joined(lists):
    return "".join(f"{line}\n" for lines in lists for line in lines)


def built(program):
    """The program, as it was built."""
    path = TOP / f"crates/{program}/out/{program}"
    if not path.is_file():
        raise FileNotFoundError(f"{program} isn't built: `(cd crates/{program} && rt run </dev/null)` builds it")
    return path


def is_built(program):
    """Whether a program is one of crates/krb_calls_*, and not a module that makes the calls by the library for C."""
    return program.startswith("krb_calls_")


def given_to(program, cases):
    """What the program answers to the lines of the cases, and what else there is to say of its run."""
    if not is_built(program):
        lines = [line for _, lines, _ in cases for line in lines]
        return list(import_module(f"support.{program}").answers(lines)), 0, b""
    ran = subprocess.run([built(program)], input=joined(lines for _, lines, _ in cases).encode(), capture_output=True,
                         timeout=SECONDS)
    return ran.stdout.decode(errors="replace").splitlines(), ran.returncode, ran.stderr


def from_difference(found, right):
    """Two answers, from the first word that differs on."""
    words = found.split(" "), right.split(" ")
    at = next((place for place, pair in enumerate(zip(*words)) if pair[0] != pair[1]), min(map(len, words)))
    return [" ".join([".."] * bool(at) + it[at:])[:600] for it in words]


def compared(program, cases):
    """The name of each case, and what is wrong with what the program answers, or None."""
    try:
        answers, status, errors = given_to(program, cases)
    except (OSError, subprocess.TimeoutExpired) as error:
        yield program, str(error)
        return
    at = 0
    for name, lines, right in cases:
        found = answers[at : at + len(right)]
        at += len(right)
        wrong = next((it for it in zip(lines, found, right) if it[1] != it[2]), None)
        if wrong:
            yield name, f"{wrong[0][:300]}: {', not '.join(from_difference(*wrong[1:]))}"
        else:
            ended = f"the program ended before its answers, with status {status}"
            yield name, None if len(found) == len(right) else ended
    ended_well = status == 0 and not errors and at == len(answers)
    wrong = f"status {status}, {errors[:300]!r}, {len(answers) - at} lines too many"
    yield f"{program} ends well", None if ended_well else wrong


def answered(cases, word=""):
    """Makes the calls of the cases whose names contain the word: the name of each, and what is wrong with the answers,
    or None."""
    for program, found in by_program(it for it in cases if word in it[1]).items():
        yield from compared(program, found)


def lay_out():
    """Writes crates/PROGRAM/stdin and stdout of the stored cases, on which `rt ci` runs each program as both compilers
    build it."""
    found = by_program(stored())
    for program, cases in ((it, found[it]) for it in found if is_built(it)):
        (TOP / f"crates/{program}/stdin").write_text(joined(lines for _, lines, _ in cases))
        (TOP / f"crates/{program}/stdout").write_text(joined(right for _, _, right in cases))
