"""The program while its calls for memory are refused, one after another, by a preloaded library
(tests/support/refuse.c).

Of each command every call is refused in turn, alone and with all that come after it, until a run meets no refusal. Such
a run ends by itself, says that there was no memory, and writes nothing that is wrong. (Only std's `collect` passes over
a refusal: where room for all words at once is refused, it asks again as it goes.) Where accept answers a line with out
of memory, its later answers are those of a service that never got that line; and where it has no room for a reply or an
error, the answer ends without it.
"""
import pytest

from support import preload
from support.preload import ALL, OLD, Command

# The line of a refusal before the command is known.
WORDS = "krbtool: words: OutOfMemory\n"
# What of a command is refused memory, besides its first file and its options: a second file, and words of its own.
NAMED = {"add-keys": ["g"], "request": ["service"], "finish": ["service", "reply"], "pick-key": ["name"]}
# The request whose reply is read.
PENDING = ("finish", "krbtool: request: OutOfMemory\n")
# The answer of accept to a line whose call was refused memory.
REFUSED = b"refused none OutOfMemory\n"


def named(command):
    """The line of a refusal while the words of a command are read."""
    return WORDS if command.words[0].startswith("-") else f"krbtool: {command.words[0]}: OutOfMemory\n"


def parts(command):
    """The lines that say which part of a command was refused memory."""
    options = [it for it in ("service", "only") if f"--{it}" in command.words]
    return {f"krbtool: {part}: OutOfMemory\n" for part in ["f", *NAMED.get(command.words[0], []), *options]}


def without_the_refused(program, command, answers):
    """The answers to the lines that were answered, by a service that gets only those lines that weren't refused
    memory."""
    lines = command.stdin.splitlines(keepends=True)[:len(answers)]
    taken = [line for line, answer in zip(lines, answers) if answer != REFUSED]
    given = iter(preload.run(program, preload.called(taken, *command.words[2:]))[0].wrote.splitlines(keepends=True))
    return [REFUSED if answer == REFUSED else next(given) for answer in answers]


def without_tail(answer):
    """The answer as it is where there was no room for what follows it."""
    for word in (b" reply ", b" error "):
        answer = answer.split(word)[0].removesuffix(b"\n") + b"\n"
    return answer


def is_answered(program, command, found):
    """Whether accept answered as it should, where it was refused memory: it says so, or a line lacks what follows it
    elsewhere."""
    answers = found.wrote.splitlines(keepends=True)
    wanted = without_the_refused(program, command, answers)
    if any(answer not in (it, without_tail(it)) for answer, it in zip(answers, wanted)):
        return False
    if len(answers) == command.stdin.count(b"\n"):
        return (REFUSED in answers or answers != wanted) and found.said == ""
    return found.said == "krbtool: accept: OutOfMemory\n"


def is_named(program, command, found):
    """Whether the run's lines say that the command, or its file, was refused memory, and nothing wrong was written."""
    unmade = OLD if command.out == OLD or command.is_replacing else b""
    if found.status != 3 or found.left or found.out not in (command.out, unmade):
        return False
    if found.said in parts(command) or (command.words[0], found.said) == PENDING:
        return not found.wrote
    if command.stdin:
        return is_answered(program, command, found)
    begins = command.wrote.startswith(found.wrote) and command.wrote != found.wrote
    return begins and found.said == f"krbtool: {command.words[0]}: OutOfMemory\n"


def stage_of(program, command, found, stage):
    """Where in a run memory was refused, from a stage on: before the command is known (0), while its words are read
    (1), in the command (2); or None where the run is none such."""
    lines = [WORDS, named(command)]
    if found.status == 3 and found.out == OLD and not found.wrote and found.said in lines[stage:]:
        return lines.index(found.said, stage)
    return 2 if is_named(program, command, found) else None


def end_of(command, found):
    """How a run of accept ends: by which fault's line, or with which of its answers other than where there is
    memory."""
    good, answers = command.wrote.splitlines(), found.wrote.splitlines()
    return found.said or "".join(answer.decode() for answer, it in zip(answers, good) if answer != it)


def unmet(command, ends):
    """Which parts of a command were refused memory by no run in which one call is refused; and which ways to end a
    service with tails were met by none."""
    if command.wrote is None or not command.file:
        return set()
    if command.words[2:] != list(preload.TAILS):
        return parts(command) - ends
    faults = {WORDS, named(command), *parts(command)}
    good = command.wrote.splitlines(keepends=True)
    return (faults | {without_tail(it).decode().strip() for it in good[:2]}) - ends


def swept(program, command, last, preloaded, lasting):
    """What is wrong with a run in which a call is refused, or None where each such run is right, up to the last
    stage."""
    stage = passed_over = 0
    ends = set()
    for refused in range(1, ALL):
        found, met = preload.run(program, command, preloaded, refused, lasting)
        well = found.is_well(command)
        if not met:
            lacking = set() if lasting else unmet(command, ends)
            wrong = f"no run ends with {lacking}, and where {refused} calls are granted: {found}"
            return None if well and stage == last and not lacking else wrong
        ends.add(end_of(command, found))
        if well and not lasting and stage == 0 and passed_over < preload.PASSED_OVER:
            passed_over += 1
            continue
        at = stage_of(program, command, found, stage)
        if at is None:
            return f"where call {refused} is refused it gives {found}"
        stage = at
    return "it calls for memory again and again"


HELP = [(name, lambda program, words=words: Command(words, b"", b"", None, OLD)) for name, words in (
    ("help", ["--help"]), ("list-keytab-help", ["list-keytab", "--help"]))]


@pytest.fixture(scope="module")
def refusing(tmp_path_factory):
    return preload.library(tmp_path_factory.mktemp("refusing"), "refuse")


@pytest.mark.parametrize("lasting", [False, True], ids=["one", "all-after-it"])
@preload.parameters(*HELP, *preload.SERVICES, ("accept-for-another", preload.calls_for_another))
def test_refused_memory(program, refusing, make, lasting):
    command = make(program)
    # after clap's text nothing comes, and if it names no command, it isn't told from what comes before
    last = 2 if command.wrote is not None else int(named(command) != WORDS)
    if command.wrote is None:
        command = preload.with_answer(program, command)
    wrong = swept(program, command, last, refusing, lasting)
    assert wrong is None
