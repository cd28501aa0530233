"""The program while its reads and writes fail, one after another, by a preloaded library (tests/support/fail.c).

Of each command every read, and every write, fails in turn, alone and with all that come after it; is interrupted by a
signal; or moves a single byte. A failure is named, with status 3; what was written before it is a beginning of what is
written where all goes well, and of accept the answers to all whole lines that came. A read or write that is short
changes nothing.
"""
import pytest

from support import preload
from support.preload import ALL, OLD

# How many bytes of standard input accept asks for at a time.
PIECE = 65_536


def many_lines(program):
    """A service that gets so many lines that standard input takes more than one read."""
    lines = preload.calls(program).stdin.splitlines(keepends=True)
    return preload.with_answer(program, preload.called(lines * 100))


def answers_to(command, reads):
    """The answers to the whole lines of what so many reads of standard input gave."""
    came = command.stdin[:reads * PIECE].count(b"\n")
    return b"".join(command.wrote.splitlines(keepends=True)[:came])


def is_unread(command, found, failed):
    """Whether the run is that of a failed read: of a file, or of standard input."""
    if found.status != 3:
        return False
    # each file is read once more, to find its end
    files = "ff" if command.other is None else "ffgg"
    if failed <= len(files):
        said = f"krbtool: {files[failed - 1]}: Read\n"
        is_kept = command.out == OLD or command.is_replacing
        return found.said == said and not found.wrote and found.out == (OLD if is_kept else b"")
    wrote = answers_to(command, failed - len(files) - 1)
    return found.said == "krbtool: input: Read\n" and found.wrote == wrote and found.out == OLD


def is_unwritten(command, found):
    """Whether the run is that of a failed write: into OUT, or of standard output."""
    if found.said == "krbtool: out: File\n":
        return found.status == 3 and not found.wrote and command.is_begun(found.out) and found.out != command.out
    # a buffer whose write failed once tries again when it is dropped, so all may have been written
    begins = command.wrote.startswith(found.wrote)
    return found.status == 3 and found.said == "krbtool: output: Write\n" and begins and found.out == command.out


def is_right(command, call, how, lasting, failed, found):
    if found.left:
        return False
    if how == "short":
        return found.is_well(command)
    if how == "interrupted" and found.is_well(command):
        return True
    if lasting and call == "write":
        # no fault's line can be written then
        begins = command.wrote.startswith(found.wrote) and command.is_begun(found.out)
        return found.status == 3 and not found.said and begins
    return is_unread(command, found, failed) if call == "read" else is_unwritten(command, found)


def swept(program, command, call, how, lasting, preloaded):
    """What is wrong with a run in which a call fails, or None where each such run is right."""
    for failed in range(1, ALL):
        found, met = preload.run(program, command, preloaded, failed, lasting, FAIL_CALL=call, FAIL_HOW=how)
        if not met:
            return None if found.is_well(command) and failed > 1 else f"where {failed} calls go well it gives {found}"
        if not is_right(command, call, how, lasting, failed, found):
            return f"where {call} {failed} is met by '{how}' it gives {found}"
    return "it reads or writes again and again"


@pytest.fixture(scope="module")
def failing(tmp_path_factory):
    return preload.library(tmp_path_factory.mktemp("failing"), "fail")


@pytest.mark.parametrize("how, lasting", [("error", False), ("error", True), ("interrupted", False), ("short", False),
                                          ("short", True)])
@pytest.mark.parametrize("call", ["read", "write"])
@preload.parameters(*preload.SERVICES, ("accept-many-lines", many_lines))
def test_failing(program, failing, make, call, how, lasting):
    wrong = swept(program, make(program), call, how, lasting, failing)
    assert wrong is None
