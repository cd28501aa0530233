"""Programs that talk with krbtool accept: each waits for the answer to its line before it writes the next. And lines
that are long."""
import select
import subprocess
import tomllib

import pytest

from support import TESTS

SECONDS = 300


@pytest.fixture
def stored(tmp_path):
    """A keytab, a request and its answer, as accept.toml has them."""
    with open(TESTS / "program/accept.toml", "rb") as file:
        case = next(it for it in tomllib.load(file)["case"] if it["name"] == "a request alone")
    (tmp_path / "k").write_bytes(bytes.fromhex(case["files"]["k"]))
    return tmp_path / "k", case["stdin"], case["stdout"]


def asked(child, line, wanted):
    """What is wrong with the answer to a line, or None."""
    child.stdin.write(line.encode())
    child.stdin.flush()
    if not select.select([child.stdout], [], [], SECONDS)[0]:
        return f"no answer to {line[:40]!r} within {SECONDS} seconds"
    answer = child.stdout.readline().decode()
    return None if answer == wanted else f"the answer to {line[:40]!r} is {answer!r}, not {wanted!r}"


def test_line_by_line(program, stored):
    keytab, request, accepted = stored
    steps = [
        ("1700000100 5 -\n", "refused 60 Malformed\n"), (request, accepted), (request, "refused 34 Repeat\n"),
        ("x\n", "bad line\n"), ("1700000100 5 30\n", "refused 40 MessageType\n"),
    ]
    with subprocess.Popen([program, "accept", keytab], stdin=subprocess.PIPE, stdout=subprocess.PIPE,
                          bufsize=0) as child:
        for line, wanted in steps:
            wrong = asked(child, line, wanted)
            if wrong:
                child.kill()
            assert wrong is None
        child.stdin.close()
        assert child.wait(SECONDS) == 1


def test_long_lines(program, stored):
    """A line of 4,194,304 bytes is read; one of a byte more is bad, and so is one of 64 MiB; the line after each is
    answered."""
    fits, over = "1700000100 05 " + "30" * 2_097_145, "1700000100 005 " + "30" * 2_097_145
    assert len(fits) == 4_194_304 and len(over) == 4_194_305
    lines = "\n".join([fits, "1700000100 5 -", over, "1700000100 5 30", "3" * 2**26, "1700000100 5 -"])
    good, bad = "refused 40 MessageType\n", "refused 60 Malformed\n"
    wanted = f"{good}{bad}bad line\n{good}bad line\n{bad}"
    ran = subprocess.run([program, "accept", stored[0]], input=lines.encode(), capture_output=True, timeout=2 * SECONDS)
    assert (ran.stdout.decode(), ran.returncode) == (wanted, 1)
