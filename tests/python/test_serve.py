"""examples/serve.py answers requests."""
import re
import subprocess
import sys

from support import der, fixture, gss_rules
from support.c_programs import KEYED, message


def served(*words, lines):
    """What it answers: the first two words of each line, and the bytes of the third in hex."""
    command = [sys.executable, "-B", "examples/serve.py", "examples/service.keytab", "host/web@EX", *words, "--at",
               "1700000100"]
    ran = subprocess.run(command, input="".join(f"{line}\n" for line in lines), capture_output=True, text=True)
    assert ran.stderr == ""
    found = [line.rsplit(" ", 1) for line in ran.stdout.splitlines()]
    return [line for line, _ in found], [last for _, last in found]


def error_of(code):
    """The fixture's error, but without microseconds."""
    return fixture.error(code).replace(der.field(5, der.integer(7)), der.field(5, der.integer(0))).hex()


def test_requests():
    plain, keyed = message("request"), message(KEYED)
    lines, last = served("--first", lines=[plain, plain, keyed, "30", ""])
    assert lines == ["accepted alice@EX", "refused REPEAT", "refused REPEAT", "refused NOT_A_TOKEN",
                     "refused NOT_A_TOKEN"]
    # (an error goes to a client that asks for a reply)
    assert last[:3] == ["-", "-", error_of(34)]


def test_tokens_and_rounds():
    first = gss_rules.negotiation([gss_rules.KERBEROS], None)
    token = gss_rules.kerberos(gss_rules.KERBEROS, bytes.fromhex(message(KEYED)))
    lines, last = served("--first", lines=[first.hex(), token.hex(), b"NTLMSSP".hex()])
    assert lines == ["go-on -", "accepted alice@EX", "refused NOT_A_TOKEN"]
    assert last[0] == gss_rules.response(gss_rules.KERBEROS, None, 1).hex()
    assert last[1].startswith("60") and last[2] == "-"


def test_it_may_have_run_before():
    assert served(lines=[message("request")])[0] == ["refused JUST_STARTED"]


def test_reply():
    _, last = served("--first", lines=[message(KEYED)])
    assert re.fullmatch(r"6f55[0-9a-f]{170}", last[0])
