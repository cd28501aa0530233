"""Requests made and answered by the program and by a second client and service (tests/support/model.py), on drawn
input."""
import random
import subprocess

import pytest

from support import exchange, model

SEED = 1510
SERVICES, CACHES = 100, 150
SECONDS = 300


def run(program, folder, file, words, given=""):
    (folder / "f").write_bytes(file)
    done = subprocess.run([program, *words], cwd=folder, input=given, capture_output=True, timeout=SECONDS, text=True)
    return done.stdout, done.stderr, done.returncode


def unlike(lines, answers, wrote):
    """The first line that is answered otherwise than here."""
    for line, wanted, found in zip(lines, answers, wrote.splitlines(keepends=True)):
        if found != wanted:
            return f"{line[:4000]} is answered {found!r}, not {wanted!r}"
    return None if len(answers) == wrote.count("\n") else f"{wrote.count(chr(10))} answers, not {len(answers)}"


def conversations(program, draw, folder):
    for number in range(SERVICES):
        file, words, lines, answers = exchange.conversation(draw)
        wrote, said, status = run(program, folder, file, words, "".join(f"{line}\n" for line in lines))
        wrong = unlike(lines, answers, wrote)
        wanted = int(any(it.startswith("refused") for it in answers))
        if not wrong and (said or status != wanted):
            wrong = f"it ends with {status} and says {said!r}"
        yield f"exchange: service {number}, {' '.join(words[2:])}", wrong and f"{file.hex()}: {wrong}", answers


def requests(program, draw, folder):
    for number in range(CACHES):
        file, words, wanted = exchange.asked(draw)
        found = run(program, folder, file, words)
        wrong = None if found == wanted else f"{file.hex()}: {words} gives {found}, not {wanted}"
        yield f"exchange: cache {number}, {wanted[1].strip() or 'a request'}", wrong, wanted


@pytest.mark.slow
def test_services(program, checks, tmp_path):
    """Each cause of a refusal comes at least a few times."""
    causes = []
    for name, wrong, answers in conversations(program, random.Random(SEED), tmp_path):
        causes += [it.split()[2] if it.startswith("refused") else "accepted" for it in answers]
        checks.add(name, wrong)
    assert exchange.lacking([*model.CODES, "accepted"], causes) is None


def test_clients(program, checks, tmp_path):
    """Each fault of a request comes at least a few times."""
    outcomes = []
    for name, wrong, wanted in requests(program, random.Random(SEED), tmp_path):
        outcomes.append(wanted[1].split()[-1] if wanted[1] else "made")
        checks.add(name, wrong)
    assert exchange.lacking(["NoCredential", "NoUsableKey", "Expired", "BadTicket", "made"], outcomes) is None
