"""What tests and crates keep beside the scripts that make it, layout aside.

Answers of the libraries' calls that are copied from a published document, or that were drawn once, are compared with
what the second implementation computes.
"""
import contextlib
import io
import re
import runpy
import subprocess
import sys

import pytest

from support import TESTS, TOP, aes, calls, codes, fixture, msg_values, readable, sealing, stealing
from support.checks import slug


def source(path):
    return (TOP / "crates" / path).read_text()


def same(found, wanted):
    return None if found == wanted else "it isn't what the script gives"


def printed(script):
    """What a script prints."""
    out = io.StringIO()
    with contextlib.redirect_stdout(out):
        runpy.run_path(str(TOP / script), run_name="__main__")
    return out.getvalue()


def numbers(text):
    return [int(it.replace("_", ""), 0) for it in re.findall(r"\b(?:0x[0-9a-fA-F_]+|[0-9][0-9_]*)\b", text)]


def generated():
    """What tools/generate makes of tables: the sources of messages, the files of the library for C, and krbtool's
    commands."""
    ran = subprocess.run([sys.executable, "-m", "tools.generate", "--check"], cwd=TOP, capture_output=True, text=True)
    return ran.stderr.strip() or same(ran.returncode, 0)


def tower_tables():
    made = re.findall(r"static (\w+): [^=]*=\s*\[(.*?)\];", printed("crates/krb_aes/docs/tower_tables.py"), re.S)
    found = re.findall(r"static (\w+): [^=]*=\s*\[(.*?)\];", source("krb_aes/src/tower.rt"), re.S)
    return same([(name, numbers(it)) for name, it in found], [(name, numbers(it)) for name, it in made])


# What lines answer of the ciphers, codes and keys first, as the second implementation computes it from their words.
COMPUTED = {
    "aes": lambda key, plain, cipher: [aes.encrypted(key, plain)] * 2 + [aes.decrypted(key, cipher)] * 2,
    "blocks": lambda key, *blocks: [aes.decrypted(key, it) for it in (*blocks[:2], *blocks)],
    "cts": lambda key, plain, cipher: [stealing.stolen(key, plain)] if len(plain) > 15 and len(cipher) > 15 else [],
    "hmac sha256": lambda key, *parts: [codes.code("sha256", key, *parts)] * 3,
    "hmac sha384": lambda key, *parts: [codes.code("sha384", key, *parts)] * 3,
}
PURPOSES = KC, KE, KI = 0x99, 0xAA, 0x55
TYPES = {16: 19, 32: 20}
# Longer texts take the second implementation minutes.
LONG = 10_000


# The same of lines of a key, by how many words they have. (Of the library for C those of `seal` have one more.)
OF_KEYS = {
    ("seal", 6): lambda *words: [sealing.sealed(*words)] * 2,
    ("tag", 5): lambda etype, key, usage, text: [
        sealing.mac(etype, sealing.derived(etype, key, usage, KI), bytes(16) + text),
        sealing.checksum(etype, key, usage, text)],
    ("checksum", 5): lambda *words: [sealing.checksum(*words)],
}


def of_key(etype, key, usage, *texts, compute):
    key, texts = calls.bytes_of(key), [calls.bytes_of(it) for it in texts]
    is_short = TYPES.get(len(key)) == int(etype) and sum(map(len, texts)) < LONG
    return compute(int(etype), key, int(usage), *texts) if is_short else []


def computed(line):
    """The first words of a line's answer, as far as they are computed here."""
    first, *words = line.split(" ")
    if first == "derive":
        key, usage = calls.bytes_of(words[0]), int(words[1])
        return [sealing.derived(TYPES[len(key)], key, usage, it) for it in PURPOSES] * 2 if len(key) in TYPES else []
    if first == "enc":
        compute = OF_KEYS.get((words[0], len(words)))
        return of_key(*words[1:], compute=compute) if compute else []
    if first == "hmac":
        return COMPUTED[f"hmac {words[0]}"](*map(calls.bytes_of, words[1:]))
    return COMPUTED[first](*map(calls.bytes_of, words)) if first in COMPUTED else []


def stored_answers():
    sealing.check()
    count, wrong = 0, []
    for _, name, lines, answers in calls.stored("crypto"):
        for line, answer in zip(lines, answers):
            found = [calls.wanted(it.hex() or "-") for it in computed(line)]
            count += len(found)
            if found != [calls.wanted(it) for it in answer.split(" ")[: len(found)]]:
                wrong.append(f"{name}: {line[:80]}: {found[0][:80]}")
    return (None if count > 480 else f"of only {count} words") if not wrong else f"wrong: {wrong}"


def messages_of_fixture():
    """The fixture's ticket and what is sealed in it, where they are stored in hexadecimal digits."""
    return same((msg_values.TICKET, msg_values.ENC_TICKET), (fixture.ticket(), fixture.ticket_part()))


def caches():
    """The fixture's caches stand among the cases of list-ccache."""
    text = (TESTS / "program/list-ccache.toml").read_text()
    missing = [name for name in ("cache", "configured cache") if f'"{fixture.made()[name].hex()}"' not in text]
    return f"not there: {missing}" if missing else None


def exchange():
    """The requests, replies and the error of the fixture stand among the cases of the exchange, and have the sizes that
    they had when they were made."""
    made = fixture.made()
    text = "".join((TESTS / f"exchange/{it}.toml").read_text() for it in ("request", "replies"))
    names = ["configured cache", "request", "mutual request with a subkey and a number", "reply",
             "reply with a subkey and a number", "error"]
    missing = [name for name in names if not re.search(rf'["\b ]{made[name].hex()}"', text)]
    sizes = [len(made[it]) for it in ("ticket part", "ticket", "cache", "configured cache", "request", "reply",
                                      "error")]
    return f"not there: {missing}" if missing else same(sizes, [119, 214, 352, 178, 348, 87, 73])


# A client's call for a request in a context: whether it asks for a reply, its number, its flags and its bindings.
IN_CONTEXT = re.compile(r"(?:request|initiate) \S+ 1700000100 5 202122232425262728292a2b2c2d2e2f "
                        r"(\w+) none (\w+) (\d+)/([0-9a-f]{32})")


def contexts():
    """The requests of a client of GSS-API are those of the fixture."""
    count, wrong = 0, []
    for program, name, lines, answers in calls.stored("exchange"):
        for line, answer in zip(calls.spelled(program, lines), calls.spelled(program, answers)):
            if it := IN_CONTEXT.fullmatch(line):
                is_mutual, number = it[1] == "mutual", None if it[2] == "none" else int(it[2])
                checksum = fixture.context(is_mutual, int(it[3]), bytes.fromhex(it[4]))
                made = fixture.request(0x20000000 if is_mutual else 0, number=number, checksum=checksum)
                count += 1
                wrong += [] if made.hex() == answer else [f"{name}: {line}"]
    return (None if count >= 10 else f"of only {count} requests") if not wrong else f"wrong: {wrong}"


def example():
    """The files that the example of LIBRARY.md runs on."""
    found = [(TOP / "crates/krb_example/data" / name).read_bytes()
             for name in ("service.keytab", "client.ccache", "request")]
    return same(found, [fixture.keytab(), fixture.cache(), fixture.request()])


TABLES = {
    "the fixture's messages": messages_of_fixture,
    "the fixture's caches": caches,
    "the fixture's requests and replies": exchange,
    "the fixture's requests in a context": contexts,
    "the example's keytab, cache and request": example,
    "the tables of the S-box on lanes": tower_tables,
    "what tools/generate makes": generated,
    "stored answers of the ciphers, codes and keys": stored_answers,
}


@pytest.mark.parametrize("table", TABLES, ids=slug)
def test_table(table):
    assert TABLES[table]() is None


def test_readable():
    """The second reading of tables says what other sources say."""
    readable.check()
