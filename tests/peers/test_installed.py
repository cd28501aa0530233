"""The examples in C and Python over the installed packages, beside MIT krb5's client and service and Heimdal's client.

The packages' files lie in a folder of their own, in which pkg-config, the loader and Python find them, and nowhere
else.
"""
import shutil

import pytest

from support import packing

from support import conversations, tickets
from support.checks import slug
from support.kdc import Trouble
from support.sides import LIBRARIES, now

pytestmark = [pytest.mark.packages, pytest.mark.slow, pytest.mark.xdist_group("realms")]


@pytest.fixture(scope="module")
def folder(world):
    made = world.folder / "installed"
    made.mkdir()
    return made


@pytest.fixture(scope="module")
def installed(folder, lock):
    """Makes the packages, and unpacks them below the folder."""
    with lock:
        made = packing.run("make")
        ran, files = packing.packed(folder / "packed") if made.returncode == 0 else (made, [])
    if ran.returncode:
        raise Trouble(f"no packages: {packing.wrong(ran)}")
    return packing.unpacked(files, folder / "root")


@pytest.fixture(scope="module")
def realm(world, installed, folder):
    """The realm with tickets for two services, of type 19 and 20, and the programs that talk."""
    for name, (first, *more) in conversations.SOURCES.items():
        words = *conversations.DEFINED, *more, *conversations.LIBRARIES
        assert packing.wrong(installed.compiled(first, folder / name, *words)) is None
    conversations.built(folder)
    realm = world.mit
    assert world.tickets
    shutil.copy(realm.folder / "web.keytab", realm.folder / "good.keytab")
    tickets.bend(realm.folder / "good.keytab", realm.folder / "bent.keytab")
    realm.cache("alice", "one", conversations.SERVICES.values())
    return realm


def test_flags(installed):
    """pkg-config knows this library alone."""
    assert installed.flags("--variable=libdir") == [str(installed.libraries)]


def test_session_types(realm):
    assert conversations.session_types(realm) == {19: 19, 20: 20}


@pytest.mark.parametrize("client, service, etype", conversations.PAIRS)
def test_conversation(installed, folder, realm, client, service, etype):
    conversations.check(folder, realm, client, service, etype, LD_LIBRARY_PATH=str(installed.libraries))


def served(installed, ticket, requests):
    """What examples/serve.py answers to requests, as the words of its lines."""
    words = ["/usr/bin/python3", packing.ROOT / "examples/serve.py", ticket.keytab, ticket.service, "--first"]
    ran = installed.run(*words, input="".join(f"{it}\n" for it in requests), timeout=300)
    if ran.returncode:
        raise Trouble(f"examples/serve.py: {packing.wrong(ran)}")
    return [line.split() for line in ran.stdout.splitlines()]


@pytest.mark.parametrize("library", LIBRARIES)
@pytest.mark.parametrize("ticket", tickets.OF_EACH_TYPE, indirect=True, ids=slug)
def test_serve(checks, peers, installed, ticket, library):
    """The client of each library reads the reply of examples/serve.py, and the error for the same request again."""
    name, second = f"installed: serve.py and {library}'s client, {ticket.label}", now()
    client, request = peers.client(ticket.realm, library, ticket.cache, ticket.service, 0, ["mutual"])
    (accepted, who, reply), (refused, cause, error) = served(installed, ticket, [request, request])
    checks.equal(name, [accepted, who, refused, cause], ["accepted", ticket.client, "refused", "REPEAT"])
    agreed, told = client.communicate(f"{reply}\n{error}\n", timeout=300)[0].splitlines()
    kind, code, stime, _, server = told.split()
    checks.equal(f"{name}: what it reads", [agreed, kind, code, server],
                 ["agreed none 0", "error", "34", ticket.service])
    checks.equal(f"{name}: the error's time", second <= int(stime) <= now(), True)
    plain = peers.asked(ticket.realm, library, ticket.cache, ticket.service)
    checks.equal(f"{name}: a plain request", served(installed, ticket, [plain]), [["accepted", ticket.client, "-"]])
