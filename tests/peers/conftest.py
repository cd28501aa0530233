"""Real Kerberos on this machine: KDCs of MIT krb5 and Heimdal on 127.0.0.1, in a folder of their own, and tickets of
each way.

Session keys come to be of type 19 or 20 by the advice of docs/OPERATING.md, which is read from there. ask.c, serve.c
and pick.c are a client, a service and what picks a key, of either library.
"""
import functools

import pytest

from support import TOP, kdc, tickets
from support.sides import Peers


class World:
    """The two realms; what tests make of them is made once, when one asks for it."""

    def __init__(self, program, folder, heimdal):
        self.folder, self.realms = folder, []
        self.peers = Peers(program, folder / "peers")
        self.mit = self.running(tickets.mit_realm(folder, heimdal))
        self.heimdal = self.running(tickets.heimdal_realm(folder, heimdal))

    def running(self, realm):
        self.realms.append(realm)
        return realm

    def stop(self):
        for realm in self.realms:
            realm.stop()

    @functools.cached_property
    def tickets(self):
        """The tickets, by their labels."""
        of_mit, of_heimdal = tickets.of_mit(self.mit), tickets.of_heimdal(self.heimdal)
        found = [*of_mit, *of_heimdal, tickets.with_addresses(self.mit), *tickets.of_both(self.mit, self.heimdal)]
        return {it.label: it for it in found}

    @functools.cached_property
    def turned(self):
        """Tickets of keys before and after a change, each with keytabs that have its key and those that haven't."""
        assert self.tickets
        return [*tickets.turned(self.mit), *tickets.advised(self.mit)]

    @functools.cached_property
    def old_types(self):
        assert self.tickets
        return self.mit.cache("old", "default", ["host/plain.example", "host/old.example"])

    @functools.cached_property
    def postdated(self):
        assert self.tickets
        return self.mit.cache("postdated", "one", [], ["-s", "1h", "-S", f"host/web.example@{self.mit.name}"])

    @functools.cached_property
    def wrong_keytab(self):
        """A keytab whose keys of the right name and version number aren't the KDC's."""
        path = self.mit.folder / "wrong.keytab"
        tickets.bend(self.mit.folder / "web.keytab", path)
        return path

    @functools.cached_property
    def keytabs(self):
        """Keytabs of the tools of both, by the names of tickets.KEYTABS."""
        assert self.turned and self.wrong_keytab
        found = [*tickets.keytabs_of_mit(self.mit), *tickets.keytabs_of_heimdal(self.heimdal),
                 *tickets.rotated_keytabs(self.mit, self.heimdal)]
        return {f"{path.stem} of {realm.name}": (realm, path) for realm, path in found}

    @functools.cached_property
    def caches(self):
        """Caches of the tools of both, by the names of tickets.CACHES."""
        assert self.turned and self.old_types and self.postdated
        return {f"{stem} of {realm.name}": (realm, realm.folder / f"{stem}.ccache")
                for realm, stems in ((self.mit, tickets.CACHES_OF_MIT), (self.heimdal, tickets.CACHES_OF_HEIMDAL))
                for stem in stems}


@pytest.fixture(scope="session")
def heimdal_programs(lock):
    """Where Heimdal's programs are unpacked, which can't be installed beside MIT krb5's."""
    with lock:
        return kdc.heimdal_programs(TOP / "build/heimdal")


@pytest.fixture(scope="session")
def world(program, heimdal_programs, tmp_path_factory):
    made = World.__new__(World)
    made.realms = []
    try:
        made.__init__(program, tmp_path_factory.mktemp("realms"), heimdal_programs)
        yield made
    finally:
        made.stop()


@pytest.fixture(scope="session")
def peers(world):
    return world.peers


@pytest.fixture
def ticket(world, request):
    return world.tickets[request.param]


@pytest.fixture
def keytab(world, request):
    """A realm and the path of a keytab of its."""
    return world.keytabs[request.param]


@pytest.fixture
def cache(world, request):
    """A realm and the path of a cache of its."""
    return world.caches[request.param]
