"""What the tests of browsers and other clients share: a realm of MIT krb5 with a user, a web service of several pages
(app.py), and others that refuse everybody."""
import pytest

from support import TESTS, tickets, web_realm

APP = TESTS / "browsers/app.py"
HOSTS = web_realm.OTHER_HOST, web_realm.ADDRESS


class World:
    """The realm, and the services by their names."""

    def __init__(self, folder, realm, library):
        self.folder, self.realm, self.library = folder, realm, library
        self.services = {}

    def start(self, name, *words, program=APP, **more):
        self.services[name] = web_realm.Service(self.folder, self.realm, self.library, *words, program=program, **more)

    def __getitem__(self, name):
        return self.services[name]

    def env(self, cache="alice"):
        return self.realm.environment("default", KRB5CCNAME=f"FILE:{self.realm.folder / cache}.ccache")

    def stop(self):
        for it in self.services.values():
            it.__exit__()
        self.realm.stop()


@pytest.fixture(scope="session")
def world(library, tmp_path_factory):
    folder = web_realm.with_clock(tmp_path_factory.mktemp("browsers"))
    made = World(folder, web_realm.realm_in(folder, [f"HTTP/{it}" for it in HOSTS]), library)
    try:
        tickets.bend(made.realm.folder / "www.keytab", made.realm.folder / "wrong.keytab")
        made.start("web", served="*")
        made.start("of examples/negotiate", "--first", program=web_realm.EXAMPLE)
        made.start("sessions", "--sessions")
        made.start("with a wrong clock", ahead=web_realm.WRONG)
        made.start("with another key", keytab="wrong")
        made.start("of another realm", "--realm", "OTHER.TEST")
        yield made
    finally:
        made.stop()
