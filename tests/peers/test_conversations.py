"""The client and the service of examples/service beside those over MIT krb5, over TCP
(tests/support/conversations.py)."""
import pytest

from support import conversations
from support.c_programs import linked

pytestmark = [pytest.mark.packages, pytest.mark.xdist_group("conversations")]


@pytest.fixture(scope="module")
def folder(library, tmp_path_factory):
    made = tmp_path_factory.mktemp("conversations")
    conversations.built(made)
    for name, sources in conversations.SOURCES.items():
        words = *conversations.DEFINED, *sources, *conversations.LIBRARIES
        linked(library.parent / "libfevstunik.a", made / name, *words)
    return made


@pytest.fixture(scope="module")
def realm(folder):
    made = conversations.realm_in(folder)
    yield made
    made.stop()


def test_session_types(realm):
    assert conversations.session_types(realm) == {19: 19, 20: 20}


@pytest.mark.parametrize("client, service, etype", conversations.PAIRS)
def test_conversation(folder, realm, client, service, etype):
    conversations.check(folder, realm, client, service, etype)
