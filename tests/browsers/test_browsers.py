"""Chromium and Firefox at web services: they log in, see a page for each kind of refusal, follow redirects, and stay
logged in by a session. What they show is kept as pictures in build/pictures."""
import contextlib
import functools
import struct

import pytest

from support import TOP
from support.browsers import BROWSERS
from support.web_realm import ADDRESS, ALICE, OTHER_HOST, leading

pytestmark = [pytest.mark.packages, pytest.mark.slow, pytest.mark.xdist_group("browsers")]
HELLO = f"hello {ALICE}"
PICTURES = TOP / "build/pictures"
# What is read at a service that refuses the login.
REFUSALS = {
    "with a wrong clock": "The clock of your machine and the site's differ too much.",
    "with another key": "The site's keys and those of the Kerberos server differ.",
    "of another realm": "Your realm isn't let in here.",
}


@pytest.fixture(scope="module")
def started(world):
    """Gives the browser of a name, which is started once and logs in at two hosts."""
    env = {name: world.env()[name] for name in ("KRB5_CONFIG", "KRB5CCNAME")}
    with contextlib.ExitStack() as stack:
        @functools.cache
        def start(name):
            made = stack.enter_context(BROWSERS[name](world.folder / name, ["localhost", OTHER_HOST], env))
            made.name = name
            if name == "Chromium":
                assert made.page_with(world["web"].url, HELLO, "This site needs a Kerberos login.") == HELLO
            return made
        yield start


@pytest.fixture(params=BROWSERS)
def browser(started, request):
    return started(request.param)


def keep(browser, what):
    """Keep what is seen as a picture, which has a size."""
    PICTURES.mkdir(parents=True, exist_ok=True)
    picture = browser.keep(PICTURES / f"{browser.name}-{what.replace(' ', '-')}.png")
    assert picture.startswith(b"\x89PNG\r\n\x1a\n") and min(struct.unpack(">2I", picture[16:24])) > 300


@pytest.mark.parametrize("service", ["web", "of examples/negotiate"])
def test_login(browser, world, service):
    for _ in range(2):
        assert browser.page(world[service].url) == (world[service].url, HELLO)
    keep(browser, "login")


@pytest.mark.parametrize("service", REFUSALS)
def test_refusal(browser, world, service):
    """The page says why in words that a user understands."""
    _, text = browser.page(world[service].url)
    keep(browser, service)
    assert REFUSALS[service] in text and text.splitlines()[0] in ("401 Unauthorized", "403 Forbidden")


def test_a_host_that_is_not_trusted(browser, world):
    """The browser doesn't log in there, and the page says so."""
    _, text = browser.page(world["web"].url.replace("localhost", ADDRESS))
    keep(browser, "not trusted")
    assert "it isn't set to log in to this site" in text


def test_redirects(browser, world):
    """To another host, which gets a token of its own; and after a login."""
    here = world["web"].url
    there = here.replace("localhost", OTHER_HOST)
    pages = {f"{here}moved?{there}": there, leading(there, here, "inside"): here, f"{here}inside": here}
    for first, last in pages.items():
        assert browser.page(first) == (last, HELLO)


def test_session(browser, world):
    """One login is enough."""
    before = world["sessions"].log.read_text()
    for _ in range(3):
        assert browser.page(world["sessions"].url)[1] == HELLO
    keep(browser, "session")
    said = world["sessions"].log.read_text().removeprefix(before)
    assert said.count(f"let in: {ALICE} ") == 1 and "denied" not in said
