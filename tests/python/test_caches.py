"""Where the user's credential cache is found, and how a ticket is got into it."""
import os
import stat
import sys

import pytest

from fevstunik import CacheError, CacheTrouble, CredentialCache, Fault, make_request

from support import fixture, http_service

NOW = fixture.CLIENT_TIME


@pytest.fixture
def home(tmp_path, monkeypatch):
    """A folder with a cache, and an environment that names none."""
    (tmp_path / "cache").write_bytes(fixture.cache())
    (tmp_path / "empty.conf").write_text("")
    monkeypatch.delenv("KRB5CCNAME", raising=False)
    monkeypatch.setenv("KRB5_CONFIG", str(tmp_path / "empty.conf"))
    return tmp_path


def named(home, text):
    """The text, in which HOME is the folder."""
    return text.replace("HOME", str(home))


@pytest.mark.parametrize("location", [
    "FILE:HOME/cache", "WRFILE:HOME/cache", "HOME/cache", "DIR:HOME/folder", "DIR::HOME/folder/tkt12", "DIR:HOME/new",
    "FILE:HOME/a:b"])
def test_the_variable(home, monkeypatch, location):
    for folder, primary in (("folder", "tkt12\n"), ("new", None)):
        (home / folder).mkdir()
        if primary is not None:
            (home / folder / "primary").write_text(primary)
        (home / folder / (primary or "tkt").strip()).write_bytes(fixture.cache())
    (home / "a:b").write_bytes(fixture.cache())
    monkeypatch.setenv("KRB5CCNAME", named(home, location))
    assert CredentialCache.default().owner.name == "alice@EX"


@pytest.mark.parametrize("location, trouble, words", [
    ("FILE:HOME/none", "NO_FILE", "run `kinit`"), ("HOME", "UNREADABLE", "can't be read: Is a directory"),
    ("KEYRING:persistent:0", "OTHER_KIND", "the kernel's keyring"), ("KCM:", "OTHER_KIND", "sssd-kcm"),
    ("KCM:0:1", "OTHER_KIND", "export KRB5CCNAME=FILE:/tmp/krb5cc_"), ("MEMORY:x", "OTHER_KIND", "then `kinit`"),
    ("API:x", "OTHER_KIND", "set `default_ccache_name = FILE:/tmp/krb5cc_%{uid}` in [libdefaults]"),
    ("SCC:HOME/x", "OTHER_KIND", "Heimdal"), ("FILE:", "BAD_LOCATION", "name a file"),
    ("DIR:", "BAD_LOCATION", "DIR:/path"),
    ("What\n:x", "BAD_LOCATION", "What\\n:x"), ("DIR:HOME/odd", "BAD_LOCATION", "`primary`"),
    ("DIR:HOME/none", "NO_FILE", "none/tkt")], ids=str)
def test_no_cache(home, monkeypatch, location, trouble, words):
    (home / "odd").mkdir()
    (home / "odd/primary").write_text("../cache")
    monkeypatch.setenv("KRB5CCNAME", named(home, location))
    with pytest.raises(CacheError) as raised:
        CredentialCache.default()
    assert raised.value.trouble == CacheTrouble[trouble] and words in str(raised.value)
    assert str(raised.value).isprintable()


@pytest.mark.parametrize("text, at", [
    ("[libdefaults]\n  default_ccache_name = FILE:HOME/cache\n", "cache"),
    ("[realms]\n default_ccache_name = FILE:HOME/none\n[libdefaults]\n\tdefault_ccache_name=HOME/cache", "cache"),
    ("[libdefaults]\ndefault_ccache_name = FILE:HOME/c_%{uid}_%{USERID}_%{null}\ndefault_ccache_name = KCM:",
     "c_UID_UID_"),
    ("include HOME/more.conf\n[libdefaults]\n default_ccache_name = KCM:\n", "cache"),
    ("[libdefaults]\ninclude HOME/empty.conf\n EX = {\n  default_ccache_name = KCM:\n }\n include HOME/realms.conf\n"
     " default_ccache_name = HOME/cache\n", "cache"),
    ("includedir HOME/more.d\n", "cache"), ("include HOME/none.conf\n# default_ccache_name = KCM:\n", None)], ids=str)
def test_the_configuration(home, monkeypatch, text, at):
    """The first value counts, over all files; a file that isn't there is passed over."""
    (home / "more.conf").write_text(named(home, "[libdefaults]\ndefault_ccache_name = HOME/cache\n"))
    (home / "realms.conf").write_text("[realms]\n default_ccache_name = KCM:\n")
    (home / "more.d").mkdir()
    (home / "more.d/first.conf").write_text((home / "more.conf").read_text())
    (home / "more.d/a.conf.bak").write_text("[libdefaults]\ndefault_ccache_name = KCM:\n")
    (home / "own.conf").write_text(named(home, text))
    monkeypatch.setenv("KRB5_CONFIG", f"{home / 'none.conf'}:{home / 'own.conf'}:{home / 'empty.conf'}")
    place = f"/tmp/krb5cc_{os.getuid()}" if at is None else str(home / at.replace("UID", str(os.getuid())))
    monkeypatch.setattr(CredentialCache, "read", classmethod(lambda cls, path: path))
    assert CredentialCache.default() == place


@pytest.mark.parametrize("text, trouble", [
    ("default_ccache_name = KCM:", "OTHER_KIND"), ("default_ccache_name = KEYRING:persistent:%{uid}", "OTHER_KIND"),
    ("default_ccache_name = FILE:%{LIBDIR}/x", "BAD_LOCATION")])
def test_a_configuration_that_names_no_file(home, monkeypatch, text, trouble):
    (home / "empty.conf").write_text(f"[libdefaults]\n{text}\n")
    with pytest.raises(CacheError, match="default_ccache_name of krb5.conf") as raised:
        CredentialCache.default()
    assert raised.value.trouble == CacheTrouble[trouble]


def test_tickets():
    cache = CredentialCache(fixture.cache())
    for name in ("host/web@EX", "host/web"):
        assert cache.ticket_for(name, now=NOW).server == "host/web@EX"
        assert cache.ticket_for(name, now=fixture.ENDTIME) is None
    for name in ("host/web@EY", "host/we", "host", "host/mail"):
        assert cache.ticket_for(name, now=NOW) is None
    for name in ("a\\", "a@b@c"):
        with pytest.raises(CacheError, match="BAD_SERVICE"):
            cache.ticket_for(name)


# ---------------------------------------------------------------- realms

# (an end that no run of the tests reaches)
LATE = 4_000_000_000
LOOKED_FOR = "; the realm EX was looked for, and the cache has a ticket for this service in "


def cache_of(*realms, ends=LATE):
    """Alice's cache with tickets for host/web of these realms, of which each ends a second before the one before it."""
    client = fixture.principal(1, b"EX", b"alice")
    tickets = (fixture.credential(client, fixture.principal(3, realm, b"host", b"web"), 19, fixture.SESSION_KEY,
                                  (fixture.AUTHTIME, 0, ends - at, 0), fixture.ticket())
               for at, realm in enumerate(realms))
    return CredentialCache(b"\x05\x04\0\0" + client + b"".join(tickets))


def test_a_name_without_a_realm():
    """It stands for that of any realm, and the ticket that ends last is taken."""
    assert cache_of(b"EY", b"EX").ticket_for("host/web").server == "host/web@EY"
    assert cache_of(b"EX", b"EY").ticket_for("host/web").server == "host/web@EX"
    cache = cache_of(b"EY")
    assert cache.fetch("host/web") is cache


@pytest.mark.parametrize("realms, named", [
    ([b"EY"], "EY"), ([b"EZ", b"EY", b"EZ"], "EY, EZ"), ([b"E@Y"], "E\\@Y"), ([], ""), ([b""], "")], ids=str)
def test_tickets_of_other_realms(realms, named):
    """They are named if there is none of the realm that is looked for."""
    cache, more = cache_of(*realms), f"{LOOKED_FOR}{named}" if named else ""
    with pytest.raises(CacheError) as raised:
        cache.fetch("host/web@EX")
    assert str(raised.value).endswith(f"read it from its file{more}")
    with pytest.raises(Fault, match="NO_CREDENTIAL") as raised:
        make_request(cache, "host/web@EX")
    assert str(raised.value).endswith(f"or by the cache's `fetch`{more}")


def test_tickets_of_other_realms_that_have_ended():
    cache = cache_of(b"EY", ends=fixture.ENDTIME)
    for now, named in (NOW, True), (fixture.ENDTIME, False), (None, False):
        with pytest.raises(Fault, match="NO_CREDENTIAL") as raised:
            make_request(cache, "host/web@EX", now=now)
        assert (LOOKED_FOR in str(raised.value)) == named


def test_other_services_of_other_realms():
    for name in ("host/we@EX", "host@EX", "host/web/@EX"):
        with pytest.raises(CacheError) as raised:
            cache_of(b"EY").fetch(name)
        assert "the realm" not in str(raised.value)


# ---------------------------------------------------------------- getting a ticket

# A program that puts a new cache in place of the old one, and another that says why it can't.
TOOLS = {
    "gets": "import os, sys, shutil\nassert sys.argv[1:] == ['--', 'HTTP/localhost']\n"
            "place = os.environ['KRB5CCNAME'].removeprefix('FILE:')\nshutil.copyfile(place + '.new', place)",
    "gets none": "pass",
    "fails": "print('one line')\nraise SystemExit('kvno: Server not found\\x1b[31m')",
    "is silent": "raise SystemExit(3)",
    "waits": "import time\ntime.sleep(3600)",
}


@pytest.fixture
def cache(home):
    """A cache in a file, with a ticket for another service, and one beside it that has both."""
    (home / "tickets").write_bytes(http_service.cache(["127.0.0.1"])._data)
    (home / "tickets.new").write_bytes(http_service.cache()._data)
    return CredentialCache.read(home / "tickets")


def tool(home, monkeypatch, name, text):
    """A program of this name is the only one there is."""
    path = home / "bin" / name
    path.parent.mkdir()
    path.write_text(f"#!{sys.executable}\n{text}\n")
    path.chmod(stat.S_IRWXU)
    monkeypatch.setenv("PATH", str(path.parent))


@pytest.mark.parametrize("name", ["kvno", "kgetcred"])
def test_a_ticket_is_got(home, cache, monkeypatch, name):
    tool(home, monkeypatch, name, TOOLS["gets"])
    again = cache.fetch("HTTP/localhost", seconds=300)
    assert again.ticket_for("HTTP/localhost").server == "HTTP/localhost@EX"
    assert cache.ticket_for("HTTP/localhost") is None
    monkeypatch.setenv("PATH", "")
    assert again.fetch("HTTP/localhost") is again and again.fetch("HTTP/localhost@EX") is again


@pytest.mark.parametrize("name, trouble, words", [
    ("gets none", "NO_TICKET", "though one was got"), ("waits", "TIMED_OUT", "in 0.5 seconds"),
    ("fails", "TOOL_FAILED", "kvno: Server not found\\x1b[31m"), ("is silent", "TOOL_FAILED", "it ended with 3"),
    (None, "NO_TOOL", "krb5-user")])
def test_no_ticket_is_got(home, cache, monkeypatch, name, trouble, words):
    tool(home, monkeypatch, "kvno" if name else "other", TOOLS.get(name, ""))
    with pytest.raises(CacheError) as raised:
        cache.fetch("HTTP/localhost", seconds=0.5 if name == "waits" else 300)
    assert raised.value.trouble == CacheTrouble[trouble] and words in str(raised.value)


def test_a_ticket_of_another_realm_is_got(home, cache, monkeypatch):
    tool(home, monkeypatch, "kvno", TOOLS["gets"].replace("'HTTP/localhost'", "'HTTP/localhost@EY'"))
    with pytest.raises(CacheError) as raised:
        cache.fetch("HTTP/localhost@EY", seconds=300)
    assert raised.value.trouble == CacheTrouble.NO_TICKET
    assert str(raised.value).endswith(LOOKED_FOR.replace("EX", "EY") + "EX")


@pytest.mark.parametrize("name, trouble", [("HTTP/localhost", "NO_PATH"), ("a@b@c", "BAD_SERVICE")])
def test_nothing_is_run(cache, name, trouble):
    with pytest.raises(CacheError) as raised:
        CredentialCache(cache._data).fetch(name)
    assert raised.value.trouble == CacheTrouble[trouble]
