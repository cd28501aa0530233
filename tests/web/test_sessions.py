"""Sessions: a cookie stands for a login until it ends."""
import os
import re
import time
from types import SimpleNamespace

import pytest

from fevstunik.web import Sessions, Users, _sessions, service

from support import fixture, web
from support.web import negotiate, token


def cookie_of(answer):
    return answer.one("Set-Cookie").partition(";")[0]


def logged_in(ask, **more):
    answer = ask(headers=[("Authorization", negotiate(token(**more)))])
    assert answer.status == 200
    return answer


def with_cookie(ask, *cookies, path="/"):
    answer = ask(path=path, headers=[("Cookie", "; ".join(cookies))])
    return answer.body.decode() if answer.status == 200 else answer.status


@pytest.fixture
def clock(monkeypatch):
    """Sets the clock of sessions."""
    return lambda moment: monkeypatch.setattr(_sessions, "time", SimpleNamespace(time=lambda: moment))


def test_a_session(made, over):
    gate = made(sessions=Sessions())
    ask = over(gate)
    answer = logged_in(ask)
    assert re.fullmatch(r"__Host-fevstunik=[\w-]+; Path=/; HttpOnly; SameSite=Lax; Secure", answer.one("Set-Cookie"))
    assert answer.token
    for path in ("/", "/other"):
        assert with_cookie(ask, "a=b", cookie_of(answer), path=path) == "alice@EX"
    assert gate.counts == {"LOGIN": 1, "SESSION": 2}


def test_a_session_in_the_log(made, over, caplog):
    caplog.set_level("DEBUG")
    ask = over(made(sessions=Sessions()))
    assert with_cookie(ask, cookie_of(logged_in(ask))) == "alice@EX"
    assert [it for it in caplog.messages if "SESSION" in it] == ["let in: alice@EX (alice@EX, SESSION)"]


def test_sessions_are_off_at_first(ask):
    assert logged_in(ask).one("Set-Cookie") is None


def test_a_cookie_is_looked_at_before_a_token(made, over):
    """So a token isn't used up, and isn't taken for a repeat."""
    ask, value = over(made(sessions=Sessions())), negotiate(token())
    cookie = cookie_of(logged_in(ask))
    headers = [("Cookie", cookie), ("Authorization", value)]
    assert [ask(headers=headers).status for _ in range(2)] == [200, 200]
    assert ask(headers=headers[1:]).status == 200


def test_no_other_cookie_is_taken(made, over):
    ask = over(made(sessions=Sessions()))
    name, _, value = cookie_of(logged_in(ask)).partition("=")
    bent = [value[:at] + ("A" if value[at] != "A" else "B") + value[at + 1:] for at in range(0, len(value) - 2)]
    for other in (*bent, value[:-4], value + "AAAA", value + "=", "", "*", "A" * 5000, value.replace("-", "+")):
        assert other == value or with_cookie(ask, f"{name}={other}") == 401, other
    assert with_cookie(ask, f"fevstunik={value}") == 401
    assert with_cookie(ask, f"{name}=", f"{name}={value}") == "alice@EX"


@pytest.mark.parametrize("hours, ticket, ends", [(1, 8, 3600), (8, 1, 3600)])
def test_the_end(made, over, clock, hours, ticket, ends):
    """That of the session, or of the ticket, which is made now."""
    ask = over(made(sessions=Sessions(hours=hours)))
    web.ticket.cache_clear()
    before = int(time.time())
    cookie = cookie_of(logged_in(ask, hours=ticket))
    for moment, wanted in ((before + ends - 0.1, "alice@EX"), (int(time.time()) + ends, 401)):
        clock(moment)
        assert with_cookie(ask, cookie) == wanted


def test_logout(made, over):
    gate = made(sessions=Sessions(logout="/logout"))
    answer = over(gate)(path="/logout")
    assert (answer.status, answer.body) == (200, b"You have logged out.\n")
    assert answer.one("Set-Cookie") == "__Host-fevstunik=; Path=/; HttpOnly; SameSite=Lax; Secure; Max-Age=0"
    assert gate.counts == {"LOGOUT": 1}


def test_processes_share_a_key(made, over, tmp_path):
    key = tmp_path / "session.key"
    one, other = (over(made(sessions=Sessions(key=key))) for _ in range(2))
    assert (key.stat().st_mode & 0o777, key.stat().st_size) == (0o600, 32)
    cookie = cookie_of(logged_in(one))
    assert with_cookie(other, cookie) == "alice@EX"
    assert with_cookie(over(made(sessions=Sessions())), cookie) == 401


def test_a_new_key_is_on_the_disk_before_it_has_its_name(made, tmp_path, monkeypatch):
    """Else a power cut could leave a file without the key, and the service wouldn't start again."""
    key, synced = tmp_path / "session.key", []
    sync, link = os.fsync, os.link
    monkeypatch.setattr(os, "fsync", lambda file: synced.append(os.fstat(file).st_size) or sync(file))
    monkeypatch.setattr(os, "link", lambda *words: synced.append("linked") or link(*words))
    made(sessions=Sessions(key=key))
    assert synced[:2] == [32, "linked"] and key.stat().st_size == 32


def test_a_new_key_ends_all(made, over, tmp_path, monkeypatch):
    key = tmp_path / "session.key"
    ask = over(made(sessions=Sessions(key=key)))
    cookie = cookie_of(logged_in(ask))
    monkeypatch.setattr("fevstunik.web._files._PAUSE", 0)
    new = tmp_path / "new"
    new.write_bytes(os.urandom(32))
    new.replace(key)
    # Others may read this one, so the one before is kept.
    assert with_cookie(ask, cookie) == "alice@EX"
    key.chmod(0o600)
    assert with_cookie(ask, cookie) == 401
    assert with_cookie(ask, cookie_of(logged_in(ask))) == "alice@EX"


def test_a_cookie_of_another_service(made, over, tmp_path):
    key = tmp_path / "session.key"
    cookie = cookie_of(logged_in(over(made(sessions=Sessions(key=key), service=None, any_name=True))))
    assert with_cookie(over(made(sessions=Sessions(key=key))), cookie) == 401


def test_rules_that_have_changed(made, over, tmp_path):
    def asking(**rules):
        users = Users(realms={"EX": "{user}"}, **rules)
        return over(made(sessions=Sessions(key=tmp_path / "session.key"), users=users))
    cookie = cookie_of(logged_in(asking()))
    assert [with_cookie(asking(only=[it]), cookie) for it in ("alice", "bob")] == ["alice", 401]


@pytest.mark.parametrize("mode, size", [(0o640, 32), (0o604, 32), (0o600, 31), (0o600, 33), (0o600, 0)])
def test_keys_that_are_refused(made, tmp_path, mode, size):
    key = tmp_path / "session.key"
    key.write_bytes(os.urandom(size))
    key.chmod(mode)
    with pytest.raises(ValueError):
        made(sessions=Sessions(key=key))


@pytest.fixture
def handed_over(tmp_path, monkeypatch):
    """The folder in which systemd puts what LoadCredential names."""
    folder = tmp_path / "credentials"
    folder.mkdir()
    monkeypatch.setenv("CREDENTIALS_DIRECTORY", str(folder))
    return folder


def written(path, mode):
    path.write_bytes(os.urandom(32))
    path.chmod(mode)
    return path


@pytest.mark.parametrize("mode", [0o400, 0o440], ids=oct)
def test_a_key_that_systemd_hands_over(made, over, handed_over, mode):
    """The mode is 0400 if the file belongs to the service's user, as with systemd 252; and 0440 if it is root's and has
    a list of access."""
    key = written(handed_over / "session.key", mode)
    one, other = (over(made(sessions=Sessions(key=key))) for _ in range(2))
    assert with_cookie(other, cookie_of(logged_in(one))) == "alice@EX"


@pytest.mark.parametrize("mode", [0o444, 0o460, 0o450, 0o404])
def test_handed_over_keys_that_are_refused(made, handed_over, mode):
    with pytest.raises(ValueError):
        made(sessions=Sessions(key=written(handed_over / "session.key", mode)))


def test_a_group_reads_no_other_key(made, handed_over, tmp_path):
    with pytest.raises(ValueError):
        made(sessions=Sessions(key=written(tmp_path / "session.key", 0o440)))


def test_a_key_that_systemd_does_not_hand_over(made, handed_over):
    """None is made there: each start would make another."""
    with pytest.raises(FileNotFoundError, match="session.key"):
        made(sessions=Sessions(key=handed_over / "session.key"))
    assert list(handed_over.iterdir()) == []


def test_the_service_takes_what_systemd_hands_over(made, over, handed_over, tmp_path, monkeypatch):
    """By names without a folder, and before what lies beside the configuration."""
    key, keytab = written(handed_over / "session.key", 0o440), handed_over / "www.keytab"
    keytab.write_bytes(fixture.keytab())
    written(tmp_path / "session.key", 0o600)
    written(tmp_path / "www.keytab", 0o600)
    (tmp_path / "web.toml").write_text(f'keytab = "www.keytab"\nservice = "{web.NAME}"\nfirst_life = true\n'
                                       '[sessions]\nkey = "session.key"\n')
    monkeypatch.setattr(service, "log", lambda level: None)
    app = service.app(tmp_path / "web.toml")
    cookie = cookie_of(logged_in(over(made(sessions=Sessions(key=key)))))
    answer = web.by_wsgi(SimpleNamespace(wsgi=lambda _: app))(headers=[("Cookie", cookie)])
    assert (answer.status, answer.one("Remote-User")) == (200, "alice@EX")


def test_a_long_name_has_no_session(made, over):
    ask = over(made(sessions=Sessions()))
    answer = ask(headers=[("Authorization", negotiate(token(b"a" * 4000)))])
    assert (answer.status, answer.one("Set-Cookie")) == (200, None)


@pytest.mark.parametrize("terms", [{"hours": 0}, {"hours": -1}, {"hours": 10_000}, {"hours": float("nan")},
                                   {"logout": "logout"}])
def test_terms(terms):
    with pytest.raises(ValueError):
        Sessions(**terms)


def test_without_tls(made, over):
    ask = over(made(sessions=Sessions(secure=False)))
    assert logged_in(ask).one("Set-Cookie").endswith("; Path=/; HttpOnly; SameSite=Lax")
