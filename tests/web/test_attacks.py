"""What somebody sends who wants to be another user, or to keep the service busy."""
import pytest

from fevstunik.web import Users, _events
from support import web
from support.web import negotiate, token

ANYBODY = {"realms": {"EX": "{user}"}, "others": "{user}@{realm}"}


def asked(ask, **more):
    return ask(headers=[("Authorization", negotiate(token(**more)))])


@pytest.mark.parametrize("name", [b"alice\r\nSet-Cookie: a=b", b"alice\n", b"alice\r", b"\r\n\r\n<script>", b"alice\0"])
def test_a_name_is_no_header(made, over, name):
    """A KDC's administrator may make any name. One with the end of a line isn't let in, and is in no header."""
    answer = over(made(users=Users(realms={"EX": "{user}"})))(headers=[("Authorization", negotiate(token(name)))])
    assert answer.status == 403
    assert not [value for _, value in answer.headers if set("\r\n\0") & set(value)]


@pytest.mark.parametrize("realm", [b"OTHER\r\nX: y", b"OTHER\n", b"OTHER\0"])
def test_a_realm_is_no_header(made, over, realm):
    """The realm of a trusted KDC, too, which may be part of the user's name."""
    ask = over(made(users=Users(**ANYBODY)))
    assert asked(ask, realm=realm).status == 403
    assert asked(ask, realm=b"OTHER").body == b"alice@OTHER"


SPOOFED = ["Remote-User", "Remote_User", "REMOTE_USER", "X-Remote-User", "Auth-Type", "Fevstunik-User",
           "Fevstunik.User", "User"]


@pytest.mark.parametrize("header", SPOOFED)
def test_no_header_names_the_user(made, over, header):
    ask = over(made(exempt=["/open"]))
    headers = [(header, "mallory")]
    assert ask(headers=headers).status == 401
    assert ask(headers=[*headers, ("Authorization", negotiate(token()))]).body == b"alice@EX"
    assert ask(path="/open", headers=headers).body == b"nobody"
    assert ask("OPTIONS", headers=headers).body == b"nobody"


@pytest.mark.parametrize("number, status", [(2, 400), (100, 431)])
def test_many_tokens(ask, number, status):
    """None of them is used up."""
    values = [("Authorization", negotiate(token(size=700))) for _ in range(number)]
    assert ask(headers=values).status == status
    assert ask(headers=values[:1]).status == 200


@pytest.mark.parametrize("name", ["x_http_method_override", "X-Http_Method-Override", "x_method_override"])
def test_no_other_method_by_another_spelling(made, name):
    """Some frameworks take `_` in a name for `-`."""
    for ask in (web.by_asgi(made()), web.by_wsgi(made())):
        assert ask("OPTIONS", headers=[(name, "POST")]).status == 401


def test_a_long_list_of_proxies(made, caplog, monkeypatch):
    """Only its end is looked at."""
    looked, is_of = [], _events._is_of
    monkeypatch.setattr(_events, "_is_of", lambda *words: looked.append(words) or is_of(*words))
    caplog.set_level("DEBUG")
    ask = web.by_wsgi(made(proxies=["127.0.0.0/8"]))
    ask(headers=[("X-Forwarded-For", "127.0.0.1," * 20_000 + "127.0.0.2")], address="127.0.0.1")
    assert len(looked) < 100
    ask(headers=[("X-Forwarded-For", "198.51.100.1," * 20_000 + "192.0.2.7, 127.0.0.2")], address="127.0.0.1")
    assert caplog.records[-1].peer == "192.0.2.7"


@pytest.mark.parametrize("cookies", [1, 5_000])
def test_many_cookies(made, over, cookies):
    """A few are tried, and the token after them counts."""
    from fevstunik.web import Sessions
    ask = over(made(sessions=Sessions()))
    cookie = "; ".join(["__Host-fevstunik=" + "A" * 300] * cookies)
    headers = [("Cookie", cookie), ("Authorization", negotiate(token()))]
    assert ask(headers=headers[:1]).status == 401
    assert ask(headers=headers).status == 200
