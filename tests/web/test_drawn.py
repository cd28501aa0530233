"""Any bytes in the headers, the path and the request are answered, by a status that has a name."""
import json
import time

import pytest
from hypothesis import HealthCheck, given, settings, strategies as draw

from fevstunik import Key
from fevstunik.web import NotAllowed, Sessions, Users, _server, _users
from fevstunik.web._sessions import USAGE
from support import web

LETTERS = draw.binary(max_size=60).map(lambda it: it.decode("latin-1"))
NAMES = draw.lists(draw.integers(0x20, 0x7E) | draw.sampled_from(b"@/\\x")).map(lambda it: bytes(it).decode())
SPELLED = draw.sampled_from(["Negotiate", "Negotiate ", "negotiate  ", "Basic ", " ", ",", "=", "YWI=", "\t", "a" * 9])
VALUES = draw.lists(draw.builds("".join, draw.lists(SPELLED | LETTERS, max_size=5)), max_size=3)
# (the same each time, and also on a slow machine)
ONCE = settings(max_examples=120, deadline=None, database=None, derandomize=True,
                suppress_health_check=[HealthCheck.function_scoped_fixture, HealthCheck.too_slow])


@ONCE
@given(values=VALUES, cookies=VALUES, path=LETTERS, accept=LETTERS)
def test_any_request(made, over, values, cookies, path, accept):
    ask = asked(made, over)
    headers = [*(("Authorization", it) for it in values), *(("Cookie", it) for it in cookies), ("Accept", accept)]
    answer = ask(path=f"/{path}", headers=headers)
    assert answer.status in (400, 401, 431), answer
    assert (answer.token == b"") == (answer.status == 401)


def asked(made, over, kept={}):
    if over not in kept:
        kept[over] = over(made(sessions=Sessions(), exempt=["/static-files/"]))
    return kept[over]


@ONCE
@given(name=NAMES | NAMES.map(lambda it: f"{it}@EX"))
def test_any_name(name):
    """A name that is let in is one user of one realm."""
    users = Users(realms={"EX": "{user}"}, others="{user}@{realm}")
    try:
        found = users.name_of(name)
    except NotAllowed:
        return
    assert found and found.isprintable() and ("@" in found) != (_users.realm_of(name) == "EX")


@ONCE
@given(data=draw.binary(max_size=200) | draw.lists(draw.sampled_from(
    [b"GET / HTTP/1.1", b"\r\n", b"Host: a", b":", b" ", b"Content-Length: 1", b"\n", b"a"])).map(b"".join))
def test_any_head(data):
    """A head is refused, or it is one request with one host, and each line is one field."""
    try:
        head = _server._head_of(data)
    except _server._Bad:
        return
    assert data.count(b"\r\n") == data.count(b"\n") == data.count(b"\r") == len(head.fields)


# (`end` is so many seconds from now)
HELD = {"version": 1, "service": web.NAME, "end": 1_000, "name": "alice@EX", "client": "alice@EX", "realm": "EX"}


@pytest.mark.parametrize("change, wanted", [({}, "alice@EX"), ({"version": 2}, None), ({"service": "x"}, None),
                                            ({"end": -1}, None), ({"name": "bob@EX"}, None),
                                            ({"client": "alice@OTHER"}, None)], ids=str)
def test_what_a_cookie_holds(made, tmp_path, change, wanted):
    """Each part of it counts. (Only whoever has the key can write one.)"""
    made(sessions=Sessions(key=tmp_path / "key"))
    key = Key(20, (tmp_path / "key").read_bytes())
    held = {**HELD, **change}
    held["end"] += int(time.time())
    sealed = key.seal(USAGE, json.dumps([*held.values(), "alice"]).encode())
    cookie = web.base64.urlsafe_b64encode(sealed).decode().rstrip("=")
    ask = web.by_wsgi(made(sessions=Sessions(key=tmp_path / "key")))
    answer = ask(headers=[("Cookie", f"__Host-fevstunik={cookie}")])
    assert (answer.body.decode() if answer.status == 200 else None) == wanted
