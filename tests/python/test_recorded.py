"""Tokens as real clients sent them (recorded.toml) are let in at their time by the key of their service, and no token
is let in twice, later, or by another service."""
import base64
import tomllib

import pytest

from fevstunik import Asked, Code, Keytab, Login, Service, Token

from support import TOP

TABLE = tomllib.loads((TOP / "tests/python/recorded.toml").read_text())
tokens = pytest.mark.parametrize("row", TABLE["token"], ids=lambda it: it["name"])


def service(name=TABLE["service"]):
    return Service(Keytab(bytes.fromhex("".join(TABLE["keytab"].split()))), name, first_life=True)


@tokens
def test_it_is_let_in_once(row):
    token, server = base64.b64decode(row["token"]), service()
    login = server.answer(token, row["at"])
    assert isinstance(login, Login) and login.client == TABLE["client"]
    assert (login.service, login.session_key.kind) == (TABLE["service"], 20)
    assert server.answer(token, row["at"]).cause == Code.REPEAT


@tokens
def test_what_it_asks_for(row):
    token = Token.open(base64.b64decode(row["token"]))
    asked = Asked.read(token.request)
    assert (token.negotiated is not None, asked.mutual) == (row["negotiated"], row["mutual"])
    assert (asked.name, asked.etype) == (TABLE["service"], 20)
    # (who asks for no reply in a negotiation gets its end)
    login = service().answer(base64.b64decode(row["token"]), row["at"])
    assert bool(login.reply) == (row["mutual"] or row["negotiated"])


@tokens
def test_it_is_refused(row):
    token = base64.b64decode(row["token"])
    assert service().answer(token, row["at"] + 400).cause == Code.SKEW
    assert service("HTTP/other@WEB.TEST").answer(token, row["at"]).cause == Code.NOT_US
