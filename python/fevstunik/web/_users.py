"""Who is let in, and by which name the application knows them."""
from __future__ import annotations

import re
import string
from collections.abc import Iterable, Iterator, Mapping
from dataclasses import dataclass, field
from functools import lru_cache

from .._login import Login
from .._values import TicketFlags

_ESCAPED = re.compile(r"\\x([0-9a-f]{2})|\\(.)", re.S)
_NOBODY = "refuse"
_ANONYMOUS, _ANONYMOUS_REALM = ("WELLKNOWN", "ANONYMOUS"), "WELLKNOWN:ANONYMOUS"
# (the operators of an enumeration take ten times as long as those of int)
_ANONYMOUS_FLAG = int(TicketFlags.ANONYMOUS)
# A name with one of these could be read as another name.
_AMBIGUOUS = frozenset("/@\\")


class NotAllowed(Exception):
    """A client that is who it says, and isn't let in: the text says why, fit for a log.

    >>> from fevstunik.web import NotAllowed, Users
    >>> try:
    ...     Users(realms={"EX": "{user}"}).name_of("mallory@OTHER")
    ... except NotAllowed as error:
    ...     print(error)
    the client is of a realm that isn't let in
    """


@dataclass(frozen=True)
class User:
    """A user who is let in.

    name        the name for the application, by the rules of Users
    client      the Kerberos name, as ``alice@EXAMPLE.COM``
    realm       its realm
    components  its components
    end         until when the ticket, or the session, is valid, in seconds since 1970
    login       the Login that this request made, or None in a session

    Frameworks over ASGI read `is_authenticated`, `display_name` and `identity`.

    >>> User("alice", "alice@EXAMPLE.COM", "EXAMPLE.COM", ("alice",), 1_700_036_000).display_name
    'alice'
    """

    name: str
    client: str
    realm: str
    components: tuple[str, ...]
    end: int
    login: Login | None = field(default=None, repr=False, compare=False)

    @property
    def is_authenticated(self) -> bool:
        """Return True: there is a User only for who is let in.

        >>> User("alice", "alice@EX", "EX", ("alice",), 0).is_authenticated
        True
        """
        return True

    @property
    def display_name(self) -> str:
        """The name for the application.

        >>> User("alice", "alice@EX", "EX", ("alice",), 0).display_name
        'alice'
        """
        return self.name

    @property
    def identity(self) -> str:
        """The Kerberos name.

        >>> User("alice", "alice@EX", "EX", ("alice",), 0).identity
        'alice@EX'
        """
        return self.client


class Users:
    r"""Which clients are let in, and how the application names them.

    realms     for each realm a text, in which ``{user}`` stands for the components of the name, joined by ``/``, and
               ``{realm}`` for the realm
    others     such a text for clients of any other realm, which must have ``{realm}``; or ``"refuse"``
    anonymous  whether anonymous clients (RFC 8062) are let in
    only       the names of those who are let in, as the application knows them, or None for all

    A name is taken by its components, as Unicode. If one of them has ``/``, ``@`` or ``\``, has a character that isn't
    printable, begins or ends with a space, or is empty, or if the realm has a character that isn't printable, the
    client isn't let in: it could be taken for another, or end a line.

    >>> users = Users(realms={"EXAMPLE.COM": "{user}", "PARTNER.ORG": "{user}@{realm}"})
    >>> users.name_of(r"j\xc3\xbcrgen@EXAMPLE.COM")
    'jürgen'
    >>> users.name_of("carol@PARTNER.ORG"), users.name_of("carol/admin@EXAMPLE.COM")
    ('carol@PARTNER.ORG', 'carol/admin')
    >>> users.name_of("mallory@ELSEWHERE.NET")
    Traceback (most recent call last):
        ...
    fevstunik.web.NotAllowed: the client is of a realm that isn't let in
    """

    def __init__(self, realms: Mapping[str, str], others: str = _NOBODY, anonymous: bool = False,
                 only: Iterable[str] | None = None) -> None:
        if isinstance(only, str):
            raise TypeError("`only` is a list of names")
        if not isinstance(anonymous, bool):
            raise TypeError(f"anonymous is a bool, not {anonymous!r}")
        self._realms = {realm: _checked(text) for realm, text in realms.items()}
        self._others = None if others == _NOBODY else _checked(others)
        if self._others is not None and "realm" not in _fields(self._others):
            raise ValueError(f"the text for other realms needs {{realm}}, or their users get the names of yours: "
                             f"{others!r}")
        self.anonymous = anonymous
        self._only = None if only is None else frozenset(only)

    @property
    def realms(self) -> list[str] | None:
        """The realms whose clients are let in, or None for any.

        >>> Users(realms={"EXAMPLE.COM": "{user}"}).realms
        ['EXAMPLE.COM']
        """
        if self._others is not None:
            return None
        return [*self._realms, *([_ANONYMOUS_REALM] if self.anonymous else ())]

    def name_of(self, client: str) -> str:
        """Return the application's name of a client, as ``alice@EXAMPLE.COM``. Raise NotAllowed if it isn't let in.

        >>> Users(realms={}, others="{user} of {realm}").name_of("alice@EX")
        'alice of EX'
        """
        return self._named(client)[0]

    def user_of(self, login: Login) -> User:
        """Return the user who has logged in. Raise NotAllowed if the client isn't let in.

        >>> from fevstunik import Client, CredentialCache, Keytab, Service
        >>> service = Service(Keytab.read("examples/service.keytab"), "host/web@EX", first_life=True)
        >>> token = Client(CredentialCache.read("examples/client.ccache"), "host/web@EX").first(now=1_700_000_100)
        >>> Users(realms={"EX": "{user}"}).user_of(service.answer(token, now=1_700_000_100)).name
        'alice'
        """
        if not self.anonymous and int(login.flags) & _ANONYMOUS_FLAG:
            raise NotAllowed("the client is anonymous")
        client = login.client
        name, components, realm = self._named(client)
        return User(name, client, realm, components, login.endtime, login)

    # (clients come again)
    @lru_cache(maxsize=1024)
    def _named(self, client: str) -> tuple[str, tuple[str, ...], str]:
        """The application's name of a client, and the client's components and realm."""
        components, realm = parts_of(client)
        text = self._realms.get(realm, self._others)
        if components == _ANONYMOUS:
            if not self.anonymous:
                raise NotAllowed("the client is anonymous")
            # (of a realm of its own, or of one that is known)
            text = "{user}@{realm}" if text is None else text
        if text is None:
            raise NotAllowed("the client is of a realm that isn't let in")
        name = text.format(user="/".join(components), realm=realm)
        if self._only is not None and name not in self._only:
            raise NotAllowed("the client isn't one of those who are let in")
        return name, components, realm


def parts_of(name: str) -> tuple[tuple[str, ...], str]:
    """The components and the realm of a name as the library writes it (docs/FORMATS.md, "A principal as text")."""
    if "\\" not in name and name.isascii():
        # (nothing is escaped)
        before, _, realm = name.partition("@")
        components = tuple(before.split("/"))
    else:
        components, realm = _unescaped(name)
    if not all(map(_is_plain, components)) or not realm.isprintable():
        raise NotAllowed("the client's name has characters that make it like another's")
    return components, realm


def _unescaped(name: str) -> tuple[tuple[str, ...], str]:
    before, _, realm = _split(name, "@")
    return tuple(map(_plain, _separated(before))), _plain(realm)


def realm_of(name: str) -> str:
    """The realm of such a name."""
    return _plain(_split(name, "@")[2])


def _split(text: str, separator: str) -> tuple[str, str, str]:
    """What is before and after the first separator that isn't escaped."""
    at = 0
    while at < len(text) and text[at] != separator:
        at += 2 if text[at] == "\\" else 1
    return text[:at], text[at:at + 1], text[at + 1:]


def _separated(text: str) -> Iterator[str]:
    """What is between the slashes that aren't escaped."""
    start = at = 0
    while at < len(text):
        if text[at] == "/":
            yield text[start:at]
            start = at + 1
        at += 2 if text[at] == "\\" else 1
    yield text[start:]


def _plain(escaped: str) -> str:
    data = _ESCAPED.sub(lambda it: chr(int(it[1], 16)) if it[1] else it[2], escaped).encode("latin-1", "replace")
    try:
        return data.decode()
    except UnicodeDecodeError:
        raise NotAllowed("the client's name isn't UTF-8") from None


def _is_plain(component: str) -> bool:
    return component.isprintable() and component.strip() == component != "" and _AMBIGUOUS.isdisjoint(component)


def _fields(text: str) -> set[str]:
    return {name for _, name, _, _ in string.Formatter().parse(text) if name is not None}


def _checked(text: str) -> str:
    if "user" not in _fields(text) or _fields(text) - {"user", "realm"}:
        raise ValueError(f"the text for a name has {{user}}, and may have {{realm}}: {text!r}")
    return text
