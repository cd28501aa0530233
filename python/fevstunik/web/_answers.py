"""What is answered to those who aren't let in: a status, headers, and a page that people can read."""
from __future__ import annotations

import html
import re
from dataclasses import dataclass
from http import HTTPStatus

Headers = tuple[tuple[str, str], ...]
# An application may take one of these for the method.
OVERRIDING = ("x-http-method-override", "x-http-method", "x-method-override")
# So many bytes of the body of a request that is refused are read and dropped.
DROPPED = 16 << 20
_LENGTH = re.compile(r"[0-9]{1,19}")

_ADMINISTRATOR = "The administrator of this site can see the reason in its log."
_KEYS = ("The site's keys and those of the Kerberos server differ. Log out and in again. If that doesn't help, tell "
         "the administrator.")
_TYPES = "Your ticket is of an encryption type that this site doesn't use. Tell the administrator."
_CHANGED = "Your login was changed on its way: somebody may be between you and this site. Tell the administrator."
_LATER = "Please try again in a moment."
# What users read, by the cause.
_WHY = {
    "NO_TOKEN": "This site needs a Kerberos login. Your program sent no ticket: it has none, or it isn't set to log in "
                "to this site.",
    "GO_ON": "The login goes on with the next message of your program.",
    "NTLM": "Your program offered NTLM, since it has no Kerberos ticket for this site.",
    "SKEW": "The clock of your machine and the site's differ too much. Set it right, and try again.",
    "EXPIRED": "Your Kerberos ticket has expired. Get a new one: run kinit, or lock and unlock your screen.",
    "NOT_YET_VALID": "Your Kerberos ticket isn't valid yet.",
    "REPEAT": "This login was sent twice. Load the page again.",
    "NOT_US": "Your ticket is for a service of another name. Use the name of this site that its administrator gave "
              "you.",
    "NO_KEY": _KEYS, "BAD_KEY_VERSION": _KEYS, "TICKET_INTEGRITY": _KEYS, "TICKET_ETYPE": _TYPES, "SESSION_KEY": _TYPES,
    "FOREIGN_REALM": "Your realm isn't let in here.", "ANONYMOUS_CLIENT": "Anonymous users aren't let in here.",
    "NOT_ALLOWED": "You have logged in, but you aren't let in here.",
    "CHANNEL_BINDINGS": "Your login was made for another connection: somebody may be between you and this site. Tell "
                        "the administrator.",
    "LIST_MIC_WRONG": _CHANGED, "LIST_MIC_OTHER_KEY": _CHANGED,
    "BAD_HEADER": "The header Authorization is malformed.", "TOKEN_TOO_LONG": "The token is longer than this site "
                                                                              "takes.",
    "JUST_STARTED": "The site has just started, and lets nobody in for a few minutes. Please try again then.",
    "FULL": f"The site is busy. {_LATER}",
    "OUT_OF_MEMORY": f"The site is busy. {_LATER}", "STORE_FAILED": f"The site can't look up logins now. {_LATER}",
    "LOGOUT": "You have logged out.", "FAILED": "The site has a fault. Its administrator can see it in the log.",
}


def to_drop(length: str, otherwise: int) -> int:
    """How much of the body of a refused request is read, if its header says this length, or else that much. Of one that
    is too large nothing is: the server then closes the connection, which a proxy before it reports as 502."""
    size = int(length) if _LENGTH.fullmatch(length) else otherwise
    return size if size <= DROPPED else 0


@dataclass(frozen=True)
class Answer:
    """An answer that the application doesn't see: the status, the cause of the decision, and headers beside those of
    the page."""

    status: HTTPStatus
    cause: str
    headers: Headers = ()

    @property
    def title(self) -> str:
        return f"{self.status.value} {self.status.phrase}"

    def page(self, accept: bytes) -> tuple[Headers, bytes]:
        """All headers, and the page: in HTML for a browser, else one line."""
        why = _WHY.get(self.cause, f"Your login was refused. {_ADMINISTRATOR}")
        kind, text = "plain", f"{why}\n"
        if b"text/html" in accept.lower():
            kind, text = "html", _PAGE.format(title=html.escape(self.title), why=html.escape(why),
                                              cause=html.escape(self.cause))
        body = text.encode()
        own = (("Content-Type", f"text/{kind}; charset=utf-8"), ("Content-Length", str(len(body))),
               ("Cache-Control", "no-store"))
        return self.headers + own, body


_PAGE = """<!DOCTYPE html>
<html lang="en">
<head><meta charset="utf-8"><title>{title}</title></head>
<body>
<h1>{title}</h1>
<p>{why}</p>
<p><small>{cause}</small></p>
</body>
</html>
"""
