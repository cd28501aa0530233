"""The header Authorization (RFC 9110, section 11.4; RFC 4559, section 4.2)."""
from __future__ import annotations

import binascii
import re
from collections.abc import Sequence

# auth-scheme, after which there is one space or more; the rest is text of ASCII.
_SCHEME = re.compile(rb"[!#$%&'*+.^_`|~0-9A-Za-z-]+\Z")
_IS_TEXT = re.compile(rb"[\t -~]*\Z")


class BadHeader(ValueError):
    """The header isn't what RFC 9110 allows, or has a token that isn't in base64."""


class TooLong(ValueError):
    """The token is longer than the limit."""


def token_of(values: Sequence[bytes], limit: int) -> bytes | None:
    """Return the token of the scheme Negotiate, or None if there are no credentials, or they are of another scheme.

    Several headers count as one whose values have commas between them (RFC 9110, section 5.3), so two tokens are
    malformed.

    >>> token_of([b"Negotiate  aGVsbG8="], 100), token_of([b"Basic YTpi"], 100), token_of([], 100)
    (b'hello', None, None)
    >>> token_of([b"Negotiate aGVsbG8=", b"Negotiate aGVsbG8="], 100)
    Traceback (most recent call last):
        ...
    fevstunik.web._credentials.BadHeader: the token isn't in base64
    """
    value = b",".join(values).strip(b" \t")
    if not value:
        return None
    scheme, _, text = value.partition(b" ")
    text = text.lstrip(b" ")
    if scheme.lower() != b"negotiate":
        if not _SCHEME.match(scheme) or not _IS_TEXT.match(text):
            raise BadHeader("the header Authorization is malformed")
        return None
    if len(text) // 4 * 3 > limit + 2:
        raise TooLong(f"the token is longer than {limit} bytes")
    try:
        token = binascii.a2b_base64(text, strict_mode=True)
    except binascii.Error:
        raise BadHeader("the token isn't in base64") from None
    if len(token) > limit:
        raise TooLong(f"the token is longer than {limit} bytes")
    return token
