"""Texts that others chose, made fit for a line of a log."""
from __future__ import annotations

# How long such a text may be.
_LONGEST = 256


def fit_for_a_line(text: str) -> str:
    """The text, cut if it is long. What isn't printable is written as Python writes it, so it can't begin a line or
    colour a terminal."""
    if len(text) <= _LONGEST and text.isprintable():
        return text
    cut = text if len(text) <= _LONGEST else text[:_LONGEST] + ".."
    return "".join(it if it.isprintable() else ascii(it)[1:-1] for it in cut)
