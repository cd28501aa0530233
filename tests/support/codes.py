"""Codes of texts, by Python's hmac."""
import hmac

JEFE, NOTHING, GREETING = b"Jefe", b"what do ya want for nothing?", b"Hi There"


def word(text):
    return text.hex() or "-"


def code(name, key, *parts):
    return hmac.new(key, b"".join(parts), name).digest()


def both(key, *parts):
    """The lines that ask for the two codes of some parts, and the codes: each is made in three ways."""
    names = ("sha256", "sha384")
    lines = [" ".join([f"hmac {it} {word(key)}", *map(word, parts)]) for it in names]
    return lines, [" ".join([code(it, key, *parts).hex()] * 3) for it in names]


def drawn():
    """Cases of calls: keys of each length about that of a block, and a text cut at each two places (RFC 4231, section
    4.3)."""
    for size in (*range(3), *range(60, 70), *range(120, 140), 1000):
        yield "krb_calls_wire", f"codes: a key of {size} bytes", *both(bytes(i % 256 for i in range(size)), GREETING)
    for end in range(len(NOTHING) + 1):
        for start in range(end + 1):
            parts = NOTHING[:start], NOTHING[start:end], NOTHING[end:]
            yield "krb_calls_wire", f"codes: a text cut at {start} and {end}", *both(JEFE, *parts)
