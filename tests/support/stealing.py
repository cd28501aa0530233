"""A second implementation of CBC with ciphertext stealing (RFC 3962, section 5).

What it computes is checked against the examples of RFC 3962, appendix B, before a case is drawn.
"""
from support import aes

PUBLISHED = [
    (17, "c6353568f2bf8cb4d8a580362da7ff7f97"),
    (31, "fc00783e0efdb2c1d445d4c8eff7ed2297687268d6ecccc0c07b25e25ecfe5"),
    (32, "39312523a78662d5be7fcbcc98ebf5a897687268d6ecccc0c07b25e25ecfe584"),
    (47, "97687268d6ecccc0c07b25e25ecfe584b3fffd940c16a18c1b5549d2f838029e39312523a78662d5be7fcbcc98ebf5"),
    (48, "97687268d6ecccc0c07b25e25ecfe5849dad8bbb96c4cdc03bc103e1a194bbd839312523a78662d5be7fcbcc98ebf5a8"),
    (64,
     "97687268d6ecccc0c07b25e25ecfe58439312523a78662d5be7fcbcc98ebf5a8"
     "4807efe836ee89a526730dbc2f7bc8409dad8bbb96c4cdc03bc103e1a194bbd8"),
]
SOUP = b"I would like the General Gau's Chicken, please, and wonton soup."


def chained(key, text):
    """CBC of whole blocks, with an initial vector of zeros."""
    out, previous = bytearray(), bytes(16)
    for at in range(0, len(text), 16):
        previous = aes.encrypted(key, aes.added(text[at : at + 16], previous))
        out += previous
    return bytes(out)


def stolen(key, text):
    if len(text) == 16:
        return chained(key, text)
    blocks = (len(text) + 15) // 16
    out = chained(key, text + bytes(16 * blocks - len(text)))
    return (out[: 16 * (blocks - 2)] + out[16 * (blocks - 1) :]
            + out[16 * (blocks - 2) : 16 * (blocks - 1)])[: len(text)]


def drawn():
    """Cases of calls: texts of each length from 16 to 220, both ways and without the first 16 bytes, under keys of both
    sizes."""
    for size, wanted in PUBLISHED:
        assert stolen(b"chicken teriyaki", SOUP[:size]).hex() == wanted, size
    text = bytes(7 * i % 256 for i in range(220))
    for key in (bytes(range(32)), bytes(range(16))):
        for size in range(16, 221):
            plain, cipher = text[:size].hex(), stolen(key, text[:size]).hex()
            name, answer = f"stealing: {size} bytes, a key of {len(key)}", f"{cipher} {plain} {plain[32:] or '-'}"
            yield "krb_calls_wire", name, [f"cts {key.hex()} {plain} {cipher}"], [answer]
