"""AES on single blocks, both ways, straight from FIPS 197, sections 4.2 and 5: slow, and without tables but the S-box.

What it computes is checked against appendices B and C where it is loaded.
"""
from functools import cache


def doubled(byte):
    return (byte << 1) ^ (0x11B if byte & 0x80 else 0)


def product(a, b):
    result = 0
    for bit in range(8):
        if b >> bit & 1:
            result ^= a
        a = doubled(a)
    return result


def substituted(byte):
    """SubBytes of one byte: the inverse in the field, then the affine map (section 5.1.1)."""
    inverse = next((it for it in range(256) if product(byte, it) == 1), 0)
    turned = [inverse << n | inverse >> (8 - n) for n in range(5)]
    return (turned[0] ^ turned[1] ^ turned[2] ^ turned[3] ^ turned[4] ^ 0x63) & 0xFF


SBOX = bytes(substituted(it) for it in range(256))
DOUBLES = bytes(doubled(it) for it in range(256))


@cache
def round_keys(key):
    """The round keys of a key of 16 or 32 bytes (section 5.2)."""
    size, constant = len(key) // 4, 1
    words = [key[4 * i : 4 * i + 4] for i in range(size)]
    for i in range(size, 4 * (size + 7)):
        word = words[i - 1]
        if i % size == 0:
            word = bytes([SBOX[word[1]] ^ constant, SBOX[word[2]], SBOX[word[3]], SBOX[word[0]]])
            constant = doubled(constant)
        elif size > 6 and i % size == 4:
            word = bytes(SBOX[it] for it in word)
        words.append(bytes(a ^ b for a, b in zip(words[i - size], word)))
    return [b"".join(words[i : i + 4]) for i in range(0, len(words), 4)]


def added(block, key):
    return bytes(a ^ b for a, b in zip(block, key))


def mixed(column):
    """MixColumns of one column (section 5.1.3)."""
    a, b, c, d = column
    every = a ^ b ^ c ^ d
    return [a ^ every ^ DOUBLES[a ^ b], b ^ every ^ DOUBLES[b ^ c], c ^ every ^ DOUBLES[c ^ d],
            d ^ every ^ DOUBLES[d ^ a]]


def encrypted(key, block):
    """CIPHER of a block of 16 bytes (section 5.1)."""
    first, *middle, last = round_keys(key)
    block = added(block, first)
    for it in [*middle, last]:
        block = bytes(SBOX[block[(5 * i) % 16]] for i in range(16))
        if it is not last:
            block = bytes(byte for i in range(0, 16, 4) for byte in mixed(block[i : i + 4]))
        block = added(block, it)
    return block


UNSBOX = bytes(SBOX.index(it) for it in range(256))


def decrypted(key, block):
    """INVCIPHER of a block of 16 bytes (section 5.3): the steps of CIPHER undone, from the last to the first."""
    first, *middle, last = round_keys(key)
    for it in [last, *reversed(middle)]:
        block = added(block, it)
        if it is not last:
            # MixColumns three times more is MixColumns undone.
            for _ in range(3):
                block = bytes(byte for i in range(0, 16, 4) for byte in mixed(block[i : i + 4]))
        block = bytes(UNSBOX[block[(13 * i) % 16]] for i in range(16))
    return added(block, first)


# Appendix B, and C.1 and C.3.
for key, block, wanted in [
    ("2b7e151628aed2a6abf7158809cf4f3c", "3243f6a8885a308d313198a2e0370734", "3925841d02dc09fbdc118597196a0b32"),
    (bytes(range(16)).hex(), "00112233445566778899aabbccddeeff", "69c4e0d86a7b0430d8cdb78070b4c55a"),
    (bytes(range(32)).hex(), "00112233445566778899aabbccddeeff", "8ea2b7ca516745bfeafc49904b496089"),
]:
    assert encrypted(bytes.fromhex(key), bytes.fromhex(block)).hex() == wanted, key
    assert decrypted(bytes.fromhex(key), bytes.fromhex(wanted)).hex() == block, key


def drawn():
    """Cases of calls: the block of appendix C.1 under its two keys, with each first byte, by both bodies, both ways."""
    for size in (16, 32):
        key = bytes(range(size))
        for first in range(256):
            block = bytes([first]) + bytes.fromhex("112233445566778899aabbccddeeff")
            words = [encrypted(key, block).hex()] * 2 + [decrypted(key, block).hex()] * 2
            name = f"AES: a key of {size} bytes, a block that begins with {first}"
            yield "krb_calls_wire", name, [f"aes {key.hex()} {block.hex()} {block.hex()}"], [" ".join(words)]
