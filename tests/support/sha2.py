"""The compression functions of SHA-256 and SHA-512 (FIPS 180-4, sections 5.3 and 6), which hashlib doesn't show: for
the states that a key of HMAC leaves after its first block. What they compute is checked against hashlib where it is
loaded.
"""
import hashlib
from dataclasses import dataclass
from functools import cache
from math import isqrt


def primes(count):
    found = []
    number = 2
    while len(found) < count:
        if all(number % it for it in found):
            found.append(number)
        number += 1
    return found


def cube_root(number):
    """The integer part."""
    low, high = 0, 1 << (number.bit_length() // 3 + 1)
    while high - low > 1:
        middle = (low + high) // 2
        low, high = (middle, high) if middle**3 <= number else (low, middle)
    return low


@dataclass(frozen=True)
class Sha2:
    """A function of the family: the bits of a word, the rounds, the amounts of its four sigmas, and which primes its
    first state is made of."""

    bits: int
    rounds: int
    amounts: tuple
    first: range

    @property
    def mask(self):
        return (1 << self.bits) - 1

    @cache
    def start(self):
        """The first 32 bits of the fractions of square roots; or 64."""
        return [isqrt(it << 2 * self.bits) & self.mask for it in primes(self.first.stop)[self.first.start:]]

    @cache
    def constants(self):
        return [cube_root(it << 3 * self.bits) & self.mask for it in primes(self.rounds)]

    def mixed(self, word, which, shifts):
        a, b, c = self.amounts[which]
        last = word >> c if shifts else self.turned(word, c)
        return self.turned(word, a) ^ self.turned(word, b) ^ last

    def turned(self, word, by):
        return (word >> by | word << (self.bits - by)) & self.mask

    def schedule(self, block):
        size = self.bits // 8
        words = [int.from_bytes(block[at : at + size], "big") for at in range(0, 16 * size, size)]
        for at in range(16, self.rounds):
            words.append((self.mixed(words[at - 2], 3, True) + words[at - 7] + self.mixed(words[at - 15], 2, True)
                          + words[at - 16]) & self.mask)
        return words

    def compressed(self, state, block):
        """The state after one block."""
        a, b, c, d, e, f, g, h = state
        for word, constant in zip(self.schedule(block), self.constants()):
            one = h + self.mixed(e, 1, False) + (e & f ^ ~e & self.mask & g) + constant + word
            two = self.mixed(a, 0, False) + (a & b ^ a & c ^ b & c)
            a, b, c, d, e, f, g, h = (one + two) & self.mask, a, b, c, (d + one) & self.mask, e, f, g
        return [(one + other) & self.mask for one, other in zip(state, (a, b, c, d, e, f, g, h))]


SHA256 = Sha2(32, 64, ((2, 13, 22), (6, 11, 25), (7, 18, 3), (17, 19, 10)), range(8))
SHA384 = Sha2(64, 80, ((28, 34, 39), (14, 18, 41), (1, 8, 7), (19, 61, 6)), range(8, 16))


def hmac_states(function, key):
    """The states after the first block of HMAC's inner and of its outer hash (RFC 2104)."""
    block = key.ljust(2 * function.bits, b"\0")
    return [function.compressed(function.start(), bytes(it ^ pad for it in block)) for pad in (0x36, 0x5C)]


def check():
    """One block of padding alone: the hash of nothing."""
    for function, name in ((SHA256, "sha256"), (SHA384, "sha384")):
        state = function.compressed(function.start(), b"\x80".ljust(2 * function.bits, b"\0"))
        digest = b"".join(it.to_bytes(function.bits // 8, "big") for it in state)
        wanted = hashlib.new(name).digest()
        assert digest[: len(wanted)] == wanted, name


check()
