#!/usr/bin/env python3
"""A second implementation of RFC 8009, checked against the vectors of its appendix A.

It prints the hashes of long sealed texts that stand in tests/crypto/sealing.toml, in some minutes.
"""
import hashlib
import hmac
import struct

from support.stealing import stolen

# The programs that make the calls: into new memory, and into slices.
WIRE, IN_C = "krb_calls_wire", "wire_in_c"
SHORT, WRONG = "the sealed text is too short", "the tag is wrong"
TYPES = {19: ("sha256", 16, 16), 20: ("sha384", 32, 24)}
BASE = {
    19: bytes.fromhex("3705d96080c17728a0e800eab6e0d23c"),
    20: bytes.fromhex("6d404d37faf79f9df0d33568d320669800eb4836472ea8a026d16b7182460c52"),
}
SEALED = [
    (19, 0, "7e5895eaf2672435bad817f545a37148", "ef85fb890bb8472f4dab20394dca781dad877eda39d50c870c0d5a0a8e48c718"),
    (19, 6, "7bca285e2fd4130fb55b1a5c83bc5b24",
     "84d7f30754ed987bab0bf3506beb09cfb55402cef7e6877ce99e247e52d16ed4421dfdf8976c"),
    (19, 16, "56ab21713ff62c0a1457200f6fa9948f",
     "3517d640f50ddc8ad3628722b3569d2ae07493fa8263254080ea65c1008e8fc295fb4852e7d83e1e7c48c37eebe6b0d3"),
    (19, 21, "a7a4e29a4728ce10664fb64e49ad3fac",
     "720f73b18d9859cd6ccb4346115cd336c70f58edc0c4437c5573544c31c813bce1e6d072c186b39a413c2f92ca9b8334a287ffcbfc"),
    (20, 0, "f764e9fa15c276478b2c7d0c4e5f58e4",
     "41f53fa5bfe7026d91faf9be959195a058707273a96a40f0a01960621ac612748b9bbfbe7eb4ce3c"),
    (20, 6, "b80d3251c1f6471494256ffe712d0b9a",
     "4ed7b37c2bcac8f74f23c1cf07e62bc7b75fb3f637b9f559c7f664f69eab7b6092237526ea0d1f61cb20d69d10f2"),
    (20, 16, "53bf8a0d105265d4e276428624ce5e63",
     "bc47ffec7998eb91e8115cf8d19dac4bbbe2e163e87dd37f49beca92027764f6"
     "8cf51f14d798c2273f35df574d1f932e40c4ff255b36a266"),
    (20, 21, "763e65367e864f02f55153c7e3b58af1",
     "40013e2df58e8751957d2878bcd2d6fe101ccfd556cb1eae79db3c3ee86429f2"
     "b2a602ac86fef6ecb647d6295fae077a1feb517508d2c16b4192e01f62"),
]
CHECKSUMS = [(19, "d78367186643d67b411cba9139fc1dee"), (20, "45ee791567eefca37f4ac1e0222de80d43c3bfa06699672a")]


def derived(etype, key, usage, purpose):
    digest, key_len, tag_len = TYPES[etype]
    bits = 8 * (key_len if purpose == 0xAA else tag_len)
    text = struct.pack(">I", 1) + struct.pack(">IB", usage, purpose) + b"\0" + struct.pack(">I", bits)
    return hmac.new(key, text, digest).digest()[: bits // 8]


def mac(etype, key, text):
    digest, _, tag_len = TYPES[etype]
    return hmac.new(key, text, digest).digest()[:tag_len]


def sealed(etype, key, usage, confounder, plain):
    body = stolen(derived(etype, key, usage, 0xAA), confounder + plain)
    return body + mac(etype, derived(etype, key, usage, 0x55), bytes(16) + body)


def checksum(etype, key, usage, text):
    return mac(etype, derived(etype, key, usage, 0x99), text)


def check():
    for etype, size, confounder, wanted in SEALED:
        found = sealed(etype, BASE[etype], 2, bytes.fromhex(confounder), bytes(range(size)))
        assert found.hex() == wanted, (etype, size)
    for etype, wanted in CHECKSUMS:
        assert checksum(etype, BASE[etype], 2, bytes(range(21))).hex() == wanted, etype


def usages():
    """The keys of usages with each bit, each derived in two ways."""
    for usage in (0, 0xFFFFFFFF, *(1 << bit for bit in range(32))):
        found = [" ".join([derived(it, BASE[it], usage, purpose).hex() for purpose in (0x99, 0xAA, 0x55)] * 2)
                 for it in BASE]
        yield WIRE, f"the keys of usage {usage}", [f"derive {key.hex()} {usage}" for key in BASE.values()], found


def hexed(text):
    return text.hex() or "-"


def into_slices(call, key, usage, arguments, written):
    """What is written into slices of bytes a5: of 3 bytes more, of its length, and of a byte less if there is one."""
    size = len(written)
    yield f"enc {call} {key} {usage} {size + 3} {arguments}", f"{size} {written.hex()}a5a5a5"
    yield f"enc {call} {key} {usage} {size} {arguments}", f"{size} {hexed(written)}"
    if size > 0:
        fault = f"the slice has fewer than {size} bytes"
        yield f"enc {call} {key} {usage} {size - 1} {arguments}", f"{fault} {hexed(bytes([0xA5] * (size - 1)))}"


def lengths(usage, confounder, step):
    """Texts of each length to 64 are sealed and opened: into new memory, and into slices."""
    for etype, key in BASE.items():
        made, slices, shown = [], [], f"{etype} {key.hex()}"
        for size in range(65):
            plain = bytes(step * i % 256 for i in range(size))
            text = sealed(etype, key, usage, confounder, plain)
            made.append((f"enc seal {shown} {usage} {confounder.hex()} {hexed(plain)}",
                         f"{text.hex()} {text.hex()} {hexed(plain)} {WRONG}"))
            made.append((f"enc open {shown} {usage} {text.hex()}", f"{hexed(plain)} {hexed(plain)}"))
            slices += into_slices("seal", shown, usage, f"{confounder.hex()} {hexed(plain)}", text)
            slices += into_slices("open", shown, usage, text.hex(), plain)
        for program, both in ((WIRE, made), (IN_C, slices)):
            yield program, f"each length to 64, type {etype}, usage {usage}", *zip(*both)


def changed(etype, key, confounder, plain=b""):
    """Each byte of a sealed text counts, and so does its length."""
    text = sealed(etype, key, 2, confounder, plain)
    bent = [(text[:at] + bytes([text[at] ^ 1]) + text[at + 1 :], WRONG) for at in range(len(text))]
    least = 16 + TYPES[etype][2]
    bent += [(text[:size], SHORT if size < least else WRONG) for size in range(len(text))]
    made = [(f"enc open {etype} {key.hex()} 2 {hexed(it)}", f"{fault} {fault}") for it, fault in bent]
    slices = [(f"enc open {etype} {key.hex()} 2 3 {hexed(it)}", f"{fault} a5a5a5") for it, fault in bent]
    for program, both in ((WIRE, made), (IN_C, slices)):
        yield program, f"each byte of {len(text)} changed, type {etype}", *zip(*both)


def drawn():
    """Cases of calls: program, name, lines, answers."""
    check()
    counted = bytes(range(16))
    first, other = bytes.fromhex("7e5895eaf2672435bad817f545a37148"), bytes(range(32))
    yield from usages()
    for it in (lengths(11, counted, 7), lengths(2, first, 5), changed(19, BASE[19], first),
               changed(20, other, bytes(16)), changed(19, BASE[19], first, b"plain"),
               changed(20, other, first, bytes(20))):
        yield from ((program, f"sealing: {name}", list(lines), list(answers)) for program, name, lines, answers in it)


def long_texts():
    """Of texts of many bytes the length and the hash of what is sealed."""
    check()
    for size in (4_096, 100_000, 100_001, 1_048_576, 3_000_000):
        plain = (bytes(7 * i % 256 for i in range(256)) * (size // 256 + 1))[:size]
        for etype, key in BASE.items():
            text = sealed(etype, key, 2, bytes([9] * 16), plain)
            yield etype, size, f"#{len(text)}:{hashlib.sha256(text).hexdigest()}"


if __name__ == "__main__":
    for etype, size, text in long_texts():
        print(etype, size, text, flush=True)
