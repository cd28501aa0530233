"""Channel bindings of TLS (RFC 5929)."""
from __future__ import annotations

import hashlib

from ._library import Bytes, octets

# The hash of each algorithm that signs a certificate, by the bytes of its object identifier. SHA-256 stands for MD5 and
# SHA-1.
_RSA, _ECDSA, _NIST = "2a864886f70d0101", "2a8648ce3d04", "608648016503040"
_SIGNED = {
    f"{_RSA}04": "sha256", f"{_RSA}05": "sha256", f"{_RSA}0b": "sha256", f"{_RSA}0c": "sha384", f"{_RSA}0d": "sha512",
    f"{_RSA}0e": "sha224",
    f"{_RSA}0f": "sha512_224", f"{_RSA}10": "sha512_256", f"{_ECDSA}01": "sha256", f"{_ECDSA}0301": "sha224",
    f"{_ECDSA}0302": "sha256",
    f"{_ECDSA}0303": "sha384", f"{_ECDSA}0304": "sha512", "2a8648ce380403": "sha256", f"{_NIST}301": "sha224",
    f"{_NIST}302": "sha256", f"{_NIST}303": "sha384", f"{_NIST}304": "sha512"}
# RSASSA-PSS has its hash as a parameter (RFC 4055, section 3.1): SHA-1 if it is left out.
_PSS = f"{_RSA}0a"
_HASHES = {
    "2b0e03021a": "sha256", f"{_NIST}201": "sha256", f"{_NIST}202": "sha384", f"{_NIST}203": "sha512",
    f"{_NIST}204": "sha224"}
_SEQUENCE, _OID, _FIRST = 0x30, 0x06, 0xA0


def tls_server_end_point(certificate: Bytes) -> bytes:
    """Return the bindings `tls-server-end-point` of a TLS channel, from the server's certificate in DER.

    The client and the service pass the same certificate: the client as ``ssl_socket.getpeercert(True)`` returns it, the
    service as ``ssl.PEM_cert_to_DER_cert`` makes it of its file. Bytes that aren't a certificate, and one that isn't
    signed with one hash (as with Ed25519), raise ValueError: then these bindings aren't defined (RFC 5929, section
    4.1).

    >>> from fevstunik import tls_server_end_point
    >>> len(tls_server_end_point(bytes.fromhex("3014 3000 300d 06092a864886f70d01010c 0500 030100")))
    69
    """
    data = octets(certificate)
    try:
        hash_name = _hash_of(data)
    except IndexError:
        raise ValueError("the bytes aren't a certificate in DER") from None
    return b"tls-server-end-point:" + hashlib.new(hash_name, data).digest()


def _hash_of(certificate: bytes) -> str:
    """The hash of the algorithm that signed a certificate (RFC 5280, section 4.1)."""
    whole, rest = _element(certificate, _SEQUENCE)
    _, after = _element(whole, _SEQUENCE)
    algorithm, signature = _element(after, _SEQUENCE)
    if rest or not signature:
        raise IndexError
    name, parameters = _element(algorithm, _OID)
    if name.hex() == _PSS:
        return _hash_of_pss(parameters)
    if name.hex() not in _SIGNED:
        raise ValueError(f"the certificate isn't signed with one hash that is known: {name.hex()}")
    return _SIGNED[name.hex()]


def _hash_of_pss(parameters: bytes) -> str:
    inner, _ = _element(parameters, _SEQUENCE)
    if inner[:1] != bytes([_FIRST]):
        return "sha256"
    algorithm, _ = _element(_element(inner, _FIRST)[0], _SEQUENCE)
    name = _element(algorithm, _OID)[0].hex()
    if name not in _HASHES:
        raise ValueError(f"the certificate isn't signed with one hash that is known: {name}")
    return _HASHES[name]


def _element(data: bytes, tag: int) -> tuple[bytes, bytes]:
    """The content of the element at the start, which has this tag, and what is after it. An IndexError says that there
    is none."""
    if data[0] != tag:
        raise IndexError
    size, start = data[1], 2
    if size > 0x80:
        start += size - 0x80
        size = int.from_bytes(data[2:start], "big")
    if len(data) < start + size:
        raise IndexError
    return data[start:start + size], data[start + size:]
