"""Keytabs and caches that hypothesis draws, and shrinks if one is read wrongly, beside a second reading of the
formats."""
import struct

import pytest
from fevstunik import CredentialCache, Fault, Keytab
from hypothesis import HealthCheck, given, settings, strategies as draw

from support import fixture, reference

FAULTS = {"Version": "FILE_VERSION", "Truncated": "FILE_TRUNCATED", "BadEntry": "FILE_BAD_ITEM",
          "BadItem": "FILE_BAD_ITEM",
          "Header": "FILE_HEADER", "TooLong": "TOO_LONG"}
# (the same each time, and also on a slow machine)
SOME = settings(max_examples=200, deadline=None, database=None, derandomize=True, print_blob=True,
                suppress_health_check=[HealthCheck.too_slow])
texts = draw.binary(max_size=6)
entries = draw.fixed_dictionaries({
    "realm": texts, "components": draw.lists(texts, max_size=3), "name_type": draw.integers(-2**31, 2**31 - 1),
    "timestamp": draw.integers(0, 2**32 - 1), "kvno": draw.integers(0, 2**32 - 1),
    "etype": draw.integers(-2**15, 2**15 - 1),
    "key": draw.binary(max_size=40)})
records = entries.map(reference.record_of)
holes = draw.integers(1, 9).map(lambda size: struct.pack(">i", -size) + bytes(size))
keytabs = draw.lists(records | holes, max_size=4).map(lambda parts: b"\5\2" + b"".join(parts))
names = draw.builds(lambda kind, realm, parts: fixture.principal(kind, realm, *parts), draw.integers(0, 9), texts,
                    draw.lists(texts, max_size=2))
credentials = draw.builds(fixture.credential, names, names, draw.integers(-2**15, 2**15 - 1), draw.binary(max_size=9),
                          draw.tuples(*[draw.integers(0, 2**32 - 1)] * 4), draw.binary(max_size=9))
caches = draw.builds(lambda name, items: b"\5\4\0\0" + name + b"".join(items), names,
                     draw.lists(credentials, max_size=3))


def bent(files):
    """The files, some of them cut off or with a byte changed."""
    return files | draw.builds(lambda data, at: data[:at % (len(data) + 1)], files, draw.integers(0)) | draw.builds(
        lambda data, at, byte: data[:at % len(data)] + byte + data[at % len(data) + 1:], files, draw.integers(0),
        draw.binary(min_size=1, max_size=1))


def is_read(data, second, read):
    """Both readings find the same, or the same fault at the same place."""
    try:
        wanted = second(data)
    except reference.Fault as fault:
        with pytest.raises(Fault) as raised:
            read(data)
        assert (raised.value.name, raised.value.offset) == (FAULTS[fault.name], fault.at or 0)
    else:
        assert read(data) == wanted


@given(bent(keytabs))
@SOME
def test_keytab(data):
    def read(data):
        return [(it.kvno, it.key.kind, it.key.data, it.timestamp, it.name_type) for it in Keytab(data).entries]

    def second(data):
        return [(it["kvno"], it["etype"], it["key"], it["timestamp"], it["name_type"]) for it in reference.keytab(data)]

    is_read(data, second, read)


@given(bent(caches))
@SOME
def test_cache(data):
    def read(data):
        return [(it.key.kind, it.key.data, it.ticket) for it in CredentialCache(data).credentials]

    def second(data):
        return [(it["etype"], it["key"], it["ticket"]) for it in reference.cache(data)[2]]

    is_read(data, second, read)
