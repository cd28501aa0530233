"""Keytabs and caches: what is read, what is written, and faults with their offsets."""
import struct

from support import c_cases, fixture

import pytest
from fevstunik import Credential, CredentialCache, Fault, Key, Keytab, KeytabEntry, Owner, TicketFlags


ENTRY = KeytabEntry("host/web@EX", Key(19, fixture.SERVICE_KEY), 3, 1_700_000_000)
LIMIT = 16_777_216


def fault_of(call):
    with pytest.raises(Fault) as raised:
        call()
    return raised.value.name, raised.value.code, raised.value.offset


def test_entries():
    assert Keytab(fixture.keytab()).entries == (ENTRY,)
    assert Keytab.read("examples/service.keytab").data == fixture.keytab()
    assert Keytab(bytearray(fixture.keytab())).data == Keytab(memoryview(fixture.keytab())).data == fixture.keytab()


def test_keytab_faults():
    assert fault_of(lambda: Keytab(b"")) == ("FILE_VERSION", 500, 0)
    assert fault_of(lambda: Keytab(b"\x05\x01")) == ("FILE_VERSION", 500, 0)
    assert fault_of(lambda: Keytab(fixture.keytab()[:-1])) == ("FILE_TRUNCATED", 502, 2)
    longer, size = fixture.keytab() + struct.pack(">i", 1) + b"x", len(fixture.keytab())
    assert fault_of(lambda: Keytab(longer)) == ("FILE_BAD_ITEM", 503, size)
    assert fault_of(lambda: Keytab(b"\x05\x02" + bytes(LIMIT - 1))) == ("TOO_LONG", 404, 0)
    for strange in ("text", 5, None):
        with pytest.raises(TypeError):
            Keytab(strange)


def test_a_long_file(tmp_path):
    (tmp_path / "long").write_bytes(b"\x05\x02" + bytes(LIMIT + 7))
    assert fault_of(lambda: Keytab.read(tmp_path / "long"))[0] == "TOO_LONG"
    with pytest.raises(FileNotFoundError):
        Keytab.read(tmp_path / "none")


def test_a_keytab_is_changed():
    keytab = Keytab(b"\x05\x02")
    other = KeytabEntry("a\\/b@EX", Key(-5, b"any"), 2**32 - 1, 2**32 - 1, -3)
    keytab = keytab.added(ENTRY).added(other)
    assert keytab.entries == (ENTRY, other)
    assert keytab.removed(0).entries == (other,) and len(keytab.removed(0).data) == len(keytab.data)
    assert len(keytab.removed(0).compacted().data) < len(keytab.data)
    assert fault_of(lambda: keytab.removed(2))[0] == "NO_SUCH_ENTRY"
    assert fault_of(lambda: keytab.added(KeytabEntry("host/web", Key(19, b""), 1)))[0] == "NO_REALM"
    assert fault_of(lambda: keytab.added(KeytabEntry("ab\\c@EX", Key(19, b""), 1))) == ("BAD_TEXT", 810, 2)


def test_a_key_of_another_length_is_not_added():
    for kind, size in (19, 15), (19, 17), (20, 31), (20, 0):
        with pytest.raises(ValueError, match=f"type {kind} has"):
            Keytab(b"\x05\x02").added(KeytabEntry("a@EX", Key(kind, bytes(size)), 1))


def test_numbers_are_not_cut():
    for entry in (KeytabEntry("a@EX", Key(19, b""), 2**32), KeytabEntry("a@EX", Key(2**15, b""), 1),
                  KeytabEntry("a@EX", Key(19, b""), 1, -1),
                  KeytabEntry("a@EX", Key(19, b""), 1, 1, 2**31)):
        with pytest.raises(OverflowError):
            Keytab(b"\x05\x02").added(entry)


def test_credentials():
    cache = CredentialCache(c_cases.two_credentials())
    assert cache.owner == Owner("alice@EX", 1, (-2, 7))
    configuration, credential = cache.credentials
    assert configuration.server.endswith("@X-CACHECONF:") and configuration.ticket == b"yes"
    assert credential == Credential(
        "alice@EX", "host/web@EX", Key(19, fixture.SESSION_KEY), fixture.ticket(), 1_700_000_000, 1_700_000_001,
        1_700_036_000, 1_700_600_000,
        TicketFlags(0x4061_0000), 1, 3, True)
    assert TicketFlags.FORWARDABLE in credential.flags and TicketFlags.PROXY not in credential.flags
    assert CredentialCache(fixture.old_cache()).owner.clock_offset is None


def test_cache_faults():
    assert fault_of(lambda: CredentialCache(b"\x05\x02")) == ("FILE_VERSION", 500, 0)
    assert fault_of(lambda: CredentialCache(b"\x05\x04\x00\x05"))[0] == "FILE_HEADER"
    start = 4 + len(fixture.principal(1, b"EX", b"alice"))
    assert fault_of(lambda: CredentialCache(fixture.cache()[:-1])) == ("FILE_BAD_ITEM", 503, start)


@pytest.mark.parametrize("read, data, kind", [
    (Keytab, fixture.cache(), "a credential cache"), (Keytab, fixture.old_cache(), "a credential cache"),
    (Keytab, b"\x05\x01", "a keytab of an older version"), (CredentialCache, fixture.keytab(), "a keytab")])
def test_the_other_file(read, data, kind):
    with pytest.raises(Fault) as raised:
        read(data)
    assert str(raised.value).endswith(f": this is {kind}")


def test_default_cache_that_is_a_keytab(monkeypatch):
    monkeypatch.setenv("KRB5CCNAME", "FILE:examples/service.keytab")
    with pytest.raises(Fault) as raised:
        CredentialCache.default()
    assert str(raised.value).endswith(": the credential cache is examples/service.keytab; this is a keytab")


def test_keys_are_not_shown():
    cache, keytab = CredentialCache(fixture.cache()), Keytab(fixture.keytab())
    shown = " ".join(map(repr, (keytab, keytab.entries, cache, cache.credentials, cache.owner)))
    for secret in (fixture.SERVICE_KEY, fixture.SESSION_KEY):
        assert repr(secret)[2:-1] not in shown and secret.hex() not in shown
