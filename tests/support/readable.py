"""A second reading of what `list-keytab --readable` and `list-ccache --readable` print, written from their rules alone.

`keytab_table` and `cache_table` give the text for what tests/support/reference.py read of a file. Nothing here is taken
from the program's sources. `check` compares its answers with the stored cases of tests/program/readable.toml.
"""
import datetime
import re
import struct
import tomllib

from support import TESTS, reference
from support.krbtool import content

# IANA's registry "Kerberos Encryption Type Numbers".
ENCTYPES = {
    1: "des-cbc-crc",
    2: "des-cbc-md4",
    3: "des-cbc-md5",
    5: "des3-cbc-md5",
    7: "des3-cbc-sha1",
    9: "dsaWithSHA1-CmsOID",
    10: "md5WithRSAEncryption-CmsOID",
    11: "sha1WithRSAEncryption-CmsOID",
    12: "rc2CBC-EnvOID",
    13: "rsaEncryption-EnvOID",
    14: "rsaES-OAEP-ENV-OID",
    15: "des-ede3-cbc-Env-OID",
    16: "des3-cbc-sha1-kd",
    17: "aes128-cts-hmac-sha1-96",
    18: "aes256-cts-hmac-sha1-96",
    19: "aes128-cts-hmac-sha256-128",
    20: "aes256-cts-hmac-sha384-192",
    23: "rc4-hmac",
    24: "rc4-hmac-exp",
    25: "camellia128-cts-cmac",
    26: "camellia256-cts-cmac",
    65: "subkey-keymaterial",
}

# The masks of MIT krb5's krb5.h, with klist's letters in its order.
FLAGS = (
    (0x40000000, "F"),  # TKT_FLG_FORWARDABLE
    (0x20000000, "f"),  # TKT_FLG_FORWARDED
    (0x10000000, "P"),  # TKT_FLG_PROXIABLE
    (0x08000000, "p"),  # TKT_FLG_PROXY
    (0x04000000, "D"),  # TKT_FLG_MAY_POSTDATE
    (0x02000000, "d"),  # TKT_FLG_POSTDATED
    (0x01000000, "i"),  # TKT_FLG_INVALID
    (0x00800000, "R"),  # TKT_FLG_RENEWABLE
    (0x00400000, "I"),  # TKT_FLG_INITIAL
    (0x00100000, "H"),  # TKT_FLG_HW_AUTH
    (0x00200000, "A"),  # TKT_FLG_PRE_AUTH
    (0x00080000, "T"),  # TKT_FLG_TRANSIT_POLICY_CHECKED
    (0x00040000, "O"),  # TKT_FLG_OK_AS_DELEGATE
    (0x00008000, "a"),  # TKT_FLG_ANONYMOUS
)

EPOCH = datetime.datetime(1970, 1, 1)


def date(seconds):
    return (EPOCH + datetime.timedelta(seconds=seconds)).isoformat() + "Z"


def time_cell(seconds):
    return date(seconds) if seconds else "-"


def enctype(number):
    return ENCTYPES.get(number, str(number))


def flags(number):
    return "".join(letter for mask, letter in FLAGS if number & mask) or "-"


def table(rows):
    """The rows in columns: all cells but a row's last are filled to the width of their column's widest, and two spaces
    follow."""
    widths = [min(256, max(map(len, column))) for column in zip(*rows)]
    widths[-1] = 0
    return "".join("  ".join(f"{cell:<{width}}" for cell, width in zip(row, widths)) + "\n" for row in rows)


def keytab_table(entries):
    """What is printed of the entries of a keytab."""
    rows = [("KVNO", "ENCTYPE", "TIMESTAMP", "PRINCIPAL")]
    for it in entries:
        name = reference.principal_text(it["realm"], it["components"])
        rows.append((str(it["kvno"]), enctype(it["etype"]), date(it["timestamp"]), name))
    return table(rows)


def credential_row(item, now):
    names = (reference.name_text(item["client"]), reference.name_text(item["server"]))
    if reference.is_configuration(item):
        return ("config", *"------", *names)
    kind = "expired" if now is not None and item["endtime"] < now else "ticket"
    times = (time_cell(item[word]) for word in ("authtime", "starttime", "endtime", "renew_till"))
    return (kind, enctype(item["etype"]), *times, flags(item["flags"]), *names)


def cache_table(cache, now=None):
    """What is printed of a cache, as reference.cache gives it, at a moment in seconds since 1970 or at none."""
    fields, default, credentials = cache
    lines = [f"default {reference.name_text(default)}\n"]
    offsets = [struct.unpack(">ii", value) for tag, value in fields if tag == 1]
    if offsets:
        lines.append("offset {} {}\n".format(*offsets[0]))
    head = ("KIND", "ENCTYPE", "AUTHTIME", "STARTTIME", "ENDTIME", "RENEW-TILL", "FLAGS", "CLIENT", "SERVER")
    return "".join(lines) + table([head] + [credential_row(it, now) for it in credentials])


# ---------------------------------------------------------------- what other sources say


def told(case):
    """What a stored case's table is by this reading, or None if the case isn't about one."""
    word, *words = case["args"]
    if "--readable" not in words or "--" in words or "stdout" not in case or len(case.get("files", {})) != 1:
        return None
    (data,), now = map(content, case["files"].values()), re.search(r"--now[= ](\d+)", " ".join(words))
    if word == "list-keytab":
        return keytab_table(reference.keytab(data))
    return cache_table(reference.cache(data), now and int(now[1]))


def check():
    """The stored cases have dates that `date -u` says, and names and letters that klist says."""
    with open(TESTS / "program/readable.toml", "rb") as file:
        found = [(it["name"], told(it), it.get("stdout")) for it in tomllib.load(file)["case"]]
    compared = [(name, one == other) for name, one, other in found if one]
    assert all(is_same for _, is_same in compared) and len(compared) >= 13, compared
