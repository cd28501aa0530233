"""Messages that no document shows, but four of the project's fixture: put together from RFC 4120's tables, by
hand-written DER, without the project's code (der.py)."""

from support.der import encrypted, flags, key, message, name, octets, sequence, string, ticket, time


TICKET = bytes.fromhex(
    "6181d33081d0a003020105a1041b024558a2163014a003020103a10d300b1b04686f73741b03776562a381aa3081a7a003020113a103"
    "020103a2819a0481972cac51baf4f4c370efcbdd00f93b9d31830054d5323e8734b4b5a50307713a1fd99ffd06764979def1146b8e3a"
    "df2c98c2df1302be0dcc149765c2cd15fad1e8306ccef3d45266a106fe35eac396a6c62084a22951ba75e405af0537f589be46b4cc49"
    "c8f8e0049838022cf69c6910afbee3e7a76cc801913abcef0c7d16fb3eae94f34bc0bd18d13fed928de348d70f9b9771240ffda4"
)
ENC_TICKET = bytes.fromhex(
    "63753073a00703050000000000a11b3019a003020113a1120410000102030405060708090a0b0c0d0e0fa2041b024558a3123010a003"
    "020101a10930071b05616c696365a40b3009a003020101a1020400a511180f32303233313131343232313332305aa711180f32303233"
    "313131353038313332305a"
)
AUTHENTICATOR = bytes.fromhex(
    "62393037a003020105a1041b024558a2123010a003020101a10930071b05616c696365a403020105a511180f32303233313131343232"
    "313530305a"
)
ENC_AP_REP = bytes.fromhex("7b1a3018a011180f32303233313131343232313530305aa103020105")
SHORT_TICKET = ticket(b"EX", name(2, b"krbtgt", b"EX"), encrypted(20, bytes.fromhex("00ff")))
# The least whole number of all, and the greatest where there are no negative ones.
LEAST, MOST = -(2**31), 2**32 - 1
EDGE_TICKET = ticket(b"EX", name(LEAST, b""), encrypted(-1, b"", MOST))

VALUES = [
    ("A ticket for host/web@EX.", "TICKET", TICKET),
    ("What is sealed in it.", "ENC_TICKET", ENC_TICKET),
    ("The client's authenticator.", "AUTHENTICATOR", AUTHENTICATOR),
    ("What is sealed in the reply to it.", "ENC_AP_REP", ENC_AP_REP),
    ("A request with that ticket, mutual-required, and an authenticator of four bytes.", "AP_REQ",
     message(0x6E, 5, 14, flags(1 << 29), TICKET, encrypted(19, bytes.fromhex("01020304")))),
    ("A reply with the key's version 2^32 - 1.", "AP_REP",
     message(0x6F, 5, 15, encrypted(20, bytes.fromhex("a1a2a3"), 2**32 - 1))),
    ("What is sealed in a reply, with all fields.", "FULL_ENC_AP_REP",
     message(0x7B, time("20231114221500Z"), 999999, key(19, bytes.fromhex("0b0c")), 7)),
    ("An authenticator with all fields.", "FULL_AUTHENTICATOR",
     message(0x62, 5, string(b"EX"), name(1, b"alice", b"admin"), key(32771, bytes.fromhex("aabb")), 0,
             time("19700101000000Z"), key(20, bytes.fromhex("0c")), 128,
             sequence(key(1, bytes.fromhex("3000")), key(64, b"")))),
    ("What is sealed in a ticket, with all fields.", "FULL_ENC_TICKET",
     message(0x63, flags(1 << 24), key(19, bytes.fromhex("0d")), string(b"EX"), name(1, b"alice"),
             key(1, bytes.fromhex("4142")), time("20231114221320Z"), time("20231114221321Z"), time("20231115081320Z"),
             time("20231116081320Z"), sequence(key(2, bytes.fromhex("7f000001"))),
             sequence(key(1, bytes.fromhex("3000"))))),
    ("A ticket that tells no version of the key.", "SHORT_TICKET", SHORT_TICKET),
    ("A request that tells no version of a key.", "SHORT_AP_REQ",
     message(0x6E, 5, 14, flags(0), SHORT_TICKET, encrypted(20, bytes.fromhex("05")))),
    ("A ticket with numbers at their edges.", "EDGE_TICKET", EDGE_TICKET),
    ("A request with that ticket, that tells the versions of both keys.", "FULL_AP_REQ",
     message(0x6E, 5, 14, flags(3 << 29), EDGE_TICKET, encrypted(LEAST, bytes.fromhex("0708"), MOST))),
    ("A reply that tells no version of the key.", "SHORT_AP_REP",
     message(0x6F, 5, 15, encrypted(-1, b""))),
    ("What is sealed in a reply, with numbers at their edges.", "EDGE_ENC_AP_REP",
     message(0x7B, time("99991231235959Z"), 0, key(LEAST, b""), MOST)),
    ("An authenticator with numbers at their edges.", "EDGE_AUTHENTICATOR",
     message(0x62, 5, string(b""), name(LEAST), key(-1, b""), 999999, time("00000101000000Z"), key(-129, b""), MOST,
             sequence(key(-128, b"")))),
    ("What is sealed in a ticket, with numbers at their edges.", "EDGE_ENC_TICKET",
     message(0x63, flags(MOST), key(LEAST, b""), string(b""), name(-1), key(-32769, b""), time("00000101000000Z"), None,
             time("99991231235959Z"), None, sequence(key(-32768, b"")), sequence(key(-1, b"")))),
    ("An error of the service host/web@EX: the clocks differ too much.", "KRB_ERROR",
     message(0x7E, 5, 30, None, None, time("20231114221500Z"), 7, 37, None, None, string(b"EX"),
             name(3, b"host", b"web"))),
    ("An error with all fields, and with numbers at their edges.", "FULL_KRB_ERROR",
     message(0x7E, 5, 30, time("20231114221500Z"), 999999, time("20231114222000Z"), 999999, LEAST, string(b"EX"),
             name(-1, b"alice"), string(b"EX"), name(LEAST, b"host", b"web"), string(b"too late"),
             octets(bytes.fromhex("3000")))),
]
