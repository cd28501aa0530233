"""A side of a context by MIT's GSS-API: each line of input is a call, with bytes in hexadecimal, and a line of output
its answer.

    side.py initiate NAME mutual|plain    begins with a line: its first token
    side.py initiate NAME mutual|plain listed
                                          the same in a negotiation that offers NTLM first, and Kerberos after it
    side.py accept NAME                   takes the other side's first token as its first line, and answers with its
                                          own, or "-"

A later line is `token HEX` (an initiator's answer), `step HEX` (the same, after which it says `complete` or
`incomplete` and its own next token, or "-"), `wrap sealed|plain HEX`, `unwrap HEX`, `mic HEX`,
`verify HEX HEX` or `limit sealed|plain SIZE`.
"""
import sys

import gssapi
from gssapi.raw import set_neg_mechs, wrap_size_limit

SPNEGO = gssapi.OID.from_int_seq("1.3.6.1.5.5.2")
NTLM = gssapi.OID.from_int_seq("1.3.6.1.4.1.311.2.2.10")


def shown(data):
    return data.hex() or "-"


def read(word):
    return b"" if word == "-" else bytes.fromhex(word)


def answered(context, words):
    if words[0] == "step":
        token = context.step(read(words[1]))
        return f"{'complete' if context.complete else 'incomplete'} {shown(token or b'')}"
    if words[0] == "token":
        context.step(read(words[1]))
        return "complete" if context.complete else "incomplete"
    if words[0] == "wrap":
        return shown(context.wrap(read(words[2]), words[1] == "sealed").message)
    if words[0] == "unwrap":
        opened = context.unwrap(read(words[1]))
        return f"{'sealed' if opened.encrypted else 'plain'} {shown(opened.message)}"
    if words[0] == "mic":
        return shown(context.get_signature(read(words[1])))
    if words[0] == "verify":
        context.verify_signature(read(words[1]), read(words[2]))
        return "verified"
    return str(wrap_size_limit(context, int(words[2]), words[1] == "sealed"))


def made(words):
    name = gssapi.Name(words[1], gssapi.NameType.hostbased_service)
    if words[0] == "initiate":
        flags = gssapi.RequirementFlag.integrity | gssapi.RequirementFlag.confidentiality
        if words[2] == "mutual":
            flags |= gssapi.RequirementFlag.mutual_authentication
        creds, mech = None, gssapi.MechType.kerberos
        if words[3:] == ["listed"]:
            creds, mech = gssapi.Credentials(usage="initiate", mechs=[SPNEGO]), SPNEGO
            set_neg_mechs(creds, [NTLM, gssapi.MechType.kerberos])
        context = gssapi.SecurityContext(name=name, creds=creds, usage="initiate", flags=flags, mech=mech)
        print(shown(context.step()), flush=True)
        return context
    context = gssapi.SecurityContext(creds=gssapi.Credentials(name=name, usage="accept"), usage="accept")
    print(shown(context.step(read(sys.stdin.readline().strip())) or b""), flush=True)
    return context


def main(words):
    context = made(words)
    for line in sys.stdin:
        try:
            print(answered(context, line.split()), flush=True)
        except gssapi.exceptions.GSSError as fault:
            print(f"fault {type(fault).__name__}", flush=True)


main(sys.argv[1:])
