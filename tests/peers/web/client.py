"""A client over MIT's GSS-API (Debian's package python3-gssapi).

    /usr/bin/python3 tests/peers/web/client.py SERVICE bare|spnego [BINDINGS]

SERVICE is like HTTP@localhost. It prints its token in hex, reads the service's token in hex from a line, and prints
`complete` if the library verified it. The clients in other languages here do the same.
"""
import sys

import gssapi

KINDS = {"bare": gssapi.MechType.kerberos, "spnego": gssapi.OID.from_int_seq("1.3.6.1.5.5.2")}


def main(service, kind, bindings=None):
    bound = gssapi.raw.ChannelBindings(application_data=bindings.encode()) if bindings else None
    context = gssapi.SecurityContext(name=gssapi.Name(service, gssapi.NameType.hostbased_service), mech=KINDS[kind],
                                     flags=gssapi.RequirementFlag.mutual_authentication, usage="initiate",
                                     channel_bindings=bound)
    print(context.step().hex(), flush=True)
    try:
        context.step(bytes.fromhex(sys.stdin.readline()))
    except gssapi.exceptions.GSSError as fault:
        print(fault, file=sys.stderr)
    print("complete" if context.complete else "incomplete")


main(*sys.argv[1:])
