"""A service over MIT's GSS-API (Debian's package python3-gssapi), with the keytab that the environment names.

    /usr/bin/python3 tests/peers/web/service.py [BINDINGS]

It reads a client's first token in hex from a line, and prints the client's name, the flags of the context, `complete`
or `incomplete`, and the answer token in hex; or `refused` and why.
"""
import sys

import gssapi

# (an error that has a token is raised at once, too)
gssapi.SecurityContext.__DEFER_STEP_ERRORS__ = False


def main(bindings=None):
    bound = gssapi.raw.ChannelBindings(application_data=bindings.encode()) if bindings else None
    context = gssapi.SecurityContext(creds=gssapi.Credentials(usage="accept"), usage="accept", channel_bindings=bound)
    try:
        answer = context.step(bytes.fromhex(sys.stdin.readline()))
    except gssapi.exceptions.GSSError as fault:
        print("refused", fault)
    else:
        print(context.initiator_name, int(context.actual_flags), "complete" if context.complete else "incomplete",
              answer.hex() if answer else "-")


main(*sys.argv[1:])
