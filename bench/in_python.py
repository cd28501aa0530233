"""Times logins in Python, by the package fevstunik and by python-gssapi.

    in_python.py ours|theirs KEYTAB TOKENS COUNT    prints the nanoseconds of processor time of each login

TOKENS has tokens, each after its size in four bytes. The first COUNT are used. Each login ends with the
client's name and the token that goes back.
"""
import struct
import sys
import time
from pathlib import Path


def tokens_of(path):
    data, at = Path(path).read_bytes(), 0
    while at < len(data):
        (size,) = struct.unpack_from(">I", data, at)
        yield data[at + 4:at + 4 + size]
        at += 4 + size


def ours(keytab):
    from fevstunik import Keytab, Service

    service = Service(Keytab.read(keytab), "host/web0.example.test@EXAMPLE.TEST", first_life=True)

    def login(token):
        found = service.answer(token)
        return str(found.client), found.reply

    return login


def theirs(keytab):
    import gssapi

    credentials = gssapi.Credentials(usage="accept", store={"keytab": keytab})

    def login(token):
        context = gssapi.SecurityContext(creds=credentials, usage="accept")
        reply = context.step(token)
        return str(context.initiator_name), reply

    return login


def main():
    side, keytab, tokens, count = sys.argv[1:]
    login, given = (ours if side == "ours" else theirs)(keytab), list(tokens_of(tokens))
    began = time.process_time_ns()
    for token in given[:int(count)]:
        client, reply = login(token)
        assert client.startswith("user") and reply
    print((time.process_time_ns() - began) / int(count))


if __name__ == "__main__":
    main()
