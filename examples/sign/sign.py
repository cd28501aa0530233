#!/usr/bin/env python3
"""A client and a server that go on after a login, as SSH and LDAP do: each proves by a MIC that it has seen the same
session, and then they send sealed lines, over TCP on the loopback.

    sign.py serve KEYTAB NAME [--first]   NAME as host/web@EX; it prints its port, and serves one client: each line
                                          comes back as `CLIENT: LINE`
    sign.py ask CACHE NAME PORT           sends the lines of standard input, and prints what comes back

sign.c is the same in C; either may talk to the other one. `serve` refuses logins in the first five minutes after it was
started: --first doesn't, and is only for a keytab whose keys are all new.
"""
import socket
import sys
import time

from fevstunik import Client, CredentialCache, Key, Keytab, Login, Service


def send(to, data):
    to.sendall(len(data).to_bytes(4, "big") + data)


def receive(connection):
    """The next message, or nothing if the other side has hung up."""
    size = int.from_bytes(connection.recv(4, socket.MSG_WAITALL), "big")
    if size > 65_536:
        raise SystemExit("sign.py: a message is too long")
    return connection.recv(size, socket.MSG_WAITALL) if size else b""


def line_of(message):
    if not message.sealed:
        raise SystemExit("sign.py: a line comes in plain")
    return message.text


def serve(keytab, name, first=None):
    begins = {"first_life": True} if first == "--first" else {"started": time.time()}
    service = Service(Keytab.read(keytab), name, subkey=20, **begins)
    listener = socket.create_server(("127.0.0.1", 0))
    print(listener.getsockname()[1], flush=True)
    connection, _ = listener.accept()
    token = receive(connection)
    login = service.answer(token)
    if not isinstance(login, Login):
        raise SystemExit(f"sign.py: {login}")
    if login.service_subkey is None and login.subkey is None:
        raise SystemExit("sign.py: there is no subkey, so recorded messages would be taken again")
    send(connection, login.reply)
    session, messages = token + login.reply, login.messages()
    messages.verify_mic(session, receive(connection))
    send(connection, messages.mic(session))
    while token := receive(connection):
        send(connection, messages.wrap(login.client.encode() + b": " + line_of(messages.unwrap(token))))


def ask(cache, name, port):
    client = Client(CredentialCache.read(cache), name, context=None, subkey=Key.random(20))
    connection, token = socket.create_connection(("127.0.0.1", int(port))), client.first()
    send(connection, token)
    reply = receive(connection)
    session, messages = token + reply, client.finish(reply).messages()
    send(connection, messages.mic(session))
    messages.verify_mic(session, receive(connection))
    for line in sys.stdin.buffer:
        send(connection, messages.wrap(line.rstrip(b"\n")))
        sys.stdout.buffer.write(line_of(messages.unwrap(receive(connection))) + b"\n")


if __name__ == "__main__":
    commands = {"serve": serve, "ask": ask}
    if len(sys.argv) not in (4, 5) or sys.argv[1] not in commands:
        raise SystemExit(__doc__)
    commands[sys.argv[1]](*sys.argv[2:])
