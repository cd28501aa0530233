#!/usr/bin/env python3
"""A service over the package fevstunik: answers each line of standard input, what a client sent in hex, by `accepted
CLIENT REPLY`, `go-on - REPLY` or `refused CAUSE REPLY`, with what goes back in hex, or `-` for nothing.

    examples/serve.py examples/service.keytab host/web@EX < requests
"""
import argparse
import sys
import time

from fevstunik import Keytab, Login, Refused, Service
words = argparse.ArgumentParser()
words.add_argument("keytab")
words.add_argument("service", help="the name that is served, as host/web@EX")
words.add_argument("--at", type=int, help="a moment in place of the clock's, in seconds since 1970-01-01")
words.add_argument("--first", action="store_true", help='accept at once: docs/OPERATING.md, "Restarts", says when you '
                                                        'may do so')
given = words.parse_args()
with Service(Keytab.read(given.keytab), given.service, started=None if given.first else given.at or time.time(),
             first_life=given.first) as service:
    for line in sys.stdin:
        it = service.answer(bytes.fromhex(line), given.at)
        said = (f"accepted {it.client}" if isinstance(it, Login)
                else f"refused {it.cause.name}" if isinstance(it, Refused) else "go-on -")
        print(said, it.reply.hex() or "-", flush=True)
