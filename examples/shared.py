#!/usr/bin/env python3
"""One of several processes of a service, over the package fevstunik: they share a store, so that a request that one has
let in is refused by the others. It answers lines of standard input as serve.py does.

    examples/shared.py examples/service.keytab host/web@EX /run/web/stamps < requests
    examples/shared.py examples/service.keytab host/web@EX sqlite:/run/web/stamps < requests
    examples/shared.py examples/service.keytab host/web@EX unix://web:PASSWORD@/run/redis/redis.sock < requests
    examples/shared.py examples/service.keytab host/web@EX "dbname=web user=web" < requests

If the store doesn't answer in time, nobody is let in: `refused STORE_FAILED -`. examples/service is such a service in
C, over SQLite and Redis.
"""
import argparse
import sys

from fevstunik import Keytab, Login, Refused, Service
from fevstunik.stores import File, PostgreSQL, Redis, SQLite, Store


def store_of(where: str, seconds: float) -> Store:
    if where.startswith(("unix:", "redis:", "rediss:")):
        return Redis(where, seconds=seconds)
    if where.startswith("sqlite:"):
        return SQLite(where.removeprefix("sqlite:"), seconds=seconds)
    return PostgreSQL(where, seconds=seconds) if "=" in where else File(where, seconds=seconds)


words = argparse.ArgumentParser()
words.add_argument("keytab")
words.add_argument("service", help="the name that is served, as host/web@EX")
words.add_argument("store", help="a file, sqlite: and a file, the address of Redis or Valkey, or what libpq takes for "
                                 "PostgreSQL")
words.add_argument("--wait", type=float, default=2, help="for how many seconds to wait for the store")
given = words.parse_args()
with Service(Keytab.read(given.keytab), given.service, store=store_of(given.store, given.wait)) as service:
    for line in sys.stdin:
        it = service.answer(bytes.fromhex(line))
        said = (f"accepted {it.client}" if isinstance(it, Login)
                else f"refused {it.cause.name}" if isinstance(it, Refused) else "go-on -")
        print(said, it.reply.hex() or "-", flush=True)
