"""Stores of stamps: what the processes of a service share, so that no two of them let a client in by one request.

    Service(keytab, "HTTP/www@EX", store="/run/web/stamps")

A path stands for a File, the store for the processes of one machine; an SQLite is one that they share with processes in
C. Processes of several machines share a Redis or a PostgreSQL. A service that has a store remembers from
`remembers_from` of the store on: so it refuses clients with JUST_STARTED only for the skew after the store was made,
and a service that is started again, or replaced, lets clients in at once.

docs/OPERATING.md, "Several instances", says which store to take, and what it needs.
"""
from .._errors import StoreFailed, UnsafeStore
from ._file import File
from ._postgresql import PostgreSQL
from ._redis import Redis
from ._sqlite import SQLite
from ._store import Store

__all__ = ["File", "PostgreSQL", "Redis", "SQLite", "Store", "StoreFailed", "UnsafeStore"]
for _name in __all__:
    globals()[_name].__module__ = __name__
del _name
