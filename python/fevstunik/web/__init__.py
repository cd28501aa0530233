"""Logs users of a web application in with Kerberos: the header `Authorization: Negotiate` (RFC 4559).

>>> from fevstunik.web import Negotiate
>>> negotiate = Negotiate(keytab="examples/service.keytab", service="host/web@EX")
>>> @negotiate.wsgi
... def app(environ, start_response):
...     start_response("200 OK", [("Content-Type", "text/plain")])
...     return [f"hello {environ['REMOTE_USER']}".encode()]

`wsgi` takes any application over WSGI, as those of Flask and Django, and `asgi` one over ASGI, as those of Starlette
and FastAPI. Pass a `store` in production, or each start of a process refuses everybody for five minutes. docs/WEB.md
has the rest.

Logging: each decision is one record of the logger ``fevstunik.web``, with the fields `cause`, `user`, `peer`, `asked`,
`etype` and `kvno`. LogFile writes them to a file.
"""
from ._lines import LogFile
from ._negotiate import Negotiate
from ._server import serve
from ._sessions import Sessions
from ._users import NotAllowed, User, Users

__all__ = ["LogFile", "Negotiate", "NotAllowed", "Sessions", "User", "Users", "serve"]
for _name in __all__:
    globals()[_name].__module__ = __name__
del _name
