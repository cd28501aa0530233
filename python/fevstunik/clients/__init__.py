"""Logins of programs that speak HTTP (RFC 4559): for requests and httpx, if they are installed.

    import requests
    from fevstunik.clients.requests import Negotiate

    requests.get("https://www.example.com/", auth=Negotiate())

fevstunik.clients.httpx has a class of the same name and arguments, for httpx.Client and httpx.AsyncClient. Both take
the user's tickets from the default credential cache, get a ticket for the service if there is none, and hand on a
response only if the service has proved who it is. LoginError says what went wrong.
"""
from ._logins import LoginError, LoginTrouble, Mutual

__all__ = ["LoginError", "LoginTrouble", "Mutual"]
for _name in ("LoginError", "LoginTrouble"):
    globals()[_name].__module__ = __name__
del _name
