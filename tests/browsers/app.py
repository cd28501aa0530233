#!/usr/bin/env python3
"""A web service of several pages, for the tests of browsers:

    tests/browsers/app.py KEYTAB SERVICE --port 0 [--realm REALM] [--sessions] [--tokens FILE]

SERVICE is `*` for each name of the keytab. `/` greets whoever has logged in, `/moved?URL` leads elsewhere without a
login, `/inside?URL` after one. --realm lets in clients of this realm alone, --sessions gives a cookie, and --tokens
writes each field Authorization to a file.
"""
import argparse
import contextlib
import logging
import socket
from urllib.parse import unquote

from fevstunik.web import Negotiate, Sessions, Users, serve


def page(environ, start_response):
    path, query = environ["PATH_INFO"], environ.get("QUERY_STRING", "")
    if path in ("/moved", "/inside"):
        start_response("302 Found", [("Location", unquote(query) or "/"), ("Content-Length", "0")])
        return []
    if path != "/":
        start_response("404 Not Found", [("Content-Length", "0")])
        return []
    start_response("200 OK", [("Content-Type", "text/plain; charset=utf-8"), ("Cache-Control", "no-store")])
    return [f"hello {environ['REMOTE_USER']}\n".encode()]


def keeping(app, file):
    """The application, before which the field Authorization is written down."""
    def kept(environ, start_response):
        if "HTTP_AUTHORIZATION" in environ:
            print(environ["HTTP_AUTHORIZATION"], file=file, flush=True)
        return app(environ, start_response)
    return kept


def main():
    words = argparse.ArgumentParser()
    words.add_argument("keytab")
    words.add_argument("service")
    words.add_argument("--port", type=int, required=True)
    words.add_argument("--realm")
    words.add_argument("--sessions", action="store_true")
    words.add_argument("--tokens")
    given = words.parse_args()
    logging.basicConfig(format="%(message)s", level=logging.INFO)
    users = Users(realms={given.realm: "{user}@{realm}"}) if given.realm else None
    sessions = Sessions(secure=False) if given.sessions else None
    name = None if given.service == "*" else given.service
    negotiate = Negotiate(keytab=given.keytab, service=name, first_life=True, users=users, sessions=sessions,
                          exempt=["/moved", "/favicon.ico"], any_name=name is None)
    with socket.create_server(("127.0.0.1", given.port), backlog=1024) as listener, contextlib.ExitStack() as stack:
        app = negotiate.wsgi(page)
        if given.tokens:
            app = keeping(app, stack.enter_context(open(given.tokens, "a")))
        print(f"http://127.0.0.1:{listener.getsockname()[1]}/", flush=True)
        serve(app, listener)


if __name__ == "__main__":
    main()
