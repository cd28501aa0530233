#!/usr/bin/env python3
"""A web service that knows who its users are: HTTP with `Authorization: Negotiate` (RFC 4559), over the package
fevstunik.web.

    examples/negotiate/serve.py www.keytab HTTP/www.example.com@EXAMPLE.COM --port 8080

    curl --negotiate -u : --resolve www.example.com:8080:127.0.0.1 http://www.example.com:8080/

Until its clock and the client's are both later than its start by more than the skew, the service refuses requests
(JUST_STARTED). --first leaves out the start, and the service accepts at once: docs/OPERATING.md, "Restarts", says when
you may do so.
"""
import argparse
import logging
import socket

from fevstunik.web import Negotiate, serve


def hello(environ, start_response):
    start_response("200 OK", [("Content-Type", "text/plain; charset=utf-8"), ("Cache-Control", "no-store")])
    return [f"hello {environ.get('REMOTE_USER', 'nobody')}\n".encode()]  # (a request OPTIONS has no user)


def main() -> None:
    words = argparse.ArgumentParser()
    words.add_argument("keytab")
    words.add_argument("service", help="the name that is served, as HTTP/www.example.com@EXAMPLE.COM")
    words.add_argument("--port", type=int, default=8080, help="0 takes a free one")
    words.add_argument("--first", action="store_true", help="every key of the keytab is new: accept at once")
    given = words.parse_args()
    logging.basicConfig(format="%(message)s", level=logging.INFO)
    negotiate = Negotiate(keytab=given.keytab, service=given.service, first_life=given.first)
    with socket.create_server(("127.0.0.1", given.port), backlog=1024) as listener:
        print(f"http://127.0.0.1:{listener.getsockname()[1]}/", flush=True)
        serve(negotiate.wsgi(hello), listener)


if __name__ == "__main__":
    main()
