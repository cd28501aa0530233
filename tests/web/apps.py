"""The application of each framework that the tests serve: WEB_TERMS has the terms of Negotiate, in JSON.

/ says who the user is and what was posted, /how whether by a login or in a session, /inside leads to /, /fails fails,
and other paths are 404.
"""
import json
import os

from fevstunik.stores import File
from fevstunik.web import Negotiate, Sessions

# How long the store is waited for: a process may get no processor for a while.
SECONDS = 300


def made():
    terms = json.loads(os.environ["WEB_TERMS"])
    if "sessions" in terms:
        terms["sessions"] = Sessions(**terms["sessions"])
    if "store" in terms:
        terms["store"] = File(terms["store"], seconds=SECONDS)
    return Negotiate(**terms)


def how(login):
    return "session" if login is None else "login"


def plain():
    def app(environ, start_response):
        if environ["PATH_INFO"] == "/fails":
            start_response("200 OK", [("Content-Type", "text/plain"), ("Content-Length", "3")])
            return (1 // 0 for _ in range(1))
        if environ["PATH_INFO"] == "/inside":
            start_response("302 Found", [("Location", "/"), ("Content-Length", "0")])
            return []
        if environ["PATH_INFO"] == "/how":
            start_response("200 OK", [("Content-Type", "text/plain")])
            return [how(environ["fevstunik.login"]).encode()]
        body = environ["wsgi.input"].read(int(environ.get("CONTENT_LENGTH") or 0))
        start_response("200 OK" if environ["PATH_INFO"] == "/" else "404 Not Found", [("Content-Type", "text/plain")])
        return [environ.get("REMOTE_USER", "nobody").encode() + b" " + body]
    return made().wsgi(app)


def flask():
    from flask import Flask, redirect, request
    app = Flask(__name__)

    @app.route("/", methods=["GET", "POST"])
    def index():
        return f"{request.remote_user} {request.get_data(as_text=True)}"

    @app.route("/how")
    def said():
        return how(request.environ["fevstunik.login"])

    @app.route("/inside")
    def inside():
        return redirect("/")

    @app.route("/fails")
    def fails():
        raise KeyError
    app.wsgi_app = made().wsgi(app.wsgi_app)
    return app


def _django():
    from django.conf import settings
    from django.http import HttpResponse, HttpResponseRedirect
    from django.urls import path

    def index(request):
        user = request.scope["user"].name if hasattr(request, "scope") else request.META["REMOTE_USER"]
        return HttpResponse(f"{user} {request.body.decode()}")

    def said(request):
        is_asgi = hasattr(request, "scope")
        return HttpResponse(how(request.scope["user"].login if is_asgi else request.META["fevstunik.login"]))

    def inside(request):
        return HttpResponseRedirect("/")

    def fails(request):
        raise KeyError
    settings.configure(ROOT_URLCONF=__name__, ALLOWED_HOSTS=["*"], SECRET_KEY="of the tests")
    globals()["urlpatterns"] = [path("", index), path("how", said), path("inside", inside), path("fails", fails)]


def django_wsgi():
    from django.core.wsgi import get_wsgi_application
    _django()
    return made().wsgi(get_wsgi_application())


def django_asgi():
    from django.core.asgi import get_asgi_application
    _django()
    return made().asgi(get_asgi_application())


def starlette():
    from starlette.applications import Starlette
    from starlette.responses import PlainTextResponse, RedirectResponse
    from starlette.routing import Route

    async def index(request):
        return PlainTextResponse(f"{request.user.display_name} {(await request.body()).decode()}")

    async def said(request):
        return PlainTextResponse(how(request.user.login))

    async def inside(request):
        return RedirectResponse("/")

    async def fails(request):
        raise KeyError
    routes = [Route("/", index, methods=["GET", "POST"]), Route("/how", said), Route("/inside", inside),
              Route("/fails", fails)]
    return made().asgi(Starlette(routes=routes))
