"""Chromium and Firefox without a screen, each with a new profile: the pages that they show, as text and as a picture.

Chromium is driven by chromedriver (https://www.w3.org/TR/webdriver2/), Firefox by its own protocol, Marionette.
"""
import base64
import itertools
import json
import os
import signal
import socket
import subprocess
import time
import urllib.error
import urllib.request

from support.kdc import Trouble, free_port

SECONDS = 180


class Browser:
    """A browser that is driven by commands. Subclasses start it, and send one."""

    def __init__(self, folder, command, env):
        self.folder, self.log = folder, folder / "browser.log"
        with open(self.log, "wb") as log:
            # (its processes are of one group, which ends at once)
            self.process = subprocess.Popen([str(it) for it in command], stdin=subprocess.DEVNULL, stdout=log,
                                            stderr=log, env={**os.environ, **env, "HOME": str(folder)},
                                            start_new_session=True)

    def connected(self, port):
        """A connection to the port that the browser listens on."""
        until = time.monotonic() + SECONDS
        while time.monotonic() < until and self.process.poll() is None:
            try:
                return socket.create_connection(("127.0.0.1", port), timeout=SECONDS)
            except OSError:
                time.sleep(0.05)
        raise Trouble(f"the browser doesn't answer: {self.log.read_text(errors='replace')[-600:]!r}")

    def page(self, url):
        """Where a page's address leads to, and the text that is seen there."""
        self.go_to(url)
        return self.address(), self.text().strip()

    def page_with(self, url, text, before=""):
        """Asks for a page until this text is seen there, and returns what is seen. A new profile of Chromium asks for
        its first page before it knows at which hosts to log in: it then shows the page for those who haven't logged in,
        which has the text `before`."""
        until = time.monotonic() + SECONDS
        while (found := self.page(url)[1]) != text and time.monotonic() < until:
            assert before in found
            time.sleep(0.2)
        return found

    def text(self):
        return self.run("return document.body ? document.body.innerText : ''")

    def keep(self, path):
        """Write a picture of what is seen."""
        picture = base64.b64decode(self.picture())
        path.write_bytes(picture)
        return picture

    def stop(self):
        os.killpg(self.process.pid, signal.SIGKILL)
        self.process.wait()

    def __enter__(self):
        return self

    def __exit__(self, *_):
        self.stop()


class Chromium(Browser):
    """Chromium, which is let log in at these hosts."""

    def __init__(self, folder, hosts, env):
        folder.mkdir()
        port = free_port()
        super().__init__(folder, ["chromedriver", f"--port={port}"], env)
        self.connected(port).close()
        self.at = f"http://127.0.0.1:{port}/session"
        words = ["--headless=new", "--no-sandbox", "--disable-gpu", "--disable-dev-shm-usage", "--no-first-run",
                 "--disable-background-networking", "--ignore-certificate-errors",
                 f"--user-data-dir={folder / 'profile'}", f"--auth-server-allowlist={','.join(hosts)}"]
        wanted = {"alwaysMatch": {"goog:chromeOptions": {"args": words}, "acceptInsecureCerts": True}}
        self.at += f"/{self.ask('POST', '', {'capabilities': wanted})['sessionId']}"

    def ask(self, method, command, words=None):
        data = None if words is None else json.dumps(words).encode()
        request = urllib.request.Request(self.at + command, data, {"Content-Type": "application/json"}, method=method)
        try:
            with urllib.request.urlopen(request, timeout=SECONDS) as answer:
                return json.load(answer)["value"]
        except urllib.error.HTTPError as error:
            raise Trouble(f"Chromium says of {command}: {error.read().decode()[:600]}") from None

    def go_to(self, url):
        self.ask("POST", "/url", {"url": url})

    def address(self):
        return self.ask("GET", "/url")

    def run(self, script):
        return self.ask("POST", "/execute/sync", {"script": script, "args": []})

    def picture(self):
        return self.ask("GET", "/screenshot")


class Firefox(Browser):
    """Firefox, which is let log in at these hosts."""

    def __init__(self, folder, hosts, env):
        folder.mkdir()
        port, profile = free_port(), folder / "profile"
        profile.mkdir()
        wanted = {"marionette.port": port, "network.negotiate-auth.trusted-uris": ",".join(hosts),
                  "datareporting.policy.dataSubmissionEnabled": False, "browser.shell.checkDefaultBrowser": False,
                  "app.update.disabledForTesting": True, "network.captive-portal-service.enabled": False,
                  "dom.security.https_first": False}
        (profile / "user.js").write_text("".join(f"user_pref({json.dumps(name)}, {json.dumps(value)});\n"
                                                 for name, value in wanted.items()))
        super().__init__(folder, ["firefox-esr", "--headless", "--marionette", "--profile", profile, "about:blank"],
                         {**env, "MOZ_DISABLE_CONTENT_SANDBOX": "1"})
        self.stream, self.numbers = self.connected(port), itertools.count(1)
        self.read()
        self.ask("NewSession", {"acceptInsecureCerts": True})

    def read(self):
        """A message: its length, a colon, and JSON."""
        size = b""
        while not size.endswith(b":"):
            size += self.stream.recv(1) or self.ended()
        data = b""
        while len(data) < int(size[:-1]):
            data += self.stream.recv(int(size[:-1]) - len(data)) or self.ended()
        return json.loads(data)

    def ended(self):
        raise Trouble(f"Firefox has ended: {self.log.read_text(errors='replace')[-600:]!r}")

    def ask(self, command, words):
        """A command is [0, number, name, words], and its answer [1, number, error, value]."""
        message = json.dumps([0, next(self.numbers), f"WebDriver:{command}", words]).encode()
        self.stream.sendall(b"%d:%s" % (len(message), message))
        _, _, error, value = self.read()
        if error:
            raise Trouble(f"Firefox says of {command}: {error['error']}: {error['message']}")
        return value

    def go_to(self, url):
        self.ask("Navigate", {"url": url})

    def address(self):
        return self.ask("GetCurrentURL", {})["value"]

    def run(self, script):
        return self.ask("ExecuteScript", {"script": script, "args": []})["value"]

    def picture(self):
        return self.ask("TakeScreenshot", {"full": False})["value"]


BROWSERS = {"Chromium": Chromium, "Firefox": Firefox}
