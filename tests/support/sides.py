"""The program and the clients and services of MIT krb5 and Heimdal: what each asks and answers, and how they are
built."""
import os
import subprocess
import time

from support import TESTS
from support.kdc import Trouble, done, ran

LIBRARIES = ["MIT", "Heimdal"]
SKEW = 300


class Peers:
    """The program, and the client, the service and what picks keys, which are built of each library."""

    def __init__(self, program, folder):
        self.program, self.folder, self.replays = program, folder, 0
        folder.mkdir()
        for source in ("ask", "serve", "pick"):
            for library, config, defined in (("MIT", "krb5-config.mit", []),
                                             ("Heimdal", "krb5-config.heimdal", ["-DHEIMDAL"])):
                flags = ran([config, "--cflags", "--libs", "krb5"]).split()
                ran(["cc", "-O1", *defined, "-o", self.path(source, library), TESTS / f"peers/{source}.c", *flags])

    def path(self, source, library):
        return self.folder / f"{source}.{library}"

    def said(self, *words):
        """What our program wrote on standard output; it must end well."""
        return ran([self.program, *words])

    def tried(self, *words):
        """Our program's standard output, standard error and status."""
        it = done([self.program, *words])
        return it.stdout, it.stderr, it.returncode

    def accept(self, keytab, lines, *words):
        """Our answers to lines, in one run; its status is 1 exactly where one of them is a refusal."""
        it = done([self.program, "accept", keytab, *words], input="".join(f"{line}\n" for line in lines))
        answers = it.stdout.splitlines()
        wanted = 0 if all(answer.startswith("accepted ") for answer in answers) else 1
        if it.stderr or it.returncode != wanted or len(answers) != len(lines):
            raise Trouble(f"accept ended with {it.returncode}: {it.stderr!r}, {answers}")
        return answers

    def request(self, cache, service, seconds, micros=0, *words):
        """Our request for a service, in hex."""
        confounder = os.urandom(16).hex()
        return self.said("request", cache, service, "--time", seconds, "--usec", micros, "--confounder", confounder,
                         *words).strip()

    def client(self, realm, library, cache, service, seconds, words):
        """A client of a library that has written its request: the process, and the request in hex."""
        command = [self.path("ask", library), f"FILE:{cache}", service, str(seconds), *words]
        process = subprocess.Popen(command, env=realm.environment("default"), stdin=subprocess.PIPE,
                                   stdout=subprocess.PIPE, stderr=subprocess.PIPE, text=True)
        request = process.stdout.readline().strip()
        if not request:
            raise Trouble(f"the client of {library} for {service} in {cache}: {process.communicate()[1]!r}")
        return process, request

    def asked(self, realm, library, cache, service, seconds=0, words=()):
        """The request of a library's client, in hex."""
        process, request = self.client(realm, library, cache, service, seconds, words)
        process.communicate()
        return request

    def served(self, realm, library, keytab, lines, service="any", words=()):
        """The answers of a library's service to lines, in one run with a replay cache of its own."""
        self.replays += 1
        replays = f"{'file2' if library == 'MIT' else 'FILE'}:{self.folder}/replays.{self.replays}"
        given = "".join(f"{line}\n" for line in lines)
        command = [self.path("serve", library), f"FILE:{keytab}", service, *words]
        return ran(command, env=realm.environment("default", KRB5RCACHENAME=replays), input=given).splitlines()


def now():
    return int(time.time())


def first_words(answer, count=6):
    """The words of a library's service that ours answers too; of a refusal its number."""
    return " ".join(answer.split()[: count if answer.startswith("accepted ") else 2])
