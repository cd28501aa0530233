"""Programs in C over the library: the exchange that tests share, each fault, memory that is refused, large files, and
threads."""
import functools

import pytest

from support import c_cases, c_header, c_programs, c_tokens, der, fixture, gss_rules
from support.c_programs import CACHE, KEYED, KEYTAB, VALGRIND, linked, message, of_tests, run

# Of a large keytab and a large cache.
ITEMS = 30_000
# The program counts the bytes that it holds (held.h).
COUNTED = [f"-Wl,--wrap={it}" for it in ("malloc", "realloc", "free")]


class Programs:
    """The programs that note what each function answers; each runs once."""

    def __init__(self, archive, room):
        self.archive, self.room, self.answered = archive, room, c_programs.Answered()
        c_programs.watch(room)
        self.ran = functools.cache(self.ran)

    def built(self, name, *words):
        return linked(self.archive, self.room / name, "-include", self.room / "watch.h", of_tests(name), *words)

    def exchange(self):
        """The exchange that the tests share, with exact answers."""
        return run(self.built("library", "-static"), KEYTAB, CACHE, *messages())

    def faults(self):
        """Each fault, with ample memory."""
        text = c_cases.lines(c_header.header_codes(), c_header.kerberos_codes())
        return run(*VALGRIND, self.built("faults"), KEYTAB, CACHE, message("reply"), input=text)

    def tokens(self):
        """Tokens of GSS-API are opened and written."""
        text = "".join(f"{it}\n" for it in c_tokens.lines(c_header.header_codes()))
        return run(*VALGRIND, self.built("tokens"), input=text)

    def memory(self):
        """Each allocation of each call fails in turn."""
        program = self.built("memory", "-Wl,--wrap=malloc", "-Wl,--wrap=realloc", "-Wl,--wrap=free")
        return run(program, KEYTAB, CACHE, message(KEYED), message("reply"), message("error"))

    def messages(self):
        """The messages of both sides after a login."""
        unknown = fixture.request(subkey=der.key(18, bytes(32)))
        given = [message("request"), message(KEYED), unknown.hex()]
        return run(*VALGRIND, self.built("messages"), KEYTAB, *given)

    def limits(self):
        """What a service remembers at most."""
        return run(*VALGRIND, self.built("limits"), KEYTAB, CACHE, self.cache_of("carol"))

    def logins(self):
        """A login in one call, by the service's terms."""
        text = c_cases.login_lines(c_header.header_codes(), c_header.kerberos_codes())
        name, request = gss_rules.KERBEROS, fixture.request()
        tokens = gss_rules.negotiation([name], None), gss_rules.going_on(gss_rules.kerberos(name, request))
        lists = c_cases.lists(c_header.header_codes())
        return run(*VALGRIND, self.built("logins"), KEYTAB, CACHE, *(it.hex() for it in tokens), *lists, input=text)

    def settled(self):
        """A login that waits for a store of stamps."""
        name, request = gss_rules.KERBEROS, fixture.request()
        tokens = gss_rules.negotiation([name], None), gss_rules.going_on(gss_rules.kerberos(name, request))
        inputs = [it.hex() for it in (*tokens, c_cases.at_the_end())]
        return run(*VALGRIND, self.built("settled"), KEYTAB, CACHE, *inputs, *c_cases.lists(c_header.header_codes()))

    def cache_of(self, client):
        """The file of another client's cache."""
        path = self.room / f"{client}.ccache"
        path.write_bytes(c_cases.cache_of(client))
        return path

    def ran(self, name):
        return getattr(self, name)()


NAMES = ("exchange", "faults", "tokens", "memory", "messages", "limits", "logins", "settled")
# What no test can wait for: a side's numbers are used up after 2^64 messages.
UNSEEN = {"fevstunik_messages_mic": {"NUMBERS_USED_UP"}, "fevstunik_messages_wrap": {"NUMBERS_USED_UP"}}


def messages():
    stored = [message(it) for it in ("request", KEYED, "reply", "reply with a subkey and a number", "error")]
    made = [c_cases.two_credentials(), c_cases.for_another_service(), c_cases.with_lists(), fixture.request(number=-1),
            fixture.reply(number=-2**31), c_cases.with_start(), c_cases.at_the_end(), c_cases.whole_error()]
    return [*stored, *(it.hex() for it in made)]


@pytest.fixture(scope="module")
def programs(archive, tmp_path_factory):
    return Programs(archive, tmp_path_factory.mktemp("programs"))


# The programs run once, so these tests run in one process.
@pytest.mark.xdist_group("programs in C")
@pytest.mark.parametrize("name", NAMES)
def test_program(programs, checks, name):
    c_programs.counted(checks, programs.ran(name), programs.answered)


@pytest.mark.xdist_group("programs in C")
def test_codes(programs, checks):
    """Each function returns all codes that the header lists for it, and no others."""
    for name in NAMES:
        programs.answered.read(programs.ran(name).stdout)
    for function, codes in sorted(c_header.documented().items()):
        checks.equal(function, programs.answered.codes.get(function, set()), codes - UNSEEN.get(function, set()))


def test_what_requests_take(archive, tmp_path, checks):
    """One client sends 300,000 requests; and a million are remembered at once, each in at most 40 bytes."""
    other = tmp_path / "carol.ccache"
    other.write_bytes(c_cases.cache_of("carol"))
    program = linked(archive, tmp_path / "attack", of_tests("attack"), *COUNTED)
    c_programs.counted(checks, run(program, KEYTAB, CACHE, other, 300_000, 1_000_000))


def test_what_clients_take(archive, tmp_path, checks):
    """100,000 clients send a request each, in the order of their names, backwards, and at random, and then one more: at
    most 240 bytes for the first, and 40 for the second."""
    program = linked(archive, tmp_path / "clients", of_tests("clients"), *COUNTED)
    c_programs.counted(checks, run(program, KEYTAB, CACHE, 100_000))


def test_what_large_requests_take(archive, tmp_path, checks):
    """Requests of 1 MiB for a service whose name is larger than each of the keytab take no memory, few instructions.
    One whose ticket doesn't open takes no piece of memory above 64 KiB."""
    web = (b"EX", [b"host", b"web"])
    parts = {"components": ((b"EX", [b""] * 523_000), 200), "component": ((b"EX", [b"host", b"a" * 1_046_000]), 200),
             "realm": ((b"E" * 1_046_000, [b"host", b"web"]), 200), "ticket": (web, 1_046_000)}
    for name, ((realm, components), size) in parts.items():
        ticket = der.ticket(realm, der.name(3, *components), der.encrypted(19, b"\x5a" * size, 3))
        (tmp_path / name).write_bytes(der.request(0, ticket, der.encrypted(19, b"\x5a" * 100)))
    counting = ["valgrind", "-q", "--tool=callgrind", f"--callgrind-out-file={tmp_path}/counted"]
    counting.append("--dump-before=counted")
    program = linked(archive, tmp_path / "hostile", of_tests("hostile"), "-Wl,--wrap=malloc", "-Wl,--wrap=realloc")
    c_programs.counted(checks, run(*counting, program, KEYTAB, *(tmp_path / name for name in parts)))
    for place, name in enumerate(parts, 1):
        if name != "ticket":
            checks.equal(f"instructions: {name}", instructions(tmp_path / f"counted.{2 * place}") < 20_000_000, True)


def test_no_pause(archive, tmp_path, checks):
    """What has expired is freed in small portions: the instructions of requests after many have expired at once."""
    counting = ["valgrind", "-q", "--tool=callgrind", f"--callgrind-out-file={tmp_path}/counted"]
    counting.append("--dump-before=counted")
    program = linked(archive, tmp_path / "pauses", of_tests("pauses"))
    c_programs.counted(checks, run(*counting, program, KEYTAB, CACHE, 5_000))
    counts = [instructions(tmp_path / f"counted.{it}") for it in range(2, 82)]
    checks.equal("200 microseconds more at most", max(counts) - min(counts) < 600_000, True)


def instructions(path):
    """The count of a file of callgrind."""
    return next(int(it.split()[1]) for it in path.read_text().splitlines() if it.startswith("totals:"))


def test_leaks(archive, tmp_path):
    """The program of the exchange under valgrind, linked to the system's C library, whose allocations valgrind sees."""
    program = linked(archive, tmp_path / "library", of_tests("library"))
    c_programs.well(run(*VALGRIND, program, KEYTAB, CACHE, *messages()))


@pytest.mark.slow
def test_large_files(archive, tmp_path, checks):
    """Files of thousands of items, and messages of more than 100,000 bytes."""
    made = {"large.keytab": c_cases.keytab_of(ITEMS), "large.ccache": c_cases.cache_with(ITEMS),
            "large.request": c_cases.request(c_cases.large_ticket())}
    for name, data in made.items():
        (tmp_path / name).write_bytes(data)
    program = linked(archive, tmp_path / "large", of_tests("large"))
    c_programs.counted(checks, run(program, ITEMS, ITEMS, *(tmp_path / name for name in made)))


def test_kept_keys(archive, tmp_path, checks):
    """Requests with keys that the handle of a cache has kept."""
    cache, count = tmp_path / "services.ccache", 100
    cache.write_bytes(c_cases.cache_of_services(count))
    c_programs.counted(checks, run(linked(archive, tmp_path / "requests", of_tests("requests")), cache, count))


def test_threads(archive, tmp_path, checks):
    """Threads that share a service, each with a handle of its own for what is accepted."""
    caches = tmp_path / "caches"
    caches.write_text("".join(c_cases.cache_of(client).hex() + "\n" for client in c_cases.CLIENTS))
    program = linked(archive, tmp_path / "threads", "-D_POSIX_C_SOURCE=200809L", "-pthread", of_tests("threads"))
    c_programs.counted(checks, run(program, KEYTAB, caches))


def test_readers(archive, tmp_path, checks):
    """Threads that share what calls only read, under helgrind, which ends with 9 if one of them writes to it."""
    for function in c_header.reading():
        checks.equal(f"{function} is called", f"{function}(" in of_tests("readers").read_text(), True)
    program = linked(archive, tmp_path / "readers", "-pthread", of_tests("readers"))
    c_programs.counted(checks, run("valgrind", "-q", "--tool=helgrind", "--error-exitcode=9", program, KEYTAB, CACHE))
