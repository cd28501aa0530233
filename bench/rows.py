"""The rows of bench/run.py: what is compared, and how both sides are run."""
import calendar
import struct
import time
from pathlib import Path
from typing import Callable, Iterator, NamedTuple

import exchange
import files

# How many clients there are while times are measured, and while instructions are counted, which takes longer.
CLIENTS, COUNTED = 1_000, 100
# How many bytes of authorization data a ticket has.
PAC_SIZES = (0, exchange.PAC)
# How MIT's replay cache is used, and the words for it.
CACHES = {"none:": "", "file2:{at}/rcache": ", with its replay cache"}


class Side(NamedTuple):
    """How a program is run: its words, which may name programs, the row's folder `at`, the number of calls `count`, and
    the clock `now`; what it reads; MIT's replay cache; and how much OpenSSL may know of the processor."""

    words: str
    given: str = ""
    cache: str = "none:"
    processor: str = ""


class Row(NamedTuple):
    """A comparison of two programs that do the same.

    group     the table that it is in
    what      what the calls are given
    ours, theirs, beside
              both sides, and what the other is called
    lay_out   writes the files that both read into the row's folder, for times or for counting
    count     how many calls are timed
    counted   the instructions of a call are the difference of runs of so many calls; of a whole process, if there is
              one number; none are counted if there are none
    """

    group: str
    what: str
    ours: Side
    theirs: Side
    beside: str
    lay_out: Callable[[Path, Callable[[str, Path], str], bool], None]
    count: int
    counted: tuple[int, ...]

    @property
    def is_process(self) -> bool:
        return len(self.counted) == 1


def now_before() -> int:
    """A minute ago: tickets begin then."""
    return calendar.timegm(time.gmtime()) - 60


def messages(kind: str, etype: int, extra: int, clients: int, each: int, count: int, entries: int = 1):
    """Lays out a keytab, and messages of so many clients, of which each sends some before the next does."""
    def lay_out(at: Path, run, counts: bool) -> None:
        (at / "keytab").write_bytes(exchange.keytab(etype, entries))
        several = min(clients, COUNTED) if counts else clients
        caches = exchange.clients(at.parent, etype, now_before(), extra, several)
        (at / "caches").symlink_to(caches)
        run("{client} write {at}/caches %s %d %d {at}/messages" % (kind, each, count), at)

    return lay_out


# Who sends requests: the words, how many clients, how often each in a row, how many calls are timed, and between which
# they are counted.
LIVES = [
    ("a new ticket with each request (1,000 clients in turn)", CLIENTS, 1, 3_000, (COUNTED, 2 * COUNTED)),
    ("each client's first request", 3_000, 1, 3_000, (COUNTED // 2, COUNTED)),
    ("each client's first request and its second", CLIENTS, 2, 2_000, (COUNTED, 2 * COUNTED)),
    ("a kept ticket (one client)", 1, 1, 3_000, (COUNTED, 2 * COUNTED)),
]


def named(what: str, etype: int, extra: int) -> str:
    return f"type {etype}: {what}" + (f", {extra:,} bytes of authorization data" if extra else "")


def services() -> Iterator[Row]:
    for etype in (19, 20):
        for what, clients, each, count, counted in LIVES:
            for extra in PAC_SIZES if clients in (1, CLIENTS) and each == 1 else (0,):
                for cache, said in CACHES.items():
                    yield Row("services", named(what, etype, extra),
                              Side("{service} accept {at}/keytab {at}/messages {count}"),
                              Side("{service} rd_req {at}/keytab {at}/messages {count}", cache=cache),
                              f"krb5_rd_req{said}",
                              messages("requests", etype, extra, clients, each, count), count, counted)


def logins() -> Iterator[Row]:
    for etype in (19, 20):
        for what, clients, each, count, counted in (LIVES[0], LIVES[3]):
            for cache, said in CACHES.items():
                yield Row("logins", named(what, etype, 0),
                          Side("{service} answer {at}/keytab {at}/messages {count}"),
                          Side("{service} gss {at}/keytab {at}/messages {count}", cache=cache),
                          f"gss_accept_sec_context{said}",
                          messages("tokens", etype, 0, clients, each, count), count, counted)


def parts() -> Iterator[Row]:
    for etype in (19, 20):
        for what, clients, each, count, counted in (LIVES[0], LIVES[3]):
            yield Row("parts", named(what, etype, 0),
                      Side("{service} answer {at}/keytab {at}/messages {count}"),
                      Side("{service} parts {at}/keytab {at}/messages {count}"), "the calls that it puts together",
                      messages("tokens", etype, 0, clients, each, count), count, counted)


def in_python() -> Iterator[Row]:
    for what, clients, each, _, _ in (LIVES[0], LIVES[3]):
        for cache, said in CACHES.items():
            yield Row("python", named(what, 19, 0),
                      Side("{python} {in_python} ours {at}/keytab {at}/messages {count}"),
                      Side("{python} {in_python} theirs {at}/keytab {at}/messages {count}", cache=cache),
                      f"python-gssapi{said}",
                      messages("tokens", 19, 0, clients, each, 1_000), 1_000, (20, 40))


def refused() -> Iterator[Row]:
    def of(index: int):
        def lay_out(at: Path, run, counts: bool) -> None:
            (at / "keytab").write_bytes(exchange.keytab(19, 1))
            _, message = list(exchange.refused(calendar.timegm(time.gmtime())))[index]
            (at / "messages").write_bytes(struct.pack(">I", len(message)) + message)

        return lay_out

    for index, (what, _) in enumerate(exchange.refused(calendar.timegm(time.gmtime()))):
        count = 4 if what.startswith("1 MiB:") else 2_000
        how, cache = ("repeated", "file2:{at}/rcache") if what == exchange.REPEATED else ("refused", "none:")
        yield Row("refused", what, Side(f"{{service}} accept {{at}}/keytab {{at}}/messages {{count}} {how}"),
                  Side(f"{{service}} rd_req {{at}}/keytab {{at}}/messages {{count}} {how}", cache=cache),
                  f"krb5_rd_req{CACHES[cache]}", of(index), count, (1, 2) if count == 4 else (COUNTED, 2 * COUNTED))


def clients() -> Iterator[Row]:
    for etype in (19, 20):
        for what, number in (("one ticket", 1), ("1,000 tickets in turn", CLIENTS)):
            def lay_out(at: Path, run, counts: bool, etype=etype, number=number) -> None:
                several = min(number, COUNTED) if counts else number
                (at / "caches").symlink_to(exchange.clients(at.parent, etype, now_before(), 0, several))

            yield Row("clients", named(what, etype, 0), Side("{client} ours {at}/caches {count}"),
                      Side("{client} theirs {at}/caches {count}"), "krb5_mk_req_extended", lay_out, 2_000,
                      (COUNTED, 2 * COUNTED))


def lines(count: int, clients: int = 1):
    """Lays out requests in lines, as krbtool reads them."""
    def lay_out(at: Path, run, counts: bool) -> None:
        messages("requests", 19, 0, clients, 1, count)(at, run, False)
        data, place, now = (at / "messages").read_bytes(), 0, calendar.timegm(time.gmtime())
        with (at / "lines").open("w") as out:
            while place < len(data):
                (size,) = struct.unpack_from(">I", data, place)
                out.write(f"{now} 0 {data[place + 4:place + 4 + size].hex()}\n")
                place += 4 + size

    return lay_out


def of_files(at: Path, run, counts: bool) -> None:
    (at / "keytab").write_bytes(files.keytab(10_000))
    (at / "cache").write_bytes(files.cache(10_000))


def processes() -> Iterator[Row]:
    name = "host/web0.example.test@EXAMPLE.TEST"
    accept = f"{{krbtool}} accept {{at}}/keytab --only {name}"
    theirs = f"{{mit_process}} accept FILE:{{at}}/keytab {name}"
    ask, confounder = f"{{krbtool}} request {{at}}/caches/0 {name} --time {{now}} --usec 5", "07" * 16

    def row(what: str, ours: Side, theirs: Side, beside: str, lay_out) -> Row:
        return Row("processes", what, ours, theirs, beside, lay_out, 1, (1,))

    for cache, said in CACHES.items():
        yield row("a new process for each login: krbtool accept", Side(accept, "lines"), Side(theirs, "lines", cache),
                  f"krb5_rd_req{said}", lines(1))
    yield row("a new process for each request: krbtool request", Side(f"{ask} --confounder {confounder}"),
              Side(f"{{mit_process}} request FILE:{{at}}/caches/0 {name}"), "krb5_mk_req_extended", lines(1))
    for clients, said in ((1, "one client"), (CLIENTS, "1,000 clients")):
        yield row(f"1,000 requests of {said} in one process: krbtool accept", Side(accept, "lines"),
                  Side(theirs, "lines"), "krb5_rd_req", lines(1_000, clients))
    yield row("10,000 entries: krbtool list-keytab", Side("{krbtool} list-keytab {at}/keytab"),
              Side("klist -kte {at}/keytab"), "klist -kte", of_files)
    yield row("10,000 credentials: krbtool list-ccache", Side("{krbtool} list-ccache {at}/cache"),
              Side("klist FILE:{at}/cache"), "klist", of_files)


SIZES = [(60, "60 bytes"), (1_024, "1 KiB"), (65_536, "64 KiB"), (1_048_576, "1 MiB")]


def nothing(at: Path, run, counts: bool) -> None:
    pass


def sealing() -> Iterator[Row]:
    for etype in (19, 20):
        for way, theirs in (("seal", "krb5_c_encrypt"), ("open", "krb5_c_decrypt")):
            for size, shown in SIZES:
                words = f"{way} {etype} {size} {{count}}"
                yield Row("sealing", f"type {etype}: {way}, {shown}", Side(f"{{seal}} ours {words}"),
                          Side(f"{{seal}} theirs {words}"), theirs, nothing, max(2, 3_000_000 // (size + 1_000)),
                          (1, 2) if size > 10_000 else (20, 40))


def after_logins() -> Iterator[Row]:
    for etype in (19, 20):
        for way, said, theirs in (("sealed", "wrap, sealed", "gss_wrap"), ("plain", "wrap, in plain", "gss_wrap"),
                                  ("mic", "mic", "gss_get_mic")):
            for size, shown in [(64, "64 bytes"), *SIZES[1:]]:
                words = f"{way} {size} {{at}}/keytab {{at}}/messages {{count}}"
                yield Row("messages", f"type {etype}: {said}, {shown}", Side(f"{{messages}} ours {words}"),
                          Side(f"{{messages}} theirs {words}"), theirs,
                          messages("tokens", etype, 0, 1, 1, 1), max(2, 3_000_000 // (size + 1_000)),
                          (1, 2) if size > 10_000 else (20, 40))


def starts() -> Iterator[Row]:
    for entries, count in ((1, 2_000), (1_000, 20), (100_000, 2)):
        yield Row("starts", f"fevstunik_acceptor_new, a keytab of {entries:,} entr{'y' if entries == 1 else 'ies'}",
                  Side("{service} new {at}/keytab {at}/messages {count}"),
                  Side("{service} keys {at}/keytab {at}/messages {count}"), "the file read by krb5_kt_next_entry",
                  messages("requests", 19, 0, 1, 1, 1, entries), count, (1, 2) if entries < 100_000 else ())
    for entries in (1_000, 100_000):
        yield Row("starts", f"a kept ticket, a keytab of {entries:,} entries",
                  Side("{service} accept {at}/keytab {at}/messages {count}"),
                  Side("{service} rd_req {at}/keytab {at}/messages {count}"), "krb5_rd_req, the keytab in memory",
                  messages("requests", 19, 0, 1, 1, 2_000, entries), 2_000, (50, 100) if entries < 100_000 else ())


# In the order in which they are printed.
GROUPS = {"services": services, "logins": logins, "parts": parts, "python": in_python, "refused": refused,
          "clients": clients, "processes": processes, "sealing": sealing, "messages": after_logins, "starts": starts}
