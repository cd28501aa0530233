"""Makes calls of both sides of the exchange by the library for C, one a line (calls.py).

Words are those of the program krb_calls_exchange (its crate's documentation has them), and each line's answer says what
the library returned. A KEY is `ETYPE/BYTES`; what is left out is `none`. A MESSAGE is BYTES, or `made:INDEX`, a request
that was made, counted from 0 on, or `replied`, the last reply. In place of what is said below, an answer may be
`refused CODE`, with a place if that code has one.

    service timed SKEW BYTES [TIME]         a service over this keytab, which was started again at that time
    service limited SKEW BYTES LIMIT LIMIT  the same that has a limit, and one for each client
    accept TIME MESSAGE                     `accepted CLIENT SERVICE KEY FLAGS REALMS AUTHTIME STARTTIME ENDTIME
                                            ADDRESSES AUTHORIZATION CTIME CUSEC SUBKEY NUMBER CHECKSUM AUTHORIZATION
                                            mutual|plain`, first of the ticket's data, then of the authenticator's
    keytab BYTES                            the service gets this keytab
    stamp                                   the bytes of the tuple of what was accepted, if the last request was
    reply BYTES KEY NUMBER                  the reply to it, with this confounder
    held, refusals                          how many tuples there are, and the latest moment; how many requests were
                                            refused for a limit
    error CAUSE TIME NAME                   the error that reports a refusal
    cache BYTES                             a client's cache
    request NAME TIME BYTES plain|mutual KEY NUMBER [FLAGS/BINDINGS]
                                            the request for a service, with this confounder, of a client that has just
                                            read the cache
    initiate ..                             the same of a client that goes on
    finish INDEX MESSAGE                    what the client of that request says of a reply: `agreed CLIENT KEY`, and
                                            the service's subkey and number
    logins BYTES named|anonymous REALM|any ignored|sent|required [BYTES]
                                            a service that answers tokens: whether clients may be anonymous, their
                                            realm, and the hash of their channel bindings
    sharing ..                              the same that shares a store of stamps
    login TIME BYTES                        what it decides of the first bytes of a client: `in CLIENT`, `on` or
                                            `refused CODE ASKED`, and what goes back; or `ask BYTES TIME`, what the
                                            store is asked. ASKED is `unread`, or the service's name, type and number
                                            of the key, and whether the client asks for a reply
    next TIME BYTES                         the same of its next bytes
    settle new|known|failed TIME            what it decides by what the store says
"""
import re
from ctypes import byref, c_int32, c_uint8, create_string_buffer, sizeof

from fevstunik import Code, Error
from fevstunik._interface import (
    AcceptorOptions, Agreement, Asked, Choice, ContextChoice, Known, LoginHandle, Time, Usage)
from fevstunik._library import Handle, done, filled, library, read

from support import calls
from support.exchange_made import REPLY_CONFOUNDER, item_word, items_word, name_word, or_none, shown
from support.reference import principal_text

# What krb_ap and krb_keytab call some faults.
NAMES = {
    Code.CREDENTIAL_EXPIRED: "Expired", Code.REPLY_TYPE: "MessageType", Code.REPLY_MALFORMED: "Malformed",
    Code.REPLY_INTEGRITY: "Integrity", Code.REPLY_MISMATCH: "Mismatch", Code.FILE_VERSION: "Version",
    Code.FILE_TRUNCATED: "Truncated",
}
PLACED = (Code.MALFORMED, Code.REPLY_MALFORMED, Code.TOKEN_MALFORMED, Code.OTHER_MECHANISM, Code.FILE_TRUNCATED)
# The login isn't one that could be decided.
UNDECIDED = (Code.EMPTY_HANDLE, Code.NOT_WAITING, Code.BAD_MOMENT)
# Why a service may be sure that it isn't sent what it has accepted before.
STARTED, FIRST_LIFE, SHARED = 1, 2, 3
RULES, SAID = ("ignored", "sent", "required"), ("", "new", "known", "failed")
ADDRESSES, TICKET_DATA, DATA, CHECKSUM, REALMS = range(1, 6)
# Enough for what a service sends back.
ROOM = 65_536


def name_of(code):
    """The name of a code, as in Rattle."""
    return NAMES.get(code) or code.name.title().replace("_", "")


CAUSES = {name_of(it): it for it in Code if it <= Code.OUT_OF_MEMORY}


def refused(code, at):
    return f"refused {name_of(code)}" + (f" at {at}" if code in PLACED else "")


def parts_of(name):
    """The type and the text of a NAME."""
    kind, realm, components = name.split("/")
    parts = [] if components == "." else [calls.bytes_of(it) for it in components.split(",")]
    return int(kind), principal_text(calls.bytes_of(realm), parts).encode()


def word_of(kind, text):
    """The NAME of a type and a text. (A name without components has the text of one with an empty component.)"""
    parts = [b""]
    for it in re.findall(rb"\\x[0-9a-f]{2}|\\.|.", text, re.DOTALL):
        if it in (b"/", b"@"):
            parts.append(b"")
        else:
            parts[-1] += bytes.fromhex(it[2:].decode()) if it.startswith(b"\\x") else it[-1:]
    *components, realm = parts
    return name_word(kind, realm, [] if components == [b""] else components)


def time_of(seconds, micros):
    return byref(Time(int(seconds), int(micros)))


def time_words(time):
    return f"{time.seconds} {time.micros}"


def if_there(answer, shown):
    """What was returned, as a word; `none` if there is nothing."""
    return "none" if answer.code == Code.NOTHING_THERE else shown(done(answer))


def key_word(is_there, kind, span, data):
    return item_word(kind, span.of(data)) if is_there else "none"


def sized(data):
    return data, len(data)


def chosen(key, number, wants_reply=False):
    """What a side chooses, and the bytes of its subkey."""
    kind, _, digits = "0/".partition("/") if key == "none" else key.partition("/")
    has_number = number != "none"
    choice = Choice(int(kind), int(number) if has_number else 0, has_number, wants_reply)
    return byref(choice), *sized(bytes.fromhex(digits))


class Exchange:
    """What earlier lines made. Each call has the name of its line's first word."""

    def __init__(self):
        self.acceptor, self.accepted, self.client = Handle("acceptor"), Handle("accepted"), Handle("cache")
        self.conversation, self.file = Handle("login", LoginHandle), b""
        self.requests, self.last = [], b""
        done(self.accepted.inside("accepted_new"))

    def answer(self, line):
        first, *words = line.split(" ")
        try:
            return getattr(self, first)(*words)
        except Error as fault:
            return refused(fault.code, fault.offset)
        except MemoryError:
            return refused(Code.OUT_OF_MEMORY, 0)

    def message(self, word):
        if word == "replied":
            return sized(self.last)
        return sized(self.requests[int(word[5:])][0] if word.startswith("made:") else calls.bytes_of(word))

    # ---- a service

    def make(self, keytab, skew, **options):
        """A new service; what there was before is gone, also if none is made."""
        self.acceptor = Handle("acceptor")
        made = AcceptorOptions(size=sizeof(AcceptorOptions), skew=int(skew), any_name=True, any_start=True, **options)
        done(self.acceptor.inside("acceptor_new", *sized(calls.bytes_of(keytab)), *sized(b""), byref(made)))

    def service(self, kind, skew, keytab, *more):
        more = [int(it) for it in more]
        if kind == "limited":
            self.make(keytab, skew, restarts=FIRST_LIFE, limit=more[0], limit_for_client=more[1])
        elif more:
            self.make(keytab, skew, restarts=STARTED, started=Time(*more))
        else:
            self.make(keytab, skew, restarts=FIRST_LIFE)
        return "service"

    def accept(self, seconds, micros, message):
        done(self.acceptor.inside("acceptor_accept", self.accepted.pointer, *self.message(message),
                                  time_of(seconds, micros)))
        known, data = read(Known, self.accepted.inside, "accepted_known")
        checksum, (realms,) = self.items(CHECKSUM), self.items(REALMS)
        return " ".join([
            "accepted", word_of(known.name_type, known.client.of(data)),
            word_of(known.service_type, known.service.of(data)),
            key_word(True, known.session_type, known.session_key, data), str(known.flags), item_word(*realms),
            str(known.authtime), self.start(), str(known.endtime), items_word(self.items(ADDRESSES)),
            items_word(self.items(TICKET_DATA)), str(known.ctime), str(known.cusec),
            key_word(known.has_subkey, known.subkey_type, known.subkey, data),
            or_none(known.seq if known.has_seq else None), items_word(checksum), items_word(self.items(DATA)),
            "mutual" if known.wants_reply else "plain",
        ])

    def start(self):
        """When the ticket becomes valid, if it says so."""
        time = Time()
        return if_there(self.accepted.inside("accepted_start", byref(time)), lambda _: str(time.seconds))

    def items(self, which):
        """A list of what was accepted, or None if there is none."""
        answer = self.accepted.inside("accepted_count", which)
        return None if answer.code == Code.NO_SUCH_ENTRY else [self.item(which, it) for it in range(done(answer).size)]

    def item(self, which, index):
        kind = c_int32()
        data = filled(lambda *into: self.accepted.inside("accepted_item", which, index, byref(kind), *into))
        return kind.value, data

    def keytab(self, keytab):
        done(self.acceptor.inside("acceptor_replace_keytab", *sized(calls.bytes_of(keytab)), *sized(b""), True))
        return "keytab"

    def stamp(self):
        return shown(filled(lambda *into: self.accepted.inside("accepted_stamp", 300, byref(Time()), *into)))

    def reply(self, confounder, key, number):
        words = *sized(calls.bytes_of(confounder)), *chosen(key, number)
        self.last = filled(lambda *into: self.accepted.inside("accepted_reply", *words, *into))
        return shown(self.last)

    def held(self):
        latest = Time()
        moment = if_there(self.acceptor.inside("acceptor_latest", byref(latest)), lambda _: time_words(latest))
        return f"{self.acceptor.inside('acceptor_count')} {moment}"

    def refusals(self):
        usage = Usage()
        done(self.acceptor.inside("acceptor_usage", byref(usage)))
        return str(usage.full)

    def error(self, cause, seconds, micros, name):
        kind, text = parts_of(name)
        return shown(filled(lambda *into: library().call("error", CAUSES[cause], *sized(text), kind,
                                                         time_of(seconds, micros), *into)))

    # ---- a client

    def cache(self, file):
        self.client, self.file = Handle("cache"), calls.bytes_of(file)
        done(self.client.inside("cache_new", *sized(self.file)))
        return "cache"

    def request(self, *words):
        reader = Handle("cache")
        done(reader.inside("cache_new", *sized(self.file)))
        return self.asked_by(reader, *words)

    def initiate(self, *words):
        return self.asked_by(self.client, *words)

    def asked_by(self, cache, name, seconds, micros, confounder, how, key, number, context=None):
        pending, call, more = Handle("pending"), "request", ()
        if context:
            flags, digits = context.split("/")
            choice = ContextChoice(int(flags), (c_uint8 * 16)(*bytes.fromhex(digits)))
            call, more = "context_request", (byref(choice),)
        words = (pending.pointer, *sized(parts_of(name)[1]), time_of(seconds, micros),
                 *sized(calls.bytes_of(confounder)), *chosen(key, number, how == "mutual"), *more)
        data = filled(lambda *into: cache.inside(call, *words, *into))
        self.requests.append((data, pending))
        return shown(data)

    def finish(self, index, message):
        pending = self.requests[int(index)][1] if int(index) < len(self.requests) else Handle("pending")
        agreed, data = read(Agreement, pending.inside, "finish", *self.message(message))
        return " ".join([
            "agreed", word_of(agreed.name_type, agreed.client.of(data)),
            key_word(True, agreed.session_type, agreed.session_key, data),
            key_word(agreed.has_service_subkey, agreed.service_subkey_type, agreed.service_subkey, data),
            or_none(agreed.service_seq if agreed.has_service_seq else None),
        ])

    # ---- a service that answers tokens

    def logins(self, *words):
        return self.serving(FIRST_LIFE, *words)

    def sharing(self, *words):
        return self.serving(SHARED, *words)

    def serving(self, restarts, keytab, client, realm, rule, bound="-"):
        self.make(keytab, 300, restarts=restarts, anonymous=client == "anonymous", bindings=RULES.index(rule),
                  bindings_hash=(c_uint8 * 16)(*calls.bytes_of(bound)))
        if realm != "any":
            done(self.acceptor.inside("acceptor_add_realm", *sized(realm.encode())))
        return "logins"

    def login(self, *words):
        self.conversation = Handle("login", LoginHandle)
        return self.next(*words)

    def next(self, seconds, micros, message):
        out = create_string_buffer(ROOM)
        return self.decided(self.acceptor.inside(
            "service_answer", self.conversation.pointer, *self.message(message), time_of(seconds, micros),
            *sized(REPLY_CONFOUNDER), out, ROOM), out)

    def settle(self, said, seconds, micros):
        out = create_string_buffer(ROOM)
        return self.decided(self.conversation.inside("login_settle", SAID.index(said), time_of(seconds, micros), out,
                                                     ROOM), out)

    def decided(self, answer, out):
        code, sent = Code(answer.code), shown(out.raw[:answer.size]) if answer.size else "nothing"
        if code == Code.ASK_STORE:
            until = Time()
            stamp = filled(lambda *into: self.conversation.inside("login_stamp", byref(until), *into))
            return f"ask {shown(stamp)} {time_words(until)}"
        if code == Code.OK:
            known, data = read(Known, library().call, "accepted_known", byref(self.conversation._opaque.accepted))
            return f"in {word_of(known.name_type, known.client.of(data))} {sent}"
        if code == Code.GO_ON:
            return f"on {sent}"
        why = refused(code, answer.at)
        return why if code in UNDECIDED else f"{why} {self.asked()} {sent}"

    def asked(self):
        """What a request asked for that was refused."""
        try:
            asked, data = read(Asked, self.conversation.inside, "login_asked")
        except Error:
            return "unread"
        kvno, wants_reply = or_none(asked.kvno if asked.has_kvno else None), str(asked.wants_reply).lower()
        return f"{word_of(asked.service_type, asked.service.of(data))} {asked.etype} {kvno} {wants_reply}"


def answers(lines):
    """What is answered to each line. The line `new` drops what earlier lines made."""
    exchange = Exchange()
    for line in lines:
        if line == "new":
            exchange = Exchange()
        yield "new" if line == "new" else exchange.answer(line)
