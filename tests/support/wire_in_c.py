"""Makes calls of sealing, of GSS-API tokens and of messages after a login by the library for C, one a line (calls.py).

A fault is shown by the text that the libraries in Rattle have for it. SIZE is that of the slice of bytes a5 into which
the call writes: then the answer is the length of what was written or the fault, and the whole slice. A NAME of Kerberos
is `Kerberos`, `Microsoft` or `Draft`, a SIDE `initiator` or `acceptor`; what holds or doesn't is `true` or `false`.

    enc seal ETYPE KEY USAGE SIZE CONFOUNDER PLAIN
    enc open ETYPE KEY USAGE SIZE TEXT  `sealed` is the text that was sealed last
    enc checksum ETYPE KEY USAGE TEXT   the checksum
    enc verify ETYPE KEY USAGE TEXT CHECKSUM
                                        whether it is that of the text
    gss open BYTES                      the first token of a client: `bare NAME REQUEST`, or `negotiated NAME NAME
                                        REQUEST`, first the name in the list; or `refused` and the fault, as of all
                                        these calls
    gss request IN NAME BYTES           the first token of a client for this request: IN is `bare`, or the NAME in the
                                        list of a negotiation
    gss answer IN NAME reply|error BYTES
                                        the service's answer, likewise
    gss later NAME reply|error BYTES    its answer to a later token
    gss take BYTES ..                   what a negotiation does with the client's tokens: for each `first` and what
                                        `open` answers, `asks NAME`, `later NAME REQUEST`, or `refused`
    gss continued BYTES                 the NAME and the REQUEST of a later token
    gss said (completed [NAME]|incomplete NAME|rejected)
                                        the service's answer without a token
    gss verdict BYTES                   what such an answer says, or `none`
    key ETYPE KEY SIDE SUBKEY           keeps what protects the messages of this side (SUBKEY: it is the acceptor's)
    mic SIZE NUMBER TEXT                the MIC token of this side with this number
    seal SIZE NUMBER CONFOUNDER TEXT    its Wrap token, sealed
    plain SIZE NUMBER TEXT              and in plain
    verify TEXT TOKEN                   the number of a MIC token of this side
    unwrap TOKEN                        the number of a Wrap token of this side, whether it was sealed, and the text; or
                                        the fault, and what the token is then
    agree KEY KEY KEY NUMBER NUMBER     keeps what both sides agreed on: the session key, the initiator's subkey and the
                                        acceptor's, each ETYPE BYTES (0 - if there is none), and their first numbers
    context SIDE ROTATION IN_ORDER ONCE begins the messages of a side of that, which takes only the next message
                                        (IN_ORDER), or refuses repeats (ONCE)
    send-mic SIZE TEXT                  the side's next message
    send SIZE SEALED CONFOUNDER TEXT    the same
    limit SIZE SEALED                   the length of the longest text whose message has so many bytes, or none
    take-mic TEXT TOKEN                 the number and how it stands to those before it; or the fault
    take-wrap TOKEN                     the same, whether it was sealed, and the text; or the fault, and the token then
"""
from ctypes import byref, create_string_buffer

from fevstunik import Code, Error
from fevstunik._interface import MessageOptions, Negotiation, Received, Verdict, Wrapped
from fevstunik._library import Handle, filled, library, read

from support import calls
from support.exchange_made import shown

# What the libraries in Rattle say of a fault. (The code of a malformed token doesn't say how it is.)
NOT_NEXT = "the token isn't the next one"
TEXTS = {
    Code.KEY_TYPE: "the encryption type is not known", Code.KEY_LENGTH: "the key has the wrong length",
    Code.SHORT_BUFFER: "the slice has fewer than {size} bytes",
    Code.TEXT_SHORT: "the sealed text is too short", Code.TEXT_INTEGRITY: "the tag is wrong",
    Code.NOT_A_TOKEN: "no token of a mechanism", Code.TOKEN_MALFORMED: "malformed at {at}",
    Code.TOKEN_CONTINUES: "the token continues a negotiation",
    Code.TOKEN_EMPTY: "no token of the mechanism at {at}", Code.TOKEN_ID: "another token identifier at {at}",
    Code.TOKEN_UNFRAMED: "a request without a token around it at {at}",
    Code.OTHER_MECHANISM: "another mechanism at {at}: Unknown", Code.NTLM: "another mechanism at {at}: Ntlm",
    Code.IAKERB: "another mechanism at {at}: IaKerb",
    Code.NESTED_NEGOTIATION: "another mechanism at {at}: Negotiation",
    Code.NEGOTIATION_OVER: "the negotiation is over",
    Code.TOO_LONG: "the token would be longer than 1048576 bytes",
    Code.MESSAGE_DEFECTIVE: "the bytes are no token of this kind",
    Code.MESSAGE_DIRECTION: "the token was sent back: it is of the side that reads it",
    Code.MESSAGE_OTHER_KEY: "the token is under another key", Code.MESSAGE_INTEGRITY: "the checksum is wrong",
    Code.MESSAGE_GAP: f"{NOT_NEXT} AfterGap", Code.MESSAGE_REPEAT: f"{NOT_NEXT} Repeat",
    Code.MESSAGE_OLD: f"{NOT_NEXT} Old",
}
# By their numbers.
NAMES = ("none", "Kerberos", "Microsoft", "Draft")
SAYS = ("", "completed", "incomplete", "rejected")
SIDES = ("", "initiator", "acceptor")
ORDERS = ("Next", "AfterGap", "Late", "Repeat", "Old")
# In place of a mechanism: an earlier answer of the negotiation named it.
NAMED = 100


def text_of(answer):
    """The text of a fault that a call answers."""
    return TEXTS.get(answer.code, Code(answer.code).name).format(at=answer.at, size=answer.size)


def text_raised(fault):
    """The text of a fault that the package raises."""
    return TEXTS.get(fault.code, fault.name).format(at=fault.offset)


def data(word):
    """The bytes of a word and their length, as calls take them."""
    found = calls.bytes_of(word)
    return found, len(found)


def key(etype, word):
    return int(etype), *data(word)


def truth(holds):
    return str(bool(holds)).lower()


def written(size, call):
    """What a call into a slice of so many bytes a5 answers, and the slice."""
    buffer = create_string_buffer(b"\xa5" * int(size), int(size))
    answer = call(buffer, int(size))
    return str(answer.size) if answer.code == Code.OK else text_of(answer), buffer.raw


def into(size, call):
    said, found = written(size, call)
    return f"{said} {shown(found)}"


class Sealing:
    """Calls of keys, and what was sealed last."""

    def seal(self, etype, word, usage, size, confounder, plain):
        said, found = written(size, lambda *buffer: library().call("seal", *key(etype, word), int(usage),
                                                                   *data(confounder), *data(plain), *buffer))
        if said.isdigit():
            self.sealed = found[:int(said)]
        return f"{said} {shown(found)}"

    def open(self, etype, word, usage, size, text):
        text = (self.sealed, len(self.sealed)) if text == "sealed" else data(text)
        return into(size, lambda *buffer: library().call("open", *key(etype, word), int(usage), *text, *buffer))

    def checksum(self, etype, word, usage, text):
        return shown(filled(lambda *buffer: library().call("checksum", *key(etype, word), int(usage), *data(text),
                                                           *buffer)))

    def verify(self, etype, word, usage, text, tag):
        answer = library().call("checksum_check", *key(etype, word), int(usage), *data(text), *data(tag))
        return text_of(answer) if answer.code not in (Code.OK, Code.TEXT_INTEGRITY) else truth(answer.code == Code.OK)


class Tokens:
    """Calls of the tokens of a login."""

    def open(self, word):
        return self.opened(*read(Wrapped, lambda *more: library().call("token_open", *data(word), *more)))

    def opened(self, wrapped, request):
        listed = f"negotiated {NAMES[wrapped.negotiated]}" if wrapped.negotiated else "bare"
        return f"{listed} {NAMES[wrapped.mechanism]} {shown(request)}"

    def wrap(self, call, wrapped, word):
        return shown(filled(lambda *buffer: library().call(call, byref(wrapped), *data(word), *buffer)))

    def wrapped(self, place, name):
        return Wrapped(NAMES.index(name), 0 if place == "bare" else NAMES.index(place))

    def request(self, place, name, word):
        return self.wrap("token_request", self.wrapped(place, name), word)

    def answer(self, place, name, kind, word):
        return self.wrap(f"token_{kind}", self.wrapped(place, name), word)

    def later(self, name, kind, word):
        return self.wrap(f"token_{kind}", Wrapped(NAMES.index(name), NAMED), word)

    def take(self, *words):
        negotiation = Negotiation()
        return " ".join(self.taken(negotiation, word) for word in words)

    def taken(self, negotiation, word):
        try:
            wrapped, given = self.next_of(negotiation, word)
        except Error as fault:
            return refused(fault)
        if wrapped.negotiated == NAMED:
            return f"later {NAMES[wrapped.mechanism]} {shown(given)}"
        if wrapped.mechanism:
            return f"first {self.opened(wrapped, given)}"
        return f"asks {NAMES[wrapped.negotiated]}"

    def next_of(self, negotiation, word):
        token, size = data(word)
        return read(Wrapped, lambda *more: library().call("negotiation_take", byref(negotiation), token, size, *more))

    def continued(self, word):
        wrapped, request = self.next_of(Negotiation(1, 1), word)
        return f"{NAMES[wrapped.mechanism]} {shown(request)}"

    def said(self, word, name="none"):
        verdict = Verdict(SAYS.index(word), NAMES.index(name))
        return shown(filled(lambda *buffer: library().call("verdict_token", byref(verdict), *buffer)))

    def verdict(self, word):
        verdict = Verdict()
        answer = library().call("verdict_read", *data(word), byref(verdict))
        if answer.code == Code.NOTHING_THERE:
            return "none"
        return " ".join([SAYS[verdict.says], *([NAMES[verdict.mechanism]] if verdict.mechanism else [])])


class Messages:
    """Calls of messages after a login, and what earlier lines made."""

    def __init__(self):
        self.words = self.reader = self.keys = self.side = None

    def begun(self, side, keys, numbers, rotation=0, any_order=True, repeats=True):
        """The messages of a side. Each key is its type and its bytes; the numbers are the first ones."""
        types = [int(etype) for etype, _ in keys]
        options = MessageOptions(SIDES.index(side), *types, *map(int, numbers), int(rotation), any_order, repeats)
        handle = Handle("messages")
        answer = handle.call("messages_new", byref(options), *(it for _, word in keys for it in data(word)))
        if answer.code != Code.OK:
            raise ValueError(f"no messages begin: {text_of(answer)}")
        return handle

    def key(self, etype, word, side, subkey):
        keys = [(etype, word), (0, "-"), (etype, word) if subkey == "true" else (0, "-")]
        self.words = side, keys
        self.reader = self.begun(SIDES[3 - SIDES.index(side)], keys, (0, 0))
        return "kept"

    def sent(self, number, size, call, *words):
        """What a call of this side writes, whose next number this is."""
        side, keys = self.words
        handle = self.begun(side, keys, (number, number))
        return into(size, lambda *buffer: handle.call(call, *words, *buffer))

    def mic(self, size, number, text):
        return self.sent(number, size, "messages_mic", *data(text))

    def seal(self, size, number, confounder, text):
        return self.sent(number, size, "messages_wrap", True, *data(confounder), *data(text))

    def plain(self, size, number, text):
        return self.sent(number, size, "messages_wrap", False, bytes(16), 16, *data(text))

    def verified(self, handle, text, token):
        """What is received, or None; and the text of the fault."""
        received = Received()
        answer = handle.call("messages_verify", *data(text), *data(token), byref(received))
        return (received, "") if answer.code == Code.OK else (None, text_of(answer))

    def unwrapped(self, handle, word):
        """What is received, or None; and whether it was sealed and the text, or the fault and what the token is."""
        token, size = data(word)
        buffer, received = create_string_buffer(token, size), Received()
        answer = handle.call("messages_unwrap", buffer, size, byref(received))
        if answer.code != Code.OK:
            return None, f"{text_of(answer)} {shown(buffer.raw)}"
        return received, f"{truth(received.sealed)} {shown(received.text.of(buffer.raw))}"

    def verify(self, text, token):
        received, fault = self.verified(self.reader, text, token)
        return str(received.number) if received else fault

    def unwrap(self, token):
        received, rest = self.unwrapped(self.reader, token)
        return f"{received.number} {rest}" if received else rest

    def agree(self, *words):
        *keys, self.numbers = words[0:2], words[2:4], words[4:6], words[6:]
        self.keys = keys
        return "kept"

    def context(self, side, rotation, in_order, once):
        self.side = self.begun(side, self.keys, self.numbers, rotation, in_order == "false", once == "false")
        return "kept"

    def send_mic(self, size, text):
        return into(size, lambda *buffer: self.side.call("messages_mic", *data(text), *buffer))

    def send(self, size, sealed, confounder, text):
        return into(size, lambda *buffer: self.side.call("messages_wrap", sealed == "true", *data(confounder),
                                                         *data(text), *buffer))

    def limit(self, size, sealed):
        answer = self.side.call("messages_limit", sealed == "true", int(size))
        return "none" if answer.code == Code.TOO_LONG else str(answer.size)

    def take_mic(self, text, token):
        received, fault = self.verified(self.side, text, token)
        return f"{received.number} {ORDERS[received.order]}" if received else fault

    def take_wrap(self, token):
        received, rest = self.unwrapped(self.side, token)
        return f"{received.number} {ORDERS[received.order]} {rest}" if received else rest


def refused(fault):
    return f"refused {text_raised(fault)}"


def answered(made, line):
    """The answer to a line, by the calls of its layer, which have what earlier lines made."""
    layer, *words = line.split(" ")
    if layer not in made:
        return getattr(made[""], layer.replace("-", "_"))(*words)
    try:
        return getattr(made[layer], words[0])(*words[1:])
    except Error as fault:
        return refused(fault) if layer == "gss" else text_raised(fault)


def answers(lines):
    """The answers to lines; `new` drops what earlier ones made."""
    for line in lines:
        if line == "new":
            made = {"enc": Sealing(), "gss": Tokens(), "": Messages()}
        yield "new" if line == "new" else answered(made, line)
