"""A second implementation of per-message tokens (RFC 4121, section 4.2), of the order of their numbers (RFC 2743,
section 1.2.3), and of the two sides of a context."""
import functools
import itertools
import random
import struct

from support import calls
from support.sealing import TYPES, checksum, sealed

PROGRAM, WIRE = "wire_in_c", "krb_calls_wire"
SIGN, SEAL = {"acceptor": 23, "initiator": 25}, {"acceptor": 22, "initiator": 24}
DEFECTIVE, WRONG = "the bytes are no token of this kind", "the checksum is wrong"
OTHER_SIDE, OTHER_KEY = "the token was sent back: it is of the side that reads it", "the token is under another key"
NOT_NEXT, WINDOW = "the token isn't the next one", 64
# The libraries whose tokens are stored, and how many of these tokens are bent.
LIBRARIES, BENT = ("mit", "heimdal"), 50
KEYS = [(19, bytes(range(16))), (20, bytes(range(100, 132)))]


class Sender:
    """What one side sends under a key."""

    def __init__(self, etype, key, side, subkey):
        self.etype, self.key, self.side, self.subkey, self.bodies = etype, key, side, subkey, {}

    def line(self):
        return f"key {self.etype} {self.key.hex()} {self.side} {str(self.subkey).lower()}"

    def flags(self, is_sealed=False):
        return (self.side == "acceptor") + 2 * is_sealed + 4 * self.subkey

    def mic(self, number, text, more=0):
        header = b"\x04\x04" + bytes([self.flags() + more]) + b"\xff" * 5 + struct.pack(">Q", number)
        return header + checksum(self.etype, self.key, SIGN[self.side], text + header)

    def header(self, is_sealed, extra, rotation, number, more=0):
        flags = bytes([self.flags(is_sealed) + more])
        return b"\x05\x04" + flags + b"\xff" + struct.pack(">HHQ", extra, rotation, number)

    def seal(self, number, confounder, text, filler=b"", rotation=0, more=0):
        inner = self.header(True, len(filler), 0, number, more)
        body = sealed(self.etype, self.key, SEAL[self.side], confounder, text + filler + inner)
        self.bodies[body] = text + filler + inner
        return self.header(True, len(filler), rotation, number, more) + rotated(body, rotation)

    def plain(self, number, text, rotation=0, more=0):
        tag = checksum(self.etype, self.key, SEAL[self.side], text + self.header(False, 0, 0, number, more))
        return self.header(False, TYPES[self.etype][2], rotation, number, more) + rotated(text + tag, rotation)

    def fault_of_flags(self, flags):
        if flags % 2 != (self.side == "acceptor"):
            return OTHER_SIDE
        return None if flags // 4 % 2 == self.subkey else OTHER_KEY

    def verified(self, text, token):
        """What the reader of a MIC token answers."""
        if len(token) < 16 or token[:2] != b"\x04\x04" or token[3:8] != b"\xff" * 5 or token[2] & 2:
            return DEFECTIVE
        number = int.from_bytes(token[8:16], "big")
        is_right = token == self.mic(number, text, token[2] & 0xF8)
        return self.fault_of_flags(token[2]) or (str(number) if is_right else WRONG)

    def unwrapped(self, token):
        """What the reader of a Wrap token answers. A sealed one opens if it was sealed here."""
        tag = TYPES[self.etype][2]
        if len(token) < 16 or token[:2] != b"\x05\x04" or token[3] != 0xFF:
            return f"{DEFECTIVE} {hexed(token)}"
        (extra, rotation, number), body, is_sealed = struct.unpack(">HHQ", token[4:16]), token[16:], token[2] & 2
        if len(body) < 32 + extra + tag if is_sealed else extra != tag or len(body) < tag:
            return f"{DEFECTIVE} {hexed(token)}"
        fault, body = self.fault_of_flags(token[2]), rotated(body, -rotation)
        if fault:
            return f"{fault} {hexed(token)}"
        plain = self.bodies.get(body) if is_sealed else body
        end = len(plain or b"") - (16 + extra if is_sealed else tag)
        right = self.header(True, extra, 0, number, token[2] & 0xF8) if is_sealed else checksum(
            self.etype, self.key, SEAL[self.side], body[:end] + self.header(False, 0, 0, number, token[2] & 0xF8))
        if plain is None or plain[len(plain) - len(right):] != right:
            return f"{WRONG} {token[:16].hex()}{'00' * len(body)}"
        return f"{number} {str(bool(is_sealed)).lower()} {hexed(plain[:end])}"


class Window:
    """What one side knows of the numbers that it took."""

    def __init__(self, first):
        self.first, self.taken = first, set()

    def following(self):
        return max(self.taken, default=self.first - 1) + 1

    def order(self, number):
        following = self.following()
        if number >= following:
            return "Next" if number == following else "AfterGap"
        if number < max(self.first, following - WINDOW):
            return "Old"
        return "Repeat" if number in self.taken else "Late"

    def take(self, number):
        order = self.order(number)
        if number >= self.first:
            self.taken.add(number)
        return order


class Side:
    """A side of a context: the session key, the subkeys (None if there is none) and the first numbers of both sides."""

    def __init__(self, side, keys, numbers, rotation=0, in_order=False, once=False):
        session, initiator, acceptor = keys
        self.keys, self.numbers, self.side, self.rotation = keys, numbers, side, rotation
        # Whether only the next token is taken, and whether repeats are refused.
        self.in_order, self.once = in_order, once
        etype, key = acceptor or initiator or session
        other = next(it for it in SIGN if it != side)
        self.sent, self.peer = (Sender(etype, key, it, acceptor is not None) for it in (side, other))
        self.number, self.window = numbers[side], Window(numbers[other])

    def lines(self):
        keys = " ".join(f"{it[0]} {it[1].hex()}" if it else "0 -" for it in self.keys)
        return [f"agree {keys} {self.numbers['initiator']} {self.numbers['acceptor']}",
                f"context {self.side} {self.rotation} {str(self.in_order).lower()} {str(self.once).lower()}"]

    def overhead(self, is_sealed):
        return (48 if is_sealed else 16) + TYPES[self.sent.etype][2]

    def wrap(self, is_sealed, confounder, text):
        if is_sealed:
            return self.sent.seal(self.number, confounder, text, rotation=self.rotation)
        return self.sent.plain(self.number, text)

    def takes(self, number, more, refused=""):
        """What is answered for a token with this number: it and its order, or that the options refuse it."""
        order = self.window.order(number)
        if self.in_order and order != "Next" or self.once and order in ("Repeat", "Old"):
            # (the library for C has one code for a gap and what comes late)
            return f"{NOT_NEXT} {order.replace('Late', 'AfterGap')}{refused}"
        return f"{number} {self.window.take(number)}{more}"

    def takes_mic(self, text, token):
        answer = self.peer.verified(text, token)
        return self.takes(int(answer), "") if answer.isdigit() else answer

    def takes_wrap(self, token):
        answer = self.peer.unwrapped(token)
        number, _, rest = answer.partition(" ")
        if not number.isdigit():
            return answer
        return self.takes(int(number), f" {rest}", f" {token[:16].hex()}{'00' * (len(token) - 16)}")


def rotated(body, rotation):
    at = len(body) - rotation % len(body)
    return body[at:] + body[:at]


def hexed(text):
    return text.hex() or "-"


def senders():
    for etype, key in KEYS:
        for side in SIGN:
            for subkey in (False, True):
                yield Sender(etype, key, side, subkey)


def written(call, token):
    """What is written into slices of its length and more, and of a byte less."""
    size = len(token)
    return ([call.format(size + 2), call.format(size - 1)],
            [f"{size} {token.hex()}a5a5", f"the slice has fewer than {size} bytes a5*{size - 1}"])


@functools.lru_cache(maxsize=1)
def made(it, number, confounder, text):
    """A MIC token and both Wrap tokens."""
    return it.mic(number, text), it.seal(number, confounder, text), it.plain(number, text)


def lengths(it, drawn):
    """Texts of many lengths, written and read."""
    lines, answers = [it.line()], ["kept"]
    for size in (*range(50), 1000, 70000):
        # A side begins with a number of 32 bits, but takes any.
        text, confounder, first = drawn.randbytes(size), drawn.randbytes(16), drawn.getrandbits(32)
        number = drawn.getrandbits(64) if size < 50 else first
        heads = (f"mic {{}} {first} {hexed(text)}", f"seal {{}} {first} {confounder.hex()} {hexed(text)}",
                 f"plain {{}} {first} {hexed(text)}")
        for call, token in zip(heads, made(it, first, confounder, text)):
            more, right = written(call, token)
            lines, answers = lines + more, answers + right
        tokens = made(it, number, confounder, text)
        lines += [f"verify {hexed(text)} {tokens[0].hex()}", f"unwrap {tokens[1].hex()}", f"unwrap {tokens[2].hex()}"]
        answers += [f"{number}", f"{number} true {hexed(text)}", f"{number} false {hexed(text)}"]
    return lines, answers


def kinds(it, drawn):
    """Filler, rotations by any number of bytes, and flags without a name."""
    lines, answers = [it.line()], ["kept"]
    text, confounder = drawn.randbytes(40), drawn.randbytes(16)
    whole = len(it.seal(7, confounder, text)) - 16
    for rotation in (*range(whole + 2), 65535):
        more = 8 * drawn.randrange(32)
        filler = drawn.randbytes(drawn.randrange(5))
        lines += [f"unwrap {it.seal(7, confounder, text, filler, rotation, more).hex()}",
                  f"unwrap {it.plain(7, text, rotation, more).hex()}",
                  f"verify {hexed(text)} {it.mic(7, text, more).hex()}"]
        answers += [f"7 true {text.hex()}", f"7 false {text.hex()}", "7"]
    return lines, answers


def bent(token, drawn):
    """Each bit turned, each beginning, and the token with more after it."""
    for at in range(8 * len(token)):
        yield (int.from_bytes(token, "big") ^ 1 << at).to_bytes(len(token), "big")
    for size in range(len(token)):
        yield token[:size]
    yield token + drawn.randbytes(1)


def faults(it, drawn):
    """Tokens that were bent; and those of the other side, of another key, of another kind and of another text."""
    lines, answers = [it.line()], ["kept"]
    text, confounder = drawn.randbytes(9), drawn.randbytes(16)
    tokens = [it.mic(3, text), it.seal(3, confounder, text, b"\0"), it.plain(3, text)]
    other = Sender(it.etype, it.key, next(side for side in SIGN if side != it.side), it.subkey)
    another = Sender(it.etype, it.key, it.side, not it.subkey)
    for who in (other, another):
        tokens += [who.mic(3, text), who.seal(3, confounder, text), who.plain(3, text)]
    for token in (*tokens, *(made for token in tokens[:3] for made in bent(token, drawn))):
        lines += [f"verify {text.hex()} {hexed(token)}", f"verify - {hexed(token)}", f"unwrap {hexed(token)}"]
        answers += [it.verified(text, token), it.verified(b"", token), it.unwrapped(token)]
    return lines, answers


def order(drawn):
    """Numbers near each other and far, at both ends of what 64 bits can say."""
    for first in (0, 5, 2**32 - 1, 2**64 - 70):
        window, line, answer = Window(first), f"window {first}", []
        for _ in range(400):
            number = near(window, drawn)
            order = window.take(number)
            line += f" {number}"
            answer += [order, str(order == "Next").lower(), str(order not in ("Repeat", "Old")).lower()]
        yield f"order, from {first}", [line], [" ".join(answer)]


def near(window, drawn):
    following = window.following()
    number = drawn.choice([following, following + drawn.randrange(70), following - drawn.randrange(1, 140)])
    return max(0, min(2**64 - 1, number))


def sides(drawn):
    """Both sides, with each choice of subkeys, rotations and options."""
    numbers = {"initiator": 2**32 - 2, "acceptor": 7}
    some = [(etype, drawn.randbytes(TYPES[etype][1])) for etype in (20, 19, 20, 19)]
    for side, initiator, acceptor in itertools.product(SIGN, (None, *some[:2]), (None, *some[2:])):
        for session in KEYS:
            rotation, in_order, once = drawn.choice([0, 28, 1, 65535]), drawn.random() < 0.3, drawn.random() < 0.5
            yield Side(side, (session, initiator, acceptor), numbers, rotation, in_order, once)


def sending(it, drawn):
    """Tokens that a side sends, and texts of the lengths around the longest that fits."""
    lines, answers = it.lines(), ["kept", "kept"]
    for size, is_sealed in itertools.product((0, 1, 17, 200), (True, False)):
        text, confounder, word = drawn.randbytes(size), drawn.randbytes(16), str(is_sealed).lower()
        for call, make in ((f"send {{}} {word} {confounder.hex()} {hexed(text)}", it.wrap),
                           (f"send-mic {{}} {hexed(text)}", lambda *_: it.sent.mic(it.number, text))):
            more, right = written(call, make(is_sealed, confounder, text))
            # First the slice that is too short: it uses up no number.
            lines, answers, it.number = lines + more[::-1], answers + right[::-1], it.number + 1
        least = it.overhead(is_sealed)
        for room in (least - 1, least + size - 1, least + size):
            lines.append(f"limit {room} {word}")
            answers.append(f"{room - least}" if room >= least else "none")
    return lines, answers


def receiving(it, drawn):
    """Tokens of the other side, in order and not, whole and bent; and its own."""
    lines, answers = it.lines(), ["kept", "kept"]
    for at in range(120):
        number = it.window.following() if at % 3 else near(it.window, drawn)
        text, confounder = drawn.randbytes(drawn.randrange(20)), drawn.randbytes(16)
        sender, rotation = it.sent if at % 29 == 28 else it.peer, drawn.randrange(100)
        kind, token = drawn.choice([("mic", sender.mic(number, text)), ("wrap", sender.plain(number, text, rotation)),
                                    ("wrap", sender.seal(number, confounder, text, b"", rotation))])
        if at % 7 == 6:
            token = token[:-1] + bytes([token[-1] ^ 1])
        lines.append(f"take-mic {hexed(text)} {token.hex()}" if kind == "mic" else f"take-wrap {token.hex()}")
        answers.append(it.takes_mic(text, token) if kind == "mic" else it.takes_wrap(token))
    return lines, answers


def of_libraries():
    """The stored tokens of MIT krb5 and Heimdal: the name of each case, its lines and its answers."""
    for _, name, lines, answers in calls.stored("context"):
        if name.startswith(LIBRARIES):
            yield name, lines, answers


def from_libraries():
    """The stored tokens, as the other side takes them in order: under the session key, under a subkey of the initiator,
    or under the acceptor's."""
    other = (19, bytes(16))
    for name, lines, answers in of_libraries():
        _, etype, key, side, subkey = lines[0].split()
        held, peer = (int(etype), bytes.fromhex(key)), next(it for it in SIGN if it != side)
        numbers = {it: int(answers[1].split()[0]) for it in SIGN}
        taken = [line.replace("verify", "take-mic").replace("unwrap", "take-wrap") for line in lines[1:]]
        right = [" ".join([number, "Next", *rest]) for number, *rest in (it.split() for it in answers[1:])]
        for keys in [(other, other, held)] if subkey == "true" else [(held, None, None), (other, held, None)]:
            it = Side(peer, keys, numbers, in_order=True)
            yield PROGRAM, f"taken in order, {name}", it.lines() + taken, ["kept", "kept"] + right


def read_as(it, line, answer):
    """A stored line's token. The model of its sender gets the plain text of one that is sealed, and so can read it."""
    token = bytes.fromhex(line.split()[-1])
    if answer.split()[1:2] == ["true"]:
        extra, rotation, number = struct.unpack(">HHQ", token[4:16])
        text = calls.bytes_of(answer.split()[2])
        it.bodies[rotated(token[16:], -rotation)] = text + it.header(True, extra, 0, number)
    return token


def turned(token):
    """A Wrap token with each rotation from 0 to the length of what is behind its header: turned so, or only said so."""
    extra, rotation = struct.unpack(">HH", token[4:8])
    body = rotated(token[16:], -rotation)
    for other in range(len(body) + 1):
        header = token[:4] + struct.pack(">HH", extra, other) + token[8:16]
        yield header + rotated(body, other)
        yield header + token[16:]


def bent_of_libraries(drawn):
    """Stored tokens with each bit turned, cut after each byte, of each rotation, and as another side's or key's."""
    found = [(name, lines[0], *it) for name, lines, right in of_libraries() for it in zip(lines[1:], right[1:])]
    for name, key, line, answer in drawn.sample(found, BENT):
        _, etype, key, side, subkey = key.split()
        it = Sender(int(etype), bytes.fromhex(key), side, subkey == "true")
        token, call = read_as(it, line, answer), line.rpartition(" ")[0]
        made = [token, *bent(token, drawn), *(turned(token) if call == "unwrap" else ())]
        lines, answers = [], []
        for side, is_subkey in itertools.product(SIGN, (False, True)):
            who = Sender(it.etype, it.key, side, is_subkey)
            who.bodies = it.bodies
            is_it = (side, is_subkey) == (it.side, it.subkey)
            lines.append(who.line())
            answers.append("kept")
            for other in made if is_it else [token]:
                lines.append(f"{call} {hexed(other)}")
                text = None if call == "unwrap" else calls.bytes_of(call.split()[1])
                answers.append(who.unwrapped(other) if text is None else who.verified(text, other))
        yield PROGRAM, f"bent, {name}, {answer.split()[0]}", lines, answers


def drawn(seed=1):
    """Cases of each sender, of windows and of sides."""
    source = random.Random(seed)
    for it in senders():
        for make in (lengths, kinds, faults):
            yield PROGRAM, f"{make.__name__}, {it.line()}", *make(it, source)
    for name, lines, answers in order(source):
        yield WIRE, name, lines, answers
    for it in sides(source):
        for make in (sending, receiving):
            yield PROGRAM, f"{make.__name__}, {' '.join(it.lines())}", *make(it, source)
    yield from from_libraries()
    yield from bent_of_libraries(source)
