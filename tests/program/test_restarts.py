"""A service that is started again and again, by `krbtool accept --started`, beside a second service
(tests/support/model.py).

A world is up to five lives of one service with one keytab; the first has no earlier one. Each start is no earlier than
any moment that was handed in before, and no skew is smaller than the one before. In each life new requests come, of
clients whose clocks are off by up to the skew, and all requests that were ever sent come again, in another order. Every
line has to be answered as by the second service, and no request may be accepted twice in a world.
"""
import random
import subprocess

import pytest

from support import der, model, reference
from support.checks import slug

SEED = 37
WORLDS, LIVES = 2_000, 5
# How many worlds a test looks at.
GROUP = 250
SECONDS = 300
BASE = 1_700_000_000
CLIENT, SERVICE = (b"EX", (b"alice",)), (b"EX", (b"host", b"web"))
ETYPE, KEY, SESSION = 19, bytes(range(16)), bytes(range(16, 32))
SKEWS = [0, 1, 2, 10]

# A service of skew 300 that was started at BASE, or had no earlier life (None): calls, each with the service's clock
# and the request's time in microseconds after BASE, and what each is answered. A request is good from the first
# microsecond on after BASE and 300 seconds.
ACCEPTED, STARTED, REPEAT = "accepted", "refused 37 JustStarted", "refused 34 Repeat"
SKEW, EXPIRED = "refused 37 Skew", "refused 32 Expired"
ROWS = [
    ("the client's time is within the skew of the start", 0, [(301_000_000, 100_000_005, STARTED)]),
    ("the client's time is the start and the skew", 0, [(301_000_000, 300_000_000, STARTED)]),
    ("a microsecond later", 0, [(300_000_001, 300_000_001, ACCEPTED)]),
    ("the service's time is the start and the skew", 0,
     [(300_000_000, 400_000_000, STARTED), (301_000_000, 400_000_000, REPEAT)]),
    ("what is refused so is remembered", 0, [(100_000_000, 390_000_000, STARTED), (300_000_001, 390_000_000, REPEAT)]),
    ("it is refused so again while the start is near", 0,
     [(100_000_000, 390_000_000, STARTED), (100_000_001, 390_000_000, STARTED)]),
    ("the start moves no moment", 0, [(-400_000_000, -400_000_000, STARTED), (-400_000_000, -100_000_000, STARTED),
                                      (-400_000_000, -99_999_999, SKEW)]),
    ("clocks that are off come first", 0, [(100_000_000, 400_000_001, SKEW)]),
    ("the ticket's end comes after it", 0, [(36_300_000_001, 36_300_000_001, EXPIRED),
                                            (36_300_000_001, 36_300_000_001, REPEAT)]),
    ("the ticket's end and the skew", 0, [(36_300_000_000, 36_300_000_000, ACCEPTED)]),
    ("a service without an earlier life", None,
     [(0, 0, ACCEPTED), (300_000_000, 0, REPEAT), (300_000_000, 300_000_000, ACCEPTED)]),
    ("a service without an earlier life, as soon as the skew allows", None,
     [(-300_000_000, 0, ACCEPTED), (-300_000_000, 1, SKEW)]),
    ("a service that was started at second 0", -BASE, [(0, 0, ACCEPTED), (0, 0, REPEAT)]),
]


class Requests:
    """Requests of one client with one ticket, by the client's time. They are sealed with what `seals` then knows."""

    def __init__(self):
        self.seals, self.made = model.Seals(), {}
        part = der.enc_ticket_part(0, der.key(ETYPE, SESSION), CLIENT[0], der.name(1, *CLIENT[1]), BASE - 100,
                                   BASE + 36_000)
        cipher = self.seals.seal(ETYPE, KEY, model.TICKET_USAGE, bytes(16), part)
        self.ticket = der.ticket(SERVICE[0], der.name(1, *SERVICE[1]), der.encrypted(ETYPE, cipher, 3))

    def of(self, at):
        """The request of this microsecond."""
        if at not in self.made:
            seconds, micros = divmod(at, 1_000_000)
            shown = der.authenticator(CLIENT[0], der.name(1, *CLIENT[1]), micros, seconds)
            cipher = self.seals.seal(ETYPE, SESSION, model.AUTHENTICATOR_USAGE, at.to_bytes(16, "big"), shown)
            self.made[at] = der.request(0, self.ticket, der.encrypted(ETYPE, cipher))
        return self.made[at]


def keytab():
    entry = {"realm": SERVICE[0], "components": SERVICE[1], "name_type": 1, "timestamp": BASE, "kvno": 3,
             "etype": ETYPE, "key": KEY}
    return b"\x05\x02" + reference.record_of(entry)


def some_moments(draw, around, skew):
    """The service's clock about a second, and a client's, off by up to the skew or a microsecond more."""
    now = 1_000_000 * (around + draw.choice([0, 1, skew, skew, skew + 1, 2 * skew])) + draw.choice([0, 0, 1, 999_999])
    at = now + 1_000_000 * draw.choice([0, skew, -skew]) + draw.choice([0, 0, 0, 1, -1])
    return now, at


def life(draw, sent, around, skew):
    """The calls of one life, each the service's clock and the request's time. `sent` are the times of all requests
    before, and those of now."""
    calls = []
    for _ in range(draw.randint(1, 4)):
        now, at = some_moments(draw, around, skew)
        sent.append(at)
        calls.append((now, at))
    again = [(some_moments(draw, around, skew)[0], at) for at in sent]
    calls = [*calls, *again]
    draw.shuffle(calls)
    return calls


def world(draw):
    """The lives of a service: the start or None, the skew, and the calls."""
    lives, sent, skew, start, latest = [], [], draw.choice(SKEWS), None, None
    for number in range(draw.randint(2, LIVES)):
        if number:
            # the second after the latest moment, or that very moment if it is a whole second
            start = -(-latest // 1_000_000) + draw.choice([0, 0, 1, skew])
            skew = draw.choice([skew, skew, *(it for it in SKEWS if it > skew)])
        calls = life(draw, sent, BASE if start is None else start, skew)
        latest = max([now for now, _ in calls] + ([] if latest is None else [latest]))
        lives.append((start, skew, calls))
    return lives


def run_life(program, file, requests, start, skew, calls):
    """What the program answers to the calls of a life."""
    words = [program, "accept", file, "--skew", str(skew), *([] if start is None else ["--started", str(start)])]
    lines = "".join(f"{now // 1_000_000} {now % 1_000_000} {requests.of(at).hex()}\n" for now, at in calls)
    done = subprocess.run(words, input=lines, capture_output=True, text=True, timeout=SECONDS, check=False)
    return done.stdout.splitlines(keepends=True)


def fault_of(program, file, requests, lives, seen):
    """What is wrong in a world, or None; the answers are added to `seen`."""
    accepted = set()
    for start, skew, calls in lives:
        service = model.Service(requests.seals, file.read_bytes(), skew, start)
        wanted = [model.answered(service, requests.of(at), now) for now, at in calls]
        found = run_life(program, file, requests, start, skew, calls)
        if found != wanted:
            return f"started {start}, skew {skew}, calls {calls}: {found}, not {wanted}"
        for (_, at), answer in zip(calls, found):
            word = answer.split()[0 if answer.startswith("accepted") else 2]
            seen[word] = seen.get(word, 0) + 1
            if word == "accepted" and at in accepted:
                return f"the request of {at} is accepted again, in {lives}"
            if word == "accepted":
                accepted.add(at)
    return None


def row_fault(program, file, requests, started, calls):
    """What is wrong with the answers of a row, or None."""
    moments = [(1_000_000 * BASE + now, 1_000_000 * BASE + at) for now, at, _ in calls]
    found = run_life(program, file, requests, None if started is None else BASE + started, 300, moments)
    wanted = [it for _, _, it in calls]
    alike = len(found) == len(wanted) and all(one.startswith(other) for one, other in zip(found, wanted))
    return None if alike else f"{found}, not {wanted}"


@pytest.fixture(scope="module")
def requests():
    return Requests()


@pytest.fixture
def file(tmp_path):
    path = tmp_path / "k"
    path.write_bytes(keytab())
    return path


@pytest.mark.parametrize("started, calls", [pytest.param(*it[1:], id=slug(it[0])) for it in ROWS])
def test_a_start(program, requests, file, started, calls):
    wrong = row_fault(program, file, requests, started, calls)
    assert wrong is None


@pytest.mark.slow
@pytest.mark.parametrize("group", range(WORLDS // GROUP))
def test_worlds(program, requests, file, checks, group):
    """Each answer comes often."""
    draw, seen = random.Random(f"{SEED} {group}"), {}
    for number in range(GROUP):
        checks.add(f"world {number} of group {group}", fault_of(program, file, requests, world(draw), seen))
    rare = [it for it in ("accepted", "JustStarted", "Repeat", "Skew") if seen.get(it, 0) < GROUP]
    assert not rare, f"too rare: {rare} of {seen}"
