"""Tallies of times, and the times of one owner, in lists of calls that fill several buckets, against a sorted list."""
import random
from bisect import bisect_left, insort

import pytest

from support import calls

PROGRAM = "krb_calls_exchange"
LEAST, GREATEST = -2**63, 2**63 - 1
# How many calls a drawn list has, and how near its times are.
DRAWN = [(20, 5), (400, 30), (4_000, 4), (4_000, 900), (12_000, 2**33), (12_000, 10**6)]


class Model:
    """The times in order, and what the calls so far answered."""

    def __init__(self, times=()):
        self.times, self.words, self.answers = sorted(times), [], []

    def call(self, word, time=None, answer=None):
        self.words += [word] if time is None else [word, str(time)]
        if answer is not None:
            self.answers.append(str(answer))

    def number_since(self, oldest):
        return len(self.times) - bisect_left(self.times, oldest)

    def has(self, time):
        at = bisect_left(self.times, time)
        return at < len(self.times) and self.times[at] == time

    def drop(self, time):
        del self.times[bisect_left(self.times, time)]

    def add(self, time):
        insort(self.times, time)
        self.call("add", time)

    def since(self, oldest):
        self.call("since", oldest, self.number_since(oldest))

    def count(self):
        self.call("len", answer=len(self.times))


class Tally(Model):
    name = "tally"

    def look(self, time):
        self.call("has", time, "true" if self.has(time) else "false")

    def ends(self):
        for word, place in ("first", 0), ("last", -1):
            self.call(word, answer=self.times[place] if self.times else "none")

    def pop(self):
        self.call("pop", answer=self.times.pop(0) if self.times else "none")

    def remove(self, time):
        self.call("remove", time, time if self.has(time) else "none")
        if self.has(time):
            self.drop(time)


class Times(Model):
    """These are never none: the last one stays."""

    def __init__(self, first):
        super().__init__([first])
        self.name = f"times {first}"

    def remove(self, time):
        removed = self.has(time) and len(self.times) > 1
        self.call("remove", time, "true" if removed else "false")
        if removed:
            self.drop(time)


def out_of_order(tally):
    """Buckets are split, and each time is found then."""
    for it in range(4_000):
        tally.add(it * 7 % 4_000)
    tally.ends()
    for it in range(4_001):
        tally.since(it)
        tally.look(it)


def falling(tally):
    """All go into the first bucket."""
    for it in reversed(range(4_000)):
        tally.add(it)
    tally.since(600)


def as_memory_frees(tally):
    """Each was added twice, and is looked for three times."""
    for it in range(3_000):
        tally.add(it)
        tally.add(it)
    for it in [it // 3 for it in range(6_000)] + [-1, 2_999]:
        tally.remove(it)
    for it in LEAST, 2_999, GREATEST:
        tally.since(it)


def one_time_often(tally):
    """It is in several buckets."""
    tally.ends()
    for _ in range(2_400):
        tally.add(7)
    for it in 7, 8:
        tally.since(it)
    for _ in range(2_401):
        tally.look(7)
        tally.remove(7)
    tally.ends()


def first_of_all(tally):
    for it in range(2_600):
        tally.add(it * 3 % 2_600)
    for _ in range(2_601):
        tally.pop()
    tally.ends()


def of_one_owner(times):
    """One time, a few, more than a bucket takes, one, and a few again."""
    for it in range(1, 3_000):
        times.add(it * 7 % 3_000)
        times.count()
    for it in range(3_000):
        times.since(it)
    for it in [it // 2 for it in range(2, 6_000)] + [0]:
        times.remove(it)
    times.count()
    times.add(7)
    times.since(7)


def drawn(model, number, spread):
    """As many calls of each kind as come: first more times than go, then fewer."""
    draw = random.Random(f"{model.name} {number} {spread}")
    for it in range(number):
        time = draw.choice([LEAST, GREATEST]) if draw.random() < 0.01 else draw.randrange(-spread, spread)
        grows = draw.random() < (0.75 if it < number / 2 else 0.25)
        if grows:
            model.add(time)
        else:
            # (one that is there, or was drawn anew)
            model.remove(draw.choice(model.times) if model.times and draw.random() < 0.9 else time)
        if it % 10 == 0:
            model.since(time)
            model.count()
            if isinstance(model, Tally):
                model.look(time)
                model.ends()
                if it % 50 == 0:
                    model.pop()


def check(model):
    """Makes the calls in one line."""
    (_, answer), status, errors = calls.given_to(PROGRAM, [("", ["new", " ".join([model.name, *model.words])], None)])
    assert (status, errors) == (0, b"") and answer.split(" ") == model.answers


@pytest.mark.parametrize("made", [out_of_order, falling, as_memory_frees, one_time_often, first_of_all])
def test_tally(made):
    tally = Tally()
    made(tally)
    tally.count()
    check(tally)


def test_times():
    times = Times(0)
    of_one_owner(times)
    check(times)


@pytest.mark.parametrize("pair", [(5, 7), (7, 5), (7, 7), (0, 2**32), (0, 2**32 - 1), (LEAST, GREATEST)], ids=str)
def test_two_times(pair):
    """Near each other in either order, the same, and too far apart to be kept as one."""
    one, other = pair
    times = Times(one)
    times.add(other)
    times.count()
    times.since(one)
    times.remove(one)
    times.since(other)
    times.remove(other)
    check(times)


@pytest.mark.parametrize("number, spread", DRAWN)
@pytest.mark.parametrize("kind", ["tally", "times"])
def test_drawn(kind, number, spread):
    model = Tally() if kind == "tally" else Times(0)
    drawn(model, number, spread)
    check(model)
