"""Processes of a service that share a store: examples/shared.py and examples/service/service.c, over each store.

Each request, which a client of MIT krb5 has made, is delivered to four processes at the same time, in random order: it
is let in exactly once. Meanwhile processes are killed and started again, or the store is: then none is let in twice,
and none while the store is down. A store that doesn't answer in time lets nobody in, nor does a process that gets the
answer too late. With the file of another boot, nothing that was let in before is let in again. The environment variable
STORES_REQUESTS says how many requests there are in each phase: 2,000 is the whole, and less a share of it. They are
made and delivered in portions, so that none grows too old on a slow machine.
"""
import contextlib
import itertools
import os
import random
import signal
import threading
import time
from collections import Counter
from concurrent.futures import ThreadPoolExecutor

import pytest

from support import TESTS, TOP, c_programs, store_servers
from support.instances import (
    ACCEPTED, BATCH, EARLY, PYTHON, REPEAT, SERVICE, STORE, Instance, Served, fresh_requests, once_it_answers,
    real_requests)
from support.patience import least_seconds

pytestmark = [pytest.mark.packages, pytest.mark.slow]
# How many requests there are in each phase, and at most how many in a portion.
REQUESTS, PORTION = int(os.environ.get("STORES_REQUESTS", "240")), 240
# How often each process is killed in the second phase, or once in each portion.
KILLS = 4
# How long a process waits for the store while both run on a busy machine, and where that is tested; how long a portion
# may take, whose requests are refused after 300 seconds; and how long a process that is started again, which on a
# machine that does nothing else takes less than a second. (A pause after the start would take 300.)
PATIENT, IMPATIENT, SECONDS, STARTING = 300, 1, 250, 20
SKEW = ("refused", "SKEW")
# Runs a program over the package whose boot is named by a file.
WITH_BOOT = """
import runpy, sys
from pathlib import Path
from fevstunik.stores import _place
_place.BOOT = Path(sys.argv[1])
sys.argv = sys.argv[2:]
runpy.run_path(sys.argv[0], run_name="__main__")
"""


class Delivery:
    """Requests that every instance gets once: what came of each, and over which an instance was killed. The order is
    random, and each instance has one of its own. Those of a half are near to each other, so that these instances meet
    at the store.

    kills   how often each instance is killed, in the midst of its work
    midway  what is called once, when all instances are in the midst of their work: they wait for each other before
    """

    def __init__(self, rng, instances, requests, kills=0, midway=None):
        self.requests, self.midway, self.together = requests, midway, threading.Barrier(len(instances))
        self.answers, self.killed_over, self.lock = [[] for _ in requests], set(), threading.Lock()
        self.count = Counter()
        order = rng.sample(range(len(requests)), len(requests))
        near = [[order[at] for at in sorted(range(len(order)), key=lambda it: it + rng.uniform(0, 10))]
                for _ in instances]
        half = len(instances) // 2
        near[half:] = [[*it[len(it) // 2:], *it[:len(it) // 2]] for it in near[half:]]
        works = [(one, it, set(rng.sample(range(len(order) // BATCH), kills)), rng.randrange(BATCH)) for one,
                 it in zip(instances, near)]
        watch = threading.Timer(SECONDS, lambda: [one.kill() for one in instances])
        watch.start()
        try:
            with ThreadPoolExecutor(len(works)) as pool:
                list(pool.map(lambda it: self.deliver(*it), works))
        finally:
            watch.cancel()

    def deliver(self, one, order, killed_at, before):
        for number in itertools.count():
            if not order:
                return
            batch, order = order[:BATCH], order[BATCH:]
            is_midway = len(order) < len(self.requests) // 2 <= len(order) + len(batch)
            if self.midway and is_midway:
                self.together.wait(SECONDS)
            one.send(self.requests[at] for at in batch)
            if number in killed_at:
                answers = one.killed(len(batch), min(before, len(batch)))
                left = [at for at, answer in zip(batch, answers) if answer is None]
                self.killed_over.update(left[:one.at_once])
                order = left + order
            else:
                if is_midway:
                    self.meet()
                answers = one.answers(len(batch))
                if None in answers:
                    raise OSError("an instance ended, or had no time")
            self.note((at, answer) for at, answer in zip(batch, answers) if answer)

    def lost(self):
        """Which weren't let in."""
        return {at for at, each in enumerate(self.answers) if ACCEPTED not in each}

    def meet(self):
        with self.lock:
            called, self.midway = self.midway, None
        if called:
            called()

    def note(self, found):
        with self.lock:
            for at, answer in found:
                self.answers[at].append(answer)
                self.count[answer] += 1


def portions(requests):
    return [requests[at:at + PORTION] for at in range(0, len(requests), PORTION)]


def is_it(found, wanted):
    return None if found == wanted else f"{found!r}, not {wanted!r}"


class Phases:
    """What happens to instances over a store; each phase gives checks.

    cache  from which a client makes requests
    """

    def __init__(self, store, instances, cache):
        self.rng, self.store, self.instances, self.cache = random.Random(4120), store, instances, cache
        # How often each request was let in so far; and of those that were refused while the store was down, the last.
        self.let_in, self.down = Counter(), []

    def new(self, count):
        """Portions of requests, each of which is made when it is needed."""
        for at in range(0, count, PORTION):
            yield real_requests(self.cache, min(PORTION, count - at))

    def delivered(self, requests, **more):
        found = Delivery(self.rng, self.instances, requests, **more)
        self.let_in.update({request: answers.count(ACCEPTED) for request, answers in zip(requests, found.answers)})
        return found

    def none_twice(self):
        twice = [request for request, count in self.let_in.items() if count > 1]
        return f"{len(twice)} are, of {len(self.let_in)}" if twice else None

    def each_once(self, count):
        """What comes of so many new requests."""
        found = sum((self.delivered(it).count for it in self.new(count)), Counter())
        return is_it(found, Counter({ACCEPTED: count, REPEAT: count * (len(self.instances) - 1)}))

    def once(self):
        what = f"{REQUESTS} requests to {len(self.instances)} instances"
        yield f"{what}: each is let in exactly once", self.each_once(REQUESTS)

    def instances_killed(self):
        kills = max(1, KILLS * PORTION // REQUESTS)
        found = [self.delivered(it, kills=kills) for it in self.new(REQUESTS)]
        # (if this process gets no processor, an instance may have done all its work when it is killed)
        while not any(it.killed_over for it in found) and len(found) < 10 * REQUESTS / PORTION:
            found += [self.delivered(it, kills=1) for it in self.new(min(REQUESTS, PORTION))]
        yield "while instances are killed, none is let in twice", self.none_twice()
        lost = {at for each in found for at in each.lost() - each.killed_over}
        yield "each is let in, unless an instance was killed over it", is_it(lost, set())
        yield "all else is a repeat", is_it({answer for each in found for answer in each.count}, {ACCEPTED, REPEAT})
        yield "instances were killed in their work", None if any(it.killed_over for it in found) else "none was"

    def store_killed(self):
        found = []
        for requests in self.new(REQUESTS // 2):
            if found:
                self.store.start()
            found.append(self.delivered(requests, midway=self.store.kill))
        yield "while the store is killed, none is let in twice", self.none_twice()
        yield "the store was killed in its work", is_it(
            {answer for each in found for answer in each.count}, {ACCEPTED, REPEAT, STORE})
        count, refused = REQUESTS // 4, Counter()
        for requests in self.new(count):
            refused += self.delivered(requests).count
            self.down = requests
        wanted = Counter({STORE: count * len(self.instances)})
        yield "while the store is down, none is let in", is_it(refused, wanted)
        self.store.start()
        yield "each is let in exactly once when the store is back", self.each_once(min(count, PORTION))

    def all_again(self):
        """Instances that have forgotten all get what they got before: first what isn't old yet."""
        self.start_again()
        let_in = [request for request, count in self.let_in.items() if count]
        self.delivered(self.down)
        for it in portions(self.rng.sample(let_in, min(len(let_in), 4 * PORTION))):
            self.delivered(it)
        yield "what was let in before isn't let in again by instances that have forgotten it", self.none_twice()
        down = Counter(self.let_in[it] for it in self.down)
        yield "what wasn't let in because the store was down is let in once", is_it(down, Counter({1: len(self.down)}))
        yield "each new one is let in exactly once", self.each_once(REQUESTS // 4)

    def another_boot(self):
        """The machine is started again, and what was written before a power failure may be lost."""
        older = portions(list(self.let_in))
        last = real_requests(self.cache, REQUESTS // 4)
        self.delivered(last)
        for one in self.instances:
            one.kill()
        self.store.boot()
        self.start_again()
        refused = Counter({EARLY: len(last) * len(self.instances)})
        yield "after another boot, what may have been let in before it is refused", is_it(
            self.delivered(last).count, refused)
        found = {answer for it in older for answer in self.delivered(it).count}
        yield "so is what is older", is_it(found - {EARLY, SKEW}, set())
        self.store.age()
        self.start_again()
        yield "after the pause, each is let in exactly once", self.each_once(REQUESTS)

    def start_again(self):
        for one in self.instances:
            one.close()
            one.start()


def in_time(store, instance, requests):
    """A store that is stopped after an instance has connected to it."""
    yield "an instance that has started", is_it(once_it_answers(instance, requests, starts=True), ACCEPTED)
    for when in ("at first", "later"):
        given, found = [next(requests) for _ in range(10)], []
        store.signalled(signal.SIGSTOP)
        took = least_seconds(lambda: found.append(instance.asked(given.pop())), IMPATIENT + 10)
        store.signalled(signal.SIGCONT)
        yield f"a store that doesn't answer, {when}", is_it(set(found), {STORE})
        yield "the refusal comes in time", None if IMPATIENT - 0.1 < took < IMPATIENT + 10 else f"after {took} seconds"
        yield f"a store that answers again, {when}", is_it(once_it_answers(instance, requests), ACCEPTED)


def too_late(store, instance, ahead, request):
    """While the store is stopped, the time passes in which the request could be accepted."""
    store.signalled(signal.SIGSTOP)
    instance.send([request])
    time.sleep(0.5)
    ahead.write_text("302")
    store.signalled(signal.SIGCONT)
    found, = instance.answers(1)
    yield "an answer that comes too late", None if found in (STORE, SKEW, EARLY) else f"{found!r}"


def started_again(instance, requests):
    """How long it takes until a process that was killed lets a new request in."""
    given, found = [next(requests) for _ in range(10)], []

    def start_again():
        instance.start()
        found.append(instance.asked(given.pop()))
        instance.kill()
        instance.close()

    instance.close()
    took = least_seconds(start_again, STARTING)
    yield "a process that is started again lets a new request in", is_it(set(found), {ACCEPTED})
    print(f"started again, and a request let in: {took:.2f} seconds")
    yield "and at once", None if took < STARTING else f"after {took} seconds"


def over(store, kinds, folder, library):
    """`kinds` has a function for each instance, which starts it over a store, for which it waits so long."""
    store.start()
    store.age()
    started, ahead = [], folder / f"ahead-{store.folder.name}"

    def instance(kind, wait, **more):
        started.append(kind(folder, store, wait, FEVSTUNIK_LIBRARY=str(library), **more))
        return started[-1]

    try:
        phases = Phases(store, [instance(it, PATIENT) for it in kinds], folder / "cache")
        is_a_file = isinstance(store, store_servers.InAFile)
        more = [phases.another_boot] if is_a_file else [phases.store_killed, phases.all_again]
        for checks in (phases.once, phases.instances_killed, *more):
            yield from checks()
        for kind in dict.fromkeys(kinds):
            given = fresh_requests(folder / "cache")
            yield from started_again(instance(kind, PATIENT), given)
            if is_a_file:
                continue
            yield from in_time(store, instance(kind, IMPATIENT), given)
            ahead.write_text("0")
            late = instance(kind, PATIENT, LD_PRELOAD=str(folder / "clock.so"), CLOCK_FILE=str(ahead))
            yield "an instance with another clock", is_it(late.asked(next(given)), ACCEPTED)
            yield from too_late(store, late, ahead, next(given))
    finally:
        for it in started:
            it.close()


# ---------------------------------------------------------------- tests


@pytest.fixture(scope="module")
def folder(library, service_in_c, tmp_path_factory):
    """A folder with another clock, the service in C, and a cache that has a ticket for host/web@EX that is valid
    now."""
    made = tmp_path_factory.mktemp("stores")
    c_programs.well(c_programs.run("gcc", "-shared", "-fPIC", *c_programs.STRICT[:3], TESTS / "support/clock.c", "-o",
                                   made / "clock.so"))
    (made / "service").symlink_to(service_in_c)
    (made / "cache").write_bytes(c_programs.current_cache(int(time.time()) - 60))
    return made


def in_python(folder, store, wait, **more):
    boot = ["-c", WITH_BOOT, store.boot_file] if isinstance(store, store_servers.InAFile) else []
    return Instance([PYTHON, "-B", *boot, TOP / "examples/shared.py", *SERVICE, store.where, "--wait", wait], **more)


def in_c(folder, store, wait, **more):
    return Served([folder / "service", *SERVICE, store.in_c, wait], **store.env, **more)


ALL_IN_PYTHON, ALL_IN_C, OF_BOTH = [in_python] * 4, [in_c] * 4, [in_c, in_c, in_python, in_python]


@pytest.mark.parametrize("kind, kinds", [
    (store_servers.OfRecords, ALL_IN_PYTHON),
    (store_servers.OfSQLite, ALL_IN_PYTHON), (store_servers.OfSQLite, ALL_IN_C), (store_servers.OfSQLite, OF_BOTH),
    (store_servers.Redis, ALL_IN_C), (store_servers.Redis, OF_BOTH), (store_servers.Postgres, ALL_IN_PYTHON)],
    ids=["File-Python", "SQLite-Python", "SQLite-C", "SQLite-both", "Redis-C", "Redis-both", "PostgreSQL-Python"])
def test_four_processes(folder, library, checks, kind, kinds):
    with contextlib.closing(kind()) as store:
        checks.all(over(store, kinds, folder, library))
