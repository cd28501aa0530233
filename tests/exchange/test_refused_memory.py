"""Calls of a service and of a memory, with memory refused, of the program of the crate krb_calls_exchange. (tests/c has
those of the library for C.)

Of each run one call for memory is refused, or two or three in a row, until a run meets none (tests/support/refuse.c).
A call of the library then answers out of memory and no other, and what follows is answered as if it had never been
made. A line that the program itself has no room to read or to show is answered `bad line`; its call was made, or it
wasn't.
"""
import os
import subprocess
from dataclasses import dataclass, replace

import pytest

from support import calls, exchange_made, preload
from support.exchange_made import Made, written
from support.preload import ALL

REFUSED = "OutOfMemory"
KEYTAB, NAMES = written("keytab"), f"{written('name 3 host/web@EX')} {written('name 1 alice@EX')}"
REQUESTS, STAMPS = ({it: make(Made(micros=it)).hex() for it in (5, 6)}
                    for make in (exchange_made.request, exchange_made.stamp))
# The lines, each as its first word and the microseconds of requests or of tuples.
LINES = [("service",), ("accept", 5), ("accept", 5), ("held",), ("serve", 5, 6, 6), ("held",), ("serve", 6), ("held",),
         ("memory",), ("remember", 5), ("contains", 5), ("remember", 6), ("contains", 6), ("remember", 5), ("len",)]


@dataclass(frozen=True)
class State:
    """What a service has seen, and its latest second; what is in a memory; or None if there is none."""

    seen: frozenset | None = None
    second: int | None = None
    kept: frozenset | None = None


def line_of(place, memory):
    """A line as the program reads it. Each is made a second after that before it."""
    call, *micros = LINES[place]
    second = 1_700_000_100 + place
    if call == "service":
        return f"service {memory} 300 {KEYTAB}"
    if call in ("accept", "serve"):
        return " ".join([call, *(f"{second} 5 {REQUESTS[it]}" for it in micros)])
    if call == "memory":
        return f"memory {memory}"
    return " ".join([call, *(f"{NAMES} 1700000100 {it}" for it in micros)])


def decided(state, micros, second):
    """The ways to answer a request, and the state after each."""
    said = "refused Repeat" if micros in state.seen else f"accepted {STAMPS[micros]}"
    yield said, replace(state, seen=state.seen | {micros}, second=second)
    yield f"refused {REFUSED}", state


def served(state, all_micros, second):
    ways = [([], state)]
    for micros in all_micros:
        ways = [([*said, more], after) for said, before in ways for more, after in decided(before, micros, second)]
    for said, after in ways:
        yield " | ".join([str(len(said)), *said]), after
    yield REFUSED, state


def told(state, place):
    """The ways to answer a line that is read and shown, and the state after each: first, if no memory is refused."""
    (call, *micros), second = LINES[place], 1_700_000_100 + place
    if call == "service":
        yield "service", replace(state, seen=frozenset(), second=None)
    elif call == "memory":
        yield "memory", replace(state, kept=frozenset())
    elif (state.seen if call in ("accept", "serve", "held") else state.kept) is None:
        return
    elif call == "accept":
        yield from decided(state, *micros, second)
    elif call == "serve":
        yield from served(state, micros, second)
    elif call == "held":
        yield f"{len(state.seen)} " + ("none" if state.second is None else f"{state.second} 5"), state
    elif call == "remember":
        yield "ok", replace(state, kept=state.kept | set(micros))
        yield REFUSED, state
    else:
        yield str(len(state.kept)) if call == "len" else str(micros[0] in state.kept).lower(), state


def ways(state, place):
    """All ways to answer a line, and the state after each."""
    for said, after in told(state, place):
        yield said, after
        yield "bad line", after
    yield "bad line", state


def right_answers():
    """What is answered if no memory is refused."""
    state = State()
    for place in range(len(LINES)):
        said, state = next(told(state, place))
        yield said


def wrong_with(found):
    """What is wrong with the answers of a run, or None."""
    states = {State()}
    for place, answer in enumerate(found):
        states = {after for it in states for said, after in ways(it, place) if said == answer}
        if not states:
            return f"{LINES[place]} is answered {answer[:200]}"
    return None


def run(text, **more):
    done = subprocess.run([calls.built("krb_calls_exchange")], input=text, env={**os.environ, **more},
                          capture_output=True, timeout=preload.SECONDS)
    return done.returncode, done.stdout.decode().splitlines()


@pytest.mark.parametrize("count", [1, 2, 3])
@pytest.mark.parametrize("memory", ["list", "timed"])
def test_refused_memory(tmp_path, memory, count):
    text = "".join(f"{line_of(place, memory)}\n" for place in range(len(LINES))).encode()
    preloaded, met, right, most = preload.library(tmp_path, "refuse"), set(), list(right_answers()), 0
    for number in range(1, ALL):
        refused = tmp_path / "refused"
        refused.unlink(missing_ok=True)
        which = {**preload.numbers(number, False, refused), "CALL_LAST": str(number + count - 1)}
        status, found = run(text, LD_PRELOAD=str(preloaded), **which)
        if not refused.exists():
            break
        assert status in (0, 2) and (status == 2 or len(found) == len(LINES)), f"status {status}, call {number}"
        wrong = wrong_with(found)
        assert wrong is None, f"call {number} is refused: {wrong}"
        met |= {LINES[place][0] for place, it in enumerate(found) if REFUSED in it}
        most = max(most, *(it.count(REFUSED) for it in found), 0)
    assert (status, found) == (0, right)
    # (If what follows a refused call is refused memory too, a line of one call can't be shown.)
    assert most == count and met >= ({"accept", "serve", "remember"} if count == 1 else {"serve"})
