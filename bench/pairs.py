"""Compares two programs by runs in turn: how many times as long the other takes, and how far the pairs differ."""
from statistics import median
from typing import Callable, NamedTuple

PAIRS = 9
# A run is the least of so many short ones in turn, since the machine's pace changes from second to second.
SHORT = 5
# Pairs that differ by more than this part of the ratio say that the machine was too busy to tell.
BUSY = 1 / 3


class Compared(NamedTuple):
    """The least time of each side, the median of the pairs' ratios, and the least and the greatest of these."""

    ours: float
    theirs: float
    ratio: float
    least: float
    greatest: float

    @property
    def is_busy(self) -> bool:
        return self.greatest - self.least > BUSY * self.ratio

    @property
    def shown(self) -> str:
        """The ratio and its spread, for a table."""
        said = f"{self.ratio:.2f} ({self.least:.2f} to {self.greatest:.2f})"
        return f"{said}, too busy to tell" if self.is_busy else said


def of_pairs(runs: list[tuple[float, float]]) -> Compared:
    """Compares both sides by pairs of their times."""
    ratios = [there / here for here, there in runs]
    return Compared(min(it[0] for it in runs), min(it[1] for it in runs), median(ratios), min(ratios), max(ratios))


def paired(ours: Callable[[], float], theirs: Callable[[], float], short: int = SHORT) -> tuple[float, float]:
    """The least of some short runs of each side, in turn."""
    runs = [(ours(), theirs()) for _ in range(short)]
    return min(it[0] for it in runs), min(it[1] for it in runs)


def compared(ours: Callable[[], float], theirs: Callable[[], float], pairs: int = PAIRS,
             short: int = SHORT) -> Compared:
    """`ours` and `theirs` run a program once, and return the time that it took."""
    return of_pairs([paired(ours, theirs, short) for _ in range(pairs)])


def time_of(nanoseconds: float) -> str:
    """A time for a table, with two digits or more."""
    if nanoseconds < 1_000:
        return f"{nanoseconds:,.0f} ns"
    return f"{nanoseconds / 1_000:,.3g} µs" if nanoseconds < 100_000 else f"{nanoseconds / 1_000:,.0f} µs"
