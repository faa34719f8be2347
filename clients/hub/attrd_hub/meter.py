"""How long the program took for lines: a time in which it ran, so that nobody pays for what the machine does else, or for its pauses.

The clock says when replies come, and exactly so; but the program may have waited for a processor, or been stopped, meanwhile. The system
tells how long it waited, and how long it ran, which is behind by a tick at most while it runs, and right when it doesn't. So lines take
the time between replies without the wait, as long as the program may have run for all that they took; else it stood still meanwhile,
and they take what the system tells.
"""
from __future__ import annotations

from time import monotonic
from typing import Callable, Tuple

# Replies that come no later than this, in seconds, needn't be looked at: their lines were quick.
QUICK = 2e-4
# While a process runs, the system counts its time at ticks alone, which are so many seconds apart on most machines, and by so many late.
TICK, LATE = 4e-3, 2e-3
# How many seconds a process ran, and how many it waited for a processor.
Times = Tuple[float, float]


def clock() -> Times:
    """The times of what always runs."""
    return monotonic(), 0.0


class Meter:
    """Looks at the program's times where replies didn't come at once, and now and then even where they did, so that the time of quick lines
    isn't taken for that of a line behind them. `times` are what it saw last."""

    def __init__(self, times: Callable[[], Times]) -> None:
        """`times` tells those of the program."""
        self._times = times
        self.times = times()
        # What it ran more than lines took; less than nothing where the system's count is behind.
        self._left = 0.0

    def mark(self) -> None:
        """The program doesn't run, and is about to: what it ran up to now isn't told any more."""
        self.times = self._times()
        self._left = 0.0

    def look(self, began: float, now: float, is_idle: bool = False) -> float:
        """How many seconds the program took for replies that are there now.

        `began` is when the replies before them came, or where none was due, when their lines went to the program. `is_idle` tells that
        no line is under way any more: then the program doesn't run, and the system's count is right.
        """
        (ran_before, waited_before), self.times = self.times, self._times()
        ran, waited = self.times
        left = self._left + ran - ran_before
        taken = max(0.0, now - began - (waited - waited_before))
        if taken > left + (0.0 if is_idle else TICK + LATE):
            taken = max(0.0, left)
        # What is left is of quick lines, which take no part.
        self._left = min(left - taken, 0.0)
        return taken
