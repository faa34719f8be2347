"""How many lines may be under way to the program, so that a client's line waits for few of the others.

How long lines wait is told by the time in which the program runs (see `meter`): on a machine with other work all lines wait long, however
few they are, and few lines at a time would only take more of the hub's time for each.
"""
from __future__ import annotations

import math
import sys
from typing import Callable

from .meter import TICK, Times

# More lines may be under way while they are answered in the one time, and fewer where it takes the other, in seconds.
SHORT, LONG = 0.005, 0.010
LEAST, FIRST, MOST = 4, 64, 4_096
# What one client hands on before it is the next one's turn, where several have lines.
TURN = 256
# From one time that is taken to the next one, in seconds: few lines have the work of it.
PAUSE = 0.001
# So long the program's times aren't looked at for a line that is under way alone, and for which nobody waits.
ALONE = 0.005


class Pace:
    """Follows how long lines wait: `most` may be under way, which is less where they wait long, and else more, as far as so many are.

    Whoever sends lines calls `begin` from the time `next` on; whoever has replies, `end` when `until` lines have them. Where `is_measuring`
    the program's times are of use.
    """

    def __init__(self, times: Callable[[], Times]) -> None:
        """`times` are those of the program."""
        self.most = FIRST
        self.next = 0.0
        self.until = sys.maxsize
        self.is_measuring = False
        self._since = self._measured = 0.0
        self._lines = 0
        self._times = times
        # How long the program had run and waited at the beginning.
        self._ran = self._stood = 0.0

    def share(self, clients: int) -> int:
        """How many lines a client may hand on at once, where so many have some."""
        return self.most if clients <= 1 else max(1, min(TURN, self.most // clients))

    def begin(self, answered: int, in_flight: int, now: float) -> None:
        """Lines were handed on: so many are under way, behind so many that have replies since the start."""
        self.until, self._lines, self._since, self.next = answered + in_flight, in_flight, now, math.inf
        self.is_measuring = in_flight > 1 or now >= self._measured + ALONE
        if self.is_measuring:
            self._measured = now
            self._ran, self._stood = self._times()

    def end(self, now: float, times: Times) -> None:
        """They have their replies by now; `times` are those of the program then, where these are of use."""
        waited = now - self._since
        self.until, self.next = sys.maxsize, now + PAUSE
        if self.is_measuring:
            self.is_measuring = False
            ran, stood = times
            waited = min(waited - (stood - self._stood), ran - self._ran + TICK)
        elif waited >= SHORT:
            # By the clock alone nobody knows whether the program took long: the next line tells.
            self._measured = -math.inf
            return
        if waited > LONG:
            self.most = min(self.most, max(LEAST, min(self.most // 2, int(self._lines * SHORT / waited))))
        elif waited < SHORT and 2 * self._lines >= self.most:
            # So many that they take the longer time, where these took nearly the shorter one: else the next ones would be too many.
            self.most = min(MOST, self.most * 4, max(self.most, int(self._lines * LONG / max(waited, 1e-9))))
        elif waited < SHORT and 8 * self._lines < self.most:
            # What wasn't made use of isn't known to be quick.
            self.most = max(FIRST, self.most // 2)
