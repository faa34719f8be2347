"""How many lines are under way: fewer where the program takes long for them, as many as before where only the machine is busy."""
from __future__ import annotations

import tempfile
import time
import unittest
from pathlib import Path
from typing import Callable, Tuple

from hub_support import calculator, program

from attrd_hub.meter import TICK
from attrd_hub.pace import ALONE, FIRST, LEAST, LONG, MOST, PAUSE, SHORT, Pace
from attrd_hub.program import Program


class Paces(unittest.TestCase):
    def setUp(self) -> None:
        self.taken = self.stood = self.now = 0.0
        self.times: Callable[[], Tuple[float, float]] = lambda: (self.taken, self.stood)
        self.pace = Pace(lambda: self.times())

    def batch(self, lines: int, taken: float, waited: float, stood: float = 0.0) -> None:
        """So many lines have their replies: the program took so many seconds of a processor for them, and they waited so many, for so
        many of which it waited for a processor."""
        self.now = max(self.now, self.pace.next)
        self.pace.begin(0, lines, self.now)
        self.taken += taken
        self.stood += stood
        self.now += waited
        self.pace.end(self.now, self.times())

    def grow(self) -> None:
        while self.pace.most < MOST:
            self.batch(self.pace.most, SHORT / 10, SHORT / 5)

    def test_quick_lines_are_more_and_more(self) -> None:
        for most in (FIRST, 4 * FIRST, 16 * FIRST, MOST, MOST):
            self.assertEqual(self.pace.most, most)
            self.batch(most, SHORT / 10, SHORT / 5)

    def test_a_busy_machine_makes_them_no_fewer(self) -> None:
        """Lines wait a second, nearly all of which others have the processor."""
        self.grow()
        for _ in range(10):
            self.batch(MOST, SHORT / 10, 1.0, 0.999)
        self.assertEqual(self.pace.most, MOST)

    def test_a_program_that_stands_still_makes_them_no_fewer(self) -> None:
        """The system doesn't tell that it waited, but that it ran for little."""
        self.grow()
        for _ in range(10):
            self.batch(MOST, SHORT / 10, 1.0)
        self.assertEqual(self.pace.most, MOST)

    def test_lines_for_which_the_system_has_counted_nothing_yet(self) -> None:
        """Their time is known by the clock, up to a tick."""
        self.batch(FIRST, 0.0, TICK / 2)
        self.assertEqual(self.pace.most, 4 * FIRST)
        self.batch(4 * FIRST, 0.0, TICK + LONG)
        self.assertGreater(self.pace.most, FIRST)

    def test_lines_of_the_same_time_come_to_rest(self) -> None:
        """Each takes a bit less than two milliseconds: about as many are under way as take the longer time, and not four times as many."""
        found = []
        for _ in range(50):
            lines = max(1, self.pace.most * 3 // 4)
            self.batch(lines, lines * 1.6e-3, lines * 1.6e-3)
            found.append(self.pace.most)
        self.assertLessEqual(max(found[2:]) * 1.6e-3, 1.5 * LONG, found)

    def test_lines_that_take_long_are_fewer_at_once(self) -> None:
        """Forty milliseconds for each, one at a time."""
        self.grow()
        self.batch(100, 4.0, 4.0)
        self.assertEqual(self.pace.most, LEAST)

    def test_a_program_whose_time_is_not_told_goes_by_the_clock(self) -> None:
        self.times = lambda: (self.now, 0.0)
        self.grow()
        self.batch(MOST, 0.0, 4 * LONG)
        self.assertLessEqual(self.pace.most, MOST // 2)

    def test_it_is_looked_at_now_and_then(self) -> None:
        self.batch(1, 0.0, 0.0)
        self.assertAlmostEqual(self.pace.next, PAUSE)

    def measured(self, lines: int, waited: float) -> bool:
        """Whether the program's times are of use for so many lines, which wait so long."""
        self.now = max(self.now, self.pace.next)
        self.pace.begin(0, lines, self.now)
        is_measuring = self.pace.is_measuring
        self.now += waited
        self.pace.end(self.now, self.times())
        return is_measuring

    def test_a_line_that_is_alone_is_measured_now_and_then(self) -> None:
        self.now = ALONE
        found = [self.measured(1, 0.0) for _ in range(int(ALONE / PAUSE) + 2)]
        self.assertEqual((found[:2], found.count(True)), ([True, False], 2), found)
        self.assertTrue(self.measured(2, 0.0))

    def test_behind_one_that_waited_long_the_next_one_is_measured(self) -> None:
        self.now = ALONE
        self.assertEqual([self.measured(1, it) for it in (0.0, 0.0, LONG, 0.0, 0.0)], [True, False, False, True, False])


class Times(unittest.TestCase):
    def test_seconds_of_the_program(self) -> None:
        with tempfile.TemporaryDirectory() as folder:
            start = time.monotonic()
            started = Program(program(), calculator(Path(folder)), [])
            started.replay([])
            taken, waited = started.times()
            # One thread takes no more than the clock, whatever else the machine does.
            self.assertTrue(0.0 < taken + waited <= time.monotonic() - start, (taken, waited))
            started.end()


if __name__ == "__main__":
    unittest.main()
