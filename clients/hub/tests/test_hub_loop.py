"""How the hub waits: it looks before it sleeps where that pays, keeps off nobody, and takes no time when there is nothing to do."""
from __future__ import annotations

import itertools
import signal
import statistics
import threading
import time
import unittest
from pathlib import Path
from typing import List, Tuple
from unittest import mock

from hub_support import Hub, Lines

from attrd_hub.loop import AT_ONCE, LATE, LOOK, MOST_PAUSE, READ, REST, Loop
from attrd_hub.service import Service
from attrd_hub.settings import Settings

IDLE_SECONDS = 2.0


def processor_seconds(process: int) -> float:
    """How long a process has run so far."""
    return int(Path(f"/proc/{process}/schedstat").read_text().split()[0]) / 1e9


class Streams:
    """In the place of a loop's epoll: `ready` is what the next calls find, and `asked` for how long each one would have waited."""

    def __init__(self, loop: Loop) -> None:
        self.asked: List[float] = []
        self.ready: List[Tuple[int, int]] = []
        loop._poll = self.poll  # type: ignore[assignment, method-assign]

    def poll(self, seconds: float, most: int) -> List[Tuple[int, int]]:
        """What is ready."""
        assert most == AT_ONCE
        self.asked.append(seconds)
        return self.ready


class Looking(unittest.TestCase):
    def loop(self, processors: int = 4) -> Tuple[Loop, Streams]:
        with mock.patch("os.sched_getaffinity", return_value=set(range(processors))):
            loop = Loop()
        self.addCleanup(loop.close)
        return loop, Streams(loop)

    def steady(self, loop: Loop) -> None:
        """Gives the loop a clock by which no look comes late, however busy the machine is: behind a late one it would rest."""
        ticks = itertools.count(loop.now, LOOK / 2)
        patched = mock.patch("attrd_hub.loop.monotonic", side_effect=lambda: next(ticks))
        patched.start()
        self.addCleanup(patched.stop)

    def test_what_is_found_at_once_needs_no_sleep(self) -> None:
        loop, streams = self.loop()
        self.steady(loop)
        streams.ready = [(99, READ)]
        for is_due in (True, False, True):
            loop.turn(0.5, is_due)
        self.assertEqual(streams.asked, [0.0] * 3)

    def test_who_finds_nothing_looks_ever_more_seldom(self) -> None:
        loop, streams = self.loop()
        self.steady(loop)
        found = []
        for _ in range(4 * MOST_PAUSE):
            streams.asked.clear()
            loop.turn(0.5, True)
            self.assertEqual(streams.asked[-1], 0.5)
            self.assertEqual(set(streams.asked[:-1]) - {0.0}, set())
            found.append(len(streams.asked) > 1)
        looked = [it for it, was in enumerate(found) if was]
        self.assertEqual([later - it for it, later in zip(looked, looked[1:])], [2, 4, 8, 16, 32, 64, 128, 256, 256])
        # Waits of the other kind are judged by themselves.
        streams.asked.clear()
        loop.turn(0.5, False)
        self.assertGreater(len(streams.asked), 1)

    def test_what_is_found_later_brings_the_looking_back(self) -> None:
        loop, streams = self.loop()
        self.steady(loop)
        for _ in range(7):
            loop.turn(0.5, True)
        streams.ready, streams.asked = [(99, READ)], []
        for _ in range(12):
            loop.turn(0.5, True)
        self.assertEqual(streams.asked, [0.5] * 7 + [0.0] * 5)

    def test_it_looks_for_a_moment(self) -> None:
        loop, streams = self.loop()
        start = time.monotonic()
        loop.turn(0.5)
        self.assertGreaterEqual(time.monotonic() - start, LOOK)
        self.assertEqual((streams.asked[0], streams.asked[-1]), (0.0, 0.5))

    def test_it_looks_more_than_once(self) -> None:
        loop, streams = self.loop()
        self.steady(loop)
        loop.turn(0.5)
        self.assertEqual((set(streams.asked[:-1]), streams.asked[-1]), ({0.0}, 0.5))
        self.assertGreaterEqual(len(streams.asked), 3)

    def test_who_was_put_aside_while_looking_rests(self) -> None:
        loop, streams = self.loop()
        streams.ready = [(99, READ)]
        with mock.patch("attrd_hub.loop.monotonic") as clock:
            clock.side_effect = [100.0, 100.0 + LOOK + 2 * LATE]
            loop.turn(0.5)
            for later, asked in ((REST / 2, 0.5), (REST / 2 + LATE, 0.5), (REST + 3 * LATE, 0.5), (REST + 4 * LATE, 0.0)):
                streams.asked, clock.side_effect = [], lambda later=later: 100.0 + later
                loop.turn(0.5)
                self.assertEqual(streams.asked, [asked], later)

    def test_on_one_processor_it_never_looks(self) -> None:
        loop, streams = self.loop(processors=1)
        for streams.ready in ([], [(99, READ)]):
            loop.turn(0.5, True)
            loop.turn(0.5)
        self.assertEqual(streams.asked, [0.5] * 4)

    def test_a_turn_without_waiting(self) -> None:
        loop, streams = self.loop()
        loop.turn(0.0)
        self.assertEqual(streams.asked, [0.0])


class Quick(threading.Thread):
    """A client that sends its next line as soon as it has a reply; `replies` counts these."""

    def __init__(self, client: Lines) -> None:
        super().__init__(daemon=True)
        self.client = client
        self.replies = 0
        self.is_over = False

    def run(self) -> None:
        while not self.is_over:
            self.client.ask("0 show /Block/Stmt:0")
            self.replies += 1


class Beside(unittest.TestCase):
    hub: Hub

    @classmethod
    def setUpClass(cls) -> None:
        cls.hub = Hub("--sync", "never")

    @classmethod
    def tearDownClass(cls) -> None:
        cls.hub.close()

    def test_a_client_beside_quick_ones(self) -> None:
        quick = [Quick(self.hub.client()) for _ in range(4)]
        client = self.hub.client()
        client.ask("0 mark u /Block/Stmt:1")
        for it in quick:
            it.start()
        waits = []
        for number in range(200):
            before = sum(it.replies for it in quick)
            self.assertEqual(client.ask("0 where u"), "0 = /Block/Stmt:1")
            waits.append(sum(it.replies for it in quick) - before)
            time.sleep(0.001 * (number % 2))
        for it in quick:
            it.is_over = True
        for it in quick:
            it.join()
            it.client.close()
        client.close()
        # Replies that the others get, while it waits for one: it is a few, whatever else the machine has to do.
        self.assertLess(statistics.median(waits), 40, waits)

    def test_no_more_lines_go_to_the_program_behind_a_signal(self) -> None:
        service = Service(Settings("", [], [], ""))
        self.addCleanup(service.loop.close)
        service.program = mock.Mock(unsent=b"")
        self.assertTrue(service.has_room())
        service._on_signal(signal.SIGTERM, None)
        self.assertFalse(service.has_room())

    def test_a_hub_without_lines_takes_no_time(self) -> None:
        with self.hub.client().stream as quiet:
            client = self.hub.client()
            for _ in range(500):
                client.ask("0 show /Block/Stmt:0")
            # What else the machine does only adds to that, so one time of three is enough.
            is_idle = any(self.taken() < IDLE_SECONDS / 100 for _ in range(3))
            client.close()
            self.assertIsNotNone(quiet)
        self.assertTrue(is_idle)

    def taken(self) -> float:
        """How many seconds the hub runs in a time in which no line comes."""
        before = processor_seconds(self.hub.process.pid)
        time.sleep(IDLE_SECONDS)
        return processor_seconds(self.hub.process.pid) - before


if __name__ == "__main__":
    unittest.main()
