"""Who is served when, over a program and a clock that are made here: equal questions have equal turns, however the machine is."""
from __future__ import annotations

import tempfile
import unittest
from pathlib import Path
from typing import Callable, Dict, List
from unittest import mock

from at_length import at_length
from simulated import Machine, Program, Simulation

from attrd_hub.journal import Journal
from attrd_hub.meter import Meter
from attrd_hub.room import Room
from attrd_hub.turns import CREDIT, DECAY, FREE, LONG, MOST_CHARGED, NEW, NEW_LATEST, QUICK, QUICK_COST, Turns

CLIENTS = 64
LINE = b"0 ask / slow()/x"
# How long a line takes: a quick one, one that is nearly so, and long ones.
COSTS = [QUICK, 2 * QUICK, 0.8 * LONG, 1e-3, 5e-3]


class ClockMeter(Meter):
    """Takes for a line's time what the clock says, whatever the machine did meanwhile."""

    def look(self, began: float, now: float, is_idle: bool = False) -> float:
        """The time between replies."""
        super().look(began, now, is_idle)
        return now - began


class Equal(unittest.TestCase):
    def ratio(self, cost: float, machine: Machine, ahead: int, lines: int) -> float:
        """Of clients with equal questions, so many of which each of them has sent ahead: how many replies the fastest one has for one
        of the slowest, when all have as many as said on average."""
        found = Simulation([LINE] * CLIENTS, lambda _: cost, machine, 1, ahead).run(lines * CLIENTS)
        return max(found.values()) / max(1, min(found.values()))

    def check(self, machine: Machine) -> None:
        for cost in COSTS:
            # Quick lines go together, many at once.
            lines = 200 if cost <= 2 * QUICK else 40
            for ahead in (1, 30):
                self.assertLess(self.ratio(cost, machine, ahead, lines), 2.0, (cost, ahead))

    def test_a_machine_without_other_work(self) -> None:
        self.check(Machine())

    @at_length
    def test_a_machine_with_other_work(self) -> None:
        """The program has less than a third of a processor."""
        self.check(Machine(share=0.3))

    @at_length
    def test_a_program_that_stops_at_random(self) -> None:
        """For a tenth of a second, once in a hundred lines."""
        self.check(Machine(stops=100))

    @at_length
    def test_a_hub_that_stops_at_random(self) -> None:
        self.check(Machine(lates=50))

    def test_a_hub_that_is_put_aside_for_the_program(self) -> None:
        """Then it has replies when it goes on, and their lines took no less for that."""
        for cost in (1e-3, 3e-3):
            self.assertLess(self.ratio(cost, Machine(asides=2), 1, 20), 2.0, cost)

    def test_clients_that_send_all_their_lines_at_once(self) -> None:
        for machine in (Machine(), Machine(share=0.3, stops=100)):
            self.assertLess(self.ratio(1e-3, machine, 240, 60), 2.0, machine)

    def test_all_of_it(self) -> None:
        self.check(Machine(noise=0.4, share=0.3, stops=100, lates=100, asides=10))

    def test_an_unfair_hub_is_found(self) -> None:
        """One that goes by the clock."""
        with mock.patch("simulated.Meter", ClockMeter):
            self.assertGreater(self.ratio(1e-3, Machine(stops=20), 30, 40), 2.0)


class Unequal(unittest.TestCase):
    def found(self, costs: List[float], lines: int) -> Dict[int, int]:
        """How many lines of each client were answered, of so many in all, where each line of a client takes so long, and one at a time."""
        def cost(line: bytes) -> float:
            return costs[int(line.rpartition(b":")[2])]
        return Simulation([LINE] * len(costs), cost, Machine(), 1, 1).run(lines)

    def test_a_quick_line_need_not_wait_for_all_long_ones(self) -> None:
        found = self.found([1e-4] + [4e-3] * 63, 2_000)
        self.assertGreater(found[0], 8 * max(found[it] for it in range(1, 64)), found)

    def test_long_lines_count_by_their_time(self) -> None:
        found = self.found([1e-3] * 8 + [4e-3] * 8, 2_000)
        quick, slow = sum(found[it] for it in range(8)), sum(found[it] for it in range(8, 16))
        self.assertTrue(2.5 < quick / slow < 6.0, found)


class Late(unittest.TestCase):
    """A hub that looks at replies late."""

    def setUp(self) -> None:
        self.simulation = Simulation([LINE] * 2, lambda _: 1e-5, Machine(noise=0.0), 1, 1)

    def send(self, client: int) -> None:
        """The client sends a line, which the hub reads."""
        self.simulation.streams[client].lines = self.simulation.lines[client]
        self.simulation.clients[client]._on_event(1)

    def answer(self, now: float) -> None:
        """The hub reads the replies that are there at this time."""
        self.simulation.loop.now = now
        self.simulation.program.until(now)
        self.simulation.service._on_output(0)

    def test_a_line_that_waits_for_the_end_of_a_turn_is_not_under_way(self) -> None:
        service, clients = self.simulation.service, self.simulation.clients
        for client, now in ((0, 0.1), (1, 0.2)):
            self.send(client)
            service._hand_on()
            self.answer(now)
            service._hand_on()
        self.send(0)
        service._hand_on()
        self.assertEqual([it.member.unanswered for it in clients], [1, 0])
        # While the hub stands still for five milliseconds there is a reply, and the other client sends a line.
        self.send(1)
        self.assertEqual([it.member.unanswered for it in clients], [1, 1])
        self.answer(0.205)
        self.assertEqual([it.member.unanswered for it in clients], [0, 1])
        self.assertEqual([it.latest for it in clients], [QUICK_COST, QUICK_COST])


class Edits(unittest.TestCase):
    """Quick edits, each client's one after the other, which are made safe before they are told; that takes two milliseconds each time."""

    EDIT = b"0 token /Block/Stmt:0 ID y"
    EDITS = 20

    def times_safe(self, machine: Machine) -> int:
        """How often edits are made safe until each client has had as many as said, on average."""
        simulation = Simulation([self.EDIT] * CLIENTS, lambda _: 1e-5, machine, 1, 1)

        def make_safe(_: int) -> None:
            simulation.held_up += 2e-3
        with tempfile.TemporaryDirectory() as folder:
            tree = Path(folder) / "tree.txt"
            tree.write_text("Program(-)\n")
            journal = simulation.service.journal = Journal(Path(folder) / "state", "each")
            journal.open(tree)
            with mock.patch("os.fdatasync", side_effect=make_safe) as safe:
                simulation.run(CLIENTS * self.EDITS)
            journal.close()
        return safe.call_count

    def test_those_of_many_clients_are_made_safe_together(self) -> None:
        """The first one of each client goes alone, and some go between two of these; of the others not even three times in a round."""
        for machine in (Machine(), Machine(share=0.3)):
            self.assertLess(self.times_safe(machine), 2 * CLIENTS + 3 * self.EDITS)


class Times(unittest.TestCase):
    def meter(self, times: Callable[[], "tuple[float, float]"]) -> Meter:
        return Meter(times)

    def test_what_others_had_of_the_processor_is_not_taken(self) -> None:
        ran, waited = 0.0, 0.0
        meter = self.meter(lambda: (ran, waited))
        ran, waited = 0.001, 0.02
        self.assertAlmostEqual(meter.look(0.0, 0.021), 0.001)

    def test_a_stop_counts_for_nobody(self) -> None:
        ran = 0.0
        meter = self.meter(lambda: (ran, 0.0))
        found = []
        for it in range(10):
            ran += 0.001
            found.append(meter.look(it * 0.1, (it + 1) * 0.1))
        for it in found:
            self.assertAlmostEqual(it, 0.001)

    def test_a_time_that_is_counted_at_ticks(self) -> None:
        """Each line takes half a millisecond, and the system's count is behind."""
        now = 0.0
        meter = self.meter(lambda: (now - now % 0.004, 0.0))
        for it in range(100):
            now = (it + 1) * 5e-4
            self.assertAlmostEqual(meter.look(it * 5e-4, now), 5e-4)


class Charges(unittest.TestCase):
    def setUp(self) -> None:
        self.turns = Turns(Room())

    def client(self, charged: float = 5.0, paid: float = QUICK_COST, latest: float = QUICK_COST) -> mock.Mock:
        """A client with lines under way, which take no longer than `latest` as far as one knows."""
        return mock.Mock(charged=charged, paid=paid, weight=latest, expected=QUICK_COST, latest=latest, cost=QUICK_COST, is_new=False,
                         is_charged=False)

    def test_a_line_is_charged_what_it_took(self) -> None:
        client = self.client(latest=0.02)
        self.turns.charge(client, 0.03 + FREE)
        self.assertAlmostEqual(client.charged, 5.03 - QUICK_COST)

    def test_who_paid_too_much_has_it_back(self) -> None:
        client = self.client(paid=0.04, latest=0.04)
        self.turns.charge(client, 0.01 + FREE)
        self.assertAlmostEqual(client.charged, 4.97)

    def test_a_line_that_takes_very_long_is_charged_less(self) -> None:
        client = self.client(latest=MOST_CHARGED)
        self.turns.charge(client, 20.0)
        self.assertAlmostEqual(client.charged, 5.0 + MOST_CHARGED - QUICK_COST)

    def test_a_line_that_seems_much_slower_than_it_might_be_is_charged_twice_that(self) -> None:
        client = self.client(latest=LONG)
        self.turns.charge(client, 0.03)
        self.assertAlmostEqual(client.charged, 5.0 + 2 * LONG - QUICK_COST)

    def test_one_line_among_others_that_seems_slow_is_not_charged(self) -> None:
        client = self.client()
        self.turns.charge(client, 0.01 + FREE)
        self.assertEqual((client.charged, client.expected), (5.0, QUICK_COST))
        self.assertAlmostEqual(client.latest, 0.01)
        self.turns.charge(client, 0.01 + FREE)
        self.assertAlmostEqual(client.charged, 5.01 - QUICK_COST)

    def test_quick_lines_are_believed_bit_by_bit(self) -> None:
        client = self.client(latest=0.01)
        self.turns.settle(client)
        self.assertEqual(client.latest, 0.01 * DECAY)

    def test_a_new_client_is_believed_at_once(self) -> None:
        client = self.client(latest=NEW_LATEST)
        client.is_new = True
        self.turns.settle(client)
        self.assertEqual((client.expected, client.latest, client.is_new), (QUICK_COST, QUICK_COST, False))

    def test_a_new_client_whose_first_line_was_quick_is_quick(self) -> None:
        """Also where that line went alone, as it does."""
        client = self.client(paid=NEW, latest=NEW_LATEST)
        client.is_new = True
        self.turns.charge(client, QUICK_COST)
        self.assertEqual((client.latest, client.is_new), (QUICK_COST, False))

    def test_who_may_have_had_a_slow_line_is_as_new(self) -> None:
        client = self.client()
        self.turns.doubt(client)
        # The replies that led to the doubt don't end it.
        self.turns.settle(client)
        self.assertEqual(client.latest, NEW_LATEST)

    def test_nobody_saves_up_time(self) -> None:
        first, late = self.client(charged=0.0), self.client(charged=0.0)
        self.turns.now = 1.0
        self.turns.add(first)
        # Where nobody waited all begin anew, and else a bit before the others.
        self.assertAlmostEqual(first.charged, 1.0)
        self.turns.now = 2.0
        self.turns.add(late)
        self.assertAlmostEqual(late.charged, 2.0 - CREDIT)

    def test_new_clients_that_come_at_once_are_due_one_behind_the_other(self) -> None:
        clients = [self.client(charged=-1.0, latest=NEW_LATEST) for _ in range(10)]
        for it in clients:
            self.turns.add(it)
        due = [it[0] for it in sorted(self.turns.waiting)]
        self.assertEqual(len(set(due)), 10)
        self.assertEqual({it.charged for it in clients}, {0.0})


class Simulated(unittest.TestCase):
    def test_the_program_s_time_is_counted_at_ticks_while_it_runs(self) -> None:
        program = Program(lambda _: 1e-3, Machine(noise=0.0), mock.Mock(uniform=lambda low, _: low, random=lambda: 1.0))
        program.send(b"0 x:1\n" * 20)
        found = []
        for it in range(20):
            program.until((it + 0.5) * 1e-3)
            found.append(round(program.times()[0], 4))
        self.assertEqual(sorted(set(found)), [0.0, 0.004, 0.008, 0.012, 0.016])
        program.until(1.0)
        self.assertAlmostEqual(program.times()[0], 0.02)


if __name__ == "__main__":
    unittest.main()
