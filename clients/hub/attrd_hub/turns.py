"""Whose lines go next: those of the client for which the program has worked least.

It is fair queueing by the program's time. A client's `charged` is how many seconds its lines have taken: each is charged what it is
expected to take when it goes, and what it took when it has its reply. Of the clients with lines, that one goes first whose line would be
over first, counted from what it is charged; `now` is where that was for the last one. So a quick line needn't wait for all long ones of
the others. Who comes back after a pause begins no further than a moment before `now`, and at `now` where nobody waits.

A line that may be long goes alone: when it goes no other one is under way, and none goes before it has its reply. So who comes meanwhile
waits for this one line at most, and how long it took is told exactly.
"""
from __future__ import annotations

import itertools
import math
from heapq import heappop, heappush
from typing import TYPE_CHECKING, List, Tuple

if TYPE_CHECKING:
    from .client import Client
    from .hub import Hub
    from .room import Room

# All times are seconds of the program. A line is charged what it takes beyond the one, but the other at least: so equal quick lines
# are charged equally, however exactly their time is known. A quick one is charged no more than that.
FREE, QUICK_COST = 1e-4, 5e-5
QUICK = FREE + QUICK_COST
# What a line is charged at most, however long it took.
MOST_CHARGED = 0.1
# What is expected of a client's first line, and what it may take: until its reply nobody knows.
NEW, NEW_LATEST = 1e-4, 5e-3
# The first lines of new clients are due so far from each other: else many that come at once would all go before who is there.
APART = 2e-5
# From so long on a line is a long one.
LONG = 5e-4
# Where lines take so much longer than they may, one was another one than those before it.
DOUBTED = 2e-3
# Lines that aren't quick are handed on together up to so many seconds.
TOGETHER = 2e-3
# Of what a client's lines took so much is expected of the next one.
DECAY = 0.75
# How far before the others a client begins that has had no line for a while.
CREDIT = 1e-2
# So long a reply the program makes in a second.
BYTES_A_SECOND = 1.6e8
Entry = Tuple[float, int, "Client"]


class Turns:
    """The clients with lines that wait. `waiting` is who could hand on a line, and none is handed on before `until` replies are there."""

    def __init__(self, room: "Room") -> None:
        self._room = room
        self.now = self._newest = self._earliest = 0.0
        self.waiting: List[Entry] = []
        self.until = 0
        self._number = itertools.count()

    def add(self, client: "Client") -> None:
        """The client has lines."""
        cost = client.cost if client.latest > QUICK_COST or self._room.has_long_tree else QUICK_COST
        if not self.waiting:
            # Nobody was held up: all begin anew.
            self._earliest = self.now
        if client.charged < 0.0:
            client.charged = self.now
            self._newest = max(self.now, self._newest + APART)
            cost += self._newest - self.now
        else:
            client.charged = max(client.charged, self._earliest, self.now - CREDIT)
        heappush(self.waiting, (client.charged + cost, next(self._number), client))

    def clear(self) -> None:
        """Nobody waits, and no line is under way."""
        self.waiting.clear()
        self.until = 0

    def serve(self, share: int, hub: "Hub") -> None:
        """Has the first client hand on its line, or some quick ones, at most so many."""
        entry = heappop(self.waiting)
        client = entry[2]
        if client.latest > QUICK_COST or self._room.has_long_tree:
            self._serve_slow(entry, share, hub)
            return
        # As below, with less to be done for each.
        before = hub.in_flight
        client.paid = client.weight = QUICK_COST
        is_ready = client.is_ready = client.supply(share)
        if entry[0] > self.now:
            self.now = entry[0]
        client.charged += QUICK_COST * (hub.in_flight - before or 1)
        if is_ready:
            heappush(self.waiting, (client.charged + QUICK_COST, next(self._number), client))

    def _serve_slow(self, entry: Entry, share: int, hub: "Hub") -> None:
        """As `serve`, for a client whose lines may not be quick."""
        client = entry[2]
        cost, most = client.cost, client.most_cost
        before = hub.in_flight
        if most >= LONG and before > hub.chores.under_way:
            # It is its turn, but others are under way. Behind these it is first: else each quick line that comes meanwhile, and is due
            # before it, would go alone, too.
            self.until = hub.answered + before
            self.now = max(self.now, entry[0])
            heappush(self.waiting, (-math.inf, entry[1], client))
            return
        client.paid, client.weight = cost, most
        client.is_ready = client.supply(share if most <= QUICK_COST else min(share, max(1, int(TOGETHER / most))))
        handed_on = hub.in_flight - before
        self.now = max(self.now, entry[0])
        client.charged += cost * max(1, handed_on)
        if most >= LONG and handed_on:
            self.until = hub.answered + hub.in_flight
        if client.is_ready:
            self.add(client)

    def charge(self, client: "Client", seconds: float, lines: int = 1) -> None:
        """So many lines of the client, whose replies came together, took so long each: that is charged in place of what was expected."""
        taken = min(MOST_CHARGED, max(QUICK_COST, seconds - FREE))
        # One line among others may have seemed slow, since the machine was: what its client's lines may take is charged at most.
        expected = min(taken, max(QUICK_COST, client.latest))
        # Whose lines take long now and then is known from lines that went alone.
        client.expected = max(expected, client.expected * DECAY) if client.weight >= LONG else expected
        # Of a new client nothing was known: its first line tells.
        client.latest = taken if client.is_new else max(taken, client.latest * DECAY)
        client.is_new, client.is_charged = False, True
        # Also of one that went alone no more than twice what it might take: the system may have had the processor meanwhile.
        more = lines * ((min(taken, 2.0 * client.weight) if client.weight >= LONG else client.expected) - client.paid)
        client.charged += more
        # What nobody has paid beforehand goes on for all who wait.
        self.now += max(0.0, more) / (len(self.waiting) + 1)

    def doubt(self, client: "Client") -> None:
        """It may have had a line that took long in place of a quick one: the next ones go alone, as that of a new client."""
        client.expected, client.latest = NEW, NEW_LATEST
        client.is_new, client.is_charged = False, True

    def settle(self, client: "Client") -> None:
        """The client has replies to lines, which were quick where nobody told another thing."""
        if client.is_charged:
            client.is_charged = False
            return
        client.expected, client.latest = (QUICK_COST, QUICK_COST) if client.is_new else (client.expected * DECAY, client.latest * DECAY)
        client.is_new = False
