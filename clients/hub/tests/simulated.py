"""A hub over a program, clients and a clock that are made here: what it does depends on no machine, and on no time of one."""
from __future__ import annotations

import random
from collections import deque
from dataclasses import dataclass
from typing import Callable, Deque, Dict, List, Optional, Set, Tuple
from unittest import mock

from attrd_hub.client import Client
from attrd_hub.meter import Meter
from attrd_hub.pace import Pace
from attrd_hub.service import Service
from attrd_hub.settings import Settings


@dataclass
class Machine:
    """How the machine is: which part of a processor the program has, in slices, and how often something stops, for how long.

    `noise` is by how much the time of a line differs. `stops` are how many lines lie between two stops of the program, `lates` how many
    turns of the hub between two stops of it, both on average, and each is `pause` seconds long. `asides` are how often it hands lines on
    until the program has the hub's processor for a slice, as soon as it has them.
    """

    noise: float = 0.2
    share: float = 1.0
    stops: int = 0
    lates: int = 0
    asides: int = 0
    pause: float = 0.1


# How long others have the processor, where they have it in turns with the program.
SLICE = 4e-3
# How far the ticks are apart at which the system counts the time of what runs.
TICK = 4e-3
# What the hub takes for a turn, and for a line, in seconds.
TURN, LINE = 2e-5, 5e-6


class Program:
    """Answers lines, each of which takes as long as `cost` tells. `order` has the clients' numbers in the order of their lines."""

    input = output = number = -1

    def __init__(self, cost: Callable[[bytes], float], machine: Machine, chance: random.Random) -> None:
        self.unsent = bytearray()
        self.order: List[int] = []
        self._cost, self._machine, self._chance = cost, machine, chance
        self._lines: Deque[Tuple[float, bytes]] = deque()
        self._done: List[bytes] = []
        self.now = self._free = self._ran = self._waited = self._counted = self._since = 0.0
        self._next: Optional[Tuple[float, float, float]] = None
        self._version = 0
        self.on_lines: Callable[[], None] = lambda: None

    def send(self, data: bytes) -> None:
        """Takes lines."""
        self._lines.extend((self.now, it) for it in data.splitlines())
        self.on_lines()

    def _begin(self) -> Tuple[float, float, float]:
        """When the next line is answered, for how long it runs, and for how long it waits for a processor."""
        came, line = self._lines[0]
        runs = self._cost(line) * self._chance.uniform(1.0 - self._machine.noise, 1.0 + self._machine.noise)
        # In each slice that it has, it is put aside once, for as long as others have theirs.
        waits = 0.0
        if self._machine.share < 1.0 and self._chance.random() < runs / SLICE:
            waits = SLICE * (1.0 / self._machine.share - 1.0)
        stops = self._machine.pause if self._machine.stops and self._chance.random() < 1.0 / self._machine.stops else 0.0
        return max(self._free, came) + runs + waits + stops, runs, waits

    def _reply(self, line: bytes) -> bytes:
        """An edit is accepted, and of a question the client's number is the answer."""
        if line.startswith(b"0 token "):
            self._version += 1
            return b"0 ok %d\n" % self._version
        return b"0 = %b\n" % line.rsplit(b":", 1)[1]

    def until(self, now: float) -> None:
        """Goes on up to this time."""
        self.now = now
        while self._lines:
            self._next = self._next or self._begin()
            end, runs, waits = self._next
            if end > now:
                return
            self._ran, self._waited = self._ran + runs, self._waited + waits
            _, line = self._lines.popleft()
            self.order.append(int(line.rsplit(b":", 1)[1]))
            self._done.append(self._reply(line))
            self._free, self._next = end, None
            if end - self._since >= TICK:
                self._since, self._counted = end - end % TICK, self._ran

    @property
    def next(self) -> Optional[float]:
        """When it has a reply that hasn't been read, or will have one."""
        if self._done:
            return self.now
        if self._lines:
            self._next = self._next or self._begin()
            return self._next[0]
        return None

    def times(self) -> Tuple[float, float]:
        """As the system tells them: while it runs, its time is that of the last tick."""
        return self._counted if self._lines else self._ran, self._waited

    def read(self) -> Optional[bytes]:
        """The replies."""
        done, self._done = b"".join(self._done), []
        return done or None


class Loop:
    """In the place of a loop: it waits for nothing."""

    def __init__(self) -> None:
        self.now = 0.0

    def watch(self, *_: object) -> None:
        """Nothing comes by itself."""

    change = forget = watch

    def is_watched(self, _: int) -> bool:
        """Each stream is there."""
        return True


class Stream:
    """A client's connection: `lines` are those that it has sent, and `replies` counts what it has had, at which its number goes into
    `due`."""

    def __init__(self, number: int, due: Set[int]) -> None:
        self.number, self.due = number, due
        self.lines = b""
        self.replies = 0

    def fileno(self) -> int:
        """Its number."""
        return self.number

    def setblocking(self, _: bool) -> None:
        """It never waits."""

    def getsockopt(self, *_: int) -> bytes:
        """Nobody knows who it is."""
        raise OSError

    def recv(self, most: int) -> bytes:
        """What it has sent."""
        if not self.lines:
            raise BlockingIOError
        data, self.lines = self.lines[:most], self.lines[most:]
        return data

    def send(self, data: bytes) -> int:
        """Takes replies."""
        self.replies += bytes(data).count(b"\n")
        self.due.add(self.number)
        return len(data)


class Simulation:
    """A service with so many clients, each of which sends this line again and again: some at once, and one more for each reply."""

    def __init__(self, lines: List[bytes], cost: Callable[[bytes], float], machine: Machine, seed: int, ahead: int = 30) -> None:
        self.chance = random.Random(seed)
        self.machine = machine
        self.service = Service(Settings("", [], [], ""))
        self.service.loop.close()
        self.loop = self.service.loop = Loop()  # type: ignore[assignment]
        self.service.clock = lambda: self.loop.now + self.held_up
        self.program = Program(cost, machine, self.chance)
        self.service.program = self.program  # type: ignore[assignment]
        self.service.pace, self.service.meter = Pace(self.program.times), Meter(self.program.times)
        # Who may have lines to send: all clients at first, and then those that had replies.
        self.due = set(range(len(lines)))
        self.streams = [Stream(it, self.due) for it in range(len(lines))]
        self.lines = [b"%b:%d\n" % (line, it) for it, line in enumerate(lines)]
        with mock.patch("attrd_hub.client.peer_of", return_value=None):
            self.clients = [Client(self.service, it) for it in self.streams]  # type: ignore[arg-type]
        self.sent: Dict[int, int] = dict.fromkeys(range(len(lines)), 0)
        self.ahead = ahead
        # For how long the hub is held up in its turn, beside its own work.
        self.held_up = 0.0
        self.program.on_lines = self._put_aside

    def _put_aside(self) -> None:
        """The program has lines: now and then it has the hub's processor for them."""
        if self.machine.asides and self.chance.random() < 1.0 / self.machine.asides:
            self.held_up += SLICE

    def _send(self) -> None:
        """Has each client send what it has to: so many lines are ahead of its replies. Who had none since the last time has nothing to."""
        due = sorted(self.due)
        self.due.clear()
        for it in due:
            stream = self.streams[it]
            missing = stream.replies + self.ahead - self.sent[it]
            if missing > 0:
                stream.lines += self.lines[it] * missing
                self.sent[it] += missing
                self.clients[it]._on_event(1)

    def run(self, lines: int) -> Dict[int, int]:
        """Goes on until so many lines are answered; how many of them each client had."""
        now, program, service = 0.0, self.program, self.service
        while len(program.order) < lines:
            program.until(now)
            self.loop.now = now
            before = service.hub.answered
            if program.next is not None and program.next <= now:
                service._on_output(0)
            self._send()
            service._hand_on()
            now += TURN + LINE * (service.hub.answered - before) + self.held_up
            self.held_up = 0.0
            if self.machine.lates and self.chance.random() < 1.0 / self.machine.lates:
                now += self.machine.pause
            if not service.ready.waiting or not service.has_room():
                now = max(now, program.next or now)
        return {it: program.order[:lines].count(it) for it in self.sent}
