"""Clients that do what they should not, and one beside them whose answers are timed.

All are in processes of this test, over the hub's Unix socket. What is measured is how long the one beside waits for a reply, and how
much memory the hub has before and after.
"""
from __future__ import annotations

import os
import random
import socket
import statistics
import subprocess
import sys
import threading
import time
import unittest
from typing import Callable, List

from at_length import at_length
from hub_support import ENVIRONMENT, SECONDS, Hub, Lines, run_hub

from attrd_hub.status import asked

# By hand, on a free machine (ATTRD_HUB_TOLD=1): a reply takes at most so long, in seconds, and four times what was waited for without a
# fault; so many, or one in fifty, may come later. In the gate each has to come, since other work may go on beside it.
WAIT, LATE = 0.05, 5
CONNECTIONS = 10_000
# How long a fault may be under way, on a machine that is busy, in seconds.
PATIENCE = 10 * SECONDS
MEMORY_KIB = 48 << 10


def connected(path: str) -> socket.socket:
    """A connection."""
    stream = socket.socket(socket.AF_UNIX, socket.SOCK_STREAM)
    stream.connect(path)
    stream.settimeout(SECONDS)
    return stream


def send_what_goes(stream: socket.socket, data: bytes) -> None:
    """Sends as much as the other side takes at once."""
    stream.setblocking(False)
    try:
        while data:
            data = data[stream.send(data):]
    except OSError:
        pass


def many_connections(path: str) -> None:
    """Ten thousand, one after the other: a third says nothing, a third a half line, a third a line whose reply it doesn't wait for."""
    for number in range(CONNECTIONS):
        with connected(path) as stream:
            send_what_goes(stream, (b"", b"0 sho", b"0 show /\n")[number % 3])


def half_lines(path: str) -> None:
    """Two hundred at once, each in the middle of a line."""
    streams = [connected(path) for _ in range(200)]
    for stream in streams:
        send_what_goes(stream, b"7 show /Blo")
    for stream in streams:
        stream.close()


def long_lines(path: str) -> None:
    """Lines of ten megabytes."""
    for end in (b"\n", b""):
        with connected(path) as stream:
            for _ in range(160):
                stream.sendall(b"a" * 65_536)
            stream.sendall(end)
            if end:
                assert stream.recv(100) == b"? refused 1 syntax\n"


def no_readers(path: str) -> None:
    """Two hundred that send as much as goes, and read nothing."""
    streams = [connected(path) for _ in range(200)]
    for _ in range(5):
        for stream in streams:
            send_what_goes(stream, b"0 show /\n" * 20_000)
        time.sleep(0.05)
    for stream in streams:
        stream.close()


def closed_within(path: str) -> None:
    """A thousand that go away while their lines are answered."""
    for number in range(1_000):
        with connected(path) as stream:
            send_what_goes(stream, b"0 mark u /Block\n" + b"0 show /\n0 where u\n" * 50 + b"0 post /Block/Stmt:1/Expr value()\n" * 5)
            if number % 2:
                stream.settimeout(SECONDS)
                stream.recv(10)


def random_bytes(path: str) -> None:
    """Bytes by chance, among them newlines and beginnings of lines."""
    chance = random.Random(7)
    words = [b"0 ", b"0 show /", b"0 wait 1", b"\n", b"\r\n", b"0 at 0 ", b"999 mark u /", b" ", b"\0", b"\xff\xfe", b"0 post / "]
    for _ in range(200):
        with connected(path) as stream:
            send_what_goes(stream, b"".join(chance.choice([*words, bytes([chance.randrange(256)])]) for _ in range(2_000)))


FAULTS: "dict[str, Callable[[str], None]]" = {it.__name__: it for it in (
    many_connections, half_lines, long_lines, no_readers, closed_within, random_bytes)}


class Beside(threading.Thread):
    """A client that asks all the time, and how long it waits: `waits` in seconds. `fault` is what it got in place of a reply."""

    def __init__(self, client: Lines) -> None:
        super().__init__(daemon=True)
        self.client = client
        self.waits: List[float] = []
        self.is_over = threading.Event()
        self.fault: "str | None" = None

    def run(self) -> None:
        while self.fault is None:
            start = time.perf_counter()
            try:
                reply = self.client.ask("0 where u")
            except (OSError, EOFError) as fault:
                reply = repr(fault)
            self.waits.append(time.perf_counter() - start)
            if reply != "0 = /Block/Stmt:1":
                self.fault = reply
            if self.is_over.wait(0.002):
                return


class Faults(unittest.TestCase):
    hub: Hub

    @classmethod
    def setUpClass(cls) -> None:
        cls.hub = Hub("--sync", "second", "--half", str(SECONDS))

    @classmethod
    def tearDownClass(cls) -> None:
        cls.hub.close()

    def timed(self, act: Callable[[], None]) -> List[float]:
        """What a client beside waits for its replies meanwhile."""
        client = self.hub.client()
        self.assertRegex(client.ask("0 mark u /Block/Stmt:1"), " ok ")
        beside = Beside(client)
        beside.start()
        act()
        beside.is_over.set()
        beside.join()
        client.close()
        self.assertIsNone(beside.fault)
        return beside.waits

    def fault(self, name: str) -> None:
        """Has the fault made by another process, and looks at the waits beside it and at the memory."""
        free = self.timed(lambda: time.sleep(0.5))
        memory = asked(self.hub.socket)["hub_memory"]
        waits = self.timed(lambda: self.made(name))
        after = asked(self.hub.socket)["hub_memory"]
        told = (f"{name}: {len(waits)} replies, median {statistics.median(waits) * 1e3:.2f} ms, most {max(waits) * 1e3:.1f} ms "
                f"(without: {statistics.median(free) * 1e3:.2f} and {max(free) * 1e3:.1f} ms), memory {memory} to {after} KiB")
        if "ATTRD_HUB_TOLD" in os.environ:
            print(told, flush=True)
            self.assertLessEqual(sum(it > WAIT + 4 * max(free) for it in waits), max(LATE, len(waits) // 50), told)
            self.assertLess(statistics.median(waits), WAIT + 4 * max(free), told)
        self.assertIsInstance(after, int)
        self.assertLess(int(after or 0), MEMORY_KIB + int(memory or 0), told)

    def made(self, name: str) -> None:
        ended = subprocess.run([sys.executable, __file__, name, self.hub.socket], timeout=PATIENCE, check=False, capture_output=True,
                               text=True, env={**ENVIRONMENT, "PYTHONPATH": os.pathsep.join(sys.path)})
        self.assertEqual(ended.returncode, 0, ended.stderr)

    @at_length
    def test_many_connections(self) -> None:
        self.fault("many_connections")
        status, told = run_hub("--status", self.hub.socket)
        self.assertEqual(status, 0, told)

    def test_half_lines(self) -> None:
        self.fault("half_lines")

    def test_long_lines(self) -> None:
        self.fault("long_lines")

    def test_no_readers(self) -> None:
        self.fault("no_readers")

    @at_length
    def test_closed_within(self) -> None:
        self.fault("closed_within")

    def test_random_bytes(self) -> None:
        self.fault("random_bytes")


if __name__ == "__main__":
    FAULTS[sys.argv[1]](sys.argv[2])
