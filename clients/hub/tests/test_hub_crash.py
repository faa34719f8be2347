"""`kill -9` of the hub, of the program and of both, at bytes of the journal: the tree afterwards is that of the accepted edits.

The hub runs in a child of the test's own process, so that one point takes some milliseconds. What it writes to the journal is
counted there, and at the byte of the point the kill comes: in the middle of a record, between two, before and behind a new term.
"""
from __future__ import annotations

import os
import signal
import socket
import tempfile
import unittest
from contextlib import contextmanager
from pathlib import Path
from typing import Iterator, List, Optional

from hub_support import SECONDS, calculator, program, until

import attrd_hub.journal
import attrd_hub.main
import attrd_hub.service
import attrd_hub.status

# How many points a run tries, spread over all bytes: with more, as 1,200, it takes minutes.
POINTS = int(os.environ.get("ATTRD_HUB_POINTS", "48"))
WHO = ("hub", "program", "both")
# A term is written anew behind so many edits.
RENEWED = 7
EDITS = ['token /Block/Stmt:0 ID "a"', "insert /Block Stmt 0 Block([])", "mark u /Block/Stmt:2", "token $u/Expr/Right Value 3",
         "insert /Block/Stmt:0 Stmt 0 Decl(\"é\",-)", "move $u to /Block/Stmt:0 Stmt 1", "token $u/Expr/Right Value 4",
         "drop /Block/Stmt:0/Stmt:0", 'set $u/Expr/Left Num(7)', "move $u to /Block Stmt 0", "drop /Block/Stmt:2/Init",
         "put /Block/Stmt:2 Init Num(1)",
         "drop /Block/Stmt:1", "token $u/Expr/Right Value 5", "drop $u", 'insert /Block Stmt 0 Decl("z",Num(9))',
         'token /Block/Stmt:0/Init Value 10', 'token /Block/Stmt:0/Init Value 11', 'set / Program(Block([]))']


class Point:
    """Counts the bytes of the journal, and kills when so many are written. A term is written anew behind `renewed` edits."""

    renewed = RENEWED

    def __init__(self, at: int, who: str) -> None:
        self.left, self.who = at, who
        self.service: Optional[attrd_hub.service.Service] = None

    def prepare(self) -> None:
        """Is called before the hub starts, in its process."""
        attrd_hub.journal.write_all = self.write_all

    def write_all(self, file: int, data: bytes) -> None:
        """In the place of the journal's own: writes up to the point, and kills there."""
        left, self.left = self.left, self.left - len(data)
        if 0 <= left < len(data):
            os.write(file, data[:left])
            self.kill()
            data = data[left:]
        while data:
            data = data[os.write(file, data):]

    def kill(self) -> None:
        """Kills whom the point names."""
        if self.who != "hub" and self.service is not None:
            os.kill(self.service.program.number, signal.SIGKILL)
        if self.who != "program":
            os.kill(os.getpid(), signal.SIGKILL)


@contextmanager
def child(folder: Path, point: Optional[Point]) -> Iterator[int]:
    """A hub in a child process, over the folder: the number of that process, when it listens, or 0 where it ended before that.

    It is killed at last, if it is still there."""
    ready, tell = os.pipe()
    number = os.fork()
    if number == 0:
        os.close(ready)
        try:
            run_child(folder, point, tell)
        finally:
            os._exit(70)
    os.close(tell)
    try:
        with os.fdopen(ready, "rb") as waiting:
            told = waiting.read(1)
        yield number if told else 0
    finally:
        # One that was killed is still there by number, until it is waited for.
        os.kill(number, signal.SIGKILL)
        os.waitpid(number, 0)


def run_child(folder: Path, point: Optional[Point], tell: int) -> None:
    """Serves, and ends the process."""
    os.dup2(os.open(folder / "log", os.O_WRONLY | os.O_CREAT | os.O_APPEND), 2)
    attrd_hub.service.JOURNAL_EDITS = RENEWED if point is None else point.renewed
    attrd_hub.service.TICK_SECONDS = 0.002
    attrd_hub.service.RESTART_SECONDS = 0.0
    # The machine doesn't crash here, so nothing has to be made safe; and the program's options and version are known.
    os.fsync = lambda file: None
    attrd_hub.main.known_options = lambda name: frozenset()
    attrd_hub.service.program_version = lambda name: attrd_hub.status.VERSION
    attrd_hub.service.notify = lambda state: os.close(tell) if state.startswith("READY") and os.write(tell, b"1") else None
    if point is not None:
        point.prepare()
        start = attrd_hub.service.Service._start

        def started(service: attrd_hub.service.Service) -> None:
            point.service = service
            start(service)
        attrd_hub.service.Service._start = started
    files = [str(folder / it) for it in ("calc.ast", "tree.txt", "calc.jrag")]
    words = ["--program", program(), "--socket", str(folder / "s"), "--state", str(folder / "state"), "--sync", "never", *files]
    os._exit(attrd_hub.main.main(words))


def replies(folder: Path, lines: List[str]) -> List[str]:
    """The replies to the lines, each awaited before the next one is sent, up to the end of the connection."""
    told: List[str] = []
    with socket.socket(socket.AF_UNIX, socket.SOCK_STREAM) as client:
        client.settimeout(SECONDS)
        try:
            client.connect(str(folder / "s"))
            with client.makefile("rb") as stream:
                for line in lines:
                    client.sendall(f"0 {line}\n".encode())
                    reply = stream.readline()
                    if not reply.endswith(b"\n"):
                        break
                    told.append(reply.decode().strip()[2:])
        except OSError:
            pass
    return told


def version_there(folder: Path) -> int:
    """What a hub tells that starts the program again: who connects before it has noticed that is turned away once."""
    return int(until(lambda: replies(folder, ["version"]), "a reply")[0][3:])


class Crash(unittest.TestCase):
    trees: List[str] = []
    length = 0

    @classmethod
    def setUpClass(cls) -> None:
        """The trees of all versions, and how many bytes the journal gets in a run that isn't killed."""
        with tempfile.TemporaryDirectory() as name:
            folder = Path(name)
            calculator(folder)
            lines = ["show /", *(it for edit in EDITS for it in (edit, "show /"))]
            with child(folder, None):
                told = replies(folder, lines)
        assert all(it.startswith("ok ") for it in told[1::2]), told
        shown = [told[0], *(told[at + 1] for at in range(1, len(told), 2) if lines[at].partition(" ")[0] != "mark")]
        assert len(shown) == len(EDITS), told
        cls.trees = shown
        cls.length = sum(map(len, EDITS)) + 14 * len(EDITS) + 2 * 40

    def run_point(self, at: int, who: str) -> int:
        """Kills at the byte, and looks at what is there after it: how many edits more it is than were told as accepted before."""
        with tempfile.TemporaryDirectory(prefix="attrd-hub-crash-") as name:
            folder = Path(name)
            calculator(folder)
            accepted = more = 0
            with child(folder, Point(at, who)) as hub:
                if hub:
                    told = replies(folder, EDITS)
                    accepted = max([int(it[3:]) for it in told if it.startswith("ok ")], default=0)
                if hub and who == "program":
                    more = version_there(folder) - accepted
                if hub:
                    os.kill(hub, signal.SIGKILL)
            with child(folder, None) as hub:
                self.assertTrue(hub, (folder / "log").read_text())
                told = replies(folder, ["version", "show /", "where u", "at 0 version"])
            version = int(told[0][3:])
            stale = f"refused 2 stale {version}" if version else "ok 0"
            self.assertEqual(told[1:], [self.trees[version], "refused 3 mark", stale])
            if who == "program":
                self.assertEqual(version, accepted + more)
            return version - accepted

    def test_kills_at_bytes_of_the_journal(self) -> None:
        more = 0
        for number in range(POINTS):
            at, who = number * self.length // POINTS, WHO[number % len(WHO)]
            found = self.run_point(at, who)
            self.assertIn(found, (0, 1), f"{who} at byte {at}")
            more += found
        self.assertLess(more, POINTS)


if __name__ == "__main__":
    unittest.main()
