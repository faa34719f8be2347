"""No edit whose `ok` a client has read is missing behind a restart, wherever the hub is killed or its disk is full.

Among the clients are slow readers: the hub waits until it can write to them, and that it can is told to it in the same moment as the
reply to their edit. The hub runs in a child of the test's own process, where what it writes to the journal is counted and takes some
milliseconds, as on a slow disk. At the point it is killed, or the write fails.

    ATTRD_HUB_POINTS=1000 python3 clients/run_tests.py PROGRAM test_hub_lost

tries so many points, which takes minutes.
"""
from __future__ import annotations

import errno
import os
import random
import re
import select
import signal
import socket
import subprocess
import tempfile
import threading
import time
import unittest
from contextlib import contextmanager
from pathlib import Path
from typing import Any, Dict, Iterator, Optional
from unittest import mock

from hub_support import SECONDS, calculator
from test_hub_crash import Point, child, replies

import attrd_hub.service
from attrd_hub.client import Client
from attrd_hub.loop import READ, WRITE, Loop
from attrd_hub.records import head, read_journal
from attrd_hub.room import Room
from attrd_hub.service import Service
from attrd_hub.settings import Settings
from attrd_hub.turns import Turns

POINTS = int(os.environ.get("ATTRD_HUB_POINTS", "16"))
# So many clients have so many edits each, behind so many questions each, whose replies have so many bytes.
READERS, EDITS, QUESTIONS, REPLY = 8, 40, 2, 1_000
# The lines that the hub writes at its first start: the term, its check sum, and the head of the journal.
FIRST = 3
# How late the hub looks at its streams, in seconds.
LATE = 0.001
# How long a write takes, in seconds; the hub's buffer for a client, in bytes.
SLOW, BUFFER = 0.002, 16_384


class SlowDisk(Point):
    """A disk on which each write takes its time. Behind so many records it is full, or the hub is killed; with none it never is."""

    renewed = 1 << 30

    def __init__(self, records: Optional[int], chance: random.Random, is_killed: bool = False) -> None:
        super().__init__(-1, "hub")
        self.records, self.chance, self.is_killed = records, chance, is_killed

    def prepare(self) -> None:
        """Also gives the hub small buffers for its clients, which are full often, and lets it look at its streams as on a busy machine."""
        super().prepare()
        attrd_hub.service.Client = self.client
        turn = Loop.turn

        def late(loop: Loop, *words: Any) -> None:
            time.sleep(LATE)
            turn(loop, *words)
        Loop.turn = late

    def client(self, service: Service, stream: socket.socket, *words: Any, **named: Any) -> Client:
        """In the place of the class."""
        stream.setsockopt(socket.SOL_SOCKET, socket.SO_SNDBUF, BUFFER)
        return Client(service, stream, *words, **named)

    def write_all(self, file: int, data: bytes) -> None:
        time.sleep(SLOW)
        records = data.count(b"\n")
        if self.records is not None:
            if self.records < records:
                fits = b"".join(data.splitlines(keepends=True)[:self.records])
                os.write(file, data[:len(fits) + self.chance.randrange(10)])
                if self.is_killed:
                    self.kill()
                raise OSError(errno.ENOSPC, os.strerror(errno.ENOSPC))
            self.records -= records
        while data:
            data = data[os.write(file, data):]


class Reader:
    """A client that edits without waiting, and reads more slowly than that. `told` are the edits with an `ok`, by version."""

    def __init__(self, path: str, number: int, length: int) -> None:
        self.rest = b""
        self.told: Dict[int, bytes] = {}
        self.commands = [b'token /Block/Stmt:%d ID "n%d_%d%b"' % (number, number, it, b"x" * length) for it in range(EDITS)]
        self.is_over = False
        self.stream = socket.socket(socket.AF_UNIX, socket.SOCK_STREAM)
        self.stream.settimeout(SECONDS)
        try:
            self.stream.connect(path)
        except OSError:
            # It is killed by now.
            self.is_over = True

    def send(self) -> None:
        """Sends its edits, each behind questions."""
        asked = b"0 ask /Block/Stmt:%d name()\n" % READERS * QUESTIONS
        try:
            self.stream.sendall(b"".join(b"%b0 %b\n" % (asked, it) for it in self.commands))
        except OSError:
            self.is_over = True

    def read(self) -> None:
        """Reads what is there, or the end."""
        try:
            data = self.stream.recv(1 << 18)
        except OSError:
            data = b""
        self.is_over = not data
        *lines, self.rest = (self.rest + data).split(b"\n")
        for line in lines:
            if line.startswith(b"0 ok "):
                self.told[int(line[5:])] = self.commands[len(self.told)]
        if len(self.told) == EDITS:
            self.is_over = True


# A declaration for each client, and one for questions.
TERM = "Program(Block([%s]))\n" % ",".join(['Decl("y",-)'] * READERS + [f'Decl("{"x" * REPLY}",-)'])


@contextmanager
def tmpfs(folder: Path) -> Iterator[bool]:
    """A file system of 96 KiB at the folder; whether it could be made."""
    folder.mkdir()
    made = subprocess.run(["mount", "-t", "tmpfs", "-o", "size=96k", "tmpfs", str(folder)], capture_output=True, check=False)
    try:
        yield made.returncode == 0
    finally:
        if made.returncode == 0:
            subprocess.run(["umount", "-l", str(folder)], check=False)


class Lost(unittest.TestCase):
    def setUp(self) -> None:
        folder = tempfile.TemporaryDirectory(prefix="attrd-hub-lost-")
        self.addCleanup(folder.cleanup)
        self.top = Path(folder.name)

    def folder(self, number: int) -> Path:
        folder = self.top / str(number)
        folder.mkdir()
        calculator(folder)
        (folder / "tree.txt").write_text(TERM)
        with open(folder / "calc.jrag", "a", encoding="ascii") as aspects:
            aspects.write('aspect Names { syn String Stmt.name() = ""; eq Decl.name() = getID(); }\n')
        return folder

    def edited(self, folder: Path, chance: random.Random, length: int = 0) -> Dict[int, bytes]:
        """Has readers edit, up to the end of the hub or of their edits: the edits whose `ok` was read."""
        readers = [Reader(str(folder / "s"), it, length) for it in range(READERS)]
        for reader in readers:
            reader.send()
        while True:
            left = {it.stream: it for it in readers if not it.is_over}
            if not left:
                break
            ready, _, _ = select.select(left, [], [], SECONDS)
            self.assertTrue(ready, "no reply comes")
            left[chance.choice(ready)].read()
            time.sleep(chance.random() * SLOW / 2)
        told: Dict[int, bytes] = {}
        for it in readers:
            told.update(it.told)
            it.stream.close()
        return told

    def none_is_missing(self, folder: Path, told: Dict[int, bytes]) -> None:
        """Each of them stands in the journal, and the hub begins behind it."""
        found = read_journal((folder / "state" / "journal-0").read_bytes(), 0)
        missing = [it for it, command in told.items() if command not in found.commands[it - 1:it]]
        self.assertEqual(missing, [], f"{len(told)} were told, {len(found.commands)} are there")
        # What is told at the end, where it wasn't killed, is there at the next start; of edits without a reply more may be there.
        for version in re.findall(r"the service ends at version (\d+)", (folder / "log").read_text()):
            self.assertTrue(max(told, default=0) <= int(version) <= len(found.commands), (version, len(found.commands)))
        with child(folder, None) as hub:
            self.assertTrue(hub, (folder / "log").read_text())
            self.assertEqual(replies(folder, ["version"]), [f"ok {len(found.commands)}"])

    def test_a_disk_that_is_full_at_each_record(self) -> None:
        chance = random.Random(7)
        told = 0
        for number in range(POINTS // 2):
            folder = self.folder(number)
            with child(folder, SlowDisk(self.records(number), chance)) as hub:
                self.assertTrue(hub, (folder / "log").read_text())
                edits = self.edited(folder, chance)
            self.none_is_missing(folder, edits)
            told += len(edits)
        self.assertGreater(told, POINTS // 2)

    def records(self, number: int) -> int:
        """Behind how many records this point is."""
        return FIRST + (number * READERS * EDITS // (POINTS // 2) if POINTS < READERS * EDITS else number % (READERS * EDITS))

    def test_a_kill_at_a_random_moment(self) -> None:
        chance = random.Random(11)
        told = 0
        for number in range(POINTS // 2):
            folder = self.folder(number)
            # Each second one is killed in a write, the others at any moment.
            with child(folder, SlowDisk(self.records(number) if number % 2 else None, chance, True)) as hub:
                self.assertTrue(hub, (folder / "log").read_text())
                killing = threading.Timer(0.01 + chance.random() * 0.15, os.kill, (hub, signal.SIGKILL))
                if number % 2 == 0:
                    killing.start()
                edits = self.edited(folder, chance)
                if number % 2 == 0:
                    killing.join()
            self.none_is_missing(folder, edits)
            told += len(edits)
        self.assertGreater(told, POINTS // 2)

    def test_write_errors_of_a_small_file_system(self) -> None:
        chance = random.Random(13)
        for number in range(max(3, POINTS // 8)):
            folder = self.folder(number)
            with tmpfs(folder / "state") as is_made:
                if not is_made:
                    self.skipTest("no file system can be mounted here")
                # What the hub writes at its start is there, and of the rest all but the end of a page is taken.
                (folder / "state" / "tree-0.txt").write_text(TERM)
                (folder / "state" / "journal-0").write_bytes(head(0))
                ballast = folder / "state" / "ballast"
                self.fill(ballast)
                with child(folder, SlowDisk(None, chance)) as hub:
                    self.assertTrue(hub, (folder / "log").read_text())
                    edits = self.edited(folder, chance, 200 + 31 * number % 900)
                ballast.unlink()
                self.none_is_missing(folder, edits)

    def fill(self, path: Path) -> None:
        """Takes all that is left."""
        with open(path, "wb", buffering=0) as file:
            try:
                while file.write(b"x" * 4_096):
                    pass
            except OSError as fault:
                self.assertEqual(fault.errno, errno.ENOSPC)


class Answers:
    """In the place of a program: it takes all lines, and its replies are those that the test gives it."""

    def __init__(self) -> None:
        self.unsent = bytearray()
        self.replies = b""

    def send(self, _: bytes) -> bool:
        """Takes lines. Whether there is a rest."""
        return False

    def read(self) -> Optional[bytes]:
        """What the test has it reply."""
        return self.replies or None


def had(stream: socket.socket) -> bytes:
    """What has come at the other end of a connection."""
    try:
        return stream.recv(1_000)
    except BlockingIOError:
        return b""


class Order(unittest.TestCase):
    """What a writable event may send, and what a reply of the program."""

    def setUp(self) -> None:
        self.service = Service(Settings("", [], [], ""))
        self.addCleanup(self.service.loop.close)
        self.program = self.service.program = Answers()  # type: ignore[assignment]
        pairs = [socket.socketpair() for _ in range(2)]
        for it in (end for pair in pairs for end in pair):
            it.setblocking(False)
            self.addCleanup(it.close)
        self.theirs = [theirs for _, theirs in pairs]
        self.clients = [Client(self.service, ours) for ours, _ in pairs]
        for it in (0, 1):
            # The first line tells that those of this client are quick.
            self.asked(it, b"0 where u\n")
            self.answered(b"0 = /Block\n")
            self.assertEqual(had(self.theirs[it]), b"0 = /Block\n")

    def asked(self, client: int, line: bytes) -> None:
        """This client sends the line, which goes to the program."""
        self.theirs[client].send(line)
        self.clients[client]._on_event(READ)
        self.service._hand_on()

    def answered(self, replies: bytes) -> None:
        """The program replies so."""
        self.program.replies = replies
        self.service._on_output(0)
        self.service._hand_on()

    def test_a_reply_behind_an_edit_waits_for_the_journal(self) -> None:
        journal = self.service.journal = mock.Mock(pending=[])
        journal.append.side_effect = lambda *it: journal.pending.append(it)

        def commit() -> None:
            self.assertEqual([had(it) for it in self.theirs], [b"", b""])
            journal.pending.clear()

        journal.commit.side_effect = commit
        self.asked(0, b"0 drop /Block/Stmt:0\n")
        self.asked(1, b"0 where u\n")
        self.answered(b"0 ok 1\n0 = /Block\n")
        journal.commit.assert_called_once()
        self.assertEqual([had(it) for it in self.theirs], [b"0 ok 1\n", b"0 = /Block\n"])

    def test_a_reply_that_nothing_has_to_come_before_is_told_as_it_is_read(self) -> None:
        for it in (0, 1):
            self.asked(it, b"0 where u\n")
        with mock.patch.object(Client, "flush") as flush:
            self.answered(b"0 = /A\n0 = /B\n")
        flush.assert_not_called()
        self.assertEqual([had(it) for it in self.theirs], [b"0 = /A\n", b"0 = /B\n"])

    def test_what_a_reply_finds_no_room_for_goes_later(self) -> None:
        self.asked(0, b"0 where u\n")
        with mock.patch.object(Client, "_send_at_once", side_effect=lambda it: it[2:]):
            self.answered(b"0 = /Block\n")
        self.assertEqual(had(self.theirs[0]), b"= /Block\n")

    def test_who_is_gone_takes_no_reply(self) -> None:
        self.asked(0, b"0 where u\n")
        self.theirs[0].close()
        self.answered(b"0 = /Block\n")
        self.assertTrue(self.clients[0]._is_gone)
        self.assertFalse(self.clients[0].unread_bytes)

    def test_a_client_that_can_be_written_to_waits_for_the_journal(self) -> None:
        ours, theirs = socket.socketpair()
        with ours, theirs:
            theirs.setblocking(False)
            service = mock.Mock(dirty=[], ready=Turns(Room()), room=Room())
            service.hub.lost = None
            client = Client(service, ours)
            client.unread += b"0 ok 7\n"
            client._on_event(READ | WRITE)
            with self.assertRaises(BlockingIOError):
                theirs.recv(100)
            self.assertEqual(service.dirty, [client])
            # The service writes the journal, and then has it send.
            client.flush()
            self.assertEqual(theirs.recv(100), b"0 ok 7\n")


if __name__ == "__main__":
    unittest.main()
