"""Crowds that do what they should not, and what the others have meanwhile: long replies, marks, turns, room, and places.

Bounds are counts and ratios: of a crowd's replies, and of what a question takes with nobody beside it, on the same machine.
"""
from __future__ import annotations

import itertools
import os
import select
import shutil
import signal
import socket
import stat
import statistics
import tempfile
import time
import unittest
from contextlib import contextmanager
from pathlib import Path
from typing import Callable, Dict, Iterator, List, Optional, Tuple
from unittest import mock

from at_length import at_length
from hub_support import SECONDS, Hub, Lines, free_port, until

from attrd_hub.callers import PLACES, Callers
from attrd_hub.client import Client
from attrd_hub.service import Service
from attrd_hub.settings import Settings
from attrd_hub.status import asked

MEGABYTE = 1 << 20
# What a crowd leaves to others is measured so many times at most, since what else the machine does can only make that less.
ROUNDS = 5
# Questions whose answers are found anew each time, where each has a text of its own: they look at each pair of declarations.
SLOW = """aspect Slow {
  syn int Program.slow(String k) = getBlock().pairs(k);
  syn int Block.pairs(String k) = sum (a : getStmtList()) { a.row(k) };
  syn int Stmt.row(String k) = all(k);
  inh int Stmt.all(String k);
  eq Block.getStmt(int i).all(String k) = sum (b : getStmtList()) { b.one(k) };
  eq Program.getBlock().all(String k) = 0;
  syn int Stmt.one(String k) = 1;
}
"""


class Wide(Hub):
    """A hub over a tree with many declarations whose names are long: `show /` has so many bytes."""

    def __init__(self, length: int, *words: str) -> None:
        self.length = length
        super().__init__("--sync", "never", *words)

    def start(self) -> None:
        """Writes the tree before the first start."""
        declarations = ['Decl("x",-)', *['Decl("%s",-)' % ("y" * 4_000)] * (self.length // 4_011)]
        Path(self.files[1]).write_text(f"Program(Block([{','.join(declarations)}]))\n")
        super().start()


def processor_seconds(process: int) -> float:
    """How long a process has run so far."""
    return int(Path(f"/proc/{process}/schedstat").read_text().split()[0]) / 1e9


def connected(path: str) -> socket.socket:
    """A connection."""
    stream = socket.socket(socket.AF_UNIX, socket.SOCK_STREAM)
    stream.settimeout(SECONDS)
    stream.connect(path)
    return stream


def state_of(process: int) -> str:
    """Whether a process runs (R), sleeps (S) or stands still (T)."""
    return Path(f"/proc/{process}/stat").read_text().rpartition(")")[2].split()[0]


class Sender:
    """Sends an edit and a question, again and again, so many of these pairs at once. `versions` are those that the edits made."""

    EDIT = b'0 token /Block/Stmt:0 ID "y"\n'

    def __init__(self, stream: socket.socket, questions: List[bytes], at_once: int) -> None:
        self.stream, self.questions, self.at_once = stream, questions, at_once
        self.versions: List[int] = []
        self.replies = self.sent = 0
        self.rest = b""

    def send(self) -> None:
        """Sends the next ones."""
        questions = self.questions[self.sent:self.sent + self.at_once]
        self.sent += len(questions)
        self.stream.sendall(b"".join(self.EDIT + it + b"\n" for it in questions))

    def goes_on(self) -> bool:
        """Reads what is there, and sends the next lines when these have their replies. Whether replies are missing."""
        data = self.stream.recv(1 << 18)
        if not data:
            raise EOFError(self.rest)
        *replies, self.rest = (self.rest + data).split(b"\n")
        self.replies += len(replies)
        self.versions += [int(it[len(b"0 ok "):]) for it in replies if it.startswith(b"0 ok ")]
        if self.replies == 2 * self.sent:
            self.send()
        return self.replies < 2 * self.sent


class Crowd:
    """Clients that ask one question after the other, each by the next one of the numbers: each has so many without a reply at once, or comes
    anew for each."""

    def __init__(self, path: str, clients: int, question: Callable[[int], bytes], numbers: Iterator[int], at_once: int = 1,
                 is_new: bool = False) -> None:
        self.path, self.question, self.numbers, self.at_once, self.is_new = path, question, numbers, at_once, is_new
        self.poll = select.epoll()
        self.streams: Dict[int, socket.socket] = {}
        for _ in range(clients):
            self.come()

    def ask(self, stream: socket.socket, questions: int) -> None:
        """Sends so many, of which each has a number of its own."""
        stream.sendall(b"".join(self.question(it) for it in itertools.islice(self.numbers, questions)))

    def come(self) -> None:
        """A client comes."""
        stream = connected(self.path)
        self.streams[stream.fileno()] = stream
        self.poll.register(stream.fileno(), select.EPOLLIN)
        self.ask(stream, self.at_once)

    def go_on(self, until: socket.socket) -> None:
        """Has each that gets a reply ask again, up to where this one gets one."""
        self.poll.register(until.fileno(), select.EPOLLIN)
        ready: List[int] = []
        while until.fileno() not in ready:
            for number in ready:
                self.reply(self.streams[number])
            ready = [number for number, _ in self.poll.poll(SECONDS)]
            assert ready, "no reply comes"
        self.poll.unregister(until.fileno())

    def reply(self, stream: socket.socket) -> None:
        """It has replies."""
        replies = stream.recv(1 << 16).count(b"\n")
        if not self.is_new:
            self.ask(stream, replies)
            return
        del self.streams[stream.fileno()]
        stream.close()
        self.come()

    def close(self) -> None:
        """They leave."""
        self.poll.close()
        for it in self.streams.values():
            it.close()


class Case(unittest.TestCase):
    def wide(self, length: int, *words: str) -> Wide:
        hub = Wide(length, *words)
        self.addCleanup(hub.close)
        return hub

    def hub(self, *words: str) -> Hub:
        hub = Hub(*words)
        self.addCleanup(hub.close)
        return hub

    def slow_hub(self, statements: int) -> Hub:
        """A hub with the attribute `slow`, whose value is dropped by each edit."""
        hub = self.hub("--sync", "never")
        hub.kill()
        shutil.rmtree(hub.state)
        declarations = ",".join(['Decl("x",-)'] * statements)
        Path(hub.files[1]).write_text(f"Program(Block([{declarations}]))\n")
        with open(hub.files[2], "a", encoding="ascii") as aspects:
            aspects.write(SLOW)
        hub.start()
        return hub


class LongReplies(Case):
    SHORT, LONG = 8 * MEGABYTE, 32 * MEGABYTE
    # So many times it is measured at most. What else the machine does only adds to a time, so the least one is the hub's own.
    ROUNDS = 15

    def taken(self, hub: Wide, client: socket.socket, times: int) -> float:
        """The hub's processor time for so many replies with the whole tree, in seconds."""
        before = processor_seconds(hub.process.pid)
        room = bytearray(MEGABYTE)
        for _ in range(times):
            client.sendall(b"0 show /\n")
            got = last = 0
            while last != ord("\n"):
                taken = client.recv_into(room)
                self.assertTrue(taken, "the hub has ended")
                got, last = got + taken, room[taken - 1]
            self.assertGreater(got, hub.length * 9 // 10)
        return processor_seconds(hub.process.pid) - before

    @at_length
    def test_processor_time_goes_with_the_length(self) -> None:
        """A reply of 32 MB takes about four times the time of one of 8 MB. Were all that is there copied for each part, it would take sixteen
        times that; the bound lies between, since other work on the machine makes the same copies slower."""
        hubs = [self.wide(it, "--nodes", "600000") for it in (self.SHORT, self.LONG)]
        clients = [connected(it.socket) for it in hubs]
        short, long = [], []
        for _ in range(self.ROUNDS):
            # As many bytes of each, so that both are measured for about as long.
            short.append(self.taken(hubs[0], clients[0], self.LONG // self.SHORT))
            long.append(self.taken(hubs[1], clients[1], 1))
            if min(long) <= 2 * min(short):
                break
        for it in clients:
            it.close()
        self.assertLessEqual(min(long), 2 * min(short), f"one of 32 MB {min(long):.3f} s, four of 8 MB {min(short):.3f} s")

    def test_a_slow_reader_has_all_of_it(self) -> None:
        """In a session that has another number for the program, and with lines behind it."""
        hub = self.wide(2 * MEGABYTE, "--nodes", "100000")
        client, other = connected(hub.socket), hub.client()
        self.addCleanup(client.close)
        self.addCleanup(other.close)
        shown = other.ask("0 show /")
        client.sendall(b"17 mark u /Block/Stmt:0\n17 show /\n17 where u\n17 show /\n17 show $u\n")
        replies = b""
        while replies.count(b"\n") < 5:
            replies += client.recv(100_000)
            self.assertEqual(other.ask("0 version"), "0 ok 0")
        told = ["ok 0", shown[2:], "= /Block/Stmt:0", shown[2:], '= Decl("x",-)']
        self.assertEqual(replies.decode(), "".join(f"17 {it}\n" for it in told))


class Marks(Case):
    def memory(self, hub: Hub) -> int:
        return int(asked(hub.socket)["hub_memory"] or 0)

    def gone(self, rounds: int, name: int) -> None:
        """In each round a node goes that has fifty marks, whose names have so many bytes."""
        hub = self.hub("--sync", "never")
        client = hub.client()
        lines = [*(f"0 mark m{{}}_{it}{'x' * name} /Block/Stmt:0" for it in range(50)), '0 set /Block/Stmt:0 Decl("x",-)']
        before = self.memory(hub)
        for number in range(rounds):
            client.send(*(it.format(number) for it in lines))
            for _ in lines:
                self.assertRegex(client.reply(), "^0 ok ")
        self.assertLess(self.memory(hub) - before, 20 << 10)
        self.assertEqual(client.ask("0 mark last /Block"), f"0 ok {rounds}")
        self.assertEqual(client.ask("0 where last"), "0 = /Block")

    @at_length
    def test_marks_with_long_names_whose_nodes_went_take_no_memory(self) -> None:
        """The names take 30 MB in all."""
        self.gone(100, 6_000)

    @at_length
    def test_a_hundred_thousand_marks_whose_nodes_went_take_no_memory(self) -> None:
        """The names, with what Python takes for each, are more than 25 MB."""
        self.gone(2_000, 200)

    def test_a_client_that_leaves_with_many_marks_holds_up_nobody(self) -> None:
        """Thirty marks in each of a hundred sessions, all with long names: while they are taken back others are served."""
        hub = self.hub("--sync", "never")
        client = hub.client()
        for session in range(100):
            client.send(*(f"{session} mark m{it}{'x' * 1_500} /Block" for it in range(30)))
            for _ in range(30):
                self.assertRegex(client.reply(), " ok ")
        other = hub.client()
        self.assertRegex(other.ask("0 mark u /Block"), "ok")
        client.close()
        started = asked(hub.socket)["in_flight"]
        # Lines of the hub's own go a few at a time: never are all three thousand under way.
        most = 0
        for _ in range(50):
            self.assertEqual(other.ask("0 where u"), "0 = /Block")
            most = max(most, int(asked(hub.socket)["in_flight"] or 0))
        self.assertLess(max(most, int(started or 0)), 200)
        # At last all sessions are free again.
        self.assertRegex(until(lambda: self.has_sessions(hub), "sessions that are free"), "ok")

    def has_sessions(self, hub: Hub) -> Optional[str]:
        """Whether ten clients have a hundred sessions each, all but one of which is the hub's own."""
        clients = [hub.client() for _ in range(9)]
        told = ""
        for it in clients:
            it.send(*(f"{session} mark u /Block" for session in range(100)))
            told = [it.reply() for _ in range(100)][-1]
        for it in clients:
            it.close()
        return told if " ok " in told else None


class Fairness(Case):
    def versions(self, hub: Hub, questions: List[List[bytes]], at_once: int) -> List[List[int]]:
        """The versions that each client's edits made, which tell in which order the lines of all were served.

        Each client has a list of questions, and sends an edit in front of each: so many of these pairs at once, and the next ones when
        it has all replies to them. The hub has taken all clients before, and stands still until all have sent their first lines.
        """
        streams = [connected(hub.socket) for _ in questions]
        for it in streams:
            it.sendall(b"0 version\n")
            self.assertEqual(it.recv(100), b"0 ok 0\n")
        senders = {it: Sender(it, lines, at_once) for it, lines in zip(streams, questions)}
        hub.process.send_signal(signal.SIGSTOP)
        until(lambda: state_of(hub.process.pid) == "T", "that the hub stands still")
        for sender in senders.values():
            sender.send()
        hub.process.send_signal(signal.SIGCONT)
        waiting = set(streams)
        while waiting:
            ready, _, _ = select.select(list(waiting), [], [], SECONDS)
            self.assertTrue(ready)
            waiting -= {it for it in ready if not senders[it].goes_on()}
        for it in streams:
            it.close()
        return [it.versions for it in senders.values()]

    def served(self, versions: List[List[int]]) -> List[int]:
        """How many edits of each client were served when half of all were."""
        half = sum(map(len, versions)) // 2
        return sorted(sum(it <= half for it in own) for own in versions)

    def check(self, served: Callable[[], List[int]]) -> None:
        """Of equal clients the slowest has at least half of the fastest one's replies, in one of the rounds."""
        found: List[List[int]] = []
        for _ in range(ROUNDS):
            found.append(served())
            if 2 * found[-1][0] >= found[-1][-1]:
                return
        self.fail(f"{found}")

    @at_length
    def test_who_waits_for_each_reply(self) -> None:
        """Sixty-four clients, each with the same question that isn't quick."""
        self.check(lambda: self.served(self.versions(self.wide(MEGABYTE // 8), [[b"0 show /"] * 20] * 64, 1)))

    @at_length
    def test_who_waits_for_none(self) -> None:
        """Also of clients that send all their lines at once."""
        self.check(self.all_at_once)

    def all_at_once(self) -> List[int]:
        """How many edits of each client were served when half of all were, of clients that send all their lines at once."""
        hub = self.slow_hub(40)
        # The first questions of all take longer, which no client of the many shall pay for.
        first = hub.client()
        for it in range(5):
            self.assertRegex(first.ask(f'0 ask / slow("first {it}")'), "^0 = ")
        first.close()
        questions = [[b'0 ask / slow("%d.%d")' % (client, it) for it in range(120)] for client in range(64)]
        return self.served(self.versions(hub, questions, 120))


class Beside(Case):
    """What a quiet client waits for beside two hundred that ask questions of some milliseconds: in seconds of a processor, which the hub
    and the program take meanwhile."""

    QUIET = b"0 show /Block/Stmt:0\n"
    SLOW = b'0 ask / slow("%d")\n'
    processes: Tuple[int, int]

    def beside(self, question: Callable[[int], bytes], at_once: int = 1, is_new: bool = False) -> None:
        hub = self.slow_hub(210)
        self.processes = (hub.process.pid, hub.program_number())
        quiet = connected(hub.socket)
        self.addCleanup(quiet.close)
        alone = max(self.wait(quiet, self.SLOW % it) for it in range(3))
        for _ in range(20):
            self.wait(quiet, self.QUIET)
        numbers, told = itertools.count(), [f"one question {alone:.4f} s"]
        for _ in range(ROUNDS):
            waits = self.waits(quiet, Crowd(hub.socket, 200, question, numbers, at_once, is_new))
            told.append(f"median {statistics.median(waits):.4f}, the last ones {waits[-4:]} s")
            # Where clients whose lines were quick turn to long ones at once, those under way come first: so a few answers take longer.
            if waits[-4] < max(0.1, 5 * alone) and waits[-1] < max(0.5, 25 * alone):
                return
        self.fail("; ".join(told))

    def waits(self, quiet: socket.socket, crowd: Crowd) -> List[float]:
        """What the quiet client waits beside the crowd, the least first."""
        waits = []
        for _ in range(60):
            waits.append(self.wait(quiet, self.QUIET, crowd))
            self.pause()
        crowd.close()
        return sorted(waits)

    def pause(self) -> None:
        """Has the crowd served for a hundredth of a second of these processes' time, on any machine; or for a second, where it has all its
        replies by then."""
        spent, end = self.spent() + 0.01, time.monotonic() + 1.0
        while self.spent() < spent and time.monotonic() < end:
            time.sleep(0.002)

    def spent(self) -> float:
        """How many seconds the hub and the program have run."""
        return sum(map(processor_seconds, self.processes))

    def wait(self, quiet: socket.socket, line: bytes, crowd: Optional[Crowd] = None) -> float:
        """How many seconds they run until the quiet client has its reply."""
        before = self.spent()
        quiet.sendall(line)
        if crowd is not None:
            crowd.go_on(quiet)
        self.assertTrue(quiet.recv(1_000).startswith(b"0 = "))
        return self.spent() - before

    @at_length
    def test_new_clients(self) -> None:
        self.beside(lambda number: self.SLOW % (10 + number))

    @at_length
    def test_clients_that_send_many_at_once(self) -> None:
        self.beside(lambda number: self.SLOW % (10 + number), at_once=30)

    @at_length
    def test_clients_that_come_anew_for_each(self) -> None:
        self.beside(lambda number: self.SLOW % (10 + number), is_new=True)

    @at_length
    def test_clients_of_which_each_fourth_question_takes_long(self) -> None:
        self.beside(lambda number: self.QUIET if number // 200 % 4 else self.SLOW % (10 + number))


class Unread(Case):
    def beside(self, length: int, others: int) -> None:
        """What a quiet client waits for beside so many that ask for the whole tree and never read, from their first line on: in seconds
        of a processor, which the hub and the program take meanwhile."""
        hub = self.wide(length, "--nodes", "100000")
        quiet = Lines(hub.socket)
        self.addCleanup(quiet.close)
        processes = (hub.process.pid, hub.program_number())

        def wait(line: str, reply: str) -> float:
            before = sum(map(processor_seconds, processes))
            self.assertTrue(quiet.ask(line).startswith(reply))
            return sum(map(processor_seconds, processes)) - before
        with_nobody = max(wait("0 show /", "0 = Program(") for _ in range(3))
        told = [f"one question {with_nobody:.4f} s"]
        for _ in range(ROUNDS):
            waits = []
            with self.not_reading(hub, others):
                for _ in range(40):
                    waits.append(wait("0 show /Block/Stmt:0", '0 = Decl("x",-)'))
                    time.sleep(0.01)
                unread = int(asked(hub.socket)["unread"] or 0)
            told.append(f"median {statistics.median(waits):.4f}, most {max(waits):.4f} s")
            # A megabyte for each, or one reply, and what is under way.
            self.assertLess(unread, min(300 * MEGABYTE, others * (MEGABYTE + 2 * length)), told)
            if max(waits) < max(0.1, 5 * with_nobody):
                return
        self.fail("; ".join(told))

    @contextmanager
    def not_reading(self, hub: Hub, clients: int) -> Iterator[None]:
        """So many ask for the whole tree, again and again, and read nothing; they are gone behind it."""
        crowd = [connected(hub.socket) for _ in range(clients)]
        for it in crowd:
            it.sendall(b"0 show /\n" * 50)
        try:
            yield
        finally:
            for it in crowd:
                it.close()
        until(lambda: asked(hub.socket)["clients"] == 1, "that they are gone")

    def test_how_much_one_client_leaves(self) -> None:
        """A mebibyte at most, and with short replies those under way: behind it the next question isn't begun."""
        length, short = 400_000, 4_020
        hub = self.wide(length, "--nodes", "100000")
        quiet = Lines(hub.socket)
        self.addCleanup(quiet.close)
        for line, least, most in ((b"0 show /\n", MEGABYTE - length, MEGABYTE),
                                  (b"0 show /Block/Stmt:1\n", MEGABYTE, MEGABYTE + 8 * short)):
            with connected(hub.socket) as client:
                client.sendall(line * 1_000)
                until(lambda least=least: int(asked(hub.socket)["unread"] or 0) >= least, "that it leaves as much as it may")
                for _ in range(20):
                    self.assertTrue(quiet.ask("0 show /Block/Stmt:0").startswith("0 = "))
                self.assertLess(int(asked(hub.socket)["unread"] or 0), most)
            until(lambda: asked(hub.socket)["clients"] == 1, "that the client is gone")

    @at_length
    def test_four_hundred_kilobytes(self) -> None:
        self.beside(400_000, 100)

    @at_length
    def test_four_megabytes(self) -> None:
        self.beside(4_000_000, 30)


class InAll(unittest.TestCase):
    """What all clients together leave unread."""

    def setUp(self) -> None:
        self.service = Service(Settings("", [], [], ""))
        self.addCleanup(self.service.loop.close)
        self.told: List[str] = []
        for place, value in (("room.UNREAD_IN_ALL", MEGABYTE), ("service.UNREAD_IN_ALL", MEGABYTE),
                             ("service.log", lambda _, text: self.told.append(text))):
            patch = mock.patch(f"attrd_hub.{place}", value)
            patch.start()
            self.addCleanup(patch.stop)

    def client(self) -> Client:
        """One whose other side reads nothing."""
        ours, theirs = socket.socketpair()
        ours.setsockopt(socket.SOL_SOCKET, socket.SO_SNDBUF, 1)
        self.addCleanup(theirs.close)
        client = Client(self.service, ours)
        self.addCleanup(client.end)
        self.service.clients.add(client)
        return client

    def test_who_goes_where_there_is_no_room(self) -> None:
        """Of those with most bytes, or half as many, the one that has read nothing for longest: the others stay."""
        clients = [self.client() for _ in range(4)]
        for client, kilobytes in zip(clients, (600, 400, 500, 100)):
            client._write(b"x" * (kilobytes << 10))
            client.flush()
        for client, drained in zip(clients, (30.0, 20.0, 10.0, 0.0)):
            client.drained = drained
        self.service._tell()
        self.assertEqual([it.is_ended for it in clients], [False, True, True, False])
        self.assertEqual(self.told, ["a client is let go of: it doesn't read its replies"] * 2)
        self.assertLess(self.service.room.unread, MEGABYTE)

    def test_where_there_is_room_all_stay(self) -> None:
        clients = [self.client() for _ in range(3)]
        for client in clients:
            client._write(b"x" * (MEGABYTE // 4))
        self.service._tell()
        self.assertEqual([it.is_ended for it in clients], [False] * 3)


class Places(Case):
    def test_the_oldest_without_a_token_goes_for_one_more(self) -> None:
        callers = Callers()
        clients = [mock.Mock() for _ in range(PLACES + 1)]
        self.assertEqual([callers.add(it) for it in clients], [None] * PLACES + clients[:1])
        self.assertTrue(callers.remove(clients[0]))
        self.assertTrue(callers.remove(clients[5]))
        self.assertIsNone(callers.add(mock.Mock()))
        self.assertIs(callers.add(mock.Mock()), clients[1])

    def test_who_sends_no_token_takes_no_place_of_others(self) -> None:
        with tempfile.TemporaryDirectory() as folder:
            (Path(folder) / "token").write_text("0123456789abcdef\n")
            port = free_port()
            hub = self.hub("--tcp", str(port), "--token", str(Path(folder) / "token"), "--clients", "40")
            silent = [socket.create_connection(("127.0.0.1", port), timeout=SECONDS) for _ in range(200)]
            for it in silent[::2]:
                it.sendall(b"0123")
            clients = [hub.client() for _ in range(39)]
            self.assertEqual({it.ask("0 version") for it in clients}, {"0 ok 0"})
            with socket.create_connection(("127.0.0.1", port), timeout=SECONDS) as late:
                late.sendall(b"0123456789abcdef\n0 version\n")
                self.assertEqual(late.recv(100), b"0 ok 0\n")
                # The forty places are taken now, and none of them by who is silent.
                with socket.create_connection(("127.0.0.1", port), timeout=SECONDS) as more:
                    more.sendall(b"0123456789abcdef\n0 version\n")
                    self.assertEqual(end_of(more), b"")
            # Nobody keeps a place for long by silence, nor by a byte now and then.
            until(lambda: all(is_ended(it) for it in silent), "the end of those that are silent")
            for it in [*silent, *clients]:
                it.close()


def end_of(stream: socket.socket) -> bytes:
    """What comes up to the end."""
    try:
        return b"".join(iter(lambda: stream.recv(1_000), b""))
    except ConnectionError:
        return b""


def is_ended(stream: socket.socket) -> bool:
    """Whether the other side has ended the connection; else it is sent one byte more."""
    try:
        stream.setblocking(False)
        if not stream.recv(1):
            return True
    except BlockingIOError:
        try:
            stream.send(b"x")
        except OSError:
            return True
        return False
    except OSError:
        return True
    return False


class Gone(Case):
    EDIT = b'0 token /Block/Stmt:0 ID "y"\n'

    def leave(self, hub: Hub, data: bytes) -> None:
        """Sends this, and goes away at once."""
        with connected(hub.socket) as stream:
            stream.setsockopt(socket.SOL_SOCKET, socket.SO_SNDBUF, MEGABYTE)
            stream.sendall(data)

    def test_lines_that_came_whole_are_obeyed(self) -> None:
        hub = self.hub("--sync", "never")
        client = hub.client()
        made = 0
        for data, edits in ((self.EDIT * 100, 100), (b"0 show " + b"x" * 100_000 + b"\n" + self.EDIT * 100, 100),
                            (b"0 show " + b"x" * 65_000 + b"\n" + self.EDIT, 1), (self.EDIT + b"0 drop /Block/Stmt:1", 1),
                            (b"x" * 150_000 + b"\n" + self.EDIT * 3 + b"0 drop /Block/Stmt:1", 3), (b"0 drop /Block/Stmt:1", 0)):
            self.leave(hub, data)
            made += edits
            until(lambda: int(client.ask("0 version").split()[2]) >= made, f"{made} edits")
            until(lambda: asked(hub.socket)["clients"] == 1, "that the client is gone")
            self.assertEqual(client.ask("0 version"), f"0 ok {made}")

    def test_half_a_line_is_not_obeyed_at_the_end_of_a_stream(self) -> None:
        hub = self.hub("--sync", "never")
        with connected(hub.socket) as stream:
            stream.sendall(b"6 show /Block/Stmt:0\n7 drop /Block/Stmt:1")
            stream.shutdown(socket.SHUT_WR)
            self.assertEqual(end_of(stream), b'6 = Decl("x",Num(1))\n')
        self.assertEqual(hub.client().ask("0 version"), "0 ok 0")

    def test_a_place_is_free_at_once(self) -> None:
        """Where the one that had it sent many bytes without a newline."""
        hub = self.hub("--clients", "20", "--half", "600")
        for _ in range(5):
            for _ in range(10):
                self.leave(hub, b"x" * 150_000)
            # The time for half a line is ten minutes, and this is much less, on any machine.
            until(lambda: asked(hub.socket)["clients"] == 0, "free places")
        self.assertEqual(hub.client().ask("0 version"), "0 ok 0")


class ReadOnly(Case):
    def readers(self, *words: str) -> "tuple[Hub, str]":
        """A hub, and its socket for those that may ask alone."""
        hub = self.hub("--sync", "never", *words)
        hub.kill(signal.SIGTERM)
        path = str(hub.folder / "readers")
        hub.words += ("--read-only-socket", path, "--read-only-mode", "604")
        hub.start()
        return hub, path

    def test_they_leave_places_and_sessions_to_others(self) -> None:
        """Half of both, however many of them come, and whatever they ask."""
        hub, path = self.readers("--clients", "20")
        readers = [Lines(path) for _ in range(12)]
        for it in readers[10:]:
            self.assertEqual(end_of(it.stream), b"")
        for it in readers[:10]:
            it.send(*(f"{session} post /Block/Stmt:1/Expr value()" for session in range(100)), "0 version")
        for it in readers[:10]:
            # What was posted is answered before.
            while it.reply() != "0 ok 0":
                pass
        writers = [hub.client() for _ in range(10)]
        self.assertEqual({it.ask("0 version") for it in writers}, {"0 ok 0"})
        for it in writers[:5]:
            it.send(*(f"{session} mark u /Block" for session in range(100)))
            self.assertEqual([it.reply() for _ in range(100)], [f"{session} ok 0" for session in range(100)])
        # A place that one of them leaves another one has.
        readers[0].close()
        until(lambda: asked(hub.socket)["clients"] == 19, "that it is gone")
        later = Lines(path)
        self.assertEqual(later.ask("0 version"), "0 ok 0")
        for it in [*readers, *writers, later]:
            it.close()

    def test_who_may_ask_alone(self) -> None:
        hub, path = self.readers()
        self.assertEqual(stat.S_IMODE(os.stat(path).st_mode), 0o604)
        reader, writer = Lines(path), hub.client()
        self.addCleanup(reader.close)
        self.addCleanup(writer.close)
        lines = ['0 set /Block/Stmt:0 Decl("y",-)', "0 at 0 drop /Block/Stmt:0", "3 mark u /Block", "3 at 0 unmark u",
                 'token /Block/Stmt:0 ID "z"', '0 token /Block/Stmt:0 ID "z"', "0 put /Block/Stmt:0 Init Num(1)",
                 "0 insert /Block Stmt 0 Block([])", "0 move /Block/Stmt:0 to /Block Stmt 1", "0 version", "5 show /Block/Stmt:0",
                 "5 ask /Block/Stmt:1/Expr value()"]
        reader.send(*lines)
        self.assertEqual([reader.reply() for _ in lines], [
            *["0 refused 12 limit"] * 2, *["3 refused 12 limit"] * 2, "? refused 1 syntax", *["0 refused 12 limit"] * 4, "0 ok 0",
            '5 = Decl("x",Num(1))', "5 = 3"])
        reader.send("7 post /Block/Stmt:1/Expr value()", *["7 version"] * 50)
        self.assertEqual({reader.reply() for _ in range(52)}, {"7 open 1", "7 done 1 0 = 3", "7 ok 0"})
        self.assertEqual(writer.ask('0 token /Block/Stmt:0 ID "z"'), "0 ok 1")
        self.assertEqual(reader.ask("0 show /Block/Stmt:0"), '0 = Decl("z",Num(1))')
        # Also of lines that it sends and goes away behind.
        with connected(path) as stream:
            stream.sendall(b'0 token /Block/Stmt:0 ID "y"\n' * 10)
        self.assertEqual(writer.ask("0 version"), "0 ok 1")


if __name__ == "__main__":
    unittest.main()
