"""What the system has no more of: a disk, threads, descriptors, events. None of it ends the hub for good, spins, or floods its log."""
from __future__ import annotations

import io
import os
import re
import socket
import subprocess
import sys
import tempfile
import time
import unittest
from contextlib import redirect_stderr
from pathlib import Path
from typing import Any, Callable, List, Tuple
from unittest import mock

from at_length import at_length
from hub_support import CLONE, ENVIRONMENT, SECONDS, Hub, calculator, program, run_hub, until

import attrd_hub.main
import attrd_hub.program
from attrd_hub.folder import read_folder
from attrd_hub.loop import Loop
from attrd_hub.service import Service
from attrd_hub.settings import Settings
from attrd_hub.sockets import is_left_over, is_socket, listen_at

UNIT = (CLONE / "tools" / "package" / "attrd-hub@.service").read_text("utf-8")


def statuses_that_stay() -> List[int]:
    """The statuses behind which the unit starts nothing again."""
    found = re.search(r"^RestartPreventExitStatus=(.*)$", UNIT, re.M)
    assert found is not None
    return [int(it) for it in found[1].split()]


def processor_seconds(process: int) -> float:
    """How long a process has run so far."""
    return int(Path(f"/proc/{process}/schedstat").read_text().split()[0]) / 1e9


class Ends(unittest.TestCase):
    """A hub in this process, in which something fails that no file and no word can help."""

    def setUp(self) -> None:
        folder = tempfile.TemporaryDirectory()
        self.addCleanup(folder.cleanup)
        self.folder = Path(folder.name)
        self.words = ["--program", program(), "--socket", str(self.folder / "s"), "--state", str(self.folder / "state"),
                      *map(str, calculator(self.folder))]

    def ended(self, place: str, fault: Exception) -> Tuple[int, str]:
        """The status of a hub in which this fails at this place, and what it told."""
        told: List[str] = []
        with mock.patch(place, side_effect=fault), mock.patch("attrd_hub.main.log", lambda _, text: told.append(text)), \
                mock.patch("attrd_hub.service.log", lambda _, text: told.append(text)):
            return attrd_hub.main.main(self.words), "\n".join(told)

    def test_a_fault_of_the_system_is_no_end_for_good(self) -> None:
        for place, fault in (
                ("attrd_hub.program.tempfile.TemporaryFile", FileNotFoundError(2, "No usable temporary directory found")),
                ("attrd_hub.loop.select.epoll", OSError(24, "Too many open files")),
                ("attrd_hub.service.Loop.turn", OSError(12, "Cannot allocate memory")),
                ("attrd_hub.service.Service._hand_on", MemoryError()),
                ("attrd_hub.service.Service._listen", RuntimeError("can't start new thread")),
                ("attrd_hub.service.Service._tick", ZeroDivisionError("any other fault"))):
            status, told = self.ended(place, fault)
            self.assertNotIn(status, [0, *statuses_that_stay()], place)
            self.assertEqual(status, 3, place)
            self.assertIn(str(fault.args[-1]) if fault.args else type(fault).__name__, told)
            self.assertFalse((self.folder / "s").exists(), place)

    def test_modules_that_can_t_be_loaded(self) -> None:
        """As while a package is unpacked."""
        broken = self.folder / "attrd_hub"
        broken.mkdir()
        for name in ("__init__.py", "__main__.py"):
            (broken / name).write_text((CLONE / "clients" / "hub" / "attrd_hub" / name).read_text("utf-8"), "utf-8")
        (broken / "main.py").write_text("raise OSError(5, 'Input/output error')\n", "utf-8")
        paths = os.pathsep.join([str(self.folder), str(CLONE / "clients" / "python")])
        start = (CLONE / "tools" / "package" / "attrd-hub").read_text("utf-8")
        (self.folder / "attrd-hub").write_text(start.replace("/usr/lib/attrd-hub", str(self.folder)), "utf-8")
        for words in (["-m", "attrd_hub"], [str(self.folder / "attrd-hub")]):
            ended = subprocess.run([sys.executable, *words], env={**os.environ, "PYTHONPATH": paths}, capture_output=True, text=True,
                                   timeout=SECONDS, check=False)
            self.assertEqual(ended.returncode, 3, ended.stderr)
            self.assertIn("Input/output error", ended.stderr)

    def test_what_the_operator_has_to_mend_stays(self) -> None:
        aspects = Path(self.words[-1])
        right = aspects.read_text("utf-8")
        aspects.write_text("aspect A { syn int Program.a() = b(); }", "utf-8")
        self.assertIn(run_hub(*self.words)[0], statuses_that_stay())
        aspects.write_text(right, "utf-8")
        self.assertIn(run_hub("--clients", "0", *self.words)[0], statuses_that_stay())
        (self.folder / "state" / "journal-0").write_bytes(b"attrd journal 9 from 0\n")
        (self.folder / "state" / "tree-0.txt").write_bytes(b"Program(Block([]))\n")
        self.assertIn(run_hub(*self.words)[0], statuses_that_stay())


class FullDisks(unittest.TestCase):
    @at_length
    def test_a_start_on_a_full_disk(self) -> None:
        """There is no room for a temporary file: the hub ends, and may be started again."""
        hub = Hub("--sync", "never")
        self.addCleanup(hub.close)
        self.assertEqual(hub.client().ask("0 drop /Block/Stmt:1"), "0 ok 1")
        hub.kill()
        ended = subprocess.run(["prlimit", "--fsize=0", sys.executable, "-m", "attrd_hub", "--program", program(), "--socket", hub.socket,
                                "--state", str(hub.state), *hub.files], env=ENVIRONMENT, capture_output=True, text=True, timeout=SECONDS,
                               check=False)
        self.assertEqual(ended.returncode, 3, ended.stderr)
        self.assertNotIn(ended.returncode, statuses_that_stay())
        self.assertIn("No usable temporary directory", ended.stderr)
        self.assertNotIn("Traceback", ended.stderr)
        hub.start()
        self.assertEqual(hub.client().ask("0 version"), "0 ok 1")


class Threads(unittest.TestCase):
    def test_a_term_at_the_end_that_no_thread_can_write(self) -> None:
        """It is told, and the journal has all edits still."""
        with tempfile.TemporaryDirectory() as name:
            told: List[str] = []
            service = Service(Settings("", [], [], "", state=name))
            tree = Path(name) / "tree.txt"
            tree.write_bytes(b"A()\n")
            journal = service.journal
            assert journal is not None
            journal.open(tree)
            journal.append(1, b"drop /A:1")
            with mock.patch("threading.Thread.start", side_effect=RuntimeError("can't start new thread")):
                journal.renew(b"B()")
            with mock.patch("attrd_hub.service.log", lambda _, text: told.append(text)):
                service._end()
            self.assertEqual(told, [f"{name}: the term of version 1 can't be written: can't start new thread"])
            state = read_folder(Path(name))
            assert state is not None
            self.assertEqual((state.base, state.commands), (0, [b"drop /A:1"]))


class Descriptors(unittest.TestCase):
    def test_connections_that_can_t_be_taken_wait(self) -> None:
        hub = Hub("--sync", "never")
        self.addCleanup(hub.close)
        first = hub.client()
        self.assertEqual(first.ask("0 version"), "0 ok 0")
        files = len(os.listdir(f"/proc/{hub.process.pid}/fd"))
        subprocess.run(["prlimit", f"--pid={hub.process.pid}", f"--nofile={files}"], check=True)
        others = [hub.client() for _ in range(20)]
        until(lambda: "no connection can be taken: Too many open files" in hub.told(), "a line that says so")
        lines, before = len(hub.told().splitlines()), processor_seconds(hub.process.pid)
        time.sleep(2.0)
        self.assertLess(processor_seconds(hub.process.pid) - before, 0.5)
        self.assertLessEqual(len(hub.told().splitlines()), lines + 2, hub.told())
        self.assertEqual(first.ask("0 drop /Block/Stmt:1"), "0 ok 1")
        first.close()
        self.assertEqual(others[0].ask("0 version"), "0 ok 1")
        for it in others:
            it.close()

    @at_length
    def test_edits_are_made_safe_where_no_more_files_may_be_open(self) -> None:
        hub = Hub("--sync", "second")
        self.addCleanup(hub.close)
        client = hub.client()
        self.assertEqual(client.ask("0 version"), "0 ok 0")
        files = len(os.listdir(f"/proc/{hub.process.pid}/fd"))
        subprocess.run(["prlimit", f"--pid={hub.process.pid}", f"--nofile={files}"], check=True)
        self.assertEqual(client.ask("0 drop /Block/Stmt:1"), "0 ok 1")
        time.sleep(1.5)
        self.assertEqual(client.ask("0 version"), "0 ok 1")

    def test_clients_have_the_files_that_the_hub_leaves_them(self) -> None:
        for files, wanted in ((100, 36), (64, 1), (1_000, 100)):
            with mock.patch("attrd_hub.main.resource.getrlimit", return_value=(files, files)), \
                    mock.patch("attrd_hub.main.resource.setrlimit"), mock.patch("attrd_hub.main.log") as told:
                self.assertEqual(attrd_hub.main._places(100), wanted)
                self.assertEqual(told.call_count, int(wanted < 100))

    def test_a_client_that_can_t_be_waited_for(self) -> None:
        service = Service(Settings("", [], [], ""))
        self.addCleanup(service.loop.close)
        ours, theirs = socket.socketpair()
        self.addCleanup(ours.close)
        listening = mock.Mock(accept=mock.Mock(return_value=(theirs, "")))
        with mock.patch.object(Loop, "watch", side_effect=OSError(28, "No space left on device")), mock.patch("attrd_hub.service.log"):
            service._on_client(listening)
        self.assertEqual((service.clients, service.hub.members, theirs.fileno()), (set(), set(), -1))
        self.assertEqual(listening.accept.call_count, 1)

    def test_a_connection_that_ended_before_it_was_taken_keeps_nobody_waiting(self) -> None:
        service = Service(Settings("", [], [], ""))
        self.addCleanup(service.loop.close)
        for fault, is_paused in ((ConnectionAbortedError(103, "Software caused connection abort"), False), (OSError(23, "Too many"), True)):
            with mock.patch("attrd_hub.service.log"):
                service._on_client(mock.Mock(accept=mock.Mock(side_effect=fault)))
            self.assertEqual(service._is_paused, is_paused)

    def test_a_stream_that_can_t_be_waited_for_has_no_handler(self) -> None:
        loop = Loop()
        self.addCleanup(loop.close)
        with tempfile.TemporaryFile() as file:
            self.assertRaises(OSError, loop.watch, file.fileno(), 1, print)
            self.assertFalse(loop.is_watched(file.fileno()))


class Sockets(unittest.TestCase):
    def setUp(self) -> None:
        folder = tempfile.TemporaryDirectory()
        self.addCleanup(folder.cleanup)
        self.folder = Path(folder.name)

    def test_a_listener_with_a_full_backlog_is_another_server(self) -> None:
        path = str(self.folder / "s")
        with socket.socket(socket.AF_UNIX) as listening:
            listening.bind(path)
            listening.listen(0)
            waiting = []
            for _ in range(3):
                client = socket.socket(socket.AF_UNIX)
                client.setblocking(False)
                waiting.append(client)
                try:
                    client.connect(path)
                except BlockingIOError:
                    break
            status, told = run_hub("--socket", path, *calculator(self.folder))
            for it in waiting:
                it.close()
        self.assertEqual(status, 3)
        self.assertIn("another server answers there", told)
        self.assertTrue(Path(path).exists())

    def test_a_socket_that_goes_while_it_is_looked_at(self) -> None:
        """As that of a hub that ends."""
        path = str(self.folder / "left")
        with socket.socket(socket.AF_UNIX, socket.SOCK_STREAM) as left:
            left.bind(path)
        gone = FileNotFoundError(2, "No such file or directory")

        def go(at: str) -> None:
            os.remove(at)
            raise gone
        self.assertTrue(is_socket(path))
        self.assertTrue(is_left_over(path))
        with mock.patch.object(socket.socket, "connect", side_effect=gone):
            self.assertFalse(is_left_over(path))
        with mock.patch("attrd_hub.sockets.os.unlink", side_effect=go):
            listen_at(path, 0o600, None).close()
        os.remove(path)
        self.assertFalse(is_socket(path))
        self.assertFalse(is_left_over(path))

    def test_the_end_leaves_the_socket_of_a_later_hub(self) -> None:
        first = Hub()
        self.addCleanup(first.close)
        for it in (first.socket, first.socket + ".status"):
            os.unlink(it)
        later = [listen_at(it, 0o600, None) for it in (first.socket, first.socket + ".status")]
        self.assertEqual(first.kill(15), 0)
        for it in (first.socket, first.socket + ".status"):
            self.assertTrue(Path(it).exists(), it)
        for stream in later:
            stream.close()


class Words(unittest.TestCase):
    def test_numbers_that_are_none(self) -> None:
        refused: List[Tuple[str, str]] = [
            ("--clients", "0"), ("--clients", "-1"), ("--clients", "many"), ("--half", "nan"), ("--half", "0"), ("--half", "-1"),
            ("--half", "inf"), ("--half", "soon"), ("--tcp", "0"), ("--tcp", "65536"), ("--tcp", "-1"), ("--mode", "999"), ("--mode", "0"),
            ("--mode", "rw"), ("--read-only-mode", "1777")]
        read: Callable[..., Any] = attrd_hub.main.options().parse_args
        for option, word in refused:
            self.assertIn(f"argument {option}: {word!r} is no ", self.refused(read, f"{option}={word}"))
        given = read(["--clients", "1", "--half", "0.5", "--tcp", "65535"])
        self.assertEqual((given.clients, given.half, given.tcp), (1, 0.5, 65535))

    def refused(self, read: Callable[..., Any], *words: str) -> str:
        """What is told of words that are refused."""
        with redirect_stderr(io.StringIO()) as told, self.assertRaises(SystemExit, msg=str(words)) as ended:
            read(list(words))
        self.assertEqual(ended.exception.code, 2)
        return told.getvalue()

    def test_paths_that_are_none(self) -> None:
        """To the system an empty path is another place: a socket without a name, or the folder that the process is in."""
        for option in ("--socket", "--read-only-socket", "--state"):
            self.assertIn(f"argument {option}: the path is empty", self.refused(attrd_hub.main.options().parse_args, option, ""))

    def test_words_that_don_t_go_together(self) -> None:
        """They stay so: else the unit would start it again each second."""
        files = ["calc.ast", "tree.txt", "calc.jrag"]
        for words, part in ((["--socket", "/a/s", "--read-only-socket", "/a/b/../s"], "is another path than --socket"),
                            (["--socket", "s", "--read-only-socket", "s.status"], "is another path than --socket"),
                            (["--socket", "s", "--read-only-mode", "666"], "--read-only-mode is given with --read-only-socket")):
            for more in ([], ["--check"]):
                self.assertIn(part, self.refused(attrd_hub.main.main, *more, *words, *files))


if __name__ == "__main__":
    unittest.main()
