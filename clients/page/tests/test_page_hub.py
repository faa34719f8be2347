"""The hub over its own socket: sessions and marks of each client, order, clients that do what they should not."""
from __future__ import annotations

import signal
import socket
import subprocess
import sys
import tempfile
import threading
import unittest
from pathlib import Path
from typing import List

from page_support import PYTHONPATH, Lines, Served, program, until, write_files

POINT = 'ClassDecl("Point",-,[Decl("x",KindUse("int"),-),Decl("y",KindUse("int"),-)],Block([Decl("near",-,Less(Name("x"),Num(10))),Show(Name("near"))]))'


class Hub(unittest.TestCase):
    served: Served

    @classmethod
    def setUpClass(cls) -> None:
        cls.served = Served()

    @classmethod
    def tearDownClass(cls) -> None:
        told = cls.served.close()
        if "attrd: work " not in told:
            raise AssertionError(f"at the end the work is told, and not {told!r}")

    def client(self) -> Lines:
        client = self.served.client()
        self.addCleanup(client.close)
        return client

    def test_sessions_are_a_client_s_own(self) -> None:
        one, two = self.client(), self.client()
        self.assertRegex(one.ask("0 mark u /Kind:0"), r"^0 ok \d+$")
        self.assertRegex(two.ask("0 mark u /Kind:1"), r"^0 ok \d+$")
        self.assertEqual(one.ask("0 where u"), "0 = /Kind:0")
        self.assertEqual(two.ask("0 where u"), "0 = /Kind:1")
        self.assertEqual(two.ask("7 where u"), "7 refused 3 mark")

    def test_marks_are_taken_back(self) -> None:
        first = self.served.client()
        for session in range(3):
            replies = [first.ask(f"{session} mark m{it} /Kind:0") for it in range(100)]
            self.assertTrue(all(" ok " in it for it in replies), replies)
        self.assertEqual(first.ask("0 mark more /"), "0 refused 12 limit")
        first.send("0 unmark m0", "0 mark late /")
        first.close()
        clients = [self.client() for _ in range(4)]
        until(lambda: clients[0].ask("0 where m1") == "0 refused 3 mark", "marks that were taken back")
        for client in clients:
            for session in range(3):
                replies = [client.ask(f"{session} where {it}") for it in ("m0", "m1", "m99", "late")]
                self.assertEqual(set(replies), {f"{session} refused 3 mark"})
            self.assertTrue(all(" ok " in client.ask(f"0 mark m{it} /") for it in range(100)))

    def test_wrong_lines_are_answered_in_order(self) -> None:
        client = self.client()
        client.send("5", "x", "", "05 version", "3 show  /", "1000 version", "4 " + "a" * 70_000, "2 where u")
        self.assertEqual([client.reply() for _ in range(7)], [
            "5 refused 1 syntax", "? refused 1 syntax", "? refused 1 syntax", "3 refused 1 syntax", "? refused 1 syntax",
            "4 refused 1 syntax", "2 refused 3 mark"])

    def test_a_last_line_without_a_newline(self) -> None:
        client = self.client()
        client.stream.sendall(b"6 show /Kind:2\n7 show /Kind:0")
        client.stream.shutdown(socket.SHUT_WR)
        self.assertEqual([client.reply(), client.reply()], [f"6 = {POINT}", '7 = Basic("int")'])
        self.assertEqual(client.stream.recv(10), b"")

    def test_many_clients_at_once(self) -> None:
        faults: List[str] = []

        def run(number: int) -> None:
            client = self.served.client()
            name = f"n{number}"
            client.send(f"{number} mark {name} /Kind:{number % 4}", *[f"{number} where {name}"] * 100)
            told = [client.reply() for _ in range(101)][1:]
            if told != [f"{number} = /Kind:{number % 4}"] * 100:
                faults.append(f"{number}: {told[:2]}")
            client.close()
        threads = [threading.Thread(target=run, args=(it,)) for it in range(64)]
        for thread in threads:
            thread.start()
        for thread in threads:
            thread.join()
        self.assertEqual(faults, [])

    def test_who_reads_nothing_holds_up_no_other(self) -> None:
        slow, other = self.client(), self.client()
        slow.stream.setblocking(False)
        data = b"0 show /\n" * 1000
        try:
            while True:
                slow.stream.send(data)
        except BlockingIOError:
            pass
        self.assertEqual(other.ask("0 show /Kind:0"), '0 = Basic("int")')


class Ends(unittest.TestCase):
    def test_a_server_that_was_killed(self) -> None:
        served = Served()
        client = served.client()
        client.ask("0 version")
        children = Path(f"/proc/{served.process.pid}/task/{served.process.pid}/children").read_text().split()
        for child in children:
            signal_process(int(child))
        self.assertEqual(client.stream.recv(10), b"")
        self.assertEqual(served.process.wait(timeout=120), 3)
        self.assertFalse(Path(served.socket).exists())
        client.close()
        served.close()

    def test_a_file_that_is_refused(self) -> None:
        with tempfile.TemporaryDirectory() as folder:
            files = write_files(Path(folder))
            Path(files[2]).write_text("aspect A { syn int Program.a() = b(); }", "utf-8")
            status, told = run_page(files, folder)
        self.assertEqual(status, 1)
        self.assertIn("kinds.jrag:1:34: J3", told)

    def test_a_socket_that_is_there_stays(self) -> None:
        with tempfile.TemporaryDirectory() as folder:
            files = write_files(Path(folder))
            status, told = run_page([*files, "--listen", files[0]], folder)
            self.assertEqual(status, 3)
            self.assertIn("it is there already", told)
            self.assertIn("Program ::=", Path(files[0]).read_text("utf-8"))


def signal_process(number: int) -> None:
    """Kills a process that the test has started."""
    import os
    os.kill(number, signal.SIGKILL)


def run_page(words: List[str], folder: str) -> "tuple[int, str]":
    """The status of a page that ends by itself, and what it told on standard error."""
    import os
    ended = subprocess.run([sys.executable, "-m", "attrd_page", "--program", program(), "--no-browser", *words], cwd=folder, timeout=120,
                           capture_output=True, text=True, env={**os.environ, "PYTHONPATH": os.pathsep.join(PYTHONPATH)})
    return ended.returncode, ended.stderr


if __name__ == "__main__":
    unittest.main()
