"""The hub over its sockets: sessions, order, versions that go on, limits, who may connect, and its end."""
from __future__ import annotations

import json
import os
import shutil
import signal
import socket
import stat
import subprocess
import sys
import tempfile
import threading
import unittest
from pathlib import Path
from typing import List

from at_length import at_length
from hub_support import ENVIRONMENT, SECONDS, Hub, Lines, calculator, free_port, program, run_hub, until

TERM = '= Program(Block([Decl("x",Num(1)),Print(Add(Use("x"),Num(2)))]))'


class Sessions(unittest.TestCase):
    hub: Hub

    @classmethod
    def setUpClass(cls) -> None:
        cls.hub = Hub("--clients", "80")

    @classmethod
    def tearDownClass(cls) -> None:
        cls.hub.close()

    def client(self) -> Lines:
        client = self.hub.client()
        self.addCleanup(client.close)
        return client

    def test_sessions_are_a_client_s_own(self) -> None:
        one, two = self.client(), self.client()
        self.assertRegex(one.ask("3 mark u /Block"), r"^3 ok \d+$")
        self.assertRegex(two.ask("3 mark u /Block/Stmt:0"), r"^3 ok \d+$")
        one.send("3 where u", "3 where u", "0 where u")
        self.assertEqual([one.reply() for _ in range(3)], ["3 = /Block"] * 2 + ["0 refused 3 mark"])
        two.send("3 where u", "3 show /")
        self.assertEqual([two.reply() for _ in range(2)], ["3 = /Block/Stmt:0", f"3 {TERM}"])

    def test_single_lines(self) -> None:
        client = self.client()
        shown = '= Decl("x",Num(1))'
        self.assertEqual([client.ask(it) for it in ("3 where u", "3 where u", "12 show /Block/Stmt:0", "12 ask / nix()")],
                         ["3 refused 3 mark"] * 2 + [f"12 {shown}", "12 refused 13 attribute"])
        self.assertRegex(client.ask("3 mark u /Block"), " ok ")
        self.assertEqual([client.ask(it) for it in ("3 where u", "3 where u", "12 where u")], ["3 = /Block"] * 2 + ["12 refused 3 mark"])
        # Lines that come one by one, and are too many or no plain question, wait for their turn: the order stays.
        lines = [("12 show /Block/Stmt:0\n", f"12 {shown}"), ("3 where u\n", "3 = /Block"), ("3 version\n", "3 ok 0"),
                 ("3 wher", ""), ("e u\n", "3 = /Block"), ("03 where u\n", "? refused 1 syntax"), ("3 at 0 where u\n", "3 = /Block"),
                 ("3 where  u\n", "3 refused 1 syntax"), ("3 whereu\n", "3 refused 1 syntax")]
        for number in range(40):
            self.assertEqual(client.ask(f"{number} show /Block/Stmt:0"), f"{number} {shown}")
            for line, _ in lines:
                client.stream.sendall(line.encode())
            for _, reply in lines:
                if reply:
                    self.assertEqual(client.reply(), reply)

    def test_marks_are_taken_back(self) -> None:
        first = self.client()
        for session in range(100):
            self.assertRegex(first.ask(f"{session} mark u /Block"), " ok ")
        self.assertEqual(first.ask("100 mark u /Block"), "100 refused 12 limit")
        self.assertEqual(first.ask("100 post / nix()"), "100 refused 12 limit")
        first.close()
        other = self.client()
        for session in range(100):
            self.assertEqual(other.ask(f"{session} where u"), f"{session} refused 3 mark")
            self.assertRegex(other.ask(f"{session} mark u /Block"), " ok ")

    def test_questions_of_a_client_that_left(self) -> None:
        first = self.client()
        first.send(*["1 post /Block/Stmt:1/Expr value()"] * 50)
        first.close()
        other = self.client()
        other.send(*["5 post /Block/Stmt:1/Expr value()"] * 3, *["5 show /Block"] * 2_000)
        told = [other.reply() for _ in range(2_006)]
        numbers = [it.split()[2] for it in told if it.startswith("5 open ")]
        self.assertEqual([it for it in told if " done " in it], [f"5 done {it} 0 = 3" for it in numbers])

    def test_wrong_lines_are_answered_in_order(self) -> None:
        client = self.client()
        client.send("5", "x", "", "05 version", "3 show  /", "1000 version", "4 " + "a" * 70_000, "2 where u", "6 " + "b" * 400_000)
        self.assertEqual([client.reply() for _ in range(8)], [
            "5 refused 1 syntax", "? refused 1 syntax", "? refused 1 syntax", "3 refused 1 syntax", "? refused 1 syntax",
            "4 refused 1 syntax", "2 refused 3 mark", "6 refused 1 syntax"])

    def test_many_lines_and_all_replies(self) -> None:
        faults: List[str] = []

        def run(number: int) -> None:
            client = self.hub.client()
            client.send(f"{number} mark u /Block/Stmt:{number % 2}", *[f"{number} where u", f"{number} at 0 show /"] * 400)
            told = [client.reply() for _ in range(801)][1:]
            if set(told[::2]) != {f"{number} = /Block/Stmt:{number % 2}"} or set(told[1::2]) != {f"{number} {TERM}"}:
                faults.append(f"{number}: {told[:3]}")
            client.close()
        threads = [threading.Thread(target=run, args=(it,)) for it in range(32)]
        for thread in threads:
            thread.start()
        for thread in threads:
            thread.join()
        self.assertEqual(faults, [])

    def test_who_is_silent_within_a_line_is_ended_and_no_other(self) -> None:
        hub = Hub("--half", "0.5")
        self.addCleanup(hub.close)
        quiet, half = hub.client(), hub.client()
        self.assertRegex(quiet.ask("0 version"), " ok ")
        self.assertRegex(half.ask("0 version"), " ok ")
        half.stream.sendall(b"0 ver")
        self.assertEqual(half.stream.recv(10), b"")
        self.assertRegex(quiet.ask("0 version"), " ok ")
        for it in (quiet, half):
            it.close()

    def test_no_more_clients_than_wanted(self) -> None:
        clients = [self.client() for _ in range(80)]
        until(lambda: self.figures()["clients"] == 80, "80 clients")
        late = self.client()
        self.assertEqual(late.stream.recv(10), b"")
        self.assertRegex(clients[-1].ask("0 version"), " ok ")
        for client in clients:
            client.close()
        until(lambda: self.figures()["clients"] == 0, "no client")

    def figures(self) -> "dict[str, int]":
        status, told = run_hub("--status", self.hub.socket, "--json")
        self.assertEqual(status, 0, told)
        return json.loads(told)

    @at_length
    def test_figures(self) -> None:
        client = self.client()
        client.ask("0 show /")
        figures = self.figures()
        self.assertEqual(figures["version"], 0)
        self.assertIsNone(figures["kept"])
        for name in ("clients", "came", "lines", "hub_memory", "program_memory", "journal_bytes"):
            self.assertGreater(figures[name], 0, name)
        status, text = run_hub("--status", self.hub.socket)
        self.assertEqual(status, 0)
        self.assertRegex(text, r"(?m)^version of the tree +0$")

    def test_the_socket_is_for_the_group(self) -> None:
        self.assertEqual(stat.S_IMODE(os.stat(self.hub.socket).st_mode), 0o660)
        self.assertEqual(stat.S_IMODE(os.stat(self.hub.socket + ".status").st_mode), 0o660)


class Restarts(unittest.TestCase):
    def hub(self, *words: str) -> Hub:
        hub = Hub(*words)
        self.addCleanup(hub.close)
        return hub

    def test_versions_go_on(self) -> None:
        hub = self.hub("--sync", "never")
        client = hub.client()
        self.assertEqual(client.ask("0 token /Block/Stmt:0 ID \"y\""), "0 ok 1")
        self.assertEqual(client.ask("0 mark u /Block/Stmt:1"), "0 ok 1")
        self.assertEqual(client.ask("0 token $u/Expr/Right Value 7"), "0 ok 2")
        os.kill(hub.program_number(), signal.SIGKILL)
        self.assertEqual(client.stream.recv(10), b"")
        for _ in range(2):
            client = hub.client()
            client.send("1 version", "1 where u", "1 at 1 version", "1 at 2 show /Block/Stmt:1/Expr/Right", "1 post / nix()", "1 version")
            self.assertEqual([client.reply() for _ in range(5)], [
                "1 ok 2", "1 refused 3 mark", "1 refused 2 stale 2", "1 = Num(7)", "1 open 1"])
            told = sorted([client.reply(), client.reply()])
            self.assertEqual(told, ["1 done 1 2 refused 13 attribute", "1 ok 2"])
            hub.kill()
            hub.start()
        client = hub.client()
        self.assertEqual(client.ask("0 at 2 drop /Block/Stmt:0"), "0 ok 3")

    def test_the_end_by_a_signal(self) -> None:
        hub = self.hub()
        client = hub.client()
        self.assertEqual(client.ask("0 drop /Block/Stmt:1"), "0 ok 1")
        self.assertEqual(hub.kill(signal.SIGTERM), 0)
        self.assertFalse(Path(hub.socket).exists())
        self.assertEqual(sorted(it.name for it in hub.state.iterdir()), ["journal-1", "lock", "tree-1.sum", "tree-1.txt"])
        self.assertEqual((hub.state / "tree-1.txt").read_text(), 'Program(Block([Decl("x",Num(1))]))\n')
        self.assertIn("the service ends at version 1, after 1 lines, 1 edits", hub.told())
        hub.start()
        self.assertEqual(hub.client().ask("0 version"), "0 ok 1")

    @at_length
    def test_a_long_journal_is_renewed(self) -> None:
        hub = self.hub("--sync", "second")
        client = hub.client()
        edits = [f'0 token /Block/Stmt:0 ID "n{it}"' for it in range(11_000)]
        for at in range(0, len(edits), 500):
            client.send(*edits[at:at + 500])
            self.assertEqual([client.reply() for _ in range(500)], [f"0 ok {it + 1}" for it in range(at, at + 500)])
        until(lambda: not (hub.state / "tree-0.txt").exists(), "a new term")
        base = int(next(hub.state.glob("tree-*.txt")).stem[len("tree-"):])
        self.assertGreaterEqual(base, 10_000)
        hub.kill()
        hub.start()
        client = hub.client()
        client.send("0 version", "0 show /Block/Stmt:0")
        self.assertEqual([client.reply(), client.reply()], ["0 ok 11000", '0 = Decl("n10999",Num(1))'])

    @at_length
    def test_a_tree_has_as_many_nodes_as_is_said(self) -> None:
        """Also behind a restart. The calculator's has eight."""
        hub = self.hub("--nodes", "9")
        insert = '0 insert /Block Stmt 0 Decl("y",-)'
        self.assertEqual([hub.client().ask(insert) for _ in range(2)], ["0 ok 1", "0 refused 12 limit"])
        hub.kill()
        hub.start()
        self.assertEqual([hub.client().ask(it) for it in (insert, "0 drop /Block/Stmt:0", insert)], ["0 refused 12 limit", "0 ok 2", "0 ok 3"])

    @at_length
    def test_a_term_of_more_than_four_megabytes_is_written_and_read_again(self) -> None:
        hub = self.hub()
        hub.kill()
        shutil.rmtree(hub.state)
        declarations = ['Decl("x",-)'] * 390_000
        Path(hub.files[1]).write_text(f"Program(Block([{','.join(declarations)}]))\n")
        hub.words = ("--nodes", "400000")
        hub.start()
        self.assertEqual(hub.client().ask('0 token /Block/Stmt:389999 ID "y"'), "0 ok 1")
        self.assertEqual(hub.kill(signal.SIGTERM), 0)
        self.assertGreater((hub.state / "tree-1.txt").stat().st_size, 4_194_304)
        hub.start()
        self.assertEqual([hub.client().ask(it) for it in ("0 version", "0 show /Block/Stmt:389999")], ["0 ok 1", '0 = Decl("y",-)'])

    @at_length
    def test_a_number_of_nodes_that_is_none(self) -> None:
        hub = self.hub()
        hub.kill()
        status, told = run_hub("--socket", hub.socket, "--nodes", "0", *hub.files)
        self.assertEqual(status, 2)
        self.assertIn("0 is not in 1..=16777216", told)

    @at_length
    def test_forms_that_are_left_out_else(self) -> None:
        hub = self.hub()
        hub.kill()
        with open(hub.files[2], "a", encoding="utf-8") as aspects:
            aspects.write("aspect Loop { syn boolean Block.loop() circular [true] = loop(); }\n")
        status, told = run_hub("--socket", hub.socket, *hub.files)
        self.assertEqual(status, 1)
        self.assertIn("J10 form left out", told)
        hub.words = ("--forms", "circular")
        hub.start()
        self.assertEqual(hub.client().ask("0 ask /Block loop()"), "0 = true")

    def test_a_journal_that_doesn_t_fit(self) -> None:
        hub = self.hub()
        hub.client().ask("0 drop /Block/Stmt:0")
        hub.kill()
        (hub.state / "tree-0.txt").write_text("Program(Block([]))\n")
        (hub.state / "tree-0.sum").unlink()
        status, told = run_hub("--socket", hub.socket, "--state", str(hub.state), *hub.files)
        self.assertEqual(status, 5)
        self.assertIn("drop /Block/Stmt:0: 0 refused 4 path", told)

    @at_length
    def test_an_accepted_edit_that_can_t_be_written(self) -> None:
        hub = self.hub()
        client = hub.client()
        self.assertEqual(client.ask("0 token /Block/Stmt:0 ID \"y\""), "0 ok 1")
        limit = (hub.state / "journal-0").stat().st_size + 5
        subprocess.run(["prlimit", f"--pid={hub.process.pid}", f"--fsize={limit}"], check=True)
        client.send("0 token /Block/Stmt:0 ID \"z\"")
        self.assertEqual(client.stream.recv(100), b"")
        self.assertEqual(hub.process.wait(timeout=SECONDS), 3)
        hub.start()
        self.assertEqual(hub.client().ask("0 show /Block/Stmt:0"), '0 = Decl("y",Num(1))')
        self.assertIn("it ends with version 1: the edit behind it was cut off in the middle, and is left out", hub.told())


class Ports(unittest.TestCase):
    def test_a_port_with_a_token(self) -> None:
        with tempfile.TemporaryDirectory() as folder:
            token, port = Path(folder) / "token", free_port()
            token.write_text("0123456789abcdef\n")
            hub = Hub("--tcp", str(port), "--token", str(token), "--half", "3")
            self.addCleanup(hub.close)
            for first, told in ((b"0123456789abcdef\n0 version\n", b"0 ok 0\n"), (b"0123456789abcdeg\n0 version\n", b""), (b"", b"")):
                with socket.create_connection(("127.0.0.1", port), timeout=SECONDS) as client:
                    client.sendall(first)
                    self.assertEqual(client.recv(100), told)


class Words(unittest.TestCase):
    def setUp(self) -> None:
        folder = tempfile.TemporaryDirectory()
        self.addCleanup(folder.cleanup)
        self.folder = Path(folder.name)
        self.files = calculator(self.folder)
        self.socket = str(self.folder / "hub.sock")

    def refused(self, *words: str) -> "tuple[int, str]":
        return run_hub("--socket", self.socket, *words)

    def test_a_file_that_is_refused_is_told_with_its_place(self) -> None:
        Path(self.files[2]).write_text("aspect A { syn int Program.a() = b(); }")
        status, told = self.refused(*self.files)
        self.assertEqual(status, 1)
        self.assertIn("calc.jrag:1:34: J3 unknown name", told)
        self.assertFalse(Path(self.socket).exists())

    @at_length
    def test_statuses(self) -> None:
        (self.folder / "token").write_text("short")
        for words, wanted, part in (
                (self.files[:2], 2, "three files or more"), (["--tcp", "1", *self.files], 2, "given together"),
                (["--tcp", "1", "--token", str(self.folder / "token"), *self.files], 3, "16 bytes or more"),
                (["--mode", "9", *self.files], 2, "no mode as 660"), (["--group", "no-such-group", *self.files], 3, "no socket"),
                (["nosuch.ast", *self.files[1:]], 3, "nosuch.ast: read fault"), (["--slice", "0", *self.files], 2, "--slice")):
            status, told = self.refused(*words)
            self.assertEqual(status, wanted, told)
            self.assertIn(part, told)
        status, told = run_hub("--status", self.socket)
        self.assertEqual((status, told), (3, f"{self.socket}: no hub tells its figures there: No such file or directory\n"))

    def test_a_file_at_the_socket_stays(self) -> None:
        Path(self.socket).write_text("mine")
        status, told = self.refused(*self.files)
        self.assertEqual(status, 3)
        self.assertIn("no socket", told)
        self.assertEqual(Path(self.socket).read_text(), "mine")

    def test_without_a_journal_it_ends_with_the_program(self) -> None:
        words = ["--program", program(), "--socket", self.socket, *self.files]
        process = subprocess.Popen([sys.executable, "-m", "attrd_hub", *words], stderr=subprocess.PIPE, text=True, env=ENVIRONMENT)
        until(lambda: Path(self.socket + ".status").exists(), "the socket")
        child = Path(f"/proc/{process.pid}/task/{process.pid}/children").read_text().split()[0]
        os.kill(int(child), signal.SIGKILL)
        _, told = process.communicate(timeout=SECONDS)
        self.assertEqual(process.returncode, 3)
        self.assertIn("the program has ended", told)


if __name__ == "__main__":
    unittest.main()
