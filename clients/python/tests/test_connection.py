"""Lines and replies, against the program."""
import errno
import gc
import os
import signal
import socket
import subprocess
import tempfile
import threading
import time
import unittest
from pathlib import Path as FilePath
from unittest import mock

import attrd
from attrd import Circular, Code, Fault, FaultKind, Node, Path, Value, commands
from support import CALCULATOR, PROGRAM, ServerTest, calculator, calculator_grammar


class Commands(ServerTest):
    aspects = ("calc.jrag", "probe.jrag")

    def test_each_command(self):
        s = self.session
        self.assertEqual(s.version(), 0)
        self.assertEqual(s.value("/Block/Stmt:1/Expr", "value"), 3)
        self.assertEqual(s.value("/Block/Stmt:1/Expr/Left", "decl"), Path.read("/Block/Stmt:0"))
        self.assertEqual(s.value(Path() / "Block", "local", "x"), Path.read("/Block/Stmt:0"))
        self.assertIsNone(s.value("/Block", "local", "q"))
        self.assertEqual(s.ask("/", "join"), Value('"n0-7"'))
        self.assertIs(s.value("/", "c1"), False)
        self.assertEqual(s.show("/Block/Stmt:0"), Node("Decl", "x", Node("Num", 1)))
        self.assertEqual(s.set("/Block/Stmt:1/Expr/Right", Node("Num", 4)), 1)
        self.assertEqual(s.drop("/Block/Stmt:0/Init"), 2)
        self.assertEqual(s.put("/Block/Stmt:0", "Init", "Num(7)"), 3)
        self.assertEqual(s.insert("/Block", "Stmt", 0, Node("Decl", 'a"\n', None)), 4)
        self.assertEqual(s.token("/Block/Stmt:1", "ID", "é\t"), 5)
        self.assertEqual(s.move("/Block/Stmt:2", "/Block", "Stmt", 0), 6)
        self.assertEqual(str(s.show()), 'Program(Block([Print(Add(Use("x"),Num(4))),Decl("a\\"\\n",-),Decl("é\\t",Num(7))]))')
        self.assertEqual(self.server.version, 6)

    def test_no_value(self):
        self.assertEqual(self.session.ask("/", "c2"), Fault(FaultKind.ZERO, Path(), "c2"))
        self.assertEqual(self.session.ask("/", "c3"), Circular(Path(), "circ"))
        with self.assertRaises(attrd.NoValue):
            self.session.value("/", "c2")

    def test_each_refusal(self):
        s, refused = self.session, self.refused
        refused(Code.SYNTAX, lambda: s.send("show  /").version())
        self.assertEqual(refused(Code.STALE, s.version, at=7).version, 0)
        refused(Code.MARK, s.where, "u")
        refused(Code.PATH, s.show, "/Block/Stmt")
        refused(Code.COMPONENT, s.put, "/Block/Stmt:1", "Expr", "Num(1)")
        refused(Code.CLASS, s.set, "/Block/Stmt:0", "Stmt()")
        refused(Code.FIT, s.set, "/Block", "Num(1)")
        refused(Code.INDEX, s.insert, "/Block", "Stmt", 3, 'Decl("z",-)')
        refused(Code.TAKEN, s.put, "/Block/Stmt:0", "Init", "Num(1)")
        refused(Code.FIXED, s.drop, "/Block")
        s.insert("/Block", "Stmt", 2, "Block([])")
        refused(Code.INSIDE, s.move, "/Block/Stmt:2", "/Block/Stmt:2", "Stmt", 0)
        refused(Code.LIMIT, s.token, "/Block/Stmt:0", "ID", "a" * 4097)
        refused(Code.ATTRIBUTE, s.ask, "/", "value")
        refused(Code.ARGUMENTS, s.ask, "/Block", "local")

    def test_at(self):
        other = self.server.session()
        self.assertEqual(self.session.token("/Block/Stmt:1/Expr/Right", "Value", 5, at=0), 1)
        self.assertEqual(self.refused(Code.STALE, other.drop, "/Block/Stmt:0", at=0).version, 1)
        for version in (-1, "0", 1.0, True):
            self.assertRaises(attrd.LineFault, self.session.version, at=version)

    def test_what_can_not_be_sent(self):
        s = self.session
        for call in (lambda: s.ask("Block", "value"), lambda: s.ask("/", "sum"), lambda: s.ask("/", "a b"), lambda: s.ask("/", "value", 5),
                     lambda: s.insert("/", "Stmt", -1, "Num(1)"), lambda: s.token("/", "ID", None), lambda: s.token("/", "Value", 2 ** 31),
                     lambda: s.set("/", None), lambda: s.send("show /\n0 version"), lambda: s.show(None),
                     lambda: s.ask("/", "local", "\ud800"), lambda: s.mark("/", "1x"), lambda: self.server.session(1000),
                     lambda: self.server.session("0")):
            self.assertRaises(attrd.AttrdError, call)
        self.assertEqual(s.version(), 0)


class Marks(ServerTest):
    def test_follows_its_node(self):
        mark = self.session.mark("/Block/Stmt:1/Expr/Left")
        self.session.insert("/Block", "Stmt", 0, 'Decl("y",-)')
        self.assertEqual(mark.where(), Path.read("/Block/Stmt:2/Expr/Left"))
        self.assertEqual(self.session.show(mark), Node("Use", "x"))
        self.session.move("/Block/Stmt:2", "/Block", "Stmt", 0)
        self.assertEqual(str(mark.where()), "/Block/Stmt:0/Expr/Left")
        statement = self.session.mark("/Block/Stmt:0")
        self.assertEqual(self.session.show(statement / "Expr" / "Right"), Node("Num", 2))
        self.session.drop("/Block/Stmt:0")
        self.assertFalse(mark.is_there())

    def test_goes_when_it_is_let_go_of(self):
        for _ in range(250):
            self.session.mark("/")
        gc.collect()
        kept = [self.session.mark("/") for _ in range(100)]
        self.refused(Code.LIMIT, self.session.mark, "/")
        name = kept[0].name
        kept[0].release()
        kept[0].release()
        self.refused(Code.MARK, self.session.where, name)
        self.session.mark("/")

    def test_a_session_takes_its_marks_along(self):
        with self.server.session(7) as session:
            mark = session.mark("/", "u")
        self.refused(Code.MARK, self.server.session(7).where, "u")
        del mark

    def test_a_name_that_is_taken(self):
        self.session.send(commands.mark("m1", "/")).version()
        self.assertEqual(self.session.mark("/Block").where(), Path.read("/Block"))


class Pipelining(ServerTest):
    def test_lines_over_the_room_of_pipes(self):
        lines = self.session.send_all(["show /"] * 20000)
        self.assertEqual({it.reply() for it in lines}, {lines[0].reply()})

    def test_long_lines_and_long_replies(self):
        text = "a" * 4000
        self.session.set("/Block", Node("Block", [Node("Decl", text, None)] * 16))
        lines = [self.session.send(commands.show("/")) for _ in range(100)]
        lines += [self.session.send(commands.token("/Block/Stmt:0", "ID", text)) for _ in range(400)]
        self.assertEqual([it.version() for it in lines[100:]], list(range(2, 402)))

    def test_a_line_of_65535_bytes(self):
        front = '0 ask /Block local("'
        fits = "ask " + f'/Block local("{"a" * (65535 - len(front) - 2)}")'
        self.assertEqual(self.session.send(fits).reply(), Value("null"))
        with self.assertRaises(attrd.LineFault):
            self.session.send(fits.replace("aaa", "aaaa", 1))
        wide = fits.replace("aaa", "é", 1).replace("aaa", "é", 1)
        self.assertLess(len(wide.encode()), 65535)
        self.assertEqual(self.session.send(wide).reply(), Value("null"))

    def test_a_reader_that_is_slow(self):
        lines = self.session.send_all([f'ask /Block local("{"é" * 1000}")'] * 2000)
        self.server.flush()
        time.sleep(0.5)
        for it in lines:
            self.assertEqual(it.reply(), Value("null"))
        self.assertEqual(self.server.unanswered, 0)

    def test_threads(self):
        def work(session):
            for count in range(100):
                told.append((session.number, session.value("/Block/Stmt:1/Expr", "value")))
        told = []
        threads = [threading.Thread(target=work, args=(self.server.session(),)) for _ in range(8)]
        for it in threads:
            it.start()
        for it in threads:
            it.join()
        self.assertEqual(len(told), 800)
        self.assertEqual({value for _, value in told}, {3})

    def test_time_that_is_over(self):
        os.kill(self.server._channel.process.pid, signal.SIGSTOP)
        line = self.session.send("version")
        with self.assertRaises(attrd.ReplyTimeout):
            line.reply(0.05)
        os.kill(self.server._channel.process.pid, signal.SIGCONT)
        self.assertEqual(line.version(), 0)


class Together(ServerTest):
    def test_lines_of_which_one_is_too_long_are_not_sent(self):
        self.assertRaises(attrd.LineFault, self.session.send_all, ["drop /Block/Stmt:0", "show " + "/" * 70000])
        self.assertEqual((self.server.unanswered, self.session.version()), (0, 0))

    def test_replies_that_are_alike_belong_each_to_its_line(self):
        lines = ["ask / nosuch()", "version", "drop /Block/Stmt:0", "version", "ask / nosuch()", "version"] * 300
        replies = [str(it.reply()) for it in self.session.send_all(lines)]
        self.assertEqual(replies[:6], ["refused 13 attribute", "ok 0", "ok 1", "ok 1", "refused 13 attribute", "ok 1"])
        self.assertEqual([it for it in replies[6:] if it.startswith("refused 13")], ["refused 13 attribute"] * 598)


class Lost(ServerTest):
    def test_a_server_that_is_killed(self):
        os.kill(self.server._channel.process.pid, signal.SIGSTOP)
        lines = self.session.send_all(["drop /Block/Stmt:0", "version", "version"])
        self.server.flush()
        self.server._channel.process.kill()
        for it in lines:
            with self.assertRaises(attrd.ServerLost) as caught:
                it.reply()
            self.assertEqual(caught.exception.unanswered, 3)
            self.assertEqual(caught.exception.status, -signal.SIGKILL)
        self.assertRaises(attrd.ServerLost, self.session.version)

    def test_while_it_writes(self):
        os.kill(self.server._channel.process.pid, signal.SIGSTOP)
        killer = threading.Timer(0.2, self.server._channel.process.kill)
        killer.start()
        with self.assertRaises(attrd.ServerLost):
            for it in self.session.send_all(["show /"] * 100000):
                it.reply()
        killer.join()

    def test_a_connection_that_is_closed(self):
        line = self.session.send("version")
        self.server.close()
        self.assertRaises(attrd.ConnectionClosed, line.reply)
        self.assertRaises(attrd.ConnectionClosed, self.session.version)
        self.server.close()

    def test_marks_of_a_lost_server(self):
        mark = self.session.mark("/")
        self.server._channel.process.kill()
        mark.release()
        self.assertRaises(attrd.ServerLost, mark.where)
        self.session.close()


class Starts(unittest.TestCase):
    def test_refused_files(self):
        with self.assertRaises(attrd.StartFault) as caught:
            calculator("calc.jrag", "bad.jrag")
        fault = caught.exception
        self.assertEqual((fault.status, fault.code, fault.name, fault.line, fault.column), (1, "J5", "argument", 2, 31))
        self.assertTrue(fault.file.endswith("bad.jrag"))
        with self.assertRaises(attrd.StartFault) as caught:
            attrd.start(CALCULATOR / "calc.ast", Node("Num", 1), CALCULATOR / "calc.jrag", program=PROGRAM)
        self.assertEqual((caught.exception.code, caught.exception.line), ("F7", None))
        with self.assertRaises(attrd.StartFault) as caught:
            attrd.start(CALCULATOR / "nosuch.ast", CALCULATOR / "tree.txt", CALCULATOR / "calc.jrag", program=PROGRAM)
        self.assertEqual((caught.exception.status, caught.exception.code), (3, None))

    def test_what_can_not_be_started(self):
        for program, grammar in (("/nosuch/attrd", "a"), (PROGRAM, 5), (PROGRAM, attrd.Text("x", "\ud800")), ("nul\0l", "a")):
            self.assertRaises(attrd.AttrdError, attrd.start, grammar, "t", "j", program=program)

    def test_what_the_system_has_no_room_for(self):
        full = OSError(errno.ENOSPC, "No space left on device")
        for name in ("mkdtemp", "TemporaryFile"):
            with mock.patch.object(tempfile, name, side_effect=full), self.assertRaisesRegex(attrd.AttrdError, "No space left on device"):
                calculator()
        with mock.patch.object(socket, "socket", side_effect=OSError(errno.EMFILE, "Too many open files")):
            self.assertRaisesRegex(attrd.AttrdError, "no connection: Too many open files", attrd.connect, "socket")

    def test_a_program_with_other_replies_is_ended(self):
        with tempfile.TemporaryDirectory() as folder:
            number, program = FilePath(folder) / "number", FilePath(folder) / "program"
            program.write_text(f"#!/bin/sh\necho $$ > {number}\necho hello\nexec cat > {os.devnull}\n", "utf-8")
            program.chmod(0o700)
            with self.assertRaises(attrd.ProtocolFault):
                attrd.start("a", "t", "j", program=program)
            self.assertRaises(ProcessLookupError, os.kill, int(number.read_text("utf-8")), 0)

    def test_texts_in_place_of_files(self):
        with attrd.start(attrd.Text("a.ast", "A ::= <Value:int>;"), Node("A", 5), attrd.Text("-a.jrag", "aspect A { syn int A.twice() = getValue() * 2; }"),
                         program=PROGRAM) as server:
            self.assertEqual(server.session().value("/", "twice"), 10)
            self.assertTrue(all(FilePath(it).exists() for it in server.files))
        self.assertFalse(any(FilePath(it).exists() for it in server.files))

    def test_options_that_a_program_knows(self):
        known = attrd.known_options(PROGRAM)
        self.assertLessEqual({"--socket", "--connections", "--slice", "--cut-off", "--work", "--help"}, known)
        self.assertEqual(attrd.lasting_options(frozenset(["--keep"]), 7), ["--keep", "7"])
        self.assertEqual(attrd.lasting_options(frozenset(["--cut-off", "--keep"]), 7), ["--keep", "7"])
        self.assertEqual(attrd.lasting_options(known, 7), ["--cut-off", "--index", "--keep", "7"])
        self.assertEqual(attrd.lasting_options(frozenset(["--work"])), [])
        self.assertEqual(attrd.gathering_options(known), ["--gather"])
        self.assertEqual(attrd.gathering_options(frozenset(["--work"])), [])
        for program in ("/nosuch/attrd", "nul\0l", 5):
            self.assertRaises(attrd.AttrdError, attrd.known_options, program)
        with calculator(options=attrd.lasting_options(known) + attrd.gathering_options(known)) as server:
            self.assertEqual(server.session().value("/Block/Stmt:1/Expr", "value"), 3)

    def test_options(self):
        server = calculator(options=["--work"])
        self.assertEqual(server.session().value("/Block/Stmt:1/Expr", "value"), 3)
        server._channel.process.stdin.close()
        self.assertEqual(server._channel.ended(), (0, "work 8\n"))
        server.close()


class Sockets(unittest.TestCase):
    def setUp(self):
        folder = tempfile.TemporaryDirectory()
        self.addCleanup(folder.cleanup)
        self.path = os.path.join(folder.name, "attrd.sock")

    def serve(self, connections):
        files = [str(CALCULATOR / it) for it in ("calc.ast", "tree.txt", "calc.jrag")]
        process = subprocess.Popen([PROGRAM, "--socket", self.path, "--connections", str(connections), *files], stdin=subprocess.DEVNULL)
        self.addCleanup(process.wait)
        self.addCleanup(process.kill)
        return process

    def test_one_connection_after_the_other(self):
        process = self.serve(2)
        with attrd.connect(self.path, seconds=60) as first:
            mark = first.session(5).mark("/Block/Stmt:1", "here")
            self.assertEqual(first.session().token("/Block/Stmt:1/Expr/Right", "Value", 5), 1)
            self.assertEqual(len(first.session().send_all(["show /"] * 20000)), 20000)
            known = first.session().version()
        with attrd.connect(self.path, seconds=60, known=known) as second:
            self.assertEqual(second.session().value("/Block/Stmt:1/Expr", "value"), 6)
            self.assertEqual(str(second.session().send("where here").reply().__class__.__name__), "RefusedReply")
            self.assertEqual(second.session(5).where("here"), Path.read("/Block/Stmt:1"))
        self.assertEqual(process.wait(), 0)
        del mark

    def test_a_server_that_was_started_anew(self):
        process = self.serve(5)
        connection = attrd.connect(self.path, seconds=60)
        self.assertEqual(connection.session().token("/Block/Stmt:1/Expr/Right", "Value", 5), 1)
        process.kill()
        self.assertRaises(attrd.ServerLost, connection.session().version)
        connection.close()
        os.remove(self.path)
        self.serve(5)
        with self.assertRaises(attrd.ServerRestarted):
            attrd.connect(self.path, seconds=60, known=connection.version)

    def lose(self, process, connection):
        """Has an edit accepted and two more sent that aren't answered, and kills the server; the fault that these lines have."""
        session = connection.session()
        self.assertEqual(session.token("/Block/Stmt:1/Expr/Right", "Value", 5), 1)
        os.kill(process.pid, signal.SIGSTOP)
        lines = session.send_all(["drop /Block/Stmt:0", "drop /Block/Stmt:0"])
        connection.flush()
        process.kill()
        process.wait()
        with self.assertRaises(attrd.ServerLost) as caught:
            lines[0].reply()
        self.assertRaises(attrd.ServerLost, lines[1].reply)
        self.assertRaises(attrd.ServerLost, session.version)
        return caught.exception

    def test_a_lost_server_is_told_apart_from_one_that_was_started_anew(self):
        process = self.serve(5)
        connection = attrd.connect(self.path, seconds=60)
        lost = self.lose(process, connection)
        self.assertEqual((type(lost), lost.unanswered, connection.version), (attrd.ServerLost, 2, 1))
        with self.assertRaises(attrd.AttrdError) as caught:
            attrd.connect(self.path, known=1)
        self.assertNotIsInstance(caught.exception, attrd.ServerLost)
        os.remove(self.path)
        self.serve(5)
        with self.assertRaises(attrd.ServerRestarted) as caught:
            attrd.connect(self.path, seconds=60, known=1)
        self.assertIn("its version is 0, and 1 was known", str(caught.exception))
        self.assertRaises(attrd.ServerLost, connection.session().version)
        self.assertRaises(attrd.ServerLost, connection.flush)

    def test_nothing_is_sent_twice(self):
        process = self.serve(5)
        connection = attrd.connect(self.path, seconds=60)
        self.lose(process, connection)
        os.remove(self.path)
        self.serve(5)
        with attrd.connect(self.path, seconds=60) as again:
            document = attrd.Document(again.session(), calculator_grammar())
            self.assertEqual(document.version, 0)
            self.assertEqual(document.tree, attrd.read_term((CALCULATOR / "tree.txt").read_text().strip()))

    def test_a_connection_that_is_of_no_use_is_closed(self):
        for reply, fault in ((b"0 ok 4\n", attrd.ServerRestarted), (b"hello\n", attrd.ProtocolFault), (b"? refused 1 syntax\n", attrd.AttrdError)):
            with socket.socket(socket.AF_UNIX) as listening:
                listening.bind(f"{self.path}{len(reply)}")
                listening.listen()
                answers = threading.Thread(target=self.answer, args=(listening, reply))
                answers.start()
                self.assertRaises(fault, attrd.connect, f"{self.path}{len(reply)}", known=5)
                answers.join()

    def answer(self, listening, reply):
        """Takes a connection, answers its first line, and waits for its end."""
        with listening.accept()[0] as stream:
            stream.recv(1 << 10)
            stream.sendall(reply)
            while stream.recv(1 << 10):
                pass

    def test_no_server(self):
        self.assertRaises(attrd.AttrdError, attrd.connect, self.path)
        self.assertRaises(attrd.AttrdError, attrd.connect, "x" * 200)
        self.assertRaises(attrd.AttrdError, attrd.connect, "nul\0l")
