"""Replies, and how they are matched to lines: against scripts in place of a server."""
import os
import unittest

import attrd
from attrd import Circular, Code, Connection, Done, Fault, FaultKind, Memory, Ok, Opened, Path, RefusedReply, Value
from attrd.channel import Channel
from attrd.replies import read_reply


class Forms(unittest.TestCase):
    def test_read(self):
        for line, wanted in [
                (b"0 ok 18446744073709551615", (0, Ok(2 ** 64 - 1))), (b"999 = \"a b\"", (999, Value('"a b"'))), (b"? refused 1 syntax", (None, RefusedReply(Code.SYNTAX, "syntax"))),
                (b"1 refused 2 stale 7", (1, RefusedReply(Code.STALE, "stale", 7))), (b"3 memory", (3, Memory())), (b"3 open 9", (3, Opened(9))),
                (b"3 fault long in /A:1/B.a", (3, Fault(FaultKind.LONG, Path.read("/A:1/B"), "a"))), (b"3 circular /.a", (3, Circular(Path(), "a"))),
                (b"3 done 9 4 = /A", (3, Done(9, 4, Value("/A")))), (b"3 done 9 4 refused 4 path", (3, Done(9, 4, RefusedReply(Code.PATH, "path")))),
                (b"3 done 9 4 memory", (3, Done(9, 4, Memory())))]:
            self.assertEqual(read_reply(line), wanted)
            self.assertEqual(f"{'?' if wanted[0] is None else wanted[0]} {wanted[1]}".encode(), line)

    def test_no_replies(self):
        for line in (b"", b"0", b"0 ", b"x ok 1", b"0 ok", b"0 ok x", b"0 refused 16 x", b"0 refused", b"0 fault odd in /.a", b"0 fault null in /",
                     b"0 done 1 2 ok 3", b"0 done 1", b"0 memory x", b"0 ok \xff", b"0 refused 2 stale", b"0 circular a.b"):
            self.assertRaises(attrd.ProtocolFault, read_reply, line)


class Script(Channel):
    """A channel whose server writes what it is told to."""

    def __init__(self):
        self.theirs_in, ours_out = os.pipe()
        ours_in, self.theirs_out = os.pipe()
        super().__init__(ours_in, ours_out)

    def says(self, text):
        os.write(self.theirs_out, text.encode())

    def end(self):
        os.close(self.theirs_out)
        self.theirs_out = None

    def close(self):
        for it in (self.theirs_in, self.theirs_out, self.incoming, self.outgoing):
            if it is not None:
                os.close(it)


class Matching(unittest.TestCase):
    def setUp(self):
        self.script = Script()
        self.connection = Connection(self.script)
        self.addCleanup(self.connection.close)
        self.session = self.connection.session()

    def test_pieces_of_any_size(self):
        lines = self.session.send_all(["version"] * 2)
        for letter in "0 ok 1\n0 ok":
            self.script.says(letter)
            self.connection.poll()
        self.assertEqual([it.is_answered for it in lines], [True, False])
        self.script.says(" 22\n")
        self.assertEqual(lines[1].version(), 22)

    def test_replies_that_are_none(self):
        for text in ("0 nonsense\n", "1 ok 0\n", "\n"):
            script = Script()
            with Connection(script) as connection:
                line = connection.session().send("version")
                script.says(text)
                self.assertRaises(attrd.ProtocolFault, line.reply)

    def test_a_reply_to_no_line(self):
        self.script.says("0 ok 0\n")
        self.assertRaises(attrd.ProtocolFault, self.connection.poll)

    def test_memory(self):
        line = self.session.send("version")
        self.script.says("0 memory\n")
        self.assertRaises(attrd.OutOfMemory, line.version)

    def test_the_end_of_the_stream(self):
        line = self.session.send("version")
        self.script.says("0 o")
        self.script.end()
        with self.assertRaises(attrd.ServerLost) as caught:
            line.reply()
        self.assertEqual(caught.exception.unanswered, 1)

    def posted(self):
        self.script.says("0 open 1\n")
        return self.session.post("/", "a")

    def test_a_question_that_is_answered_between_lines(self):
        question = self.posted()
        self.script.says("0 ok 0\n0 done 1 0 = 3\n0 ok 0\n")
        lines = self.session.send_all(["version"] * 2)
        self.assertEqual([it.version() for it in lines], [0, 0])
        self.assertEqual(question.done, Done(1, 0, Value("3")))

    def test_an_answer_before_it_is_known(self):
        self.script.says("0 open 1\n0 done 1 0 = 3\n")
        self.assertEqual(self.session.post("/", "a").wait().answer, Value("3"))

    def test_a_wait(self):
        question = self.posted()
        self.script.says("0 done 1 5 = 3\n0 ok 5\n")
        self.assertEqual(question.wait(), Done(1, 5, Value("3")))
        self.script.says("0 ok 6\n")
        self.assertEqual(self.session.version(), 6)

    def test_an_answer_that_came_just_before_the_wait(self):
        question = self.posted()
        self.script.says("0 done 1 5 = 3\n0 refused 15 question\n0 ok 5\n")
        self.assertEqual(question.wait(), Done(1, 5, Value("3")))
        self.script.says("0 ok 6\n")
        self.assertEqual(self.session.version(), 6)

    def test_a_wait_without_memory(self):
        question = self.posted()
        self.script.says("0 memory\n0 ok 5\n")
        self.assertRaises(attrd.OutOfMemory, question.wait)
