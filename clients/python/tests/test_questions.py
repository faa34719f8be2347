"""Questions in turns, against the program where it has them."""
import unittest

import attrd
from attrd import Circular, Code, Done, Path, RefusedReply, Value
from support import ServerTest, calculator


def has_post():
    with calculator() as server:
        try:
            server.session().post("/Block", "local", "x").wait()
            return True
        except attrd.Refused:
            return False


class Questions(ServerTest):
    aspects = ("calc.jrag", "probe.jrag")

    @classmethod
    def setUpClass(cls):
        if not has_post():
            raise unittest.SkipTest("the program has no `post`")

    def test_posted_and_waited_for(self):
        question = self.session.post("/Block/Stmt:1/Expr", "value")
        self.assertEqual(question.number, 1)
        self.assertEqual(question.wait(), Done(1, 0, Value("3")))
        self.assertEqual(question.wait(), question.done)
        self.assertEqual(self.session.version(), 0)

    def test_edits_in_between(self):
        question = self.session.post("/Block/Stmt:1/Expr", "value")
        self.server.session().token("/Block/Stmt:1/Expr/Right", "Value", 5)
        done = question.wait()
        self.assertEqual((done.version, done.answer), (1, Value("6")))

    def test_cancelled_by_a_mark(self):
        mark = self.session.mark("/Block/Stmt:1")
        question = self.session.post(mark / "Expr", "value")
        self.session.drop("/Block/Stmt:1")
        self.assertEqual(question.wait().answer, RefusedReply(Code.MARK, "mark"))

    def test_a_circle(self):
        self.assertEqual(self.session.post("/", "circ").wait().answer, Circular(Path(), "circ"))

    def test_many(self):
        questions = [self.session.post("/Block/Stmt:1/Expr", "value") for _ in range(50)]
        self.assertEqual([it.wait().answer for it in reversed(questions)], [Value("3")] * 50)

    def test_refused(self):
        self.refused(Code.MARK, self.session.post, attrd.FromMark("nix"), "value")
        self.refused(Code.QUESTION, lambda: attrd.accepted(self.server.send_wait(0, 7).reply(), "wait 7"))
