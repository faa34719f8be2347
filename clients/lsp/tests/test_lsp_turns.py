"""Questions in turns: edits go between, and answers for older versions are dropped.

The program behind is `turns.py`, which has questions in turns of any length, whatever the program under test has."""
import re
import tempfile
import time
import unittest
from pathlib import Path
from types import SimpleNamespace

from at_length import at_length
from lsp_support import LSP, SMALL, Client, Editing, program
from attrd import Done, Value
from attrd_lsp.desk import Task
from attrd_lsp.inquiry import Question

TURNS = str(LSP / "tests" / "turns.py")


class OldAnswers(unittest.TestCase):
    """An answer for another version than that of the inquiry."""

    def test_it_is_dropped_and_the_question_is_asked_again(self):
        question = Question("/", "faultCount")
        task = Task(iter_of([question]), SimpleNamespace(version=3), True)
        task.unsent.clear()
        task.take(question, Done(1, 2, Value("0")))
        self.assertEqual((task.answers, task.unsent), ({}, [question]))
        task.take(question, Done(2, 3, Value("1")))
        self.assertEqual(task.answers, {question: Value("1")})


def iter_of(questions):
    """An inquiry of one round, which finds the answers."""
    return (yield questions)


class InTurns(unittest.TestCase):
    """A check that takes many turns."""

    def setUp(self):
        temporary = tempfile.TemporaryDirectory(prefix="attrd-lsp-")
        self.addCleanup(temporary.cleanup)
        self.lines = Path(temporary.name) / "lines"
        self.held = Path(temporary.name) / "held"

    def client(self, slow, turn):
        """A client of a program in which `faultCount` takes so many turns, of so many seconds each, and isn't over while there is a file
        `held`."""
        environment = {"ATTRD": program(), "SLOW": f"faultCount={slow}", "TURN": str(turn), "LINES": str(self.lines), "HELD": str(self.held)}
        client = Client(attrd=TURNS, environment=environment).__enter__()
        self.addCleanup(client.close)
        return client

    def noted(self, pattern):
        """The lines that came to the program and are like this, without their sessions."""
        found = (it.partition(" ")[2] for it in self.lines.read_text().splitlines())
        return [it for it in found if re.match(pattern, it)]

    def test_a_check_is_posted_and_its_answer_is_told(self):
        document = Editing(self.client(150, 0), SMALL.replace("x + r", "q + r"))
        self.assertEqual(document.settled(), ["7:11 no declaration of q"])
        self.assertEqual(self.noted("post /")[0], "post / faultCount()")
        self.assertEqual(self.noted("ask"), [])

    def test_of_many_classes_those_that_may_have_errors_are_asked(self):
        document = Editing(self.client(1, 0), "".join(f"class C{it} {{ int a{it}; {{ show a{it}; }} }}\n" for it in range(40)))
        self.assertEqual(document.settled(), [])
        document.change("show a30", "show q")
        self.assertEqual(document.settled(), ["31:29 no declaration of q"])
        self.assertEqual(self.noted("post /Kind:[0-9]+ faultCount"), ["post /Kind:32 faultCount()"])
        document.change("show a20", "show r")
        self.assertEqual(document.settled(), ["21:29 no declaration of r", "31:29 no declaration of q"])
        self.assertEqual(self.noted("post /Kind:[0-9]+ faultCount")[1:], ["post /Kind:22 faultCount()"])

    def test_an_edit_waits_for_no_question_and_the_question_isnt_posted_again(self):
        self.held.touch()
        client = self.client(20, 0.0005)
        document = Editing(client, SMALL)
        self.until("post / faultCount")
        client.ask("textDocument/documentSymbol", {"textDocument": {"uri": document.uri}})
        for old, new in (("x + r", "a + r"), ("a + r", "b + r"), ("b + r", "c + r")):
            document.change(old, new)
            client.ask("textDocument/documentSymbol", {"textDocument": {"uri": document.uri}})
            # The edit comes to the program, and the question is open still.
            self.until(f"token .* ID \"{new[0]}\"")
        self.assertEqual(self.noted("post / faultCount"), ["post / faultCount()"])
        self.held.unlink()
        self.assertEqual(document.settled(), ["7:11 no declaration of c"])

    def test_a_request_is_answered_beside_a_check(self):
        self.held.touch()
        client = self.client(20, 0.0005)
        document = Editing(client, SMALL)
        self.until("post / faultCount")
        self.assertIn("near: boolean\n", client.ask("textDocument/hover", document.at("near"))["contents"]["value"])
        self.assertEqual(client.notes, [])
        self.held.unlink()
        self.assertEqual(document.settled(), [])

    @at_length
    def test_colours_wait_for_the_check(self):
        client = self.client(300, 0.0005)
        document = Editing(client, SMALL.replace("x + r", "q + r"))
        request = client.begun("textDocument/semanticTokens/full", {"textDocument": {"uri": document.uri}})
        client.write(request)
        self.assertNotEqual(client.answer(request["id"])["data"], [])
        self.assertEqual([len(it["params"]["diagnostics"]) for it in client.notes], [1])

    @at_length
    def test_what_is_told_of_a_version_is_what_its_text_has(self):
        client = self.client(5, 0.001)
        document = Editing(client, SMALL)
        for _ in range(10):
            document.change("x + r", "q + r")
            document.change("q + r", "x + r")
            client.ask("textDocument/documentSymbol", {"textDocument": {"uri": document.uri}})
            document.change("x + r", "q + x")
            document.change("q + x", "x + r")
        self.assertEqual(document.settled(), [])
        client.close()
        for note in client.notes:
            wrong = note["params"]["version"] % 2
            self.assertEqual(len(note["params"]["diagnostics"]), wrong, note)

    def until(self, pattern):
        """Waits until such a line has come to the program."""
        end = time.monotonic() + 120
        while not (self.lines.exists() and self.noted(pattern)):
            self.assertLess(time.monotonic(), end, pattern)
            time.sleep(0.005)


if __name__ == "__main__":
    unittest.main()
