"""The prompt."""
import os
import pty
import subprocess
import sys
import unittest
from pathlib import Path as FilePath

from at_length import at_length
from attrd import SyntaxFault
from attrd.prompt import GREETING, Prompt
from support import CALCULATOR, PROGRAM, SAMPLES

FILES = [str(CALCULATOR / it) for it in ("calc.ast", "tree.txt", "calc.jrag")]


class Lines(unittest.TestCase):
    def setUp(self):
        self.prompt = Prompt.start(FILES[0], FILES[1], FILES[2:], PROGRAM, ["decl"])
        self.addCleanup(self.prompt.server.close)

    def test_answers(self):
        answer = self.prompt.answer
        for typed, told in [("> 0 ask /Block/Stmt:1/Expr value()", "0 = 3"), ("0 = 3", None), ("$ attrd calc.ast", None), (">", None), ("", None),
                            ("version", "0 ok 0"), ("7 at 0 version", "7 ok 0"), ("> 0 show  /", "0 refused 1 syntax"), ("faults", "no faults"),
                            ('token /Block/Stmt:0 ID "y"', "0 ok 1"), ("faults", "/Block/Stmt:1/Expr/Left: decl is null"), ("nonsense", "0 refused 1 syntax")]:
            self.assertEqual(answer(typed), told, typed)
        self.assertIn("insert", answer("help"))

    def test_why(self):
        answer = self.prompt.answer
        self.assertEqual(answer("why /Block/Stmt:1/Expr value").splitlines()[0], "/Block/Stmt:1/Expr.value() = 3")
        self.assertEqual(answer("why 1").splitlines()[0], "/Block/Stmt:1/Expr/Left.value() = 1")
        self.assertEqual(answer("why 9"), "the last reason has 2 steps")
        for number in ("\u00b2", "9" * 5_000):
            self.assertRaises(SyntaxFault, answer, f"why {number}")
        answer("mark u /Block/Stmt:1/Expr")
        answer("token /Block/Stmt:1/Expr/Right Value 5")
        self.assertIn("= 6", answer("why $u value()"))
        self.assertIn('local("x")', answer('why $u/Left lookup("x")'))
        self.assertEqual(self.prompt.completion.words("why /Block/Stmt:1/Expr v"), ["value("])

    def test_completion(self):
        words = self.prompt.completion.words
        self.prompt.answer("1 mark u /Block/Stmt:1")
        for line, wanted in [("s", ["show", "set"]), ("0 at 3 dr", ["drop"]), ("ask /", ["/Block"]), ("> 0 ask /Block/S", ["/Block/Stmt:0", "/Block/Stmt:1"]),
                             ("ask /Block/Stmt:1/Expr v", ["value("]), ("ask /Block l", ["local(", "lookup("]), ("put /Block/Stmt:0 ", ["Init"]),
                             ("insert /Block ", ["Stmt"]), ("token /Block/Stmt:0 ", ["ID"]), ("move /Block/Stmt:0 ", ["to"]),
                             ("move /Block/Stmt:0 to /Block ", ["Stmt"]), ("1 show $u/", ["$u/Expr"]), ("mark v /B", ["/Block"]),
                             ("show /Nix/", []), ("show $nix/", []), ("version ", []), ("", None)]:
            found = words(line)
            if wanted is not None:
                self.assertEqual(found, wanted, line)
        self.prompt.answer("drop /Block/Stmt:0")
        self.assertEqual(words("show /Block/"), ["/Block/Stmt:0"])


class Process(unittest.TestCase):
    def run_prompt(self, typed, *words):
        environment = {**os.environ, "PYTHONPATH": str(FilePath(__file__).resolve().parent.parent)}
        done = subprocess.run([sys.executable, "-m", "attrd", "--program", PROGRAM, *words], input=typed.encode(), stdout=subprocess.PIPE,
                              stderr=subprocess.PIPE, env=environment, timeout=100)
        return done.returncode, done.stdout.decode(), done.stderr.decode()

    def test_at_a_terminal(self):
        """What can be typed is said before anything is."""
        above, below = pty.openpty()
        environment = {**os.environ, "PYTHONPATH": str(FilePath(__file__).resolve().parent.parent), "HOME": os.devnull, "TERM": "dumb"}
        done = subprocess.Popen([sys.executable, "-m", "attrd", "--program", PROGRAM, *FILES], stdin=below, stdout=subprocess.PIPE,
                                stderr=subprocess.DEVNULL, env=environment)
        os.write(above, b"version\nquit\n")
        told = done.communicate(timeout=100)[0].decode()
        self.assertEqual((done.returncode, told.splitlines()[0]), (0, GREETING))
        self.assertIn("0 ok 0", told)
        os.close(above)
        os.close(below)

    def test_pasted_from_the_manual(self):
        typed = "$ attrd calc.ast tree.txt calc.jrag\n> 0 version\n0 ok 0\n> 0 drop /Block/Stmt:0\n0 ok 1\nquit\n> 0 version\n"
        self.assertEqual(self.run_prompt(typed, *FILES), (0, "0 ok 0\n0 ok 1\n", ""))

    @at_length
    def test_forms_that_are_left_out_else(self):
        flow = SAMPLES / "flow"
        files = [str(flow / it) for it in ("flow.ast", "tree.txt", "flow.jrag")]
        self.assertEqual(self.run_prompt("version\n", "--forms", "circular", *files), (0, "0 ok 0\n", ""))
        status, told, errors = self.run_prompt("version\n", *files)
        self.assertEqual((status, told), (1, ""))
        self.assertIn("J10 form left out.", errors)

    def test_faults(self):
        status, told, errors = self.run_prompt("", *FILES, str(CALCULATOR / "bad.jrag"))
        self.assertEqual((status, told), (1, ""))
        self.assertIn("bad.jrag:2:31: J5 argument.", errors)
        for words in (["a", "b", "c"], [FILES[0], "nosuch.txt", FILES[2]], [*FILES, "--faults", "nix"]):
            status, told, errors = self.run_prompt("", *words)
            self.assertEqual((status, told), (3, ""))
            self.assertNotIn("Traceback", errors)
            self.assertTrue(errors)
        self.assertEqual(self.run_prompt("", "a")[0], 2)
