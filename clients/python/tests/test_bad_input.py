"""Whatever comes in, no exception of the standard library goes out."""
import os
import subprocess
import sys
import tempfile
import unittest
from pathlib import Path as FilePath

from at_length import at_length
import attrd
from attrd import commands
from support import CALCULATOR, PROGRAM, ROOT, ServerTest, calculator_grammar

ODD = [None, True, -1, 2 ** 70, 1.5, "", "\ud800", "\0", "a b", b"x", [], [None], {}, object(), attrd.Path(), attrd.Node("Nix"),
       attrd.Node("Num", "\ud800"), attrd.Node("Num", 2 ** 40), attrd.Node("\ud800"), attrd.Node("Num", 1, 2, 3)]


class BadInput(ServerTest):
    def named(self, call, *arguments, **named):
        try:
            return call(*arguments, **named)
        except attrd.AttrdError:
            return None
        except Exception as fault:  # the test itself is about these
            self.fail(f"{call} {arguments} {named}: {fault!r}")

    def test_trees_and_grammars(self):
        grammar = calculator_grammar()
        for odd in ODD:
            for call in (attrd.read_term, attrd.Path.read, attrd.FromMark.read, attrd.Grammar.read, attrd.Grammar.load, attrd.Node, grammar.check,
                         grammar.make, grammar.smallest, grammar.parts, grammar.ancestors, grammar.concrete_below):
                self.named(call, odd)
            self.named(attrd.Node, "A", odd)
            self.named(grammar.check, attrd.Node("Num", 1), odd)
            self.named(grammar.make, "Num", odd)
            self.named(grammar.make, "Decl", ID=odd)
            self.named(attrd.diagnostics, grammar, [odd], ["a"])
            self.named(attrd.diagnostics, grammar, ["aspect A { syn int Program.a() = 1; }"], [odd])

    def test_sessions(self):
        session, version = self.session, self.session.version()
        for odd in ODD:
            for call in (session.show, session.drop, session.where, session.mark, self.server.session, session.send):
                self.named(call, odd)
            self.named(session.ask, "/Block", odd)
            self.named(session.ask, "/Block", "local", odd)
            self.named(session.set, "/Block", odd)
            self.named(session.put, "/Block", odd, odd)
            self.named(session.insert, "/Block", "Stmt", odd, odd)
            self.named(session.insert, "/Block", "Stmt", 9, odd)
            self.named(session.token, "/Block/Stmt:0", "ID", odd if not isinstance(odd, str) else 5)
            self.named(session.move, "/Block/Stmt:0", odd, "Stmt", odd)
            self.named(session.version, at=odd)
            self.named(session.mark, "/", odd)
            self.named(commands.wait, odd)
        self.assertEqual(session.version(), version)

    def test_documents_and_starts(self):
        document = attrd.Document(self.session, calculator_grammar())
        for odd in ODD:
            self.named(document.update, odd)
            self.named(attrd.connect, odd)
            self.named(attrd.start, odd, odd, odd, program="/nosuch")
            self.named(attrd.start, CALCULATOR / "calc.ast", odd, CALCULATOR / "calc.jrag", program=PROGRAM)
            self.named(attrd.start, CALCULATOR / "calc.ast", CALCULATOR / "tree.txt", CALCULATOR / "calc.jrag", program=odd)
            self.named(attrd.explain, attrd.StartFault(1, "x"), [odd])
            self.named(attrd.explain, odd, [odd])
        document.verify()


class CommandLines(unittest.TestCase):
    """`python -m attrd` and `python -m attrd_page`: a sentence and a status, and never a traceback."""

    def setUp(self):
        folder = tempfile.TemporaryDirectory()
        self.addCleanup(folder.cleanup)
        self.folder = FilePath(folder.name)
        (self.folder / "bytes").write_bytes(b"\xff\xfe")
        (self.folder / "empty").write_bytes(b"")
        (self.folder / "folder").mkdir()

    def told(self, *words):
        """The status and the standard error of a command line, in the folder of these files."""
        path = os.pathsep.join(str(ROOT / "clients" / it) for it in ("python", "hub", "page"))
        ran = subprocess.run([sys.executable, "-m", *words], cwd=self.folder, stdin=subprocess.DEVNULL, capture_output=True, text=True,
                             env={**os.environ, "PYTHONPATH": path}, timeout=120, check=False)
        self.assertNotIn("Traceback", ran.stderr, words)
        self.assertTrue(ran.stderr.strip(), words)
        return ran.returncode, ran.stderr

    @at_length
    def test_files(self):
        files = [str(CALCULATOR / it) for it in ("calc.ast", "tree.txt", "calc.jrag")]
        for command in (["attrd"], ["attrd_page", "--no-browser"]):
            for number in range(3):
                for name, status in (("nosuch", 3), ("folder", 3), ("bytes", 1)):
                    given = [*files[:number], name, *files[number + 1:]]
                    told = self.told(*command, "--program", PROGRAM, *given)
                    self.assertEqual(told[0], status, told)
                    self.assertTrue(told[1].startswith(f"{name}:"), told)

    @at_length
    def test_programs(self):
        files = [str(CALCULATOR / it) for it in ("calc.ast", "tree.txt", "calc.jrag")]
        wanted = {"/nosuch/attrd": "No such file", "empty": "there is no such program on the PATH (a file here is ./empty)",
                  "./empty": "Permission denied", "./folder": "Permission denied", "true": "the program ended with status 0"}
        for command in (["attrd"], ["attrd_page", "--no-browser"]):
            for program, reason in wanted.items():
                told = self.told(*command, "--program", program, *files)
                self.assertEqual((told[0], reason in told[1]), (3, True), told)

    @at_length
    def test_the_pages_options(self):
        files = [str(CALCULATOR / it) for it in ("calc.ast", "tree.txt", "calc.jrag")]
        for words in (["--port", "99999"], ["--port", "-1"], ["--listen", "/nosuch/x"], ["--listen", "folder"], ["--listen", "x" * 200],
                      ["--connect", "/nosuch/x"], ["--connect", "folder"]):
            told = self.told("attrd_page", "--no-browser", "--program", PROGRAM, *words, *files)
            self.assertEqual(told[0], 3, told)
        self.assertEqual(self.told("attrd_page", "--keep", "many", *files)[0], 2)
