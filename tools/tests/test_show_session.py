"""The session that `make run` shows: each line with its reply below it, over the language of README's first screen."""
import contextlib
import io
import os
import tempfile
import unittest
from pathlib import Path
from typing import List, Tuple

from tools.examples import blocks_of
from tools.show_session import NoReply, answered, shown

ROOT = Path(__file__).resolve().parents[2]
SAMPLE = ROOT / "samples/sum"


class Pairs(unittest.TestCase):
    """Which reply stands below which line."""

    def test_a_line_has_its_reply_below(self) -> None:
        self.assertEqual([*answered(["0 version", "1 show /"], ["0 ok 0", "1 = A()"])], ["> 0 version", "0 ok 0", "> 1 show /", "1 = A()"])

    def test_an_empty_line_has_none(self) -> None:
        self.assertEqual([*answered(["", "0 version"], ["0 ok 0"])], ["> ", "> 0 version", "0 ok 0"])

    def test_the_answer_to_a_question_stands_behind_the_line_that_gave_it_a_turn(self) -> None:
        lines, replies = ["0 post / a()", "0 version"], ["0 open 1", "0 done 1 0 = 3", "0 ok 0"]
        self.assertEqual([*answered(lines, replies)], ["> 0 post / a()", "0 open 1", "0 done 1 0 = 3", "> 0 version", "0 ok 0"])

    def test_a_line_without_a_reply_is_told(self) -> None:
        with self.assertRaises(NoReply) as raised:
            list(answered(["0 version", "1 show /"], ["0 ok 0"]))
        self.assertEqual(str(raised.exception), "1 show /")


class Shown(unittest.TestCase):
    """What is printed, and the status, of programs that say fixed words."""

    def run_program(self, script: str) -> Tuple[int, List[str], str]:
        with tempfile.TemporaryDirectory() as name:
            folder = Path(name)
            for file, text in {"a.ast": "A;", "b.jrag": "", "tree.txt": "A()", "session": "0 version\n"}.items():
                (folder / file).write_text(text, encoding="utf-8")
            program = folder / "program"
            program.write_text(f"#!/bin/sh\n{script}\n", encoding="utf-8")
            os.chmod(program, 0o755)
            out, err = io.StringIO(), io.StringIO()
            with contextlib.redirect_stdout(out), contextlib.redirect_stderr(err):
                status = shown(program, folder)
        return status, out.getvalue().splitlines(), err.getvalue()

    def test_the_words_of_the_program_and_its_replies(self) -> None:
        status, printed, told = self.run_program('read line; echo "$line: $*"')
        self.assertEqual((status, told), (0, ""))
        self.assertEqual(printed, ["$ attrd a.ast tree.txt b.jrag", "> 0 version", "0 version: a.ast tree.txt b.jrag"])

    def test_a_program_that_refuses_a_file(self) -> None:
        status, printed, told = self.run_program('echo "a.ast: G1 syntax at 1:1" >&2; exit 1')
        self.assertEqual((status, told), (1, "a.ast: G1 syntax at 1:1\n"))
        self.assertEqual(printed[-1], "(no reply: the program has ended)")

    def test_a_program_that_says_nothing(self) -> None:
        self.assertEqual(self.run_program("exit 0")[0], 1)


class TheSample(unittest.TestCase):
    """It is the language of README's first screen, and its session begins with the one there."""

    def setUp(self) -> None:
        self.blocks = blocks_of((ROOT / "README.md").read_text(encoding="utf-8"))

    def test_its_files_are_those_of_the_first_page(self) -> None:
        files = {rest: lines for _, word, rest, lines in reversed(self.blocks) if word == "file"}
        for name in ("sum.ast", "sum.jrag", "tree.txt"):
            self.assertEqual((SAMPLE / name).read_text(encoding="utf-8").splitlines(), files[name], name)

    def test_its_session_begins_with_that_of_the_first_page(self) -> None:
        first = next(lines for _, word, _, lines in self.blocks if word == "run")
        lines, replies = ((SAMPLE / it).read_text(encoding="utf-8").splitlines() for it in ("session", "replies"))
        self.assertEqual(["$ attrd sum.ast tree.txt sum.jrag", *answered(lines, replies)][:len(first)], first)


if __name__ == "__main__":
    unittest.main()
