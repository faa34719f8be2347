"""JastAdd's own language of aspects: `--forms jastadd`. What it reads row by row is tests/pages/JASTADD.md."""
import re
import shlex
from pathlib import Path
from typing import List

from tools.of_the_program.runs import SECONDS, ProgramTest, ended
from tools.sources import ROOT

GRAMMAR = b"A ::= <On:boolean> B*;\nB ::= <Name>;\n"
TREE = b'A(true,[B("x"),B("y")])\n'
# A method, a loop, and a circular attribute, which the word takes in.
ASPECTS = b"""import java.util.*;
aspect A {
  public boolean A.has(String n) {
    for (B b : getBList()) if (b.getName().equals(n)) return true;
    return false;
  }
  syn boolean A.goesRound() circular [false] { if (getOn()) return true; return goesRound(); }
}
"""
LINES = b'0 ask / has("y")\n0 ask / has("z")\n0 ask / goesRound()\n0 token / On false\n0 ask / goesRound()\n'
REPLIES = b"0 = true\n0 = false\n0 = true\n0 ok 1\n0 = false\n"
# Lists of words that name the language, whatever else they name.
NAMING = "--forms jastadd", "--forms=jastadd", "--forms jastadd,circular", "--forms circular,jastadd", "--forms jastadd,jastadd"
# Samples whose aspects need no word, or `circular`; what is told of them is the same in either language.
SAMPLES = "calculator", "grammars", "flow", "machines", "objects"
# The head of an equation for a component, up to the accessor's name behind `get`.
FOR_COMPONENT = re.compile(r"(\beq\s+\w+\s*\.\s*)get(?=\w+\s*\((?:int \w+)?\)\s*\.)")


def commands(folder: Path) -> List[List[str]]:
    """The words of the sessions that a sample's page has, behind the program's name: files, and behind them `< LINES | diff - REPLIES`."""
    lines = (folder / "README.md").read_text(encoding="utf-8").splitlines()
    return [shlex.split(it)[2:] for it in lines if it.startswith("$ attrd ") and " < " in it]


class JastAdd(ProgramTest):
    """What the word has the program read."""

    def setUp(self) -> None:
        super().setUp()
        for name, held in ("a.ast", GRAMMAR), ("a.txt", TREE), ("a.jrag", ASPECTS):
            (self.folder / name).write_bytes(held)

    def test_lists_that_name_the_language(self) -> None:
        for words in NAMING:
            with self.subTest(words):
                run = self.begin([*words.split(), "a.ast", "a.txt", "a.jrag"])
                self.assertEqual((*run.communicate(LINES, timeout=SECONDS), run.returncode), (REPLIES, b"", 0))

    def test_without_the_word_the_file_is_refused(self) -> None:
        for words in "", "--forms circular":
            with self.subTest(words):
                run = self.begin([*words.split(), "a.ast", "a.txt", "a.jrag"])
                self.assertEqual(ended(run), (1, b"", b"a.jrag: J10 form left out at 1:1\n"))

    def test_what_is_no_text_is_refused_as_ever(self) -> None:
        (self.folder / "a.jrag").write_bytes(b"aspect A { } \xff")
        self.assertEqual(ended(self.begin(["--forms", "jastadd", "a.ast", "a.txt", "a.jrag"])), (1, b"", b"a.jrag: J1 syntax at 1:1\n"))
        (self.folder / "a.jrag").write_bytes(b" " * 4_194_305)
        self.assertEqual(ended(self.begin(["--forms", "jastadd", "a.ast", "a.txt", "a.jrag"])), (1, b"", b"a.jrag: J11 limit at 1:1\n"))

    def test_the_file_with_the_fault_is_named(self) -> None:
        (self.folder / "b.jrag").write_bytes(b"aspect B { int A.b() { } }")
        run = self.begin(["--forms", "jastadd", "a.ast", "a.txt", "a.jrag", "b.jrag"])
        self.assertEqual(ended(run), (1, b"", b"b.jrag: J4 kind at 1:24\n"))

    def test_aspects_of_the_profile_mean_the_same(self) -> None:
        count = 0
        for folder in (ROOT / "samples" / name for name in SAMPLES):
            for words in commands(folder):
                at = words.index("<")
                files = [str(folder / it) for it in words[:at] if "." in it]
                with self.subTest(" ".join(words)):
                    run = self.begin(["--forms", "jastadd", *files])
                    out, err = run.communicate((folder / words[at + 1]).read_bytes(), timeout=SECONDS)
                    self.assertEqual((out, err, run.returncode), ((folder / words[-1]).read_bytes(), b"", 0))
                count += 1
        self.assertGreaterEqual(count, len(SAMPLES))

    def renamed(self, path: Path) -> Path:
        """A copy of a file in which equations name components by themselves; the file where it has no such equation."""
        text, count = FOR_COMPONENT.subn(r"\1", path.read_text(encoding="utf-8"))
        if count == 0:
            return path
        copy = self.folder / f"{path.parent.name}-{path.name}"
        copy.write_text(text, encoding="utf-8")
        return copy

    def test_equations_name_components_by_themselves(self) -> None:
        for folder in (ROOT / "samples" / name for name in SAMPLES):
            for words in commands(folder):
                at = words.index("<")
                written = [folder / it for it in words[:at] if "." in it]
                files = [self.renamed(it) for it in written]
                with self.subTest(" ".join(words)):
                    self.assertNotEqual(files, written)
                    run = self.begin(["--forms", "jastadd", *files])
                    out, err = run.communicate((folder / words[at + 1]).read_bytes(), timeout=60)
                    self.assertEqual((out, err, run.returncode), ((folder / words[-1]).read_bytes(), b"", 0))
