"""The source text beside the tree, by the parser of the page's example."""
from __future__ import annotations

import contextlib
import os
import re
import shutil
import subprocess
import sys
import tempfile
import unittest
from pathlib import Path
from typing import List, Tuple

from at_length import at_length
from browser import Browser
from page_support import CLONE, SECONDS, Served, program

from attrd import AttrdError, Grammar, read_term
from attrd_page.main import is_tree_file, options
from attrd_page.mirror import Mirror
from attrd_page.source import SourceText, load_parser

CALCULATOR = CLONE / "samples" / "calculator"
PARSER = str(CLONE / "clients" / "page" / "examples" / "calculator_text.py")
TEXT = "x = 1\nprint x + 2\n"
# docs/LANGUAGE.md, whose parser and texts serve the page, too.
LANGUAGE = (CLONE / "docs" / "LANGUAGE.md").read_text("utf-8")
SUMS = ("one.sums", "sums.ast", "sums.jrag", "sums_parser.py")


def calculator_files(folder: Path) -> List[str]:
    """Copies of the calculator's files in a folder."""
    names = ("calc.ast", "tree.txt", "calc.jrag")
    return [str(shutil.copy(CALCULATOR / it, folder)) for it in names]


class Texts(unittest.TestCase):
    def setUp(self) -> None:
        self.grammar = Grammar.load(CALCULATOR / "calc.ast")

    def test_the_tree_and_the_places(self) -> None:
        source = SourceText(load_parser(PARSER), self.grammar, "\U0001d51e = 1\nprint x + 2 + y\n")
        tree = read_term('Program(Block([Decl("\U0001d51e",Num(1)),Print(Add(Add(Use("x"),Num(2)),Use("y")))]))')
        self.assertEqual((source.tree, source.fault), (tree, ""))
        mirror = Mirror(self.grammar, tree)
        source.match(mirror, 3)
        self.assertFalse(source.view(mirror, 4)["isCurrent"])
        told = source.view(mirror, 3)
        units = told["text"].encode("utf-16-le")
        shown = {str(mirror.path(mirror.items[number])): units[2 * start:2 * end].decode("utf-16-le") for number, start, end in told["places"]}
        self.assertEqual(shown["/Block/Stmt:0/Init"], "1")
        self.assertEqual(shown["/Block/Stmt:1/Expr/Left"], "x + 2")
        self.assertEqual(shown["/Block/Stmt:1"], "print x + 2 + y")

    def test_texts_and_parsers_that_are_none(self) -> None:
        source = SourceText(load_parser(PARSER + ":parse"), self.grammar, "x +")
        self.assertEqual((source.tree, source.fault, source.places), (None, "no `=` behind x", []))
        wrong = SourceText(lambda text: (read_term("Block([])"), []), self.grammar, "")
        self.assertIn("Block is neither Program nor below it", wrong.fault)
        for name in ("nosuch.py", PARSER + ":nix", str(CALCULATOR / "calc.ast")):
            self.assertRaises(AttrdError, load_parser, name)


class OfALanguageServer(unittest.TestCase):
    """The parser that docs/LANGUAGE.md has one write, as the page's parser; and no TREE."""

    def setUp(self) -> None:
        temporary = tempfile.TemporaryDirectory(prefix="attrd-page-test-")
        self.addCleanup(temporary.cleanup)
        self.folder = Path(temporary.name)
        for name, text in re.findall(r"^```file (\S+)\n(.*?)^```$", LANGUAGE, re.M | re.S):
            (self.folder / name).write_text(text, "utf-8")
        self.text, self.grammar, self.aspects, self.parser = (str(self.folder / it) for it in SUMS)

    def test_its_tree_and_its_places(self) -> None:
        text = "let a = 1;\nshow a + 2;\n"
        source = SourceText(load_parser(self.parser), Grammar.load(self.grammar), text)
        self.assertEqual(source.fault, "")
        self.assertEqual(source.tree, read_term('Program([Let("a",Number(1)),Show(Sum(Name("a"),Number(2)))])'))
        shown = {str(path): text[start:end] for path, start, end in source.places}
        self.assertEqual(shown, {"/": text, "/Statement:0": "let a = 1;", "/Statement:0/Value": "1",
                                 "/Statement:1": "show a + 2;", "/Statement:1/Expr": "a + 2", "/Statement:1/Expr/Left": "a",
                                 "/Statement:1/Expr/Right": "2"})

    def test_its_faults(self) -> None:
        source = SourceText(load_parser(self.parser), Grammar.load(self.grammar), "let a = 1;\nlet b = ;\nlet = 2;\n")
        self.assertIsNone(source.tree)
        self.assertRegex(source.fault, r"\A2:9: .*a name, a number or '\('.* \(and 1 more\)\Z")

    def words(self) -> List[str]:
        return ["--source", self.text, "--parser", self.parser, self.grammar, self.aspects]

    def test_the_page_begins_with_the_tree_of_the_text(self) -> None:
        served = Served(files=lambda _: self.words())
        self.addCleanup(served.close)
        client = served.client()
        self.addCleanup(client.close)
        self.assertEqual(client.ask("0 show /Statement:0"), '0 = Let("width",Number(3))')

    def run_page(self) -> Tuple[int, str]:
        command = [sys.executable, "-m", "attrd_page", "--no-browser", "--program", program(), *self.words()]
        ran = subprocess.run(command, capture_output=True, text=True, timeout=SECONDS,
                             env={**os.environ, "PYTHONPATH": os.pathsep.join(sys.path)})
        return ran.returncode, ran.stderr

    def test_a_text_that_has_no_tree(self) -> None:
        Path(self.text).write_text("let = 2;\n", "utf-8")
        status, told = self.run_page()
        self.assertEqual(status, 1)
        self.assertRegex(told, r"one.sums: it can't be read, and no TREE is given to begin with: 1:5: ")

    def test_a_grammar_that_is_refused(self) -> None:
        Path(self.grammar).write_text("A ::= B;\n", "utf-8")
        status, told = self.run_page()
        self.assertEqual(status, 1)
        self.assertIn("sums.ast:1:1: G3 unknown class.", told)

    def test_which_file_is_the_tree(self) -> None:
        """The second one, where it begins as a term does."""
        tree = str(CALCULATOR / "tree.txt")
        self.assertEqual([is_tree_file(it) for it in (tree, self.aspects, str(self.folder / "nosuch"))], [True, False, True])
        source = ["--source", self.text, "--parser", self.parser, self.grammar]
        given = options([*source, tree, self.aspects])
        self.assertEqual((given.tree, given.aspects), (tree, [self.aspects]))
        given = options([*source, self.aspects, self.aspects])
        self.assertEqual((given.tree, given.aspects), (None, [self.aspects, self.aspects]))
        with open(os.devnull, "w", encoding="utf-8") as nowhere, contextlib.redirect_stderr(nowhere):
            self.assertRaises(SystemExit, options, [self.grammar, tree])


class InTheBrowser(unittest.TestCase):
    def setUp(self) -> None:
        self.browser = Browser()
        self.addCleanup(self.browser.close)
        self.served = Served("--parser", PARSER, "--source", self.written(), files=calculator_files)
        self.addCleanup(self.served.close)
        self.tab = self.browser.window(self.served.address)
        self.tab.until("document.getElementById('path') && source.places.length === 8", "the places of the text")

    def written(self) -> str:
        folder = tempfile.TemporaryDirectory()
        self.addCleanup(folder.cleanup)
        file = Path(folder.name) / "program.calc"
        file.write_text(TEXT, "utf-8")
        return str(file)

    def cursor(self, text: str) -> None:
        """Puts the cursor behind a text, as a click does."""
        self.tab.value("document.getElementById('source-text').focus()")
        self.tab.value(f"document.getElementById('source-text').setSelectionRange({TEXT.index(text) + len(text)}, {TEXT.index(text) + len(text)})")
        self.tab.value("document.getElementById('source-text').dispatchEvent(new Event('click'))")

    @at_length
    def test_a_probe_at_a_place_and_typing(self) -> None:
        tab, client = self.tab, self.served.client()
        self.addCleanup(client.close)
        self.cursor("print x + 2")
        tab.until("document.getElementById('path').textContent === '/Block/Stmt:1/Expr/Right'", "the node at the cursor is selected")
        self.cursor("print x +")
        tab.until("document.getElementById('path').textContent === '/Block/Stmt:1/Expr'", "the sum is selected")
        self.assertEqual(tab.value("document.activeElement.id"), "source-text")
        tab.until("document.getElementById('source-state').textContent === 'The selected node: x + 2'", "its text is told")
        tab.value("document.querySelector('[data-field=\"probe value\"]').click()")
        tab.until("document.querySelector('.probe .text')?.textContent === '3'", "its value")
        tab.value("document.getElementById('source-text').focus()")
        tab.value("document.getElementById('source-text').setSelectionRange(4, 5)")
        tab.type("40")
        tab.until("document.querySelector('.probe .text')?.textContent === '42'", "the value of what is typed")
        self.assertEqual(client.ask("0 show /Block/Stmt:0"), '0 = Decl("x",Num(40))')
        tab.type(" +")
        tab.until("document.getElementById('source-state').textContent.includes(\"can't be read: no expression\")", "a fault of the text")
        tab.key("Backspace")
        tab.key("Backspace")
        tab.until("source.isCurrent", "it can be read again")
        client.ask("0 drop /Block/Stmt:0")
        tab.until("document.getElementById('source-state').textContent.includes('that of this text no more')", "another client's edit")


if __name__ == "__main__":
    unittest.main()
