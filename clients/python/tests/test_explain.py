"""Faults of files in words."""
import errno
import os
import re
import tempfile
import unittest
from pathlib import Path as FilePath
from unittest import mock

import attrd
from attrd.explaining import SENTENCES
from attrd.file_faults import unreadable
from support import CALCULATOR, PROGRAM, ROOT


class Explained(unittest.TestCase):
    def setUp(self):
        folder = tempfile.TemporaryDirectory()
        self.addCleanup(folder.cleanup)
        self.folder = FilePath(folder.name)

    def explained(self, grammar=None, tree=None, aspect=None):
        files = []
        for name, text in (("calc.ast", grammar), ("tree.txt", tree), ("calc.jrag", aspect)):
            file = self.folder / name
            file.write_text((CALCULATOR / name).read_text() if text is None else text, encoding="utf-8")
            files.append(file)
        with self.assertRaises(attrd.StartFault) as caught:
            attrd.start(*files, program=PROGRAM)
        return attrd.explain(caught.exception, files)

    def test_a_caret_below_the_place(self):
        found = self.explained(aspect="aspect A {\n\tsyn int Program.a() = tru;\n}")
        self.assertEqual((found.code, found.line, found.column), ("J3", 2, 24))
        lines = str(found).splitlines()
        self.assertEqual(lines[1][lines[2].index("^"):][:3], "tru")
        self.assertTrue(lines[3].startswith("hint: "))

    def test_a_long_line(self):
        found = self.explained(grammar="A ::= " + " ".join(f"<T{it}>" for it in range(300)) + ";")
        lines = str(found).splitlines()
        self.assertLess(len(lines[1]), 110)
        self.assertEqual(lines[1][lines[2].index("^")], "A")

    def test_the_end_of_a_file(self):
        found = self.explained(grammar="A ::= B\n")
        self.assertEqual((found.code, found.line, found.column, found.source), ("G1", 2, 1, ""))

    def test_the_place_in_a_tree(self):
        self.assertIn("at /Block/Stmt:0/Init/Value", str(self.explained(tree='Program(Block([Decl("x",Num("1"))]))')))
        self.assertIn("there is no class Nix", str(self.explained(tree='Program(Block([Decl("x",Nix())]))')))
        found = self.explained(tree='Program(Block([Decl("x", Num(1))]))')
        self.assertEqual((found.code, found.column), ("F1", 25))
        self.assertIn("4097 bytes", str(self.explained(tree=f'Program(Block([Decl("{"a" * 4097}",-)]))')))

    def test_a_grammar_fault(self):
        (self.folder / "x.ast").write_text("A ::= B;")
        with self.assertRaises(attrd.GrammarFault) as caught:
            attrd.Grammar.load(self.folder / "x.ast")
        self.assertEqual(attrd.explain(caught.exception, [self.folder / "x.ast"]).code, "G3")

    def test_where_a_tree_file_is_no_term(self):
        """What isn't seen is named; the place counts lines and columns from 1."""
        term = 'Program(Block([Decl("x",Num(1))]))'
        cases = [
            (term + "\r\n", 1, 35, "a carriage return, as of lines that end with CRLF, stands behind the term"),
            (term.replace("[", "[\r\n"), 1, 16, "a carriage return, as of lines that end with CRLF, stands within the term"),
            ("\ufeff" + term, 1, 1, "a byte order mark (BOM) stands in front of the term"),
            (term + "\n\n", 2, 1, "a second newline stands behind the term"),
            (term + "\nx", 2, 1, "there is more behind the newline at the end"),
            (term + " \n", 1, 35, "a blank stands behind the term"),
            (term.replace("[", "[\t"), 1, 16, "a tab stands within the term"),
            (term.replace("[", "[\n"), 1, 16, "a newline stands within the term"),
            ("", 1, 1, "the file is empty"),
            (term[:-1] + "\n", 1, 34, "the file ends before the term does: neither , nor a closing sign"),
            (term[:-2], 1, 33, "the file ends before the term does: neither , nor a closing sign"),
        ]
        for tree, line, column, reason in cases:
            with self.subTest(reason):
                (self.folder / "tree.txt").write_bytes(tree.encode())
                found = self.explained_as_it_is()
                place = (found.code, found.line, found.column)
                self.assertEqual((place, found.sentence), (("F1", line, column), f"The file is no term: {reason}."))

    def test_a_tree_file_that_is_no_utf_8(self):
        (self.folder / "tree.txt").write_bytes('Program(Block([Decl("\xe4'.encode() + b'\xff",-)]))')
        found = self.explained_as_it_is()
        self.assertEqual((found.code, found.column, found.sentence), ("F1", 23, "The file is no term: the byte FF is no UTF-8."))

    def explained_as_it_is(self):
        files = [CALCULATOR / "calc.ast", self.folder / "tree.txt", CALCULATOR / "calc.jrag"]
        with self.assertRaises(attrd.StartFault) as caught:
            attrd.start(*files, program=PROGRAM)
        return attrd.explain(caught.exception, files)

    def test_files_that_cannot_be_read(self):
        """The reason of the system is put into words."""
        self.assertIn("tree.txt: read fault. There is no such file.", str(self.explained_as_it_is()))
        (self.folder / "tree.txt").mkdir()
        self.assertIn("tree.txt: read fault. It is a directory.", str(self.explained_as_it_is()))

    def test_a_reason_of_the_system_is_taken_from_the_program(self):
        for told, sentence in (("gone.txt: read fault\nInput/output error\n", "The system says: Input/output error."),
                               ("gone.txt: read fault\nIs a directory\n", "It is a directory."),
                               ("gone.txt: read fault\n", "There is no such file.")):
            with self.subTest(told):
                found = attrd.explain(attrd.StartFault(3, told), ["a.ast", "gone.txt", "a.jrag"])
                self.assertEqual((found.file, found.name, found.sentence), ("gone.txt", "read fault", sentence))

    @unittest.skipIf(os.geteuid() == 0, "root may read each file")
    def test_a_file_that_this_user_may_not_read(self):
        (self.folder / "tree.txt").touch(0)
        self.assertIn("read fault. This user may not read it.", str(self.explained_as_it_is()))

    def test_the_reasons_of_the_system(self):
        with mock.patch("builtins.open", side_effect=PermissionError(errno.EACCES, "Permission denied")):
            self.assertEqual(unreadable("tree.txt"), "this user may not read it")
        self.assertIsNone(unreadable(__file__))
        self.assertEqual(unreadable(f"{__file__}/x"), "there is no such file")

    def test_no_fault_of_a_file(self):
        with self.assertRaises(attrd.StartFault) as caught:
            attrd.start("a", "b", "c", program=PROGRAM, options=["--keep", "0"])
        self.assertRaises(attrd.AttrdError, attrd.explain, caught.exception, ["a", "b", "c"])

    def test_each_code_of_the_manual(self):
        manual = (ROOT / "docs" / "MANUAL.md").read_text(encoding="utf-8")
        codes = set(re.findall(r"^\| ([GJF][0-9]+) \|", manual, re.M))
        self.assertEqual(codes, set(SENTENCES))
