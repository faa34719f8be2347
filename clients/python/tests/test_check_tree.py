"""What `check` tells of a tree file, of files that can't be read, and of cycles that aren't declared throughout."""
import contextlib
import io
import tempfile
import unittest
from pathlib import Path as FilePath
from unittest import mock

import attrd
from attrd.authoring import Source, check_tree, circles
from attrd.check_command import main
from support import PROGRAM, SAMPLES, page_files

GRAMMAR = Source("net.ast", "Net ::= Place*;\nPlace ::= <Name> Way*;\nWay ::= <To>;\n")
RIGHT = b'Net([Place("a b",[])])'


class OverFiles(unittest.TestCase):
    def setUp(self):
        folder = tempfile.TemporaryDirectory()
        self.addCleanup(folder.cleanup)
        self.folder = FilePath(folder.name)
        self.grammar = self.put("net.ast", GRAMMAR.text.encode())

    def put(self, name, data):
        (self.folder / name).write_bytes(data)
        return str(self.folder / name)

    def run_check(self, *words):
        printed, errors = io.StringIO(), io.StringIO()
        with contextlib.redirect_stdout(printed), contextlib.redirect_stderr(errors):
            status = main(["--program", PROGRAM, *words])
        return status, printed.getvalue(), errors.getvalue()


class Trees(OverFiles):
    def found(self, data, grammar=GRAMMAR):
        return check_tree(grammar, self.put("tree.txt", data), data, PROGRAM)

    def refused(self, data):
        """The code that the program itself tells."""
        with self.assertRaises(attrd.StartFault) as caught:
            attrd.start(attrd.Text("net.ast", GRAMMAR.text), self.put("tree.txt", data), attrd.Text("x.jrag", ""), program=PROGRAM)
        return caught.exception.code, caught.exception.name

    def test_what_does_not_show(self):
        for data, line, column, part in (
                (b"\xef\xbb\xbf" + RIGHT + b"\n", 1, 1, "a byte order mark (BOM) stands in front of the term"),
                (RIGHT + b"\r\n", 1, 23, "a carriage return, as of lines that end with CRLF, stands behind the term"),
                (RIGHT + b" \n", 1, 23, "a blank stands behind the term"),
                (RIGHT + b"\t", 1, 23, "a tab stands behind the term"),
                (RIGHT + b"\n\n", 2, 1, "a second newline stands behind the term"),
                (b" " + RIGHT, 1, 1, "a blank stands within the term"),
                (b'Net([Place("a b", [])])', 1, 18, "a blank stands within the term"),
                (b'Net([Place("a b",\n[])])', 1, 18, "a newline stands within the term"),
                (b'Net([Place("\xc3\xa9\xff",[])])', 1, 14, "the byte FF is no UTF-8"),
                (b"", 1, 1, "the file is empty"),
                (RIGHT + b")", 1, 23, "there is more behind the term"),
                (b'Net([Place("a b",[]', 1, 20, "neither , nor a closing sign")):
            found = self.found(data)
            self.assertEqual(self.refused(data), ("F1", "syntax"), data)
            self.assertEqual((found.code, found.name, found.line, found.column), ("F1", "syntax", line, column), data)
            self.assertIn(part, found.message, data)

    def test_a_tree_that_does_not_fit(self):
        for data, code, part in (
                (b'Net([Plac("a",[])])', "F6", "at /Place:0, there is no class Plac"), (b"Net([Place(1,[])])", "F7", "at /Place:0/Name")):
            self.assertEqual(self.refused(data)[0], code)
            self.assertEqual(self.found(data).code, code)
            self.assertIn(part, self.found(data).message)

    def test_a_right_one(self):
        for data in (RIGHT, RIGHT + b"\n"):
            self.assertIsNone(self.found(data))

    def test_over_a_grammar_with_faults(self):
        """The text of the tree is looked at all the same."""
        broken = Source("net.ast", "Net ::= Nix*;")
        self.assertIn("a second newline", self.found(RIGHT + b"\n\n", broken).message)
        self.assertIsNone(self.found(RIGHT, broken))

    def test_the_prompt_tells_it_too(self):
        tree = self.put("tree.txt", RIGHT + b"\r\n")
        with self.assertRaises(attrd.StartFault) as caught:
            attrd.start(self.grammar, tree, self.put("x.jrag", b""), program=PROGRAM)
        told = attrd.explain(caught.exception, [self.grammar, tree])
        self.assertEqual((told.code, told.line, told.column), ("F1", 1, 23))
        self.assertIn("a carriage return, as of lines that end with CRLF", told.sentence)


class Command(OverFiles):
    def test_with_a_tree(self):
        aspect, tree = self.put("x.jrag", b"aspect A { syn int Net.a() = b(); }"), self.put("tree.txt", RIGHT + b"\n\n")
        status, told, _ = self.run_check("--tree", tree, self.grammar, aspect)
        self.assertEqual(status, 1)
        self.assertIn(f"{aspect}:1:30: J3 unknown name", told)
        self.assertIn(f"{tree}:2:1: F1 syntax. The file is no term: a second newline stands behind the term.", told)
        self.assertTrue(told.endswith("2 faults\n"))
        self.put("tree.txt", RIGHT)
        self.put("x.jrag", b"")
        self.assertEqual(self.run_check("--tree", tree, self.grammar, aspect), (0, "0 faults\n", ""))

    def test_files_that_cannot_be_read(self):
        """A directory, a file that isn't there, and one that may not be read, each with its reason, all in one run."""
        forbidden, read = self.put("forbidden.jrag", b""), FilePath.read_bytes

        def reading(path):
            if str(path) == forbidden:
                raise PermissionError(13, "Permission denied")
            return read(path)
        with mock.patch.object(FilePath, "read_bytes", reading):
            status, told, errors = self.run_check("--tree", str(self.folder), self.grammar, str(self.folder / "none.jrag"), forbidden)
        self.assertEqual((status, told), (3, ""))
        self.assertEqual(errors.splitlines(), [f"{self.folder / 'none.jrag'}: No such file or directory", f"{forbidden}: Permission denied",
                                               f"{self.folder}: Is a directory"])


class Circles(OverFiles):
    ASPECT = """aspect Ways {
  inh Place Way.named(String n);
  eq Net.getPlace().named(String n) = first (p : getPlaceList()) { p.getName().equals(n) };
  syn boolean Place.leads() circular [false] = exists (w : getWayList()) { w.leads() };
  syn boolean Way.leads() = target().leads();
  syn Place Way.target() = named(getTo());
  syn boolean Place.told() = leads();
}
"""

    def test_one_that_is_not_declared(self):
        notes = circles(GRAMMAR, [Source("net.jrag", self.ASPECT)], "circular")
        self.assertEqual([(it.file, it.line) for it in notes], [("net.jrag", 5)])
        self.assertIn("Way.leads asks Place.leads, which is declared circular", notes[0].message)
        self.assertEqual(circles(GRAMMAR, [Source("net.jrag", self.ASPECT)]), [])
        declared = self.ASPECT.replace("Way.leads() =", "Way.leads() circular [false] =")
        self.assertEqual(circles(GRAMMAR, [Source("net.jrag", declared)], "circular"), [])

    def test_it_is_no_fault(self):
        aspect = self.put("net.jrag", self.ASPECT.encode())
        status, told, _ = self.run_check("--forms", "circular", self.grammar, aspect)
        self.assertEqual((status, told.splitlines()[-1]), (0, "0 faults"))
        self.assertIn(f"{aspect}:5: note. Way.leads asks Place.leads", told)

    def test_the_samples_have_none(self):
        for folder, name in (("flow", "flow"), ("grammars", "grammars"), ("machines", "fixpoints")):
            aspects = [Source(it.name, it.read_text()) for it in sorted((SAMPLES / folder).glob("*.jrag")) if it.stem in (name, folder)]
            self.assertEqual(circles(Source("x.ast", (SAMPLES / folder / f"{folder}.ast").read_text()), aspects, "circular"), [], folder)
        files = page_files("FROM_JASTADD.md")
        for grammar, *names in (("gram.ast", "rules.jrag", "nullable.jrag"), ("flow.ast", "flow.jrag", "live.jrag")):
            self.assertEqual(circles(Source(grammar, files[grammar]), [Source(it, files[it]) for it in names], "circular"), [], names)


if __name__ == "__main__":
    unittest.main()
