"""All faults of a grammar and its aspects at once."""
import io
import os
import random
import re
import subprocess
import sys
import tempfile
import unittest
from contextlib import redirect_stderr, redirect_stdout
from pathlib import Path as FilePath

import attrd
from attrd.__main__ import main
from attrd.authoring import Source, Specification, check
from attrd.authoring.patched import Patched
from attrd.authoring.refusal import Judge
from support import CALCULATOR, PROGRAM, SAMPLES, page_files, refused_rows

GRAMMAR = Source("calc.ast", (CALCULATOR / "calc.ast").read_text())
CALC = Source("calc.jrag", (CALCULATOR / "calc.jrag").read_text())
# How many texts are made by chance.
TEXTS = 20
# Each line has the faults that are named at its end, and no other.
BAD = """import java.util.*; //: J10
aspect Bad {
  syn int Expr.twice() = nix() + nux() * 2; //: J3 J3
  syn Nix Expr.broken(); //: J3
  eq Num.broken() = null;
  eq Add.broken() = getLeft().broken();
  syn int Expr.depth(); //: J7
  eq Num.depth() = 1;
  eq Add.depth() = getLeft().dept() + 1; //: J3
  syn int Add.left() = getLeft().left( ; //: J1
  syn int Add.uses() = left() + 1;
  inh int Expr.level(); //: J8
  eq Print.getExpr().level() = 0;
  syn boolean Use.isX() = getID() == "x"; //: J4
  refine Values eq Num.value() = 1; //: J10
  syn int Block.fix() circular [0] = fix() + getNumStmts(); //: J10 J3
  public int Block.size() { return 1; } //: J10
  syn int Program.a() { if (true) return 1; return 2; } //: J10
  syn int Block.f(int n) = 1; //: J5
  syn int Block.g() = size() + f(1);
  eq Use.sizes() = 1; //: J9
  eq Num.depth() = 3; //: J6
  syn Expr Stmt.p() = getParent(); //: J3
  syn int Program.getBlock() = 1; //: J12
  syn int Use.lookup() = 1; //: J2
  syn Decl Block.q() = local(null, null); //: J5
  syn int Decl.i() = getInit(0).value(); //: J5
  syn Set<Decl> Block.all(); //: J1
}
"""


def bad_check(*aspects, grammar=GRAMMAR):
    return check(grammar, aspects, PROGRAM)


class Aspects(unittest.TestCase):
    @classmethod
    def setUpClass(cls):
        cls.found = bad_check(CALC, Source("bad.jrag", BAD))

    def test_all_faults_and_none_that_only_follows(self):
        found = self.found
        wanted = [(number, code) for number, line in enumerate(BAD.splitlines(), 1) for code in line.partition("//:")[2].split()]
        self.assertEqual(sorted((it.line, it.code) for it in found.findings), sorted(wanted))
        self.assertGreater(found.following, 0)
        self.assertEqual([it.start for it in found.findings], sorted(it.start for it in found.findings))
        for it in found.findings:
            self.assertEqual(BAD.count("\n", 0, it.start) + 1, it.line)

    def test_what_is_there_instead(self):
        told = {(it.line, it.code): f"{it.message} {it.hint}" for it in self.found.findings}
        for key, part in {
                (9, "J3"): "Expr has no attribute or accessor dept. There is depth",
                (7, "J7"): "Use comes to no equation for depth",
                (12, "J8"): "Program.getBlock() to Block.getStmt() to Decl.getInit() to Use",
                (14, "J4"): "`==` doesn't stand between a String and a String",
                (15, "J10"): "Give the equation in a class below",
                (16, "J10"): "`circular` begins a form that is left out here. A boolean one is read with `--forms circular`",
                (18, "J10"): "A body is one `return E;`",
                (22, "J6"): "It stands already at bad.jrag:8",
                (23, "J3"): "Have the node above say it: `inh",
                (24, "J12"): "getBlock is an accessor of Program",
                (25, "J2"): "It stands already at calc.jrag:2",
                (26, "J5"): "The attribute is declared as `syn lazy Decl Block.local(String n)` at calc.jrag:4",
                (28, "J1"): "have a node stand for a set or a list"}.items():
            self.assertIn(part, told[key], key)

    def test_right_ones_have_none(self):
        for folder in ("calculator", "objects", "machines"):
            grammar = next((SAMPLES / folder).glob("*.ast"))
            if folder == "calculator":
                grammar, aspects = CALCULATOR / "calc.ast", [CALCULATOR / "calc.jrag"]
            else:
                aspects = [it for it in sorted((SAMPLES / folder).glob("*.jrag")) if it.name not in ("naive.jrag", "fixpoints.jrag")]
            found = check(Source("x.ast", grammar.read_text()), [Source(it.name, it.read_text()) for it in aspects], PROGRAM)
            self.assertEqual(found, ([], 0), folder)

    def test_forms_that_are_left_out_else(self):
        """With the form circular attributes are read; without it each of them is told, and nothing that follows."""
        for folder, name in (("flow", "flow"), ("grammars", "grammars"), ("machines", "fixpoints")):
            aspects = [Source(it.name, it.read_text()) for it in sorted((SAMPLES / folder).glob("*.jrag")) if it.stem in (name, folder)]
            grammar = Source("x.ast", (SAMPLES / folder / f"{folder}.ast").read_text())
            self.assertEqual(check(grammar, aspects, PROGRAM, "circular"), ([], 0), folder)
            left_out = [(it.name, offset.start()) for it in aspects for offset in re.finditer(r"\bcircular(?= \[)", it.text)]
            self.assertEqual([(it.file, it.start, it.code) for it in check(grammar, aspects, PROGRAM).findings],
                             [(file, start, "J10") for file, start in left_out], folder)
            self.assertGreater(len(left_out), 1)

    def test_faults_of_circular_attributes(self):
        text = "aspect F { syn boolean Block.a() circular [0] = a(); syn int Block.b() nta circular [false] = 1; " \
               "syn boolean Block.c() circular [true] = c() && d(); }"
        found = check(GRAMMAR, [Source("f.jrag", text)], PROGRAM, "circular").findings
        told = ["`0` begins a form", "No aspect goes on with `nta` here", "Block has no attribute or accessor d"]
        self.assertEqual([it.code for it in found], ["J10", "J1", "J3"])
        for it, part in zip(found, told):
            self.assertIn(part, it.message)
        self.assertRaises(attrd.StartFault, check, GRAMMAR, [CALC], PROGRAM, "nix")

    def test_each_refused_file_of_the_manual(self):
        """The fault that the program tells is among those that are found, at its place."""
        count, pages = 0, page_files("MANUAL.md")
        for words, text, told in refused_rows("MANUAL.md", "x.jrag"):
            found = re.fullmatch(r"(J\d+) .* at (\d+):(\d+)", told)
            if len(text) > 20_000 or "\udcff" in text:
                continue
            forms = words[1] if words[0] == "--forms" else ""
            files = [*([CALC] if CALC.name in words else []), Source("x.jrag", text)]
            grammar = next(it for it in words if it.endswith(".ast"))
            findings = check(GRAMMAR if grammar == "calc.ast" else Source(grammar, pages[grammar]), files, PROGRAM, forms).findings
            if found is None:
                self.assertEqual((told, findings), ("accepted", []), text)
            else:
                places = [(it.code, it.line, it.column) for it in findings if it.file == "x.jrag"]
                self.assertIn((found[1], int(found[2]), int(found[3])), places, text)
            count += 1
        self.assertGreater(count, 30)


class Chance(unittest.TestCase):
    def test_the_first_fault_is_always_among_them(self):
        """Words of right aspects taken out, doubled and exchanged: what the program tells first is found at its place, and the search ends."""
        chance = random.Random(3)
        specification = Specification(GRAMMAR, [])
        refused = 0
        for _ in range(TEXTS):
            text = changed_words(chance, CALC.text)
            first = Judge(specification.grammar, PROGRAM).refusal([text])
            findings = bad_check(Source("a.jrag", text)).findings
            if first is None:
                self.assertEqual(findings, [], text)
            else:
                refused += 1
                self.assertIn((first.code, first.offset), [(it.code, it.start) for it in findings], text)
                self.assertLess(len(findings), 60, text)
        self.assertGreater(refused, TEXTS // 2)


def changed_words(chance, text):
    """A text with a few of its words taken out, others' copies, or new ones."""
    words = re.findall(r"\w+|\s+|[^\w\s]", text)
    for _ in range(chance.choice((1, 1, 2, 3, 6))):
        at, what = chance.randrange(len(words)), chance.random()
        if what < 0.3:
            del words[at]
        elif what < 0.6:
            words[at] = chance.choice(words)
        else:
            words.insert(at, chance.choice([*words, '"', "(", ")", "{", "}", "\u00a7", "int", "circular", "/*"]))
    return "".join(words)


class Grammars(unittest.TestCase):
    def test_all_faults(self):
        text = "A ::= B C*; B; B;\nD : E ::= <X:float> <Y> Y;\nF ::= [G; H : I; I : H; J ::= /K/; L ::= Child:A; M ::= B \u00a7 B;\n"
        found = bad_check(Source("a.jrag", "aspect A { syn int C.x() = 1; syn int A.y() = getNix(); }"), grammar=Source("x.ast", text))
        told = [(it.code, text[it.start:it.end]) for it in found.findings if it.file == "x.ast"]
        self.assertEqual(told, [("G3", "C"), ("G2", "B"), ("G3", "E"), ("G6", "X"), ("G3", "Y"), ("G1", ";"), ("G4", "H"), ("G4", "I"), ("G7", "/"),
                                ("G5", "Child"), ("G1", "\u00a7")])
        self.assertIn("declared already, at x.ast:1", found.findings[1].message)
        self.assertEqual([(it.code, it.column) for it in found.findings if it.file == "a.jrag"], [("J3", 47)])

    def test_no_class_and_no_finite_tree(self):
        self.assertEqual([it.code for it in bad_check(CALC, grammar=Source("x.ast", "// none")).findings], ["G9"])
        self.assertEqual([it.name for it in bad_check(grammar=Source("x.ast", "A ::= A;")).findings], ["no finite tree"])

    def test_each_refused_grammar_of_the_manual(self):
        for words, text, told in refused_rows("MANUAL.md", "x.ast"):
            if len(text) < 20_000:
                aspects = [Source(it, page_files("MANUAL.md")[it]) for it in words if it == "standard.jrag"]
                findings = check(Source("x.ast", text), aspects, PROGRAM, "jastadd" if "jastadd" in words else "").findings
                self.assertIn(told.split(" ")[0], [it.code for it in findings], text)


class Texts(unittest.TestCase):
    def test_offsets_behind_what_was_put(self):
        patched = Patched("abcdefghij").with_put(2, 4, "XYZ").with_put(6, 7, "")
        self.assertEqual(patched.text, "abXYZefhij")
        self.assertEqual([patched.original_offset(it) for it in range(10)], [0, 1, 2, 2, 2, 4, 5, 7, 8, 9])
        patched.put(1, 8, "-")
        self.assertEqual(patched.text, "a-ij")


class Command(unittest.TestCase):
    def run_check(self, *words):
        environment = {**os.environ, "PYTHONPATH": str(FilePath(__file__).resolve().parent.parent)}
        done = subprocess.run([sys.executable, "-m", "attrd", "check", "--program", PROGRAM, *words], stdout=subprocess.PIPE,
                              stderr=subprocess.PIPE, env=environment, timeout=100, text=True)
        return done.returncode, done.stdout, done.stderr

    def told_here(self, *words):
        """The same by the process of the test: a start takes longer than a check."""
        told, errors = io.StringIO(), io.StringIO()
        with redirect_stdout(told), redirect_stderr(errors):
            status = main(["check", "--program", PROGRAM, *words])
        return status, told.getvalue(), errors.getvalue()

    def test_the_command(self):
        with tempfile.TemporaryDirectory() as folder:
            bad = FilePath(folder) / "bad.jrag"
            bad.write_text("aspect A { syn int Expr.a() = b() + c(); }")
            status, told, _ = self.run_check(str(CALCULATOR / "calc.ast"), str(CALCULATOR / "calc.jrag"), str(bad))
            self.assertEqual(status, 1)
            self.assertIn(f"{bad}:1:31: J3 unknown name. Expr has no attribute or accessor b.", told)
            self.assertTrue(told.endswith("2 faults\n"))
            self.assertEqual(self.told_here(str(CALCULATOR / "calc.ast"), str(CALCULATOR / "calc.jrag")), (0, "0 faults\n", ""))
            bad.write_text("aspect A { syn int Num.getNumChild(); syn int nosuch Num.q(); }")
            _, told, _ = self.told_here(str(CALCULATOR / "calc.ast"), str(CALCULATOR / "calc.jrag"), str(bad))
            self.assertTrue(told.endswith("2 faults, and 1 left out that only follows\n"), told)
            bad.write_bytes(b"aspect \xff")
            status, _, errors = self.told_here(str(CALCULATOR / "calc.ast"), str(bad))
            self.assertEqual((status, errors), (3, f"{bad}: it isn't UTF-8 at byte 7\n"))

    def test_the_tutorial(self):
        files = page_files("TUTORIAL.md")
        names = ["kinds.jrag", "names.jrag", "types.jrag", "errors.jrag"]
        found = check(Source("small.ast", files["small.ast"]), [Source(it, files[it]) for it in names], PROGRAM)
        self.assertEqual(found, ([], 0))

    def test_a_program_that_is_not_there(self):
        self.assertRaises(attrd.AttrdError, check, GRAMMAR, [CALC], "./nosuch")
