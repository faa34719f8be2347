"""Files of JastAdd's own language in which tokens are spoiled by chance: the program tells the code and the place that the manual says."""
import os
import random
import sys
from typing import Dict, List, Sequence

from tools.of_the_program.jastadd_reading import fault_of
from tools.of_the_program.runs import ProgramTest, ended
from tools.of_the_program.spoiling import TOKENS, spaced, spoiled_once

GRAMMAR = "Program ::= Block;\nabstract Stmt;\nBlock : Stmt ::= Stmt*;\nDecl : Stmt ::= <ID>;\n"
TREE = 'Program(Block([Decl("x")]))\n'
WORDS = ["--forms", "jastadd", "x.ast", "x.txt", "x.jrag"]
# How many spoiled files there are of each form; the variables give others. With ATTRD_SPOILED_TOLD what was refused is told of each form.
FILES, SEED = 30, 1414
# How many of them have to be refused by their reading, and which codes are told of some.
FEWEST, CODES = 10, ("J1", "J10", "J4")
# A file with each form that is read, in which nothing is wrong.
FORMS: Dict[str, str] = {
    "imports": "import java.util.*; import static a.B.c; import d; aspect A { }",
    "aspects": "aspect A { } aspect B { syn int Block.a() = 1; } aspect C { }",
    "modifiers": "aspect A { public final int Block.a() { return 1; } protected syn lazy final int Block.b() = 2; "
                 "private eq Decl.c() = 3; syn int Stmt.c() = 4; }",
    "an attribute": "aspect A { syn lazy String Stmt.a(String n, final Stmt s); eq Stmt.a(String m, Stmt t) = m + 1; "
                    "syn int Decl.b() = 2; }",
    "an inherited attribute": "aspect A { inh lazy int Stmt.a(); eq Program.getBlock().a() = 0; "
                              "eq Block.getStmt(int i).a() { return i; } }",
    "a circular attribute": "aspect A { syn boolean Stmt.a() circular [true] = a(); syn lazy boolean Decl.b() circular [false]; "
                            "eq Decl.b() { return b(); } }",
    "an equation": "aspect A { syn int Stmt.a() = 1; eq Block.a() = getNumStmt(); eq Decl.a() { return getID().equals(\"x\") ? 2 : 3; } }",
    "parameters of numbers": "aspect A { int Block.a(int i, final boolean b) { return b ? i : a(i + 1, !b); } "
                             "syn lazy boolean Decl.b(boolean t, int n, String s, Stmt u) = t || n < 3; }",
    "attributes of all classes": "aspect A { inh Program ASTNode.a(); eq Program.getChild().a() = this; "
                                 "public int ASTNode.b(int n) { return n + 1; } eq Decl.b(int m) = m; "
                                 "syn lazy String ASTNode.c() = a().c(); }",
    "a name of two attributes": "aspect A { syn int Block.a() = 1; inh lazy int Decl.a(); eq Block.getStmt(int i).a() { return i; } }",
    "short names of lists": "aspect A { int Block.a() { return sum (s : getStmts()) { 1 }; } "
                            "boolean Block.b() { for (Stmt s : this.getStmts()) if (s == null) return true; return false; } }",
    "a method": "aspect A { int Stmt.a(String n) { return 1; } public boolean Block.b(Stmt s, final String t) { return s == this; } }",
    "a declaration again": "aspect A { syn lazy Stmt Stmt.a(String n) = null; public Block Block.a(String m) { return this; } "
                           "syn Decl Decl.a(String n); }",
    "if": "aspect A { int Block.a() { if (getNumStmt() > 0) return 1; if (b()) return 2; return 3; } boolean Block.b() { return true; } }",
    "if and else": "aspect A { int Block.a() { if (getNumStmt() > 0) return 1; else if (getNumStmt() < 0) { return 2; } else return 3; } }",
    "blocks": "aspect A { int Block.a() { ; { { if (true) { return 1; } } ; } { return 2; } } }",
    "a loop to true": "aspect A { boolean Block.a() { for (Stmt s : getStmtList()) if (s instanceof Decl) return true; return false; } }",
    "a loop to false": "aspect A { boolean Block.a() { for (final Stmt s : getStmtList()) { if (s == null) { return false; } } "
                       "return true; } }",
    "a loop to its element": "aspect A { Stmt Block.a() { for (Stmt s : this.getStmtList()) if (s != this) return s; return null; } }",
    "a loop to a value": "aspect A { int Block.a() { for (Stmt s : getStmtList()) if (s.b() > 1) return s.b() * 2; return -1; } "
                         "int Stmt.b() { return 7; } }",
    "loops in a row": "aspect A { boolean Block.a() { for (Stmt s : getStmtList()) if (true) return false; "
                      "for (Decl d : getStmtList()) if (false) return true; if (true) return false; return true; } }",
    "folds": "aspect A { int Block.a() { return sum (s : getStmtList()) { s instanceof Decl ? 1 : 0 }; } "
             "boolean Block.b() { return exists (s : getStmtList()) { first (t : getStmtList()) { true } == s }; } }",
    "constants": "aspect A { syn nta Decl Program.a() = new Decl(\"?\"); public syn lazy nta Block Program.b() { return new Block("
                 "new List<Stmt>().add(new Decl(\"x\")).add(new Block(new List()))); } }",
    "more constants": "aspect A { syn nta lazy Decl Program.a() = new Decl(\"\"); syn nta final Block Program.b() { return new Block(new List()); } }",
    "operators": "aspect A { boolean Block.a() { return 1 + 2 * - 3 / 4 % 5 - 6 < 7 == ! (8 >= 9) || true && 1 <= 2 != (3 > 4); } }",
    "choices": "aspect A { syn int Block.a() = true ? 1 : false ? 2 : 3; "
               "String Block.b() { return (true ? \"y\" : \"n\") + (1 == 2 ? 3 : 4); } }",
    "casts and calls": "aspect A { String Block.a() { return ((Decl) getStmt(0)).getID(); } "
                       "Decl Block.b() { return (Decl) this.getStmt(a().equals(\"\") ? 0 : 1); } }",
}
# What comes in the place of tokens, or between them.
OTHERS = ("syn inh eq lazy circular nta final public void static new super if else for while return import aspect int boolean String "
          "Block Set List Opt add x true null this exists sum instanceof getChild ; , . ( ) { } [ ] < > = == != ! + - * / % ? : && ::= "
          "0 1 007 2147483648 \"t\" \"\\n\" \"\\q\" \" # é").split()


def without_statement(tokens: Sequence[str], chance: random.Random) -> List[str]:
    """The tokens without those from a `return` to the next semicolon, or to before it."""
    at = chance.choice([at for at, it in enumerate(tokens) if it == "return"])
    end = tokens.index(";", at) if ";" in tokens[at:] else at
    return [*tokens[:at], *tokens[end + chance.randrange(2):]]


def spoiled(tokens: Sequence[str], chance: random.Random) -> List[str]:
    """The tokens, spoiled once to three times, and others than they were."""
    found = list(tokens)
    while found == tokens:
        for _ in range(chance.choice((1, 1, 2, 3))):
            is_without = "return" in found and chance.random() < 0.2
            found = (without_statement(found, chance) if is_without else spoiled_once(found, OTHERS, chance)) or ["aspect"]
    return found


class Spoiled(ProgramTest):
    """What is told of spoiled files."""

    def setUp(self) -> None:
        super().setUp()
        self.count, self.seed = (int(os.environ.get(f"ATTRD_SPOILED_{name}", usual)) for name, usual in (("FILES", FILES), ("SEED", SEED)))
        (self.folder / "x.ast").write_text(GRAMMAR)
        (self.folder / "x.txt").write_text(TREE)

    def told(self, text: str) -> str:
        """The fault that the program tells of the file; nothing where it is accepted."""
        (self.folder / "x.jrag").write_text(text, encoding="utf-8", newline="")
        status, out, err = ended(self.begin(WORDS))
        self.assertEqual((status, out), (1 if err else 0, b""))
        return err.decode().removeprefix("x.jrag: ").rstrip("\n")

    def assert_as_read(self, text: str) -> str:
        """The program tells what reading meets; gives the code of that, nothing where it meets none."""
        wanted, told = fault_of(text), self.told(text)
        if wanted is None:
            self.assertFalse(told.startswith(("J1 ", "J10 ", "J11 ")) or self.is_later(text, told), f"{told}\n{text}")
            return ""
        self.assertEqual(told, wanted, text)
        return wanted.partition(" ")[0]

    @staticmethod
    def is_later(text: str, told: str) -> bool:
        """Whether a fault is told at a closing brace, where no expression begins, or by J10 at the `new` of a constant that stands in itself."""
        line, _, column = told.rpartition(" ")[2].partition(":")
        at = text.split("\n")[int(line) - 1][int(column) - 1:] if told else ""
        return at.startswith("}") or (told.startswith("J10 ") and at.startswith("new") and "nta" in text)

    def test_each_form_is_read(self) -> None:
        for form, text in FORMS.items():
            with self.subTest(form):
                self.assertEqual((fault_of(text), self.told(text)), (None, ""))

    def test_spoiled_files_are_told_as_read(self) -> None:
        codes = {form: self.codes_of(form, text) for form, text in FORMS.items()}
        for form, told in codes.items():
            refused = sum(map(bool, told))
            if os.environ.get("ATTRD_SPOILED_TOLD"):
                print(f"{form}: {len(told)} spoiled, {refused} refused by their reading", file=sys.stderr)
            self.assertEqual(len(told), self.count, f"files of {form} differ")
            self.assertGreaterEqual(refused, FEWEST * self.count // FILES, f"so few files of {form} are refused")
        self.assertLessEqual(set(CODES), {it for told in codes.values() for it in told})

    def codes_of(self, form: str, text: str) -> List[str]:
        """The codes that are told of spoiled files of the form."""
        codes: List[str] = []
        for number in range(self.count):
            chance = random.Random(f"{self.seed}.{form}.{number}")
            with self.subTest(f"{form}.{number}"):
                codes.append(self.assert_as_read(spaced(spoiled(TOKENS.findall(text), chance), chance)))
        return codes
