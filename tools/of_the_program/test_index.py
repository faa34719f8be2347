"""Names looked up by key: no reply is another one, and what was looked up by another name stays cached."""
import re
from typing import List, Sequence, Tuple

from tools.of_the_program.chance import CALCULATED, Chance, Words
from tools.of_the_program.keeping import KeepingTest
from tools.of_the_program.sessions import CALCULATOR, Sample

SCOPES = Sample("""Program ::= Stmt*;
abstract Stmt;
Decl : Stmt ::= <ID:String> <Size:int>;
Large : Decl;
Use : Stmt ::= <ID:String>;
Scope : Stmt ::= Param:Decl* Stmt*;
""", 'Program([Decl("x",1),Use("x"),Scope([Decl("y",2)],[Decl("x",3),Use("x"),Use("y")]),Decl("x",4)])', ["""aspect Scopes {
  inh lazy Decl Stmt.lookup(String n);
  syn boolean Stmt.declares(String n) = false;
  eq Decl.declares(String n) = n.equals(getID());
  syn lazy Decl Program.local(String n) = (Decl) first (s : getStmtList()) { s.declares(n) };
  syn lazy Decl Scope.local(String n) = (Decl) first (s : getStmtList()) { s.declares(n) && s.isShown() };
  syn lazy Decl Scope.param(String n) = first (p : getParamList()) { p.getID().equals(n) };
  syn lazy boolean Scope.hasBoth(String n) = exists (p : getParamList()) { n.equals(p.getID()) } && exists (s : getStmtList()) { s.declares(n) };
  syn lazy boolean Program.hasY() = exists (s : getStmtList()) { s.declares("y") };
  syn boolean Stmt.isShown() = true;
  eq Decl.isShown() = 10 / getSize() > 0;
  eq Program.getStmt(int i).lookup(String n) = local(n);
  eq Scope.getStmt(int i).lookup(String n) = local(n) != null ? local(n) : param(n) != null ? param(n) : lookup(n);
  eq Scope.getParam(int i).lookup(String n) = lookup(n);
  syn lazy Decl Use.decl() = lookup(getID());
  syn lazy int Use.size() = decl().getSize();
  syn lazy int Scope.sizes() = sum (s : getStmtList()) { s.sizeOf() };
  syn lazy int Program.sizes() = sum (s : getStmtList()) { s.sizeOf() };
  syn int Stmt.sizeOf() = 0;
  eq Use.sizeOf() = size();
  eq Scope.sizeOf() = sizes();
}
"""])
# Two elements of one name, names that change to and fro, and nodes whose numbers come again.
SCOPED = Words(
    places=("/", "/Stmt:0", "/Stmt:1", "/Stmt:2", "/Stmt:2/Stmt:0", "/Stmt:2/Stmt:1", "/Stmt:2/Param:0", "/Stmt:3", "$u", "$v", "/Stmt:2/Stmt:2"),
    parts=("ID", "ID", "Size", "Stmt", "Param"),
    values=('"x"', '"y"', '"z"', "0", "5", '""'),
    terms=('Decl("x",5)', 'Decl("y",0)', 'Large("x",6)', 'Use("y")', 'Use("x")', 'Scope([Decl("x",7)],[Use("x")])', 'Scope([],[Decl("y",8),Use("y")])'),
    attributes=("decl()", "size()", "sizes()", 'local("x")', 'local("y")', 'param("x")', 'param("y")', 'hasBoth("x")', "hasY()", 'lookup("z")'),
    edits=(
        'token /Stmt:0 ID "x"', 'token /Stmt:0 ID "y"', 'token /Stmt:2/Param:0 ID "x"', 'token /Stmt:2/Stmt:0 ID "z"', "token /Stmt:0 Size 0",
        'insert / Stmt 0 Decl("x",9)', 'insert / Stmt 0 Decl("z",9)', 'insert /Stmt:2 Stmt 0 Large("x",2)', 'insert /Stmt:2 Param 0 Decl("y",3)',
        "move /Stmt:0 to / Stmt 2", "move /Stmt:0 to /Stmt:2 Stmt 1", "move /Stmt:2/Stmt:0 to / Stmt 0", "drop /Stmt:0", "drop /Stmt:2/Param:0",
        'set /Stmt:0 Decl("x",1)', 'set /Stmt:2 Scope([Decl("y",2)],[Decl("x",3),Use("x"),Use("y")])',
    ),
)
CHOSEN: Sequence[Tuple[str, Sample, Words, int]] = (("scopes", SCOPES, SCOPED, 1961), ("calculator", CALCULATOR, CALCULATED, 1962))
# How many lines there are by chance, and more edits than these are accepted of them.
LINES, EDITS = 6_000, 500
OTHERS: Sequence[List[str]] = ([], ["--cut-off"], ["--keep", "4"], ["--keep", "1"], ["--cut-off", "--keep", "10"])
VERSION = re.compile(r"^0 ok (\d+)\n\Z", re.M)


class Index(KeepingTest):
    """Sessions with and without `--index`."""

    def test_lines_by_chance_are_told_alike(self) -> None:
        for name, sample, words, seed in CHOSEN:
            chance = Chance(seed, words)
            lines = "".join(f"{chance.line()}\n" for _ in range(LINES)) + "0 version\n"
            files = self.write(sample)
            told, work = self.played_with([], 1, files, lines)
            accepted = VERSION.search(told)
            self.assertGreater(int(accepted[1]) if accepted else 0, EDITS, name)
            for options in OTHERS:
                with self.subTest(name, options=options):
                    others = self.played_with(["--index", *options], 1, files, lines)
                    self.assertEqual(others[0], told)
                    self.assertTrue(options or int(others[1].split()[1]) < int(work.split()[1]))

    def work(self, options: List[str], lines: Sequence[str]) -> int:
        """How many values are evaluated for the lines over the scopes."""
        return int(self.played_with(options, 1, self.write(SCOPES), "".join(f"0 {it}\n" for it in lines))[1].split()[1])

    def assert_costs(self, edit: str, index: int, plain: int) -> None:
        """Behind the edit the question for the sizes of the scope evaluates so many values, and without the option so many."""
        ask = "ask /Stmt:2 sizes()"
        tried: List[Tuple[List[str], int]] = [(["--index"], index), ([], plain)]
        for options, wanted in tried:
            cold = self.work(options, [ask])
            self.assertEqual(self.work(options, [ask, edit, ask]) - cold, wanted, (edit, options))

    def test_what_an_edit_makes_old(self) -> None:
        # Cold ten values are evaluated: sizes() of the scope; size(), decl(), lookup(..) of both uses; local("x"), local("y"), param("y").
        # Something of another name: the sum goes over the list, no search comes upon it; each fold did.
        self.assert_costs('insert /Stmt:2 Stmt 3 Decl("z",1)', 1, 9)
        self.assert_costs('insert /Stmt:2 Param 0 Decl("z",1)', 0, 5)
        # The name that is looked up, in front of the other one: all that rests on local("x").
        self.assert_costs('insert /Stmt:2 Stmt 0 Decl("x",9)', 5, 9)
        self.assert_costs("move /Stmt:2/Stmt:0 to /Stmt:2 Stmt 2", 5, 9)
        # A name that goes: then param("x"), and the lookup(..) and the local(..) around the scope are evaluated for the first time.
        self.assert_costs('token /Stmt:2/Stmt:0 ID "z"', 8, 12)
