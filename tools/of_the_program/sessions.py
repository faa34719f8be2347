"""Whole sessions: lines, the replies to them, and the work that they cost. test_sessions.py plays them with each keeper."""
from pathlib import Path
from typing import NamedTuple, Optional, Sequence

DATA = Path(__file__).resolve().parent.parent.parent / "crates/attrd/data"


class Sample(NamedTuple):
    """What stands in the files."""

    grammar: str
    tree: str
    aspects: Sequence[str]


class Session(NamedTuple):
    """Lines, the replies to them, and the work that they cost, where it is told; and how many values are made for them with cut-off."""

    name: str
    lines: str
    replies: str
    work: Optional[int] = None
    made: Optional[int] = None


DOUBLED = """aspect Doubled {
  syn String Use.d1() = getID() + getID();
  syn String Use.d2() = d1() + d1();
  syn String Use.d3() = d2() + d2();
  syn String Use.d4() = d3() + d3();
}
"""
CALCULATOR = Sample((DATA / "calc.ast").read_text(encoding="utf-8"), (DATA / "tree.txt").read_text(encoding="utf-8"),
                    [*((DATA / it).read_text(encoding="utf-8") for it in ("calc.jrag", "probe.jrag")), DOUBLED])
OPTIONAL = Sample("P ::= [X:D];\nabstract D;\nA : D;\nB : D;\n", "P(A())", ["""aspect T {
  syn lazy D P.d() = hasX() ? getX() : null;
  syn lazy boolean P.isA() = d() instanceof A;
  syn lazy int P.n() = d().k();
  syn int D.k() = 0;
  eq A.k() = 1;
  eq B.k() = 2;
}
"""])
SIGNS = Sample("Sum ::= Left:Num Right:Num; Num ::= <Value:int>;", "Sum(Num(3),Num(4))", ["""aspect Signs {
  syn lazy int Sum.total() = getLeft().twice() + getRight().twice();
  syn lazy int Num.twice() = getValue() * 2;
  syn lazy boolean Sum.isPositive() = total() > 0;
  syn lazy String Sum.told() = isPositive() ? "yes" : "no";
}
"""])

# Over the calculator.
SESSIONS = [
    Session("a value is computed through names", "0 ask /Block/Stmt:1/Expr value()\n", "0 = 3\n", 8),
    Session("a reference is told by its path", "0 ask /Block/Stmt:1/Expr/Left decl()\n", "0 = /Block/Stmt:0\n", 3),
    Session("a second question costs nothing", """\
0 ask /Block/Stmt:1/Expr value()
0 ask /Block/Stmt:1/Expr value()
""", """\
0 = 3
0 = 3
""", 8),
    Session("a token edit flushes what rests on it", """\
0 ask /Block/Stmt:1/Expr value()
0 token /Block/Stmt:1/Expr/Right Value 5
0 ask /Block/Stmt:1/Expr value()
""", """\
0 = 3
0 ok 1
0 = 6
""", 10),
    Session("an insert moves what is behind", """\
0 ask /Block/Stmt:1/Expr value()
0 insert /Block Stmt 0 Decl("y",-)
0 ask /Block/Stmt:2/Expr value()
""", """\
0 = 3
0 ok 1
0 = 3
""", 13),
    Session("a null receiver is a fault", """\
0 drop /Block/Stmt:0
0 ask /Block/Stmt:0/Expr/Left value()
""", """\
0 ok 1
0 fault null in /Block/Stmt:0/Expr/Left.value
""", 3),
    Session("entries of dropped nodes are gone", """\
0 ask /Block/Stmt:1/Expr value()
0 drop /Block/Stmt:0
0 insert /Block Stmt 0 Decl("x",Num(9))
0 ask /Block/Stmt:1/Expr value()
""", """\
0 = 3
0 ok 1
0 ok 2
0 = 11
""", 15),
    Session("marks follow their nodes", """\
1 mark u /Block/Stmt:1/Expr/Left
2 insert /Block Stmt 0 Decl("y",-)
1 ask $u decl()
1 where u
2 where u
""", """\
1 ok 0
2 ok 1
1 = /Block/Stmt:1
1 = /Block/Stmt:2/Expr/Left
2 refused 3 mark
"""),
    Session("nodes are not compared by content", """\
0 set /Block/Stmt:1/Expr Add(Num(1),Num(1))
0 ask /Block/Stmt:1/Expr same()
0 ask /Block/Stmt:1/Expr alike()
""", """\
0 ok 1
0 = false
0 = true
"""),
    Session("a circle is told and ends with the edit", """\
0 set /Block/Stmt:0/Init Use("x")
0 ask /Block/Stmt:1/Expr value()
0 set /Block/Stmt:0/Init Num(1)
0 ask /Block/Stmt:1/Expr value()
""", """\
0 ok 1
0 circular /Block/Stmt:0.value
0 ok 2
0 = 3
"""),
    Session("what is not come to makes no circle", """\
0 ask / c1()
0 ask / c2()
0 ask / c3()
""", """\
0 = false
0 fault zero in /.c2
0 circular /.circ
"""),
    Session("a stale line changes nothing", """\
0 token /Block/Stmt:1/Expr/Right Value 5
1 at 0 token /Block/Stmt:1/Expr/Right Value 7
1 show /Block/Stmt:1/Expr/Right
1 at 1 version
""", """\
0 ok 1
1 refused 2 stale 1
1 = Num(5)
1 ok 1
"""),
    Session("sessions are read or questioned", """\
x version
1000 version
00 version
0 ask / big()
""", """\
? refused 1 syntax
? refused 1 syntax
? refused 1 syntax
0 = -2147483648
"""),
    Session("an empty line has no reply", """
0 ask /Block/Stmt:1/Expr value()

0 version
""", """\
0 = 3
0 ok 0
""", 8),
    Session("texts are quoted", """\
0 token /Block/Stmt:0 ID "a\\"b"
0 show /Block/Stmt:0
0 ask /Block local("a\\"b")
""", """\
0 ok 1
0 = Decl("a\\"b",Num(1))
0 = /Block/Stmt:0
"""),
    Session("an optional is emptied and filled", """\
0 ask /Block/Stmt:1/Expr value()
0 drop /Block/Stmt:0/Init
0 ask /Block/Stmt:1/Expr value()
0 put /Block/Stmt:0 Init Num(7)
0 ask /Block/Stmt:1/Expr value()
0 put /Block/Stmt:0 Init Num(8)
""", """\
0 = 3
0 ok 1
0 = 2
0 ok 2
0 = 9
0 refused 9 taken
""", 15),
    Session("each refusal has its code", """\
0 ask / value()
0 ask /Block local()
0 ask /Block/Stmt:5 value()
0 show /Block/Stmt
0 insert /Block Init 0 Num(1)
0 insert /Block Stmt 3 Decl("z",-)
0 set /Block/Stmt:0 Expr()
0 token /Block/Stmt:0 ID 5
0 ask /Block local("q")
""", """\
0 refused 13 attribute
0 refused 14 arguments
0 refused 4 path
0 refused 4 path
0 refused 5 component
0 refused 8 index
0 refused 6 class
0 refused 7 fit
0 = null
"""),
    Session("an index name is the index", """\
0 ask /Block/Stmt:1 pos()
0 drop /Block/Stmt:0
0 ask /Block/Stmt:0 pos()
0 ask /Block pos()
""", """\
0 = 1
0 ok 1
0 = 0
0 = -1
""", 3),
    Session("texts are joined", "0 ask / join()\n", '0 = "n0-7"\n'),
    Session("refused edits leave the tree", """\
0 insert /Block Stmt 0 Num(1)
0 show /
0 drop /Block
0 show /
0 put /Block/Stmt:0 Init Num(1)
0 show /
0 insert /Block Stmt 3 Block([])
0 show /
""", """\
0 refused 7 fit
0 = Program(Block([Decl("x",Num(1)),Print(Add(Use("x"),Num(2)))]))
0 refused 10 fixed
0 = Program(Block([Decl("x",Num(1)),Print(Add(Use("x"),Num(2)))]))
0 refused 9 taken
0 = Program(Block([Decl("x",Num(1)),Print(Add(Use("x"),Num(2)))]))
0 refused 8 index
0 = Program(Block([Decl("x",Num(1)),Print(Add(Use("x"),Num(2)))]))
"""),
    Session("a kept reference survives a token edit", """\
0 ask /Block/Stmt:1/Expr value()
0 token /Block/Stmt:0/Init Value 4
0 ask /Block/Stmt:1/Expr value()
""", """\
0 = 3
0 ok 1
0 = 6
""", 12),
    Session("a name that changes is looked up again", """\
0 ask /Block/Stmt:1/Expr value()
0 token /Block/Stmt:0 ID "y"
0 ask /Block/Stmt:1/Expr value()
""", """\
0 = 3
0 ok 1
0 fault null in /Block/Stmt:1/Expr/Left.value
""", 11),
    Session("a moved statement is found and asked at its new place", """\
0 insert /Block Stmt 2 Block([])
0 mark p /Block/Stmt:1
0 ask /Block/Stmt:1/Expr value()
0 move /Block/Stmt:1 to /Block/Stmt:2 Stmt 0
0 where p
0 ask /Block/Stmt:1/Stmt:0/Expr value()
0 move /Block/Stmt:1 to /Block/Stmt:1 Stmt 0
""", """\
0 ok 1
0 ok 1
0 = 3
0 ok 2
0 = /Block/Stmt:1/Stmt:0
0 = 3
0 refused 11 inside
""", 14),
    Session("refused moves leave the tree", """\
0 move /Block/Stmt:0 to /Block Init 0
0 move / to / Stmt 0
0 move / to /Block Stmt 0
0 move /Block/Stmt:0 to /Block Stmt 2
0 move /Block to /Block Stmt 0
0 move /Block/Stmt:2 to /Block Stmt 0
0 move /Block/Stmt:0 to /Block/Stmt:2 Stmt 0
0 move u$ to /Block Stmt 0
0 move $u to /Block Stmt 0
0 move /Block/Stmt:0 to $u Stmt 0
0 move /Block/Stmt:0 to /Block Stmt
0 move /Block/Stmt:0 at /Block Stmt 0
0 move /Block/Stmt:0 to /Block Stmt 00
0 show /
""", """\
0 refused 5 component
0 refused 5 component
0 refused 7 fit
0 refused 8 index
0 refused 10 fixed
0 refused 4 path
0 refused 4 path
0 refused 1 syntax
0 refused 3 mark
0 refused 3 mark
0 refused 1 syntax
0 refused 1 syntax
0 refused 1 syntax
0 = Program(Block([Decl("x",Num(1)),Print(Add(Use("x"),Num(2)))]))
""", 0),
    Session("a move within a list", """\
0 move /Block/Stmt:1 to /Block Stmt 0
0 show /
0 move /Block/Stmt:1 to /Block Stmt 1
0 show /
""", """\
0 ok 1
0 = Program(Block([Print(Add(Use("x"),Num(2))),Decl("x",Num(1))]))
0 ok 2
0 = Program(Block([Print(Add(Use("x"),Num(2))),Decl("x",Num(1))]))
""", 0),
    Session("a moved block keeps what is answered within it", """\
0 insert /Block Stmt 2 Block([Decl("y",Num(4)),Print(Use("y"))])
0 insert /Block Stmt 3 Block([])
0 ask /Block/Stmt:2/Stmt:1/Expr value()
0 move /Block/Stmt:2 to /Block/Stmt:3 Stmt 0
0 ask /Block/Stmt:2/Stmt:0/Stmt:1/Expr value()
""", """\
0 ok 1
0 ok 2
0 = 4
0 ok 3
0 = 4
""", 6),
    Session("a moved block loses what was answered above it", """\
0 insert /Block Stmt 2 Block([Decl("y",Num(4)),Print(Add(Use("y"),Use("x")))])
0 insert /Block Stmt 3 Block([])
0 ask /Block/Stmt:2/Stmt:1/Expr value()
0 move /Block/Stmt:2 to /Block/Stmt:3 Stmt 0
0 ask /Block/Stmt:2/Stmt:0/Stmt:1/Expr value()
""", """\
0 ok 1
0 ok 2
0 = 5
0 ok 3
0 = 5
""", 20),
    Session("a move to where the node stands forgets what rests on its list", """\
0 ask /Block/Stmt:1/Expr value()
0 move /Block/Stmt:1 to /Block Stmt 1
0 ask /Block/Stmt:1/Expr value()
0 move /Block/Stmt:0 to /Block Init 0
0 move /Block to /Block Stmt 0
0 ask /Block/Stmt:1/Expr value()
""", """\
0 = 3
0 ok 1
0 = 3
0 refused 5 component
0 refused 10 fixed
0 = 3
""", 13),
    Session("a question in turns is waited for by its session", """\
0 post /Block/Stmt:1/Expr value()
1 wait 1
0 wait 1
""", """\
0 open 1
1 refused 15 question
0 done 1 0 = 3
"""),
    Session("a question in turns is answered on the tree as it is", """\
0 post /Block/Stmt:1/Expr value()
1 token /Block/Stmt:1/Expr/Right Value 5
0 wait 1
""", """\
0 open 1
1 ok 1
0 done 1 1 = 6
"""),
    Session("the place of a question in turns is gone", """\
0 post /Block/Stmt:1/Expr value()
0 drop /Block/Stmt:0
""", """\
0 open 1
0 ok 1
0 done 1 1 refused 4 path
"""),
    Session("a circle in turns", "0 post / circ()\n", """\
0 open 1
0 done 1 0 circular /.circ
"""),
    Session("the mark of a question in turns is gone", """\
0 mark u /Block/Stmt:1/Expr/Left
0 post $u decl()
0 drop /Block/Stmt:1
""", """\
0 ok 0
0 open 1
0 ok 1
0 done 1 1 refused 3 mark
"""),
    Session("no question in turns", """\
0 post $v decl()
0 wait 7
""", """\
0 refused 3 mark
0 refused 15 question
"""),
    Session("a question where the last one was asked", """\
100 ask /Block/Stmt:1/Expr/Left value()
100 ask /Block/Stmt:1/Expr/Left decl()
100 ask /Block/Stmt:1/Expr/Left lookup("x")
100 ask /Block/Stmt:1/Expr/Left lookup()
100 ask /Block/Stmt:1/Expr/Left pos()
100 ask /Block/Stmt:1/Expr/Left decl
100 ask /Block/Stmt:1/Expr/Left decl()x
101 ask /Block/Stmt:1/Expr/Left decl()
""", """\
100 = 1
100 = /Block/Stmt:0
100 = /Block/Stmt:0
100 refused 14 arguments
100 refused 13 attribute
100 refused 1 syntax
100 refused 1 syntax
101 = /Block/Stmt:0
""", 6),
    Session("another node is where the last question was asked", """\
100 ask /Block/Stmt:1/Expr/Right value()
100 set /Block/Stmt:1/Expr Add(Num(3),Num(4))
100 ask /Block/Stmt:1/Expr/Right value()
100 ask /Block/Stmt:1/Expr/Right value()
100 insert /Block Stmt 0 Decl("y",-)
100 ask /Block/Stmt:1/Expr/Right value()
100 ask /Block/Stmt:2/Expr/Right value()
100 at 1 ask /Block/Stmt:2/Expr/Right value()
""", """\
100 = 2
100 ok 1
100 = 4
100 = 4
100 ok 2
100 refused 4 path
100 = 4
100 refused 2 stale 2
""", 2),
]
# What an edit may have changed is the same again, or isn't.
KEPT_AGAIN = [
    Session("the manual's: a number that is the same again, and another one", """\
0 ask /Block/Stmt:1/Expr value()
0 token /Block/Stmt:1/Expr/Right Value 5
0 token /Block/Stmt:1/Expr/Right Value 2
0 ask /Block/Stmt:1/Expr value()
0 token /Block/Stmt:1/Expr/Right Value 7
0 ask /Block/Stmt:1/Expr value()
""", """\
0 = 3
0 ok 1
0 ok 2
0 = 3
0 ok 3
0 = 8
""", 12, 11),
    Session("a token changes, and changes back", """\
0 ask /Block/Stmt:1/Expr value()
0 token /Block/Stmt:0/Init Value 4
0 ask /Block/Stmt:1/Expr value()
0 token /Block/Stmt:0/Init Value 1
0 ask /Block/Stmt:1/Expr value()
""", """\
0 = 3
0 ok 1
0 = 6
0 ok 2
0 = 3
"""),
    Session("a token that changes back is asked for in between by one of two", """\
0 ask /Block/Stmt:1/Expr value()
0 token /Block/Stmt:0/Init Value 4
0 token /Block/Stmt:0/Init Value 1
0 ask /Block/Stmt:1/Expr value()
0 token /Block/Stmt:0/Init Value 4
0 ask /Block/Stmt:0/Init value()
0 ask /Block/Stmt:1/Expr value()
""", """\
0 = 3
0 ok 1
0 ok 2
0 = 3
0 ok 3
0 = 4
0 = 6
"""),
    Session("what comes to the front of a list changes no value", """\
0 ask /Block/Stmt:1/Expr value()
0 insert /Block Stmt 0 Decl("y",-)
0 ask /Block/Stmt:2/Expr value()
0 ask /Block/Stmt:2/Expr/Left decl()
0 insert /Block Stmt 0 Print(Num(7))
0 ask /Block/Stmt:3/Expr value()
""", """\
0 = 3
0 ok 1
0 = 3
0 = /Block/Stmt:1
0 ok 2
0 = 3
"""),
    Session("a fault is mended", """\
0 ask /Block/Stmt:1/Expr value()
0 token /Block/Stmt:0 ID "y"
0 ask /Block/Stmt:1/Expr value()
0 token /Block/Stmt:0 ID "x"
0 ask /Block/Stmt:1/Expr value()
0 drop /Block/Stmt:0
0 ask /Block/Stmt:0/Expr value()
""", """\
0 = 3
0 ok 1
0 fault null in /Block/Stmt:1/Expr/Left.value
0 ok 2
0 = 3
0 ok 3
0 fault null in /Block/Stmt:0/Expr/Left.value
"""),
    Session("a circle comes and goes", """\
0 ask /Block/Stmt:1/Expr value()
0 set /Block/Stmt:0/Init Use("x")
0 ask /Block/Stmt:1/Expr value()
0 set /Block/Stmt:0/Init Num(1)
0 ask /Block/Stmt:1/Expr value()
""", """\
0 = 3
0 ok 1
0 circular /Block/Stmt:0.value
0 ok 2
0 = 3
"""),
    Session("a reference changes, and changes back", """\
0 ask /Block/Stmt:1/Expr value()
0 insert /Block Stmt 0 Decl("x",Num(7))
0 ask /Block/Stmt:2/Expr/Left decl()
0 ask /Block/Stmt:2/Expr value()
0 drop /Block/Stmt:0
0 ask /Block/Stmt:1/Expr/Left decl()
0 ask /Block/Stmt:1/Expr value()
""", """\
0 = 3
0 ok 1
0 = /Block/Stmt:0
0 = 9
0 ok 2
0 = /Block/Stmt:0
0 = 3
"""),
    Session("a statement is moved to where its name means another one, and back", """\
0 insert /Block Stmt 2 Block([Decl("x",Num(8))])
0 ask /Block/Stmt:1/Expr value()
0 move /Block/Stmt:1 to /Block/Stmt:2 Stmt 0
0 ask /Block/Stmt:1/Stmt:0/Expr value()
0 move /Block/Stmt:1/Stmt:0 to /Block Stmt 1
0 ask /Block/Stmt:1/Expr value()
0 ask /Block/Stmt:1 pos()
""", """\
0 ok 1
0 = 3
0 ok 2
0 = 10
0 ok 3
0 = 3
0 = 1
"""),
]
# Over OPTIONAL.
REUSED = [
    Session("the number of a node that left is another one's", """\
0 ask / isA()
0 ask / n()
0 drop /X
0 put / X B()
0 ask / isA()
0 ask / n()
""", """\
0 = true
0 = 1
0 ok 1
0 ok 2
0 = false
0 = 2
"""),
]
# Over SIGNS.
LOST = [
    Session("a change is lost on its way up", """\
0 ask / told()
0 token /Left Value 5
0 ask / told()
0 token /Left Value -5
0 ask / told()
0 token /Left Value 3
0 token /Right Value -9
0 ask / told()
0 ask / total()
""", """\
0 = "yes"
0 ok 1
0 = "yes"
0 ok 2
0 = "no"
0 ok 3
0 ok 4
0 = "no"
0 = -12
"""),
]

# Twenty classes, each of which uses three of them and one that isn't there: 1 + 20 + 80 * 2 + 4 values tell how many uses are wrong.
CLASSES = Sample("Program ::= Class*;\nClass ::= <Name> Use*;\nUse ::= <Name>;\n",
                 "Program([" + ",".join(f'Class("{it}",[Use("b"),Use("h"),Use("t"),Use("u")])' for it in "abcdefghijklmnopqrst") + "])",
                 ["""aspect Classes {
  syn lazy Class Program.find(String n) = first (c : getClassList()) { c.getName().equals(n) };
  inh Class Use.lookup(String n);
  eq Program.getChild().lookup(String n) = find(n);
  syn lazy Class Use.meant() = lookup(getName());
  syn lazy boolean Use.isWrong() = meant() == null;
  syn lazy int Class.wrong() = sum (u : getUseList()) { u.isWrong() ? 1 : 0 };
  syn lazy int Program.wrong() = sum (c : getClassList()) { c.wrong() };
}
"""])

# What is made behind an edit: what looked itself at what it touches, and what used a value that has changed.
MADE = [
    Session("a class comes in at the top, which nothing uses: the four names, the new class and the program are made", """\
0 ask / wrong()
0 insert / Class 0 Class("New",[])
0 ask / wrong()
""", """\
0 = 20
0 ok 1
0 = 20
""", 185 + 186, 185 + 6),
    Session("it is one that is used: so are its uses, and the classes that these are in", """\
0 ask / wrong()
0 insert / Class 0 Class("u",[])
0 ask / wrong()
""", """\
0 = 20
0 ok 1
0 = 0
""", 185 + 186, 185 + 6 + 20 * 3),
    Session("a use is renamed, and means the same", """\
0 ask / wrong()
0 token /Class:3/Use:3 Name "v"
0 ask / wrong()
""", """\
0 = 20
0 ok 1
0 = 20
""", 185 + 5, 185 + 2),
    Session("a class comes in at the top, and the question is posted: no more is made", """\
0 ask / wrong()
0 insert / Class 0 Class("New",[])
0 post / wrong()
0 wait 1
""", """\
0 = 20
0 ok 1
0 open 1
0 done 1 1 = 20
""", 185 + 186, 185 + 6),
    Session("it is one that is used, in turns", """\
0 ask / wrong()
0 insert / Class 0 Class("u",[])
0 post / wrong()
0 wait 1
""", """\
0 = 20
0 ok 1
0 open 1
0 done 1 1 = 0
""", 185 + 186, 185 + 6 + 20 * 3),
    Session("what changes back in between is asked for by one of two", """\
0 ask / wrong()
0 token /Class:3 Name "w"
0 ask /Class:0/Use:0 meant()
0 token /Class:3 Name "d"
0 ask / wrong()
""", """\
0 = 20
0 ok 1
0 = /Class:1
0 ok 2
0 = 20
"""),
]
