"""What JastAdd2 has and this profile leaves out: `check` tells all of it in one run, and which section of the page says what to write."""
import random
import re
import unittest

from at_length import at_length
import attrd
from attrd.authoring import Source, check
from attrd.authoring.ways import PAGE, SECTIONS, section
from support import CALCULATOR, PROGRAM, ROOT, page_files, refused_rows

GRAMMAR = Source("calc.ast", (CALCULATOR / "calc.ast").read_text())
CALC = Source("calc.jrag", (CALCULATOR / "calc.jrag").read_text())
# Each line has the faults that are named at its end, with the section of the page, and no other.
FORMS = """import java.util.*; //: J10/1
aspect Forms {
  public class Note implements Comparable<Note> { //: J10/4
    private final String text;
    public Note(String text) { this.text = text; }
  }
  interface Named { String called(); } //: J10/2
  Decl implements Named; //: J10/2
  private int Block.count = 0; //: J10/4
  public Block.Block(Stmt first) { count = 1; } //: J10/4
  public abstract String Expr.text(); //: J10/4
  public String Num.text() { return "" + getValue(); } //: J10/4
  protected void Block.print() { System.out.println(size()); } //: J10/4
  coll Set<Use> Decl.uses() [new HashSet<Use>()] with add root Program; //: J10/13 J1/1
  Use contributes this when decl() != null to Decl.uses() for decl(); //: J10/13
  Print contributes { if (isLong()) collection.add(this); } to Decl.uses(); //: J10/13
  rewrite Use { when (decl() == null) to Expr new Num(0); } //: J10/12
  refine Values eq Num.value() { return refined() + 1; } //: J10/10
  cache Num.value(); //: J10/15
  syn nta Num Program.one() = new Num(1); //: J10/11
  eq Program.one().rank() = 1; //: J3/11
  inh int Expr.rank();
  inh boolean Decl.isLast(); //: J8/0
  syn Set<String> Block.names() { //: J1/1
    Set<String> found = new HashSet<String>(); //: J10/5
    for (Stmt s : getStmts()) found.add(s.name());
    return found;
  }
  syn boolean Block.has(String n) = names().contains(n); //: J4/1
  syn lazy boolean Block.loops() circular [false] = loops(); //: J10/14
  syn int ASTNode.weight() = 1; //: J3/2
  eq Num.weight() = 2;
  eq Block.getChild(int i).rank() = i; //: J10/15
  syn int Num.first() = 1; //: J1/15
  syn int Num.odd() = getValue() & 1; //: J1/15
  syn int Num.parsed() = Integer.parseInt(label()); //: J3/1
  syn String Num.label() = "n" + getValue();
  syn boolean Use.isLong() = getID().length() > 8; //: J4/1
  syn Expr Decl.start() = getInitOpt(); //: J3/15
  syn Num Program.two() = new Num(2); //: J1/11
  syn int Num.more() = super.value() + 1; //: J3/10
  syn Stmt Stmt.above() = getParent(); //: J3/3
  syn int Expr.padded(int width) = 1; //: J5/6
  syn int Expr.fits(String n, Decl d, Block b) = 1; //: J5/8
  syn Decl Use.own() = lookup("my_" + getID()); //: J5/7
  syn Decl Block.local(Use u) = null; //: J2/8
  syn int Use.lookup() = 1; //: J2/9
  inh int Stmt.lookup(String n); //: J2/9
  syn int Num.getNumChild() = 1; //: J12/3
  syn int Block.last() { //:
    int n = 0; //: J10/5
    while (n < getNumStmts()) n++;
    return n;
  }
  syn Expr Print.shown() { Expr e = getExpr(); return e; } //: J10/5
}
"""
# A declaration of each form; each begins with what is refused.
DECLARATIONS = (
    "coll int Block.sum() [0] with add root Program;", "Use contributes 1 to Block.sum();", "public int Block.n() { return 1; }",
    "int Block.m() { if (true) { return 1; } return 2; }", "private int Block.k = 3;", "rewrite Use { when (true) to Expr null; }",
    "refine Values eq Num.value() = 1;", "refine Values public int Num.v() { return 1; }", "class Pair<A, B> { A a; B b; }",
    "enum Sort { ONE, TWO }", "interface Named { String called(); }", "Decl implements Named;", "cache Num.value();",
    "uncache Num.value();",
    "public Block.Block() { super(); }", "static { start(); }", "private static final int[] Block.sizes = { 1, 2, 3 };",
    "public java.util.Map<String, java.util.List<Use>> Block.map(int i) throws Exception { return null; }", "import java.util.Set;")


def marked(text):
    """The lines, codes and sections that a text names in its comments."""
    found = [(number, mark) for number, line in enumerate(text.splitlines(), 1) for mark in line.partition("//:")[2].split()]
    return sorted((number, mark.split("/")[0], section(int(mark.split("/")[1]))) for number, mark in found)


class OneRun(unittest.TestCase):
    @classmethod
    def setUpClass(cls):
        cls.found = check(GRAMMAR, [CALC, Source("forms.jrag", FORMS)], PROGRAM).findings

    def test_each_form_with_its_section(self):
        self.assertEqual(sorted((it.line, it.code, it.section) for it in self.found), marked(FORMS))

    def test_what_is_said(self):
        said = {(FORMS.splitlines()[it.line - 1].partition(" //:")[0].strip(), it.code): f"{it.message} {it.hint}" for it in self.found}
        for line, code, part in (
                ("syn int Num.parsed() = Integer.parseInt(label());", "J3", "`Integer.parseInt` is Java"),
                ("syn int Num.more() = super.value() + 1;", "J3", "There is no `super` here, and so no `super.value`"),
                ("int n = 0;", "J10", "a local variable. The body asks getNumStmts, too"),
                ("int n = 0;", "J10", "A loop becomes a recursion from node to node"),
                ("syn Expr Print.shown() { Expr e = getExpr(); return e; }", "J10",
                 "a local variable. A local variable becomes an attribute of its own"),
                ("syn int Use.lookup() = 1;", "J2", "It stands already at calc.jrag:2, as `inh`. A name is `syn` for all classes or `inh`"),
                ("syn Decl Block.local(Use u) = null;", "J2", "take two names"),
                ("syn Expr Decl.start() = getInitOpt();", "J3", "`getInitOpt()` is `hasInit()` and `getInit()` here"),
                ("protected void Block.print() { System.out.println(size()); }", "J10", "Nothing is changed by aspects"),
                ("syn boolean Block.has(String n) = names().contains(n);", "J4", "`Set<String>` is a type of Java"),
                ("syn int Num.first() = 1;", "J1", "`first` is a reserved word"),
                ("eq Program.one().rank() = 1;", "J3", "`one()` is made by an equation")):
            self.assertIn(part, said[line, code])

    def test_each_behind_others(self):
        """Each declaration is told at its first word, whatever stands before it: in an order, in its reverse, and in one by chance."""
        by_chance = random.Random(5).sample(DECLARATIONS, len(DECLARATIONS))
        for declarations in (DECLARATIONS, DECLARATIONS[::-1], by_chance):
            text = "\n".join(("aspect A {", *declarations, "}"))
            found = [(it.code, it.line, it.column) for it in check(GRAMMAR, [CALC, Source("x.jrag", text)], PROGRAM).findings]
            begun = [("J10", number, 1) for number in range(2, len(declarations) + 2)]
            self.assertEqual([place for place in begun if place not in found], [], text)

    def test_behind_what_has_no_end(self):
        behind = "coll int Block.sum() [0] root Program;\nUse contributes 1 to Block.sum();\nsyn int Num.b() = nix();\n}"
        for first in ("syn int Num.a() = (1 + ;", "syn int Num.a() = 1", "public int Num.a() { if (x) {", "syn Set< Num.a();",
                      "eq Num.a() {"):
            text = f"aspect A {{\n{first}\n{behind}"
            found = check(GRAMMAR, [CALC, Source("x.jrag", text)], PROGRAM).findings
            self.assertLessEqual({(3, "J10"), (4, "J10"), (5, "J3")}, {(it.line, it.code) for it in found}, first)

    def test_several_as_the_list_of_a_fold(self):
        text = "aspect A { syn boolean Block.any() = exists (s : getStmts()) { true }; }"
        found = check(GRAMMAR, [CALC, Source("x.jrag", text)], PROGRAM).findings
        self.assertEqual([(it.code, it.section) for it in found], [("J3", section(15))])
        self.assertIn("`getStmts()` is `getStmtList()` here, as the list of a fold", found[0].hint)

    def test_what_helps_where_bodies_of_statements_are_read(self):
        """Neither is a method that becomes an attribute, nor are bodies one `return` there."""
        for body, number, part in (("{ return super.value(); }", 10, "What `super` would call gets a name of its own"),
                                   ("= super.value() + 1;", 10, "What `super` would call gets a name of its own"),
                                   ("{ switch (1) { case 1: return 1; } return 2; }", 5, "a `switch` becomes a chain of them")):
            text = f"aspect A {{ syn int Num.more() {body} }}"
            found = check(GRAMMAR, [CALC, Source("x.jrag", text)], PROGRAM, "jastadd").findings
            self.assertEqual([(it.code, it.section) for it in found], [("J10", section(number))], body)
            self.assertIn(part, found[0].hint, body)


class OfAnyNode(unittest.TestCase):
    """What is told of ASTNode, as a class and as a kind, and of the root, which has no node above it."""

    def told(self, text, forms):
        return [(it.code, it.column, it.section, f"{it.message} {it.hint}")
                for it in check(GRAMMAR, [CALC, Source("x.jrag", f"aspect A {{ {text} }}")], PROGRAM, forms).findings]

    def test_a_kind_that_is_asked_before_it_is_declared(self):
        """It is told where it is declared, and not where it is asked, unless that is the first fault, which the program tells there."""
        text = "inh ASTNode ASTNode.prev(); eq Program.getChild().prev() = null;"
        found = self.told(f"import java.util.Set; syn int Num.a() = prev().b() + 1; syn int ASTNode.b() = 1; {text}", "jastadd")
        self.assertEqual([(code, of) for code, _, of, _ in found], [("J10", section(1)), ("J3", section(2))])
        found = self.told(f"syn int Num.a() = prev().b() + 1; syn int ASTNode.b() = 1; {text}", "jastadd")
        self.assertEqual([(code, of) for code, _, of, _ in found], [("J3", section(2)), ("J3", section(2))])
        self.assertIn("prev has the kind ASTNode, and no such class is declared", found[0][3])

    def test_the_root_has_none_above(self):
        """It has what ASTNode inherits, as a fault, but where a class below the root's declares that itself."""
        text = "inh Stmt ASTNode.prev(); eq Program.getChild().prev() = null; syn int ASTNode.b() = prev() == null ? 0 : 1;"
        self.assertEqual(self.told(text, "jastadd"), [])
        grammar = Source("p.ast", "P ::= S*;\nabstract Q : P;\nS;\n")
        aspects = "inh S ASTNode.prev(); eq P.getS().prev() = null; syn S Q.prev() = null; syn int ASTNode.b() = prev() == null ? 0 : 1;"
        (found,) = check(grammar, [Source("p.jrag", f"aspect A {{ {aspects} }}")], PROGRAM, "jastadd").findings
        self.assertEqual((found.code, found.section), ("J3", section(2)))
        self.assertIn("The class of the root, P, has no prev", found.message)
        self.assertIn("Give the class of the root an equation of its own", f"{found.message} {found.hint}")
        found = self.told("inh Program ASTNode.all(); eq Program.getChild().all() = this;", "")
        self.assertEqual([(code, of) for code, _, of, _ in found], [("J8", section(2)), ("J3", section(2))])
        self.assertIn("declare it for each of the other classes", found[0][3])

    def test_it_is_no_kind(self):
        """A class that is meant is named; what is declared for it is declared for one above all others where that isn't read."""
        for text, column in (("syn ASTNode Num.a() = this;", 16), ("syn int Num.a(ASTNode n) = 1;", 26), ("inh ASTNode ASTNode.a();", 16),
                             ("syn boolean Num.a() = this instanceof ASTNode;", 34), ("syn int Num.a() = ((ASTNode) this).b();", 31)):
            found = [it for it in self.told(text, "jastadd") if it[0] == "J3"]
            self.assertEqual([(at, of) for _, at, of, _ in found], [(column, section(2))], text)
            self.assertIn("`ASTNode` is no kind: name the class that is meant", found[0][3], text)
        self.assertIn("declare it for that one", self.told("syn int ASTNode.a() = 1;", "")[0][3])

    def test_it_has_no_equations(self):
        for text, at in (("syn int ASTNode.a(); eq ASTNode.a() = 1;", 33), ("syn int ASTNode.b() = 1; eq ASTNode.a() = 1;", 37)):
            found = self.told(text, "jastadd")
            self.assertEqual([it[:3] for it in found], [("J9", at, section(2))], text)
            self.assertIn("ASTNode has no equations of its own. What holds for all nodes stands with the declaration", found[0][3], text)
        self.assertEqual([code for code, *_ in self.told("syn int ASTNode.a(); eq Num.a() = 1;", "jastadd")], ["J7"])

    def test_what_is_called_and_not_its_argument(self):
        found = self.told("syn int Block.a() = getChild(getNumChild() - 1).b();", "")
        self.assertEqual([(code, of) for code, _, of, _ in found], [("J3", section(3))] * 2)
        self.assertIn("no attribute or accessor getChild.", found[0][3])
        self.assertIn("no attribute or accessor getNumChild.", found[1][3])


class Objects(unittest.TestCase):
    def test_what_is_made_of_no_class_of_the_grammar(self):
        """A set, or another object of Java, is no constant; a node might be one."""
        of_java, of_nodes = (1, "Equations make no sets"), (11, "What is always there is a constant")
        for made, (number, part) in (("new TreeSet<String>()", of_java), ("new java.util.TreeSet()", of_java), ("new Num(1)", of_nodes),
                                     ("new List()", of_nodes)):
            text = f"aspect A {{ syn boolean Stmt.a() = null == {made}; }}"
            found = check(GRAMMAR, [CALC, Source("x.jrag", text)], PROGRAM, "jastadd").findings
            self.assertEqual([(it.code, it.column, it.section) for it in found], [("J10", text.index("new") + 1, section(number))], text)
            self.assertIn(part, found[0].hint, text)


class Interfaces(unittest.TestCase):
    TEXT = "aspect A {{ {} syn String Decl.called() = getID(); }}"

    def test_its_methods_are_for_all_nodes(self):
        """Where attributes may be declared for all nodes, and else for a class above."""
        text = self.TEXT.format("public interface Named { String called(); } Decl implements Named;")
        for forms, part in (("jastadd", "`syn String ASTNode.name() = \"\";`"), ("", "by `syn` for a class above")):
            found = check(GRAMMAR, [CALC, Source("x.jrag", text)], PROGRAM, forms).findings
            self.assertEqual([(it.code, it.section) for it in found], [("J10", section(2))] * 2, forms)
            for it in found:
                self.assertIn(part, it.hint)
        text = self.TEXT.format("syn String ASTNode.called() = \"\"; syn boolean ASTNode.isNamed() = false; eq Decl.isNamed() = true;")
        self.assertEqual(check(GRAMMAR, [CALC, Source("x.jrag", text)], PROGRAM, "jastadd").findings, [])


class Receivers(unittest.TestCase):
    def test_a_call_of_what_is_refused_between_parentheses_only_follows(self):
        for text, expected in (("syn int Num.a() = ((Nom) this).b();", [("J3", 31)]), ("syn int Num.a() = ((nix())).b() + 1;", [("J3", 32)]),
                               ("syn int Num.a() = (nix()).b() + (1 + true).b() + this.nix();", [("J3", 31), ("J4", 45), ("J3", 61)])):
            found = check(GRAMMAR, [CALC, Source("x.jrag", f"aspect A {{ {text} }}")], PROGRAM).findings
            self.assertEqual([(it.code, it.column) for it in found], expected, text)


class MadeNodes(unittest.TestCase):
    """What is told of nonterminal attributes where constant ones are read."""

    def test_lists_and_optionals(self):
        for kind, made, said in (("List<Stmt>", "new List<Stmt>()", "its name is `get..List`"), ("List<Stmt>", "null", "its name is `get..List`"),
                                 ("Opt<Expr>", "new Opt<Expr>()", "An optional is none by itself")):
            text = f"aspect A {{ syn nta {kind} Program.known() = {made}; }}"
            found = check(GRAMMAR, [CALC, Source("x.jrag", text)], PROGRAM, "jastadd").findings
            self.assertEqual([(it.code, it.column, it.section) for it in found], [("J10", 20, section(11))], text)
            self.assertIn(said, found[0].hint, text)

    def test_in_a_grammar(self):
        for component, part in (("/<ID>/", "and no token"), ("/[Num]/", "no optional"), ("/Num", "Between slashes stands a class, with a name"),
                                ("/Num:One", ""), ("/Num/", None), ("/One:Num/", None), ("/Num*/", None), ("/Many:Num*/", None)):
            grammar = Source("x.ast", f"Program ::= {component};\nNum;\n")
            read = check(grammar, [], PROGRAM, "jastadd").findings
            self.assertEqual([(it.code, it.column, it.section) for it in read], [] if part is None else [("G7", 13, section(11))], component)
            self.assertTrue(part is None or part in read[0].hint, component)
            (found,) = check(grammar, [], PROGRAM).findings
            self.assertEqual((found.code, found.column, found.section), ("G7", 13, section(11)), component)
            self.assertIn("With `--forms jastadd` `/X/`, `/Name:X/` and the same with a star are read", found.hint, component)
        text = "aspect A { syn nta Num Program.getOne() = new Num(1); syn int Program.one() = getOne().getValue(); }"
        self.assertEqual(check(GRAMMAR, [CALC, Source("x.jrag", text)], PROGRAM, "jastadd").findings, [])


class Loops(unittest.TestCase):
    def told(self, text):
        found = check(GRAMMAR, [CALC, Source("x.jrag", f"aspect A {{ {text} }}")], PROGRAM, "jastadd").findings
        return [(it.code, it.section, f"{it.message} {it.hint}") for it in found]

    def test_over_what_is_no_list(self):
        body = "{ for (Stmt s : over()) if (s.declares(\"x\")) return true; return false; }"
        for kind, number, part in (("Stmt", 5, "and this is a Stmt. Have it go over a list of the tree"),
                                   ("Set<Stmt>", 1, "and this is a Set<Stmt>. A set is the question whether something is in it")):
            found = [it for it in self.told(f"syn boolean Block.any() {body} syn {kind} Block.over() = null;") if it[0] == "J4"]
            self.assertEqual([of for _, of, _ in found], [section(number)], kind)
            self.assertIn("A loop goes over a list of the tree", found[0][2])
            self.assertIn(part, found[0][2])

    def test_several_is_a_list(self):
        """The elements of `getStmts()` have the class of the list's, and a body isn't told to ask what isn't there."""
        found = self.told("syn boolean Block.any() { for (Stmt s : getStmts()) if (s.nix()) return true; return false; }")
        self.assertEqual([code for code, _, _ in found], ["J3"])
        self.assertIn("Stmt has no attribute or accessor nix", found[0][2])
        found = self.told("syn int Block.n() { int n = 0; for (Stmt s : getStmts()) n++; return n; }")
        self.assertEqual([(code, of) for code, of, _ in found], [("J10", section(5))])
        self.assertNotIn("no such accessor", found[0][2])
        self.assertIn("Count by `sum (s : getSList()) { e }`", found[0][2])
        loop = "for (int i = 0; i < getNumStmt(); i++) if (getStmt(i).declares(n)) return true;"
        found = self.told(f"syn boolean Block.b(String n) {{ {loop} return false; }}")
        self.assertEqual([(code, of) for code, of, _ in found], [("J10", section(5))])
        self.assertIn("One with an index becomes a recursion", found[0][2])
        self.assertEqual(self.told("syn int Block.n(int i) = i < getNumStmt() ? n(i + 1) + 1 : 0; syn int Block.m() = n(0);"), [])
        found = self.told("syn int Block.n() { int i = 0; while (i < 3) i++; return i; }")
        self.assertIn("A loop becomes a recursion from node to node", found[0][2])


class Circular(unittest.TestCase):
    def told(self, text, forms="circular"):
        return check(GRAMMAR, [CALC, Source("x.jrag", f"aspect A {{ {text} }}")], PROGRAM, forms).findings

    def test_misplaced_with_the_option(self):
        for text in ("syn circular boolean Num.a() = true;", "syn circular [false] boolean Num.a() = true;",
                     "syn boolean Num.a() circular [true]; eq Num.a() circular [true] = true;",
                     "syn boolean Num.a() circular [true] circular [true] = true;"):
            found = self.told(text)
            self.assertEqual([it.section for it in found], [section(14)], text)
            self.assertIn("behind the parameters, where the attribute is declared", found[0].hint, text)
            self.assertNotIn("--forms", found[0].hint, text)

    def test_another_kind_or_start(self):
        found = self.told("syn int Num.a() circular [0] = 1;")
        self.assertEqual([(it.code, it.section) for it in found], [("J10", section(14))])
        self.assertIn("a boolean attribute is read", found[0].hint)
        for start in ("[0]", "[new X()]", ""):
            text = f"syn boolean Num.a() circular {start} = true;"
            found = self.told(text)
            self.assertEqual([it.section for it in found], [section(14)], text)
            self.assertIn("`circular [false]` or `circular [true]`", found[0].hint, text)
        self.assertIn("`--forms circular`", self.told("syn boolean Num.a() circular [false] = true;", "")[0].hint)


class Mended(unittest.TestCase):
    """What is told in the first run is all that has to be mended."""

    # Lines as they were, and as they are mended; the others stay.
    LINES = (
        ("import java.util.*;", ""),
        ("aspect Shop {", None),
        ("  coll Set<Item> Shop.sold() [new HashSet<Item>()] root Shop;", "  syn int Shop.sold() = sum (p : getPartList()) { p.sold() };"),
        ("  Item contributes this when isSold() to Shop.sold() for shop();",
         "  syn int Part.sold() = 0; eq Item.sold() = isSold() ? 1 : 0;"),
        ("  inh Shop Part.shop();", None),
        ("  eq Shop.getPart().shop() = this;", None),
        ("  public int Part.price() { return 0; }", "  syn int Part.price() = 0;"),
        ("  public int Item.price() { return getPrice(); }", "  eq Item.price() = getPrice();"),
        ("  eq Box.price() { int n = 0; for (Part p : getParts()) n += p.price(); return n; }",
         "  eq Box.price() = sum (p : getPartList()) { p.price() };"),
        ("  syn boolean Part.isSold();", "  syn boolean Part.isSold() = false;"),
        ("  eq Item.isSold() = shop().sells(getName());", None),
        ("  syn boolean Shop.sells(String n) = names().contains(n);", "  syn boolean Shop.sells(String n) = isNamed(n);"),
        ("  syn Set<String> Shop.names() {", "  syn boolean Shop.isNamed(String n)"),
        ("    Set<String> s = new TreeSet<String>();", "    = exists (p : getPartList())"),
        ("    for (Part p : getParts()) s.add(p.name());", "    { p.name().equals(n) };"),
        ("    return s; }", ""),
        ("  syn String Part.name() = \"\";", None),
        ("  eq Item.name() = getNamee();", "  eq Item.name() = getName();"),
        ("  inh int Part.place();", None),
        ("  eq Shop.getPart(int i).place() = i;", None),
        ("  eq Box.getChild(int i).place() = i;", "  eq Box.getPart(int i).place() = i;"),
        ("  inh Box Part.box();", None),
        ("  eq Box.getPart().box() = this;", None),
        ("  eq Shop.getPart().box() = nul;", "  eq Shop.getPart().box() = null;"),
        ("  inh boolean Item.isLast();", "  inh boolean Item.isLast(); eq Shop.getChild().isLast() = true;"),
        ("  syn lazy nta Box Shop.spare() = new Box();", "  syn lazy Box Shop.spare() = null;"),
        ("  syn int Shop.size() = spare().price();", None),
        ("  rewrite Item { when (isSold()) to Part new Box(); }", ""),
        ("}", None))
    GRAMMAR = "Shop ::= Part*; abstract Part; Item : Part ::= <Name> <Price:int>; Box : Part ::= Part*;"

    def found(self, lines):
        return check(Source("shop.ast", self.GRAMMAR), [Source("shop.jrag", "\n".join(lines) + "\n")], PROGRAM).findings

    def test_the_second_run_finds_nothing(self):
        told = {it.line for it in self.found([line for line, _ in self.LINES])}
        mended = [line if other is None or number not in told else other for number, (line, other) in enumerate(self.LINES, 1)]
        body = range(13, 17)  # one declaration, of which the first lines are told
        mended[12:16] = [self.LINES[number - 1][1] for number in body]
        self.assertEqual([str(it) for it in self.found(mended)], [])
        self.assertEqual(told - set(body), {number for number, (_, other) in enumerate(self.LINES, 1) if other is not None} - set(body))


class Page(unittest.TestCase):
    def test_each_section_is_one_of_the_page(self):
        page = (ROOT / "docs" / PAGE).read_text(encoding="utf-8")
        self.assertEqual([section(it) for it in SECTIONS], re.findall(r"^## (\d+\. .*)$", page, re.M))

    @at_length
    def test_each_form_of_the_page(self):
        """What a section of the page shows to be refused is told with a section; a J10 always is."""
        count = 0
        for found, told in self.rows(PAGE):
            if told != "accepted":
                first = next(it for it in found if f"{it.code} {it.name} at {it.line}:{it.column}" == told)
                self.assertTrue(first.section, told)
                count += 1
        self.assertGreater(count, 40)

    @at_length
    def test_the_program_and_check_agree(self):
        """The fault that the program tells of a row is among those that are found, with its code and its place."""
        count = 0
        for found, told in (*self.rows("REFUSALS.md"), *self.rows("JASTADD.md")):
            places = [f"{it.code} {it.name} at {it.line}:{it.column}" for it in found]
            self.assertIn(told, places or ["accepted"])
            count += 1
        self.assertGreater(count, 300)

    def rows(self, page):
        """For each refused row of a page what is found, and what the program itself says of it."""
        files = page_files(page)
        for words, text, _ in refused_rows(page, "x.jrag"):
            names = words[2:] if words[0] == "--forms" else words
            forms = words[1] if words[0] == "--forms" else ""
            if len(text) > 20_000 or "\udcff" in text or any(it not in files for it in names[:2]):
                continue
            texts = {**files, "x.jrag": text}
            aspects = [Source(it, texts[it]) for it in names[2:]]
            found = check(Source(names[0], texts[names[0]]), aspects, PROGRAM, forms).findings
            yield [it for it in found if it.file == "x.jrag"], self.said(names, texts, forms)

    def said(self, names, texts, forms):
        tree = attrd.read_term(texts[names[1]].strip())
        given = [attrd.Text(it, texts[it]) for it in names[2:]]
        try:
            attrd.start(attrd.Text(names[0], texts[names[0]]), tree, *given, program=PROGRAM, options=attrd.forms_options(forms)).close()
            return "accepted"
        except attrd.StartFault as fault:
            return f"{fault.code} {fault.name} at {fault.line}:{fault.column}"


if __name__ == "__main__":
    unittest.main()
