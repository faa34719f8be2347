"""Aspects as users of JastAdd write them, where `--forms jastadd` has the program read them: what the client reads of them."""
import unittest

from attrd.authoring import Names, Source, Specification, check, completions
from attrd.authoring.aspect_tree import Form
from attrd.authoring.jastadd_reader import read_aspects
from support import PROGRAM

GRAMMAR = Source("g.ast", "A ::= <On:boolean> B*; B ::= <Name>;")
# A body, and the expression that it means; nothing where a statement isn't read, or its end can be reached.
BODIES = [
    ("return 1;", "1"),
    ("return 1; return 2;", "1"),
    (";; { return 1; }", "1"),
    ("if (a()) return 1; return 2;", "a() ? 1 : 2"),
    ("if (a()) return 1; else if (b()) { return 2; } return 3;", "a() ? 1 : b() ? 2 : 3"),
    ("if (a()) { if (b()) return 1; } return 2;", "a() ? b() ? 1 : 2 : 2"),
    ("for (B x : getBList()) if (x.c()) return true; return d();", "exists (x : getBList()) { x.c() } || d()"),
    ("for (final B x : getBList()) { if (x.c()) { return false; } } return true;", "!exists (x : getBList()) { x.c() } && true"),
    ("for (B x : getBList()) if (x.c()) return x; return null;", "first (x : getBList()) { x.c() }"),
    ("for (B x : getBList()) if (x.c()) return x; return y();", "exists (x : getBList()) { x.c() } ? first (x : getBList()) { x.c() } : y()"),
    ("for (B x : getBList()) if (x.c()) return x.d(1) + 2; return 3;",
     "exists (x : getBList()) { x.c() } ? first (x : getBList()) { x.c() }.d(1) + 2 : 3"),
    ("if (a()) return 1;", None),
    ("for (B x : getBList()) if (x.c()) return 1;", None),
    ("int n = 0; return n;", None),
    ("while (a()) return 1; return 2;", None),
    ("for (int i = 0; i < 3; i = i + 1) return 1; return 2;", None),
    ("for (B x : getBList()) n = n + 1; return 2;", None),
    ("for (B x : getBList()) if (x.c()) return sum (y : getBList()) { 1 }; return 2;", None),
]
# Declarations, and what is read of each: form, kind, class and name.
DECLARATIONS = [
    ("public int A.m() { return 1; }", ("syn", "int", "A", "m")),
    ("int A.m(final String n) { return 1; }", ("syn", "int", "A", "m")),
    ("private syn lazy final B A.b() = getB(0);", ("syn", "B", "A", "b")),
    ("protected inh boolean B.on() circular [true];", ("inh", "boolean", "B", "on")),
    ("public eq A.getB().on() { return true; }", ("eq", None, "A", "on")),
    ("public void A.v() { }", ("other", None, None, None)),
    ("static int A.s() { return 1; }", ("other", None, None, None)),
    ("private int A.count = 0;", ("other", None, None, None)),
    ("coll Set<B> A.bs() [new HashSet<B>()];", ("other", None, None, None)),
]
# Each line has the faults that are named at its end, with the section of the page, and no other.
FAULTS = """import java.util.*;
aspect A {
  public int A.a() { if (getNumB() > 1) return 1; } //: J4/5
  public int A.b() { int n = 0; for (B b : getBList()) n++; return n; } //: J10/5
  public int A.c() { for (B b : getBList()) n++; return 2; } //: J10/5
  public void A.d() { System.out.println(1); } //: J10/4
  syn boolean A.e() { for (B b : getBs()) if (b.f()) return true; return false; }
  public boolean B.f() { return g(); } //: J3/0
  syn boolean A.h() { while (true) return true; return false; } //: J10/5
  syn boolean A.i() { for (B b : getBList()) if (b.f()) return 1; return false; } //: J4/0
  coll Set<B> A.bs() [new HashSet<B>()]; //: J10/13 J10/1
  public int A.j() { return 1; }
  syn int A.k(int a, boolean b, String c, B d, int e) = 1; //: J5/8
  syn int A.l(int n) = n > 0 ? l(n - 1) : l(true); //: J5/0
  syn int A.m(String s) = m(s + 1) + m(2); //: J5/0
}
"""
# The same of what is declared again for a class below: T and U are below S.
CLASSES = Source("s.ast", "P ::= S*; S ::= <Name>; T : S; U : T;")
AGAIN = """aspect A {
  public int S.k() { return 1; }
  syn int T.k() = 2;
  boolean U.k() { return true; } //: J4/4
  syn lazy S S.l() = this;
  syn T T.l();
  public B T.l() { return null; } //: J4/4
  syn boolean S.m() circular [true] = true;
  syn boolean T.m() circular [false] = true; //: J2/15
  int T.n(String n) { return 1; }
  int S.n(boolean b) { return 1; } //: J2/8
}
"""
# And of what is declared for ASTNode: the root, a P, has a fault in place of an inherited one.
EVERYWHERE = """aspect A {
  public int ASTNode.a() { return 1; }
  eq P.a() = 2;
  int T.a() { return 3; }
  int ASTNode.a() { return 4; } //: J2/15
  boolean U.b() { return a() == 1; }
  inh P ASTNode.p();
  eq P.getS().p() = this;
  syn P U.q() = p();
  syn P P.r() = p();
  syn int P.s() = p(); //: J4/0
}
"""
# And of names that are synthesized in one class and inherited in another.
BOTH = """aspect A {
  syn int S.d() = 1;
  inh int B.d();
  eq Q.getB().d() = 2;
  inh boolean B.d(int n); eq Q.getB().d(int n) = n > 1;
  inh int T.d(); //: J2/9
  inh int B.e();
  syn boolean S.e() = true;
  eq Q.getB().e() = 3;
  syn boolean B.f() = e() == 3;
  syn int S.g() = e(); //: J4/0
}
"""
# And of attributes of one name that are told apart by how many parameters they have.
NUMBERED = """aspect A {
  syn int S.n() = 1;
  syn int S.n(int a) = a + n();
  int T.n() { return n(2); }
  eq U.n(int a) = a;
  inh P S.up();
  inh boolean S.up(String w);
  eq P.getS().up() = this;
  eq P.getS().up(String w) = w.equals(getS(0).getName());
  syn boolean P.all() = exists (s : getSList()) { s.up("a") && s.n(1) > s.n() };
}
"""
# What is wrong with more of them, each alone: a declaration, its code with its section, and what is said.
MISNUMBERED = [
    ("syn int S.n(String w) = 3;", "J2/8", "It stands already at x.jrag:3."),
    ("inh int U.n(int a);", "J2/9", "It stands already at x.jrag:3, as `syn`."),
    ("syn int T.w() = n(1, 2);", "J3/0",
     "T has no n with 2 parameters. It has `int T.n()` at x.jrag:4, and `syn int S.n(int a)` at x.jrag:3."),
    ("syn int T.w() = n(true);", "J5/0", "This is a boolean, and no argument of this kind is taken here."),
    ("eq U.n(int a, int b) = 1;", "J9/0", "U has no n with 2 parameters. It has `int T.n()` at x.jrag:4, and `syn int S.n(int a)` at x.jrag:3."),
    ("eq P.getS().up(int a, int b) = null;", "J9/0", "No class has an inherited attribute up with 2 parameters. "
     "There is `inh P S.up()` at x.jrag:6, and `inh boolean S.up(String w)` at x.jrag:7."),
]
BESIDE = Source("s.ast", "P ::= S* Q; S ::= <Name>; T : S; Q ::= B; B;")
# And of constants; what asks for one that can't stand only follows.
CONSTANTS = """aspect A {
  syn nta S P.none() = new S("?");
  public syn lazy nta R P.head() { return new R(new List<S>().add(new T("a")).add(new S("b")), new Opt<C>(new C(-1, true))); }
  syn C S.c() = getc();
  syn nta C S.c() = new C(1, false); //: J2/15
  inh int S.i();
  eq P.getnone().i() = 1;
  eq P.getChild().i() { return gethead().size() + head().size(); }
  syn int R.size() = getNumS() + (hasC() ? 1 : 0);
  syn nta S P.none() = new S("!"); //: J2/11
  syn nta Nix P.d() = new Nix(); //: J3/11
  syn nta S P.e() = new Nix(); //: J3/11
  syn nta S P.f() = new S(1); //: J4/11
  syn nta S P.g() = new C(1, true); //: J4/11
  syn nta V V.h() = new V("t"); //: J10/11
  syn nta C P.j(int n) = new C(n, true); //: J10/11
  syn nta C P.k() = new C(1 + 1, true); //: J10/11
  syn nta List<S> P.l() = new List<S>(); //: J10/11
  syn nta List<S> P.getLList() { List<S> l = new List<S>(); l.add(new S("x")); return l; }
  syn nta List<S> P.getMList() { List<S> l = new List<S>(); for (S s : getR().getSs()) l.add(s); return l; } //: J10/11
  syn nta R P.m() { List<S> l = new List<S>(); return new R(l, new Opt()); } //: J10/11
  inh nta C S.n(); eq P.getChild().n() = null; //: J10/11
  syn C P.o() = new C(1, true); //: J10/11
  eq P.none().i() = 2; //: J6/0
  eq P.head().i() = 3; eq R.S(int n).i() { return n; }
  eq R.head().i() = 4; //: J3/11
  eq P.nothing().i() = 5; //: J3/0
  syn nta S P.getOne() = new S("1");
  eq P.getgetOne().i() = 6; //: J3/0
  eq P.getOne().i() = 7; eq P.getL(int n).i() = n;
  syn int P.p() = getnix().size(); //: J3/0
  syn int P.q() = gete().i() + getOne().i() + getNumL() + getNumM() + getL(0).i();
  syn nta S P.getR() = new S("2"); //: J2/11
  syn int P.r() { for (S s : getLList()) if (s.i() > 0) return s.i(); for (S s : getMList()) if (s.nix()) return 1; return getM(0).i(); } //: J3/0
}
"""
# What is wrong with the name of a component, each alone: an equation, what is said, and the beginning of the hint.
MISNAMED = [
    ("eq R.head().i() = 4;", "R has no component head. There is C, S.", "A constant stands in the nodes of its class and of those below it: "
     "the equation is for one of these, or for all nodes below a node above, by `getChild()`."),
    ("eq P.heads().i() = 5;", "P has no component heads. There is head, and 2 more.", ""),
    ("eq R.gets().i() = 7;", "R has no component of the accessor gets. There is getS, getC.", ""),
    ("syn nta S P.getOne() = new S(\"1\"); eq P.getgetOne().i() = 8;",
     "P has no component of the accessor getgetOne. There is getOne, getnone, gethead, and 1 more.", ""),
]
PLANTED = Source("s.ast", "P ::= R; R ::= S* [C]; S ::= <Name>; T : S; C ::= <N:int> <B:boolean>; V ::= <Name>;")
# Declarations behind `syn nta`, and whether each is a constant.
WRITTEN = [
    ('S P.a() = new S("x");', True), ('S P.a() { return new S("x"); }', True), ("C P.a() = new C(-1, true);", True),
    ("R P.a() = new R(new List(), new Opt());", True), ("lazy R P.a() = new R(new List<S>().add(new S(\"\")), new Opt<C>(new C(1, false)));", True),
    ("R P.a() = new R(new List<S>(new S(\"\")), new Opt());", False), ("S P.a() = new S(\"x\" + 1);", False), ("S P.a() = new S(x);", False),
    ("S P.a() = null;", False), ("S P.a();", False), ("S P.a(int n) = new S(\"x\");", False), ("int P.a() = new S(\"x\");", False),
    ("List<S> P.a() = new List<S>();", False), ("S P.getA() = new S(\"x\");", True), ("List<S> P.getAList() = new List<S>();", True),
    ("List<S> P.getAList() = new List().add(new S(\"x\")).add(new S(\"y\"));", True), ("List<S> P.getAList() { return new List<S>(); }", True),
    ("List<S> P.getAList() { List<S> l = new List<S>(); return l; }", True), ("List<S> P.getList() = new List<S>();", False),
    ("List<S> P.getAList() { List<S> l = new List<S>().add(new S(\"x\")); l.add(new S(\"y\")); l.add(new S(\"z\")); return l; }", True),
    ("List<S> P.getAList() { List<S> l = new List<S>(); m.add(new S(\"x\")); return l; }", False),
    ("List<S> P.getAList() { List<S> l = new List<S>(); l.add(x); return l; }", False), ("List<S> P.getA() = new List<S>();", False),
    ("List<S> P.getAList() { List<S> l = new List<S>(); return m; }", False), ("List<S> P.getAList() { List l = new List(); return l; }", False),
    ("List<S> P.getAList() { List<S> l = new List(); l.add(new S(\"x\")); return l; }", True), ("List<S> P.getAList() = new S(\"x\");", False),
    ("S P.getAList() = new List<S>();", False), ("Opt<S> P.getA() = new Opt<S>();", False), ("List P.getAList() = new List();", False),
    ("List<S> P.getAList(int n) = new List<S>();", False), ("List<List<S>> P.getAList() = new List<List<S>>();", False), ("S P.a() = new S(\"x\").b();", False), ("S P.a() { return new S(\"x\"); return null; }", False),
    ("S P.a() = new List();", False), ("C P.a() = new C(-\"x\", true);", False), ("C P.a() = new C(1 2);", False),
]


def spelled(it):
    """An expression as a text."""
    parts = [spelled(part) for part in it.parts]
    word = it.word.text
    if it.form is Form.CALL:
        front = f"{parts.pop(0)}." if it.has_receiver else ""
        return f"{front}{word}({', '.join(parts)})"
    if it.form is Form.FOLD:
        return f"{word} ({it.parts[1].bound[-1].name.text} : {parts[0]}) {{ {parts[1]} }}"
    if it.form is Form.CHOICE:
        return f"{parts[0]} ? {parts[1]} : {parts[2]}"
    if it.form is Form.BINARY:
        return f"{parts[0]} {word} {parts[1]}"
    return word + "".join(parts)


def only(text):
    found = read_aspects(f"aspect X {{ {text} }}", "jastadd")
    assert len(found) == 1, text
    return found[0]


def completed(text, forms="jastadd"):
    """The names that may stand at the mark in a text."""
    return set(completions(Specification(GRAMMAR, [Source("x.jrag", text.replace("|", ""))], forms), "x.jrag", text.index("|")))


class Reading(unittest.TestCase):

    def test_bodies_mean_expressions(self):
        for body, wanted in BODIES:
            with self.subTest(body):
                it = only(f"int A.m() {{ {body} }}")
                self.assertEqual(None if it.body is None else spelled(it.body), wanted)
                self.assertTrue(it.is_whole)

    def test_what_is_not_read_of_a_body_is_a_piece(self):
        text = "aspect X { int A.m() { int n = 0; return n; } int A.n() { return 1; } }"
        first, second = read_aspects(text, "jastadd")
        self.assertEqual([(it.sort, text[it.start:it.end]) for it in first.pieces], [("local", "{ int n = 0; return n; }")])
        self.assertEqual((second.name.text, second.pieces), ("n", []))

    def test_a_body_stands_where_it_is_written(self):
        for body, wanted in ("{ return f(1); }", "f(1)"), ("{ if (a()) return 1; return 2; }", "{ if (a()) return 1; return 2; }"):
            text = f"aspect X {{ int A.m() {body} }}"
            it = read_aspects(text, "jastadd")[0].body
            self.assertEqual(text[it.start:it.end], wanted)

    def test_declarations(self):
        for text, wanted in DECLARATIONS:
            with self.subTest(text):
                it = only(text)
                heads = (it.kind, it.of, it.name) if it.form != "other" else (None, None, None)
                self.assertEqual((it.form, *(None if word is None else word.text for word in heads)), wanted)
                self.assertTrue(it.form == "other" or (it.is_whole and not it.pieces))

    def test_without_the_word_a_method_is_none(self):
        self.assertEqual([it.form for it in read_aspects("aspect X { int A.m() { return 1; } }")], ["other"])

    def test_all_faults_are_found_in_one_run(self):
        for grammar, aspects in (GRAMMAR, FAULTS), (CLASSES, AGAIN), (CLASSES, EVERYWHERE), (BESIDE, BOTH), (CLASSES, NUMBERED), (PLANTED, CONSTANTS):
            findings = check(grammar, [Source("x.jrag", aspects)], PROGRAM, "jastadd").findings
            wanted = [(line, fault) for line, text in enumerate(aspects.splitlines(), 1) for fault in text.partition("//: ")[2].split()]
            self.assertEqual([(it.line, f"{it.code}/{it.section.partition('.')[0] or 0}") for it in findings], wanted)

    def test_a_declaration_for_a_class_below_is_an_equation(self):
        specification = Specification(CLASSES, [Source("x.jrag", AGAIN)], "jastadd")
        first = specification.attribute("S", "k")
        self.assertEqual([AGAIN.count("\n", 0, it.declaration.start) + 1 for it in specification.equations(first.declaration)], [2, 3, 4])
        without = Specification(CLASSES, [Source("x.jrag", AGAIN)])
        self.assertEqual(without.equations(without.attribute("T", "k").declaration), without.named("k")[1:2])

    def test_attributes_are_told_apart_by_their_numbers_of_parameters(self):
        names = Names(Specification(CLASSES, [Source("x.jrag", NUMBERED)], "jastadd"))
        for text, line, told in (("n() = 1", 2, "syn int S.n()\nequations: S, T"), ("n(2)", 3, "syn int S.n(int a)\nequations: S, U"),
                                 ("n(int a) = a;", 3, "syn int S.n(int a)"), ("n(1)", 3, "syn int S.n(int a)"), ("n() }", 2, "syn int S.n()"),
                                 ("up() = this", 6, "inh P S.up()\nequations: P.getS()"), ("up(\"a\")", 7, "inh boolean S.up(String w)")):
            meaning = names.at("x.jrag", NUMBERED.index(text))
            self.assertEqual([NUMBERED.count("\n", 0, it.start) + 1 for it in meaning.declared], [line], text)
            self.assertTrue(meaning.told.startswith(told), meaning.told)
        first = names.at("x.jrag", NUMBERED.index("n() = 1"))
        self.assertEqual([NUMBERED.count("\n", 0, it.start) + 1 for it in names.references(first)], [2, 3, 10])
        known = completions(names.specification, "x.jrag", NUMBERED.index("n(1)"))
        self.assertEqual((known["n"], known["up"]), ("int n(); int n(int)", "P up(); boolean up(String)"))
        without = Names(Specification(CLASSES, [Source("x.jrag", NUMBERED)]))
        declared = without.at("x.jrag", NUMBERED.index("n(int a) = a;")).declared
        self.assertEqual([NUMBERED.count("\n", 0, it.start) + 1 for it in declared], [4])

    def test_what_is_said_of_other_numbers_of_parameters(self):
        for declaration, code, said in MISNUMBERED:
            text = NUMBERED.replace("  syn boolean P.all", f"  {declaration}\n  syn boolean P.all")
            found = check(CLASSES, [Source("x.jrag", text)], PROGRAM, "jastadd").findings
            self.assertEqual([(it.line, f"{it.code}/{it.section.partition('.')[0] or 0}", it.message) for it in found], [(10, code, said)], declaration)

    def test_names_in_a_loop_are_completed(self):
        text = "aspect X { boolean A.m(String n) { for (B x : getBList()) if (x.getName().equals(n)) return true; return false; } }"
        specification = Specification(GRAMMAR, [Source("x.jrag", text)], "jastadd")
        self.assertIn("getName", completions(specification, "x.jrag", text.index("getName")))
        self.assertLessEqual({"x", "n", "m", "getOn"}, set(completions(specification, "x.jrag", text.index("x.getName"))))

    def test_heads_of_loops_have_meanings(self):
        text = "aspect X { boolean A.m() { for (final B x : getBList()) if (x.getName().equals(\"\")) return true; return false; } }"
        specification = Specification(GRAMMAR, [Source("x.jrag", text)], "jastadd")
        names = Names(specification)
        kind, name, used = (names.at("x.jrag", text.index(it)) for it in ("B x", "x :", "x.get"))
        self.assertEqual((kind.key, kind.declared[0].file), (("class", "B"), "g.ast"))
        self.assertEqual((name.told, name.declared), ("B x", used.declared))
        self.assertEqual([text[it.start:it.end] for it in names.references(used)], ["x", "x"])

    def test_what_stands_in_bodies_where_no_expression_does_is_completed(self):
        words = {"return", "if", "else", "for"}
        bodies = {"{ | }": words, "{ if (on()) | }": words, "{ if (on()) return 1; el| }": words, "{ { return 1; } ret|": words,
                  "{ for (| }": {"A", "B"}, "{ for (final |": {"A", "B"}, "{ for (B |": set()}
        for body, wanted in bodies.items():
            with self.subTest(body):
                self.assertEqual(completed(f"aspect X {{ int A.m() {body}"), wanted)

    def test_what_stands_behind_a_statement_that_is_not_read_is_known(self):
        for body in ("int n = 0; return getB(n).|", "final B d = getB(0); return d.|", "while (on()) return getB(0).|", "do ; while (getB(0).|",
                     "for (int i = 0; i < 3; i++) if (getB(i).|) return 1;", "if (on()) { int n = 1; } else return getB(0).|",
                     "Set<B> s = new HashSet<B>(); s.add(getB(0).|", "switch (1) { case 1: return getB(0).|", "n = getB(0).|"):
            with self.subTest(body):
                self.assertEqual(completed(f"aspect X {{ int A.m() {{ {body} }} }}"), {"getName"})
        text = "aspect X { int A.m() { int n = 0; B d = getB(n); return d.k(new B()); } }"
        declared, used = (Names(Specification(GRAMMAR, [Source("x.jrag", text)], "jastadd")).at("x.jrag", text.index(it)) for it in ("d =", "d.k"))
        self.assertEqual((declared.told, used.declared), ("B d", declared.declared))
        self.assertEqual([it.sort for it in only("int A.m() { int n = 0; return new B(); }").pieces], ["local"])

    def test_heads_of_methods_are_completed(self):
        self.assertLessEqual({"public", "syn", "int", "B"}, completed("aspect X { | }"))
        self.assertLessEqual({"int", "boolean", "A", "B"}, completed("aspect X { public | }"))
        for front in "public int A.|", "B A.|", "int A.m() { return 1; } final B A.|":
            with self.subTest(front):
                self.assertLessEqual({"getOn", "n"}, completed(f"aspect X {{ {front} }} aspect Y {{ int A.n() {{ return 2; }} }}"))

    def test_equations_for_components_name_inherited_attributes(self):
        declared = "aspect Y { inh int B.i(); inh boolean B.on(String n); eq A.getB().i() = 1; syn int B.s() = 2; }"
        for forms in "", "jastadd":
            for head in "A.getB().|", "A.getB(int i).o|", "A.getChild() . |", *(("A.B().|", "A.B(int i).o|") if forms else ()):
                with self.subTest(head, forms=forms):
                    self.assertEqual(completed(f"aspect X {{ eq {head} }} {declared}", forms), {"i", "on"})

    def test_constants_are_written_down(self):
        for text, wanted in WRITTEN:
            with self.subTest(text):
                first, second = read_aspects(f"aspect X {{ syn nta {text} syn int P.z() = 1; }}", "jastadd")
                self.assertEqual((first.constant is not None, [it.sort for it in first.pieces]), (wanted, [] if wanted else ["nta"]))
                self.assertTrue(first.is_whole and first.body is not None)
                self.assertEqual((second.name.text, second.constant, second.pieces), ("z", None, []))

    def test_constants_have_meanings(self):
        text = CONSTANTS[:CONSTANTS.index("  syn nta S P.none() = new S(\"!\")")].replace("  syn nta C S.c() = new C(1, false); //: J2/15\n", "") + "}\n"
        names = Names(Specification(PLANTED, [Source("x.jrag", text)], "jastadd"))
        for word, line in (("gethead", 3), ("head().size", 3), ("getnone", 2), ("size() + head", 8)):
            declared = names.at("x.jrag", text.index(word)).declared
            self.assertEqual([(it.file, text.count("\n", 0, it.start) + 1) for it in declared], [("x.jrag", line)], word)
        first = names.at("x.jrag", text.index("gethead"))
        self.assertTrue(first.told.startswith("public syn lazy nta R P.head() { return new R("), first.told)
        self.assertEqual(len(names.references(first)), 3)
        for word in ("C(-1", "T(\"a", "S>().add"):
            self.assertEqual([it.file for it in names.at("x.jrag", text.index(word)).declared] if word != "S>().add" else ["s.ast"], ["s.ast"], word)
        self.assertIn("constants: S none(), R head()", names.told_of_class("P"))
        self.assertEqual([(it.of, it.kind) for name, it in names.specification.accessors("P").items() if name == "gethead"], [("P", "R")])

    def test_constants_are_named_by_themselves(self):
        text = "aspect A { syn nta S P.none() = new S(\"?\"); inh int S.i(); eq P.none().i() = 1; eq P.R().i() = 2; eq R.S(int n).i() = n; }"
        self.assertEqual(check(PLANTED, [Source("x.jrag", text)], PROGRAM, "jastadd").findings, [])
        names = Names(Specification(PLANTED, [Source("x.jrag", text)], "jastadd"))
        declared = names.at("x.jrag", text.index("none() = new"))
        meaning = names.at("x.jrag", text.index("none().i"))
        self.assertEqual((meaning.key, meaning.declared, meaning.told), (declared.key, declared.declared, declared.told))
        self.assertEqual(names.references(declared), [declared.place, meaning.place])
        for word, of, part, at in ("R().i", "P", "R", 6), ("S(int n", "R", "S", PLANTED.text.index("S*")):
            meaning = names.at("x.jrag", text.index(word))
            self.assertEqual((meaning.key, [it[:2] for it in meaning.declared]), (("component", of, part), [("s.ast", at)]))
        self.assertEqual(names.at("x.jrag", text.index("i();")).told, "inh int S.i()\nequations: P.none(), P.R(), R.S()")
        plain = Names(Specification(PLANTED, [Source("x.jrag", text)]))
        self.assertIsNone(plain.at("x.jrag", text.index("R().i")))

    def test_what_is_said_of_names_of_components(self):
        text = "aspect A { syn nta S P.none() = new S(\"?\"); syn nta R P.head() = new R(new List(), new Opt()); inh int S.i(); eq P.getChild().i() = 1; }"
        for equation, said, hint in MISNAMED:
            with self.subTest(equation):
                found = check(PLANTED, [Source("x.jrag", f"{text} aspect B {{ {equation} }}")], PROGRAM, "jastadd").findings
                self.assertEqual([(it.code, it.message) for it in found], [("J3", said)])
                self.assertTrue(found[0].hint.startswith(hint), found[0].hint)

    def test_constants_are_completed(self):
        declared = "aspect Y { syn nta B A.head() = new B(\"x\"); } "
        self.assertLessEqual({"gethead", "head", "getB"}, completed(f"{declared}aspect X {{ syn int A.a() = |; }}"))
        self.assertEqual(completed(f"{declared}aspect X {{ syn int A.a() = head().|; }}"), {"getName"})
        self.assertEqual(completed(f"{declared}aspect X {{ syn int A.a() = gethead().g|; }}"), {"getName"})
        self.assertLessEqual({"gethead", "getChild"}, completed(f"{declared}aspect X {{ eq A.| }}"))
        for front in ("syn nta B A.b() = new |", "syn nta A A.b() = new A(true, new List<B>().add(new B|"):
            self.assertEqual(completed(f"aspect X {{ {front}"), {"A", "B", "List", "Opt"}, front)
        self.assertIn("nta", completed("aspect X { | }"))

    def test_without_the_word_a_body_begins_by_return(self):
        self.assertEqual(completed("aspect X { syn int A.m() { |", ""), {"return"})


if __name__ == "__main__":
    unittest.main()
