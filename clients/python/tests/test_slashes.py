"""Components between slashes, which constants of aspects fill where `--forms jastadd` has the program read them."""
import tempfile
import unittest
from pathlib import Path

import attrd
from attrd import Grammar, Node
from attrd.authoring import Names, Source, Specification, check, check_tree, completions, searches
from attrd.authoring.filling import filler, unfilled
from attrd.authoring.planting import planted
from attrd.authoring.refusal import written
from attrd.declarations import attributes_of
from attrd.grammar import Shape
from attrd.prompt import Completion
from attrd.replies import Value
from attrd.why import Why, read_instance
from support import PROGRAM

TEXT = "P ::= A /X/ /Name:X/ /Y*/ /Names:Y*/ B;\nA; B; X ::= <N>; Y; Z : Y; abstract Q : P ::= /Own:Y/ <T>; R : Q;\n"
GRAMMAR = Source("g.ast", TEXT)
FILLED = """aspect F {
  // What isn't declared.
  syn nta X P.getX() = new X("a");
  syn nta X P.getName() { return new X("b"); }
  syn nta List<Y> P.getYList() { List<Y> l = new List<Y>(); l.add(new Y()); l.add(new Z()); return l; }
  syn nta List<Y> P.getNamesList() = new List<Y>().add(new Y());
  syn nta Y Q.getOwn() = new Z();
  syn nta List<X> P.getMoreList() = new List<X>();
  syn nta X P.getOne() = new X("c");
}
"""
USED = """aspect U {
  syn int P.n() = getNumY() + getNumNames() + (getX().getN().equals(getOne().getN()) ? 1 : 0) + getMore(0).i() + getNamess(0).nix();
  inh int X.i(); inh int Y.i();
  eq P.getX().i() = 1; eq P.Name().i() = 2; eq P.getNames(int k).i() = k; eq P.getChild().i() = 3; eq Q.getOwn().i() = 4;
}
"""
# Texts, and the components of the first class as they are written again; None where the text is refused.
READ = [
    ("P ::= A /X/ B; A; B; X;", "A /X/ B"), ("P ::= / N : X * / <T:int>; X;", "/N:X*/ <T:int>"), ("P ::= /X/ /Y:X/ [Z:X]; X;", "/X/ /Y:X/ [Z:X]"),
    ("P ::= /* a */ /X*/ // b\n; X;", "/X*/"), ("P ::= /<T>/;", None), ("P ::= /[X]/; X;", None), ("P ::= /X; X;", None), ("P ::= X/; X;", None),
    ("P ::= /X*:N/; X;", None), ("P ::= / /X/; X;", None), ("P ::= /X/ X; X;", None), ("P ::= /Y/;", None), ("P ::= /syn/;", None),
]
# Grammars with slashes where no component may stand, and what is told of them.
ELSEWHERE = [
    ("/P/ ::= X; X;", "G1 syntax at 1:1"), ("abstract /Y/; P ::= /X/; X;", "G1 syntax at 1:10"), ("P ::= /X/; X; Y : /X/;", "G1 syntax at 1:19"),
    ("P ::= [/X/]; X;", "G1 syntax at 1:8"), ("P ::= </X/>; X;", "G1 syntax at 1:8"), ("P ::= N:/X/; X;", "G1 syntax at 1:9"),
    ("P ::= [N /X/]; X;", "G1 syntax at 1:10"), ("P ::= <N:int /X/>; X;", "G1 syntax at 1:14"),
    ("P ::= /X/ *; X;", "G7 form left out at 1:7"), ("P ::= /X/:X; X;", "G7 form left out at 1:7"), ("P ::= X /N:X*/ *; X;", "G7 form left out at 1:9"),
    ("P ::= /X/Y/; X; Y;", "G7 form left out at 1:11"),
]
# Each line has the faults that are named at its end, with the section of the page, and no other.
FAULTS = """aspect A {
  syn X P.getX() = new X("a"); //: J10/11
  syn nta Y P.getName() = new Y(); //: J4/11
  syn nta List<Y> P.getYList() { List<Y> l = new List<Y>(); for (Y y : getNamess()) l.add(y); return l; } //: J10/11
  syn nta List<Z> P.getNamesList() = new List<Z>(); //: J4/11
  syn nta Y Q.getOwn() = new Y(1); //: J4/11
  syn nta Y Q.getOwn() = new Y(); //: J6/11
  syn nta X P.getA() = new X("a"); //: J2/11
  syn int P.n() = getNumY() + getNumNames() + getX().nix() + getY(0).m(); //: J3/0
  syn int Y.m() = 1;
  syn nta List<Nix> P.getNixesList() = new List<Nix>(); //: J3/11
  syn int P.o() = getNumNixes();
  eq R.getOwn().i() = 1; inh int Y.i(); eq P.getChild().i() = 2;
  syn nta X Nix.getIt() = new X("a"); //: J3/11
  syn nta List<Y> Nix.getAllList() = new List<Y>(); //: J3/11
  syn nta Y Nix.it() = new Y(); //: J3/11
  syn nta Nix Nix.getNone() = new Nix(); //: J3/11
  syn int P.q() = getNumAll() + getIt().m() + it().m() + getNone().m();
}
"""
# Constants of a class that isn't there, and what is told of that.
NOWHERE = [
    ("syn nta X Z.getOne() = new X();", "1:22 J3 There is no class Z. There is P, X."),
    ("syn nta List<X> Z.getOneList() = new List<X>();", "1:28 J3 There is no class Z. There is P, X."),
    ("syn nta Z Z.getOne() = new Z();", "1:20 J3 There is no class Z. There is P, X."),
    ("syn nta X ASTNode.getOne() = new X();", "1:41 J3 There is no class ASTNode."),
    ("syn nta X ASTNode.one() = new X();", "1:38 J3 There is no class ASTNode."),
]
# Aspects that leave something unfilled over a grammar, what is told of that, and the beginning of what helps.
LEFT = [
    ("P ::= /X/; X ::= <N> <B:boolean> Y; Y : W; abstract W;", "", ["g.ast:1:8 J7 No constant fills P's component /X/."],
     'A component between slashes is filled by a constant of the aspects: `syn nta X P.getX() = new X("", true, new Y());`'),
    ("P ::= /Xs:X*/; X;", "", ["g.ast:1:8 J7 No constant fills P's component /Xs:X*/."],
     "A component between slashes is filled by a constant of the aspects: `syn nta List<X> P.getXsList() = new List<X>();`"),
    ("P ::= /Sub:P/;", "syn P P.s() = getSub().s();", ["g.ast:1:8 J7 No constant fills P's component /Sub:P/."],
     "A component between slashes is filled by a constant of the aspects, `syn nta X C.getName() = new X();`: its class has to have"),
    ("P ::= /X/ X2:X; X;", "syn X P.getX() = getX2();", ["g.ast:1:8 J7 No constant fills P's component /X/. `getX` at x.jrag:1 is none."],
     "The grammar has it between slashes: write `syn nta`, and behind it what always stands there, as `syn nta X P.getX() = new X();`"),
    ("P ::= /X/; X;", "eq P.getX() = new X();", ["x.jrag:1:26 J10 `new` begins a form that is left out here."],
     "The grammar has it between slashes: write `syn nta`"),
    ("P ::= /X/; X;", "syn X P.getX() { X x = new X(); return x; }", ["x.jrag:1:29 J10 "], "The grammar has it between slashes: write `syn nta`"),
    ("P ::= /X*/; X;", "syn nta X P.getXList() = new X();", ["x.jrag:1:24 J2 "], "A constant that fills a component between slashes has just its kind"),
]


def specification(*texts, grammar=GRAMMAR, forms="jastadd"):
    return Specification(grammar, [Source(f"{number}.jrag", text) for number, text in enumerate(texts)], forms)


class Grammars(unittest.TestCase):

    def test_what_is_read(self):
        for text, wanted in READ:
            with self.subTest(text):
                self.assertEqual(wanted is None, not _is_read(text))
                if wanted is not None:
                    self.assertEqual(" ".join(map(str, Grammar.read(text, "jastadd").components("P"))), wanted)

    def test_slashes_elsewhere(self):
        for text, told in ELSEWHERE:
            with self.subTest(text), self.assertRaises(attrd.GrammarFault) as caught:
                Grammar.read(text, "jastadd")
            self.assertEqual(str(caught.exception), told, text)

    def test_without_the_word_a_slash_is_left_out(self):
        for forms in "", "circular":
            with self.assertRaises(attrd.GrammarFault) as caught:
                Grammar.read(TEXT, forms)
            self.assertEqual(str(caught.exception), "G7 form left out at 1:9")

    def test_terms_leave_them_out(self):
        grammar = Grammar.read(TEXT, "jastadd")
        self.assertEqual([str(it) for it in grammar.parts("R")], ["A", "B", "<T:String>"])
        self.assertEqual([str(it) for it in grammar.class_named("R").fixed], ["/X/", "/Name:X/", "/Y*/", "/Names:Y*/", "/Own:Y/"])
        tree = grammar.make("R", T="t", A=Node("A"), B=Node("B"))
        self.assertEqual((str(tree), str(grammar.smallest("P"))), ('R(A(),B(),"t")', "P(A(),B())"))
        for wrong, told in (({"X": Node("X", "")}, "P has no cell for /X/: a constant stands there"), ({"V": 1}, "P has no component V, or it is given twice")):
            with self.assertRaises(attrd.TermFault) as caught:
                grammar.make("P", A=Node("A"), B=Node("B"), **wrong)
            self.assertEqual(caught.exception.reason, told)
        view = attrd.View(grammar, tree)
        self.assertEqual((view.T, view.A.place, [str(it.place) for it in view.children()]), ("t", attrd.Path.read("/A"), ["/A", "/B"]))
        with self.assertRaises(attrd.UnknownName) as caught:
            view["Name"]
        self.assertEqual(str(caught.exception), "a constant stands in Name of R: ask the server")
        self.assertNotIn("Name", dir(view))

    def test_they_are_written_again(self):
        grammar = Grammar.read(TEXT, "jastadd")
        self.assertEqual(str(Grammar.read(written(grammar), "jastadd").components("R")), str(grammar.components("R")))
        self.assertIn("P ::= A /X/ /Y*/ B;", written(grammar, {("P", "Name"), ("P", "Names")}))


class Meanings(unittest.TestCase):

    def setUp(self):
        self.names = Names(specification(FILLED, USED))

    def test_a_component_and_its_constant_mean_the_same(self):
        told = "P ::= /X/\nX getX()\nsyn nta X P.getX() = new X(\"a\");\nWhat isn't declared."
        places = [("g.ast", TEXT.index("X/"), "X"), ("0.jrag", FILLED.index("getX"), "getX")]
        texts = {"g.ast": TEXT, "0.jrag": FILLED, "1.jrag": USED}
        found = [self.names.at("0.jrag", FILLED.index("getX()")), self.names.at("1.jrag", USED.index("getX().g")), self.names.at("1.jrag", USED.index("getX().i"))]
        for meaning in found:
            self.assertEqual((meaning.key, meaning.told), (("component", "P", "X"), told))
            self.assertEqual([(it.file, it.start, texts[it.file][it.start:it.end]) for it in meaning.declared], places)
        named = self.names.at("g.ast", TEXT.index("Name:X"))
        self.assertEqual((named.key, named.told), (("component", "P", "Name"), "P ::= /Name:X/\nX getName()\nsyn nta X P.getName() { return new X(\"b\"); }"))
        self.assertEqual([(it.file, texts[it.file][it.start:it.end]) for it in self.names.references(named)],
                         [("g.ast", "Name"), ("0.jrag", "getName"), ("1.jrag", "Name")])

    def test_lists(self):
        for word in "getNumNames", "getNames(int", "getNamess":
            meaning = self.names.at("1.jrag", USED.index(word))
            self.assertEqual((meaning.key, [it.file for it in meaning.declared]), (("component", "P", "Names"), ["g.ast", "0.jrag"]), word)
        told = "P ::= /Names:Y*/\nY getNames(int)\nint getNumNames()\nY* getNamesList()\nY* getNamess()\n"
        self.assertTrue(meaning.told.startswith(told + "syn nta List<Y> P.getNamesList() = "), meaning.told)
        element = self.names.at("0.jrag", FILLED.index("Y> P.getYList"))
        self.assertEqual((element.key, element.declared[0].file), (("class", "Y"), "g.ast"))

    def test_constants_without_slashes(self):
        for word, name in ("getOne", "getOne"), ("getMore(", "getMoreList"):
            meaning = self.names.at("1.jrag", USED.index(word))
            self.assertEqual((meaning.key, [(it.file, FILLED[it.start:it.end]) for it in meaning.declared]), (("attribute", "P", name), [("0.jrag", name)]))
        self.assertEqual(meaning.told, "syn nta List<X> P.getMoreList() = new List<X>();")
        self.assertEqual(self.names.specification.attribute_names, {"n", "i"})

    def test_classes(self):
        self.assertEqual(self.names.told_of_class("P"), "P ::= A /X/ /Name:X/ /Y*/ /Names:Y*/ B;\nconstants: List<X> getMoreList(), X getOne()\nbelow it: Q")
        self.assertTrue(self.names.told_of_class("R").startswith("R : Q ::= A /X/ /Name:X/ /Y*/ /Names:Y*/ B /Own:Y/ <T:String>;\n"))

    def test_a_component_that_none_fills(self):
        names = Names(specification("aspect A { syn X P.x() = getX(); }"))
        self.assertEqual(names.at("0.jrag", 27).told, "P ::= /X/\nX getX()\nno constant fills it")
        self.assertEqual([it.file for it in names.at("0.jrag", 27).declared], ["g.ast"])

    def test_kinds(self):
        known = self.names.specification
        self.assertEqual({name: (it.of, it.kind) for name, it in known.accessors("R").items() if it.part.name in ("Own", "Y", "More")}, {
            "getY": ("P", "Y"), "getNumY": ("P", "int"), "getYList": ("P", "Y*"), "getYs": ("P", "Y*"), "getOwn": ("Q", "Y"),
            "getMore": ("P", "X"), "getNumMore": ("P", "int"), "getMoreList": ("P", "X*")})
        self.assertEqual([it.shape for it in known.parts("P") if it.is_fixed], [Shape.CHILD, Shape.CHILD, Shape.LIST, Shape.LIST, Shape.LIST, Shape.CHILD])
        self.assertEqual(known.grammar.parts("P"), Grammar.read("P ::= A B; A; B;").parts("P"))


class Completions(unittest.TestCase):

    def completed(self, text, *others):
        at = text.index("|")
        return completions(specification(text.replace("|", ""), *others), "0.jrag", at)

    def test_accessors(self):
        found = self.completed("aspect X { syn int P.a() = |; }", FILLED)
        self.assertLessEqual({"getX", "getName", "getNames", "getNumNames", "getNamesList", "getNamess", "getOne", "getMore"}, set(found))
        self.assertEqual(self.completed("aspect X { syn int P.a() = getName().|; }"), {"getN": "String getN"})
        self.assertLessEqual({"getX", "getY"}, set(self.completed("aspect X { eq P.| }")))

    def test_constants_that_none_fills(self):
        head = "aspect X {{ syn nta X P.get|{} }} aspect Y {{ {} }}"
        every = {"getX": "X", "getName": "X", "getYList": "List<Y>", "getNamesList": "List<Y>"}
        for text, wanted in ((head.format("", ""), every), (head.format("Name() = new X(\"\");", ""), every),
                             (head.format("", "syn nta X P.getX() = new X(\"\");"), {it: every[it] for it in list(every)[1:]}),
                             ("aspect X { syn lazy nta Y Q.| }", {"getOwn": "Y"})):
            self.assertEqual(self.completed(text), wanted, text)
        self.assertIn("n", self.completed("aspect X { syn nta Y A.| } aspect Y { syn int A.n() = 1; }"))


class Searches(unittest.TestCase):

    def test_a_component_between_slashes_has_its_position(self):
        asked = "aspect A { syn S P.s(String n) = first (s : getSList()) { s.getN().equals(n) }; }"
        for front, reason in (("/X/", "not each class below S has the token N at one position"), ("", "")):
            grammar = Source("g.ast", f"P ::= S*; abstract S; T : S ::= {front} <N>; U : S ::= <N>; X;")
            self.assertEqual([it.reason for it in searches(grammar, [Source("x.jrag", asked)], "jastadd")], [reason], front)


class Filling(unittest.TestCase):

    def test_what_might_fill(self):
        known = specification("", grammar=Source("g.ast", "P ::= /C/ /D/ /Es:E*/; C ::= [A] F <I:int>; A; D ::= P; E; F ::= /G/; G ::= /H/; H;"))
        parts = {it.name: it for it in known.grammar.components("P")}
        self.assertEqual(filler(known, "P", parts["C"]), "syn nta C P.getC() = new C(new Opt(), new F(), 0);")
        self.assertIsNone(filler(known, "P", parts["D"]))
        self.assertEqual(filler(known, "P", parts["Es"]), "syn nta List<E> P.getEsList() = new List<E>();")

    def test_what_none_fills(self):
        known = specification("aspect A { syn nta X P.getX() = new X(\"\"); syn X P.getName() = null; syn nta List<Y> P.getYList() = null; }")
        self.assertEqual([(it.of, it.part.name, it.name.at, it.meant is not None, it.follows) for it in unfilled(known)],
                         [("P", "Name", TEXT.index("Name"), True, False), ("P", "Y", TEXT.index("Y*"), True, True),
                          ("P", "Names", TEXT.index("Names"), False, False), ("Q", "Own", TEXT.index("Own"), False, False)])
        self.assertEqual(unfilled(specification(FILLED)), [])


class Planting(unittest.TestCase):
    """Constants in trees: reasons go through them, and paths to them are completed. What is asked is answered here."""

    GRAMMAR = Source("g.ast", "P ::= /X/ Y* /Zs:Z*/; X ::= <N> [Y] Z*; Y ::= <N>; Z ::= <I:int> <B:boolean>; Q : P;")
    ASPECT = """aspect A {
  syn nta X P.getX() = new X("a\\"b", new Opt(new Y("c")), new List<Z>().add(new Z(-3, true)));
  syn nta List<Z> P.getZsList() { List<Z> l = new List<Z>(); l.add(new Z(1, false)); l.add(new Z(2, true)); return l; }
  syn nta Y P.more() = new Y("d");
  syn nta Y X.getInner() = new Y("e");
  inh P Y.p(); eq P.getChild().p() = this;
  syn String Y.n() = p().getX().getInner().getN();
  syn boolean Y.any() { for (Z z : p().getZss()) if (z.getB() && z.getI() == p().getNumZs()) return true; return false; }
  inh int Z.i(); eq P.getZs(int k).i() = k + getNumZs() + getZs(k).getI(); eq X.getZ().i() = 5;
  syn Y Y.other() = p().more();
}
"""

    def setUp(self):
        self.specification = specification(self.ASPECT, grammar=self.GRAMMAR)
        self.tree = attrd.read_term('Q([Y("y")])')

    def reason(self, asked, **answers):
        """The reason of an instance, where attributes are answered so."""
        running = Why(self.specification, self.tree).reason(read_instance(asked))
        try:
            wanted = next(running)
            while True:
                wanted = running.send(Value(answers[wanted.attribute]))
        except StopIteration as end:
            return end.value

    def test_trees(self):
        grammar = planted(self.specification)
        known = {path: str(grammar.node_at(self.tree, attrd.Path.read(path))) for path in (
            "/X", "/X/Y", "/X/Z:0", "/X/Inner", "/Zs:1", "/Zs:2", "/more", "/Y:0", "/Nix")}
        self.assertEqual(known, {"/X": 'X("a\\"b",Y("c"),[Z(-3,true)])', "/X/Y": 'Y("c")', "/X/Z:0": "Z(-3,true)", "/X/Inner": 'Y("e")',
                                 "/Zs:1": "Z(2,true)", "/Zs:2": "None", "/more": 'Y("d")', "/Y:0": 'Y("y")', "/Nix": "None"})
        self.assertEqual([str(it) for it in grammar.components("Q")], ["/X/", "Y*", "/Zs:Z*/", "/more:Y/"])
        self.assertEqual([str(step) for step, _ in grammar.children(self.tree)], ["Y:0", "X", "Zs:0", "Zs:1", "more"])
        plain = specification("aspect A { syn int P.a() = 1; }", grammar=Source("g.ast", "P;"))
        self.assertIs(planted(plain), plain.grammar)

    def test_reasons(self):
        found = self.reason("/Y:0 n()", p="/", n='"e"')
        self.assertEqual([(str(it.path), it.part, it.value if isinstance(it.value, str) else str(it.value)) for it in found.looks],
                         [("/", "X", "/X"), ("/X", "Inner", "/X/Inner"), ("/X/Inner", "N", "e")])
        self.assertEqual([(it.front, it.part, it.value) for it in self.reason("/Y:0 any()", p="/", any="true").looks][-1:], [("List", "Zs", 2)])
        found = self.reason("/Zs:1 i()", i="5")
        self.assertEqual((found.head, str(found.at), found.bound, found.stopped), ("P.getZs().i()", "/", {"k": 1}, ""))
        self.assertEqual([str(it.value) for it in found.looks], ["2", "/Zs:1", "2"])
        self.assertEqual(self.reason("/X/Z:0 i()", i="5").head, "X.getZ().i()")
        self.assertEqual([it.text for it in self.reason("/more other()", p="/", more="/more", other="/more").steps], ["p()", "p().more()"])

    def test_a_constant_is_an_attribute_unless_it_is_an_accessor(self):
        self.assertEqual([(it.of, it.name, it.kind) for it in attributes_of(self.ASPECT)],
                         [("P", "more", "Y"), ("Y", "p", "P"), ("Y", "n", "String"), ("Y", "any", "boolean"), ("Z", "i", "int"), ("Y", "other", "Y")])

    def test_paths_are_completed(self):
        completion = Completion(planted(self.specification), [], lambda: self.tree, lambda mark: None)
        self.assertEqual(completion.words("show /"), ["/X", "/Y:0", "/Zs:0", "/Zs:1", "/more"])
        self.assertEqual(completion.words("ask /X/"), ["/X/Inner", "/X/Y", "/X/Z:0"])
        self.assertEqual(completion.words("insert / "), ["Y"])


class Faults(unittest.TestCase):

    def test_aspects_that_fill_all_have_none(self):
        aspects = [Source("0.jrag", FILLED), Source("1.jrag", USED.replace(" + getNamess(0).nix()", ""))]
        self.assertEqual(check(GRAMMAR, aspects, PROGRAM, "jastadd").findings, [])
        self.assertEqual(check(GRAMMAR, [], PROGRAM, "jastadd").findings, [])

    def test_a_tree_file_has_no_cell_for_them(self):
        for term, told in (("P(A(),B())", None), ("P(A(),X(\"\"),B())", "P has 2 cells (A B), and 3 are given")):
            with tempfile.TemporaryDirectory() as folder:
                file = Path(folder, "tree.txt")
                file.write_text(term)
                found = check_tree(GRAMMAR, str(file), term.encode(), PROGRAM, forms="jastadd")
            self.assertEqual(None if found is None else found.message, told and f"A node doesn't fit the grammar: at /, {told}.")

    def test_what_is_explained(self):
        with tempfile.TemporaryDirectory() as folder:
            files = [Path(folder, name) for name in ("g.ast", "tree.txt", "none.jrag")]
            for file, text in zip(files, (TEXT, "P(A(),B())", "aspect N { }")):
                file.write_text(text)
            with self.assertRaises(attrd.StartFault) as caught:
                attrd.start(*files, program=PROGRAM, options=["--forms", "jastadd"])
            told = attrd.explain(caught.exception, files)
        self.assertEqual((told.code, told.line, told.column, told.sentence), ("J7", 1, 10, "No constant fills this component between slashes."))

    def test_all_faults_are_found_in_one_run(self):
        findings = check(GRAMMAR, [Source("x.jrag", FAULTS)], PROGRAM, "jastadd").findings
        wanted = [(line, fault) for line, text in enumerate(FAULTS.splitlines(), 1) for fault in text.partition("//: ")[2].split()]
        self.assertEqual([(it.line, f"{it.code}/{it.section.partition('.')[0] or 0}") for it in findings], wanted)

    def test_what_is_said(self):
        said = {it.code: it.message for it in check(GRAMMAR, [Source("x.jrag", FAULTS)], PROGRAM, "jastadd").findings if it.line in (3, 5, 7)}
        self.assertEqual(said, {"J4": "This is a list of Z, and the component is /Names:Y*/.",
                                "J6": "The component /Own:Y/ of Q is filled already, at x.jrag:6."})

    def test_a_class_that_is_not_there(self):
        for text, told in NOWHERE:
            with self.subTest(text):
                found = check(Source("g.ast", "P ::= X; X;"), [Source("x.jrag", f"aspect A {{ {text} }}")], PROGRAM, "jastadd").findings
                self.assertEqual([f"{it.line}:{it.column} {it.code} {it.message}" for it in found], [told])
                self.assertTrue(found[0].hint.startswith("A constant is declared for a class of the grammar." if "Z Z" not in text else "The kind of"))

    def test_what_is_left_unfilled(self):
        for grammar, text, told, hint in LEFT:
            with self.subTest(text or grammar):
                found = check(Source("g.ast", grammar), [Source("x.jrag", f"aspect A {{ {text} }}")], PROGRAM, "jastadd").findings
                spelled = [f"{it.file}:{it.line}:{it.column} {it.code} {it.message}" for it in found]
                self.assertEqual([own[:len(wanted)] for own, wanted in zip(spelled, told)], told)
                self.assertEqual(len(spelled), len(told), spelled)
                self.assertTrue(found[0].hint.startswith(hint), found[0].hint)


def _is_read(text):
    try:
        Grammar.read(text, "jastadd")
        return True
    except attrd.GrammarFault:
        return False


if __name__ == "__main__":
    unittest.main()
