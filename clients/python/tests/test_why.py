"""Why a value is what it is: the equation, and what it asked."""
import unittest

import attrd
from attrd import Instance, Path, Why, read_term
from attrd.authoring import Source, Specification
from attrd.evaluating import Evaluation, Stopped
from attrd.instances import read_call
from support import CALCULATOR, PROGRAM, SAMPLES, page_files

OBJECTS = SAMPLES / "objects"


def run(session, asking):
    """The reason at the end of what is asked, each by a question of the session."""
    try:
        wanted = next(asking)
        while True:
            wanted = asking.send(session.ask(wanted.path, wanted.attribute, *wanted.arguments))
    except StopIteration as end:
        return end.value


class OverFiles(unittest.TestCase):
    def open(self, grammar, tree, aspects, forms=""):
        """A session over texts of files, and what finds reasons there."""
        texts = [attrd.Text(name, text) for name, text in aspects]
        server = attrd.start(attrd.Text("x.ast", grammar), tree, *texts, program=PROGRAM, options=attrd.forms_options(forms))
        self.addCleanup(server.close)
        specification = Specification(Source("x.ast", grammar), [Source(*it) for it in aspects], forms)
        return server.session(), Why(specification, tree)


class Reasons(OverFiles):
    def setUp(self):
        files = page_files("MANUAL.md")
        names = ("calc.jrag", "forms.jrag", "values.jrag")
        self.session, self.why = self.open(files["calc.ast"], read_term(files["tree.txt"].strip()), [(it, files[it]) for it in names])

    def told(self, path, attribute, *arguments):
        return str(run(self.session, self.why.reason(Instance(Path.read(path), attribute, arguments)))).splitlines()

    def test_a_synthesized_attribute(self):
        self.assertEqual(self.told("/Block/Stmt:1/Expr", "value"), [
            "/Block/Stmt:1/Expr.value() = 3", "  calc.jrag:14: Add.value() = getLeft().value() + getRight().value()",
            "  1. getLeft().value() = 1   (/Block/Stmt:1/Expr/Left.value())", "  2. getRight().value() = 2   (/Block/Stmt:1/Expr/Right.value())"])

    def test_an_inherited_attribute_comes_from_above(self):
        self.assertEqual(self.told("/Block/Stmt:1/Expr/Left", "lookup", "x"), [
            '/Block/Stmt:1/Expr/Left.lookup("x") = /Block/Stmt:0', "  calc.jrag:7: Block.getStmt().lookup(n) = local(n) != null ? local(n) : lookup(n)",
            "  at /Block", '  with n = "x"', "  with i = 1", '  1. local(n) = /Block/Stmt:0   (/Block.local("x"))'])
        self.assertEqual(self.told("/Block/Stmt:1", "position")[1:], ["  forms.jrag:28: Block.getStmt().position() = i", "  at /Block", "  with i = 1"])

    def test_a_fault_and_a_circle(self):
        self.assertEqual(self.told("/", "i8"), ["/.i8() fault zero in /.i8", "  values.jrag:9: Program.i8() = 1 / 0", "  it is divided by 0"])
        self.assertEqual(self.told("/", "b5")[2:], ["  1. i1() = 14   (/.i1())"])
        self.assertEqual(self.told("/", "spin")[2:], ["  1. spin() circular /.spin   (/.spin())", "  /.spin() has no value, and so this has none"])
        self.assertEqual(self.told("/", "n8")[-1], "  getID is called on null")
        self.assertEqual(self.told("/", "n4")[-1], "  the cast of /Block/Stmt:1, a Print, to Decl fails")

    def test_numbers_are_passed(self):
        aspect = "aspect A { syn int P.a(int n, boolean b) = b ? n : c(n * 1000); syn int P.c(int n) = n + 1; }"
        session, why = self.open("P ::= <X>;", read_term('P("")'), [("a.jrag", aspect)], "jastadd")
        self.assertEqual([session.value("/", "a", 5, True), session.value("/", "a", -5, False)], [5, -4999])
        for given, lines in (((-5, False), ["/.a(-5, false) = -4999", "  1. c(n * 1000) = -4999   (/.c(-5000))"]),
                             ((5000, False), ["/.a(5000, false) fault long in /.a", "  c is passed the int 5000000, which is too far from 0"])):
            found = str(run(session, why.reason(Instance(Path.read("/"), "a", given)))).splitlines()
            self.assertEqual([found[0], found[-1]], lines)
        self.assertEqual(read_call("a(-5,false)"), ("a", (-5, False)))
        for wrong in ("a(05)", "a(-0)", "a(True)", "a(+1)"):
            self.assertRaises(attrd.SyntaxFault, read_call, wrong)

    def test_a_component_is_named_by_itself(self):
        aspect = "aspect A { inh int B.a(); eq P.B(int n).a() = n + 1; eq P.getChild().a() = 7; }"
        session, why = self.open("P ::= B* [C:B]; B ::= <X>;", read_term('P([B("x"),B("y")],B("z"))'), [("a.jrag", aspect)], "jastadd")
        for path, lines in ("/B:1", ["/B:1.a() = 2", "  a.jrag:1: P.B().a() = n + 1", "  at /", "  with n = 1"]), ("/C", ["/C.a() = 7"]):
            found = str(run(session, why.reason(Instance(Path.read(path), "a", ())))).splitlines()
            self.assertEqual(found[:len(lines)], lines)

    def test_what_is_not_there(self):
        for path, attribute in (("/Nix", "value"), ("/", "nix")):
            with self.assertRaises(attrd.NoReason):
                asking = self.why.reason(Instance(Path.read(path), attribute))
                next(asking)
                asking.send(attrd.Value("1"))


class Circles(OverFiles):
    """To which cycle the answer `circular` comes back, and which of its attributes isn't declared circular."""

    NET = "Net ::= Place*;\nPlace ::= <Name> Way*;\nWay ::= <To>;\n"
    TREE = 'Net([Place("a",[Way("b")]),Place("b",[Way("a"),Way("b")])])'
    ASPECT = """aspect Ways {
  inh Place Way.named(String n);
  eq Net.getPlace().named(String n) = first (p : getPlaceList()) { p.getName().equals(n) };
  syn boolean Place.leads() circular [false] = exists (w : getWayList()) { w.leads() };
  syn boolean Way.leads() = named(getTo()).opens();
  syn boolean Place.opens() circular [false] = leads();
  syn String Place.told() = leads() ? "yes" : "no";
  syn int Place.far() = 1 + near();
  syn int Place.near() = far();
  syn boolean Place.up() circular [true] = down();
  syn boolean Place.down() circular [false] = up();
  syn boolean Place.is(Place p) circular [false] = !isn(p);
  syn boolean Place.isn(Place p) circular [false] = is(p);
  syn int Place.none() = 1 / 0;
}
"""

    def setUp(self):
        self.session, self.why = self.open(self.NET, read_term(self.TREE), [("net.jrag", self.ASPECT)], "circular")

    def told(self, path, attribute, *arguments):
        return run(self.session, self.why.reason_with_circle(Instance(Path.read(path), attribute, arguments)))

    def test_one_that_is_not_declared(self):
        reason = self.told("/Place:0", "leads")
        self.assertEqual([str(it) for it in reason.circle.instances], [
            "/Place:0.leads()", "/Place:0/Way:0.leads()", "/Place:1.opens()", "/Place:1.leads()", "/Place:1/Way:0.leads()",
            "/Place:0.opens()"])
        self.assertEqual(reason.circle.others, ("Way.leads (net.jrag:5)",))
        self.assertEqual(reason.circle.circular, ("Place.leads (net.jrag:4)", "Place.opens (net.jrag:6)"))
        self.assertEqual(str(reason).splitlines()[-1], "  not declared circular: Way.leads (net.jrag:5); declared so: "
                                                       "Place.leads (net.jrag:4), Place.opens (net.jrag:6)")
        self.assertTrue(str(reason).splitlines()[-2].endswith("-> /Place:0.opens() -> /Place:0.leads()"))

    def test_one_that_only_leads_to_it(self):
        """An attribute that isn't on the cycle isn't one of it, whether it is declared circular or not."""
        circle = self.told("/Place:0", "told").circle
        self.assertEqual(str(circle.instances[0]), "/Place:0.leads()")
        self.assertEqual(circle.others, ("Way.leads (net.jrag:5)",))

    def test_none_and_all(self):
        self.assertEqual(self.told("/Place:0", "far").circle.others, ("Place.far (net.jrag:8)", "Place.near (net.jrag:9)"))
        for attribute, arguments in (("up", ()), ("is", (Path.read("/Place:1"),))):
            reason = self.told("/Place:0", attribute, *arguments)
            self.assertEqual((len(reason.circle.instances), reason.circle.others), (2, ()), attribute)
            self.assertIn("each is declared circular: it comes back where a final value is wanted", str(reason))

    def test_no_circle(self):
        self.assertIsNone(self.told("/Place:0", "none").circle)
        self.assertIsNone(run(self.session, self.why.reason(Instance(Path.read("/Place:0"), "far"))).circle)

    def test_the_house_of_the_manual(self):
        """`by()` goes round by way of `plain()`, which isn't declared circular, as the page says."""
        files = page_files("MANUAL.md")
        tree, aspects = read_term(files["house.txt"].strip()), [("house.jrag", files["house.jrag"])]
        session, why = self.open(files["house.ast"], tree, aspects, "circular")
        line = [it.strip() for it in files["house.jrag"].splitlines()].index("syn boolean Room.plain() = by();") + 1
        circle = run(session, why.reason_with_circle(Instance(Path.read("/Room:0"), "by"))).circle
        self.assertEqual([str(it) for it in circle.instances], ["/Room:0.by()", "/Room:0.plain()"])
        self.assertEqual(circle.others, (f"Room.plain (house.jrag:{line})",))
        self.assertEqual(run(session, why.reason_with_circle(Instance(Path.read("/Room:0"), "not"))).circle.others, ())


class Evaluated(OverFiles):
    """Each equation, evaluated here over what the server tells of the attributes in it, comes to what the server tells of it."""

    def agree(self, session, why):
        grammar, count = why.specification.grammar, 0
        for view in attrd.View(grammar, why.tree).all():
            for placed in why.specification.attributes_of(view.name):
                it = placed.declaration
                if not it.parameters:
                    count += self.agrees(session, why, Instance(view.place, it.name.text))
        return count

    def agrees(self, session, why, instance):
        answer = session.ask(instance.path, instance.attribute)
        placed, at, index = why._equation(instance)
        bound = {} if placed.declaration.index is None else {placed.declaration.index.text: index}
        running = Evaluation(why.specification.grammar, why.tree, at, bound).value(placed.declaration.body)
        try:
            call = next(running)
            while True:
                inner = session.ask(call.path, call.attribute, *call.arguments)
                if not isinstance(inner, attrd.Value):
                    self.assertNotIsInstance(answer, attrd.Value, instance)
                    return 1
                call = running.send(inner.value)
        except StopIteration as end:
            self.assertEqual(getattr(answer, "value", answer), end.value, instance)
        except Stopped:
            self.assertIsInstance(answer, attrd.Fault, instance)
        return 1

    def test_the_manual(self):
        files = page_files("MANUAL.md")
        names = ("calc.jrag", "forms.jrag", "values.jrag")
        self.assertGreater(self.agree(*self.open(files["calc.ast"], read_term(files["tree.txt"].strip()), [(it, files[it]) for it in names])), 60)

    def test_the_objects(self):
        aspects = [(it.name, it.read_text()) for it in sorted(OBJECTS.glob("*.jrag"))]
        tree = read_term((OBJECTS / "tree.txt").read_text().strip())
        self.assertGreater(self.agree(*self.open((OBJECTS / "objects.ast").read_text(), tree, aspects)), 100)

    def test_the_calculator(self):
        tree = read_term((CALCULATOR / "nested.txt").read_text().strip())
        aspects = [("calc.jrag", (CALCULATOR / "calc.jrag").read_text())]
        self.assertGreater(self.agree(*self.open((CALCULATOR / "calc.ast").read_text(), tree, aspects)), 8)


if __name__ == "__main__":
    unittest.main()
