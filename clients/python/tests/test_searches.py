"""Which folds are searches where the program looks names up by key, and why others are none: rows with what is to be told, by hand."""
import contextlib
import io
import tempfile
import unittest
from pathlib import Path as FilePath

from attrd.authoring import Source, check, searches
from attrd.check_command import main
from support import CALCULATOR, PROGRAM, ROOT, SAMPLES, page_files, page_text

GRAMMAR = Source("shop.ast", """Shop ::= <Owner> Part* Named*;
abstract Part;
Item : Part ::= <Name> <Price:int>;
Tool : Part ::= <Maker> <Name>;
Box : Part ::= Part*;
abstract Named ::= <Name>;
Label : Named ::= <Text>;
Sign : Named ::= Part;
""")
# What the rows ask.
ASKED = Source("asked.jrag", """aspect Asked {
  syn boolean Part.isNamed(String n) = false;
  eq Item.isNamed(String n) = getName().equals(n);
  syn boolean Part.isMade(String n) { return (false); }
  eq Tool.isMade(String n) { return (n).equals(this.getMaker()); }
  syn boolean Part.isItemOrTool(String n) = false;
  eq Item.isItemOrTool(String n) = getName().equals(n);
  eq Tool.isItemOrTool(String n) = getMaker().equals(n);
  syn boolean Part.isCalled(String n) = false;
  eq Item.isCalled(String n) = getName().equals(n);
  eq Tool.isCalled(String n) = getName().equals(n);
  syn lazy boolean Part.isKept(String n) = false;
  eq Item.isKept(String n) = getName().equals(n);
  syn boolean Part.isTurned(String n) circular [false] = false;
  eq Item.isTurned(String n) = getName().equals(n);
  inh boolean Part.isBought(String n);
  eq Shop.getChild().isBought(String n) = getOwner().equals(n);
  syn boolean Part.isOdd(String n) = false;
  eq Item.isOdd(String n) = getName().equals(n);
  eq Box.isOdd(String n) = "".equals(n);
  syn boolean Part.isNone(String n) = false;
  syn boolean Part.isTrue(String n) = true;
  syn boolean Part.isOf(Part p) = this == p;
  syn boolean Part.isIn(String n, Part p) = false;
  syn boolean Part.isGood() = true;
  syn boolean Label.isText(String n) = getText().equals(n);
  syn boolean Label.isEmptyToo(String n) = n.equals("");
  syn Box Shop.box() = boxOf(getPart(0));
  syn Box Shop.boxOf(Part p) = (Box) p;
}
""")
TOKEN = "no token of p is compared with a text"
TEXT = "the text isn't a literal or a parameter"
FIRST = "the test isn't first"
FAR = "the classes stand too far apart in the grammar"
NODE = "the node with the list isn't reached by names, casts, children and attributes without arguments alone"
AROUND = NODE.replace("list", "list of a fold around it")
# Tests of the parts of a shop, where n is a text and q a part.
OF_PARTS = (
    ("p.isNamed(n)", ""),
    ("p.isMade(n)", ""),
    ("p.isItemOrTool(n)", ""),
    ('p.isNamed("x")', ""),
    ("((p).isNamed((n)))", ""),
    ("p.isNamed(n) && p == q", ""),
    ("(p.isNamed(n) && p == q) && p.isGood()", ""),
    ("p.isNamed(n) && (p == q || p.isGood())", ""),
    ("p == q && p.isNamed(n)", FIRST),
    ("p.isGood() && (p == q && p.isNamed(n))", FIRST),
    ("p.isKept(n) && p.isNamed(n)", FIRST),
    ("p.isKept(n) && p.isGood()", "`isKept` is lazy"),
    ("p.isTurned(n)", "`isTurned` is circular"),
    ("p.isBought(n)", "`isBought` is inherited"),
    ("p.isOf(q)", "`isOf` doesn't have one parameter, a String"),
    ("p.isNamed(getOwner())", TEXT),
    ("p.isOdd(n)", "the class Box has another equation for `isOdd`"),
    ("p.isTrue(n)", "the class Part has another equation for `isTrue`"),
    ("p.isNone(n)", "no equation for `isNone` compares a token with its parameter"),
    ("p.isCalled(n)", "the tokens that `isCalled` compares don't stand at one position"),
    ("p.isIn(n, q)", TOKEN),
    ("p.isGood()", TOKEN),
    ("p == q", TOKEN),
    ("true", TOKEN),
    ("q.isNamed(n)", TOKEN),
    ("!p.isNamed(n)", TOKEN),
    ("p.isNamed(n) || p == q", TOKEN),
    ("p.isNamed(n) ? true : false", TOKEN),
    ("p.isNamed(n) == true", TOKEN),
    ('getOwner().equals("x")', TOKEN),
    ("((Item) p).getName().equals(n)", TOKEN))
# Tests of the named ones of a shop.
OF_NAMED = (
    ("p.getName().equals(n)", ""),
    ("n.equals(p.getName())", ""),
    ('"x".equals((p).getName())', ""),
    ("p.getName().equals(n) && q.isGood()", ""),
    ("q.isGood() && p.getName().equals(n)", FIRST),
    ("p.getName().equals(getOwner())", TEXT),
    ("p.getName().equals(p.getName())", TEXT),
    ('p.getName().equals(n + "x")', TEXT),
    ("getOwner().equals(n)", TOKEN),
    ("((Label) p).isText(n)", TOKEN))
# Whole bodies, with what is told of each fold in them that may be a search, from the left.
BODIES = (
    ("exists (p : box().getPartList()) { p.isNamed(n) }", ("",)),
    ("exists (p : ((Box) q).getPartList()) { p.isNamed(n) }", ("",)),
    ("exists (p : (this).getPartList()) { p.isNamed(n) }", ("",)),
    ("exists (p : boxOf(q).getPartList()) { p.isNamed(n) }", (NODE,)),
    ("exists (p : ((Box) getPart(0)).getPartList()) { p.isNamed(n) }", (NODE,)),
    ("exists (p : ((Box) first (b : getPartList()) { b.isNamed(n) }).getPartList()) { p.isNamed(n) }", (NODE, "")),
    ("exists (b : getPartList()) { exists (p : ((Box) b).getPartList()) { p.isNamed(n) } }", (TOKEN.replace("p", "b", 1), "")),
    ("exists (b : boxOf(q).getPartList()) { exists (p : getPartList()) { p.isNamed(n) } }", (NODE, AROUND)),
    ("sum (b : boxOf(q).getPartList()) { exists (p : getPartList()) { p.isNamed(n) } ? 1 : 0 } > 0", (AROUND,)),
    ("sum (b : getPartList()) { exists (p : getPartList()) { p.isNamed(n) } ? 1 : 0 } > 0", ("",)),
    ("exists (s : getNamedList()) { exists (p : getNamedList()) { p.getName().equals(s.getName()) } }",
     (TOKEN.replace("p", "s", 1), TEXT)),
    ("exists (s : getNamedList()) { exists (p : getNamedList()) { s.getName().equals(n) } }", (TOKEN.replace("p", "s", 1), TOKEN)),
    ("(first (p : getPartList()) { p.isNamed(n) }).isGood() && exists (p : getPartList()) { p.isKept(n) }", ("", "`isKept` is lazy")),
    ("boxOf(first (p : getPartList()) { p.isNamed(n) }) == null", ("",)),
    ("boxOf(((Box) first (p : getPartList()) { p.isNamed(n) }).getPart(0)) == null", ("",)),
    ("((Box) first (p : getPartList()) { p.isNamed(n) }).getNumPart() > 0", ("",)),
    ("sum (p : getPartList()) { 1 } > 0", ()))


def aspect_of(text, name="x.jrag"):
    """An aspect with these declarations, which begin in its second line."""
    return Source(name, f"aspect X {{\n{text}\n}}\n")


def told(body):
    """What is told of the folds in a body of an attribute of a shop."""
    asking = aspect_of(f"syn boolean Shop.asked(String n, Part q) = {body};")
    return [it for it in searches(GRAMMAR, [ASKED, asking], "circular") if it.file == "x.jrag"]


class Rows(unittest.TestCase):
    def test_tests(self):
        for among, rows in (("Part", OF_PARTS), ("Named", OF_NAMED)):
            for test, reason in rows:
                for fold in ("exists (p : get{}List()) {{ {} }}", "first (p : get{}List()) {{ {} }} != null"):
                    self.assertEqual([it.reason for it in told(fold.format(among, test))], [reason], test)

    def test_whole_bodies(self):
        for body, reasons in BODIES:
            self.assertEqual(tuple(it.reason for it in told(body)), reasons, body)

    def test_by_which_tokens(self):
        """Each token once, in the order of the grammar's classes; none where it is no search."""
        for among, test, tokens in (
                ("Part", "p.isNamed(n)", ("Name",)),
                ("Part", "p.isMade(n) && p == q", ("Maker",)),
                ("Part", "p.isItemOrTool(n)", ("Name", "Maker")),
                ("Part", "p == q && p.isNamed(n)", ()),
                ("Named", "n.equals(p.getName())", ("Name",)),
                ("Named", "p.getName().equals(getOwner())", ())):
            self.assertEqual([it.tokens for it in told(f"exists (p : get{among}List()) {{ {test} }}")], [tokens], test)
        found = told("exists (p : getPartList()) { p.isItemOrTool(n) }")
        self.assertEqual([it.told for it in found], ["`exists (p : getPartList())` is a search by the token Name or Maker."])

    def test_the_program_takes_them(self):
        """What isn't refused is what the rows are about."""
        folds = [*(f"exists (p : getPartList()) {{ {test} }}" for test, _ in OF_PARTS),
                 *(f"exists (p : getNamedList()) {{ {test} }}" for test, _ in OF_NAMED), *(body for body, _ in BODIES)]
        lines = [f"syn boolean Shop.asked{number}(String n, Part q) = {body};" for number, body in enumerate(folds)]
        found = check(GRAMMAR, [ASKED, aspect_of("\n".join(lines))], PROGRAM, "circular")
        self.assertEqual([str(it) for it in found.findings], [])

    def test_each_place(self):
        aspect = aspect_of("""  eq Shop.getPart(int i).asked(String n) =
    exists (p :  // that one
      getPartList()) { p.isNamed(n) } || first (p : getPartList()) { p.isGood() } != null;
  inh boolean Part.asked(String n);
  eq Box.getPart().asked(String n) = exists (p : getPartList()) { p.asked(n) };""")
        self.assertEqual([str(it) for it in searches(GRAMMAR, [aspect, ASKED]) if it.file == "x.jrag"], [
            "x.jrag:3:5: note. `exists (p : // that one getPartList())` is a search by the token Name.",
            f"x.jrag:4:42: note. `first (p : getPartList())` is no search: {TOKEN}.",
            "x.jrag:6:38: note. `exists (p : getPartList())` is no search: `asked` is inherited."])

    def test_what_is_faulty(self):
        for body, reasons in (
                ("exists (p : getPartList()) { p.getName().equals(n) }",
                 ["not each class below Part has the token Name at one position"]),
                ("exists (p : getPartList()) { p.isNix(n) }", [TOKEN]),
                ("exists (p : getPartList()) { p.getPrice().equals(n) }", [TOKEN]),
                ("exists (p : getOwner()) { p.isNamed(n) }", ["it goes over no list"]),
                ("exists (p : getNixList()) { p.isNamed(n) }", ["it goes over no list"]),
                ("exists (p : getPartList()) { p.isNamed(n) ", [])):
            self.assertEqual([it.reason for it in told(body)], reasons, body)
        without = aspect_of("syn boolean Part.isSo(String n); syn boolean Shop.a(String n) = exists (p : getPartList()) { p.isSo(n) };")
        self.assertEqual([it.reason for it in searches(GRAMMAR, [without])], ["the class Item has no equation for `isSo`"])
        asking = aspect_of("syn boolean Shop.a(String n) = exists (p : getPartList()) { p.isNamed(n) };")
        for text, count in ((GRAMMAR.text, 1), (GRAMMAR.text + "Shop;", 0), (GRAMMAR.text + "Other : Nix;", 0), ("Shop ::= <", 0)):
            self.assertEqual(len(searches(Source("shop.ast", text), [ASKED, asking])), count, text)


class Classes(unittest.TestCase):
    """Of classes that compare the numbers count, which stand for their places in the grammar, from 0."""

    def reason(self, lines, text):
        grammar, aspect = Source("x.ast", "\n".join(lines)), aspect_of(text)
        self.assertEqual([str(it) for it in check(grammar, [aspect], PROGRAM).findings], [])
        return [it.reason for it in searches(grammar, [aspect])]

    def test_those_that_compare_in_an_attribute(self):
        lines = ["Root ::= A*;", "abstract A;", *(f"C{number} : A ::= <Name>;" for number in range(2, 50))]
        for first, last, reason in (
                (5, 35, ""), (5, 36, FAR), (7, 35, ""), (7, 36, FAR), (8, 39, ""), (8, 40, FAR), (2, 31, ""), (2, 32, FAR), (40, 41, ""),
                (49, 49, "")):
            asked = "syn boolean A.is(String n) = false; syn A Root.a(String n) = first (a : getAList()) { a.is(n) };"
            equations = "".join(f"eq C{number}.is(String n) = getName().equals(n);" for number in sorted({first, last}))
            self.assertEqual(self.reason(lines, asked + equations), [reason], (first, last))

    def test_all_that_may_stand_in_the_list(self):
        aspect = "syn A Root.a(String n) = first (a : getAList()) { a.getName().equals(n) };"
        for last, reason in ((31, ""), (32, FAR)):
            lines = ["Root ::= A*;", "abstract A ::= <Name>;", *(f"C{number} : A;" for number in range(2, last + 1))]
            self.assertEqual(self.reason(lines, aspect), [reason], last)

    def test_those_below_the_declaration_count(self):
        """The list is of Items alone, and a part of another class has another equation."""
        lines = ["Root ::= Item*;", "abstract Part;", "Item : Part ::= <Name>;", "Box : Part;"]
        asked = "syn boolean Part.is(String n) = {}; eq Item.is(String n) = getName().equals(n);" \
                "syn Item Root.a(String n) = first (i : getItemList()) {{ i.is(n) }};"
        self.assertEqual(self.reason(lines, asked.format("false")), [""])
        self.assertEqual(self.reason(lines, asked.format("true")), ["the class Part has another equation for `is`"])

    def test_the_nearest_equation_upward(self):
        lines = ["Root ::= Part*;", "abstract Part;", "abstract Named : Part ::= <Name>;", "Item : Named;", "Other : Named;", "Box : Part;"]
        asked = "syn boolean Part.is(String n) = false; eq Named.is(String n) = getName().equals(n);" \
                "syn Part Root.a(String n) = first (p : getPartList()) { p.is(n) };"
        self.assertEqual(self.reason(lines, asked), [""])
        self.assertEqual(self.reason(lines, asked + "eq Other.is(String n) = false;"), [""])
        self.assertEqual(self.reason(lines, asked + "eq Other.is(String n) = true;"), ["the class Other has another equation for `is`"])


class OfJastAdd(unittest.TestCase):
    """What is read with `--forms jastadd` alone."""

    GRAMMAR = Source("x.ast", "Root ::= Part*;\nabstract Part;\nItem : Part ::= <Name>;\nTool : Part;\nSaw : Tool ::= <Name>;\n")
    NAMED = "syn boolean Part.is(String n) { return false; } eq Item.is(String n) { return getName().equals(n); }" \
            "eq Saw.is(String n) { return getName().equals(n); }\n"

    ASKED = "syn Part Root.a(String n) = first (p : getPartList()) { p.is(n) };\n"

    def told(self, text, grammar=GRAMMAR):
        self.assertEqual([str(it) for it in check(grammar, [aspect_of(text)], PROGRAM, "jastadd").findings], [])
        return searches(grammar, [aspect_of(text)], "jastadd")

    def test_loops(self):
        """Each loop once, also where it means two folds, and where several ways lead to it."""
        found = self.told("""boolean Root.a(String n, Part q) {
  if (n.equals("x")) { if (q == null) return true; }
  for (Part p : getParts()) if (p.is(n)) return p == q;
  for (Part p : getPartList()) {
    if (p == q && p.is(n)) { return true; }
  }
  for (final Part p : getParts()) if (p == q) return false;
  for (Part p : getParts()) if (p.is(n) && exists (s : getParts()) { s.is("s") }) return false;
  return true;
}
syn Part Root.c(String n) { for (Part p : getParts()) if (p.is(n + "x")) return p; return null; }
syn Part Root.d(String n) = first (p : getParts()) { p.is(n) };
""" + self.NAMED)
        self.assertEqual([str(it) for it in found], [
            "x.jrag:4:3: note. `for (Part p : getParts())` is a search by the token Name.",
            "x.jrag:5:3: note. `for (Part p : getPartList())` is no search: the test isn't first.",
            "x.jrag:8:3: note. `for (final Part p : getParts())` is no search: no token of p is compared with a text.",
            "x.jrag:9:3: note. `for (Part p : getParts())` is a search by the token Name.",
            "x.jrag:9:44: note. `exists (s : getParts())` is a search by the token Name.",
            "x.jrag:12:29: note. `for (Part p : getParts())` is no search: the text isn't a literal or a parameter.",
            "x.jrag:13:29: note. `first (p : getParts())` is a search by the token Name."])
        self.assertEqual([it.end - it.start for it in found], [3, 3, 3, 3, 6, 3, 5])

    def test_loops_that_are_not_taken(self):
        """A loop that counts isn't read, and nothing is told of its body."""
        text = "int Root.a(String n) { int i = 0; for (Part p : getParts()) if (p.is(n)) i = i + 1; return i; }" + self.NAMED
        self.assertEqual(searches(self.GRAMMAR, [aspect_of(text)], "jastadd"), [])

    def test_attributes_of_every_node_and_declarations_again(self):
        compares = "{ return getName().equals(n); }"
        for text, reason in (
                (f"syn boolean ASTNode.is(String n) = false; eq Item.is(String n) {compares}", ""),
                (f"syn boolean ASTNode.is(String n) = false; eq Root.is(String n) = true; eq Item.is(String n) {compares}", ""),
                (f"syn lazy boolean ASTNode.is(String n) = false; eq Item.is(String n) {compares}", "`is` is lazy"),
                (f"boolean ASTNode.is(String n) {{ return true; }} eq Item.is(String n) {compares}",
                 "the class ASTNode has another equation for `is`"),
                (f"boolean ASTNode.is(String n) {{ return false; }} boolean Item.is(String n) {compares}", ""),
                (f"syn boolean Part.is(String n) = false; syn lazy boolean Saw.is(String n) {compares}", ""),
                (f"syn boolean Part.is() = true; syn boolean Part.is(String n) = false; eq Saw.is(String n) {compares}", "")):
            self.assertEqual([it.reason for it in self.told(text + self.ASKED)], [reason], text)

    def test_lazy_counts_where_it_is_declared_first(self):
        grammar = Source("x.ast", self.GRAMMAR.text.replace("Part*", "Item*"))
        again = "syn boolean Item.is(String n) = getName().equals(n);" \
                "syn Item Root.a(String n) = first (i : getItemList()) { i.is(n) };"
        for above, reason in (
                ("", ""),
                ("syn boolean Part.is(String n) = false;", ""),
                ("syn lazy boolean Part.is(String n) = false;", "`is` is lazy"),
                ("syn lazy boolean ASTNode.is(String n) = false;", "`is` is lazy"),
                ("syn boolean ASTNode.is(String n) = false; eq Tool.is(String n) = true;", "the class Tool has another equation for `is`")):
            self.assertEqual([it.reason for it in self.told(above + again, grammar)], [reason], above)

    def test_constants_are_components(self):
        """One of Tool stands in front of what a Saw has itself, one of Part in front of all."""
        apart = "the tokens that `is` compares don't stand at one position"
        grammar = Source("x.ast", self.GRAMMAR.text + "Other;\n")
        for constant, reason in (("", ""), ('syn nta Item Tool.spare() = new Item("x");', apart),
                                 ('syn nta Item Saw.spare() = new Item("x");', ""), ("syn nta Other Part.spare() = new Other();", "")):
            self.assertEqual([it.reason for it in self.told(self.NAMED + self.ASKED + constant, grammar)], [reason], constant)


class Samples(unittest.TestCase):
    """Which folds of the samples are searches, by file and line, and how many are none."""

    def told(self, folder, *names, forms=""):
        grammar = next(folder.glob("calc.ast" if folder == CALCULATOR else "*.ast"))
        found = searches(Source(grammar.name, grammar.read_text()), [Source(it, (folder / it).read_text()) for it in names], forms)
        return [(it.file, it.line) for it in found if not it.reason], {(it.file, it.line): it.reason for it in found if it.reason}

    def test_objects(self):
        searched, others = self.told(SAMPLES / "objects", "names.jrag", "types.jrag")
        self.assertEqual(searched, [("names.jrag", 5), ("names.jrag", 26), ("names.jrag", 37)])
        self.assertEqual(others, {("names.jrag", 38): "the class Local has another equation for `declares`",
                                  ("types.jrag", 35): "no token of c is compared with a text"})

    def test_grammars(self):
        searched, others = self.told(SAMPLES / "grammars", "grammars.jrag", forms="circular")
        self.assertEqual(searched, [("grammars.jrag", 3)])
        self.assertEqual(sorted(line for _, line in others), [19, 21, 30, 41, 48, 50, 53, 59, 66, 67])
        self.assertEqual(others["grammars.jrag", 48], "`names` doesn't have one parameter, a String")

    def test_calculator(self):
        self.assertEqual(self.told(CALCULATOR, "calc.jrag"), ([("calc.jrag", 4)], {}))

    def test_machines(self):
        searched, others = self.told(SAMPLES / "machines", "machines.jrag")
        self.assertEqual(searched, [("machines.jrag", 3)])
        self.assertEqual(others["machines.jrag", 14], FIRST)

    def test_the_manual(self):
        """What its section shows is a search."""
        files = page_files("MANUAL.md")
        found = searches(Source("calc.ast", files["calc.ast"]), [Source("calc.jrag", files["calc.jrag"])])
        self.assertEqual([it.reason for it in found], [""])

    def test_the_page_of_clients(self):
        """It shows two of five notes."""
        folder = ROOT / "clients" / "lsp" / "attrd_lsp" / "data"
        aspects = [Source(it, (folder / it).read_text()) for it in ("kinds.jrag", "names.jrag", "types.jrag", "errors.jrag")]
        found = [str(it) for it in searches(Source("small.ast", (folder / "small.ast").read_text()), aspects)]
        shown = [it for it in page_text("CLIENTS.md").splitlines() if ": note. `" in it]
        self.assertEqual((len(found), shown), (5, [found[2], found[3]]))


class Command(unittest.TestCase):
    def run_check(self, *words):
        printed = io.StringIO()
        with contextlib.redirect_stdout(printed):
            status = main(["--program", PROGRAM, *words])
        return status, printed.getvalue().splitlines()

    def test_behind_the_faults(self):
        folder = tempfile.TemporaryDirectory()
        self.addCleanup(folder.cleanup)
        aspect = FilePath(folder.name) / "more.jrag"
        aspect.write_text(aspect_of("  syn int Block.n() = nix();\n"
                                    "  syn boolean Block.has(String n) = exists (s : getStmtList()) { s == this || s.declares(n) };").text)
        files = [str(CALCULATOR / "calc.ast"), str(CALCULATOR / "calc.jrag"), str(aspect)]
        status, lines = self.run_check("--index", *files)
        self.assertEqual(status, 1)
        self.assertTrue(lines[0].startswith(f"{aspect}:2:23: J3 unknown name. "), lines[0])
        self.assertEqual(lines[-3:], [
            f"{files[1]}:4:48: note. `first (s : getStmtList())` is a search by the token ID.",
            f"{aspect}:3:37: note. `exists (s : getStmtList())` is no search: no token of s is compared with a text.", "1 fault"])
        self.assertEqual(self.run_check(*files), (1, [*lines[:-3], "1 fault"]))
        self.assertEqual(self.run_check("--index", *files[:2]), (0, [lines[-3], "0 faults"]))


if __name__ == "__main__":
    unittest.main()
