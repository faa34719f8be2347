"""Terms, paths and values."""
import random
import unittest

import attrd
from attrd import Node, Path
from support import SAMPLES, Trees, calculator_grammar


def small_tree(chance):
    """A tree of a few nodes."""
    node = Node("L", chance.randint(0, 3))
    for _ in range(chance.randint(0, 5)):
        node = Node("W", node, chance.choice(["a", "\u00e9", 'q"']))
    return node


class Terms(unittest.TestCase):
    def test_written_and_read(self):
        trees = Trees(calculator_grammar(), random.Random(1))
        for _ in range(300):
            tree = trees.tree(depth=5)
            text = attrd.write_term(tree)
            self.assertEqual(attrd.read_term(text), tree)
            self.assertEqual(attrd.write_term(attrd.read_term(text)), text)
            self.assertEqual(tree.length, len(text.encode()))
            self.assertEqual(tree.size, sum(1 for _ in tree.all()))

    def test_no_terms(self):
        for text, at in [("", 0), ("A", 1), ("A(", 2), ("A()x", 3), ("A(1", 3), ("A(01)", 2), ("A(-0)", 3), ("A( 1)", 2), ("A(1,)", 4),
                         ("A([1])", 3), ("A([B(),])", 7), ('A("x)', 2), ('A("\\q")', 2), ("A(2147483648)", 2), ("int()", 0),
                         ("A(])", 2), ("A([)", 3), ("A(1 ,2)", 3), ("A(--)", 3), ("A([[]])", 3)]:
            with self.assertRaises(attrd.SyntaxFault, msg=text) as caught:
                attrd.read_term(text)
            self.assertEqual(caught.exception.at, at, text)

    def test_deep(self):
        deep = attrd.read_term("A(" * 511 + "A()" + ")" * 511)
        self.assertEqual(deep.depth, 512)
        self.assertEqual(deep, attrd.read_term(str(deep)))
        with self.assertRaises(attrd.SyntaxFault):
            attrd.read_term("A(" * 512 + "A()" + ")" * 512)

    def test_kinds_of_tokens_differ(self):
        self.assertNotEqual(Node("A", 1), Node("A", True))
        self.assertNotEqual(Node("A", ()), Node("A", None))
        self.assertEqual(Node("A", [Node("B")]), Node("A", (Node("B"),)))
        self.assertEqual(hash(Node("A", 1, "x")), hash(Node("A", 1, "x")))

    def test_long_lists_that_are_changed_are_as_made_anew(self):
        chance = random.Random(5)
        for _ in range(1500):
            before = chance.choice([(), (None,), ("x",), (small_tree(chance),)])
            old = [small_tree(chance) for _ in range(chance.randint(0, 40))]
            front = chance.randint(0, len(old))
            end = chance.randint(0, len(old) - front)
            between = [small_tree(chance) for _ in range(chance.randint(0, 4))]
            made = Node("R", *before, old, 7).with_elements(len(before), front, end, between)
            again = made.with_elements(len(before), front, end, between)
            new = Node("R", *before, old[:front] + between + old[len(old) - end:], 7)
            for it in (made, again):
                self.assertEqual(it, new)
                told = [(hash(tree), tree.size, tree.depth, tree.length, str(tree)) for tree in (it, new)]
                self.assertEqual(*told)
        self.assertRaises(attrd.TermFault, Node("R", [Node("L")]).with_elements, 0, 0, 0, ["x"])

    def test_the_order_of_a_long_list_counts(self):
        elements = [Node("L", it) for it in range(30)]
        self.assertNotEqual(Node("R", elements), Node("R", elements[::-1]))

    def test_paths(self):
        for text in ("/", "/A", "/A:0/B/C:12"):
            self.assertEqual(str(Path.read(text)), text)
        for text in ("", "A", "/A/", "//", "/A:", "/A:01", "/int", "/A:1234567890", "/A B"):
            with self.assertRaises(attrd.SyntaxFault, msg=text):
                Path.read(text)
        self.assertEqual(str(Path() / "A:3" / "B"), "/A:3/B")
        self.assertEqual(str(attrd.FromMark.read("$u/A:3") / "B"), "$u/A:3/B")

    def test_values(self):
        from attrd.replies import read_value
        for text, value in [("-5", -5), ("true", True), ("false", False), ("null", None), ('"a\\"\\n"', 'a"\n'), ("/A:1", Path.read("/A:1")),
                            ("A(1)", Node("A", 1))]:
            self.assertEqual(read_value(text), value)
            self.assertIs(type(read_value(text)), type(value))

    def test_values_of_no_kind_are_named(self):
        for call in (lambda: Node("A", 1.5), lambda: Node(3), lambda: Node("A", ["x"]), lambda: attrd.read_term(None), lambda: Path.read(7),
                     lambda: setattr(Node("A"), "name", "B")):
            self.assertRaises(attrd.AttrdError, call)


class Checks(unittest.TestCase):
    def setUp(self):
        self.grammar = calculator_grammar()

    def test_places_and_reasons(self):
        fits = 'Program(Block([Decl("x",Num(1)),Print(Add(Use("x"),Num(2)))]))'
        self.grammar.check(attrd.read_term(fits))
        for old, new, path, reason in [
                ("Num(1)", 'Num("1")', "/Block/Stmt:0/Init/Value", 'stands where a token of kind int'),
                ("Num(1)", "Num(1,2)", "/Block/Stmt:0/Init", "Num has 1 cells"),
                ("Num(1)", "[]", "/Block/Stmt:0/Init", "a list stands"),
                ("Num(1)", "Nix()", "/Block/Stmt:0/Init", "there is no class Nix"),
                ("Num(1)", "Expr()", "/Block/Stmt:0/Init", "Expr is abstract"),
                ("Num(1)", "Block([])", "/Block/Stmt:0/Init", "Block is neither Expr nor below it"),
                ('Use("x")', "-", "/Block/Stmt:1/Expr/Left", "an empty optional stands"),
                ('Use("x")', "Use(true)", "/Block/Stmt:1/Expr/Left/ID", "true stands where a token of kind String"),
                ("Print(Add", "Print(1,Add", "/Block/Stmt:1", "Print has 1 cells")]:
            with self.assertRaises(attrd.TermFault, msg=new) as caught:
                self.grammar.check(attrd.read_term(fits.replace(old, new)))
            self.assertEqual(caught.exception.path, path)
            self.assertIn(reason, caught.exception.reason)
        for value in (Node("Num", 2 ** 31), Node("Use", "a" * 4097), Node("Use", "\ud800")):
            self.assertRaises(attrd.TermFault, self.grammar.check, value, "Expr")

    def test_what_fitted_once_is_looked_at_again_where_it_stands_elsewhere(self):
        grammar = attrd.Grammar.read("R ::= A* [B];\nabstract A;\nL : A ::= <Value:int>;\nB ::= A;\n")
        other = attrd.Grammar.read("R ::= A* [B];\nabstract A;\nL : A ::= <Value:String>;\nB ::= A;\n")
        leaf = Node("L", 1)
        for _ in range(2):
            grammar.check(Node("R", [leaf, leaf], Node("B", leaf)))
        self.assertEqual(self.fault(grammar, Node("R", [leaf], leaf)), ("/B", "L is neither B nor below it"))
        self.assertEqual(self.fault(grammar, Node("R", [leaf, Node("L", True)], None))[0], "/A:1/Value")
        self.assertEqual(self.fault(grammar, Node("R", [Node("B", Node("L", "x"))], None))[0], "/A:0")
        self.assertEqual(self.fault(other, Node("R", [leaf], None))[0], "/A:0/Value")
        grammar.check(Node("R", [leaf], None))

    def fault(self, grammar, tree):
        """The place and the reason for which the tree is refused."""
        with self.assertRaises(attrd.TermFault) as caught:
            grammar.check(tree)
        return caught.exception.path, caught.exception.reason

    def test_limits(self):
        many = Node("Program", Node("Block", [Node("Block", [])] * 65535))
        self.assertRaises(attrd.TermFault, self.grammar.check, many)
        deep = Node("Block", [])
        for _ in range(511):
            deep = Node("Block", [deep])
        self.grammar.check(deep, "Stmt")
        self.assertRaises(attrd.TermFault, self.grammar.check, Node("Program", deep))

    def test_made(self):
        make = self.grammar.make
        self.assertEqual(make("Decl", ID="x"), Node("Decl", "x", None))
        self.assertEqual(make("Block"), Node("Block", []))
        self.assertRaises(attrd.UnknownName, make, "Nix")
        for call in (lambda: make("Num"), lambda: make("Num", 1, Value=2), lambda: make("Num", "x"),
                     lambda: make("Num", 1, X=2)):
            self.assertRaises(attrd.TermFault, call)

    def test_asked(self):
        grammar = attrd.Grammar.load(SAMPLES / "objects" / "objects.ast")
        self.assertTrue(grammar.is_below("Field", "Named"))
        self.assertFalse(grammar.is_below("Named", "Field"))
        self.assertEqual([it.name for it in grammar.parts("Method")], ["ID", "Type", "Param", "Body", "Result"])
        self.assertRaises(attrd.UnknownName, grammar.parts, "Nix")
        self.assertRaises(attrd.AttrdError, attrd.Grammar.load, SAMPLES / "nosuch.ast")
