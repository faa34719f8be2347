"""Trees whose cells are read by name, and how places are shown."""
import unittest

import attrd
from attrd import FromMark, Node, Path, View
from support import ServerTest, calculator_grammar

TREE = attrd.read_term('Program(Block([Decl("x",Num(1)),Decl("y",-),Print(Add(Use("x"),Num(2)))]))')


class Views(unittest.TestCase):
    def setUp(self):
        self.tree = View(calculator_grammar(), TREE)

    def test_cells_by_their_names(self):
        block = self.tree.Block
        self.assertEqual((len(block.Stmt), block.Stmt[0].ID, block.Stmt[0].Init.Value, block.Stmt[1].Init), (3, "x", 1, None))
        self.assertEqual([it.name for it in block.Stmt], ["Decl", "Decl", "Print"])
        self.assertEqual(str(block.Stmt[-1].place), "/Block/Stmt:2")
        self.assertEqual([str(it.place) for it in block.Stmt[1:]], ["/Block/Stmt:1", "/Block/Stmt:2"])
        self.assertEqual(block.Stmt[0]["Init"].node, Node("Num", 1))
        self.assertEqual(block.Stmt[2].Expr, View(calculator_grammar(), TREE.cells[0].cells[0][2].cells[0], Path.read("/Block/Stmt:2/Expr")))
        self.assertEqual(repr(block.Stmt[0]), '<View /Block/Stmt:0 Decl("x",Num(1))>')
        self.assertEqual(repr(block.Stmt), "<Views /Block/Stmt of 3>")
        self.assertEqual(str(self.tree), str(TREE))
        self.assertIn("Block", dir(self.tree))

    def test_names_that_are_not_there(self):
        for read in (lambda: self.tree.Stmt, lambda: self.tree.Block.Stmt[0].Value):
            self.assertRaises(AttributeError, read)
        with self.assertRaises(attrd.UnknownName) as caught:
            self.tree.Block.Stmt[0]["Inti"]
        self.assertEqual(str(caught.exception), "Decl has no component Inti; it has ID, Init")
        self.assertRaises(IndexError, lambda: self.tree.Block.Stmt[3])

    def test_all_nodes_of_a_class(self):
        self.assertEqual([str(it.place) for it in self.tree.all("Num")], ["/Block/Stmt:0/Init", "/Block/Stmt:2/Expr/Right"])
        self.assertEqual(sum(1 for _ in self.tree.all()), TREE.size)
        self.assertEqual(len(list(self.tree.all("Expr"))), 4)
        self.assertTrue(self.tree.Block.is_a("Stmt"))


class Shown(ServerTest):
    def test_places_in_messages(self):
        self.assertEqual(repr(Path.read("/Block/Stmt:1")), "<Path /Block/Stmt:1>")
        self.assertEqual(repr(FromMark.read("$u/Left")), "<FromMark $u/Left>")
        self.assertEqual(repr(self.session.mark("/Block", "u")), "<Mark $u of session 0>")
        self.assertEqual(repr(attrd.Value("/Block")), "Value(text='/Block')")

    def test_a_view_is_a_place(self):
        tree = attrd.Document(self.session, calculator_grammar()).view
        self.assertEqual(self.session.value(tree.Block.Stmt[1].Expr, "value"), 3)
        self.assertEqual(self.session.value(tree.Block, "local", "x"), tree.Block.Stmt[0].place)

    def test_which_kinds_are_taken(self):
        for call, told in ((lambda: self.session.ask("/Block", "local", 7.5), "an argument is a str (for a text), an int of 32 bits, a bool, a Path, a mark or"),
                           (lambda: self.session.ask("/Block", "local", 2 ** 31), "and not int 2147483648"),
                           (lambda: self.session.ask(7, "local"), "a place is a str that spells one, a Path, a mark or a View, and not int 7"),
                           (lambda: self.session.token("/", "ID", 1.5), "a token is a str, an int of 32 bits or a bool, and not float 1.5"),
                           (lambda: self.session.set("/", None), "a term is a Node, or a str that spells one, and not None")):
            with self.assertRaises(attrd.LineFault) as caught:
                call()
            self.assertIn(told, str(caught.exception))


if __name__ == "__main__":
    unittest.main()
