"""Trees of more nodes than a tree has where nothing is said."""
import os
import socket
import tempfile
import unittest

from at_length import at_length
import attrd
from attrd import Code, Document, Grammar, Node, difference
from attrd.lexical import MOST_NODES, TREE_NODES
from support import PROGRAM

GRAMMAR = attrd.Text("row.ast", "Row ::= Item*;\nItem ::= <ID>;\n")
ASPECT = attrd.Text("row.jrag", "aspect R { syn int Row.many() = getNumItem(); }\n")
SIZED = "--nodes" in attrd.known_options(PROGRAM)


def row(nodes, name="a"):
    """A tree of so many nodes."""
    return Node("Row", [Node("Item", name)] * (nodes - 1))


class Options(unittest.TestCase):
    def test_what_a_program_takes(self):
        self.assertEqual(attrd.nodes_of(frozenset(["--keep"])), TREE_NODES)
        self.assertEqual(attrd.nodes_of(frozenset(["--nodes"])), MOST_NODES)
        self.assertEqual(attrd.sizing_options(frozenset(["--keep"])), [])
        self.assertEqual(attrd.sizing_options(frozenset(["--nodes"])), ["--nodes", "16777216"])
        self.assertEqual(attrd.sizing_options(frozenset(["--nodes"]), 7), ["--nodes", "7"])

    def test_kept_values_go_with_the_nodes(self):
        for nodes, wanted in (1, attrd.KEPT), (TREE_NODES, attrd.KEPT), (1_000_000, 6_000_000):
            self.assertEqual(attrd.kept_for(nodes), wanted)


class Checks(unittest.TestCase):
    def setUp(self):
        self.grammar = Grammar.read(GRAMMAR.text)

    @at_length
    def test_how_many_nodes_a_tree_may_have_can_be_said(self):
        for tree, nodes in (row(TREE_NODES), None), (row(8), 8), (row(TREE_NODES + 1), TREE_NODES + 1):
            named = {} if nodes is None else {"nodes": nodes}
            self.grammar.check(tree, **named)
            with self.assertRaises(attrd.TermFault) as caught:
                self.grammar.check(row(tree.size + 1), **named)
            self.assertEqual(caught.exception.reason, f"the tree has {tree.size + 1} nodes, and {tree.size} are the limit")

    def test_no_tree_between_has_more_nodes(self):
        """All elements but the first are other ones, and come before the old ones go only where there is room."""
        old, new = row(9, "a"), row(9, "b")
        for nodes in 9, 12, 20:
            tree = old
            for edit in difference(self.grammar, old, new, nodes=nodes):
                tree = attrd.applied(self.grammar, tree, [edit])
                self.assertLessEqual(tree.size, nodes)
            self.assertEqual(tree, new)


@unittest.skipUnless(SIZED, "the program has no option --nodes")
class Servers(unittest.TestCase):
    def start(self, tree, **named):
        server = attrd.start(GRAMMAR, tree, ASPECT, program=PROGRAM, **named)
        self.addCleanup(server.close)
        return server

    @at_length
    def test_a_tree_of_more_nodes_is_updated(self):
        tree = row(TREE_NODES + 2)
        server = self.start(tree, nodes=100_000)
        self.assertEqual(server.nodes, 100_000)
        document = Document(server.session(), Grammar.read(GRAMMAR.text))
        self.assertEqual(server.session().value("/", "many"), TREE_NODES + 1)
        more = Node("Row", [*tree.cells[0], *[Node("Item", "b")] * 3])
        self.assertEqual(document.update(more).version, 3)
        document.verify()
        self.assertEqual(server.session().value("/", "many"), TREE_NODES + 4)
        self.assertRaises(attrd.TermFault, document.update, row(100_001))
        document.refresh()
        self.assertEqual(document.tree, more)

    @at_length
    def test_faults_are_counted_in_lists_of_more_elements_than_the_usual(self):
        text = "aspect A { syn boolean Item.isBad() = getID().equals(\"b\"); }"
        found = attrd.diagnostics(Grammar.read(GRAMMAR.text), [text], ["isBad"])
        items = [Node("Item", "b" if it % 10_000 == 9_999 else "a") for it in range(70_000)]
        server = attrd.start(GRAMMAR, Node("Row", items), attrd.Text("a.jrag", text), found.aspect, program=PROGRAM, nodes=100_000)
        self.addCleanup(server.close)
        self.assertEqual(server.session().ask("/", found.count), attrd.Value("7"))
        server.session().token("/Item:69999", "ID", "a")
        self.assertEqual(server.session().ask("/", found.count), attrd.Value("6"))

    def test_without_it_the_tree_is_refused(self):
        tree = row(TREE_NODES + 1)
        with self.assertRaises(attrd.StartFault) as caught:
            self.start(tree)
        self.assertEqual(caught.exception.code, "F12")

    def test_fewer_nodes(self):
        server = self.start(row(5), nodes=5)
        document = Document(server.session(), Grammar.read(GRAMMAR.text))
        self.assertRaises(attrd.TermFault, document.update, row(6))
        update = document.update(row(5, "b"))
        self.assertEqual((update.version, document.tree), (len(update.edits), row(5, "b")))
        with self.assertRaises(attrd.Refused) as caught:
            server.session().insert("/", "Item", 0, Node("Item", "c"))
        self.assertEqual(caught.exception.code, Code.LIMIT)

    def test_a_number_that_is_none(self):
        for nodes in 0, MOST_NODES + 1:
            with self.assertRaises(attrd.StartFault) as caught:
                self.start(row(1), nodes=nodes)
            self.assertEqual(caught.exception.status, 2)

    @at_length
    def test_a_file_that_is_refused_is_explained(self):
        with tempfile.TemporaryDirectory() as folder:
            files = [os.path.join(folder, it) for it in ("row.ast", "row.txt", "row.jrag")]
            for file, text in zip(files, (GRAMMAR.text, f"{row(TREE_NODES + 5)}\n", ASPECT.text)):
                with open(file, "w", encoding="utf-8") as it:
                    it.write(text)
            with self.assertRaises(attrd.StartFault) as caught:
                attrd.start(*files, program=PROGRAM, nodes=TREE_NODES + 4)
            told = str(attrd.explain(caught.exception, files, TREE_NODES + 4))
        self.assertIn("the tree has 65541 nodes, and 65540 are the limit", told)
        self.assertIn("--nodes", told)

    def test_a_connection_is_told_how_many_there_may_be(self):
        with tempfile.TemporaryDirectory() as folder, socket.socket(socket.AF_UNIX) as server:
            path = os.path.join(folder, "s")
            server.bind(path)
            server.listen(2)
            with attrd.connect(path, nodes=7) as connection:
                self.assertEqual(connection.nodes, 7)
            with attrd.connect(path) as connection:
                self.assertEqual(connection.nodes, TREE_NODES)
