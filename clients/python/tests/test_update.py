"""Updates: few edits, all accepted, and the server's tree is the new one to the character."""
import os
import random
import unittest

from at_length import at_length
import attrd
from attrd import Code, Costs, Document, Drop, Grammar, Node, SetNode, SetToken, applied, difference, read_term
from support import CALCULATOR, PROGRAM, SAMPLES, ServerTest, Trees, calculator_grammar, page_files

# How many pairs of trees there are of each of three languages, and how many nodes a tree has that is as large as its server lets it be.
PAIRS = int(os.environ.get("ATTRD_PAIRS", "10000"))
FULL = int(os.environ.get("ATTRD_TEST_NODES", "65536"))
BATCH = 250
NODES = (12, 150)
COSTS = [Costs(), Costs(move=1e-6), Costs(token=1e-6, put=1e-6, drop=1e-6, insert=1e-6, move=1e-6), Costs(set=1e-6, node=1e-7)]


class Pairs(unittest.TestCase):
    """Random pairs of trees: many in one server, each sent as edits and shown."""

    def run_pairs(self, grammar, aspects, seed):
        trees = Trees(grammar, random.Random(seed))
        tree = trees.sized(*NODES)
        with attrd.start(self.grammar_file, tree, *aspects, program=PROGRAM) as server:
            session, told, version, count = server.session(), [], 0, 0
            for number in range(PAIRS):
                new = trees.sized(*NODES) if number % 50 == 0 else trees.other(tree, *NODES)
                edits = difference(grammar, tree, new, COSTS[number % len(COSTS)])
                for edit in edits:
                    told.append((session.send(edit.command(), at=version), edit))
                    version += 1
                count += len(edits)
                told.append((session.send("show /", at=version), new))
                tree = new
                if number % BATCH == BATCH - 1:
                    self.compare(told)
                    told = []
            self.compare(told)
        return count

    def compare(self, told):
        for line, wanted in told:
            reply = line.accepted()
            if isinstance(wanted, Node):
                self.assertEqual(reply.text, str(wanted))

    def test_calculator(self):
        self.grammar_file = CALCULATOR / "calc.ast"
        self.run_pairs(calculator_grammar(), [CALCULATOR / "calc.jrag"], 1)

    def test_objects(self):
        self.grammar_file = SAMPLES / "objects" / "objects.ast"
        self.run_pairs(Grammar.load(self.grammar_file), [SAMPLES / "objects" / it for it in ("names.jrag", "types.jrag")], 2)

    def test_tutorial(self):
        files = page_files("TUTORIAL.md")
        self.grammar_file = attrd.Text("small.ast", files["small.ast"])
        aspects = [attrd.Text(it, files[it]) for it in ("kinds.jrag", "names.jrag", "types.jrag", "errors.jrag")]
        self.run_pairs(Grammar.read(files["small.ast"]), aspects, 3)


class Edits(unittest.TestCase):
    """Which edits there are for a change."""

    def setUp(self):
        self.grammar = calculator_grammar()

    def edits(self, old, new, costs=None):
        old, new = (read_term(f"Program(Block([{it}]))") for it in (old, new))
        found = difference(self.grammar, old, new, costs)
        self.assertEqual(applied(self.grammar, old, found), new)
        return [it.command() for it in found]

    def test_one_edit(self):
        a, b, c = 'Decl("a",Num(1))', 'Print(Use("a"))', "Block([Print(Num(3)),Print(Num(4))])"
        for old, new, wanted in [
                (a, 'Decl("b",Num(1))', 'token /Block/Stmt:0 ID "b"'),
                (f"{a},{b}", f"{a},Print(Use(\"z\"))", 'token /Block/Stmt:1/Expr ID "z"'),
                (a, 'Decl("a",Use("x"))', 'set /Block/Stmt:0/Init Use("x")'),
                (a, 'Decl("a",-)', "drop /Block/Stmt:0/Init"),
                ('Decl("a",-)', a, "put /Block/Stmt:0 Init Num(1)"),
                (f"{a},{b}", f"{a},{c},{b}", f"insert /Block Stmt 1 {c}"),
                (f"{a},{c},{b}", f"{a},{b}", "drop /Block/Stmt:1"),
                (f"{a},{b},{c}", f"{b},{c},{a}", "move /Block/Stmt:0 to /Block Stmt 2"),
                (f"{c},{a},{b}", f"{b},{c},{a}", "move /Block/Stmt:2 to /Block Stmt 0"),
                (f"{a},{c}", f"Block([Print(Num(3)),{a},Print(Num(4))])", "move /Block/Stmt:0 to /Block/Stmt:1 Stmt 1"),
                (f"Block([Print(Num(3)),{a},Print(Num(4))])", f"{a},{c}", "move /Block/Stmt:0/Stmt:1 to /Block Stmt 0"),
                (a, b, f"set /Block/Stmt:0 {b}")]:
            self.assertEqual(self.edits(old, new), [wanted])

    def test_moved_into_what_is_new(self):
        block = "Block([Print(Num(3)),Print(Num(4))])"
        self.assertEqual(self.edits(f'Decl("a",-),{block}', f'Decl("a",-),Block([{block}])'),
                         ["insert /Block Stmt 1 Block([])", "move /Block/Stmt:2 to /Block/Stmt:1 Stmt 0"])
        self.assertEqual(self.edits(f'Decl("a",-),Block([{block}])', f'Decl("a",-),{block}'),
                         ["move /Block/Stmt:1/Stmt:0 to /Block Stmt 1", "drop /Block/Stmt:2"])

    def test_an_element_is_not_replaced_where_an_edit_below_serves(self):
        more = ",".join(["Print(Num(0))"] * 9)
        edits = self.edits(f'Decl("a",Add(Num(1),Num(2))),{more}', f'Decl("b",Add(Num(3),Num(4))),{more}', Costs(token=1.2, set=1.5, node=0.2))
        self.assertEqual(edits, ['token /Block/Stmt:0 ID "b"', "set /Block/Stmt:0/Init Add(Num(3),Num(4))"])

    def test_costs_decide(self):
        old, new = 'Decl("a",Add(Num(1),Num(2)))', 'Decl("a",Add(Num(3),Num(4)))'
        self.assertEqual(self.edits(old, new, Costs(token=1, set=3)), ["token /Block/Stmt:0/Init/Left Value 3", "token /Block/Stmt:0/Init/Right Value 4"])
        self.assertEqual(self.edits(old, new, Costs(token=2, set=3)), ["set /Block/Stmt:0/Init Add(Num(3),Num(4))"])

    def test_a_long_list(self):
        elements = [f'Decl("x{it}",Num({it}))' for it in range(5000)]
        changed = elements[:10] + ['Decl("new",-)'] + elements[11:3000] + elements[3001:] + [elements[10]]
        edits = self.edits(",".join(elements), ",".join(changed))
        self.assertEqual(len(edits), 3)

    def test_nothing(self):
        self.assertEqual(self.edits('Decl("a",-)', 'Decl("a",-)'), [])

    def test_deep_trees(self):
        def nested(inner):
            for _ in range(509):
                inner = Node("Block", [inner])
            return Node("Program", inner)
        old, new = nested(Node("Print", Node("Num", 1))), nested(Node("Print", Node("Num", 2)))
        edits = difference(self.grammar, old, new)
        self.assertEqual(len(edits), 1)
        self.assertEqual(applied(self.grammar, old, edits), new)


class Documents(ServerTest):
    def setUp(self):
        super().setUp()
        self.document = Document(self.session, calculator_grammar(), Costs())

    def program(self, *statements):
        return Node("Program", Node("Block", list(statements)))

    def update(self, new):
        update = self.document.update(new)
        self.document.verify()
        for edit in update.edits:
            self.assertLessEqual(len(f"999 at {2 ** 64 - 1} {edit.command()}".encode()), 65535)
        return update

    def test_refused_before_it_is_sent(self):
        with self.assertRaises(attrd.TermFault) as caught:
            self.document.update(self.program(Node("Print", Node("Num", "x"))))
        self.assertEqual(caught.exception.path, "/Block/Stmt:0/Expr/Value")
        self.assertRaises(attrd.TermFault, self.document.update, "no tree")
        self.assertEqual(self.session.version(), 0)

    def test_marks_and_values_stay(self):
        mark = self.session.mark("/Block/Stmt:1/Expr/Left")
        one, two = self.document.tree.cells[0].cells[0]
        self.update(self.program(two, Node("Decl", "y", None), one))
        self.assertEqual(str(mark.where()), "/Block/Stmt:0/Expr/Left")

    def test_another_session_was_faster(self):
        self.server.session().drop("/Block/Stmt:0")
        new = self.program(Node("Decl", "q", None))
        self.refused(Code.STALE, self.document.update, new)
        with self.assertRaises(attrd.TreeDiffers) as caught:
            self.document.verify()
        self.assertEqual(caught.exception.path, "/Block")
        self.document.refresh()
        self.update(new)

    def test_edits_up_to_the_refused_one(self):
        new = self.program(Node("Decl", "q", None))
        good = SetToken(attrd.Path.read("/Block/Stmt:0"), "ID", "q")
        self.refused(Code.PATH, self.document.send, [good, Drop(attrd.Path.read("/Block/Stmt:7")), good], new)
        self.assertEqual(self.document.version, 1)
        self.document.verify()

    @at_length
    def test_many_long_texts(self):
        self.update(self.program(*[Node("Decl", "\"" * 4096, Node("Use", "é" * 2048)) for _ in range(60)]))

    def test_a_term_longer_than_a_line(self):
        wide = [Node("Decl", "x" * 100, Node("Num", -2147483648))] * 1000
        update = self.update(self.program(*wide))
        self.assertLess(len(update.edits), 600)
        self.update(self.program(Node("Print", Node("Num", 1))))
        self.update(self.program(Node("Block", wide), Node("Block", wide)))

    def test_a_deep_term_longer_than_a_line(self):
        spine = Node("Use", "a" * 4000)
        for _ in range(500):
            spine = Node("Add", spine, Node("Use", "b" * 400))
        update = self.update(self.program(Node("Print", spine)))
        self.assertLess(len(update.edits), 520)

    @at_length
    def test_a_wide_sum_longer_than_a_line(self):
        def balanced(count):
            return Node("Num", count) if count < 2 else Node("Add", balanced(count // 2), balanced(count - count // 2))
        self.update(self.program(Node("Decl", "s", balanced(9000))))
        self.assertEqual(self.session.value("/Block/Stmt:0", "value"), 9000)

    @at_length
    def test_a_full_tree(self):
        full = [Node("Decl", "x", None)] * (FULL - 3) + [Node("Decl", "y", None)]
        with attrd.start(CALCULATOR / "calc.ast", self.program(*full), CALCULATOR / "calc.jrag", program=PROGRAM, nodes=FULL) as server:
            document = Document(server.session(), calculator_grammar())
            for new in (self.program(Node("Block", [full[-1]]), *full[:-2]), self.program(*full[:-2], Node("Block", [full[-1]]))):
                self.assertLess(len(document.update(new).edits), 4)
                document.verify()

    def test_the_deepest_tree(self):
        deep = Node("Block", [])
        for _ in range(509):
            deep = Node("Block", [deep])
        self.update(self.program(deep))
        self.update(self.program(Node("Print", Node("Num", 1)), deep))
        self.update(self.program(deep.cells[0][0]))

    def test_the_tree_that_it_was_started_with_is_not_read_back(self):
        tree = self.program(Node("Print", Node("Num", 1)))
        with attrd.start(CALCULATOR / "calc.ast", tree, CALCULATOR / "calc.jrag", program=PROGRAM) as server:
            document = Document(server.session(), calculator_grammar())
            self.assertIs(document.tree, tree)
            document.verify()
            server.session().token("/Block/Stmt:0/Expr", "Value", 2)
            again = Document(server.session(), calculator_grammar())
            self.assertEqual((str(again.tree), again.version), ("Program(Block([Print(Num(2))]))", 1))
            self.assertRaises(attrd.TermFault, Document, self.other_server(tree), Grammar.read("Program ::= Block; Block;"))

    def other_server(self, tree):
        """A session of a server of its own over the tree."""
        server = attrd.start(CALCULATOR / "calc.ast", tree, CALCULATOR / "calc.jrag", program=PROGRAM)
        self.addCleanup(server.close)
        return server.session()

    def test_marks_stand_where_the_server_says(self):
        """Random edits: the places that the document knows are those that the server tells."""
        grammar, chance = calculator_grammar(), random.Random(5)
        trees = Trees(grammar, chance)
        begun = trees.sized(20, 60)
        kept = moved = 0
        with attrd.start(CALCULATOR / "calc.ast", begun, CALCULATOR / "calc.jrag", program=PROGRAM) as server:
            document = Document(server.session(), grammar)
            for round_number in range(60):
                views = list(document.view.all())
                for number, view in enumerate(chance.sample(views, min(3, len(views)))):
                    document.mark(f"m{round_number}_{number}", view)
                before = document.places
                document.update(trees.other(document.tree, 10, 80))
                for name in before:
                    told = server.send(document.session.number, f"where {name}").reply()
                    known = document.places.get(name)
                    self.assertEqual(str(told), "refused 3 mark" if known is None else f"= {known}")
                    kept += known is not None
                    moved += known is not None and known != before[name]
                for name in list(document.places)[:-20]:
                    document.unmark(name)
        self.assertGreater(kept, 100)
        self.assertGreater(moved, 20)

    def test_another_server_takes_its_place(self):
        grammar = calculator_grammar()
        document = Document(self.session, grammar)
        document.mark("use", "/Block/Stmt:1/Expr/Left")
        document.update(self.program(Node("Print", Node("Num", 1)), *document.tree.cells[0].cells[0]))
        wanted = document.tree
        self.server._channel.process.kill()
        self.assertRaises(attrd.ServerLost, document.update, self.program())
        with attrd.start(CALCULATOR / "calc.ast", CALCULATOR / "tree.txt", CALCULATOR / "calc.jrag", program=PROGRAM) as again:
            document.reopen(again.session())
            document.verify()
            self.assertEqual((document.tree, str(document.marks["use"].where())), (wanted, "/Block/Stmt:2/Expr/Left"))
            document.update(self.program(*wanted.cells[0].cells[0][1:]))
            self.assertEqual(str(document.places["use"]), "/Block/Stmt:1/Expr/Left")
            document.reopen(document.session)
            self.assertEqual(str(again.session(0).where("use")), "/Block/Stmt:1/Expr/Left")
            again.session().insert("/Block", "Stmt", 0, 'Decl("z",-)')
            document.refresh()
            self.assertEqual(str(document.places["use"]), "/Block/Stmt:2/Expr/Left")
            document.unmark("use")
            self.assertEqual((document.marks, document.places), ({}, {}))

    def test_costs_follow_the_server(self):
        document = Document(self.session, calculator_grammar())
        for number in range(5):
            document.update(self.program(Node("Print", Node("Num", number))))
        self.assertNotEqual(document.costs, Costs())
        self.assertEqual(document.costs.node, Costs().node)
        slower = Costs().after([SetToken(attrd.Path(), "ID", "x")] * 2, 2.0)
        self.assertGreater(slower.token, Costs().token)
        self.assertAlmostEqual(slower.set / slower.token, Costs().set / Costs().token)
        self.assertEqual(self.document.costs, Costs())

    def test_another_root(self):
        with attrd.start(attrd.Text("r.ast", "abstract R; A : R ::= R*; B : R ::= R*;"), Node("A", [Node("B", [])]),
                         attrd.Text("r.jrag", "aspect R { }"), program=PROGRAM) as server:
            document = Document(server.session(), Grammar.read("abstract R; A : R ::= R*; B : R ::= R*;"))
            update = document.update(Node("B", [Node("B", [])]))
            self.assertEqual([type(it) for it in update.edits], [SetNode])
            document.verify()
