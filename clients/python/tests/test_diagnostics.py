"""Diagnostics: all faults of a tree, also where a cycle takes a count away."""
import os
import unittest
from random import Random

from at_length import at_length
import attrd
from attrd import Check, Diagnostics, Document, Grammar, diagnostics
from attrd.declarations import attributes_of
from support import CALCULATOR, PROGRAM, calculator_grammar, page_files

ASPECTS = ("kinds.jrag", "names.jrag", "types.jrag", "errors.jrag")
# How many edits by chance there are.
EDITS = int(os.environ.get("ATTRD_FAULT_EDITS", "80"))


class Tutorial(unittest.TestCase):
    STATEMENTS = ('Show(Name("x"))', 'Show(Name("nix"))', 'Decl("a",-,Name("a"))', 'Block([Show(Name("end"))])')

    def setUp(self):
        files = page_files("TUTORIAL.md")
        self.grammar = Grammar.read(files["small.ast"])
        self.diagnostics = diagnostics(self.grammar, [files[it] for it in ASPECTS], ["error"])
        texts = [attrd.Text(it, files[it]) for it in ASPECTS]
        server = attrd.start(attrd.Text("small.ast", files["small.ast"]), attrd.Text("tree.txt", files["tree.txt"]), *texts,
                             self.diagnostics.aspect, program=PROGRAM)
        self.addCleanup(server.close)
        self.document = Document(server.session(), self.grammar)

    def change(self, old, new):
        text = str(self.document.tree)
        self.assertIn(old, text)
        self.document.update(attrd.read_term(text.replace(old, new, 1)))

    def found(self):
        return [(str(it.path), it.message) for it in self.diagnostics.find(self.document)]

    def test_no_faults(self):
        self.assertEqual(self.found(), [])
        self.assertEqual(self.diagnostics.total(self.document), attrd.Value("0"))

    def test_faults_in_the_order_of_the_tree(self):
        self.change('ClassDecl("Circle",KindUse("Point")', 'ClassDecl("Circle",KindUse("Pint")')
        self.assertEqual(self.found(), [("/Kind:3", "no class Pint"), ("/Kind:3/Block/Stmt:0/Init/Left", "no declaration of x")])
        self.assertEqual(self.diagnostics.total(self.document), attrd.Value("2"))

    def test_a_circle_does_not_hide_faults(self):
        self.change('Show(Name("end"))', 'Decl("a",-,Name("a")),Show(Name("nix"))')
        self.change('Show(Name("near"))', 'Show(Name("far"))')
        self.assertIsInstance(self.diagnostics.total(self.document), attrd.Circular)
        self.assertEqual(self.found(), [("/Kind:2/Block/Stmt:1/Expr", "no declaration of far"),
                                        ("/Kind:3/Block/Stmt:1", "error has no value: circular /Kind:3/Block/Stmt:1.kind"),
                                        ("/Kind:3/Block/Stmt:2/Expr", "no declaration of nix")])

    def asked(self, before):
        """How many lines it takes to find the faults, and their messages."""
        sent, session = [], self.document.session
        send = session.send
        session.send = lambda command, at=None: sent.append(command) or send(command, at)
        try:
            found = self.diagnostics.find(self.document, before)
        finally:
            session.send = send
        return len(sent), [it.message for it in found]

    def test_faults_that_are_known_are_looked_at_first(self):
        self.change('Show(Name("end"))', 'Show(Name("nix")),Show(Num(1)),Show(Num(2)),Show(Num(3))')
        before = self.diagnostics.find(self.document)
        all_lines, told = self.asked([])
        self.assertEqual((told, self.asked(before)), (["no declaration of nix"], (2, told)))
        self.assertLess(2, all_lines)

    def test_faults_that_are_known_hide_no_other(self):
        self.change('Show(Name("end"))', 'Show(Name("nix"))')
        before = self.diagnostics.find(self.document)
        self.change('Show(Name("near"))', 'Show(Name("far"))')
        self.assertEqual(self.asked(before)[1], ["no declaration of far", "no declaration of nix"])
        self.change('Show(Name("nix"))', 'Decl("a",-,Name("a"))')
        self.assertEqual(self.asked(before)[1], self.asked([])[1])
        self.change('Decl("a",-,Name("a"))', 'Show(Num(1))')
        self.assertEqual(self.asked(before)[1], ["no declaration of far"])

    def test_a_fault_that_comes_is_looked_for_where_the_edit_was(self):
        classes = ",".join(f'ClassDecl("C{it}",-,[],Block([Show(Name("nix"))]))' for it in range(50))
        self.change('Basic("boolean")', f'Basic("boolean"),{classes}')
        before = self.diagnostics.find(self.document)
        self.change('Show(Name("end"))', 'Show(Name("other"))')
        lines, told = self.asked(before)
        self.assertEqual((told[-1], len(told)), ("no declaration of other", 51))
        self.assertLess(lines, 52 + 52 + 12)

    def test_faults_that_an_edit_moved_are_looked_for_where_they_are(self):
        self.change('Show(Name("end"))', 'Show(Name("nix"))')
        before = self.diagnostics.find(self.document)
        self.change('Decl("end",', 'Show(Num(1)),Decl("end",')
        self.assertEqual(self.asked(before), (2, ["no declaration of nix"]))

    def by_asking_all(self):
        """The faults that all nodes tell, each asked for its own."""
        asked = [(it.place, self.document.session.ask(it.place, "error")) for it in self.document.view.all()
                 if any(self.grammar.is_below(it.name, above) for above in ("Kind", "Stmt", "Expr"))]
        texts = [it.value if isinstance(it, attrd.Value) else f"error has no value: {it}" for _, it in asked]
        return [(str(path), text) for (path, _), text in zip(asked, texts) if text]

    @at_length
    def test_edits_by_chance(self):
        random, counts, before = Random(5), set(), []
        for _ in range(EDITS):
            kinds = list(self.document.tree.cells[0])
            at = random.randrange(2, len(kinds))
            name, above, fields, block = kinds[at].cells
            statements = list(block.cells[0])
            place = random.randrange(len(statements) + 1)
            new = attrd.read_term(random.choice(self.STATEMENTS))
            statements[place:place + random.randrange(3)] = [new] * random.randrange(2)
            above = random.choice([above, None, attrd.Node("KindUse", random.choice(["Point", "Pint"]))])
            changed = attrd.Node("ClassDecl", name, above, fields, attrd.Node("Block", statements))
            kinds[at:at + 1] = [changed] * random.choice([1, 1, 1, 2])
            self.document.update(attrd.Node("Program", kinds[:7]))
            before = self.diagnostics.find(self.document, before)
            self.assertEqual([(str(it.path), it.message) for it in before], self.by_asking_all())
            counts.add(len(before))
        self.assertGreater(len(counts), 6)

    def test_another_session_was_faster(self):
        self.document.session.connection.session().drop("/Kind:3")
        with self.assertRaises(attrd.Refused) as caught:
            self.diagnostics.find(self.document)
        self.assertEqual(caught.exception.code, attrd.Code.STALE)


class LongLists(unittest.TestCase):
    """The elements of a list at the root are counted by sixteens."""

    GRAMMAR = "Top ::= Left:Kind* <Name> Right:Kind* One:Kind [Maybe:Kind]; Kind ::= <Is:boolean> Kind*; Other : Kind;"
    ASPECT = "aspect A { syn boolean Kind.isBad() = getIs(); }"

    def started(self, grammar, tree, aspect, names):
        found = diagnostics(Grammar.read(grammar), [aspect], names)
        texts = [attrd.Text("a.jrag", aspect), found.aspect]
        server = attrd.start(attrd.Text("a.ast", grammar), tree, *texts, program=PROGRAM)
        self.addCleanup(server.close)
        return found, server.session()

    @at_length
    def test_counts_of_lists_of_many_lengths(self):
        random, leaf = Random(6), attrd.Node("Kind", False, ())
        found, session = self.started(self.GRAMMAR, attrd.Node("Top", (), "n", (), leaf, None), self.ASPECT, ["isBad"])
        document = Document(session, Grammar.read(self.GRAMMAR))
        for length in (0, 1, 16, 63, 64, 65, 79, 80, 81, 255, 256, 257, 300, 4096, 4097):
            elements = [attrd.Node(random.choice(["Kind", "Other"]), random.random() < 0.1, (leaf,) * random.randrange(2)) for _ in range(length)]
            first, last = elements[: random.choice([1, 16, length])], elements
            document.update(attrd.Node("Top", first, "n", last, attrd.Node("Kind", True, ()), elements[-1] if elements else None))
            wanted = sum(it.cells[0] for it in document.tree.all() if it.name != "Top")
            self.assertEqual(found.total(document), attrd.Value(str(wanted)))
        place = random.randrange(4097)
        document.update(attrd.applied(document.grammar, document.tree, [attrd.Drop(attrd.Path.read(f"/Right:{place}"))]))
        wanted = sum(it.cells[0] for it in document.tree.all() if it.name != "Top")
        self.assertEqual(found.total(document), attrd.Value(str(wanted)))

    def test_few_values_are_found_anew_where_one_element_of_many_has_another_count(self):
        tree = attrd.Node("Top", (), "n", (attrd.Node("Kind", False, ()),) * 3000, attrd.Node("Kind", False, ()), None)
        found = diagnostics(Grammar.read(self.GRAMMAR), [self.ASPECT], ["isBad"])
        text = found.aspect.text
        self.assertIn("inh lazy int Kind.faultCountOf16Right();", text)
        self.assertIn("getNumRight() <= 4096 ? getRight(0).faultCountOf4096Right()", text)
        works = []
        for keys in (0, 1):
            server = attrd.start(attrd.Text("a.ast", self.GRAMMAR), tree, attrd.Text("a.jrag", self.ASPECT), found.aspect, program=PROGRAM,
                                 options=["--work"])
            with server:
                session = server.session()
                self.assertEqual(session.ask("/", found.count), attrd.Value("0"))
                for _ in range(keys):
                    session.token("/Right:1700", "Is", True)
                    self.assertEqual(session.ask("/", found.count), attrd.Value("1"))
                server._channel.process.stdin.close()
                works.append(int(server._channel.ended()[1].split()[1]))
        self.assertLessEqual(works[1] - works[0], 6)

    def test_a_list_in_which_a_root_may_stand_is_counted_as_others(self):
        grammar, aspect = "Kind ::= <Is:boolean> Kind*;", self.ASPECT
        tree = attrd.Node("Kind", True, (attrd.Node("Kind", True, ()),) * 40)
        found, session = self.started(grammar, tree, aspect, ["isBad"])
        self.assertNotIn("getNumKind()", found.aspect.text)
        self.assertEqual(session.ask("/", found.count), attrd.Value("41"))

    def test_roots_of_many_classes_and_roots_in_the_tree(self):
        kinds = [attrd.Node("Kind", True, None)] * 70
        grammar = "abstract Top ::= Kind*; A : Top ::= More:Kind*; B : Top; Kind ::= <Is:boolean> [Top];"
        inner = attrd.Node("Kind", True, attrd.Node("B", kinds))
        found, session = self.started(grammar, attrd.Node("A", [inner] * 3, kinds), self.ASPECT, ["isBad"])
        self.assertEqual(session.ask("/", found.count), attrd.Value(str(3 * 71 + 70)))
        grammar = "Top ::= Kind*; abstract Any; Kind : Any ::= <Is:boolean> [Top]; Pair : Any ::= Kind Second:Kind;"
        found, session = self.started(grammar, attrd.Node("Top", kinds), self.ASPECT, ["isBad"])
        self.assertEqual(session.ask("/", found.count), attrd.Value("70"))

    def test_names_that_are_taken(self):
        aspect = "aspect A { syn boolean Kind.isBad() = getIs(); syn int Kind.faultCountOf16Left() = 1; }"
        tree = attrd.Node("Top", (attrd.Node("Kind", True, ()),) * 90, "n", (), attrd.Node("Kind", True, ()), None)
        found, session = self.started(self.GRAMMAR, tree, aspect, ["isBad"])
        self.assertEqual(session.ask("/", found.count), attrd.Value("91"))


class Kinds(unittest.TestCase):
    def test_checks_of_each_kind(self):
        aspect = ("aspect A { inh boolean Num.isBad(); eq Program.getBlock().isBad() = true; syn int Stmt.count() = 2;"
                  " eq Block.count() = 0; }")
        texts = [(CALCULATOR / "calc.jrag").read_text(), aspect]
        found = diagnostics(calculator_grammar(), texts, ["isBad", "count", "decl"])
        tree = attrd.read_term('Program(Block([Decl("x",Num(1)),Print(Use("y")),Block([])]))')
        with attrd.start(CALCULATOR / "calc.ast", tree, CALCULATOR / "calc.jrag", attrd.Text("a.jrag", aspect), found.aspect, program=PROGRAM) as server:
            told = [(str(it.path), it.message) for it in found.find(Document(server.session(), calculator_grammar()))]
        self.assertEqual(told, [("/Block/Stmt:0", "count is 2"), ("/Block/Stmt:0/Init", "isBad"), ("/Block/Stmt:1", "count is 2"),
                                ("/Block/Stmt:1/Expr", "decl is null")])

    def test_many_components_and_checks(self):
        grammar = "A ::= " + " ".join(f"P{it}:B" for it in range(32)) + "; B ::= [Maybe:A] A*;"
        aspect = "aspect A { " + " ".join(f"syn boolean A.f{it}() = false;" for it in range(40)) + " }"
        found = diagnostics(Grammar.read(grammar), [aspect], [f"f{it}" for it in range(40)])
        tree = Grammar.read(grammar).smallest("A")
        with attrd.start(attrd.Text("a.ast", grammar), tree, attrd.Text("a.jrag", aspect), found.aspect, program=PROGRAM) as server:
            self.assertEqual(found.find(Document(server.session(), Grammar.read(grammar))), [])

    def test_names(self):
        grammar = calculator_grammar()
        text = "aspect A { syn int Program.faultCount() = 0; syn int Program.of(String n) = 0; }"
        self.assertEqual(diagnostics(grammar, [text], ["faultCount"]).count, "faultCount2")
        for names in (["nix"], ["of"]):
            self.assertRaises(attrd.AspectFault, diagnostics, grammar, [text], names)
        self.assertRaises(attrd.AspectFault, Diagnostics, grammar, [Check("Nix", "a", "int")])

    def test_declarations(self):
        text = 'aspect A { // syn int A.no();\n syn lazy int A.a(String n, B b) = "inh int A.no()".equals(n) ? 1 : 0; inh B\n A . b ( ); /* syn int A.no(); */ syn boolean A.c() circular [false] = c(); }'
        self.assertEqual([(it.of, it.name, it.kind, it.parameters, it.is_inherited, it.is_lazy) for it in attributes_of(text)],
                         [("A", "a", "int", ("String", "B"), False, True), ("A", "b", "B", (), True, False), ("A", "c", "boolean", (), False, True)])
