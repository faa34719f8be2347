"""What is kept from key to key, against what is made anew of the same text: parts, trees, places, diagnostics and their JSON."""
import json
import os
import random
import re
import tempfile
import unittest
from dataclasses import replace
from pathlib import Path as FilePath
from unittest import mock

from at_length import at_length
from attrd import Grammar, Move, Node, Path, TermFault, applied, difference
from attrd.edits import below
from attrd_lsp.checking import Console
from attrd_lsp.completing import find_completions
from attrd_lsp.desk import Program
from attrd_lsp.language_files import LanguageFiles
from attrd_lsp.outline import diagnostics_of
from attrd_lsp.phrases import Parsed, phrase, tree_of
from attrd_lsp.positions import Change, Span, Text
from attrd_lsp.project import Project, Request
from attrd_lsp.reading import Reader, Stretch, cut_text
from attrd_lsp.rpc import ENCODER
from attrd_lsp.small.language import class_starts, tutorials
from attrd_lsp.source import Source
from lsp_support import CLASS_NODES, FILE, LSP, SMALL, Client, Editing, large_class, program

SIGNS = ["{", "}", ";", " ", "\n", "\r", "\r\n", "//", "\U0001f600", "", ""]
WORDS = ["x", "q", "class ", "class", "// class ", "int ", large_class(7), *SIGNS]
# How often a phrase is read that was changed by chance.
READINGS = int(os.environ.get("ATTRD_READINGS", "4000"))
SIZELESS = LSP / "tests" / "sizeless.py"
LANGUAGE = tutorials()
GRAMMAR = Grammar.read(LANGUAGE.grammar.read_text("utf-8"))
READER = Reader(LANGUAGE, GRAMMAR)


def spans_in(chance, length):
    """A stretch of a text of that length: at its front, at its end or anywhere, and mostly short."""
    start = chance.choice((0, length, chance.randint(0, length)))
    return Span(start, min(length, start + chance.choice((0, 0, 1, 3, 60))))


class Readings(unittest.TestCase):
    """A text that is read again, by the stretch that has changed."""

    def changed(self, chance, text):
        """Some changes of the text, made one after the other: the text behind them, and the stretch that has them."""
        stretch = None
        for _ in range(chance.choice((1, 1, 1, 3))):
            span, new = spans_in(chance, len(text)), chance.choice(WORDS)
            text = text[: span.start] + new + text[span.end :]
            stretch = Stretch(span, len(new)) if stretch is None else stretch.then(span, len(new))
        return text, stretch

    def test_a_stretch_has_all_changes(self):
        chance = random.Random(1)
        for _ in range(2000):
            old = "".join(chance.choice("abc") for _ in range(chance.randint(0, 40)))
            new, stretch = self.changed(chance, old)
            come = new[stretch.old.start : stretch.old.start + stretch.length]
            self.assertEqual(old[: stretch.old.start] + come + old[stretch.old.end :], new)
            self.assertEqual(stretch.moved, len(new) - len(old))

    def test_what_is_read_by_the_stretch_is_what_is_read_of_the_text(self):
        for seed in range(12):
            chance = random.Random(seed)
            text = "// front\n" * (seed % 2) + "".join(map(large_class, range(5)))
            source = Source(READER, {}).with_file("other.small", SMALL).with_file(FILE, text)
            for _ in range(25):
                _ = source.tree
                text, stretch = self.changed(chance, text) if chance.random() < 0.8 else ("".join(map(large_class, range(5))), None)
                wanted = source.with_file(FILE, text)
                source = source.with_file(FILE, text, stretch=stretch)
                self.compare(source, wanted, text)

    def test_what_is_read_of_a_phrase_alone_is_what_is_read_of_the_part(self):
        chance = random.Random(3)
        text, count, whole = large_class(4), 0, 0
        old = READER.piece(text)
        for _ in range(READINGS):
            start = chance.randint(1, len(text) - 1)
            span = Span(start, min(len(text), start + chance.choice((0, 0, 0, 1, 1, 2, 7))))
            new = chance.choice(["a", "q", "1", " ", "\n", ";", "{", "}", "(", ")", "//", "= x", "+", "x; ", "{ }", "show ", "\u00e9", "", "", ""])
            changed = text[: span.start] + new + text[span.end :]
            again, wanted = READER.again(old, changed, Stretch(span, len(new))), READER.piece(changed)
            if again is not None:
                self.assertEqual((again, again.phrase.tree.size), (wanted, wanted.phrase.tree.size))
            count, whole = count + (again is not None), whole + wanted.is_good
            if wanted.is_good and len(changed) < 700:
                text, old = changed, wanted
        self.assertGreater(count, READINGS * 0.075)
        self.assertGreater(count, whole * 0.8)

    def test_a_phrase_is_read_alone_only_where_that_is_one_again(self):
        text = "class A {\n  int x;\n  {\n    show x;\n    { y = (x); }\n  }\n}\n"
        old = READER.piece(text)
        self.assertTrue(old.is_good)
        for at, new, is_again in (("x;\n    {", "xy;\n    {", True), ("show x", "show // x", False), ("ow x", "ow x; show x", True),
                                  ("ow x;\n", "ow x };\n", False), ("y = (x)", "y = (" + "(" * 300 + "x" + ")" * 301, False),
                                  ("y = (x)", "y = (" + "(" * 90 + "x" + ")" * 91, True), ("nt x", "n x", True), ("nt x", "nt x y", False)):
            start = text.index(at)
            changed = text[:start] + new + text[start + len(at) :]
            again = READER.again(old, changed, Stretch(Span(start, start + len(at)), len(new)))
            self.assertEqual(again is not None, is_again, at)
            if again is not None:
                self.assertEqual(again, READER.piece(changed))

    def test_a_reader_of_phrases_that_raises_or_errs_is_passed_over(self):
        def raises(text):
            raise ValueError(text)

        text = large_class(4)
        start = text.index("t2 <")
        changed = text[:start] + "q" + text[start:]
        for read in (raises, lambda _: Parsed(None, []), lambda _: READER.language.parse(text), lambda it: READER.language.parse("class A { {} }")):
            reader = Reader(replace(LANGUAGE, again=dict.fromkeys(("Block", "Decl"), read)), GRAMMAR)
            self.assertIsNone(reader.again(READER.piece(text), changed, Stretch(Span(start, start), 1)))

    def compare(self, source, wanted, text):
        """Compares all that was read, and the tree with one that is made anew of its parts."""
        found, other = source.files[FILE], wanted.files[FILE]
        self.assertEqual(found.cut, cut_text(text, class_starts(text)))
        self.assertEqual((found.starts, found.texts, found.faults, found.trouble), (other.starts, other.texts, other.faults, other.trouble))
        self.assertEqual([(it.text, it.phrase) for it in found.taken], [(it.text, it.phrase) for it in other.taken])
        self.assertLessEqual(found.pieces.keys(), set(found.cut.texts))
        trees = [it.phrase.tree for name in source.files for it in source.files[name].taken]
        made = Node("Program", [*LANGUAGE.listed.before, *trees])
        self.assertEqual((source.tree, source.tree.size, source.tree.depth, source.tree.length), (made, made.size, made.depth, made.length))
        self.assertEqual(hash(source.tree), hash(made))

    def test_a_text_that_is_only_tried_leaves_what_was_read(self):
        source = Source(READER, {}).with_file(FILE, SMALL)
        pieces = dict(source.files[FILE].pieces)
        source.with_file(FILE, SMALL.replace("x + r", "r + x"))
        self.assertEqual(source.files[FILE].pieces, pieces)

    def test_a_file_whose_parts_could_not_be_told_is_read_as_a_whole_again(self):
        wrong = []

        def starts(text):
            if wrong:
                raise ValueError("no parts")
            return class_starts(text)

        listed = LANGUAGE.listed.__class__(**{**LANGUAGE.listed.__dict__, "starts": starts})
        reader = Reader(LANGUAGE.__class__(**{**LANGUAGE.__dict__, "listed": listed}), GRAMMAR)
        source = Source(reader, {}).with_file(FILE, SMALL)
        wrong.append(True)
        source = source.with_file(FILE, "\n" + SMALL, stretch=Stretch(Span(0, 0), 1))
        wrong.clear()
        source = source.with_file(FILE, "\n\n" + SMALL, stretch=Stretch(Span(0, 0), 1))
        self.assertEqual(source.files[FILE].cut, cut_text("\n\n" + SMALL, class_starts("\n\n" + SMALL)))
        self.assertEqual(source.spot("/Kind:2").span.start, 2)


class Trees(unittest.TestCase):
    """Nodes that are the same as before."""

    def test_what_is_long_is_made_anew(self):
        name, many = (phrase("Name", Span(0, 1), Span(0, 1), ID=it) for it in ("x", "x" * 300))
        shows = [phrase("Show", Span(0, 1), Expr=name)] * 33
        self.assertIs(phrase("Name", Span(0, 1), Span(0, 1), ID="x").tree, name.tree)
        self.assertIsNot(phrase("Name", Span(0, 1), Span(0, 1), ID="x" * 300).tree, many.tree)
        self.assertIs(phrase("Block", Span(0, 1), Stmt=shows[1:]).tree, phrase("Block", Span(0, 1), Stmt=shows[1:]).tree)
        self.assertIsNot(phrase("Block", Span(0, 1), Stmt=shows).tree, phrase("Block", Span(0, 1), Stmt=shows).tree)

    def test_a_number_and_a_constant_are_two_trees(self):
        self.assertIs(tree_of("Num", [1]), tree_of("Num", [1]))
        self.assertEqual([tree_of("Num", [it]).cells for it in (1, True, "1")], [(1,), (True,), ("1",)])
        self.assertIs(type(tree_of("Num", [True]).cells[0]), bool)

    def test_a_tree_that_fitted_is_refused_where_another_class_is_wanted_and_by_another_grammar(self):
        number = tree_of("Num", [1])
        GRAMMAR.check(number, "Expr")
        piece = Reader(LANGUAGE, GRAMMAR).trouble_with
        read = READER.piece("class A {{ show 1; }}")
        self.assertTrue(read.is_good)
        self.assertIsNone(piece((read.phrase, []), len(read.text)))
        self.assertRaises(TermFault, GRAMMAR.check, number, "Stmt")
        self.assertRaises(TermFault, Grammar.read("R;\nabstract Expr;\nNum : Expr ::= <Value:String>;\n").check, number, "Expr")


class Edits(unittest.TestCase):
    """Edits of one part, as those of the whole tree."""

    def test_edits_of_a_part_make_the_whole_tree(self):
        chance = random.Random(6)
        words = ["x = 1;", "int y = x + 2;", "show y;", "{ show x; z = y < x; }", "{ { show 1; } show 2; }", "show x.y;"]
        moves = 0
        for _ in range(300):
            old, new = ([chance.choice(words) for _ in range(chance.randint(0, 9))] for _ in range(2))
            new = new if chance.random() < 0.3 else chance.sample(old, len(old)) + new[:1]
            texts = [large_class(1), f"class B {{ {{ {' '.join(old)} }} }}\n", large_class(2)]
            before = Source(READER, {}).with_file("other.small", SMALL).with_file(FILE, "".join(texts))
            after = before.with_file(FILE, "".join([texts[0], f"class B {{ {{ {' '.join(new)} }} }}\n", texts[2]]))
            step = after.step
            if step is not None:
                self.assertEqual((before.path(step.number), step.before), ("/Kind:5", before.mark))
                edits = [below(Path.read(before.path(step.number)), it) for it in difference(GRAMMAR, step.old, step.new)]
                self.assertEqual(applied(GRAMMAR, before.tree, edits), after.tree)
                moves += sum(isinstance(it, Move) for it in edits)
        self.assertGreater(moves, 50)

    @at_length
    def test_a_tree_near_its_limit_and_one_too_large(self):
        """By a program without the option --nodes: the limit is 65,536."""
        console = Console()
        named = mock.patch.dict(os.environ, {"ATTRD": program()})
        named.start()
        self.addCleanup(named.stop)
        files = LanguageFiles(Program(str(SIZELESS)), LANGUAGE, console)
        told = []
        project = Project(files.reader(), files.start, lambda *_: None, told.append)
        self.addCleanup(project.drop_desk)
        project.versions[FILE] = 0
        classes = 65_400 // CLASS_NODES
        text = "".join(map(large_class, range(classes))) + "class B {{ show 1; }}\n"
        project.put(FILE, FILE, text)
        self.finish(project)
        room = (65_536 - project.source.tree.size) // 2 + 1
        odd, tried = "y; " * (project.source.tree.size % 2), 0
        for new, wanted in (("show 2; " * room + odd, "None"), ("show 3; " * (room + 1), "too large"), ("show 4; ", "None")):
            text = project.texts[FILE]
            start = text.text.index("class B {{ ") + len("class B {{ ")
            end = text.text.index("}}", start)
            project.change(FILE, project.versions[FILE] + 1, [Change(text.position(start), text.position(end), new)])
            self.finish(project)
            self.assertIn(wanted, str(project.trouble))
            if project.source.tree.size == 65_536:
                self.complete(project, project.texts[FILE].text.index("}}", start))
                tried += 1
        self.assertEqual(tried, 1)
        self.assertEqual(str(project.desk.session.show(f"/Kind:{classes + 2}")), 'ClassDecl("B",-,[],Block([Show(Num(4))]))')

    def complete(self, project, offset):
        """A name that is tried has no room: completion has no answer, and all else goes on."""
        desk, failed = project.desk, []
        texts = {FILE: project.texts[FILE].text}
        begin = lambda desk: find_completions(desk, texts, project.source, FILE, offset)  # noqa: E731
        project.requests.append(Request(1, begin, self.fail, failed.append))
        self.finish(project)
        self.assertEqual([str(it) for it in failed], ["the tree has no room for what is tried"])
        self.assertIs(project.desk, desk)

    def finish(self, project):
        """Goes on until all is done."""
        while project.is_busy:
            project.step()


class Texts(unittest.TestCase):
    """Places in a text that was changed, against those in the same text that is new."""

    def test_places_after_changes_by_chance(self):
        chance = random.Random(4)
        text = Text.of("one\r\ntwo\n\U0001f600three\rfour\n")
        for _ in range(600):
            span = spans_in(chance, len(text.text))
            text = text.changed(span, chance.choice(["a", "\n", "\r", "\r\n", "\U0001f600", "", "", "two\nlines"]))
            text = text if len(text.text) < 80 else text.changed(Span(20, 70), "")
            new = Text.of(text.text)
            self.assertEqual(text.starts, new.starts)
            for offset in range(len(text.text) + 1):
                self.assertEqual(text.position(offset), new.position(offset))
                end = chance.randint(offset, len(text.text))
                self.assertEqual(text.range(Span(offset, end)), (new.position(offset), new.position(end)))


class Diagnostics(unittest.TestCase):
    """Diagnostics behind each key, against those of a project that is new."""

    def project(self, text):
        """A project of this one file, when its check is over."""
        console = Console()
        files = LanguageFiles(Program(program()), LANGUAGE, console)
        project = Project(files.reader(), files.start, lambda *_: None, self.fail)
        self.addCleanup(project.drop_desk)
        project.versions[FILE] = 0
        project.put(FILE, FILE, text)
        self.finish(project)
        return project

    def finish(self, project):
        """Goes on until the check is over."""
        while project.is_busy:
            project.step()

    def key(self, project, start, end, new):
        """Puts a text in the place of a stretch, and compares what is told then."""
        text = project.texts[FILE]
        project.change(FILE, project.versions[FILE] + 1, [Change(text.position(start), text.position(end), new)])
        self.finish(project)
        new = self.project(project.texts[FILE].text)
        self.assertEqual(diagnostics_of(project, FILE), diagnostics_of(new, FILE))
        self.assertEqual((list(project.known.texts), project.known.wrong), (list(new.known.texts), new.known.wrong))
        new.drop_desk()
        return [it["message"] for it in diagnostics_of(project, FILE)]

    def test_faults_come_move_and_go_at_the_front_in_the_middle_and_at_the_end(self):
        text = "".join(large_class(it).replace(" = t", " = q", 1) if it % 3 == 0 else large_class(it) for it in range(9))
        project = self.project(text)
        self.assertEqual(len(project.problems), 3)
        for word, at in (("t0 <", "find"), ("t4 <", "rfind"), ("t2 <", "rfind")):
            place = getattr(project.texts[FILE].text, at)(word)
            self.assertEqual(len(self.key(project, place, place, "z")), 4)
            self.assertEqual(len(self.key(project, 0, 0, "\n// a line\n")), 4)
            place = getattr(project.texts[FILE].text, at)("z" + word)
            self.assertEqual(len(self.key(project, place, place + 1, "")), 3)
        wrong = project.texts[FILE].text.index(" = q")
        self.assertEqual(len(self.key(project, wrong, wrong + 4, " = t")), 2)
        middle = project.texts[FILE].text.index("class C4")
        self.assertEqual(len(self.key(project, middle, middle, large_class(20).replace(" = t", " = q"))), 7)

    def test_a_fault_of_another_text_where_the_count_stays(self):
        project = self.project("class P { int x; {} }\nclass Q extends P { { P p = x; } }\n")
        start = project.texts[FILE].text.index("int")
        self.assertEqual([it.text for it in project.problems], ["wants P, gets int"])
        self.assertEqual(self.key(project, start, start + 3, "boolean"), ["wants P, gets boolean"])
        self.assertEqual(self.key(project, start, start + 7, "Q"), [])

    def test_a_fault_that_goes_where_another_one_comes(self):
        project = self.project("class P { int x; int y; { show q; show x; } }\nclass Q extends P { { show y; } }\n")
        text = project.texts[FILE].text
        self.assertEqual([it.text for it in project.problems], ["no declaration of q"])
        self.assertEqual(self.key(project, text.index("int y"), text.index("int y") + 5, "int q"), ["no declaration of y"])

    def test_a_source_two_steps_on_is_shown_as_a_whole(self):
        project = self.project("".join(map(large_class, range(3))))
        text = project.texts[FILE].text.replace("a0 + b0", "b0 + b0", 1)
        project.follow(project.source.with_file(FILE, text).with_file(FILE, text.replace("a2 + b2", "b2 + b2", 1)))
        self.finish(project)
        self.assertEqual(str(project.desk.session.show("/")), str(project.source.tree))

    @at_length
    def test_edits_before_a_check_is_over(self):
        chance = random.Random(8)
        project = self.project("".join(map(large_class, range(4))))
        for _ in range(12):
            for _ in range(chance.randint(1, 4)):
                text = project.texts[FILE]
                word = chance.choice(list(re.finditer(r"\bt\d\b", text.text)))
                change = Change(text.position(word.start()), text.position(word.end()), chance.choice(("q", "t1", "t9")))
                project.change(FILE, project.versions[FILE] + 1, [change])
                for _ in range(chance.randint(0, 2)):
                    project.step()
            self.finish(project)
            new = self.project(project.texts[FILE].text)
            self.assertEqual(diagnostics_of(project, FILE), diagnostics_of(new, FILE))
            new.drop_desk()

    def test_the_json_of_a_diagnostic(self):
        project = self.project(SMALL.replace("x + r", 'qé + r').replace("end =", "Circle end ="))
        told, again = (diagnostics_of(project, FILE) for _ in range(2))
        self.assertTrue(told)
        for one, other in zip(told, again):
            self.assertIs(one, other)
            self.assertEqual(json.loads(one.text), one)
            self.assertEqual(one.text, ENCODER.encode(dict(one)))

    def test_problems_move_with_changes_before_the_next_check(self):
        project = self.project(SMALL.replace("near = x", "near = q").replace("x + r", "qq + r"))
        text = project.texts[FILE]
        self.assertEqual([text.text[it.span.start : it.span.end] for it in project.problems], ["q", "qq"])
        for word, new in (("Point {", "Punkt {"), ("qq", ""), ("class Circle", "\n\nclass Circle")):
            text = project.texts[FILE]
            start = text.text.index(word)
            project.change(FILE, 7, [Change(text.position(start), text.position(start + len(word)), new)])
        text = project.texts[FILE].text
        self.assertEqual([text[it.span.start : it.span.end] for it in project.problems], ["q"])


class Lines(unittest.TestCase):
    """What a key asks."""

    def test_a_key_beside_faults_posts_the_counts_and_asks_where_faults_were_and_where_it_was(self):
        with tempfile.TemporaryDirectory(prefix="attrd-lsp-") as folder:
            lines = FilePath(folder) / "lines"
            environment = {"ATTRD": program(), "LINES": str(lines)}
            with Client(attrd=str(LSP / "tests" / "turns.py"), environment=environment) as client:
                document = Editing(client, "".join(large_class(it).replace(" = t", " = q", 1) for it in range(9)))
                self.assertEqual(len(document.settled()), 9)
                lines.write_text("")
                document.change("u2 = t2 < 2; show u2; show t2; }\n    { t3 = a5", "u2 = t2 < 2; show u2; show z2; }\n    { t3 = a5")
                self.assertEqual(len(document.settled()), 10)
                sent = [it.partition(" ")[2] for it in lines.read_text().splitlines()]
        posted, asked = ([it for it in sent if it.startswith(word)] for word in ("post", "ask"))
        self.assertEqual([re.sub(r"\d+", "N", it) for it in posted], ["post / faultCount()", "post /Kind:N faultCount()"])
        self.assertLessEqual(len(asked), 9 + 8)
        self.assertEqual(len(set(asked)), len(asked))


if __name__ == "__main__":
    unittest.main()
