"""Documents: classes that keep their last good trees, and places of nodes in the text as it is."""
import unittest

from lsp_support import FILE, SMALL, read_source
from attrd_lsp.small.language import class_starts


class Held(unittest.TestCase):
    """A class that can't be parsed, among others that can."""

    def setUp(self):
        self.good = read_source(SMALL)

    def test_a_class_with_a_fault_keeps_its_last_good_tree(self):
        source = read_source(SMALL.replace("x + r", " + r"), self.good)
        self.assertEqual(source.tree, self.good.tree)
        self.assertEqual([(spot.path, is_last_good) for spot, is_last_good in source.held(FILE)], [("/Kind:3", True)])

    def test_the_other_classes_follow_the_text(self):
        text = SMALL.replace("x + r", " + r").replace("x < 10", "y < 10")
        self.assertEqual(read_source(text, self.good).tree, read_source(SMALL.replace("x < 10", "y < 10")).tree)

    def test_the_tree_follows_again_when_the_text_can_be_parsed(self):
        broken = read_source(SMALL.replace("x + r", "x + "), self.good)
        mended = read_source(SMALL.replace("x + r", "x + x"), broken)
        self.assertEqual((mended.files[FILE].faults, mended.held(FILE)), ((), []))
        self.assertEqual(mended.tree, read_source(SMALL.replace("x + r", "x + x")).tree)

    def test_a_fault_that_stays_keeps_the_last_good_tree_over_many_changes(self):
        source = self.good
        for text in ("x + ", "x +", "x", "", "q", "q +"):
            source = read_source(SMALL.replace("x + r;", text), source)
        self.assertEqual(source.tree, self.good.tree)

    def test_a_class_goes_by_its_name_where_classes_come(self):
        text = "class New {{}}\n" + SMALL.replace("x + r", " + r")
        self.assertEqual(str(read_source(text, self.good).spot("/Kind:4").phrase.tree), str(self.good.spot("/Kind:3").phrase.tree))

    def test_a_class_without_a_last_good_tree_has_what_could_be_read(self):
        source = read_source("class A {{ x = ; y = 1; }}")
        self.assertEqual(str(source.tree), 'Program([Basic("int"),Basic("boolean"),ClassDecl("A",-,[],Block([Decl("y",-,Num(1))]))])')
        self.assertEqual([is_last_good for _, is_last_good in source.held(FILE)], [False])

    def test_nodes_of_a_held_class_stand_where_their_text_went(self):
        text = "\n" + SMALL.replace("x + r", "xx +  + r")
        source = read_source(text, self.good)
        right = source.spot("/Kind:3/Block/Stmt:0/Init/Right")
        self.assertEqual(text[right.span.start : right.span.end], "r")
        self.assertEqual(source.at(FILE, text.index("r; show end")).path, "/Kind:3/Block/Stmt:0/Init/Right")


class Places(unittest.TestCase):
    """Paths and offsets."""

    def test_an_offset_is_in_the_innermost_node(self):
        source = read_source(SMALL)
        cases = {
            "class Point": "/Kind:2",
            "x; int y": "/Kind:2/Field:0",
            "int y": "/Kind:2/Field:1/Declared",
            "near =": "/Kind:2/Block/Stmt:0",
            "x < 10": "/Kind:2/Block/Stmt:0/Init/Left",
            "< 10": "/Kind:2/Block/Stmt:0/Init",
            "Point {\n  int r": "/Kind:3/Super",
        }
        for word, path in cases.items():
            with self.subTest(word=word):
                self.assertEqual(source.at(FILE, SMALL.index(word)).path, path)
        self.assertIsNone(read_source("\n\n" + SMALL).at(FILE, 0))

    def test_paths_that_stand_in_no_text(self):
        source = read_source(SMALL)
        self.assertEqual([source.spot(it) for it in ("/", "/Kind:0", "/Kind:9", "/Kind:2/Super")], [None] * 4)

    def test_equal_classes_stand_each_in_its_place(self):
        text = "class A {{ show 1; }}\n"
        source = read_source(text + text)
        self.assertEqual([source.spot(f"/Kind:{it}/Block").span.start for it in (2, 3)], [9, 9 + len(text)])

    def test_a_class_begins_at_its_word(self):
        self.assertEqual(class_starts("class A {{}} // class B {{}}\nclass C {{}}"), [0, 29])
        self.assertEqual(class_starts("subclass classes _class class"), [24])
        self.assertEqual(class_starts("// class A\rclass B"), [11])


if __name__ == "__main__":
    unittest.main()
