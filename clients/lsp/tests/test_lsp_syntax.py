"""The parser: the tree that a text is, its faults with their places, and how it goes on behind one."""
import random
import sys
import unittest

from lsp_support import FILE, LSP, SMALL, read_source, tutorial_file
from attrd import Grammar
from attrd_lsp.positions import Text
from attrd_lsp.small.syntax import is_name

GRAMMAR = Grammar.read((LSP / "attrd_lsp" / "data" / "small.ast").read_text("utf-8"))


def term(text):
    """The term of the classes of a text, without the basic kinds."""
    source = read_source(text)
    return str(source.tree).replace('Basic("int"),Basic("boolean")', "").replace("([,", "([")


def faults(text):
    """The faults of a text, each with its line and column, from 1."""
    places = Text.of(text)
    found = [(places.position(it.span.start), it.text) for it in read_source(text).files[FILE].faults]
    return [f"{place.line + 1}:{place.character + 1} {told}" for place, told in found]


class Trees(unittest.TestCase):
    """What a text without faults is."""

    def test_the_tutorials_program_is_the_tutorials_tree(self):
        self.assertEqual(str(read_source(SMALL).tree) + "\n", tutorial_file("tree.txt"))

    def test_each_form(self):
        cases = {
            "": "Program([])",
            "// class A {{}}\n": "Program([])",
            "class A{{}}": 'Program([ClassDecl("A",-,[],Block([]))])',
            "class A extends B { C d; e; f = 1; {} }": 'Program([ClassDecl("A",KindUse("B"),[Decl("d",KindUse("C"),-),'
            'Decl("e",-,-),Decl("f",-,Num(1))],Block([]))])',
            "class A {{ {} show 1; }} // end": 'Program([ClassDecl("A",-,[],Block([Block([]),Show(Num(1))]))])',
            "class A {{ int x = true; }}": 'Program([ClassDecl("A",-,[],Block([Decl("x",KindUse("int"),Truth(true))]))])',
            "class größe {{ show 007; }}": 'Program([ClassDecl("größe",-,[],Block([Show(Num(7))]))])',
        }
        for text, wanted in cases.items():
            with self.subTest(text=text):
                self.assertEqual(faults(text), [])
                self.assertEqual(term(text), wanted)

    def test_operators_lean_to_the_left_and_the_dot_is_the_strongest(self):
        cases = {
            "a + b + c": 'Plus(Plus(Name("a"),Name("b")),Name("c"))',
            "a + (b + c)": 'Plus(Name("a"),Plus(Name("b"),Name("c")))',
            "a + b < c + 1": 'Less(Plus(Name("a"),Name("b")),Plus(Name("c"),Num(1)))',
            "a < b < c": 'Less(Less(Name("a"),Name("b")),Name("c"))',
            "a.b.c + 1": 'Plus(Dot(Dot(Name("a"),"b"),"c"),Num(1))',
            "(a + b).c": 'Dot(Plus(Name("a"),Name("b")),"c")',
            "false": "Truth(false)",
            "2147483647": "Num(2147483647)",
        }
        for text, wanted in cases.items():
            with self.subTest(text=text):
                self.assertEqual(term(f"class A {{{{ show {text}; }}}}"), f'Program([ClassDecl("A",-,[],Block([Show({wanted})]))])')

    def test_names(self):
        self.assertTrue(is_name("größe_2") and is_name("int") and is_name("a" * 4096))
        self.assertFalse(any(map(is_name, ["", "show", "2a", "a b", "a-b", " a", "a" * 4097, "é" * 2049])))


class Faults(unittest.TestCase):
    """What is told of a text that can't be parsed."""

    def test_places_and_messages(self):
        cases = {
            "x": ["1:1 expected 'class', found 'x'"],
            "class": ["1:5 expected the name of the class, found the end"],
            "class A": ["1:7 expected '{' before the end"],
            "class A {": ["1:9 expected the block of the class before the end"],
            "class A { int x; }": ["1:16 expected the block of the class before '}'"],
            "class A { int x {} }": ["1:15 expected ';' before '{'"],
            "class A {{}": ["1:11 expected '}' before the end"],
            "class A {{}} }": ["1:14 expected 'class' or the end, found '}'"],
            "class A extends {{}}": ["1:15 expected the name of a class before '{'"],
            "class A {{ x = ; }}": ["1:16 expected an expression, found ';'"],
            "class A {{ x = 1 }}": ["1:16 expected ';' before '}'"],
            "class A {{ x = (1; }}": ["1:17 expected ')' before ';'"],
            "class A {{ show a.; }}": ["1:19 expected the name of a field, found ';'"],
            "class A {{ = 1; }}": ["1:12 expected a declaration, 'show' or a block, found '='"],
            "class A {{ show 2147483648; }}": ["1:17 a number is digits, and at most 2147483647"],
            "class A {{ show 1x; }}": ["1:17 a number is digits, and at most 2147483647"],
            "class A {{ show 1; # }}": ["1:20 unexpected character '#'"],
            f"class A {{{{ show {'a' * 4097}; }}}}": ["1:17 a name has at most 4096 bytes"],
        }
        for text, wanted in cases.items():
            with self.subTest(text=text[:40]):
                self.assertEqual(faults(text), wanted)

    def test_reading_goes_on_behind_a_fault(self):
        text = "class A {\n  int x = ;\n  { show ;\n y = 1\n z = 2 3; show y; }\n}\nclass B {{ show ; w = 1; }}\n"
        self.assertEqual(
            faults(text),
            [
                "2:11 expected an expression, found ';'",
                "3:10 expected an expression, found ';'",
                "4:6 expected ';' before 'z'",
                "5:6 expected ';' before '3'",
                "7:17 expected an expression, found ';'",
            ],
        )
        first = 'ClassDecl("A",-,[],Block([Decl("y",-,Num(1)),Decl("z",-,Num(2)),Show(Name("y"))]))'
        self.assertEqual(term(text), f'Program([{first},ClassDecl("B",-,[],Block([Decl("w",-,Num(1))]))])')

    def test_a_brace_that_is_open_swallows_no_other_class(self):
        text = "class A {{ {{ show 1; }\nclass B {{}}\n"
        self.assertEqual(faults(text), ["1:23 expected '}' before the end"])
        self.assertIn('ClassDecl("B",-,[],Block([]))', term(text))

    def test_a_tree_is_at_most_512_deep(self):
        sys.setrecursionlimit(max(20_000, sys.getrecursionlimit()))
        sums = {count: "class A {{ show " + "+".join(["1"] * count) + "; }}" for count in (508, 509)}
        self.assertEqual(faults(sums[508]), [])
        self.assertEqual(faults(sums[509]), ["1:7 the class nests more than 512 deep"])
        GRAMMAR.check(read_source(sums[508]).tree)
        many = "class A {{ show " + "(" * 3000 + "1" + ")" * 3000 + "; }}"
        self.assertEqual(faults(many), ["1:528 the class nests more than 512 deep"])

    def test_texts_by_chance_have_a_tree_that_fits_and_faults_at_their_places(self):
        chance = random.Random(2)
        words = [*"class extends show true { } ( ) ; = + < . x int 1 # //".split(" "), "\n", "\ud800", "é"]
        source = None
        for _ in range(3000):
            tokens = SMALL.split(" ")
            for _ in range(chance.randint(1, 6)):
                tokens[chance.randrange(len(tokens))] = chance.choice(words)
            text = " ".join(tokens)
            source = read_source(text, source if chance.random() < 0.8 else None)
            GRAMMAR.check(source.tree)
            self.assertIsNone(source.files[FILE].trouble)
            for it in source.files[FILE].faults:
                self.assertTrue(0 <= it.span.start <= it.span.end <= len(text))
            for path in ("/Kind:2", "/Kind:3/Block/Stmt:0"):
                spot = source.spot(path)
                self.assertTrue(spot is None or 0 <= spot.span.start <= spot.span.end <= len(text))


if __name__ == "__main__":
    unittest.main()
