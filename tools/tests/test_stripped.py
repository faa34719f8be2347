"""What is taken out of a source that is compiled with no proof, and that all else stays where it is."""
import sys
import unittest
from pathlib import Path

ROOT = Path(__file__).resolve().parents[2]
sys.path.insert(0, str(ROOT / "bench"))
from stripped import stripped  # noqa: E402


class Taken(unittest.TestCase):
    """Contracts, imports of the logic, and what a function has ghost."""

    def left(self, text: str) -> str:
        """What is left of a source, with its blanks as one; each character that is left, and each line break, is where it was."""
        left = stripped(text)
        self.assertEqual(len(left), len(text))
        for before, after in zip(text, left):
            self.assertTrue(after == before or after == " " and before != "\n")
        return " ".join(left.split())

    def test_clauses_of_a_function(self) -> None:
        text = "fn f(n: u8) -> u8\n    requires { n < 3 }\n    ensures same { result ≡ n }\n    ensures* writes_back { sem n }\n{\n    n\n}\n"
        self.assertEqual(self.left(text), "fn f(n: u8) -> u8 { n }")

    def test_lines_and_columns_stay(self) -> None:
        self.assertEqual(stripped("fn f() requires {\n a\n} { g() }"), "fn f()           \n  \n  { g() }")

    def test_clauses_over_several_lines(self) -> None:
        text = "fn f<T>(n: T) -> T where T: A\n    ensures\n        found\n    { a {\n b } ×\n      { c } }\n{ n }"
        self.assertEqual(self.left(text), "fn f<T>(n: T) -> T where T: A { n }")

    def test_clauses_of_a_trait_s_methods(self) -> None:
        self.assertEqual(self.left("trait A { fn f(&self) -> u8 ensures { ⊤ }; fn g(); }"), "trait A { fn f(&self) -> u8 ; fn g(); }")

    def test_clauses_of_closures(self) -> None:
        text = "let f = |n: u8| -> u8 requires { n < 3 } ensures { result ≡ n } { n }; g(|| ensures { ⊤ } { h() })"
        self.assertEqual(self.left(text), "let f = |n: u8| -> u8 { n }; g(|| { h() })")

    def test_clauses_in_a_macro(self) -> None:
        text = "macro_rules! m { ($t:ty) => { fn f(n: $t) requires { n < $t::A } { n } } }"
        self.assertEqual(self.left(text), "macro_rules! m { ($t:ty) => { fn f(n: $t) { n } } }")

    def test_names_of_the_logic_with_quotes(self) -> None:
        text = "fn f() ensures { IsEq f' g'' } ensures h' { '}' ≡ '\\'' } ensures { \"}\" ≡ x' } { '{' }"
        self.assertEqual(self.left(text), "fn f() { '{' }")

    def test_braces_in_comments_of_a_clause(self) -> None:
        self.assertEqual(self.left("fn f() ensures { a // }\n /* } /* } */ } */ b } { g() }"), "fn f() { g() }")

    def test_imports_of_the_logic(self) -> None:
        text = "ghost use a.B.{◌≡◌, c'\n  d}; // x;\npub ghost use a.b;\npub(crate) ghost use c;\nuse e::f;"
        self.assertEqual(self.left(text), "// x; use e::f;")

    def test_what_a_function_has_ghost(self) -> None:
        self.assertEqual(self.left("fn f()\n    ghost g: { ℕ × { a } }\n    requires* { g }\n{ h() }"), "fn f() { h() }")


class Left(unittest.TestCase):
    """What looks like a contract and is none, and ghost items."""

    def assert_left(self, *texts: str) -> None:
        for text in texts:
            with self.subTest(text=text):
                self.assertEqual(stripped(text), text)

    def test_words_in_strings(self) -> None:
        self.assert_left('let a = "requires { x }";', 'let a = "\\" ensures { x }";', 'let a = r"\\"; b()', 'let a = b"ensures { x }";')

    def test_words_in_raw_strings(self) -> None:
        self.assert_left('let a = r#"" requires { x } "#;', 'let a = br##""# ensures { x } "##;', 'let a = r"ensures { x }";')

    def test_words_in_comments(self) -> None:
        self.assert_left("// requires { x }\n", "/* /* a */ ensures { x } */", "/// ensures { x }\nfn f() {}", "/* ghost use a;")

    def test_characters_and_lifetimes(self) -> None:
        self.assert_left("let a = '\"'; let b = '\"';", "fn f<'a>(x: &'a str) -> &'a str { x }", "let a = ['{', '\\'', '\\u{7d}', b'\"'];")

    def test_words_that_are_names(self) -> None:
        self.assert_left("let ensures = 1; f(requires, ghost)", "a.requires { x }.b", "let ghosts = requires_all { x };", "fn ghost() { ghost() }")

    def test_items_and_fields_that_are_ghost(self) -> None:
        self.assert_left("impl Model for A { ghost Value = { ℕ }; ghost view = { λ a. a.0 }; }", "trait A { ghost contents: { Self → ℕ }; }",
                         "struct A { a: u8, pub ghost few: { a < 3 }, ghost b: { a } by { c }, ghost d: { e } }")

    def test_what_has_no_end(self) -> None:
        self.assert_left("fn f() requires { a {", "ghost use a.{b}", "fn f() requires", 'let a = "', "fn f() ghost a: { b", "/* a")


if __name__ == "__main__":
    unittest.main()
