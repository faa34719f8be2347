"""A language of anybody's: parsers that fail, places that can't be, trees that don't fit, and what a language may give."""
import tempfile
import textwrap
import unittest
from pathlib import Path

from attrd import Grammar
from attrd_lsp import Fault, Language, Listed, Parsed, Span, phrase, plain_name
from attrd_lsp.reading import Reader, Reading, read_file
from lsp_support import Client, Editing

GRAMMAR = "Program ::= Word*;\nWord ::= <ID>;\n"
ASPECT = 'aspect A {\n  syn String Word.error() = getID().equals("no") ? "no is said" : "";\n}\n'
# A language of words, with a server in which the text of a document decides how the parser fails.
SERVER = """
import sys
from pathlib import Path
from attrd import Node
from attrd_lsp import Language, Parsed, Span, phrase, serve

HERE = Path(__file__).resolve().parent

def parse(text):
    if "raise" in text:
        raise ValueError("such a text can't be")
    words, at = [], 0
    for it in text.split():
        start = text.index(it, at)
        at = start + len(it)
        place = Span(0, 1) if it == "overlap" else Span(start, at)
        words.append(phrase("Word" if it != "misfit" else "Program", place, place, **({"ID": it} if it != "misfit" else {"Word": ()})))
    return Parsed(phrase("Program", Span(0, len(text)), Word=words), [])

if __name__ == "__main__":
    sys.exit(serve(Language(HERE / "words.ast", [HERE / "words.jrag"], parse)))
"""
GOOD = phrase("Word", Span(0, 2), Span(0, 2), ID="no")


def read(parse, text="no yes"):
    """What is read by the parser where its grammar is known."""
    return Reader(Language(Path("words.ast"), [], parse), Grammar.read(GRAMMAR)).piece(text)


def program(*words, span=Span(0, 6)):
    """A parser that answers these words, whatever the text."""
    return lambda text: Parsed(phrase("Program", span, Word=words), [])


class Parsers(unittest.TestCase):
    """What is made of a parser's answer."""

    def test_a_parser_that_raises_is_told_in_its_own_words(self):
        def parse(text):
            raise KeyError("yes")

        piece = read(parse)
        self.assertRegex(piece.trouble, r"^the parser fails: KeyError: 'yes' \(test_lsp_language.py, line [0-9]+\)$")
        self.assertIsNone(piece.phrase)
        self.assertIn("the parser fails: TypeError", read(lambda text: None).trouble)

    def test_a_parser_that_never_ends_its_calls_is_told(self):
        def parse(text):
            return parse(text)

        self.assertIn("the parser fails: RecursionError", read(parse).trouble)

    def test_places_that_cant_be(self):
        other = phrase("Word", Span(1, 6), Span(1, 6), ID="yes")
        cases = {
            "Program stands at 0 to 9, which isn't within 0 to 6": program(span=Span(0, 9)),
            "Word stands at 0 to 2, which isn't within 3 to 6": program(GOOD, span=Span(3, 6)),
            "Word:0 and Word:1 of Program overlap: they stand at 0 to 2 and 1 to 6": program(GOOD, other),
            "Word has no place in the text": program(phrase("Word", None, ID="no")),
            "the name of Word stands at 3 to 4, which isn't within 0 to 2": program(phrase("Word", Span(0, 2), Span(3, 4), ID="no")),
        }
        for wanted, parse in cases.items():
            with self.subTest(wanted=wanted):
                self.assertEqual(read(parse).trouble, f"the parser tells places that can't be: {wanted}")
        self.assertIsNone(read(program(GOOD)).trouble)

    def test_faults_that_arent_in_the_text(self):
        told = read(lambda text: Parsed(None, [Fault("wrong", Span(3, 99))])).trouble
        self.assertEqual(told, "the parser tells a fault at 3 to 99, which isn't in the text: wrong")

    def test_trees_that_dont_fit(self):
        cases = {
            "/Word:0: there is no class Sentence": phrase("Sentence", Span(0, 2)),
            "/Word:0/ID: 1 stands where a token of kind String is wanted": phrase("Word", Span(0, 2), ID=1),
            "Word has the components ID, and the parser gives Name": phrase("Word", Span(0, 2), Name="no"),
        }
        for wanted, word in cases.items():
            with self.subTest(wanted=wanted):
                self.assertEqual(read(program(word)).trouble, f"the parser's tree doesn't fit the grammar: {wanted}")

    def test_where_parts_begin_may_fail_too(self):
        def starts(text):
            raise ValueError("no parts")

        language = Language(Path("words.ast"), [], program(), listed=Listed("Program", "Word", "Word", starts=starts))
        reading = read_file("no", Reading(), Reader(language))
        self.assertIn("the parser fails: ValueError: no parts", reading.trouble)
        self.assertEqual(reading.taken, [])


class Languages(unittest.TestCase):
    """What a language may give."""

    def test_files_of_a_folder_want_a_list(self):
        with self.assertRaises(ValueError):
            Language(Path("words.ast"), [], program(), suffix=".words")

    def test_names(self):
        self.assertEqual([plain_name(it) for it in ("a1", "_", "1a", "", "a b", "größe")], [True, True, False, False, False, True])


class InAnEditor(unittest.TestCase):
    """One server of the language of words, and a document for each test."""

    @classmethod
    def setUpClass(cls):
        temporary = tempfile.TemporaryDirectory(prefix="attrd-lsp-")
        cls.addClassCleanup(temporary.cleanup)
        cls.folder = Path(temporary.name)
        for name, text in (("words.ast", GRAMMAR), ("words.jrag", ASPECT), ("words.py", textwrap.dedent(SERVER))):
            (cls.folder / name).write_text(text, "utf-8")
        cls.client = Client(script=cls.folder / "words.py").__enter__()
        cls.addClassCleanup(cls.client.close)

    def setUp(self):
        self.document = self.opened("yes\nno\n", "one")

    def opened(self, text, name):
        document = Editing(self.client, text, f"file:///words/{self.id().rpartition('.')[2]}/{name}.words")
        self.addCleanup(self.closed, document.uri)
        return document

    def closed(self, uri):
        self.client.notify("textDocument/didClose", {"textDocument": {"uri": uri}})

    def test_a_bad_answer_is_told_once_at_the_top_and_the_last_good_tree_stays(self):
        self.assertEqual(self.document.settled(), ["2:1 no is said"])
        wanted = {
            "raise": "1:1 the parser fails: ValueError: such a text can't be",
            "overlap": "1:1 the parser tells places that can't be: Word:1 and Word:0 of Program overlap: they stand at 0 to 1 and 0 to",
            "misfit": "1:1 the parser's tree doesn't fit the grammar: /Word:1: Program is neither Word nor below it",
        }
        for word, told in wanted.items():
            with self.subTest(word=word):
                self.document.change("\nno", f" {word}\nno")
                shown = self.document.told()
                self.assertEqual((len(shown), shown[0][: len(told)], shown[1]), (2, told, "2:1 no is said"))
                self.document.change(f" {word}\nno", "\nno")
                self.assertEqual(self.document.told()[-1], "2:1 no is said")

    def test_a_document_that_never_could_be_read_has_an_empty_tree(self):
        other = self.opened("raise", "two")
        self.assertEqual(other.settled(), ["1:1 the parser fails: ValueError: such a text can't be (words.py, line 11)"])
        self.assertIsNone(other.ask("hover", "raise"))
        self.assertEqual(self.client.ask("textDocument/documentSymbol", {"textDocument": {"uri": other.uri}}), [])
        other.change("raise", "no")
        self.assertEqual([other.settled() for _ in range(2)], [[], ["1:1 no is said"]])

    def test_a_grammar_that_changes_in_the_editor_reads_documents_anew(self):
        self.assertEqual(self.document.settled(), ["2:1 no is said"])
        grammar = self.folder / "words.ast"
        text = GRAMMAR.replace("<ID>", "<Name>")
        opened = {"uri": grammar.as_uri(), "languageId": "ast", "version": 0, "text": text}
        self.client.notify("textDocument/didOpen", {"textDocument": opened})
        self.addCleanup(self.closed, grammar.as_uri())
        changed = {"textDocument": {"uri": grammar.as_uri(), "version": 1}, "contentChanges": [{"text": GRAMMAR}]}
        self.client.notify("textDocument/didChange", changed)
        self.assertEqual(self.document.settled(), ["2:1 no is said"])

    def test_what_a_language_doesnt_give_isnt_offered(self):
        self.assertNotIn("completionProvider", self.client.capabilities)
        self.assertNotIn("codeActionProvider", self.client.capabilities)
        self.assertEqual(self.document.ask("references", "no", context={"includeDeclaration": True}), [])
        self.assertEqual(self.document.ask("prepareRename", "no")["message"], "no name stands here")


if __name__ == "__main__":
    unittest.main()
