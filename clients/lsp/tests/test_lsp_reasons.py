"""Why what hover shows is what it is: equations, what they looked at and asked, with places; and where it is cut."""
import tempfile
import types
import unittest
from pathlib import Path

import attrd
from attrd import Grammar, Instance, commands
from attrd.authoring import Source as File
from attrd.authoring import Specification
from attrd_lsp import Language, Parsed, Span, phrase
from attrd_lsp.positions import Text
from attrd_lsp.reading import Reader
from attrd_lsp.reasons import LINES, LOOKS, QUESTIONS, WIDTH, Words, find_reasons
from attrd_lsp.source import Source
from lsp_support import SMALL, Client, Editing, program

KIND_OF_NAME = "types.jrag:11: Name.kind() = decl() != null ? decl().kind() : null"
WORDS = "Program ::= Word*;\nWord ::= <ID>;\n"
# `total` asks each word, `longest` looks at each word, `chain` is handed on from word to word.
ASPECTS = """aspect Words {
  syn int Word.one() = 1;
  syn int Program.total() = sum (w : getWordList()) { w.one() };
  syn boolean Program.has(String n) = exists (w : getWordList()) { w.getID().equals(n) };
  inh Word Word.next();
  eq Program.getWord(int i).next() = i + 1 < getNumWord() ? getWord(i + 1) : null;
  syn int Word.chain() = next() == null ? 7 : next().chain();
}
"""
# The server of the language of words. What is shown of a word is its text, and why is told of another attribute.
SERVER = """
import sys
from pathlib import Path
from attrd_lsp import Language, Listed, Parsed, Span, Symbol, phrase, serve

HERE = Path(__file__).resolve().parent

def parse(text):
    words, at = [], 0
    for it in text.split():
        start = text.index(it, at)
        at = start + len(it)
        words.append(phrase("Word", Span(start, at), Span(start, at), ID=it))
    return Parsed(phrase("File", Span(0, len(text)), Word=words), [])

if __name__ == "__main__":
    language = Language(
        HERE / "words.ast", [HERE / "words.jrag"], parse, meaning={"Word": ["meant"]},
        why={"Word": "meant", "File": "words"}, listed=Listed("Program", "File", "File"), suffix=".words",
    )
    sys.exit(serve(language))
"""
FOLDER_ASPECTS = """aspect Words {
  syn String Word.error() = "";
  inh Word Word.named(String n);
  eq Program.getFile().named(String n) = getNumFile() > 1 ? getFile(1).word(n) : null;
  syn Word File.word(String n) = first (w : getWordList()) { w.getID().equals(n) };
  syn Word Word.meant() = named(getID());
  syn int File.words() = getNumWord();
}
"""


class OnTheTutorialsProgram(unittest.TestCase):
    """The tutorial's language, which tells why a name or an expression has its kind."""

    @classmethod
    def setUpClass(cls):
        cls.client = Client().__enter__()
        cls.addClassCleanup(cls.client.close)

    def hovered(self, text, word, number=0):
        document = Editing(self.client, text, f"file:///small/{self.id().rpartition('.')[2]}.small")
        self.addCleanup(self.client.notify, "textDocument/didClose", {"textDocument": {"uri": document.uri}})
        return document.ask("hover", word, number)["contents"]["value"].split("\n")

    def test_an_equation_with_what_it_looked_at_and_asked_and_where(self):
        wanted = [
            "near: boolean",
            "types.jrag:4: Decl.kind() = hasDeclared() ? getDeclared().kind() : hasInit() ? getInit().kind() : null",
            "  3:5 near: there is no Declared",
            "  3:5 near: Init is there",
            "  3:12 x < 10: kind() = boolean",
            "types.jrag:10: Less.kind() = lookupKind(\"boolean\")",
            "  3:12 x < 10: lookupKind(\"boolean\") = boolean",
            "kinds.jrag:5: Program.getKind().lookupKind(n) = kindNamed(n)",
            "  /: kindNamed(\"boolean\") = boolean",
            "kinds.jrag:2: Program.kindNamed(n) = first (k : getKindList()) { k.getID().equals(n) }",
            "  /: 2 of Kind looked at",
        ]
        self.assertEqual(self.hovered(SMALL, "near"), wanted)

    def test_a_node_that_is_a_value_has_its_place_and_what_there_is_no_room_for_is_counted(self):
        told = self.hovered(SMALL, "x", 2)
        self.assertEqual(told[:4], ["x: int", KIND_OF_NAME, "  7:11 x: decl() = x at 2:7", "  2:7 x: kind() = int"])
        self.assertEqual((told[-1], len(told)), ("  … 2 more, and so on", LINES + 1))

    def test_why_there_is_no_value(self):
        told = self.hovered(SMALL.replace("show end", "show q"), "q")
        lookup = "names.jrag:17: Name.decl() = lookup(getID())"
        self.assertEqual(told[:4], ["q: no kind is known", KIND_OF_NAME, "  7:23 q: decl() = null", lookup])
        told = self.hovered(SMALL.replace("show end", "a = a; show end"), "a")
        circle = "`kind` depends on itself"
        self.assertEqual((told[0], told[-1]), (circle, f"  7:22 a: kind() has no value: {circle}"))

    def test_where_the_language_names_no_attribute_nothing_is_told_below(self):
        self.assertEqual(self.hovered(SMALL, "Point", 1), ["class Point"])

    def test_it_goes_by_the_aspects_as_they_stand_in_the_editor(self):
        folder = Path(__file__).resolve().parents[1] / "attrd_lsp" / "data"
        aspect = folder / "types.jrag"
        text = "\n" + aspect.read_text("utf-8")
        opened = {"uri": aspect.as_uri(), "languageId": "jrag", "version": 0, "text": text}
        self.client.notify("textDocument/didOpen", {"textDocument": opened})
        try:
            self.assertEqual(self.hovered(SMALL, "x", 2)[1], KIND_OF_NAME.replace(":11:", ":12:"))
        finally:
            self.client.notify("textDocument/didClose", {"textDocument": {"uri": aspect.as_uri()}})
        self.assertEqual(self.hovered(SMALL, "x", 2)[1], KIND_OF_NAME)


class OnAFolder(unittest.TestCase):
    """A language of anybody's, whose files of a folder are one tree."""

    @classmethod
    def setUpClass(cls):
        temporary = tempfile.TemporaryDirectory(prefix="attrd-lsp-")
        cls.addClassCleanup(temporary.cleanup)
        folder = Path(temporary.name).resolve()
        grammar = "Program ::= File*;\nFile ::= Word*;\nWord ::= <ID>;\n"
        files = {"words.ast": grammar, "words.jrag": FOLDER_ASPECTS, "server.py": SERVER, "a.words": "one\ntwo\n"}
        for name, text in files.items():
            (folder / name).write_text(text, "utf-8")
        cls.client = Client(script=folder / "server.py").__enter__()
        cls.addClassCleanup(cls.client.close)
        cls.document = Editing(cls.client, "  three two\n", (folder / "b.words").as_uri())

    def hovered(self, word):
        return self.document.ask("hover", word)["contents"]["value"].split("\n")

    def test_a_place_in_another_file_has_its_name(self):
        wanted = [
            "two",
            "meant() = two at a.words:2:1",
            "words.jrag:6: Word.meant() = named(getID())",
            "  1:9 two: ID is \"two\"",
            "  1:9 two: named(\"two\") = two at a.words:2:1",
            "words.jrag:4: Program.getFile().named(n) = getNumFile() > 1 ? getFile(1).word(n) : null",
            "  /: 2 of File",
            "  a.words:1:1 one two: word(\"two\") = two at a.words:2:1",
            "words.jrag:5: File.word(n) = first (w : getWordList()) { w.getID().equals(n) }",
            "  a.words:1:1 one two: 2 of Word looked at",
        ]
        self.assertEqual(self.hovered("two"), wanted)

    def test_why_is_told_where_nothing_else_is(self):
        place = {"textDocument": {"uri": self.document.uri}, "position": {"line": 0, "character": 0}}
        told = self.client.ask("textDocument/hover", place)["contents"]["value"].split("\n")
        equation = "words.jrag:7: File.words() = getNumWord()"
        self.assertEqual(told, ["words() = 2", equation, "  1:1 three two: 2 of Word"])


class Bounds(unittest.TestCase):
    """What is asked and looked at for one hover, over a tree of any number of words."""

    def told(self, count, attribute, *arguments, path="/"):
        """The lines of a reason, and how many questions they took."""
        text = " ".join(f"w{it}" for it in range(count))
        grammar = Grammar.read(WORDS)
        source = Source(Reader(Language(Path("words.ast"), [], read_words), grammar), {}).with_file("one", text)
        files = File("words.ast", WORDS), File("words.jrag", ASPECTS)
        server = attrd.start(attrd.Text(*files[0]), source.tree, attrd.Text(*files[1]), program=program())
        self.addCleanup(server.close)
        session, asked = server.session(), 0
        desk = types.SimpleNamespace(specification=Specification(files[0], files[1:]), tree=source.tree)
        words = Words(source, {"one": Text.of(text)}, "one")
        inquiry = find_reasons(desk, words, Instance(attrd.Path.read(path), attribute, arguments))
        try:
            questions = next(inquiry)
            while True:
                asked += len(questions)
                answers = [session.send(commands.ask(it.path, it.attribute, it.arguments)).reply() for it in questions]
                questions = inquiry.send(answers)
        except StopIteration as end:
            return end.value, asked

    def test_questions(self):
        lines, asked = self.told(500, "total")
        self.assertEqual(asked, QUESTIONS)
        self.assertEqual((len(lines), lines[0], lines[-1][:4]), (LINES + 1, "total() = 500", "  … "))
        lines, asked = self.told(5, "total")
        self.assertEqual((asked, lines[2:4]), (6, ["  1:1 w0 w1 w2 w3 w4: 5 of Word looked at", "  1:1 w0: one() = 1"]))

    def test_a_reason_that_is_handed_on_and_on(self):
        lines, asked = self.told(500, "chain", path="/Word:0")
        self.assertLessEqual(asked, QUESTIONS)
        self.assertEqual((len(lines), lines[-1]), (LINES + 1, "  … 3 more, and so on"))

    def test_places(self):
        lines, asked = self.told(2 * LOOKS, "has", "none")
        gone_through = f"  1:1 w0 w1 w2 w3 w4 w5 w6 w7 w8 w9…: {LOOKS // 2} of Word looked at"
        self.assertEqual((asked, lines[2:]), (1, [gone_through, f"  it looks at more than {LOOKS} places"]))

    def test_lines_are_short(self):
        self.assertGreater(WIDTH, max(map(len, self.told(500, "total")[0])))

    def test_an_attribute_that_isnt_there(self):
        told = "why nix() is what it is isn't known: attrd answers: refused 13 attribute"
        self.assertEqual(self.told(2, "nix"), ([told], 1))


def read_words(text):
    """A tree of the words of a text."""
    words, at = [], 0
    for it in text.split():
        start = text.index(it, at)
        at = start + len(it)
        words.append(phrase("Word", Span(start, at), Span(start, at), ID=it))
    return Parsed(phrase("Program", Span(0, len(text)), Word=words), [])


if __name__ == "__main__":
    unittest.main()
