"""The sample: a language for grammars, whose files of a folder are one tree."""
import tempfile
import unittest
from pathlib import Path

from lsp_support import SAMPLE, Client, Editing, ranges, shown
from rules_parser import parse

CALCULATOR = """// A calculator.
sum = product { PLUS product };
product = value { "*" value };
value = NUMBER | "(" sum ")";
"""
TOKENS = """token NUMBER;
token PLUS "+";
token TIMES "*";
"""
FAILED = -32803


class Parser(unittest.TestCase):
    """Trees and faults of texts."""

    def test_each_form(self):
        cases = {
            "": "File([])",
            'token A; token B "b";': 'File([Token("A",-),Token("B",Literal("b"))])',
            "a = b;": 'File([Rule("a",Use("b"))])',
            "a = b c | d;": 'File([Rule("a",Choice([Sequence([Use("b"),Use("c")]),Use("d")]))])',
            'a = { b } [ c ] ("d");': 'File([Rule("a",Sequence([Repeated(Use("b")),Optional(Use("c")),Literal("d")]))])',
        }
        for text, wanted in cases.items():
            with self.subTest(text=text):
                found = parse(text)
                self.assertEqual((found.faults, str(found.phrase.tree)), ([], wanted))

    def test_reading_goes_on_behind_a_fault(self):
        cases = {
            "a = ; b = c;": ["expected a name, a text or a part in brackets, found ';'"],
            "a = { b ; c = d;": ["expected '}' before ';'"],
            "a b; c = ?d": ["expected '=' before 'b'", "unexpected character '?'", "expected ';' before the end"],
        }
        for text, wanted in cases.items():
            with self.subTest(text=text):
                found = parse(text)
                self.assertEqual([it.text for it in found.faults], wanted)
                self.assertIn("Use(", str(found.phrase.tree))


class OnAFolder(unittest.TestCase):
    """Two files of a folder, one of which is open: one server, and a folder for each test."""

    @classmethod
    def setUpClass(cls):
        cls.client = Client(script=SAMPLE / "rules_server.py").__enter__()
        cls.addClassCleanup(cls.client.close)

    def setUp(self):
        temporary = tempfile.TemporaryDirectory(prefix="attrd-lsp-")
        self.addCleanup(temporary.cleanup)
        self.folder = Path(temporary.name).resolve()
        self.tokens = self.folder / "tokens.rules"
        self.tokens.write_text(TOKENS, "utf-8")
        self.document = Editing(self.client, CALCULATOR, (self.folder / "calculator.rules").as_uri())
        self.addCleanup(self.client.notify, "textDocument/didClose", {"textDocument": {"uri": self.document.uri}})

    def other(self):
        """What is told next of the file that isn't open, with severities."""
        while True:
            params = self.client.note("textDocument/publishDiagnostics")
            if params["uri"] == self.tokens.as_uri():
                return [(it["severity"], told) for it, told in zip(params["diagnostics"], shown(params["diagnostics"]))]

    def test_a_file_that_isnt_open_is_told_of(self):
        self.assertEqual(self.document.settled(), ["3:19 this is the token TIMES"])
        self.assertEqual(self.other(), [(2, "3:7 TIMES is never used")])
        self.document.change('"*"', "TIMES")
        self.assertEqual(self.document.settled(), [])
        self.assertEqual(self.other(), [])

    def test_names_lead_from_file_to_file(self):
        found = self.document.ask("definition", "PLUS")
        self.assertEqual((found["uri"], ranges([found])), (self.tokens.as_uri(), [(2, 7)]))
        self.assertEqual(self.document.ask("hover", "PLUS")["contents"]["value"], "token PLUS, spelled +")
        self.assertEqual(self.document.ask("hover", "value")["contents"]["value"], "rule value, which is never empty")
        found = self.document.ask("references", "NUMBER", context={"includeDeclaration": True})
        self.assertEqual([it["uri"] for it in found], [self.tokens.as_uri(), self.document.uri])
        found = self.client.ask("workspace/symbol", {"query": "times"})
        self.assertEqual([(it["name"], it["kind"], it["location"]["uri"]) for it in found], [("TIMES", 14, self.tokens.as_uri())])

    def test_a_name_is_changed_in_all_files(self):
        changes = self.document.ask("rename", "PLUS", newName="ADD")["changes"]
        told = {uri: ranges(edits) for uri, edits in changes.items()}
        self.assertEqual(told, {self.tokens.as_uri(): [(2, 7)], self.document.uri: [(2, 17)]})
        message = "an error would come in line 3: another rule or token is named TIMES"
        self.assertEqual(self.document.ask("rename", "PLUS", newName="TIMES"), {"code": FAILED, "message": message})

    def test_names_of_other_files_complete(self):
        items = self.document.ask("completion", "PLUS", behind=1)["items"]
        self.assertEqual([(it["label"], it["kind"]) for it in items], [("PLUS", 21), ("product", 3)])

    def test_a_warning_with_a_fix(self):
        self.document.settled()
        place = self.document.at("value", 1)["position"]
        (action,) = self.document.ask("codeAction", "product", 2, range={"start": {"line": 2, "character": 0}, "end": place}, context={})
        (edit,) = action["edit"]["changes"][self.document.uri]
        self.assertEqual(action["title"], "Replace by TIMES: this is the token TIMES")
        self.assertEqual((edit["newText"], ranges([edit])), ("TIMES", [(3, 19)]))
        nothing = self.document.ask("codeAction", "sum", range={"start": place, "end": place}, context={})
        self.assertEqual(nothing, [])

    def test_files_are_read_again_when_they_are_written(self):
        self.document.settled()
        self.tokens.write_text("token NUMBER;\n", "utf-8")
        changes = [{"uri": self.tokens.as_uri(), "type": 2}]
        self.client.notify("workspace/didChangeWatchedFiles", {"changes": changes})
        self.assertEqual(self.document.settled(), ["2:17 no rule or token is named PLUS"])
        self.tokens.unlink()
        self.client.notify("workspace/didChangeWatchedFiles", {"changes": changes})
        self.assertEqual(self.document.settled(), ["2:17 no rule or token is named PLUS", "4:9 no rule or token is named NUMBER"])

    def test_an_editor_that_can_is_asked_to_tell_of_written_files(self):
        able = {"capabilities": {"workspace": {"didChangeWatchedFiles": {"dynamicRegistration": True}}}}
        client = Client(script=SAMPLE / "rules_server.py")
        self.addCleanup(client.close)
        client.ask("initialize", able)
        client.notify("initialized", {})
        (asked,) = client.note("client/registerCapability")["registrations"]
        self.assertEqual(asked["registerOptions"], {"watchers": [{"globPattern": "**/*.rules"}]})
        client.write({"id": "client/registerCapability", "result": None})
        self.assertEqual(client.ask("workspace/symbol", {"query": ""}), [])

    def test_what_stands_in_the_editor_counts_until_it_is_closed(self):
        self.document.settled()
        tokens = Editing(self.client, TOKENS.replace("PLUS", "ADD"), self.tokens.as_uri())
        told = ["2:17 no rule or token is named PLUS", "3:19 this is the token TIMES"]
        self.assertEqual(self.document.settled(), told)
        tokens.change("ADD", "PLUS")
        self.assertEqual(self.document.settled(), told[1:])
        tokens.change("PLUS", "MORE")
        self.assertEqual(self.document.settled(), told)
        self.client.notify("textDocument/didClose", {"textDocument": {"uri": tokens.uri}})
        self.assertEqual(self.document.settled(), told[1:])

    def test_a_part_that_may_be_empty_isnt_repeated(self):
        self.document.change("{ PLUS product }", "{ [ PLUS ] }")
        self.assertIn("2:15 what is repeated may be empty", self.document.settled())


if __name__ == "__main__":
    unittest.main()
