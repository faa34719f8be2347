"""The language server over the program, by the editor's protocol."""
import os
import shutil
import signal
import subprocess
import tempfile
import unittest
from pathlib import Path

from at_length import at_length
from lsp_support import LSP, PYTHONPATH, SMALL, Client, Editing, Ended, children, program, ranges, shown, tutorial_file
from attrd_lsp.small.language import DATA, NoLanguage, in_folder

CONTENT_MODIFIED, CANCELLED, FAILED = -32801, -32800, -32803
HELD = "has a syntax error: other messages are from its last version that parsed"


def large(count):
    """A class with so many statements, each of two nodes, one of which is in a line of its own."""
    return "class A {{\nshow 2;\n" + "show 1;" * (count - 1) + "}}"


class OnTheTutorialsProgram(unittest.TestCase):
    """One server, and a document with the tutorial's program for each test."""

    @classmethod
    def setUpClass(cls):
        cls.client = Client().__enter__()
        cls.addClassCleanup(cls.client.close)

    def setUp(self):
        self.document = self.opened(SMALL)
        self.assertEqual(self.document.settled(), [])

    def opened(self, text):
        document = Editing(self.client, text, f"file:///small/{self.id().rpartition('.')[2]}.small")
        self.addCleanup(self.client.notify, "textDocument/didClose", {"textDocument": {"uri": document.uri}})
        return document

    def ask(self, method, word, number=0, **more):
        return self.client.ask(f"textDocument/{method}", {**self.document.at(word, number), **more})

    def test_an_error_comes_and_goes_with_the_text(self):
        self.document.change("x + r", "xx + r")
        self.assertEqual(self.document.settled(), ["7:11 no declaration of xx"])
        self.document.change("xx + r", "x + r")
        self.assertEqual(self.document.settled(), [])

    def test_the_tutorials_errors(self):
        self.document.change("extends Point", "extends Pint")
        self.assertEqual(self.document.settled(), ["5:7 no class Pint", "7:11 no declaration of x"])
        self.document.change("extends Pint", "extends Point")
        self.assertEqual(self.document.settled(), [])
        self.document.change("end = x", "Circle end = x")
        self.assertEqual(self.document.settled(), ["7:12 wants Circle, gets int"])

    def test_an_edit_brings_errors_to_classes_whose_text_stays(self):
        self.document.change("x < 10", "q < 10")
        self.assertEqual(self.document.settled(), ["3:12 no declaration of q"])
        self.document.change("int x", "int z")
        self.assertEqual(self.document.settled(), ["3:12 no declaration of q", "7:11 no declaration of x"])
        self.document.change("q < 10", "z < 10")
        self.assertEqual(self.document.settled(), ["7:11 no declaration of x"])

    def test_a_name_that_depends_on_itself(self):
        self.document.change("show end;", "a = a; show end;")
        self.assertEqual(self.document.settled(), ["7:18 `kind` depends on itself"])

    def test_a_circle_takes_no_other_error_away(self):
        self.document.change("show near;", "a = a; show q;")
        self.document.settled()
        self.document.change("show end;", "show p;")
        told = ["3:20 `kind` depends on itself", "3:32 no declaration of q", "7:23 no declaration of p"]
        self.assertEqual(self.document.settled(), told)

    def test_hover_tells_kinds(self):
        cases = {("near", 0): "near: boolean", ("x", 2): "x: int", ("10", 0): "int", ("<", 0): "boolean", ("int", 0): "int"}
        cases.update({("Point", 1): "class Point", ("Circle", 0): "class Circle extends Point", ("end", 1): "end: int"})
        for (word, number), wanted in cases.items():
            with self.subTest(word=word):
                self.assertEqual(self.ask("hover", word, number)["contents"]["value"].split("\n")[0], wanted)
        self.assertIsNone(self.ask("hover", "show"))

    def test_a_definition_is_found_in_the_superclass(self):
        self.assertEqual(ranges([self.ask("definition", "x", 2)]), [(2, 7)])
        self.assertEqual(ranges([self.ask("definition", "Point", 1)]), [(1, 7)])
        self.assertEqual(ranges([self.ask("definition", "r", 0)]), [(6, 7)])
        self.assertIsNone(self.ask("definition", "int"))
        self.assertIsNone(self.ask("definition", "show"))

    def test_a_field_behind_a_dot(self):
        self.document.change("show end;", "Circle c; show c.x;")
        self.assertEqual(self.document.settled(), [])
        self.assertEqual(ranges([self.ask("definition", "x", 3)]), [(2, 7)])
        self.assertEqual(ranges(self.ask("references", "x", 0, context={"includeDeclaration": False})), [(3, 12), (7, 11), (7, 35)])

    def test_references_with_and_without_the_declaration(self):
        self.assertEqual(ranges(self.ask("references", "x", 1, context={"includeDeclaration": True})), [(2, 7), (3, 12), (7, 11)])
        self.assertEqual(ranges(self.ask("references", "Point", 0, context={"includeDeclaration": False})), [(5, 22)])
        self.assertEqual(self.ask("references", "show", 0, context={"includeDeclaration": True}), [])

    def test_a_name_means_the_nearest_declaration(self):
        self.document.change("end = x", "x = 1; end = x")
        self.assertEqual(ranges(self.ask("references", "x", 0, context={"includeDeclaration": True})), [(2, 7), (3, 12)])

    def test_rename(self):
        edits = self.ask("rename", "x", 2, newName="across")["changes"][self.document.uri]
        self.assertEqual(ranges(edits), [(2, 7), (3, 12), (7, 11)])
        self.assertEqual({it["newText"] for it in edits}, {"across"})
        self.assertEqual(ranges(self.ask("rename", "Point", 0, newName="Spot")["changes"][self.document.uri]), [(1, 7), (5, 22)])
        self.assertEqual(ranges(self.ask("rename", "x", 0, newName="x")["changes"][self.document.uri]), [(2, 7), (3, 12), (7, 11)])
        self.document.change("x + r", "x + r + q")
        self.assertEqual(self.document.settled(), ["7:19 no declaration of q"])

    def test_names_that_a_rename_refuses(self):
        cases = {
            ("x", 0, "show"): "'show' is no name",
            ("x", 0, "1"): "'1' is no name",
            ("x", 0, "r"): "'x' in line 7 would mean something else",
            ("int", 0, "number"): "no name that is declared in a file stands here",
        }
        for (word, number, new), wanted in cases.items():
            with self.subTest(word=word, new=new):
                self.assertEqual(self.ask("rename", word, number, newName=new), {"code": FAILED, "message": wanted})
        self.assertEqual(self.ask("prepareRename", "show"), {"code": FAILED, "message": "no name stands here"})
        self.assertEqual(self.ask("prepareRename", "near")["placeholder"], "near")
        self.document.change("x + r", "x +")
        wanted = {"code": FAILED, "message": "the file can't be parsed; names can be changed when it can"}
        self.assertEqual(self.ask("rename", "near", 0, newName="far"), wanted)

    def test_symbols(self):
        found = self.client.ask("textDocument/documentSymbol", {"textDocument": {"uri": self.document.uri}})
        told = [(it["name"], it["kind"], it["detail"], [(below["name"], below["kind"]) for below in it["children"]]) for it in found]
        wanted = [("Point", 5, "", [("x", 8), ("y", 8), ("near", 13)]), ("Circle", 5, "Point", [("r", 8), ("end", 13)])]
        self.assertEqual(told, wanted)

    def test_a_text_that_cant_be_parsed_keeps_the_last_good_tree_and_says_so(self):
        self.document.change("x + r", " + r")
        self.assertEqual(self.document.settled(), ["7:12 expected an expression, found '+'", f"5:7 Circle {HELD}"])
        self.assertEqual(ranges([self.ask("definition", "r", 1)]), [(6, 7)])
        self.document.change("x < 10", "q < 10")
        told = ["7:12 expected an expression, found '+'", f"5:7 Circle {HELD}", "3:12 no declaration of q"]
        self.assertEqual(self.document.settled(), told[:2])
        self.assertEqual(self.document.settled(), told)

    def test_columns_count_units_of_utf_16(self):
        document = Editing(self.client, "class A {{ // \U0001f600\n show \U00010400 + q; }}", self.document.uri + "16.small")
        self.assertEqual(document.settled(), ["2:7 no declaration of \U00010400", "2:12 no declaration of q"])

    def test_an_edit_ends_a_request_and_a_request_can_be_cancelled(self):
        first, second = (self.client.begun("textDocument/hover", self.document.at("near")) for _ in range(2))
        self.client.write(first, self.document.changed("x + r", "x + x"), second)
        self.client.write({"method": "$/cancelRequest", "params": {"id": second["id"]}})
        self.assertEqual(self.client.answer(first["id"])["code"], CONTENT_MODIFIED)
        answer = self.client.answer(second["id"])
        self.assertTrue(answer.get("code") == CANCELLED or "contents" in answer)

    def test_many_edits_at_once_are_told_once_for_the_last(self):
        self.client.write(*(self.document.changed(old, new) for old, new in (("x + r", "a + r"), ("a + r", "b + r"), ("b + r", "c + r"))))
        self.assertEqual(self.document.settled(), ["7:11 no declaration of c"])

    @at_length
    def test_a_tree_of_more_nodes_than_the_usual_is_checked(self):
        """A file may also grow beyond them while its program runs."""
        for count in 32_800, 32_764:
            with self.subTest(count=count):
                document = Editing(self.client, large(count), f"{self.document.uri}{count}.small")
                self.assertEqual(document.settled(), [])
                document.change("show 2;", "show 2; show q + r; show s;")
                self.assertEqual(document.settled(), ["2:14 no declaration of q", "2:18 no declaration of r", "2:26 no declaration of s"])
                document.change("show s;", "int s = 3; show s;")
                self.assertEqual(document.settled(), ["2:14 no declaration of q", "2:18 no declaration of r"])
                self.client.notify("textDocument/didClose", {"textDocument": {"uri": document.uri}})


class OnTheLanguage(unittest.TestCase):
    """Files of the language that attrd refuses."""

    def setUp(self):
        temporary = tempfile.TemporaryDirectory(prefix="attrd-lsp-")
        self.addCleanup(temporary.cleanup)
        self.folder = Path(temporary.name) / "language"
        shutil.copytree(DATA, self.folder)
        self.types = self.folder / "types.jrag"

    def test_the_data_is_the_tutorials(self):
        for it in in_folder(DATA).files:
            self.assertEqual(it.read_text("utf-8"), tutorial_file(it.name), it.name)

    def test_a_refused_file_shows_its_fault_at_its_place(self):
        text = self.types.read_text("utf-8")
        wrong = text.replace('eq Num.kind() = lookupKind("int");', 'eq Num.kind() = lookupKind("int", 1);')
        self.types.write_text(wrong, "utf-8")
        line = wrong[: wrong.index('lookupKind("int", 1)')].count("\n") + 1
        with Client("--language", str(self.folder)) as client:
            document = Editing(client, SMALL)
            refused = client.note("textDocument/publishDiagnostics")
            self.assertEqual(refused["uri"], self.types.as_uri())
            told = shown(refused["diagnostics"])
            self.assertIn(f"{line}:19 J5 argument. A parameter or an argument doesn't fit.", told[0])
            self.assertIn("types.jrag: J5 argument", document.settled()[0])
            self.corrected(client, document, wrong, text)

    def corrected(self, client, document, wrong, text):
        """The fault goes when the file is corrected in the editor, and the document is answered."""
        uri = self.types.as_uri()
        client.notify("textDocument/didOpen", {"textDocument": {"uri": uri, "languageId": "jrag", "version": 0, "text": wrong}})
        self.assertEqual(len(client.note("textDocument/publishDiagnostics")["diagnostics"]), 1)
        client.notify("textDocument/didChange", {"textDocument": {"uri": uri, "version": 1}, "contentChanges": [{"text": text}]})
        told = [client.note("textDocument/publishDiagnostics") for _ in range(2)]
        self.assertEqual([(it["uri"], it["diagnostics"]) for it in told], [(uri, []), (document.uri, [])])

    def test_a_language_that_is_edited_is_followed(self):
        with Client("--language", str(self.folder)) as client:
            document = Editing(client, SMALL)
            self.assertEqual(document.settled(), [])
            errors = self.folder / "errors.jrag"
            text = errors.read_text("utf-8").replace('"no declaration of "', '"unknown: "')
            opened = {"uri": errors.as_uri(), "languageId": "jrag", "version": 0, "text": text}
            client.notify("textDocument/didOpen", {"textDocument": opened})
            self.assertEqual(document.settled(), [])
            document.change("x + r", "q + r")
            self.assertEqual(document.settled(), ["7:11 unknown: q"])

    def test_a_language_without_errors_is_told_once(self):
        (self.folder / "errors.jrag").unlink()
        with Client("--language", str(self.folder)) as client:
            document = Editing(client, SMALL)
            self.assertEqual(document.settled(), ["1:1 no errors are told: no aspect declares an attribute error"])
            self.assertIn("near: boolean\n", client.ask("textDocument/hover", document.at("near"))["contents"]["value"])

    def test_a_folder_without_a_language(self):
        for file in self.folder.glob("*.ast"):
            file.unlink()
        with self.assertRaises(NoLanguage):
            in_folder(self.folder)
        client = Client("--language", str(self.folder))
        with self.assertRaises(Ended):
            client.ask("initialize", {})
        self.assertIn("a language is one .ast file and one .jrag file or more", client.told())
        self.assertEqual(client.close(), 2)


class OnOptions(unittest.TestCase):
    """Options that a program may have or not."""

    def words(self, *words):
        """The options with which a program is started that knows `--keep`."""
        with tempfile.TemporaryDirectory(prefix="attrd-lsp-") as folder:
            noted = Path(folder) / "words"
            keeping = str(Path(__file__).resolve().parent / "keeping.py")
            with Client(*words, attrd=keeping, environment={"ATTRD": program(), "WORDS": str(noted)}) as client:
                self.assertEqual(Editing(client, SMALL).settled(), [])
            return noted.read_text()

    def test_a_program_that_runs_long_keeps_no_more_than_is_said(self):
        self.assertEqual(self.words(), "--slice 100 --keep 400000")
        self.assertEqual(self.words("--keep", "7"), "--slice 100 --keep 7")


class OnSizes(unittest.TestCase):
    """A program without the option --nodes. The same is tried of the server's parts by themselves in test_lsp_again."""

    @unittest.skipIf("ATTRD_TEST_NODES" in os.environ, "trees of 65,536 nodes take half a minute: without ATTRD_TEST_NODES")
    def test_a_tree_that_is_too_large_is_told(self):
        sizeless = str(Path(__file__).resolve().parent / "sizeless.py")
        told = ["1:1 the file is too large: its tree has more than 65,536 nodes"]
        with Client(attrd=sizeless, environment={"ATTRD": program()}) as client:
            self.assertEqual(Editing(client, large(32_800)).settled(), told)
            document = Editing(client, large(32_763))
            self.assertEqual(document.settled(), [])
            document.change("show 2;", "show 2; show 3; show 4; show 5;")
            self.assertEqual(document.settled(), told)
            document.change("show 4; show 5;", "")
            self.assertEqual(document.settled(), [])


class OnFaults(unittest.TestCase):
    """Servers that end, programs that aren't there, and editors that don't keep to the protocol."""

    def test_a_program_that_ends_is_told_and_started_anew(self):
        with Client() as client:
            document = Editing(client, SMALL)
            self.assertEqual(document.settled(), [])
            for _ in range(2):
                for process in children(client.process.pid):
                    os.kill(process, signal.SIGKILL)
                found = client.ask("textDocument/definition", document.at("x", 2))
                self.assertEqual(ranges([found]), [(2, 7)])
                self.assertIn("it is started anew", client.note("window/showMessage")["message"])

    def test_a_program_that_isnt_there_is_told(self):
        with Client(attrd="/nonexistent/attrd") as client:
            document = Editing(client, SMALL)
            self.assertIn("/nonexistent/attrd", client.note("window/showMessage")["message"])
            self.assertEqual(len(document.settled()), 1)
            found = client.ask("textDocument/definition", document.at("x", 2))
            self.assertEqual(found["code"], FAILED)
            self.assertIn("can't be started", found["message"])
            self.assertEqual(len(client.ask("textDocument/documentSymbol", {"textDocument": {"uri": document.uri}})), 2)

    def test_messages_that_break_the_protocol(self):
        client = Client()
        self.addCleanup(client.close)
        self.assertEqual(client.ask("textDocument/hover", {})["code"], -32002)
        client.ask("initialize", {})
        self.assertEqual(client.ask("textDocument/inlayHint", {})["code"], -32601)
        for params in (None, {}, {"textDocument": 1}, {"textDocument": {"uri": "file:///x"}}, []):
            self.assertEqual(client.ask("textDocument/hover", params)["code"], -32602)
        client.raw(b"Content-Length: 3\r\n\r\n{x}")
        self.assertEqual(client.answer(None)["code"], -32700)
        client.raw(b"Content-Length: 2\r\n\r\n[]")
        self.assertEqual(client.answer(None)["code"], -32700)
        client.write({"id": 77})
        self.assertEqual(client.answer(77)["code"], -32600)
        client.notify("textDocument/didOpen", {})
        self.assertIn("textDocument", client.note("window/showMessage")["message"])

    @at_length
    def test_the_status_tells_how_the_editor_ended(self):
        with Client() as client:
            self.assertIsNone(client.ask("shutdown", None))
            self.assertEqual(client.ask("textDocument/hover", {})["code"], -32600)
            client.notify("exit", None)
            self.assertEqual(client.process.wait(timeout=120), 0)
        client = Client()
        client.process.stdin.close()
        self.assertEqual(client.process.wait(timeout=120), 1)
        client.close()
        client = Client()
        client.raw(b"no head\r\n\r\n")
        self.assertEqual(client.process.wait(timeout=120), 1)
        self.assertIn("no head with its length", client.told())
        client.close()

    def test_the_module_tells_its_words(self):
        command = ["python3", "-m", "attrd_lsp", "--help"]
        environment = {**os.environ, "PYTHONPATH": os.pathsep.join(PYTHONPATH)}
        told = subprocess.run(command, env=environment, capture_output=True)
        self.assertEqual(told.returncode, 0)
        self.assertIn(b"--language", told.stdout)

    def test_a_library_that_is_missing_is_named(self):
        environment = {**os.environ, "PYTHONPATH": str(LSP)}
        told = subprocess.run(["python3", "-S", "-m", "attrd_lsp"], env=environment, capture_output=True, text=True)
        self.assertEqual(told.returncode, 1)
        self.assertIn("the package attrd is missing: put clients/python on PYTHONPATH", told.stderr.splitlines()[-1])

    def test_files_are_checked_without_an_editor(self):
        with tempfile.TemporaryDirectory(prefix="attrd-lsp-") as folder:
            file = Path(folder) / "one.small"
            file.write_text(SMALL.replace("x + r", "q + r"), "utf-8")
            command = ["python3", "-m", "attrd_lsp", "--program", program(), "--check"]
            environment = {**os.environ, "PYTHONPATH": os.pathsep.join(PYTHONPATH)}
            told = subprocess.run([*command, str(file)], env=environment, capture_output=True, text=True)
            self.assertEqual((told.returncode, told.stdout), (1, f"{file}:7:11: error: no declaration of q\n"))
            told = subprocess.run([*command, str(file) + ".none"], env=environment, capture_output=True, text=True)
            self.assertEqual((told.returncode, told.stderr), (2, f"{file}.none: it can't be read\n"))


class OnItsProgram(unittest.TestCase):
    """What the tests run."""

    def test_the_program_is_there(self):
        self.assertTrue(os.access(program(), os.X_OK), f"no program at {program()}: name it in ATTRD")


if __name__ == "__main__":
    unittest.main()
