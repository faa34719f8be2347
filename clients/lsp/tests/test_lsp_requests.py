"""What an editor asks beside declarations and kinds, and what the tutorial's language tells beyond the tutorial."""
import unittest

from lsp_support import SMALL, Client, Editing, ranges

FAILED = -32803
LANGUAGE_FILE = {"textDocument": {"uri": "file:///small/names.jrag"}, "position": {"line": 0, "character": 0}}


class OnTheTutorialsProgram(unittest.TestCase):
    """One server, and a document for each test."""

    @classmethod
    def setUpClass(cls):
        cls.client = Client().__enter__()
        cls.addClassCleanup(cls.client.close)

    def opened(self, text):
        document = Editing(self.client, text, f"file:///small/{self.id().rpartition('.')[2]}.small")
        self.addCleanup(self.client.notify, "textDocument/didClose", {"textDocument": {"uri": document.uri}})
        return document

    def told_of(self, text):
        return self.opened(text).settled()

    def names(self, document, word, number=0, behind=0):
        """What completes there: names with their kinds and titles."""
        found = document.ask("completion", word, number, behind)
        self.assertFalse(found["isIncomplete"])
        return [(it["label"], it["kind"], it["detail"]) for it in found["items"]]


class Completion(OnTheTutorialsProgram):
    """Names that would mean something."""

    FIELDS = [("r", 5, "int r"), ("x", 5, "int x"), ("y", 5, "int y")]

    def setUp(self):
        self.document = self.opened(SMALL)
        self.assertEqual(self.document.settled(), [])

    def test_a_name_that_is_begun(self):
        self.assertEqual(self.names(self.document, "x", 2, 1), [("x", 5, "int x")])
        self.assertEqual(self.names(self.document, "near", 1, 2), [("near", 6, "near")])

    def test_a_name_that_isnt_begun_has_all_that_is_seen_there(self):
        self.assertEqual(self.names(self.document, "x", 2), [("end", 6, "end"), *self.FIELDS])
        self.document.change("x + r", "x + ")
        self.assertEqual(self.names(self.document, "x", 2, 4), [("end", 6, "end"), *self.FIELDS])

    def test_behind_a_dot_stand_the_fields_of_the_class(self):
        self.document.change("x + r;", "me.; Circle me;")
        self.assertEqual(self.names(self.document, "me", 0, 3), self.FIELDS)
        self.document.change("me.;", "me.y;")
        self.assertEqual(self.document.told(), [])

    def test_a_kind_has_classes_and_the_kinds_that_are_there_from_the_start(self):
        self.assertEqual(self.names(self.document, "Point", 1, 1), [("Point", 7, "class Point")])
        self.assertEqual(self.names(self.document, "int", 0, 2), [("int", 6, "int")])

    def test_the_name_that_stands_for_none_isnt_offered(self):
        self.document.change("show end;", "int ; show end;")
        self.assertEqual([it[0] for it in self.names(self.document, "int", 3, 4)], ["end", "r", "x", "y"])

    def test_words_of_the_language_are_offered(self):
        self.document.change("show end;", "show tr;")
        self.assertEqual(self.names(self.document, "tr", 0, 2), [("true", 14, "")])

    def test_the_tree_is_as_it_was_behind_a_completion(self):
        self.document.change("x + r", "x + ")
        told = self.document.settled()
        self.names(self.document, "x", 2, 4)
        self.assertEqual(len(told), 2)
        self.document.change("x + ;", "x + q;")
        self.assertEqual([self.document.settled() for _ in range(2)], [[], ["7:15 no declaration of q"]])


class Shown(OnTheTutorialsProgram):
    """What is shown of names and stretches."""

    def setUp(self):
        self.document = self.opened(SMALL)

    def of_document(self, method, **more):
        return self.client.ask(f"textDocument/{method}", {"textDocument": {"uri": self.document.uri}, **more})

    def test_names_that_mean_the_same_are_highlighted(self):
        found = self.document.ask("documentHighlight", "x", 1)
        self.assertEqual((ranges(found), [it["kind"] for it in found]), ([(2, 7), (3, 12), (7, 11)], [3, 2, 2]))
        self.assertEqual(self.document.ask("documentHighlight", "show"), [])

    def test_classes_and_blocks_of_many_lines_are_folded(self):
        self.document.change("{ end = x + r; show end; }", "{ end = x +\n    r;\n    show end; }")
        wanted = [(0, 3), (4, 9), (6, 8)]
        self.assertEqual([(it["startLine"], it["endLine"]) for it in self.of_document("foldingRange")], wanted)

    def test_names_are_coloured_by_what_they_mean(self):
        legend = self.client.capabilities["semanticTokensProvider"]["legend"]["tokenTypes"]
        within = {"start": {"line": 4, "character": 0}, "end": {"line": 6, "character": 12}}
        whole, part = self.of_document("semanticTokens/full")["data"], self.of_document("semanticTokens/range", range=within)["data"]
        kinds = [(legend[part[at + 3]], part[at + 2], part[at + 4]) for at in range(0, len(part), 5)]
        wanted = [("class", 6, 1), ("class", 5, 0), ("type", 3, 0), ("property", 1, 1), ("variable", 3, 1), ("property", 1, 0)]
        self.assertEqual(kinds, wanted)
        self.assertEqual(part[2:], whole[len(whole) - 5 * 8 + 2 :][: len(part) - 2])

    def test_declarations_of_all_files_are_found_by_a_part_of_their_names(self):
        found = self.client.ask("workspace/symbol", {"query": "IRC"})
        mine = [it for it in found if it["location"]["uri"] == self.document.uri]
        self.assertEqual([(it["name"], it["kind"]) for it in mine], [("Circle", 5)])

    def test_of_a_file_of_the_language_nothing_is_told(self):
        for method in ("hover", "definition", "documentSymbol", "completion"):
            self.assertIsNone(self.client.ask(f"textDocument/{method}", LANGUAGE_FILE))


class Checks(OnTheTutorialsProgram):
    """Errors that the tutorial doesn't have."""

    def test_two_of_one_name(self):
        self.assertEqual(self.told_of("class A {{}} class A {{}}"), ["1:20 another kind is named A"])
        self.assertEqual(self.told_of("class int {{}}"), ["1:7 another kind is named int"])
        text = "class A { int x; int x; { int y; { y = 1; } int y; } }"
        told = ["1:22 another declaration here is named x", "1:49 another declaration here is named y"]
        self.assertEqual(self.told_of(text), told)

    def test_classes_that_extend_themselves(self):
        self.assertEqual(self.told_of("class A extends A {{}}"), ["1:7 A extends itself"])
        told = [f"1:{at} the classes above {name} go in a circle" for at, name in ((7, "A"), (30, "B"), (53, "C"))]
        self.assertEqual(self.told_of("class A extends B {{}} class B extends A {{}} class C extends A {{}}"), told)

    def test_a_kind_that_isnt_known_is_told_with_the_name(self):
        self.assertEqual(self.told_of("class A { foo x; { y; } }"), ["1:15 no class foo", "1:20 no kind of y is known"])

    def test_a_rename_makes_no_two_of_one_name(self):
        document = self.opened(SMALL)
        message = "an error would come in line 2: another declaration here is named y"
        self.assertEqual(document.ask("rename", "x", 0, newName="y"), {"code": FAILED, "message": message})
        message = "an error would come in line 5: another kind is named Point"
        self.assertEqual(document.ask("rename", "Circle", 0, newName="Point"), {"code": FAILED, "message": message})
        self.assertEqual(len(document.ask("rename", "x", 0, newName="z")["changes"][document.uri]), 3)

    def renamed(self, document, word, number, name):
        """Changes a name, as an editor does."""
        edits = document.ask("rename", word, number, newName=name)["changes"][document.uri]
        lines = document.text.split("\n")
        for it in sorted(edits, key=lambda it: it["range"]["start"]["character"], reverse=True):
            start, end = (it["range"][at] for at in ("start", "end"))
            line = lines[start["line"]]
            lines[start["line"]] = line[: start["character"]] + it["newText"] + line[end["character"] :]
        document.change(document.text, "\n".join(lines))
        return len(edits)

    def test_a_rename_can_be_taken_back(self):
        document = self.opened(SMALL)
        self.assertEqual(self.renamed(document, "x", 0, "z"), 3)
        self.assertEqual((document.told(), self.renamed(document, "z", 2, "x")), ([], 3))
        self.assertEqual((document.told(), document.text), ([], SMALL))

    def test_one_of_two_of_one_name_can_be_renamed(self):
        document = self.opened("class A { int x; int x; { y = x; } }")
        self.assertEqual(document.settled(), ["1:22 another declaration here is named x"])
        self.assertEqual((self.renamed(document, "x", 1, "z"), document.told()), (1, []))
        self.assertEqual(document.text, "class A { int x; int z; { y = x; } }")

    def test_a_rename_is_refused_for_new_errors_alone(self):
        document = self.opened(SMALL.replace("show end", "show q"))
        self.assertEqual(len(document.ask("rename", "x", 0, newName="z")["changes"][document.uri]), 3)

    def test_an_error_whose_text_is_gone_isnt_told(self):
        text = SMALL.replace("{ near = x < 10; show near; }", "{ a = q; b = r; show p; }")
        document = self.opened(text)
        self.assertEqual(len(document.settled()), 5)
        document.change("{ a = q; b = r; show p; }\n}\n", "{ \n")
        self.assertEqual(len(document.settled()), 2)
        self.assertEqual([it for it in document.told() if "declaration" in it], [])


if __name__ == "__main__":
    unittest.main()
