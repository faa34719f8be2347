"""The language server for grammars and aspects, by its protocol."""
from __future__ import annotations

import shutil
import sys
import tempfile
import unittest
from pathlib import Path
from typing import Any, Dict, List

from aspects_support import AspectsClient, write_small

SAMPLE = Path(__file__).resolve().parents[3] / "samples" / "simplic"


class OfPlaces(unittest.TestCase):
    """What is answered of places in the tutorial's files: one server, and a folder for each test."""

    client: AspectsClient

    @classmethod
    def setUpClass(cls) -> None:
        cls.client = AspectsClient(Path())
        cls.addClassCleanup(cls.client.close)

    def setUp(self) -> None:
        temporary = tempfile.TemporaryDirectory(prefix="attrd-aspects-")
        self.addCleanup(temporary.cleanup)
        self.folder = write_small(Path(temporary.name))
        self.client.folder = self.folder
        self.addCleanup(self.client.leave)

    def at(self, file: str, text: str, number: int = 0, behind: int = 0) -> Dict[str, Any]:
        """The place of a text where it stands for the time of that number, and so many characters on."""
        return self.client.place(file, text, number, behind)

    def told(self, *place: Any) -> str:
        hover = self.client.ask("textDocument/hover", self.at(*place))
        return "" if hover is None else str(hover["contents"]["value"])

    def lines(self, method: str, *place: Any) -> List[str]:
        """The stretches that a request answers, as FILE:LINE TEXT."""
        return self.client.stretches(self.client.ask(f"textDocument/{method}", self.at(*place)))

    def test_hover(self) -> None:
        for file in ("small.ast", "names.jrag", "errors.jrag"):
            self.client.open(file)
        self.assertEqual(self.told("names.jrag", "field(n)", 1), "syn lazy Decl ClassDecl.field(String n)\nequations: ClassDecl")
        self.assertEqual(self.told("names.jrag", "getSuper"), "ClassDecl ::= [Super:KindUse]\nKindUse getSuper()\nboolean hasSuper()")
        self.assertEqual(self.told("names.jrag", "ClassDecl"), "ClassDecl : Kind ::= <ID:String> [Super:KindUse] Field:Decl* Block;")
        self.assertEqual(self.told("errors.jrag", "errors() }"), "syn lazy int Kind.errors()\nequations: Kind, ClassDecl")
        self.assertEqual(self.told("errors.jrag", "(k :", 0, 1), "Kind k")
        self.assertEqual(self.told("small.ast", "Stmt;"), "abstract Stmt;\nbelow it: Block, Decl, Show")
        self.assertEqual(self.told("errors.jrag", "aspect"), "")

    def test_folds_that_look_for_a_name(self) -> None:
        for file in ("names.jrag", "errors.jrag"):
            self.client.open(file)
        own = "With --index `first (d : getFieldList())` is a search by the token ID."
        hover = self.client.ask("textDocument/hover", self.at("names.jrag", "first (d"))
        self.assertEqual(hover["contents"]["value"], own)
        line, column = (self.at("names.jrag", "first (d")["position"][it] for it in ("line", "character"))
        self.assertEqual(hover["range"], {"start": {"line": line, "character": column}, "end": {"line": line, "character": column + 5}})
        self.assertEqual(self.told("names.jrag", "first (d", 0, 5), own)
        self.assertEqual(self.told("names.jrag", "first (d", 0, 6), "")
        self.assertEqual(self.told("errors.jrag", "first (k"),
                         "With --index `first (k : getKindList())` is no search: no token of k is compared with a text.")
        self.assertEqual(self.told("errors.jrag", "sum (k"), "")

    def test_folds_as_they_are_typed(self) -> None:
        """The text in the editor counts; where another body can't be read, too, but not where the grammar has a fault."""
        self.client.open("small.ast")
        self.client.open("names.jrag")
        self.client.change("names.jrag", "{ d.getID().equals(n) }", "{ d == null || d.getID().equals(n) }")
        self.assertEqual(self.told("names.jrag", "first (d"),
                         "With --index `first (d : getFieldList())` is no search: no token of d is compared with a text.")
        self.client.change("names.jrag", "first (d : getFieldList()) { d == null || ", 'exists (d : getFieldList()) { d.getID().equals("x") && ')
        self.client.change("names.jrag", "= lookup(getID());", "= lookup(getID(;")
        self.assertEqual(self.told("names.jrag", "exists (d", 0, 2), "With --index `exists (d : getFieldList())` is a search by the token ID.")
        self.client.change("small.ast", "Program ::=", "Program ::= <")
        self.assertEqual(self.told("names.jrag", "exists (d"), "")

    def test_definitions_equations_and_references(self) -> None:
        for file in ("small.ast", "names.jrag", "types.jrag"):
            self.client.open(file)
        self.assertEqual(self.lines("definition", "types.jrag", "getInit"), ["small.ast:10 Init"])
        self.assertEqual(self.lines("definition", "names.jrag", "kind()"), ["kinds.jrag:7 kind"])
        self.assertEqual(self.lines("definition", "names.jrag", "(Decl)", 0, 1), ["small.ast:10 Decl"])
        self.assertEqual(self.lines("implementation", "types.jrag", "kind()", 0), ["types.jrag:4 kind"])
        equations = self.lines("implementation", "types.jrag", "kind();")
        self.assertEqual(equations, [f"types.jrag:{it} kind" for it in range(7, 13)])
        uses = self.lines("references", "names.jrag", "superClass()", 0)
        self.assertEqual(uses, ["errors.jrag:3 superClass", "errors.jrag:3 superClass", "errors.jrag:6 superClass", *["names.jrag:12 superClass"] * 2,
                                "names.jrag:14 superClass"])
        self.assertIn("small.ast:10 Init", self.lines("references", "small.ast", "Init"))
        self.assertEqual(len(self.lines("references", "small.ast", "Init")), 9)

    def test_completion(self) -> None:
        self.client.open("types.jrag")
        self.client.change("types.jrag", 'eq Num.kind() = lookupKind("int");', "eq Num.kind() = this.get")
        self.assertEqual(self.labels("types.jrag", "this.get", 8), ["error", "errors", "getValue", "kind", "lookupKind", "mayBeInt", "own"])
        self.client.change("types.jrag", "this.get", "getLe")
        self.assertIn("getValue", self.labels("types.jrag", "getLe\n", 5))
        self.client.change("types.jrag", "getLe", "((ClassDecl) lookupKind(\"int\")).;")
        self.assertIn("superClass", self.labels("types.jrag", ")).;", 3))
        self.client.change("types.jrag", "eq Truth.kind()", "eq Truth.")
        self.assertEqual(self.labels("types.jrag", "eq Truth.", 9)[:2], ["error", "errors"])

    def labels(self, file: str, text: str, behind: int) -> List[str]:
        found = self.client.ask("textDocument/completion", self.at(file, text, 0, behind))
        return [str(it["label"]) for it in found]

    def test_symbols(self) -> None:
        for file in ("small.ast", "kinds.jrag"):
            self.client.open(file)
        named = {file: [it["name"] for it in self.client.ask("textDocument/documentSymbol", self.at(file, ""))] for file in ("small.ast", "kinds.jrag")}
        self.assertEqual(named["small.ast"][:4], ["Program", "Kind", "Basic", "ClassDecl"])
        self.assertEqual(named["kinds.jrag"], ["Program.kindNamed", "KindUse.lookupKind", "Program.getKind().lookupKind", "KindUse.kind"])

    def test_all_faults_in_all_files(self) -> None:
        self.client.open("types.jrag")
        self.assertEqual(self.client.diagnoses("types.jrag"), [])
        self.client.change("types.jrag", 'eq Num.kind() = lookupKind("int");', "eq Num.kind() = nix();")
        self.client.change("types.jrag", "getInit().kind()", "getInit().kin()")
        self.assertEqual(self.client.diagnoses("types.jrag"), ["4 J3", "7 J3"])
        self.client.open("small.ast")
        self.client.change("small.ast", "Show : Stmt ::= Expr;", "Show : Stmt ::= Exp;")
        self.assertEqual(self.client.diagnoses("small.ast"), ["11 G3"])
        self.client.change("small.ast", "::= Exp;", "::= Expr;")
        self.assertEqual(self.client.diagnoses("small.ast"), [])

    def test_which_files_belong_together(self) -> None:
        (self.folder / "other.ast").write_text("A;", "utf-8")
        # One of its own: what the other one shows may be of a folder that is gone.
        client = AspectsClient(self.folder)
        self.addCleanup(client.close)
        client.open("kinds.jrag")
        self.assertIn("has 2 grammars: a file attrd.files there", client.shown())
        place = client.place("kinds.jrag", "KindUse")
        self.assertIsNone(client.ask("textDocument/hover", place))
        (self.folder / "attrd.files").write_text("small.ast\nkinds.jrag\n", "utf-8")
        client.notify("textDocument/didSave", client.place("kinds.jrag", ""))
        self.assertEqual(client.diagnoses("kinds.jrag"), [])
        self.assertEqual(client.ask("textDocument/hover", place)["contents"]["value"], "KindUse ::= <ID:String>;")

    def test_messages_that_are_none(self) -> None:
        self.assertEqual(self.client.ask("textDocument/hover", {})["code"], -32602)
        self.assertEqual(self.client.ask("textDocument/nix", {})["code"], -32601)
        place = {"textDocument": {"uri": "file:///x.txt"}, "position": {"line": 0, "character": 0}}
        self.assertIsNone(self.client.ask("textDocument/hover", place))

    def test_forms_that_are_left_out_else(self) -> None:
        self.client.open("kinds.jrag")
        self.client.change("kinds.jrag", "aspect", "aspect Loop { syn boolean Basic.a() circular [false] = a(); }\naspect")
        self.assertEqual(self.client.diagnoses("kinds.jrag"), ["1 J10"])
        client = AspectsClient(self.folder, None, "--forms", "circular")
        self.addCleanup(client.close)
        client.open("kinds.jrag")
        client.change("kinds.jrag", "aspect", "aspect Loop { syn boolean Basic.a() circular [false] = a(); }\naspect")
        self.assertEqual(client.diagnoses("kinds.jrag"), [])
        client.change("kinds.jrag", "[false]", "[0]")
        self.assertEqual(client.diagnoses("kinds.jrag"), ["1 J10"])

    def test_a_program_that_is_not_there(self) -> None:
        client = AspectsClient(self.folder, attrd="./nosuch")
        self.addCleanup(client.close)
        client.open("kinds.jrag")
        self.assertIn("it can't be started", client.shown())
        self.assertIn("KindUse ::=", str(client.ask("textDocument/hover", client.place("kinds.jrag", "KindUse"))))


SLASHES = {
    "known.ast": "Program ::= /Unknown:Type/ Use* /Predefined:Type*/;\nType ::= <Name>;\nUse ::= <Name>;\n",
    "known.jrag": """aspect Known {
  syn nta Type Program.getUnknown() = new Type("?");
  syn nta List<Type> Program.getPredefinedList() = new List<Type>().add(new Type("int"));
  syn nta Type Program.getMore() = new Type("more");
}
""",
    "used.jrag": """aspect Used {
  inh Type Use.type();
  eq Program.getUse().type() = getNumPredefined() > 0 ? getPredefined(0) : getUnknown();
  inh int Type.n();
  eq Program.Unknown().n() = getMore().n();
  eq Program.getChild().n() = 1;
}
"""}


class OfSlashes(unittest.TestCase):
    """What is answered of components between slashes, and of the constants that fill them."""

    client: AspectsClient

    @classmethod
    def setUpClass(cls) -> None:
        temporary = tempfile.TemporaryDirectory(prefix="attrd-aspects-")
        cls.addClassCleanup(temporary.cleanup)
        for file, text in SLASHES.items():
            (Path(temporary.name) / file).write_text(text, "utf-8")
        cls.client = AspectsClient(Path(temporary.name), None, "--forms", "jastadd")
        cls.addClassCleanup(cls.client.close)

    def setUp(self) -> None:
        self.addCleanup(self.client.leave)
        for file in SLASHES:
            self.client.open(file)

    def told(self, *place: Any) -> str:
        return str(self.client.ask("textDocument/hover", self.client.place(*place))["contents"]["value"])

    def lines(self, method: str, *place: Any) -> List[str]:
        return self.client.stretches(self.client.ask(f"textDocument/{method}", self.client.place(*place)))

    def test_hover(self) -> None:
        told = "Program ::= /Unknown:Type/\nType getUnknown()\nsyn nta Type Program.getUnknown() = new Type(\"?\");"
        for place in ("known.ast", "Unknown"), ("known.jrag", "getUnknown"), ("used.jrag", "getUnknown"), ("used.jrag", "Unknown()", 1):
            self.assertEqual(self.told(*place), told, place)
        self.assertEqual(self.told("used.jrag", "getMore"), "syn nta Type Program.getMore() = new Type(\"more\");")
        self.assertIn("= new List<Type>().add(new Type(\"int\"));", self.told("known.ast", "Predefined"))
        self.assertEqual(self.told("known.ast", "Program"), "Program ::= /Unknown:Type/ Use* /Predefined:Type*/;\nconstants: Type getMore()")

    def test_definitions_and_references(self) -> None:
        self.assertEqual(self.lines("definition", "used.jrag", "getUnknown"), ["known.ast:1 Unknown", "known.jrag:2 getUnknown"])
        self.assertEqual(self.lines("definition", "used.jrag", "getNumPredefined"), ["known.ast:1 Predefined", "known.jrag:3 getPredefinedList"])
        self.assertEqual(self.lines("definition", "used.jrag", "getMore"), ["known.jrag:4 getMore"])
        self.assertEqual(self.lines("implementation", "known.ast", "Unknown"), ["known.jrag:2 getUnknown"])
        self.assertEqual(self.lines("implementation", "used.jrag", "getMore"), ["known.jrag:4 getMore"])
        self.assertEqual(self.lines("references", "known.jrag", "getUnknown"),
                         ["known.ast:1 Unknown", "known.jrag:2 getUnknown", "used.jrag:3 getUnknown", "used.jrag:5 Unknown"])

    def test_completions_and_symbols(self) -> None:
        found = {it["label"]: it["detail"] for it in self.client.ask("textDocument/completion", self.client.place("used.jrag", "getUnknown"))}
        self.assertLessEqual({"getUnknown": "Type getUnknown", "getPredefinedList": "Type* getPredefinedList", "getMore": "Type getMore"}.items(), found.items())
        self.client.change("known.jrag", 'Unknown() = new Type("?");', "")
        found = self.client.ask("textDocument/completion", self.client.place("known.jrag", "get", 0, 3))
        self.assertEqual([(it["label"], it["detail"]) for it in found], [("getUnknown", "Type")])
        told = self.client.ask("textDocument/documentSymbol", {"textDocument": {"uri": self.client.uri("known.jrag")}})
        self.assertIn("Program.getMore", [it["name"] for it in told])

    def test_faults(self) -> None:
        self.assertEqual(self.client.diagnoses("known.ast"), [])
        self.client.change("known.jrag", "syn nta Type Program.getUnknown()", "syn nta Use Program.getUnknown()")
        self.assertEqual(self.client.diagnoses("known.jrag"), ["2 J4"])
        self.client.change("known.jrag", 'syn nta Use Program.getUnknown() = new Type("?");', "")
        self.client.change("known.ast", "\n", " \n")
        self.assertEqual(self.client.diagnoses("known.ast"), ["1 J7"])


class OfStatements(unittest.TestCase):
    """What is answered of places in bodies of statements, in the sample that is written as users of JastAdd write it: one server, and a
    folder for each test."""

    client: AspectsClient

    @classmethod
    def setUpClass(cls) -> None:
        cls.client = AspectsClient(Path(), None, "--forms", "jastadd")
        cls.addClassCleanup(cls.client.close)

    def setUp(self) -> None:
        temporary = tempfile.TemporaryDirectory(prefix="attrd-aspects-")
        self.addCleanup(temporary.cleanup)
        for file in SAMPLE.iterdir():
            if file.suffix in (".ast", ".jrag"):
                shutil.copy(file, temporary.name)
        self.client.folder = Path(temporary.name)
        self.addCleanup(self.client.leave)
        self.client.open("names.jrag")
        self.client.open("functions.jrag")

    def told(self, *place: Any) -> str:
        return str(self.client.ask("textDocument/hover", self.client.place(*place))["contents"]["value"])

    def lines(self, method: str, *place: Any) -> List[str]:
        return self.client.stretches(self.client.ask(f"textDocument/{method}", self.client.place(*place)))

    def labels(self, *place: Any) -> List[str]:
        return [it["label"] for it in self.client.ask("textDocument/completion", self.client.place(*place))]

    def test_faults(self) -> None:
        self.assertEqual(self.client.diagnoses("names.jrag"), [])
        self.client.change("names.jrag", "return p;", "p.find(); return p;")
        self.assertEqual(self.client.diagnoses("names.jrag"), ["26 J10"])

    def test_hover(self) -> None:
        self.assertEqual(self.told("names.jrag", "f : get"), "Function f")
        self.assertEqual(self.told("names.jrag", "Param p"), "Param ::= IdDecl;")
        self.assertEqual(self.told("names.jrag", "getParamList", 0),
                         "Function ::= Param*\nParam getParam(int)\nint getNumParam()\nParam* getParamList()\nParam* getParams()")
        self.assertEqual(self.told("functions.jrag", "f.reaches", 0), "Function f")
        self.assertIn("syn boolean Function.reaches(Function to)", self.told("functions.jrag", "reaches(to)", 0))

    def test_loops_that_look_for_a_name(self) -> None:
        self.assertEqual(self.told("names.jrag", "for (final"),
                         "With --index `for (final Param p : getParamList())` is no search: no token of p is compared with a text.")
        self.client.open("simplic.ast")
        self.client.change("simplic.ast", "Param ::= IdDecl;", "Param ::= <Key> IdDecl;")
        self.client.change("names.jrag", "p.getIdDecl().getID().equals(name)", "p.getKey().equals(name)")
        self.assertEqual(self.told("names.jrag", "for (final", 0, 3),
                         "With --index `for (final Param p : getParamList())` is a search by the token Key.")
        self.assertIsNone(self.client.ask("textDocument/hover", self.client.place("names.jrag", "if (p.getKey")))

    def test_definitions_and_references(self) -> None:
        self.assertEqual(self.lines("definition", "names.jrag", "f.getIdDecl()", 0), ["names.jrag:14 f"])
        self.assertEqual(self.lines("definition", "names.jrag", "Param p"), ["simplic.ast:4 Param"])
        self.assertEqual(self.lines("definition", "names.jrag", "lookupBehind(name);"), ["names.jrag:35 lookupBehind"])
        self.assertEqual(self.lines("references", "names.jrag", "p : get"), ["names.jrag:25 p", "names.jrag:26 p", "names.jrag:26 p"])

    def test_attributes_that_are_overloaded(self) -> None:
        self.client.change("names.jrag", "aspect", "aspect Two {\n  syn int Function.two() = two(1);\n  syn int Function.two(int i) = i;\n}\naspect")
        self.assertEqual(self.client.diagnoses("names.jrag"), [])
        self.assertEqual(self.told("names.jrag", "two(1)"), "syn int Function.two(int i)\nequations: Function")
        self.assertEqual(self.lines("definition", "names.jrag", "two(1)"), ["names.jrag:6 two"])
        self.assertEqual(self.lines("implementation", "names.jrag", "two(1)"), ["names.jrag:6 two"])
        self.assertEqual(self.lines("references", "names.jrag", "two() ="), ["names.jrag:5 two"])
        self.assertEqual(self.lines("references", "names.jrag", "two(1)"), ["names.jrag:5 two", "names.jrag:6 two"])
        symbols = self.client.ask("textDocument/documentSymbol", self.client.place("names.jrag", ""))
        self.assertEqual([it["name"] for it in symbols][:3], ["Function.two()", "Function.two(int)", "IdUse.decl"])

    def test_constants(self) -> None:
        """The attribute, the name of its component in an equation, and the accessor of that mean the same."""
        told = self.told("names.jrag", "print().getIdDecl().getID", 0)
        self.assertIn('syn nta Function Program.print() = new Function( new IdDecl("print"), new List<Param>()', told)
        self.assertIn("equations: Program", told)
        declared = ["names.jrag:61 print"]
        self.assertEqual(self.lines("definition", "names.jrag", "print().getIdDecl().getID", 0), declared)
        self.assertEqual(self.told("names.jrag", "print().isPredefined", 0), told)
        self.assertEqual(self.lines("definition", "names.jrag", "print().isPredefined", 0), declared)
        self.assertEqual(self.lines("definition", "names.jrag", "Numeral(0)"), ["simplic.ast:18 Numeral"])
        self.client.change("names.jrag", "print().isPredefined", "getprint().isPredefined")
        self.assertEqual(self.client.diagnoses("names.jrag"), [])
        self.assertEqual(self.told("names.jrag", "getprint()", 0), told)
        self.assertEqual(self.lines("definition", "names.jrag", "getprint()", 0), declared)
        self.client.change("names.jrag", "new Return(new Numeral(0))", "new Return(new Numeral(false))")
        self.assertEqual([it.split(" ")[1] for it in self.client.diagnoses("names.jrag")], ["J4"])

    def test_completion(self) -> None:
        self.client.change("names.jrag", "    if (i == 0) return lookup(name);\n", "    \n    if (i == 0) return lookup(name).\n")
        self.assertEqual(self.labels("names.jrag", "    \n", 0, 4), ["else", "for", "if", "return"])
        self.assertEqual({"getID", "isTwice"} - set(self.labels("names.jrag", "lookup(name).", 0, len("lookup(name)."))), set())
        self.client.change("names.jrag", "for (Function", "for (Func")
        self.assertIn("Function", self.labels("names.jrag", "for (Func", 0, len("for (Func")))


if __name__ == "__main__":
    sys.exit(unittest.main())
