"""Files and folders that go while a language server looks at them, names that no file has, and faults of a server itself."""
from __future__ import annotations

import io
import json
import os
import shutil
import tempfile
import unittest
from contextlib import redirect_stderr
from dataclasses import replace
from pathlib import Path
from typing import Any, Callable, Dict, Iterator, List
from unittest import mock

from aspects_support import AspectsClient, write_small
from lsp_support import program

from attrd_aspects.folder import Folder, NoGrammar, path_of
from attrd_aspects.server import Server
from attrd_lsp.editor import Editor
from attrd_lsp.faults import failure_of
from attrd_lsp.folders import files_in
from attrd_lsp.positions import Text
from attrd_lsp.rpc import HEAD_END, INTERNAL_ERROR, Inbox
from attrd_lsp.small.language import tutorials

GONE = FileNotFoundError(2, "No such file or directory")


def going_after(looks: int, name: str) -> Callable[..., os.stat_result]:
    """What `Path.stat` is where the file of this name is gone after so many looks at it."""
    stat, left = Path.stat, iter(range(looks))

    def going(path: Path, **given: Any) -> os.stat_result:
        if path.name == name and next(left, None) is None:
            raise GONE
        return stat(path, **given)
    return going


class InAFolder(unittest.TestCase):
    """Each test has a folder of its own."""

    def setUp(self) -> None:
        temporary = tempfile.TemporaryDirectory(prefix="attrd-aspects-")
        self.addCleanup(temporary.cleanup)
        self.folder = Path(temporary.name)


class Names(InAFolder):
    """Which files a folder has."""

    def test_a_folder_that_is_gone_has_no_grammar(self) -> None:
        with self.assertRaisesRegex(NoGrammar, "gone has 0 grammars"):
            Folder(self.folder / "gone").files()

    def test_files_that_are_open_stay_when_the_folder_goes(self) -> None:
        names = [self.folder / "gone" / it for it in ("b.jrag", "a.ast", "a.jrag")]
        folder = Folder(self.folder / "gone", texts={it: Text.of("") for it in names})
        self.assertEqual([it.name for it in folder.files()], ["a.ast", "a.jrag", "b.jrag"])

    def test_a_folder_that_goes_while_it_is_read(self) -> None:
        write_small(self.folder)

        def going(folder: Path) -> Iterator[Path]:
            yield folder / "small.ast"
            raise GONE
        with mock.patch.object(Path, "iterdir", going), self.assertRaisesRegex(NoGrammar, "has 0 grammars"):
            Folder(self.folder).files()

    def test_a_name_in_the_list_that_no_file_has(self) -> None:
        write_small(self.folder)
        (self.folder / "attrd.files").write_bytes(b"small.ast\nki\0nds.jrag\n")
        texts = [it.text for it in Folder(self.folder).sources()]
        self.assertEqual(texts, [(self.folder / "small.ast").read_text("utf-8"), ""])

    def test_uris_that_name_no_file(self) -> None:
        self.assertEqual(path_of("file:///a/b%20c.jrag"), Path("/a/b c.jrag"))
        for uri in ("file:///a/b.txt", "http://a/b.jrag", "file:b.jrag", "file:///a/%00.jrag", "file:///a/\0.jrag", "file:///\ud800/b.jrag", "file://[/b.jrag"):
            self.assertIsNone(path_of(uri), uri)

    def test_a_file_that_goes_while_the_folder_is_read_takes_no_other_with_it(self) -> None:
        for name in "abc":
            (self.folder / f"{name}.small").write_text(name, "utf-8")
        (self.folder / "d.small").mkdir()
        language = replace(tutorials(), suffix=".small")
        for looks in (0, 1):
            with mock.patch.object(Path, "stat", going_after(looks, "b.small")):
                found = files_in(self.folder, language)
            self.assertEqual([it.name for it in found if it.name != "b.small"], ["a.small", "c.small"], looks)
            self.assertEqual({size for _, size in found.values()}, {1})
        self.assertEqual(files_in(self.folder / "gone", language), {})


class Faults(InAFolder):
    """What would end a server, and is told."""

    def setUp(self) -> None:
        super().setUp()
        self.stream = io.BytesIO()
        self.server = Server(Inbox(0), Editor(self.stream), program())

    def told(self) -> List[Dict[str, Any]]:
        """The messages that the editor was sent."""
        parts = self.stream.getvalue().split(HEAD_END)[1:]
        return [json.JSONDecoder().raw_decode(it.decode())[0] for it in parts]

    def test_a_search_that_fails_is_told_and_over(self) -> None:
        def failing() -> Iterator[None]:
            yield
            raise GONE
        folder = self.server.folder(write_small(self.folder) / "kinds.jrag")
        self.server.begin(folder)
        folder.check = failing()  # type: ignore[assignment]
        self.server.step(folder)
        self.assertEqual((self.server.due, self.told()), ([folder], []))
        with redirect_stderr(io.StringIO()) as errors:
            self.server.step(folder)
        self.assertEqual(self.server.due, [])
        self.assertIsNone(folder.check)
        text = "a fault of the language server itself: FileNotFoundError: [Errno 2] No such file or directory"
        self.assertEqual([it["params"]["message"] for it in self.told()], [text])
        self.assertIn("FileNotFoundError", errors.getvalue())

    def test_a_fault_is_told_where_nobody_reads_standard_error(self) -> None:
        errors = io.StringIO()
        errors.close()
        with redirect_stderr(errors):
            failure = failure_of(OSError("nix"))
        self.assertEqual((failure.code, failure.text), (INTERNAL_ERROR, "a fault of the language server itself: OSError: nix"))

    def test_a_server_goes_on_when_its_folder_is_gone(self) -> None:
        folder = self.folder / "small"
        folder.mkdir()
        client = AspectsClient(write_small(folder))
        self.addCleanup(client.close)
        client.open("kinds.jrag")
        self.assertEqual(client.diagnoses("kinds.jrag"), [])
        place = client.place("kinds.jrag", "KindUse")
        shutil.rmtree(folder)
        client.notify("textDocument/didSave", place)
        self.assertEqual(client.shown().partition(":")[0], f"{folder} has 0 grammars")
        self.assertIsNone(client.ask("textDocument/hover", place))
        folder.mkdir()
        write_small(folder)
        client.notify("textDocument/didSave", place)
        self.assertEqual(client.diagnoses("kinds.jrag"), [])
        self.assertEqual(client.ask("textDocument/hover", place)["contents"]["value"], "KindUse ::= <ID:String>;")


if __name__ == "__main__":
    unittest.main()
