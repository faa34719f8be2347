"""The server: it takes the editor's messages, and between them goes on with the search for faults, one run of the program at a time."""
from __future__ import annotations

import sys
from pathlib import Path
from typing import Any, Callable, Dict, List, Optional, Tuple

from attrd import AttrdError
from attrd.authoring import Checked
from attrd_lsp.editor import ERROR, Editor
from attrd_lsp.faults import FAULTS, failure_of
from attrd_lsp.params import change_in, part, position_in, uri_in
from attrd_lsp.positions import Text
from attrd_lsp.rpc import METHOD_NOT_FOUND, PARSE_ERROR, Ended, Failure, Inbox, Malformed, Message, Unreadable

from . import answers
from .folder import Folder, NoGrammar, path_of

CAPABILITIES = {
    "textDocumentSync": {"openClose": True, "change": 2}, "hoverProvider": True, "definitionProvider": True, "implementationProvider": True,
    "referencesProvider": True, "documentSymbolProvider": True, "completionProvider": {"triggerCharacters": ["."]}}
# What is answered of a place; an answer of other documents is the empty one.
AT_PLACE: Dict[str, Tuple[Callable[[Folder, Path, int], Any], Any]] = {
    "textDocument/hover": (answers.hover, None), "textDocument/definition": (answers.definition, []),
    "textDocument/implementation": (answers.equations, []), "textDocument/references": (answers.references, []),
    "textDocument/completion": (answers.completion, [])}


class Server:
    """Serves one editor."""

    def __init__(self, inbox: Inbox, editor: Editor, program: str, forms: str = "") -> None:
        self.inbox, self.editor, self.program, self.forms = inbox, editor, program, forms
        self.folders: Dict[Path, Folder] = {}
        self.due: List[Folder] = []
        self.status: Optional[int] = None
        self.is_shut_down = False
        self.notifications: Dict[str, Callable[[Any], None]] = {
            "textDocument/didOpen": self.open, "textDocument/didChange": self.change, "textDocument/didClose": self.close,
            "textDocument/didSave": self.saved, "exit": self.exit}

    def serve(self) -> int:
        """Serves until the editor ends; the exit status. Raises EditorGone."""
        while self.status is None:
            try:
                message = self.inbox.next(not self.due)
            except Ended:
                return 0 if self.is_shut_down else 1
            except Malformed as fault:
                print(f"attrd_aspects: {fault}", file=sys.stderr)
                return 1
            except Unreadable as fault:
                self.editor.fail(None, Failure(PARSE_ERROR, str(fault)))
                continue
            if message is None:
                self.step(self.due[0])
            elif "method" in message:
                self.take(message)
        return self.status

    def take(self, message: Message) -> None:
        """Does what a message wants; a failure is its answer, or is shown where it wants none."""
        method, number = str(message["method"]), message.get("id")
        try:
            if "id" in message:
                self.editor.answer(number, self.answer(method, message.get("params")))
            elif method in self.notifications:
                self.notifications[method](message.get("params"))
        except Failure as failure:
            self.fail(message, failure)
        except FAULTS as fault:
            self.fail(message, failure_of(fault))

    def fail(self, message: Message, failure: Failure) -> None:
        """Tells the editor of a failure."""
        if "id" in message:
            self.editor.fail(message["id"], failure)
        else:
            self.editor.show(ERROR, failure.text)

    def answer(self, method: str, params: Any) -> Any:
        """The result of a request. Raises Failure."""
        if method == "initialize":
            return {"capabilities": CAPABILITIES, "serverInfo": {"name": "attrd_aspects"}}
        if method == "shutdown":
            self.is_shut_down = True
            return None
        if method not in AT_PLACE and method != "textDocument/documentSymbol":
            raise Failure(METHOD_NOT_FOUND, f"there is no {method} here")
        path = path_of(uri_in(params))
        answer, empty = AT_PLACE.get(method, (None, []))
        try:
            if path is None:
                return empty
            folder = self.folder(path)
            if answer is None:
                return answers.symbols(folder, path)
            return answer(folder, path, folder.text(path).offset(position_in(params, "position")))
        except NoGrammar:
            return empty

    def folder(self, path: Path) -> Folder:
        """The folder of a file."""
        return self.folders.setdefault(path.parent, Folder(path.parent, self.forms))

    def open(self, params: Any) -> None:
        """A document is open now. Raises Failure where the message isn't as it should be, as those below."""
        self.put(params, Text.of(part(params, str, "textDocument", "text")))

    def change(self, params: Any) -> None:
        """A document has another text now."""
        path = path_of(uri_in(params))
        if path is not None and path in self.folder(path).texts:
            text = self.folder(path).texts[path]
            for it in map(change_in, part(params, list, "contentChanges")):
                text = text.changed(text.changed_span(it), it.text)
            self.put(params, text)

    def close(self, params: Any) -> None:
        """A document isn't open any more: what is on the disk counts."""
        self.put(params, None)

    def saved(self, params: Any) -> None:
        """A document was written to the disk: files beside it may be others, too."""
        path = path_of(uri_in(params))
        if path is not None:
            self.begin(self.folder(path))

    def exit(self, params: Any) -> None:
        """The editor ends."""
        self.status = 0 if self.is_shut_down else 1

    def put(self, params: Any, text: Optional[Text]) -> None:
        """Takes the text of a document, or None where it isn't open any more."""
        path = path_of(uri_in(params))
        if path is None:
            return
        folder = self.folder(path)
        if text is None:
            folder.texts.pop(path, None)
            folder.versions.pop(path, None)
        else:
            folder.texts[path], folder.versions[path] = text, part(params, int, "textDocument", "version")
        self.begin(folder)

    def begin(self, folder: Folder) -> None:
        """Has the faults of a folder looked for anew."""
        folder.changed()
        if folder not in self.due:
            self.due.append(folder)

    def step(self, folder: Folder) -> None:
        """Goes on with the search in a folder; at its end all faults are shown."""
        try:
            found = self.search(folder)
            if found is None:
                return
            self.show(folder, found)
        except (AttrdError, NoGrammar) as fault:
            self.tell(folder, str(fault))
        except FAULTS as fault:
            self.tell(folder, failure_of(fault).text)
        folder.check = None
        self.due.remove(folder)

    def search(self, folder: Folder) -> Optional[Checked]:
        """Goes on with the search in a folder by one run of the program; what was found, where it is over. Raises AttrdError and NoGrammar."""
        if folder.check is None:
            folder.begin_check(self.program)
        assert folder.check is not None
        try:
            next(folder.check)
            return None
        except StopIteration as end:
            found: Checked = end.value
            return found

    def show(self, folder: Folder, found: Checked) -> None:
        """Shows the faults in each file that has some, and takes those away that were shown before."""
        folder.trouble = ""
        by_file: Dict[Path, List[Any]] = {path: [] for path in (*folder.told, *folder.texts)}
        for it in found.findings:
            path = Path(it.file)
            by_file.setdefault(path, []).append(answers.diagnostic(folder.text(path), it))
        for path, told in by_file.items():
            self.editor.publish(path.as_uri(), folder.versions.get(path), told)
        folder.told = {path for path, told in by_file.items() if told}

    def tell(self, folder: Folder, trouble: str) -> None:
        """Has it shown that nothing can be found out; once, where it is the same as before."""
        if folder.trouble != trouble:
            folder.trouble = trouble
            self.editor.show(ERROR, trouble)
