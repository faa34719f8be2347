"""The language server: messages of the editor in, one after the other.

It takes all messages that are there, and then goes on with one short step of what is under way. So an edit waits for one
step at most."""
from __future__ import annotations

import sys
from typing import Any, Callable, Dict, Optional

from .coloring import LEGEND, MODIFIERS
from .editor import ERROR, Editor
from .faults import FAULTS, failure_of
from .language import Language
from .requests import Requests
from .rpc import (
    INVALID_REQUEST,
    METHOD_NOT_FOUND,
    NOT_INITIALIZED,
    PARSE_ERROR,
    Ended,
    Failure,
    Inbox,
    Malformed,
    Message,
    Unreadable,
)
from .workspace import Workspace


def capabilities_of(language: Language) -> Dict[str, Any]:
    """What the server can do for the language, as the editor is told."""
    return {
        "textDocumentSync": {"openClose": True, "change": 2},
        "hoverProvider": True,
        "definitionProvider": True,
        "referencesProvider": True,
        "documentHighlightProvider": True,
        "renameProvider": {"prepareProvider": True},
        "documentSymbolProvider": True,
        "workspaceSymbolProvider": True,
        "foldingRangeProvider": True,
        "semanticTokensProvider": {"legend": {"tokenTypes": LEGEND, "tokenModifiers": MODIFIERS}, "full": True, "range": True},
        **({"completionProvider": {"triggerCharacters": list(language.triggers)}} if language.lookup else {}),
        **({"codeActionProvider": {"codeActionKinds": ["quickfix"]}} if language.fixes else {}),
    }


def can_watch(params: Any) -> bool:
    """Whether the editor says that it can be asked to tell of files that are written."""
    found = params
    for name in ("capabilities", "workspace", "didChangeWatchedFiles", "dynamicRegistration"):
        found = found.get(name) if isinstance(found, dict) else None
    return found is True


class LanguageServer:
    """Serves one editor."""

    def __init__(self, inbox: Inbox, editor: Editor, workspace: Workspace) -> None:
        self.inbox, self.editor, self.workspace = inbox, editor, workspace
        self.is_initialized = self.may_watch = False
        self.is_shut_down = False
        self.status: Optional[int] = None
        self.notifications: Dict[str, Callable[[Any], None]] = {
            "textDocument/didOpen": workspace.open,
            "textDocument/didChange": workspace.change,
            "textDocument/didClose": workspace.close,
            "workspace/didChangeWatchedFiles": workspace.watched,
            "initialized": self.watch,
            "$/cancelRequest": workspace.cancel,
            "exit": self.exit,
        }
        self.about_documents = Requests(workspace, editor)
        self.requests: Dict[str, Callable[[Any, Any], None]] = {"initialize": self.initialize, "shutdown": self.shut_down}

    def serve(self) -> int:
        """Serves until the editor ends; the exit status, 0 where it said so before. Raises EditorGone."""
        try:
            while self.status is None:
                self.go_on()
        finally:
            self.workspace.close_all()
        return self.status

    def go_on(self) -> None:
        """Takes a message, or where none is there goes on with what is under way."""
        try:
            message = self.inbox.next(not self.workspace.is_busy)
        except Ended:
            self.exit(None)
        except Malformed as fault:
            print(f"attrd_lsp: {fault}", file=sys.stderr)
            self.status = 1
        except Unreadable as fault:
            self.editor.fail(None, Failure(PARSE_ERROR, str(fault)))
        else:
            if message is None:
                self.guarded(None, self.workspace.step)
            else:
                self.take(message)

    def take(self, message: Message) -> None:
        """Takes a message. Answers of the editor aren't looked at: nothing is asked of it but to tell of files."""
        method = message.get("method")
        if isinstance(method, str):
            self.dispatch(method, message)
        elif "result" not in message and "error" not in message:
            self.editor.fail(message.get("id"), Failure(INVALID_REQUEST, "the message has no method"))

    def dispatch(self, method: str, message: Message) -> None:
        """Does what a request or notification wants."""
        params = message.get("params")
        if "id" not in message:
            if method in self.notifications and (self.is_initialized or method == "exit"):
                self.guarded(None, lambda: self.notifications[method](params))
            return
        number = message["id"]
        self.guarded(message, lambda: self.request(method, number, params))

    def request(self, method: str, number: Any, params: Any) -> None:
        """Has a request answered. Raises Failure where it can't be."""
        if self.is_shut_down:
            raise Failure(INVALID_REQUEST, "the server was shut down")
        if not self.is_initialized and method != "initialize":
            raise Failure(NOT_INITIALIZED, "the server isn't initialized")
        if method in self.requests:
            self.requests[method](number, params)
        elif method in self.about_documents.handlers:
            self.about_documents.handle(method, number, params)
        else:
            raise Failure(METHOD_NOT_FOUND, f"there is no {method} here")

    def guarded(self, request: Optional[Message], handle: Callable[[], None]) -> None:
        """Does this; a failure is the answer to the request, or is shown where there is none."""
        try:
            handle()
        except Failure as fault:
            self.tell(request, fault)
        except FAULTS as fault:
            failure = failure_of(fault)
            self.workspace.stop(failure)
            self.tell(request, failure)

    def tell(self, request: Optional[Message], failure: Failure) -> None:
        """Tells the editor of a failure."""
        if request is None:
            self.editor.show(ERROR, failure.text)
        else:
            self.editor.fail(request["id"], failure)

    def initialize(self, number: Any, params: Any) -> None:
        """The editor begins; it is told what this server can do."""
        self.is_initialized = True
        self.may_watch = can_watch(params)
        self.editor.answer(number, {"capabilities": capabilities_of(self.workspace.files.language), "serverInfo": {"name": "attrd_lsp"}})

    def watch(self, params: Any) -> None:
        """Has the editor tell of files that are written, where files of a folder are one tree and it can do so."""
        suffix = self.workspace.files.language.suffix
        if suffix is not None and self.may_watch:
            options = {"watchers": [{"globPattern": f"**/*{suffix}"}]}
            wanted = {"id": "files", "method": "workspace/didChangeWatchedFiles", "registerOptions": options}
            self.editor.ask("client/registerCapability", {"registrations": [wanted]})

    def shut_down(self, number: Any, params: Any) -> None:
        """The editor is about to end."""
        self.is_shut_down = True
        self.editor.answer(number, None)

    def exit(self, params: Any) -> None:
        """The editor ends."""
        self.status = 0 if self.is_shut_down else 1
