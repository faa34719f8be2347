"""What the tests of the server for aspects share: the tutorial's files in a folder, and an editor that speaks the protocol."""
from __future__ import annotations

import os
import subprocess
import sys
import tempfile
from pathlib import Path
from typing import Any, Dict, List, Optional

from attrd_lsp.rpc import Inbox
from lsp_support import PYTHONPATH, Client, program, tutorial_file

FILES = ("small.ast", "kinds.jrag", "names.jrag", "types.jrag", "errors.jrag")


def write_small(folder: Path) -> Path:
    """Writes the tutorial's files into a folder; the folder."""
    for name in FILES:
        (folder / name).write_text(tutorial_file(name), "utf-8")
    return folder


class AspectsClient(Client):
    """An editor with files of one folder."""

    def __init__(self, folder: Path, attrd: Optional[str] = None, *options: str) -> None:
        command = [sys.executable, "-m", "attrd_aspects", "--program", attrd or program(), *options]
        self.errors = tempfile.TemporaryFile()
        self.process = subprocess.Popen(command, stdin=subprocess.PIPE, stdout=subprocess.PIPE, stderr=self.errors,
                                        env={**os.environ, "PYTHONPATH": os.pathsep.join(PYTHONPATH)})
        self.inbox = Inbox(self.process.stdout.fileno())
        self.count = 0
        self.notes: List[Dict[str, Any]] = []
        self.answers: Dict[Any, Dict[str, Any]] = {}
        self.folder = folder
        self.texts: Dict[str, str] = {}
        self.versions: Dict[str, int] = {}
        self.ask("initialize", {})
        self.notify("initialized", {})

    def leave(self) -> None:
        """Closes what is open, before the folder goes; what is told of it isn't looked at any more."""
        for file in self.texts:
            self.notify("textDocument/didClose", {"textDocument": {"uri": self.uri(file)}})
        self.ask("textDocument/hover", {})
        self.texts.clear()
        self.versions.clear()
        self.notes.clear()

    def uri(self, file: str) -> str:
        """What a file of the folder is called."""
        return (self.folder / file).as_uri()

    def text(self, file: str) -> str:
        """The text of a file, as it stands here."""
        return self.texts.get(file) or (self.folder / file).read_text("utf-8")

    def open(self, file: str) -> None:
        """Opens a file with the text that is on the disk."""
        self.texts[file], self.versions[file] = self.text(file), 0
        document = {"uri": self.uri(file), "languageId": "attrd", "version": 0, "text": self.texts[file]}
        self.notify("textDocument/didOpen", {"textDocument": document})

    def change(self, file: str, old: str, new: str) -> None:
        """Puts a text in the place of another one, which stands somewhere in the file."""
        start, end = self.place(file, old), self.place(file, old, 0, len(old))
        change = {"range": {"start": start["position"], "end": end["position"]}, "text": new}
        self.texts[file] = self.texts[file].replace(old, new, 1)
        self.versions[file] += 1
        document = {"uri": self.uri(file), "version": self.versions[file]}
        self.notify("textDocument/didChange", {"textDocument": document, "contentChanges": [change]})

    def place(self, file: str, text: str, number: int = 0, behind: int = 0) -> Dict[str, Any]:
        """The place of a text where it stands for the time of that number, and so many characters on."""
        whole, at = self.text(file), -1
        for _ in range(number + 1):
            at = whole.index(text, at + 1)
        front = whole[:at + behind]
        position = {"line": front.count("\n"), "character": len(front) - front.rfind("\n") - 1}
        return {"textDocument": {"uri": self.uri(file)}, "position": position}

    def stretches(self, locations: List[Dict[str, Any]]) -> List[str]:
        """Each of these as FILE:LINE TEXT, in the order of files and lines."""
        found = []
        for it in locations:
            file, start, end = it["uri"].rsplit("/", 1)[1], it["range"]["start"], it["range"]["end"]
            line = self.text(file).splitlines()[start["line"]]
            found.append((file, start["line"] + 1, start["character"], line[start["character"]:end["character"]]))
        return [f"{file}:{line} {text}" for file, line, _, text in sorted(found)]

    def diagnoses(self, file: str) -> List[str]:
        """The faults of an open file as it is now, each as LINE CODE: what is told of this version, behind the search for them."""
        while True:
            told = self.note("textDocument/publishDiagnostics")
            if told["uri"] == self.uri(file) and told.get("version") == self.versions[file]:
                return [f"{it['range']['start']['line'] + 1} {it['code']}" for it in told["diagnostics"]]

    def shown(self) -> str:
        """The next message that is shown."""
        return str(self.note("window/showMessage")["message"])
