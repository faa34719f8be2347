"""Files checked without an editor: what is wrong with them, on standard output."""
from __future__ import annotations

import sys
from pathlib import Path
from typing import Dict, List, Optional, Sequence

from .desk import Program
from .editor import ERROR, WARNING, Editor
from .folders import text_of
from .language import Language
from .language_files import LanguageFiles, path_of
from .protocol import Json
from .workspace import Workspace

SEVERITIES = {ERROR: "error", WARNING: "warning"}


class Console(Editor):
    """Keeps what is told of files. Messages aren't written: what they say is told at the top of a file, too."""

    def __init__(self) -> None:
        super().__init__(sys.stdout.buffer)
        self.told: Dict[str, List[Json]] = {}

    def publish(self, uri: str, version: Optional[int], diagnostics: Sequence[Json]) -> None:
        """Keeps these diagnostics of a file, in the place of all others."""
        self.told[uri] = list(diagnostics)

    def show(self, kind: int, text: str) -> None:
        """Passes a message over."""


def check_files(language: Language, program: Program, files: Sequence[Path]) -> int:
    """Checks the files as an editor with all of them open; the exit status: 1 where there is an error, 2 where one can't be read."""
    console = Console()
    workspace = Workspace(LanguageFiles(program, language, console), console)
    names = {file.resolve().as_uri(): str(file) for file in files}
    for file in files:
        text = text_of(file)
        if text is None:
            print(f"{file}: it can't be read", file=sys.stderr)
            return 2
        document = {"uri": file.resolve().as_uri(), "version": 0, "text": text}
        workspace.open({"textDocument": document})
    try:
        while workspace.is_busy:
            workspace.step()
    finally:
        workspace.close_all()
    lines = [line for uri, told in console.told.items() for line in lines_of(names.get(uri) or str(path_of(uri)), told)]
    print("\n".join(lines), end="\n" if lines else "")
    return int(any(it["severity"] == ERROR for told in console.told.values() for it in told))


def lines_of(name: str, told: List[Json]) -> List[str]:
    """What is told of a file, each as `FILE:LINE:COLUMN: error: message`; lines and columns count from 1."""
    places = [(it["range"]["start"], SEVERITIES.get(it["severity"], "note"), it["message"]) for it in told]
    return [f"{name}:{start['line'] + 1}:{start['character'] + 1}: {kind}: {message}" for start, kind, message in places]
