"""The files of the language, as far as they are open in the editor, and the fault for which one is refused."""
from __future__ import annotations

import os
import re
from pathlib import Path
from typing import Dict, List, Optional, Tuple, Union
from urllib.parse import unquote, urlsplit

import attrd
from attrd import authoring
from attrd.explaining import SENTENCES

from .desk import Desk, Program, TooLarge
from .editor import ERROR, Editor
from .language import Language
from .positions import Span, Text
from .protocol import diagnostic
from .reading import Reader
from .source import Source

WORD = re.compile(r"\w+|.")
# The ends of the names of grammars and aspects.
SUFFIXES = (".ast", ".jrag")
Given = Union[Path, attrd.Text]


class LanguageFiles:
    """Starts programs for the language, with the texts that stand in the editor, and shows there why a file is refused."""

    def __init__(self, program: Program, language: Language, editor: Editor) -> None:
        self.program, self.language, self.editor = program, language, editor
        self.texts: Dict[Path, Text] = {}
        self.uris: Dict[Path, str] = {}
        self.refused: Optional[Path] = None
        self.read: Dict[str, Reader] = {}

    def reader(self) -> Reader:
        """Reads texts of the language as its grammar is now, the same one while that is so; a grammar with a fault isn't known."""
        try:
            text = self.text(self.language.grammar)
            if text not in self.read:
                self.read = {text: Reader(self.language, attrd.Grammar.read(text, self.language.forms))}
            return self.read[text]
        except attrd.AttrdError:
            return Reader(self.language)

    def start(self, tree: attrd.Node) -> Desk:
        """A program over the tree. Raises StartFault, which is shown at its place, and AttrdError."""
        try:
            desk = self.opened(tree)
        except attrd.StartFault as fault:
            self.show(fault)
            raise
        self.clear()
        return desk

    def opened(self, tree: attrd.Node) -> Desk:
        """A program over the tree, with questions in turns where it has them.

        Raises StartFault, whose file is one of the language or the tree's, TooLarge and AttrdError."""
        known = attrd.known_options(self.program.file)
        nodes, options = attrd.nodes_of(known), self.program.options(known, tree.size)
        if tree.size > nodes:
            raise TooLarge(nodes)
        given: List[Given] = [attrd.Text(it.name, self.texts[it].text) if it in self.texts else it for it in self.language.files]
        checks, why = self.checks()
        counts = [] if checks is None else [checks.aspect]
        try:
            server = attrd.start(given[0], tree, *given[1:], *counts, program=self.program.file,
                                 options=[*options, *attrd.forms_options(self.language.forms)], nodes=nodes if "--nodes" in known else None)
        except attrd.StartFault as fault:
            fault.file = self.named(fault.file)
            raise
        texts = [authoring.Source(it.name, self.text(it)) for it in self.language.files]
        desk = Desk(server, texts, tree, "--slice" in options, self.language.forms)
        desk.checks, desk.why = checks, why
        return desk

    def checks(self) -> Tuple[Optional[attrd.Diagnostics], str]:
        """What tells problems, or None and why nothing does. Files with faults are the program's to refuse."""
        try:
            grammar = attrd.Grammar.read(self.text(self.language.grammar), self.language.forms)
        except attrd.GrammarFault:
            return None, "the grammar has a fault"
        names = [*self.language.errors, *self.language.warnings]
        try:
            return attrd.diagnostics(grammar, [self.text(it) for it in self.language.aspects], names), ""
        except attrd.AspectFault as fault:
            return None, f"no errors are told: {fault}"

    def text(self, file: Path) -> str:
        """The text of a file of the language. Raises AttrdError where it can't be read."""
        try:
            return self.texts[file].text if file in self.texts else file.read_bytes().decode("utf-8")
        except (OSError, UnicodeDecodeError) as fault:
            raise attrd.AttrdError(f"{file}: {fault}") from fault

    def named(self, told: Optional[str]) -> Optional[str]:
        """The file of this language that the program tells so, where it is one."""
        return next((str(it) for it in self.language.files if told is not None and Path(told).name == it.name), told)

    def file_of(self, uri: str) -> Optional[Path]:
        """The file of this language that the editor tells so; None where it is another one."""
        path = path_of(uri) if uri.endswith(SUFFIXES) else None
        return next((it for it in self.language.files if path is not None and it.resolve() == path.resolve()), None)

    def put(self, path: Path, uri: str, text: Text) -> None:
        """Takes the text of a file that is open in the editor."""
        self.texts[path], self.uris[path] = text, uri

    def drop(self, path: Path) -> None:
        """The file isn't open any more: what is on the disk counts."""
        self.texts.pop(path, None)

    def are_accepted(self) -> bool:
        """Whether a program takes the files; where it refuses one, that is shown there. Raises AttrdError where none starts."""
        try:
            self.start(Source(self.reader(), {}).tree).close()
        except attrd.StartFault as fault:
            return fault.file is None or all(str(it) != fault.file for it in self.language.files)
        return True

    def show(self, fault: attrd.StartFault) -> None:
        """Shows the fault in the file that is refused."""
        path = next((it for it in self.language.files if str(it) == fault.file), None)
        if path is None:
            return
        if self.refused not in (None, path):
            self.clear()
        self.refused = path
        text = self.texts.get(path) or Text.of(read_text(path))
        span = place_in(text.text, fault.line or 1, fault.column or 1)
        told = diagnostic(text, span, explained(fault), ERROR)
        self.editor.publish(self.uri(path), None, [told])

    def clear(self) -> None:
        """No file is refused."""
        path, self.refused = self.refused, None
        if path is not None:
            self.editor.publish(self.uri(path), None, [])

    def uri(self, path: Path) -> str:
        """What the editor calls the file."""
        return self.uris.get(path) or path.resolve().as_uri()


def path_of(uri: str) -> Optional[Path]:
    """The file that a `file:` URI names with its whole path; None for others, and for what the system takes for no name of a file."""
    try:
        parts = urlsplit(uri)
        path = Path(unquote(parts.path))
        name = os.fsencode(path)
    except ValueError:
        return None
    return path if parts.scheme == "file" and path.is_absolute() and b"\0" not in name else None


def explained(fault: attrd.StartFault) -> str:
    """The fault of a file as the program tells it, with a sentence and a hint."""
    return " ".join([f"{fault.code} {fault.name}.", *SENTENCES.get(fault.code or "", ())])


def read_text(path: Path) -> str:
    """The text of a file; one that can't be read has none."""
    try:
        return path.read_bytes().decode("utf-8", "replace")
    except OSError:
        return ""


def place_in(text: str, line: int, column: int) -> Span:
    """The word at a place that attrd tells: lines and columns from 1, columns in characters, lines ended by newlines alone."""
    start = 0
    for _ in range(line - 1):
        start = text.find("\n", start) + 1
    start = min(start + column - 1, len(text))
    word = WORD.match(text, start)
    return Span(start, word.end()) if word else Span(max(start - 1, 0), start)
