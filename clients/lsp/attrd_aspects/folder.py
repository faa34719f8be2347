"""The grammar and the aspects that belong together: those of a folder, as they stand in the editor or on the disk."""
from __future__ import annotations

from dataclasses import dataclass, field
from pathlib import Path
from typing import Dict, Generator, List, Optional, Set

from attrd.authoring import Checked, FoldNote, Names, Source, Specification, checking, searches_of
from attrd_lsp.language_files import path_of as file_of
from attrd_lsp.positions import Text

SUFFIXES = (".ast", ".jrag")
# A file of this name says which files of its folder belong together: the grammar's name and then those of aspects, a line each.
LISTED = "attrd.files"


class NoGrammar(Exception):
    """It can't be told which grammar the aspects of a folder are for."""


def path_of(uri: str) -> Optional[Path]:
    """The file of a document; None of what is no grammar and no aspect file."""
    path = file_of(uri)
    return path if path is not None and path.suffix in SUFFIXES else None


def entries(folder: Path) -> List[Path]:
    """What is in a folder; nothing where it can't be read, or is gone."""
    try:
        return list(folder.iterdir())
    except OSError:
        return []


@dataclass
class Folder:
    """A folder. `forms` are those of aspects that are read, and left out else. `texts` are those of its files that are open in the editor,
    `versions` the editor's numbers for them; `told` are the files of which faults are shown."""

    path: Path
    forms: str = ""
    texts: Dict[Path, Text] = field(default_factory=dict)
    versions: Dict[Path, int] = field(default_factory=dict)
    told: Set[Path] = field(default_factory=set)
    check: Optional[Generator[None, None, Checked]] = None
    trouble: str = ""
    _names: Optional[Names] = None
    _folds: Optional[List[FoldNote]] = None

    def changed(self) -> None:
        """Its files have other texts now: what was found out of them goes."""
        self.check = self._names = self._folds = None

    def text(self, path: Path) -> Text:
        """The text of a file, as it stands in the editor or else on the disk; an empty one where it can't be read."""
        if path in self.texts:
            return self.texts[path]
        try:
            return Text.of(path.read_bytes().decode("utf-8", "replace"))
        except (OSError, ValueError):
            return Text.of("")

    def files(self) -> List[Path]:
        """Its files: the grammar, and the aspects. Raises NoGrammar where it isn't clear which these are."""
        try:
            listed = [it.strip() for it in (self.path / LISTED).read_text("utf-8").splitlines() if it.strip()]
        except (OSError, UnicodeDecodeError):
            listed = []
        if listed:
            return [self.path / it for it in listed]
        there = sorted({*self.texts, *(it for it in entries(self.path) if it.suffix in SUFFIXES)})
        grammars = [it for it in there if it.suffix == ".ast"]
        if len(grammars) != 1:
            raise NoGrammar(f"{self.path} has {len(grammars)} grammars: a file {LISTED} there may name one, and the aspects that belong to it, a line each")
        return grammars + [it for it in there if it.suffix == ".jrag"]

    def sources(self) -> List[Source]:
        """The grammar and the aspects with their texts; names are whole paths. Raises NoGrammar."""
        return [Source(str(it), self.text(it).text) for it in self.files()]

    def names(self) -> Names:
        """What all names mean. Raises NoGrammar."""
        if self._names is None:
            grammar, *aspects = self.sources()
            self._names = Names(Specification(grammar, aspects, self.forms))
        return self._names

    def folds(self) -> List[FoldNote]:
        """Which folds over lists are searches where names are looked up by key. Raises NoGrammar."""
        if self._folds is None:
            self._folds = searches_of(self.names().specification)
        return self._folds

    def begin_check(self, program: str) -> None:
        """Begins to look for faults. Raises NoGrammar."""
        grammar, *aspects = self.sources()
        self.check = checking(grammar, aspects, program, self.forms)
