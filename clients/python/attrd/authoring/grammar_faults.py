"""Reads a grammar with all its faults, and mends it, so that aspects over it can be looked at."""
from __future__ import annotations

from typing import Dict, List, Optional, Set

from ..errors import GrammarFault
from ..grammar import Grammar, Shape
from ..grammar_reader import Declared, GrammarChecks, GrammarReader
from ..scanning import Scan, Word


class WholeGrammar:
    """A grammar as it is written. `faults` are all that it has, `declared` its classes, `grammar` what is left without what is wrong.

    `grammar` is None where no class could be read. `broken` are the names of classes that couldn't be read to their end, and of those
    that are named and not declared. With the form `jastadd` components may stand between slashes.
    """

    def __init__(self, text: str, forms: str = "") -> None:
        reader = _LenientReader(text, forms)
        reader.read()
        self.declared: List[Declared] = list(reader.declared)
        self.broken = reader.broken
        checks = _AllChecks(reader.scan, reader.declared)
        self.grammar: Optional[Grammar] = checks.mended() if reader.declared else None
        self.broken |= checks.missing
        self.faults = [*reader.scan.faults, *reader.faults, *checks.faults]
        if not self.faults and not reader.declared:
            self.faults.append(GrammarFault("G9", "no class", 1, 1))


class _LenientReader(GrammarReader):
    """Reads on behind a fault, with the next semicolon."""

    def __init__(self, text: str, forms: str) -> None:
        super().__init__(Scan(text, is_lenient=True), forms)
        self.faults: List[GrammarFault] = []
        self.broken: Set[str] = set()

    def read(self) -> None:
        while self.next.kind != "end":
            count, begun = len(self.declared), self.at
            try:
                self.declaration()
            except GrammarFault as fault:
                if self.next.kind != "bad":
                    self.faults.append(fault)
                self.broken.update(it.name.text for it in self.declared[count:])
                self.at = max(self.at, begun + 1) if self.next.kind != "end" else self.at
                while self.next.kind != "end" and not self.take("sign", ";"):
                    self.at += 1


class _AllChecks(GrammarChecks):
    """Finds the faults of all classes; each check mends what the next ones would tell again."""

    def __init__(self, scan: Scan, declared: List[Declared]) -> None:
        super().__init__(scan, declared)
        self.faults: List[GrammarFault] = []
        self.refused: Set[int] = set()
        self.missing: Set[str] = set()

    def refuse(self, code: str, name: str, word: Word) -> None:
        self.refused.add(word.at)
        self.faults.append(self.scan.fault(name, word.at, code))

    def mended(self) -> Grammar:
        """The grammar without what was found."""
        self.twice()
        self.declared = [it for it in self.declared if it.name.at not in self.refused]
        self.by_name: Dict[str, Declared] = {it.name.text: it for it in self.declared}
        self.unknown()
        self.circles()
        for it in self.declared:
            it.above = None if it.name.at in self.refused else it.above
        self.token_kinds()
        self.components()
        for it in self.declared:
            it.parts = [part for part in it.parts if part.name.at not in self.refused]
        self.limits()
        return Grammar([self.class_of(it) for it in self.declared])

    def unknown(self) -> None:
        """Each name of a class that isn't declared, at its own place, where the server tells the class that names it."""
        for it in self.declared:
            if it.above is not None and it.above.text not in self.by_name:
                self.refuse("G3", "unknown class", it.above)
                it.above = None
            missing = [part.kind for part in it.parts if part.shape is not Shape.TOKEN and part.kind.text not in self.by_name]
            for kind in missing:
                self.refuse("G3", "unknown class", kind)
            self.missing.update(kind.text for kind in missing)
            it.parts = [part for part in it.parts if part.kind not in missing]
