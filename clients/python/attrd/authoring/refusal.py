"""Asks the program whether it takes a grammar and aspects, and where it refuses them."""
from __future__ import annotations

from pathlib import Path as FilePath
from typing import AbstractSet, List, NamedTuple, Optional, Sequence, Set, Tuple

from ..errors import StartFault
from ..grammar import Grammar, Part
from ..grammar_reader import GrammarReader, part_of
from ..programs import forms_options
from ..scanning import Scan
from ..server import Text, start
from ..terms import Node


# The class above all others, where aspects speak of one, and that of a node above the root.
ANY_NODE, TOP = "AnyNode__", "Top__"
# So many classes a grammar may have.
MOST_CLASSES = 1_000


# The number of the grammar's file.
OF_GRAMMAR = -1


class Refusal(NamedTuple):
    """A fault that the program tells: the number of the aspect file, the code, its name, and the offset in the text that was given. Of a
    component of the grammar that no constant fills the number is OF_GRAMMAR."""

    file: int
    code: str
    name: str
    offset: int


class Judge:
    """Has the program judge texts of aspects over one grammar, where these forms are read. `runs` counts how often it was started."""

    def __init__(self, grammar: Grammar, program: str, forms: str = "", has_top: bool = True) -> None:
        """Raises TermFault where no finite tree fits the grammar: then nothing can be judged. Without `has_top` no class stands above that
        of the root, since it would have what is declared for ASTNode."""
        tree = grammar.smallest(grammar.start)
        self.has_top = has_top and len(list(grammar)) < MOST_CLASSES
        self.tree = Node(TOP, tree) if self.has_top else tree
        self.classes, self.program, self.runs = grammar, program, 0
        self.dropped: Set[Tuple[str, str]] = set()
        self.options = forms_options(forms)

    @property
    def grammar(self) -> str:
        """The text of the grammar as it is judged."""
        return f"{TOP} ::= {self.classes.start};\n" * self.has_top + written(self.classes, self.dropped)

    def component_at(self, offset: int) -> Optional[Tuple[str, Part]]:
        """The class and the component whose name stands at an offset of the grammar as it is judged."""
        for it in GrammarReader(Scan(self.grammar), "jastadd").file():
            for written_so in it.parts:
                if written_so.name.at == offset:
                    return it.name.text, part_of(written_so)
        return None

    def drop(self, of: str, part: str) -> None:
        """Takes a component between slashes out of the grammar, of which no constant is found that fills it."""
        self.dropped.add((of, part))

    def refusal(self, texts: Sequence[str]) -> Optional[Refusal]:
        """The first fault of these aspects, or None where they are taken. Raises AttrdError where the program can't be started."""
        self.runs += 1
        names = [f"{number}.jrag" for number in range(len(texts))]
        try:
            server = start(Text("grammar.ast", self.grammar), self.tree, *map(Text, names, texts), program=self.program,
                           options=self.options)
        except StartFault as fault:
            name = "" if fault.file is None else FilePath(fault.file).name
            if fault.code == "J7" and name == "grammar.ast" and fault.line is not None and fault.column is not None:
                return Refusal(OF_GRAMMAR, fault.code, fault.name or "", offset_of(self.grammar, fault.line, fault.column))
            if name not in names or fault.code is None or fault.line is None or fault.column is None:
                raise
            number = names.index(name)
            return Refusal(number, fault.code, fault.name or "", offset_of(texts[number], fault.line, fault.column))
        server.close()
        return None


def offset_of(text: str, line: int, column: int) -> int:
    """The offset of a place that the program tells: lines and columns count from 1, lines end at newlines alone."""
    start = 0
    for _ in range(line - 1):
        start = text.find("\n", start) + 1
    return min(start + column - 1, len(text))


def written(grammar: Grammar, dropped: AbstractSet[Tuple[str, str]] = frozenset()) -> str:
    """The grammar as a text, without these components of classes."""
    lines: List[str] = []
    for it in grammar:
        above = f" : {_spelled(it.superclass)}" if it.superclass else ""
        lines.append(f"{'abstract ' if it.is_abstract else ''}{_spelled(it.name)}{above} ::= {' '.join(str(part) for part in it.own if (it.name, part.name) not in dropped)};")
    return "\n".join(lines) + "\n"


def _spelled(name: str) -> str:
    """The name of a class: one that can't be declared has another one there."""
    return ANY_NODE if name == "ASTNode" else name
