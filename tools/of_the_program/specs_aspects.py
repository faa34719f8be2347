"""What a specification declares: which attributes the nodes of a class have, and which equation gives each its value."""
from __future__ import annotations

from pathlib import Path
from typing import Dict, Iterator, List, NamedTuple, Optional, Sequence, Tuple, Union

from tools.of_the_program.specs_grammar import ANY, Grammar
from tools.of_the_program.specs_reading import Aspects, Constant, Declared, Equation, Expr, Parameter, Return, Said, Statement
from tools.of_the_program.specs_trees import Node

EVERY = "ASTNode"
# What is passed to an attribute of no node, by the kind of the parameter; a class has nothing.
WRITTEN: Dict[str, Union[int, bool, str]] = {"int": 0, "boolean": False, "String": ""}


class Given(NamedTuple):
    """An equation that was found for a node: at which one it stands, its parameters, its body, and the index it binds, by its name."""

    at: Node
    parameters: Tuple[Parameter, ...]
    body: Statement
    counted: Optional[str] = None
    below: Optional[Node] = None


class Specification:
    """A grammar with the declarations of all its aspect files."""

    def __init__(self, grammar: str, aspects: Sequence[str]) -> None:
        self.grammar = Grammar(grammar)
        self.declared: Dict[Tuple[str, str], Declared] = {}
        self.bodies: Dict[Tuple[str, str], Tuple[Tuple[Parameter, ...], Statement]] = {}
        self.places: Dict[Tuple[str, str, str], Equation] = {}
        for text in aspects:
            for it in Aspects(text).file():
                self.add(it)
        for it in list(self.declared.values()):
            if it.of == EVERY and it.sort == "inh":
                self.add_at_start(it)
        self.names = frozenset(name for _, name in self.declared)
        self.found: Dict[Tuple[str, str], Optional[Declared]] = {}

    def add(self, said: Said) -> None:
        """Takes in a declaration, an equation or a constant."""
        if isinstance(said, Constant):
            self.grammar.add_constant(said.of, said.part, said.cell)
            if said.attribute:
                self.add(said.attribute)
            return
        if isinstance(said, Declared):
            self.declared[said.of, said.name] = said
        elif said.component is not None:
            self.places[said.of, said.component, said.name] = said
        if said.body is not None and not (isinstance(said, Equation) and said.component):
            self.bodies[said.of, said.name] = (said.parameters, said.body)

    def add_at_start(self, said: Declared) -> None:
        """What is inherited by all classes is asked of no node in the start class, unless a class of its line declares it itself."""
        if not any((kind, said.name) in self.declared for kind in self.grammar.classes if self.is_at_start(kind)):
            passed = [Expr("literal", literal=WRITTEN.get(it.kind)) for it in said.parameters]
            body = Return(Expr("call", (Expr("literal"), *passed), said.name))
            self.add(Declared("syn", self.grammar.start, said.name, said.parameters, None, body))

    def line(self, kind: str) -> List[str]:
        """The class and those above it, with what is declared for all classes behind them."""
        return [*self.grammar.lines[kind], EVERY]

    def attribute(self, kind: str, name: str) -> Optional[Declared]:
        """What declares the attribute for the nodes of a class: the highest class that does."""
        if (kind, name) not in self.found:
            self.found[kind, name] = self.declaring(kind, name)
        return self.found[kind, name]

    def declaring(self, kind: str, name: str) -> Optional[Declared]:
        """The same, looked for."""
        line = self.grammar.lines[kind]
        every, own = self.declared.get((EVERY, name)), [self.declared[of, name] for of in line if (of, name) in self.declared]
        if every and every.sort == "inh" and self.is_at_start(kind):
            every = None
        return every if every and (line[-1], name) not in self.declared else own[-1] if own else None

    def is_at_start(self, kind: str) -> bool:
        """Whether the class is the start class, above it or below it."""
        start = self.grammar.start
        return self.grammar.is_below(kind, start) or self.grammar.is_below(start, kind)

    def equation(self, node: Node, name: str, is_inherited: bool) -> Given:
        """The equation that gives the attribute of the node: of its own class, or of the nearest node above that has one."""
        if not is_inherited:
            return Given(node, *next(self.bodies[of, name] for of in self.line(node.kind) if (of, name) in self.bodies))
        below = node
        while below.above is not None:
            above = below.above
            for of in self.grammar.lines[above.kind]:
                for part in (below.part, ANY):
                    found = self.places.get((of, part, name))
                    if found:
                        return Given(above, found.parameters, found.body, found.index, below)
            below = above
        raise AssertionError(f"no equation for {name}")

    def having(self, name: str, nodes: Sequence[Node]) -> List[Node]:
        """Those of the nodes that have the attribute."""
        has = {it.kind: self.attribute(it.kind, name) is not None for it in nodes}
        return [it for it in nodes if has[it.kind]]


class Folder(NamedTuple):
    """The texts of a specification's folder."""

    name: str
    grammar: str
    tree: str
    aspects: List[str]


def folders(names: Sequence[str]) -> Iterator[Folder]:
    """The specifications of folders, each with one grammar, a tree and aspect files."""
    for path in map(Path, names):
        grammar, = path.glob("*.ast")
        files = [grammar, path / "tree.txt", *sorted(path.glob("*.jrag"))]
        texts = [it.read_text(encoding="utf-8") for it in files]
        yield Folder(path.name, texts[0], texts[1].removesuffix("\n"), texts[2:])
