"""Abstract grammars: `.ast` files, and whether a term fits one."""
from __future__ import annotations

import os
from dataclasses import dataclass, field
from enum import Enum
from pathlib import Path as FilePath
from typing import Any, Dict, Iterator, List, Optional, Tuple, Union

from .errors import AttrdError, TermFault, UnknownName
from .lexical import (GREATEST_INT, LEAST_INT, TOKEN_BYTES, TREE_DEPTH, TREE_NODES, has_surrogate, utf8_bytes)
from .paths import Path, Step
from .terms import Cell, Node, write_token


class Shape(Enum):
    """What a component is."""

    CHILD = "child"
    LIST = "list"
    OPTIONAL = "optional"
    TOKEN = "token"


@dataclass(frozen=True)
class Part:
    """A component: `kind` is a class, or the kind of a token: String, int or boolean. In one that `is_fixed` stands what a constant of an
    aspect has written down; between slashes a grammar has such components."""

    name: str
    shape: Shape
    kind: str
    is_fixed: bool = False

    def __str__(self) -> str:
        named = "" if self.name == self.kind else self.name + ":"
        form = {Shape.CHILD: "{}{}", Shape.LIST: "{}{}*", Shape.OPTIONAL: "[{}{}]", Shape.TOKEN: "<{}{}>"}[self.shape]
        return ("/{}/" if self.is_fixed else "{}").format(form.format(named, self.kind))


@dataclass(frozen=True)
class ClassOf:
    """A class of nodes. `own` are the components that it declares, those between slashes among them; `parts` are all that have a cell in
    terms, and `fixed` those between slashes, which have none, both with inherited ones first. `places` numbers `parts` by their names."""

    name: str
    is_abstract: bool
    superclass: Optional[str]
    own: Tuple[Part, ...]
    parts: Tuple[Part, ...]
    places: Dict[str, int] = field(compare=False, repr=False)
    fixed: Tuple[Part, ...] = ()

    def part(self, name: str) -> Optional[Part]:
        """The component of this name, where it has a cell in terms."""
        at = self.places.get(name)
        return None if at is None else self.parts[at]


_KINDS: Dict[str, type] = {"String": str, "int": int, "boolean": bool}


class Grammar:
    """The classes of a grammar, in the order of its text. The first one is that of the root."""

    def __init__(self, classes: List[ClassOf]) -> None:
        """Of classes that are right. `Grammar.read` checks a text."""
        self.classes: Dict[str, ClassOf] = {it.name: it for it in classes}
        self.start = classes[0].name
        self._above = {it.name: self._chain(it.name) for it in classes}
        self._spelled: Optional[Dict[str, Node]] = None

    @staticmethod
    def read(text: str, forms: str = "") -> Grammar:
        """The grammar that the text declares, where these forms are read: with `jastadd` components between slashes are. Raises GrammarFault,
        with the code and the place that the server tells."""
        from .grammar_reader import read_grammar
        return read_grammar(text, forms)

    @staticmethod
    def load(file: Union[str, "os.PathLike[str]"], forms: str = "") -> Grammar:
        """The grammar of a file, where these forms are read. Raises GrammarFault, or AttrdError where the file can't be read."""
        from .grammar_reader import read_grammar_bytes
        return read_grammar_bytes(read_file(file), forms)

    def _chain(self, name: str) -> Tuple[str, ...]:
        chain: List[str] = []
        while name and name not in chain:
            chain.append(name)
            name = self.classes[name].superclass or ""
        return tuple(chain)

    def __contains__(self, name: object) -> bool:
        return isinstance(name, str) and name in self.classes

    def __iter__(self) -> Iterator[ClassOf]:
        return iter(self.classes.values())

    def is_below(self, name: str, other: str) -> bool:
        """Whether the class is the other one or below it. A class that isn't declared is below none."""
        return name in self and other in self._above[name]

    def ancestors(self, name: str) -> Tuple[str, ...]:
        """The class, its superclass, and so on. Raises UnknownName."""
        return self._above[self.class_named(name).name]

    def concrete_below(self, name: str) -> Tuple[str, ...]:
        """The classes that are this one or below it, and aren't abstract, in the order of the text. Raises UnknownName."""
        above = self.class_named(name).name
        return tuple(it.name for it in self if not it.is_abstract and self.is_below(it.name, above))

    def class_named(self, name: str) -> ClassOf:
        """The class of this name. Raises UnknownName where it isn't declared."""
        known = self.classes.get(name) if isinstance(name, str) else None
        if known is None:
            raise UnknownName(f"there is no class {name}")
        return known

    def parts(self, name: str) -> Tuple[Part, ...]:
        """The components of a class that have a cell in terms, inherited ones first. Raises UnknownName where it isn't declared."""
        return self.class_named(name).parts

    def components(self, name: str) -> Tuple[Part, ...]:
        """All components of a class, those between slashes among them, inherited ones first. Raises UnknownName where it isn't declared."""
        known = self.class_named(name)
        return tuple(part for it in reversed(self._above[name]) for part in self.classes[it].own) if known.fixed else known.parts

    def make(self, name: str, *cells: Any, **named: Any) -> Node:
        """A checked node: cells in order, or by the names of the components.

        What isn't named is an empty list, an empty optional, or a missing cell. Raises TermFault and UnknownName.
        """
        known = self.class_named(name)
        given: List[Any] = list(cells)
        for part in known.parts[len(cells):]:
            if part.name in named:
                given.append(named.pop(part.name))
            elif part.shape in (Shape.LIST, Shape.OPTIONAL):
                given.append(() if part.shape is Shape.LIST else None)
            else:
                raise TermFault("/", f"{name} has no cell for {part}")
        if named:
            raise TermFault("/", self._not_taken(known, next(iter(named))))
        node = Node(name, *given)
        self.check(node, name)
        return node

    @staticmethod
    def _not_taken(known: ClassOf, part: str) -> str:
        """Why a cell of this name can't be given."""
        fixed = next((it for it in known.fixed if it.name == part), None)
        return f"{known.name} has no cell for {fixed}: a constant stands there" if fixed is not None \
            else f"{known.name} has no component {part}, or it is given twice"

    def check(self, node: Node, wanted: Optional[str] = None, nodes: int = TREE_NODES) -> None:
        """Whether the tree fits the grammar, under a class (the start class where none is named), and has no more nodes than that.

        Raises TermFault with the first place, from the root down, and the reason: what the server's `7 fit` doesn't tell; and
        UnknownName where there is no such class to stand under.
        """
        if not isinstance(node, Node):
            raise TermFault("/", f"a tree is a Node, and not {type(node).__name__}")
        if node.size > nodes:
            raise TermFault("/", f"the tree has {node.size} nodes, and {nodes} are the limit")
        if node.depth > TREE_DEPTH:
            raise TermFault("/", f"the tree is {node.depth} deep, and {TREE_DEPTH} is the limit")
        wanted = self.start if wanted is None else self.class_named(wanted).name
        _Check(self).tree(node, wanted)

    def cell(self, node: Node, part: str) -> Cell:
        """What stands in a component of a node that fits. Raises UnknownName where its class has no such component, or a constant stands
        there, which no term has."""
        known = self.class_named(node.name)
        at = known.places.get(part)
        if at is not None:
            return node.cells[at]
        is_fixed = any(it.name == part for it in known.fixed)
        raise UnknownName(f"a constant stands in {part} of {node.name}: ask the server" if is_fixed else f"{node.name} has no component {part}")

    def node_at(self, tree: Node, path: Path) -> Optional[Node]:
        """The node to which a path leads in a tree that fits, or None."""
        node: Optional[Node] = tree
        for step in path.steps:
            node = self._step(node, step) if node is not None else None
        return node

    def _step(self, node: Node, step: Step) -> Optional[Node]:
        at = self.classes[node.name].places.get(step.part)
        cell = None if at is None else node.cells[at]
        if isinstance(cell, tuple):
            return cell[step.index] if step.index is not None and step.index < len(cell) else None
        return cell if isinstance(cell, Node) and step.index is None else None

    def children(self, node: Node) -> Iterator[Tuple[Step, Node]]:
        """The nodes one step below a node that fits, each with the step to it."""
        for part, cell in zip(self.classes[node.name].parts, node.cells):
            if isinstance(cell, Node):
                yield Step(part.name), cell
            elif isinstance(cell, tuple):
                for index, element in enumerate(cell):
                    yield Step(part.name, index), element

    def smallest(self, wanted: str) -> Node:
        """A tree with the shortest term that fits a class. Raises TermFault where no finite tree does."""
        if self._spelled is None:
            self._spelled = self._shortest_terms()
        found = [self._spelled[it] for it in self.concrete_below(wanted) if it in self._spelled]
        if not found:
            raise TermFault("/", f"no finite tree is of class {wanted}")
        return min(found, key=lambda it: it.length)

    def _shortest_terms(self) -> Dict[str, Node]:
        known: Dict[str, Node] = {}
        changed = True
        while changed:
            changed = False
            for it in self:
                node = None if it.is_abstract else self._shortest(it, known)
                if node is not None and (it.name not in known or node.length < known[it.name].length):
                    known[it.name], changed = node, True
        return known

    def _shortest(self, of: ClassOf, known: Dict[str, Node]) -> Optional[Node]:
        cells: List[Any] = []
        for part in of.parts:
            if part.shape is Shape.CHILD:
                fitting = [known[it] for it in self.concrete_below(part.kind) if it in known]
                if not fitting:
                    return None
                cells.append(min(fitting, key=lambda it: it.length))
            else:
                cells.append({Shape.LIST: (), Shape.OPTIONAL: None}.get(part.shape, _EMPTY.get(part.kind)))
        return Node(of.name, *cells)


_EMPTY = {"String": "", "int": 0, "boolean": True}


class _Check:
    """Looks for the first place at which a tree doesn't fit."""

    def __init__(self, grammar: Grammar) -> None:
        self.grammar = grammar

    def tree(self, node: Node, wanted: str) -> None:
        left: List[Tuple[Any, str, Optional[Any]]] = [(node, wanted, None)]
        passed: List[Node] = []
        while left:
            top, kind, above = left.pop()
            self.node(top, kind, above)
            if top.fits(self.grammar):
                continue
            passed.append(top)
            parts = self.grammar.classes[top.name].parts
            if len(top.cells) != len(parts):
                self.miss(above, f"{top.name} has {len(parts)} cells ({' '.join(map(str, parts)) or 'none'}), and {len(top.cells)} are given")
            below = []
            for part, cell in zip(parts, top.cells):
                below.extend(self.cell(part, cell, above))
            left.extend(reversed(below))
        for it in passed:
            it.found_to_fit(self.grammar)

    def node(self, node: Any, wanted: str, above: Any) -> None:
        known = self.grammar.classes.get(node.name)
        if known is None:
            self.miss(above, f"there is no class {node.name}")
        elif known.is_abstract:
            self.miss(above, f"{node.name} is abstract: it has no nodes of its own")
        elif not self.grammar.is_below(node.name, wanted):
            self.miss(above, f"{node.name} is neither {wanted} nor below it")

    def cell(self, part: Part, cell: Any, above: Any) -> List[Tuple[Any, str, Any]]:
        """The nodes of a cell that are to be looked at, with the class wanted and the place."""
        if part.shape is Shape.TOKEN:
            reason = token_fault(part, cell)
            if reason:
                self.miss((above, Step(part.name)), reason)
            return []
        if part.shape is Shape.LIST:
            if not isinstance(cell, tuple):
                self.miss((above, Step(part.name)), f"{_told(cell)} stands where a list of {part.kind} is wanted")
            return [(it, part.kind, (above, Step(part.name, index))) for index, it in enumerate(cell)]
        if cell is None and part.shape is Shape.OPTIONAL:
            return []
        if not isinstance(cell, Node):
            self.miss((above, Step(part.name)), f"{_told(cell)} stands where a node of {part.kind} is wanted")
        return [(cell, part.kind, (above, Step(part.name)))]

    def miss(self, place: Any, reason: str) -> None:
        steps: List[Step] = []
        while place is not None:
            place, step = place
            steps.append(step)
        raise TermFault(str(Path(tuple(reversed(steps)))), reason)


def _told(cell: Any) -> str:
    if isinstance(cell, Node):
        return f"a node of {cell.name}"
    if isinstance(cell, tuple):
        return "a list"
    if cell is None:
        return "an empty optional"
    text = write_token(cell) if isinstance(cell, (str, int, bool)) else repr(cell)
    return text if len(text) <= 40 else text[:37] + "..."


def token_fault(part: Part, value: Any) -> Optional[str]:
    """Why the value can't be this token's, or None."""
    kind: object = type(value)
    if kind is not _KINDS[part.kind]:
        return f"{_told(value)} stands where a token of kind {part.kind} is wanted"
    if part.kind == "int" and not LEAST_INT <= value <= GREATEST_INT:
        return f"{value} is outside of 32 bits"
    if part.kind == "String" and has_surrogate(value):
        return "the text has half of a surrogate pair, which UTF-8 can't spell"
    if part.kind == "String" and utf8_bytes(value) > TOKEN_BYTES:
        return f"the text has {utf8_bytes(value)} bytes, and {TOKEN_BYTES} are the limit"
    return None


def read_file(file: Union[str, "os.PathLike[str]"]) -> bytes:
    """The bytes of a file. Raises AttrdError where it can't be read."""
    try:
        return FilePath(file).read_bytes()
    except (OSError, ValueError, TypeError) as fault:
        raise AttrdError(f"{file}: {getattr(fault, 'strerror', None) or fault}") from None
