"""Components between slashes of a grammar that no constant of the aspects fills, and constants that might."""
from __future__ import annotations

from typing import List, NamedTuple, Optional, Set

from ..errors import TermFault
from ..grammar import Grammar, Part, Shape
from ..scanning import Word
from ..terms import Node, write_token
from .aspect_tree import Form
from .specification import Placed, Specification


class Unfilled(NamedTuple):
    """A component between slashes that no constant fills: the class that declares it, where its name stands in the grammar, and the
    declaration that would fill it if it were a constant, where there is one."""

    of: str
    part: Part
    name: Word
    meant: Optional[Placed]

    @property
    def follows(self) -> bool:
        """Whether something is told of the declaration already: it isn't read, or it is a constant that isn't a list."""
        return self.meant is not None and (bool(self.meant.declaration.pieces) or self.meant.declaration.constant is not None)


def unfilled(specification: Specification) -> List[Unfilled]:
    """All of them, in the order of the grammar."""
    meant = [(placed, specification.meant(placed.declaration)) for placed in specification.declarations] if _any_fixed(specification) else []
    found: List[Unfilled] = []
    for it in specification.whole.declared:
        of = it.name.text
        own = {part.name: part for part in specification.grammar.classes[of].own} if of in specification.grammar else {}
        for written in it.parts:
            part = own.get(written.name.text)
            if part is not None and written.is_fixed and specification.constant_in(of, part.name) is None:
                found.append(Unfilled(of, part, written.name, next((placed for placed, other in meant if other is part), None)))
    return found


def _any_fixed(specification: Specification) -> bool:
    return any(it.fixed for it in specification.grammar)


def filler(specification: Specification, of: str, part: Part) -> Optional[str]:
    """A constant that fills a component between slashes; None where none is found: there is no finite tree, or it would stand in itself."""
    if part.shape is Shape.LIST:
        return f"syn nta List<{part.kind}> {of}.get{part.name}List() = new List<{part.kind}>();"
    tree = _smallest(specification.grammar, part.kind)
    if tree is None or any(specification.grammar.is_below(name, of) for name in _reached(specification, tree)):
        return None
    return f"syn nta {part.kind} {of}.get{part.name}() = {written(tree)};"


def _smallest(grammar: Grammar, kind: str) -> Optional[Node]:
    try:
        return grammar.smallest(kind)
    except TermFault:
        return None


def _reached(specification: Specification, tree: Node) -> Set[str]:
    """The classes in a tree, and in the constants that stand in it."""
    grammar = specification.grammar
    left = _classes(grammar, tree)
    found: Set[str] = set()
    while left:
        name = left.pop()
        if name in found or name not in grammar:
            continue
        found.add(name)
        for placed in specification.constants(name):
            left += _made(placed)
        for part in grammar.class_named(name).fixed:
            constant = specification.constant_in(specification.owner(name, part.name), part.name)
            smallest = _smallest(grammar, part.kind) if constant is None and part.shape is Shape.CHILD else None
            left += _made(constant) if constant is not None else [] if smallest is None else _classes(grammar, smallest)
    return found


def _made(placed: Placed) -> List[str]:
    return [made.word.text for made in placed.declaration.made if made.form is Form.NEW]


def _classes(grammar: Grammar, tree: Node) -> List[str]:
    return [tree.name, *(name for _, below in grammar.children(tree) for name in _classes(grammar, below))]


def written(tree: Node) -> str:
    """A tree as a constant writes it down."""
    return f"new {tree.name}({', '.join(map(_cell, tree.cells))})"


def _cell(cell: object) -> str:
    if isinstance(cell, Node):
        return written(cell)
    if isinstance(cell, tuple):
        return "".join(["new List()", *(f".add({written(it)})" for it in cell)])
    return "new Opt()" if cell is None else write_token(cell)  # type: ignore[arg-type]
