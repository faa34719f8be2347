"""Constants in the nodes in which they stand: a grammar by which paths lead to them, though no term has them."""
from __future__ import annotations

from typing import Iterator, List, Optional, Tuple

from ..grammar import Grammar, Part
from ..lexical import read_quoted
from ..paths import Step
from ..terms import Cell, Node
from .aspect_tree import Expression, Form
from .specification import Specification, component_of


class Planted(Grammar):
    """The grammar of a specification that the program takes. Its `components`, `cell`, `node_at` and `children` have constants, too."""

    def __init__(self, specification: Specification) -> None:
        super().__init__(list(specification.grammar))
        self._constants = {it.name: dict(_constants(specification, it.name)) for it in self}

    def components(self, name: str) -> Tuple[Part, ...]:
        """All components of a class, those in which constants stand among them. Raises UnknownName where it isn't declared."""
        own = super().components(name)
        added = (part for part, _ in self._constants[name].values() if part.name not in {it.name for it in own})
        return (*own, *added)

    def cell(self, node: Node, part: str) -> Cell:
        """What stands in a component of a node that fits. Raises UnknownName where its class has no such component."""
        found = self._constants.get(node.name, {}).get(part)
        return super().cell(node, part) if found is None else found[1]

    def children(self, node: Node) -> Iterator[Tuple[Step, Node]]:
        """The nodes one step below a node that fits, each with the step to it; those of terms first."""
        yield from super().children(node)
        for part, cell in self._constants[node.name].values():
            yield from steps_to(part.name, cell)

    def _step(self, node: Node, step: Step) -> Optional[Node]:
        found = self._constants[node.name].get(step.part)
        below = super()._step(node, step) if found is None else None
        return below if found is None else next((it for other, it in steps_to(step.part, found[1]) if other == step), None)


def planted(specification: Specification) -> Grammar:
    """The grammar of a specification with its constants, where it has some."""
    has_constants = any(it.declaration.constant is not None for it in specification.declarations)
    return Planted(specification) if has_constants else specification.grammar


def steps_to(part: str, cell: Cell) -> Iterator[Tuple[Step, Node]]:
    """The nodes that stand in a component, each with the step to it."""
    if isinstance(cell, Node):
        yield Step(part), cell
    elif isinstance(cell, tuple):
        for index, element in enumerate(cell):
            yield Step(part, index), element


def _constants(specification: Specification, of: str) -> Iterator[Tuple[str, Tuple[Part, Cell]]]:
    """The components of a class in which constants stand, by their names."""
    filled = [specification.constant_in(specification.owner(of, it.name), it.name) for it in specification.grammar.class_named(of).fixed]
    for placed in [*filled, *specification.constants(of)]:
        if placed is not None and placed.declaration.body is not None:
            part = component_of(placed)
            yield part.name, (part, cell_of(placed.declaration.body))


def cell_of(it: Expression) -> Cell:
    """What a constant, or an argument in it, has written down."""
    if it.form is Form.NEW:
        cells: List[Cell] = [cell_of(part) for part in it.parts]
        if it.word.text == "List":
            return tuple(cell for cell in cells if isinstance(cell, Node))
        return (cells[0] if cells else None) if it.word.text == "Opt" else Node(it.word.text, *cells)
    if it.form is Form.TEXT:
        return read_quoted(it.word.text)[0]
    if it.form is Form.UNARY:
        return -int(it.parts[0].word.text)
    return int(it.word.text) if it.form is Form.NUMBER else it.word.text == "true"
