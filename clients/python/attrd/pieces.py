"""Terms that are too long for a line: a tree that fits, and what is to be added to it afterwards."""
from __future__ import annotations

from typing import Any, List, NamedTuple, Optional, Tuple

from .grammar import Grammar, Part, Shape
from .terms import Cell, Node

Steps = List[Tuple[int, Optional[int]]]


class Missing(NamedTuple):
    """What isn't in a tree yet: the steps to the node above it, the component, its index in a list, and the tree or the token."""

    steps: Tuple[Tuple[int, Optional[int]], ...]
    part: int
    index: Optional[int]  # type: ignore[assignment]
    what: Cell


class Cutter:
    """Cuts trees of a grammar."""

    def __init__(self, grammar: Grammar) -> None:
        self.grammar = grammar

    def cut(self, node: Node, room: int) -> Tuple[Node, List[Missing]]:
        """A tree of the same class whose term has at most so many bytes, where that can be, and what it lacks, in order."""
        missing: List[Missing] = []
        spine: List[Tuple[str, List[Any], int]] = []
        steps: Tuple[Tuple[int, Optional[int]], ...] = ()
        while True:
            cells, onward = self._level(node, room, steps, missing)
            if onward is None:
                break
            part, room = onward
            spine.append((node.name, cells, part))
            below: Any = node.cells[part]
            node, steps = below, steps + ((part, None),)
        made = Node(node.name, *cells)
        for name, cells, part in reversed(spine):
            cells[part] = made
            made = Node(name, *cells)
        return made, missing

    def _level(self, node: Node, room: int, steps: Any, missing: List[Missing]) -> Tuple[List[Any], Optional[Tuple[int, int]]]:
        """The cells of one node, and the component that is gone on with, with its room."""
        parts = self.grammar.parts(node.name)
        cells: List[Any] = [self._least(part, cell) for part, cell in zip(parts, node.cells)]
        left = room - Node(node.name, *cells).length
        onward: Optional[Tuple[int, int]] = None
        for at, (part, cell) in enumerate(zip(parts, node.cells)):
            least = _length(cells[at])
            if _length(cell) - least <= left:
                left -= _length(cell) - least
                cells[at] = cell
            elif isinstance(cell, tuple):
                taken = _fitting(cell, left)
                left -= sum(it.length + 1 for it in cell[:taken])
                cells[at] = cell[:taken]
                missing.extend(Missing(steps, at, index, cell[index]) for index in range(taken, len(cell)))
            elif isinstance(cell, Node) and onward is None and left + least >= self._least_length(cell):
                onward, left = (at, left + least), 0
            else:
                missing.append(Missing(steps, at, None, cell))
        return cells, onward

    def _least(self, part: Part, cell: Any) -> Any:
        if part.shape is Shape.CHILD:
            return self.grammar.smallest(part.kind)
        if part.shape is Shape.LIST:
            return ()
        if part.shape is Shape.OPTIONAL:
            return None
        return "" if isinstance(cell, str) else cell

    def _least_length(self, node: Node) -> int:
        parts = self.grammar.parts(node.name)
        return Node(node.name, *[self._least(part, cell) for part, cell in zip(parts, node.cells)]).length


def _fitting(elements: Tuple[Node, ...], room: int) -> int:
    """How many elements from the front fit."""
    for count, element in enumerate(elements):
        room -= element.length + 1
        if room < 0:
            return count
    return len(elements)


def _length(cell: Any) -> int:
    return Node("x", cell).length - 3
