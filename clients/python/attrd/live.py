"""The server's tree as the edits so far leave it: opened only where they go."""
from __future__ import annotations

from typing import Any, Dict, List, Optional, Sequence, Tuple

from .grammar import Grammar
from .paths import Path, Step
from .terms import Node


class Live:
    """A node of that tree, with its place. What stands below is a Node until it is opened."""

    __slots__ = ("node", "above", "part", "cells", "_hint")

    def __init__(self, node: Node, above: Optional[Live], part: int) -> None:
        self.above, self.part, self._hint = above, part, 0
        self.become(node)

    def become(self, node: Node) -> None:
        """Has another tree in this place."""
        self.node = node
        self.cells: List[Any] = [list(it) if isinstance(it, tuple) else it for it in node.cells]

    def child(self, part: int) -> Live:
        """The child in a component, or what stands in the optional."""
        below = self.cells[part]
        if isinstance(below, Node):
            below = self.cells[part] = Live(below, self, part)
        found: Live = below
        return found

    def element(self, part: int, index: int) -> Live:
        """An element of a list."""
        below = self.cells[part][index]
        if isinstance(below, Node):
            below = self.cells[part][index] = Live(below, self, part)
        found: Live = below
        found._hint = index
        return found

    def at(self, steps: Sequence[Tuple[int, Optional[int]]]) -> Live:
        """The node below this one, by components and indexes."""
        node = self
        for part, index in steps:
            node = node.child(part) if index is None else node.element(part, index)
        return node

    def index(self) -> Optional[int]:
        """The index of an element in its list; None of what stands in no list."""
        if self.above is None or not isinstance(self.above.cells[self.part], list):
            return None
        among, at = self.above.cells[self.part], self._hint
        for near in (at, at - 1, at + 1):
            if 0 <= near < len(among) and among[near] is self:
                self._hint = near
                return near
        self._hint = next(place for place, it in enumerate(among) if it is self)
        return self._hint

    def path(self, grammar: Grammar) -> Path:
        """Where the node is."""
        steps: List[Step] = []
        node = self
        while node.above is not None:
            parts = grammar.parts(node.above.node.name)
            steps.append(Step(parts[node.part].name, node.index()))
            node = node.above
        return Path(tuple(reversed(steps)))

    def size(self) -> int:
        """How many nodes it has now."""
        return sum(1 for _ in self._opened()) + sum(it.size for it in self._closed())

    def depth(self) -> int:
        """How deep it was when it was opened: no less than it is now, where nothing was put into it."""
        return self.node.depth

    def _opened(self) -> List[Live]:
        found: List[Live] = [self]
        for live in found:
            for cell in live.cells:
                below = cell if isinstance(cell, list) else [cell]
                found.extend(it for it in below if isinstance(it, Live))
        return found

    def _closed(self) -> List[Node]:
        found: List[Node] = []
        for live in self._opened():
            for cell in live.cells:
                below = cell if isinstance(cell, list) else [cell]
                found.extend(it for it in below if isinstance(it, Node))
        return found

    def frozen(self) -> Node:
        """The tree as it is now."""
        made: Dict[int, Node] = {}

        def settled(below: Any) -> Any:
            return made[id(below)] if isinstance(below, Live) else below
        for live in reversed(self._opened()):
            cells = [tuple(map(settled, it)) if isinstance(it, list) else settled(it) for it in live.cells]
            made[id(live)] = Node(live.node.name, *cells)
        return made[id(self)]

    def take_out(self) -> None:
        """Takes an element out of its list, or empties its optional."""
        assert self.above is not None
        index = self.index()
        if index is None:
            self.above.cells[self.part] = None
        else:
            del self.above.cells[self.part][index]

    def put_into(self, above: Live, part: int, index: Optional[int]) -> None:
        """Puts it into a list, or into an empty optional where there is no index."""
        if index is None:
            above.cells[part] = self
        else:
            above.cells[part].insert(index, self)
        self.above, self.part, self._hint = above, part, index or 0
