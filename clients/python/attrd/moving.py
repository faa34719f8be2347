"""Which trees that are new in a list stand elsewhere in the old tree, whole or in part: these are moved."""
from __future__ import annotations

from collections import deque
from dataclasses import dataclass, field
from typing import Deque, Dict, Iterator, List, NamedTuple, Optional, Tuple

from .live import Live
from .terms import Node

SEARCHED_NODES = 5_000

Steps = Tuple[Tuple[int, Optional[int]], ...]
Places = Dict[Node, Deque[Tuple[int, Steps]]]


class Source(NamedTuple):
    """A node of the old tree that is moved: an element that is gone, or an element of a list below one. `number` counts sources."""

    number: int
    gone: int
    steps: Steps


class Hole(NamedTuple):
    """An element of a new tree that is moved there: the steps to the node above it, the component, its index, and what is moved."""

    steps: Steps
    part: int
    index: int  # type: ignore[assignment]
    source: Source


@dataclass
class Fresh:
    """A tree that is new in a list: moved there as it is, or inserted, without the elements that are moved into it."""

    node: Node
    source: Optional[Source] = None
    holes: List[Hole] = field(default_factory=list)

    @property
    def is_moved(self) -> bool:
        """Whether anything is moved for it."""
        return self.source is not None or bool(self.holes)

    def shell(self) -> Node:
        """The tree without the elements that are moved into it."""
        if not self.holes:
            return self.node
        live = Live(self.node, None, 0)
        for element in [live.at(it.steps + ((it.part, it.index),)) for it in self.holes]:
            element.take_out()
        return live.frozen()


class Moves:
    """Finds what is moved. `sources` are the nodes that are, by their numbers."""

    def __init__(self, gone: List[Node], fresh: List[Fresh], worth: int) -> None:
        """Of what is gone, and of the trees that are new; below a tree that goes, nothing smaller than `worth` is moved into another."""
        self.sources: List[Source] = []
        self._gone, self._worth = gone, worth
        self._wanted: Dict[int, List[Steps]] = {}
        self._whole: Places = {}
        self._within: Places = {}
        for at, node in enumerate(gone):
            self._whole.setdefault(node, deque()).append((at, ()))
        for it in fresh:
            it.source = self._take(self._whole, it.node)
        rest = [it for it in fresh if it.source is None]
        if rest and gone:
            self._find_below(rest)

    def is_wanted(self, gone: int) -> bool:
        """Whether what goes is moved, or something below it."""
        return gone in self._wanted

    def is_moved(self, gone: int) -> bool:
        """Whether what goes is moved as a whole."""
        return () in self._wanted.get(gone, [])

    def _find_below(self, fresh: List[Fresh]) -> None:
        left = SEARCHED_NODES
        for at, node in enumerate(self._gone):
            left -= node.size
            if left < 0:
                break
            for steps, element in elements_below(node):
                self._within.setdefault(element, deque()).append((at, steps))
        for it in fresh:
            it.source = self._take(self._within, it.node)
            if it.source is None and it.node.size <= SEARCHED_NODES:
                it.holes = self._holes(it.node)

    def _take(self, known: Places, node: Node) -> Optional[Source]:
        found = known.get(node)
        while found:
            gone, steps = found.popleft()
            taken = self._wanted.get(gone, [])
            if not any(_overlap(steps, it) for it in taken):
                self._wanted[gone] = [*taken, steps]
                self.sources.append(Source(len(self.sources), gone, steps))
                return self.sources[-1]
        return None

    def _holes(self, node: Node) -> List[Hole]:
        """Elements below a new tree that can be moved there: none of them below another one."""
        holes: List[Hole] = []
        passed: List[Steps] = []
        for steps, element in elements_below(node):
            if any(steps[:len(it)] == it for it in passed):
                continue
            source = self._take(self._whole, element)
            if source is None and element.size >= self._worth:
                source = self._take(self._within, element)
            if source is not None:
                part, index = steps[-1]
                assert index is not None
                passed.append(steps)
                holes.append(Hole(steps[:-1], part, index, source))
        return holes


def _overlap(one: Steps, other: Steps) -> bool:
    return one[:len(other)] == other or other[:len(one)] == one


def elements_below(node: Node) -> Iterator[Tuple[Steps, Node]]:
    """The elements of lists below a node, each before those below it, with the steps to it."""
    left: List[Tuple[Steps, Node]] = [((), node)]
    while left:
        steps, top = left.pop()
        if steps and steps[-1][1] is not None:
            yield steps, top
        below: List[Tuple[Steps, Node]] = []
        for part, cell in enumerate(top.cells):
            if isinstance(cell, Node):
                below.append((steps + ((part, None),), cell))
            elif isinstance(cell, tuple):
                below.extend((steps + ((part, index),), it) for index, it in enumerate(cell))
        left.extend(reversed(below))
