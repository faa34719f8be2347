"""Measures what edits cost on a server, for a tree and the questions that are asked after each edit."""
from __future__ import annotations

import time
from typing import Any, Callable, Iterator, List, Sequence, Tuple

from .costs import Costs
from .edits import Drop, Edit, Insert, Move, Put, SetNode, SetToken
from .grammar import Grammar, Shape
from .paths import Path
from .session import Session
from .terms import Node

PLACES, ROUNDS = 12, 3
LEAST = 1e-7


def measured(session: Session, grammar: Grammar, tree: Node, questions: Sequence[str], clock: Callable[[], float] = time.perf_counter) -> Costs:
    """The seconds that each kind of edit costs, and each node of a new term with what the questions after it need of it. Questions are
    commands such as `ask / errors()`.

    `clock` tells the time in seconds; the server's own processor time is a better one where the machine does other work, too.

    Of each kind some edits are sent that leave the tree as it is, one or two by two, and the questions after each. So the version
    rises, and marks are lost: this is for a server of its own, started over the same files. A kind for which the tree has no place
    keeps its cost from `Costs()`. Raises what `Session` raises.
    """
    return _Measure(session, grammar, tree, questions, clock).costs()


class _Measure:
    """Sends edits, and takes times."""

    def __init__(self, session: Session, grammar: Grammar, tree: Node, questions: Sequence[str], clock: Callable[[], float]) -> None:
        self.session, self.grammar, self.tree, self.questions, self.clock = session, grammar, tree, questions, clock
        self._send(questions)
        self.base = min(self._seconds([], questions) for _ in range(ROUNDS))

    def costs(self) -> Costs:
        """All costs. The values that all edits of one place make old are found once, so each edit counts by itself; a node of a new
        term counts with the values that are found for it."""
        nodes, default = list(self._nodes()), Costs()
        sets = [(SetNode(path, it), it.size) for path, it in self._sized(nodes)]
        fixed, _ = self._line([(self._time([edit]), size) for edit, size in sets], default)
        _, node = self._line([(self._time([edit], self.questions), size) for edit, size in sets], default)
        optionals = self._spread(list(self._optionals(nodes)))
        elements = self._spread(list(self._elements(nodes)))
        put = [self._time([Drop(path.child(part)), Put(path, part, it)]) / 2 for path, part, it in optionals]
        insert = [self._time([Insert(path, part, at, it), Drop(path.child(part, at))]) / 2 for path, part, at, it, _ in elements]
        move = [self._time([Move(path.child(part, at), path, part, to), Move(path.child(part, to), path, part, at)]) / 2
                for path, part, at, _, to in elements if to != at]
        token = [self._time([it]) for it in self._spread(list(self._tokens(nodes)))]
        return Costs(token=_middle(token, default.token), set=fixed, node=node, put=_middle(put, default.put),
                     drop=_middle(put + insert, default.drop), insert=_middle(insert, default.insert), move=_middle(move, default.move))

    def _nodes(self) -> Iterator[Tuple[Path, Node]]:
        left: List[Tuple[Path, Node]] = [(Path(), self.tree)]
        while left:
            path, node = left.pop()
            yield path, node
            left.extend((path.child(*step), it) for step, it in self.grammar.children(node))

    def _sized(self, nodes: List[Tuple[Path, Node]]) -> List[Tuple[Path, Node]]:
        """Plain children and what stands in optionals, of different sizes, each short enough for a line."""
        known = {it.size: (path, it) for path, it in nodes if path.steps and path.steps[-1].index is None and it.length < 40_000}
        return self._spread([known[size] for size in sorted(known)])

    def _tokens(self, nodes: List[Tuple[Path, Node]]) -> Iterator[Edit]:
        for path, node in nodes:
            for part, cell in zip(self.grammar.parts(node.name), node.cells):
                if part.shape is Shape.TOKEN and isinstance(cell, (str, int)):
                    yield SetToken(path, part.name, cell)

    def _optionals(self, nodes: List[Tuple[Path, Node]]) -> Iterator[Tuple[Path, str, Node]]:
        for path, node in nodes:
            for part, cell in zip(self.grammar.parts(node.name), node.cells):
                if part.shape is Shape.OPTIONAL and isinstance(cell, Node) and cell.length < 40_000:
                    yield path, part.name, cell

    def _elements(self, nodes: List[Tuple[Path, Node]]) -> Iterator[Tuple[Path, str, int, Node, int]]:
        """Elements of lists, each with another index of its list where there is one."""
        for path, node in nodes:
            for part, cell in zip(self.grammar.parts(node.name), node.cells):
                if isinstance(cell, tuple) and cell and cell[len(cell) // 2].length < 40_000:
                    yield path, part.name, len(cell) // 2, cell[len(cell) // 2], len(cell) - 1

    @staticmethod
    def _spread(found: List[Any]) -> List[Any]:
        """Some of them, from the first to the last."""
        step = max(1, len(found) // PLACES)
        return found[::step][:PLACES + 1]

    def _seconds(self, edits: Sequence[Edit], questions: Sequence[str]) -> float:
        """What these edits and questions take; the questions are asked afterwards in any case, so that all is kept again."""
        begun = self.clock()
        self._send([*(it.command() for it in edits), *questions])
        spent = self.clock() - begun
        self._send(self.questions)
        return spent

    def _send(self, lines: Sequence[str]) -> None:
        for line in self.session.send_all(lines):
            line.reply()

    def _time(self, edits: Sequence[Edit], questions: Sequence[str] = ()) -> float:
        """The least of some times, less what a question takes where all is kept."""
        spent = min(self._seconds(edits, questions) for _ in range(ROUNDS))
        return max(LEAST, spent - (self.base if questions else 0.0))

    @staticmethod
    def _line(points: List[Tuple[float, int]], default: Costs) -> Tuple[float, float]:
        """The fixed part and the part for each node, by least squares."""
        if len(points) < 2:
            return default.set, default.node
        count, x, y = len(points), sum(it[1] for it in points), sum(it[0] for it in points)
        xx, xy = sum(it[1] ** 2 for it in points), sum(it[0] * it[1] for it in points)
        slope = (count * xy - x * y) / (count * xx - x * x)
        fixed = (y - slope * x) / count
        return max(LEAST, fixed), max(LEAST, slope)


def _middle(times: List[float], default: float) -> float:
    """The middle one of the times."""
    return sorted(times)[len(times) // 2] if times else default
