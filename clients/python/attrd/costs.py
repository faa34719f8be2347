"""What edits cost, in seconds. `attrd.measuring` finds it for a server; a `Document` goes on from there by what its edits take."""
from __future__ import annotations

from dataclasses import dataclass, replace
from typing import Iterable

from .edits import Drop, Edit, Insert, Move, Put, SetNode, SetToken

STEP, FASTEST, SLOWEST = 0.3, 0.1, 10.0


@dataclass(frozen=True)
class Costs:
    """Seconds for an edit of each kind; and `node` for each node of a new term, with the values that are found for it.

    The values here were measured for the tutorial's checker on a tree of 1,000 nodes.
    """

    token: float = 540e-6
    set: float = 760e-6
    put: float = 560e-6
    drop: float = 540e-6
    insert: float = 600e-6
    move: float = 660e-6
    node: float = 14e-6

    def of_set(self, size: int) -> float:
        """The cost of a `set` with so many nodes."""
        return self.set + self.node * size

    def of_put(self, size: int) -> float:
        """The cost of a `put` with so many nodes."""
        return self.put + self.node * size

    def of_insert(self, size: int) -> float:
        """The cost of an `insert` with so many nodes."""
        return self.insert + self.node * size

    def after(self, edits: Iterable[Edit], seconds: float) -> Costs:
        """The costs, brought nearer to what these edits took in all. What a node costs isn't seen there, and stays."""
        kinds = {SetToken: self.token, SetNode: self.set, Put: self.put, Drop: self.drop, Insert: self.insert, Move: self.move}
        expected = sum(kinds[type(it)] for it in edits)
        if not expected:
            return self
        step = min(SLOWEST, max(FASTEST, seconds / expected)) ** STEP
        return replace(self, token=self.token * step, set=self.set * step, put=self.put * step, drop=self.drop * step,
                       insert=self.insert * step, move=self.move * step)
