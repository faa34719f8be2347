"""Compares two trees: which nodes go together, and what stands in one of them alone. No edit is made here."""
from __future__ import annotations

from collections import Counter
from dataclasses import dataclass, field
from typing import Counter as CounterOf
from typing import Any, Dict, List, Optional, Sequence, Tuple, Union

from .grammar import Grammar, Shape
from .sequences import common_end, common_front, longest_common, pair_up
from .terms import Node


@dataclass
class Pair:
    """Two nodes of one class that go together and aren't equal, by the numbers of their components."""

    old: Node
    new: Node
    tokens: List[int] = field(default_factory=list)
    replaced: List[int] = field(default_factory=list)
    filled: List[int] = field(default_factory=list)
    emptied: List[int] = field(default_factory=list)
    inner: List[Tuple[int, "Pair"]] = field(default_factory=list)
    lists: List["ListChange"] = field(default_factory=list)


@dataclass
class Kept:
    """An element that stays, with its index in the old list; `pair` where something below it changes."""

    old: int
    pair: Optional[Pair] = None


Entry = Union[Kept, Node]


@dataclass
class ListChange:
    """A list that changes: for each new element behind the front what it is, a kept one or a tree that is new here; and what goes.

    Elements at the front and at the end that are equal in both lists aren't among the entries. `places` has for a new tree what
    goes between the same two that stay: an index among `gone`, by the index among the entries.
    """

    part: int
    front: int
    entries: List[Entry] = field(default_factory=list)
    gone: List[int] = field(default_factory=list)
    places: Dict[int, int] = field(default_factory=dict)


class Comparison:
    """The pairs of two trees, each before those below it. The first is that of the roots.

    Elements that stand elsewhere in the new tree are left alone: they go with nothing, so that they can be moved.
    """

    def __init__(self, grammar: Grammar, old: Node, new: Node, moving: bool) -> None:
        """Of two trees whose roots have one class, and that differ. Where nothing is moved, nothing is left alone."""
        self.grammar = grammar
        self.moved_out: CounterOf[Node] = Counter()
        self.moved_in: CounterOf[Node] = Counter()
        self.pairs = self._run(old, new)
        gone, come = self._alone() if moving else ([], [])
        if not set(gone).isdisjoint(come):
            both = Counter(gone) & Counter(come)
            self.moved_out, self.moved_in = Counter(both), Counter(both)
            self.pairs = self._run(old, new)

    def _run(self, old: Node, new: Node) -> List[Pair]:
        pairs = [Pair(old, new)]
        at = 0
        while at < len(pairs):
            pairs.extend(self._fill(pairs[at]))
            at += 1
        return pairs

    def _alone(self) -> Tuple[List[Node], List[Node]]:
        """Elements in the old lists that aren't in the new ones as they are, and the other way round."""
        gone: List[Node] = []
        come: List[Node] = []
        for pair in self.pairs:
            for change in pair.lists:
                olds: Any = pair.old.cells[change.part]
                gone += [olds[it] for it in change.gone]
                come += [it for it in change.entries if isinstance(it, Node)]
                below = [it.pair for it in change.entries if isinstance(it, Kept) and it.pair is not None]
                gone += [it.old for it in below]
                come += [it.new for it in below]
        return gone, come

    def _fill(self, pair: Pair) -> List[Pair]:
        """Finds how the cells of a pair differ; the pairs just below it."""
        below: List[Pair] = []
        parts = self.grammar.parts(pair.old.name)
        for at, (part, x, y) in enumerate(zip(parts, pair.old.cells, pair.new.cells)):
            if x is y:
                continue
            if part.shape is Shape.TOKEN:
                if x != y:
                    pair.tokens.append(at)
            elif part.shape is Shape.LIST:
                below.extend(self._list(pair, at, x, y))
            elif x != y:
                below.extend(self._single(pair, at, x, y))
        return below

    def _single(self, pair: Pair, at: int, old: Any, new: Any) -> List[Pair]:
        if old is None:
            pair.filled.append(at)
        elif new is None:
            pair.emptied.append(at)
        elif old.name != new.name:
            pair.replaced.append(at)
        else:
            pair.inner.append((at, Pair(old, new)))
            return [pair.inner[-1][1]]
        return []

    def _list(self, pair: Pair, at: int, olds: Any, news: Any) -> List[Pair]:
        front = common_front(olds, news)
        if front == len(olds) == len(news):
            return []
        end = common_end(olds, news, front)
        change = ListChange(at, front)
        self._align(change, olds[front:len(olds) - end], news[front:len(news) - end])
        pair.lists.append(change)
        return [it.pair for it in change.entries if isinstance(it, Kept) and it.pair is not None]

    def _align(self, change: ListChange, olds: Sequence[Node], news: Sequence[Node]) -> None:
        matches = [] if len(olds) == len(news) == 1 else longest_common(olds, news)
        i = j = 0
        for old, new in [*matches, (len(olds), len(news))]:
            self._gap(change, olds[i:old], news[j:new], change.front + i)
            if new < len(news):
                change.entries.append(Kept(change.front + old))
            i, j = old + 1, new + 1

    def _gap(self, change: ListChange, olds: Sequence[Node], news: Sequence[Node], begin: int) -> None:
        """Old and new elements between two that stay."""
        here = [at for at, it in enumerate(olds) if not _take(self.moved_out, it)]
        there = [at for at, it in enumerate(news) if not _take(self.moved_in, it)]
        matched = [(here[a], there[b]) for a, b in pair_up([olds[it] for it in here], [news[it] for it in there])]
        known, coming = set(here), set(there)
        i = j = 0
        for old, new in [*matched, (len(olds), len(news))]:
            leaving = iter([len(change.gone) + at - i for at in range(i, old) if at in known])
            change.gone.extend(range(begin + i, begin + old))
            for at in range(j, new):
                instead = next(leaving, None) if at in coming else None
                if instead is not None:
                    change.places[len(change.entries)] = instead
                change.entries.append(news[at])
            if new < len(news):
                change.entries.append(Kept(begin + old, Pair(olds[old], news[new])))
            i, j = old + 1, new + 1


def _take(left: "CounterOf[Node]", node: Node) -> bool:
    """Takes one of these, where one is left."""
    if not left or not left[node]:
        return False
    left[node] -= 1
    return True
