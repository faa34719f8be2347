"""Few edits that make one tree another one."""
from __future__ import annotations

from dataclasses import dataclass, field
from typing import Any, Dict, Iterator, List, Optional, Sequence, Union

from .building import Builder, InPlaceOf, Into, OverLimit
from .comparing import Comparison, Kept, ListChange, Pair
from .costs import Costs
from .edits import Edit, SetToken
from .grammar import Grammar, Shape
from .lexical import LINE_BYTES, TREE_NODES
from .live import Live
from .moving import Fresh, Moves
from .paths import Path, Step
from .sequences import common_end, common_front
from .terms import Node

# A term of so many bytes fits into a line, whatever its path.
SET_BYTES = LINE_BYTES * 3 // 4


def difference(grammar: Grammar, old: Node, new: Node, costs: Optional[Costs] = None, nodes: int = TREE_NODES) -> List[Edit]:
    """Edits that make the old tree the new one, in their order.

    Both have to fit the grammar (`Grammar.check`), and no tree between has more than so many nodes. Equal elements stay, one that stands elsewhere in a list is moved, and a
    changed token is a token; an element of a list is never replaced as a whole where an edit below it serves. `costs` decide
    whether many edits below a child are one `set` of it. Terms that are too long for a line come in pieces. Raises LineFault
    where no line is short enough: names or paths of tens of thousands of bytes.
    """
    if old == new:
        return []
    taken = costs or Costs()
    token = one_token(grammar, old, new) if taken.token <= taken.of_set(1) else None
    if token is not None:
        return [token]
    if old.name == new.name:
        for moving in (True, False):
            try:
                return _Plan(Builder(grammar, old, nodes), Comparison(grammar, old, new, moving), taken, moving).edits()
            except OverLimit:
                continue
    builder = Builder(grammar, old, nodes)
    builder.build(new, InPlaceOf(builder.root))
    return builder.edits


def one_token(grammar: Grammar, old: Node, new: Node) -> Optional[SetToken]:
    """The edit of the token that alone differs in two trees, as where one types in a name; None where something else does."""
    steps: List[Step] = []
    while old.name == new.name and old.size == new.size:
        parts = [at for at, (x, y) in enumerate(zip(old.cells, new.cells)) if x is not y and x != y]
        if len(parts) != 1:
            return None
        part = grammar.parts(old.name)[parts[0]]
        one: Any = old.cells[parts[0]]
        other: Any = new.cells[parts[0]]
        if part.shape is Shape.TOKEN:
            return SetToken(Path(tuple(steps)), part.name, other)
        index = only_other(one, other) if part.shape is Shape.LIST else None
        if part.shape is Shape.LIST and index is None or one is None or other is None:
            return None
        steps.append(Step(part.name, index))
        old, new = (one, other) if index is None else (one[index], other[index])
    return None


def only_other(olds: Sequence[Node], news: Sequence[Node]) -> Optional[int]:
    """The index at which alone two lists differ; None where they differ elsewhere, too, or one is longer."""
    front = common_front(olds, news)
    is_alone = len(olds) == len(news) and front + common_end(olds, news, front) == len(olds) - 1
    return front if is_alone else None


Entry = Union[Live, Fresh]


@dataclass
class _List:
    """A list that changes: what stands in it behind the front, and what goes from it, by numbers of what is gone."""

    change: ListChange
    entries: List[Entry]
    gone: List[int]
    replaced: Dict[int, Live] = field(default_factory=dict)


@dataclass
class _Work:
    """A pair of nodes with its place: what is done there, what it costs, and whether one `set` takes the place of all that."""

    pair: Pair
    live: Live
    inner: List["_Work"] = field(default_factory=list)
    elements: List["_Work"] = field(default_factory=list)
    lists: List[_List] = field(default_factory=list)
    cost: float = 0.0
    is_moving: bool = False
    is_set: bool = False


class _Plan:
    """What is done at each pair of a comparison, and the edits for that."""

    def __init__(self, builder: Builder, comparison: Comparison, costs: Costs, moving: bool) -> None:
        self.builder, self.costs = builder, costs
        self.gone: List[Live] = []
        self.fresh: List[Fresh] = []
        self.work = self._opened(comparison)
        self.moves = Moves([it.node for it in self.gone] if moving else [], self.fresh, int(costs.move / costs.node) + 1)
        self.sources = [self.gone[it.gone].at(it.steps) for it in self.moves.sources]
        self._replace()
        for work in reversed(self.work):
            self._weigh(work)

    def _opened(self, comparison: Comparison) -> List[_Work]:
        """The work of all pairs, each before that below it; all nodes concerned are opened while nothing has moved."""
        found = [_Work(comparison.pairs[0], self.builder.root)]
        for work in found:
            for part, pair in work.pair.inner:
                work.inner.append(_Work(pair, work.live.child(part)))
            for change in work.pair.lists:
                work.lists.append(self._list(work, change))
            found.extend(work.inner + work.elements)
        return found

    def _list(self, work: _Work, change: ListChange) -> _List:
        entries: List[Entry] = []
        for it in change.entries:
            if isinstance(it, Kept):
                live = work.live.element(change.part, it.old)
                entries.append(live)
                if it.pair is not None:
                    work.elements.append(_Work(it.pair, live))
            else:
                self.fresh.append(Fresh(it))
                entries.append(self.fresh[-1])
        first = len(self.gone)
        self.gone.extend(work.live.element(change.part, it) for it in change.gone)
        return _List(change, entries, list(range(first, len(self.gone))))

    def _replace(self) -> None:
        """An element that goes and a new one between the same two that stay: one takes the place of the other."""
        for work in self.work:
            for it in work.lists:
                numbers = list(it.gone)
                for at, place in it.change.places.items():
                    entry, number = it.entries[at], numbers[place]
                    if isinstance(entry, Fresh) and not entry.is_moved and not self.moves.is_wanted(number):
                        it.replaced[at] = self.gone[number]
                replaced = {numbers[place] for at, place in it.change.places.items() if at in it.replaced}
                it.gone = [number for number in numbers if number not in replaced]

    def _weigh(self, work: _Work) -> None:
        """What the edits of a pair and below it cost; whether a `set` costs less."""
        costs, pair = self.costs, work.pair
        new = pair.new.cells
        cost = costs.token * len(pair.tokens) + costs.drop * len(pair.emptied)
        cost += sum(costs.of_set(_size(new[it])) for it in pair.replaced) + sum(costs.of_put(_size(new[it])) for it in pair.filled)
        for it in work.lists:
            fresh = [entry for entry in it.entries if isinstance(entry, Fresh)]
            cost += sum(costs.of_insert(entry.node.size) for entry in fresh) + costs.drop * len(it.gone)
            work.is_moving |= any(entry.is_moved for entry in fresh) or any(map(self.moves.is_wanted, it.gone))
        for below in work.inner:
            instead = self._cost_of_set(below.pair.new, below.cost)
            below.is_set = not below.is_moving and instead < below.cost
            cost += instead if below.is_set else below.cost
        below_all = work.inner + work.elements
        work.cost = cost + sum(it.cost for it in work.elements)
        work.is_moving |= any(it.is_moving for it in below_all)

    def _cost_of_set(self, node: Node, most: float) -> float:
        """What a `set` costs, with an edit for each piece that doesn't fit into its line; exact where that is below `most`."""
        cost = self.costs.of_set(node.size)
        if node.length > SET_BYTES and cost < most:
            cost += self.costs.insert * len(self.builder.cutter.cut(node, SET_BYTES)[1])
        return cost

    def edits(self) -> List[Edit]:
        """The edits: what goes and isn't wanted elsewhere, then all that changes from the root down, then what is left of what goes."""
        works = list(self._done())
        for work in works:
            for part in work.pair.emptied:
                self.builder.drop(work.live.child(part))
            self._drop(work, wanted=False)
        for work in works:
            self._emit(work)
        for work in works:
            self._drop(work, wanted=True)
        return self.builder.edits

    def _done(self) -> Iterator[_Work]:
        """The work that no `set` above it stands for, each before that below it."""
        left = [self.work[0]]
        while left:
            work = left.pop()
            yield work
            left.extend(reversed([it for it in work.inner + work.elements if not it.is_set]))

    def _drop(self, work: _Work, wanted: bool) -> None:
        for it in work.lists:
            for number in reversed(it.gone):
                if self.moves.is_wanted(number) == wanted and not self.moves.is_moved(number):
                    self.builder.drop(self.gone[number])

    def _emit(self, work: _Work) -> None:
        builder, pair, live = self.builder, work.pair, work.live
        new = pair.new.cells
        for part in pair.tokens:
            builder.token(live, part, _token(new[part]))
        for part in pair.replaced:
            builder.build(_node(new[part]), InPlaceOf(live.child(part)))
        for part in pair.filled:
            builder.build(_node(new[part]), Into(live, part))
        for below in work.inner:
            if below.is_set:
                builder.build(below.pair.new, InPlaceOf(below.live))
        for it in work.lists:
            self._emit_list(live, it)

    def _emit_list(self, live: Live, it: _List) -> None:
        """Goes through a list from its front; what isn't in its place yet stands behind."""
        at, part = it.change.front, it.change.part
        for number, entry in enumerate(it.entries):
            if isinstance(entry, Live):
                at = (entry.index() or 0) + 1
            elif number in it.replaced:
                at = (self.builder.build(entry.node, InPlaceOf(it.replaced[number])).index() or 0) + 1
            else:
                at = self.builder.fresh(entry, live, part, at, self.sources)


def _size(cell: object) -> int:
    return cell.size if isinstance(cell, Node) else 0


def _node(cell: object) -> Node:
    assert isinstance(cell, Node)
    return cell


def _token(cell: object) -> Union[str, int, bool]:
    assert isinstance(cell, (str, int))
    return cell
