"""Writes edits: each with the paths that are right when it is its turn, and with terms that fit into a line."""
from __future__ import annotations

from typing import List, NamedTuple, Optional, Union

from .edits import Drop, Edit, Insert, Move, Put, SetNode, SetToken
from .errors import LineFault
from .grammar import Grammar
from .lexical import LINE_BYTES, TREE_DEPTH, TREE_NODES, utf8_bytes
from .live import Live
from .moving import Fresh
from .pieces import Cutter, Missing
from .terms import Node, Token

FRONT_BYTES = len("999 at 18446744073709551615 ")


class OverLimit(Exception):
    """A tree on the way would have too many nodes, or be too deep."""


class InPlaceOf(NamedTuple):
    """The place of a node that is replaced."""

    node: Live


class Into(NamedTuple):
    """An empty optional; or, where there is an index, that place in a list."""

    above: Live
    part: int
    index: Optional[int] = None  # type: ignore[assignment]


Slot = Union[InPlaceOf, Into]


class Builder:
    """The edits so far, and the tree that they leave, which never has more than so many nodes."""

    def __init__(self, grammar: Grammar, tree: Node, most: int = TREE_NODES) -> None:
        self.grammar, self.most = grammar, most
        self.edits: List[Edit] = []
        self.root = Live(tree, None, 0)
        self._nodes = tree.size
        self.cutter = Cutter(grammar)

    def token(self, above: Live, part: int, value: Token) -> None:
        """Another value for a token."""
        above.cells[part] = value
        self._add(SetToken(above.path(self.grammar), self._name(above, part), value), 0)

    def drop(self, node: Live) -> None:
        """An element, or what stands in an optional, goes."""
        self._add(Drop(node.path(self.grammar)), -node.size())
        node.take_out()

    def move(self, node: Live, above: Live, part: int, index: int) -> int:
        """An element goes to a place in a list, counted as the list is now; the index behind it then."""
        origin = node.index()
        if node.above is above and node.part == part and origin is not None and origin < index:
            index -= 1
        if node.above is above and node.part == part and origin == index:
            return index + 1
        self._look_at_depth(above, node.depth())
        self._add(Move(node.path(self.grammar), above.path(self.grammar), self._name(above, part), index), 0)
        node.take_out()
        node.put_into(above, part, index)
        return index + 1

    def build(self, node: Node, slot: Slot) -> Live:
        """A tree is put somewhere, in pieces where its term is too long for a line.

        Raises LineFault where even its smallest piece is too long.
        """
        first: Optional[Live] = None
        work = [(node, slot)]
        while work:
            node, slot = work.pop()
            front = self._front(slot)
            room = LINE_BYTES - FRONT_BYTES - utf8_bytes(front)
            made, missing = (node, []) if node.length <= room else self.cutter.cut(node, room)
            if made.length > room:
                raise LineFault(f"no line is short enough for this: {front[:80]}")
            live = self._place(made, slot)
            first = first or live
            for it in reversed(missing):
                above = live.at(it.steps)
                if isinstance(it.what, Node):
                    work.append((it.what, self._slot(above, it)))
            for it in missing:
                if isinstance(it.what, (str, int)):
                    self.token(live.at(it.steps), it.part, it.what)
        assert first is not None
        return first

    def fresh(self, tree: Fresh, above: Live, part: int, index: int, sources: List[Live]) -> int:
        """A tree that is new in a list comes there: moved, or inserted and then completed by moves; the index behind it then."""
        if tree.source is not None:
            return self.move(sources[tree.source.number], above, part, index)
        live = self.build(tree.shell(), Into(above, part, index))
        for hole in tree.holes:
            self.move(sources[hole.source.number], live.at(hole.steps), hole.part, hole.index)
        at = live.index()
        assert at is not None
        return at + 1

    def _add(self, edit: Edit, more: int) -> None:
        self._nodes += more
        if self._nodes > self.most:
            raise OverLimit
        self.edits.append(edit)

    def _name(self, above: Live, part: int) -> str:
        return self.grammar.parts(above.node.name)[part].name

    def _slot(self, above: Live, missing: Missing) -> Slot:
        """The place of what was cut off: of a plain child, the smallest tree stands there meanwhile."""
        if missing.index is None and above.cells[missing.part] is not None:
            return InPlaceOf(above.child(missing.part))
        return Into(above, missing.part, missing.index)

    def _front(self, slot: Slot) -> str:
        """The line of an edit, up to its term."""
        if isinstance(slot, InPlaceOf):
            return f"set {slot.node.path(self.grammar)} "
        path, name = slot.above.path(self.grammar), self._name(slot.above, slot.part)
        return f"put {path} {name} " if slot.index is None else f"insert {path} {name} {slot.index} "

    def _place(self, node: Node, slot: Slot) -> Live:
        """One edit that puts a tree there."""
        if isinstance(slot, InPlaceOf):
            live = slot.node
            self._look_at_depth(live.above, node.depth)
            self._add(SetNode(live.path(self.grammar), node), node.size - live.size())
            live.become(node)
            return live
        path, name = slot.above.path(self.grammar), self._name(slot.above, slot.part)
        self._look_at_depth(slot.above, node.depth)
        self._add(Put(path, name, node) if slot.index is None else Insert(path, name, slot.index, node), node.size)
        live = Live(node, slot.above, slot.part)
        live.put_into(slot.above, slot.part, slot.index)
        return live

    def _look_at_depth(self, above: Optional[Live], depth: int) -> None:
        while above is not None:
            depth, above = depth + 1, above.above
        if depth > TREE_DEPTH:
            raise OverLimit
