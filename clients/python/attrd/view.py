"""A tree whose cells are read by their names: `tree.Kind[2].Block`."""
from __future__ import annotations

from typing import Iterator, Optional, Sequence, Union, overload

from .errors import AttrdError, UnknownName
from .grammar import Grammar
from .paths import Path
from .terms import Node, Token, write_term

# What stands in a component: a child or what an optional has, a list, an empty optional, or a token.
Named = Union["View", "Views", None, Token]


class View:
    """A node at its place in a tree. `view.Init` or `view["Init"]` is what stands in its component of that name.

    That is a View, `Views` of a list, None of an empty optional, or the value of a token. `node` is the node, and `place` its path, so a
    view may stand for a place in questions and edits. It shows the tree from which it was made, whatever becomes of the server's.
    """

    __slots__ = ("grammar", "node", "place")

    def __init__(self, grammar: Grammar, node: Node, place: Path = Path()) -> None:
        """Of a tree that fits the grammar."""
        self.grammar, self.node, self.place = grammar, node, place

    @property
    def name(self) -> str:
        """The name of its class."""
        return self.node.name

    def is_a(self, name: str) -> bool:
        """Whether its class is this one or below it."""
        return self.grammar.is_below(self.node.name, name)

    def __getitem__(self, part: str) -> Named:
        """What stands in a component. Raises UnknownName, with the components that there are; a constant stands in none of a view."""
        try:
            cell = self.grammar.cell(self.node, part)
        except UnknownName:
            if any(it.name == part for it in self.grammar.class_named(self.node.name).fixed):
                raise
            known = ", ".join(it.name for it in self.grammar.parts(self.node.name)) or "none"
            raise UnknownName(f"{self.node.name} has no component {part}; it has {known}") from None
        if isinstance(cell, Node):
            return View(self.grammar, cell, self.place.child(part))
        return Views(self, part, cell) if isinstance(cell, tuple) else cell

    def __getattr__(self, part: str) -> Named:
        """As `view[part]`. Raises AttributeError, as Python wants it."""
        try:
            return self[part]
        except AttrdError as fault:
            raise AttributeError(str(fault)) from None

    def __eq__(self, other: object) -> bool:
        return isinstance(other, View) and (self.node, self.place) == (other.node, other.place)

    def __hash__(self) -> int:
        return hash((self.node, self.place))

    def children(self) -> Iterator[View]:
        """The nodes one step below, in order."""
        for step, node in self.grammar.children(self.node):
            yield View(self.grammar, node, self.place.child(*step))

    def all(self, name: Optional[str] = None) -> Iterator[View]:
        """It and all nodes below it, each before those below it; of a class and those below it alone, where one is named."""
        left = [self]
        while left:
            view = left.pop()
            if name is None or view.is_a(name):
                yield view
            left.extend(reversed(list(view.children())))

    def __dir__(self) -> Iterator[str]:
        yield from ("all", "children", "grammar", "is_a", "name", "node", "place")
        yield from (it.name for it in self.grammar.parts(self.node.name))

    def __str__(self) -> str:
        return write_term(self.node)

    def __repr__(self) -> str:
        text = write_term(self.node)
        return f"<View {self.place} {text if len(text) <= 80 else text[:77] + '...'}>"


class Views(Sequence[View]):
    """The elements of a list, each as a View."""

    def __init__(self, above: View, part: str, nodes: Sequence[Node]) -> None:
        self.above, self.part, self.nodes = above, part, nodes

    def __len__(self) -> int:
        return len(self.nodes)

    @overload
    def __getitem__(self, index: int) -> View: ...

    @overload
    def __getitem__(self, index: slice) -> Sequence[View]: ...

    def __getitem__(self, index: Union[int, slice]) -> Union[View, Sequence[View]]:
        if isinstance(index, slice):
            return [self[it] for it in range(*index.indices(len(self.nodes)))]
        at = index + len(self.nodes) if index < 0 else index
        return View(self.above.grammar, self.nodes[at], self.above.place.child(self.part, at))

    def __repr__(self) -> str:
        return f"<Views {self.above.place.child(self.part)} of {len(self.nodes)}>"
