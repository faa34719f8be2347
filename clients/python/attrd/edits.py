"""Edits as values, the lines that send them, and what they make of a tree."""
from __future__ import annotations

from dataclasses import dataclass, replace
from typing import Any, Callable, Iterable, List, Tuple, TypeVar, Union

from . import commands
from .errors import TermFault
from .grammar import Grammar
from .paths import Path, Step
from .terms import Node, Token

T = TypeVar("T")


@dataclass(frozen=True)
class SetNode:
    """A tree in the place of a node."""

    path: Path
    term: Node

    def command(self) -> str:
        """The command of its line. Raises LineFault."""
        return commands.set_node(self.path, self.term)


@dataclass(frozen=True)
class Put:
    """A tree into an empty optional."""

    path: Path
    part: str
    term: Node

    def command(self) -> str:
        """The command of its line. Raises LineFault."""
        return commands.put(self.path, self.part, self.term)


@dataclass(frozen=True)
class Drop:
    """An element out of its list, or a node out of its optional."""

    path: Path

    def command(self) -> str:
        """The command of its line. Raises LineFault."""
        return commands.drop(self.path)


@dataclass(frozen=True)
class Insert:
    """A tree into a list; `index` is its index then."""

    path: Path
    part: str
    index: int
    term: Node

    def command(self) -> str:
        """The command of its line. Raises LineFault."""
        return commands.insert(self.path, self.part, self.index, self.term)


@dataclass(frozen=True)
class SetToken:
    """Another value for a token."""

    path: Path
    part: str
    value: Token

    def command(self) -> str:
        """The command of its line. Raises LineFault."""
        return commands.token(self.path, self.part, self.value)


@dataclass(frozen=True)
class Move:
    """An element to another place of a list; `index` counts without it."""

    path: Path
    target: Path
    part: str
    index: int

    def command(self) -> str:
        """The command of its line. Raises LineFault."""
        return commands.move(self.path, self.target, self.part, self.index)


Edit = Union[SetNode, Put, Drop, Insert, SetToken, Move]


def below(above: Path, edit: Edit) -> Edit:
    """The edit of a tree as one of the tree in which that stands at this path."""
    path = Path(above.steps + edit.path.steps)
    if isinstance(edit, Move):
        return replace(edit, path=path, target=Path(above.steps + edit.target.steps))
    return replace(edit, path=path)


def applied(grammar: Grammar, tree: Node, edits: Iterable[Edit]) -> Node:
    """The tree that the edits make of this one, in their order. Raises TermFault where one of them doesn't apply."""
    for edit in edits:
        tree = _apply(grammar, tree, edit)
    return tree


def _apply(grammar: Grammar, tree: Node, edit: Edit) -> Node:
    if isinstance(edit, SetNode):
        return _changed(grammar, tree, edit.path, _always(edit.term))
    if isinstance(edit, Put):
        return _put(grammar, tree, edit)
    if isinstance(edit, SetToken):
        return _with_cell(grammar, tree, edit.path, edit.part, _always(edit.value))
    if isinstance(edit, Insert):
        return _inserted(grammar, tree, edit.path, edit.part, edit.index, edit.term)
    if isinstance(edit, Drop):
        return _dropped(grammar, tree, edit.path)
    node = grammar.node_at(tree, edit.path)
    if node is None or edit.path.steps[-1].index is None:
        raise _miss(edit)
    without = _dropped(grammar, tree, edit.path)
    return _inserted(grammar, without, behind(edit.path, edit.target), edit.part, edit.index, node)


def behind(dropped: Path, path: Path) -> Path:
    """Where the node of a path is when an element of a list was taken out."""
    *above, last = dropped.steps
    at = len(above)
    if len(path.steps) <= at or list(path.steps[:at]) != above:
        return path
    step = path.steps[at]
    if step.part != last.part or step.index is None or last.index is None or step.index < last.index:
        return path
    return Path(path.steps[:at] + (Step(step.part, step.index - 1),) + path.steps[at + 1:])


def _miss(edit: Edit) -> TermFault:
    return TermFault(str(edit.path), f"the edit doesn't apply: {edit.command()[:100]}")


def _always(cell: T) -> Callable[[Any], T]:
    """The change that makes this of whatever was there."""
    return lambda _: cell


def _changed(grammar: Grammar, tree: Node, path: Path, change: Callable[[Node], Node]) -> Node:
    passed: List[Tuple[Node, Step]] = []
    node = tree
    for step in path.steps:
        below = grammar.node_at(node, Path((step,)))
        if below is None:
            raise TermFault(str(path), "no node is there")
        passed.append((node, step))
        node = below
    made = change(node)
    for above, step in reversed(passed):
        at = grammar.classes[above.name].places[step.part]
        cell: Any = above.cells[at]
        cell = made if step.index is None else cell[:step.index] + (made,) + cell[step.index + 1:]
        made = Node(above.name, *above.cells[:at], cell, *above.cells[at + 1:])
    return made


def _with_cell(grammar: Grammar, tree: Node, path: Path, part: str, change: Callable[[Any], Any]) -> Node:
    def make(node: Node) -> Node:
        at = grammar.classes[node.name].places.get(part)
        if at is None:
            raise TermFault(str(path), f"{node.name} has no component {part}")
        return Node(node.name, *node.cells[:at], change(node.cells[at]), *node.cells[at + 1:])
    return _changed(grammar, tree, path, make)


def _put(grammar: Grammar, tree: Node, edit: Put) -> Node:
    def into(cell: Any) -> Node:
        if cell is not None:
            raise _miss(edit)
        return edit.term
    return _with_cell(grammar, tree, edit.path, edit.part, into)


def _inserted(grammar: Grammar, tree: Node, path: Path, part: str, index: int, term: Node) -> Node:
    def into(cell: Any) -> Any:
        if not isinstance(cell, tuple) or index > len(cell):
            raise TermFault(str(path), f"no element {index} of {part} can be inserted")
        return cell[:index] + (term,) + cell[index:]
    return _with_cell(grammar, tree, path, part, into)


def _dropped(grammar: Grammar, tree: Node, path: Path) -> Node:
    if not path.steps:
        raise TermFault("/", "the root can't be dropped")
    step = path.steps[-1]

    def without(cell: Any) -> Any:
        if isinstance(cell, tuple) and step.index is not None and step.index < len(cell):
            return cell[:step.index] + cell[step.index + 1:]
        if isinstance(cell, Node):
            return None
        raise TermFault(str(path), "no node is there")
    return _with_cell(grammar, tree, path.parent, step.part, without)
