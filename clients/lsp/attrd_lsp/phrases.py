"""What a parser gives: a tree whose nodes have places in the text, and the faults of the text.

A `Phrase` is a node of the tree with its place. `phrase` makes one of the phrases below it:

    phrase("Let", Span(0, 9), Span(4, 5), ID="x", Expr=value)

is a node of the class `Let` that stands at the characters 0 to 8; its name stands at the character 4. The cells are given by the
names of their components, in the order of the grammar: a phrase, a sequence of phrases, None, or a token (str, int or bool)."""
from __future__ import annotations

from functools import lru_cache
from typing import Dict, List, NamedTuple, Optional, Sequence, Tuple, Union

import attrd
from attrd import Node

from .positions import Span

LONGEST_LIST, LONGEST_TEXT = 32, 200
TreeCell = Union[Node, Tuple[Node, ...], None, str, int, bool]
Cell = Union["Phrase", Sequence["Phrase"], None, str, int, bool]


class Phrase(NamedTuple):
    """A node of the tree and where it stands in the text: the whole of it, and its name where it has one."""

    tree: Node
    span: Span
    identifier: str
    """The first of the node's cells that is a text; empty where the phrase has no name."""
    name: Optional[Span]
    children: Tuple[Tuple[str, Phrase], ...]
    """The phrases of the children, each with its step in a path: `Left`, `Stmt:3`."""
    parts: Tuple[str, ...]
    """The names of the components whose cells were given."""

    @property
    def kind(self) -> str:
        """The node's class in the grammar."""
        return self.tree.name

    def child(self, step: str) -> Optional[Phrase]:
        """The phrase of a child, and None where there is none."""
        return next((it for name, it in self.children if name == step), None)


class Fault(NamedTuple):
    """What is wrong in the text, and where."""

    text: str
    span: Span


class Parsed(NamedTuple):
    """What was read of a text: its tree, or None where nothing could be made of it, and the faults in the order of their places."""

    phrase: Optional[Phrase]
    faults: List[Fault]


def phrase(kind: str, span: Span, name: Optional[Span] = None, /, **cells: Cell) -> Phrase:
    """A node with its place, and that of its name. Raises TermFault where a cell is nothing that a cell may be."""
    children: List[Tuple[str, Phrase]] = []
    trees: List[TreeCell] = []
    identifier: Optional[str] = None if name is not None else ""
    is_long = False
    for part, cell in cells.items():
        if isinstance(cell, Phrase):
            children.append((part, cell))
            trees.append(cell.tree)
        elif isinstance(cell, (tuple, list)):
            children += [(f"{part}:{index}", it) for index, it in enumerate(cell)]
            trees.append(tuple([it.tree for it in cell]))
            is_long = is_long or len(cell) > LONGEST_LIST
        else:
            trees.append(cell)  # type: ignore[arg-type]
            if isinstance(cell, str):
                is_long = is_long or len(cell) > LONGEST_TEXT
                identifier = cell if identifier is None else identifier
    identifier = identifier or ""
    return Phrase(Node(kind, *trees) if is_long else tree_of(kind, trees), span, identifier, name, tuple(children), tuple(cells))


# Of a text that is read again most trees are as they were: these are the same nodes then, which are compared and checked at a glance.
# So many nodes are kept, but none with a long list or text, which would take much memory.
_kept_node = lru_cache(maxsize=1 << 14, typed=True)(Node)


def tree_of(kind: str, cells: Sequence[TreeCell]) -> Node:
    """The tree of these cells, mostly the same one as before. Raises TermFault."""
    try:
        return _kept_node(kind, *cells)
    except TypeError:
        return Node(kind, *cells)


def moved(it: Phrase, by: int) -> Phrase:
    """The phrase so many characters further on."""
    if by == 0:
        return it
    children = tuple([(step, moved(child, by)) for step, child in it.children])
    return it._replace(span=it.span.moved(by), name=None if it.name is None else it.name.moved(by), children=children)


def with_child(above: Phrase, index: int, new: Phrase, change: Span, length: int) -> Phrase:
    """The phrase with another one in the place of that child, where so many characters have come in the place of a change within that."""
    by = length - (change.end - change.start)
    step = above.children[index][0]
    children = [(step, moved(child, by if child.span[0] >= change.end else 0)) for step, child in above.children]
    children[index] = (step, new)
    name = None if above.name is None else above.name.behind(change, length)
    tree = with_tree(above.tree, above.parts, step, new.tree)
    return above._replace(tree=tree, span=Span(above.span[0], above.span[1] + by), name=name, children=tuple(children))


def with_tree(above: Node, parts: Sequence[str], step: str, new: Node) -> Node:
    """The node with another one just below it, where that step leads; `parts` are the names of its components."""
    part, _, index = step.partition(":")
    at, cells = parts.index(part), list(above.cells)
    among = cells[at]
    if isinstance(among, tuple) and len(among) > LONGEST_LIST:
        return above.with_elements(at, int(index), len(among) - int(index) - 1, [new])
    cells[at] = (*among[: int(index)], new, *among[int(index) + 1 :]) if isinstance(among, tuple) else new
    return Node(above.name, *cells) if any(map(is_long, cells)) else tree_of(above.name, cells)


def is_long(cell: TreeCell) -> bool:
    """Whether a cell is a list or text of which no more is kept than needed."""
    return isinstance(cell, tuple) and len(cell) > LONGEST_LIST or isinstance(cell, str) and len(cell) > LONGEST_TEXT


def misplaced(top: Phrase, length: int) -> Optional[str]:
    """What is wrong with the places of the phrase and those below it, in a text of that length; None where nothing is.

    Each phrase stands in the one around it, beside the others there; a name stands in its phrase."""
    if is_in_order(top, length):
        return None
    waiting = [(top, Span(0, length))]
    while waiting:
        it, around = waiting.pop()
        wrong = misplaced_in(it.kind, it.span, around)
        if wrong is None and it.name is not None and it.name != it.span:
            wrong = misplaced_in(f"the name of {it.kind}", it.name, it.span)
        if wrong is None and len(it.children) > 1:
            wrong = overlapping(it)
        if wrong is not None:
            return wrong
        waiting.extend([(child, it.span) for _, child in it.children])
    return None


def is_in_order(top: Phrase, length: int) -> bool:
    """Whether all places are right at first sight: those of children stand one behind the other in their order, which isn't a must."""
    if not (is_span(top.span) and 0 <= top.span[0] <= top.span[1] <= length):
        return False
    waiting = [top]
    for it in waiting:
        start, end = it.span
        name = it.name
        if name is not None and name is not it.span and not (is_span(name) and start <= name[0] <= name[1] <= end):
            return False
        for _, child in it.children:
            span = child.span
            if not (is_span(span) and start <= span[0] <= span[1] <= end):
                return False
            start = span[1]
            waiting.append(child)
    return True


def misplaced_in(what: str, span: Span, around: Span) -> Optional[str]:
    """What is wrong with the place of a phrase or a name within another one."""
    if not is_span(span):
        return f"{what} has no place in the text"
    if not around[0] <= span[0] <= span[1] <= around[1]:
        return f"{what} stands at {span[0]} to {span[1]}, which isn't within {around[0]} to {around[1]}"
    return None


def is_span(span: object) -> bool:
    """Whether this is two offsets."""
    return isinstance(span, tuple) and len(span) == 2 and type(span[0]) is int and type(span[1]) is int


def overlapping(it: Phrase) -> Optional[str]:
    """Which two phrases just below this one stand at the same characters; None where there are none."""
    below = sorted([(child.span, step) for step, child in it.children if is_span(child.span)])
    for (one, first), (other, second) in zip(below, below[1:]):
        if one[1] > other[0]:
            return f"{first} and {second} of {it.kind} overlap: they stand at {one[0]} to {one[1]} and {other[0]} to {other[1]}"
    return None


def misfit(grammar: attrd.Grammar, top: Phrase, wanted: str) -> Optional[str]:
    """Why the tree of the phrase doesn't stand where a node of that class is wanted; None where it does.

    That a tree has too many nodes is the program's to tell."""
    try:
        grammar.check(top.tree, wanted, top.tree.size)
    except attrd.AttrdError as fault:
        return str(fault)
    waiting = [top]
    parts = part_names(grammar)
    while waiting:
        it = waiting.pop()
        wanted_parts = parts[it.tree.name]
        if it.parts != wanted_parts:
            return f"{it.kind} has the components {' '.join(wanted_parts)}, and the parser gives {' '.join(it.parts)}"
        waiting += [child for _, child in it.children]
    return None


@lru_cache(maxsize=8)
def part_names(grammar: attrd.Grammar) -> Dict[str, Tuple[str, ...]]:
    """The names of the components of each class."""
    return {it.name: tuple(part.name for part in it.parts) for it in grammar}
