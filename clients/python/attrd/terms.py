"""Trees as Python values: nodes that can't be changed, and the terms that spell them."""
from __future__ import annotations

import re
from typing import Any, Iterator, List, Optional, Sequence, Tuple, Union

from .errors import AttrdError, SyntaxFault, TermFault, text_of
from .lexical import GREATEST_INT, LEAST_INT, TREE_DEPTH, is_name, quoted, quoted_bytes, read_quoted, utf8_bytes

# The elements of a longer list are looked at together, which is faster.
FEW = 16
Token = Union[str, int, bool]
Cell = Union["Node", Tuple["Node", ...], None, str, int, bool]


class Node:
    """A node with its cells, in the order of its class's components.

    A cell is a Node (a child, or a filled optional), a tuple of nodes (a list), None (an empty optional), or a token: str, int
    or bool. Lists are taken as tuples. A node never changes; equal trees are equal nodes, and equal ones have equal hashes.
    No grammar is asked here: `Grammar.check` tells whether a tree fits one. Raises TermFault where a cell is none of these.
    """

    __slots__ = ("name", "cells", "size", "depth", "length", "_hash", "_sums", "_fits")

    name: str
    cells: Tuple[Cell, ...]
    size: int
    depth: int
    length: int
    _hash: int
    _sums: Optional[Tuple[Any, ...]]
    """What is hashed of the cells, where one is a long list: of that the sum of its elements' hashes."""
    _fits: object
    """The grammar which all below this node was found to fit; None before that."""

    def __init__(self, name: str, *cells: Any) -> None:
        size, depth, length = 1, 0, utf8_bytes(text_of("the name of a class", name)) + 2 + max(0, len(cells) - 1)
        taken: List[Any] = []
        hashed: List[Any] = []
        for cell in cells:
            if isinstance(cell, (list, tuple)):
                cell = _elements(cell)
            taken.append(cell)
            hashed.append(cell)
            kind = type(cell)
            if kind is Node:
                size, depth, length = size + cell.size, max(depth, cell.depth), length + cell.length
            elif kind is tuple:
                length += 2 + max(0, len(cell) - 1)
                if len(cell) > FEW:
                    size += sum([it.size for it in cell])
                    depth = max(depth, max([it.depth for it in cell]))
                    length += sum([it.length for it in cell])
                    hashed[-1] = sum([it._hash for it in cell])
                    continue
                for element in cell:
                    size, depth, length = size + element.size, max(depth, element.depth), length + element.length
            else:
                length += _token_bytes(cell)
        put = object.__setattr__
        put(self, "name", name)
        put(self, "cells", tuple(taken))
        put(self, "size", size)
        put(self, "depth", depth + 1)
        put(self, "length", length)
        put(self, "_hash", hash((name, *hashed)))
        put(self, "_sums", tuple(hashed) if size > FEW and any(map(_is_long, taken)) else None)
        put(self, "_fits", None)

    def with_elements(self, part: int, front: int, end: int, between: Sequence[Node]) -> Node:
        """The node with these elements in a list, between so many of its front and so many of its end: the same as made anew, but faster.

        The list is the cell of that index. Raises TermFault where an element is no node."""
        among: Any = self.cells[part]
        come, gone = _elements(between), among[front:len(among) - end]
        cell = among[:front] + come + among[len(among) - end:]
        deepest = max([0, *(it.depth for it in come)])
        sums = self._sums
        if sums is None or not (_is_long(among) and _is_long(cell)) or any(deepest < it.depth == self.depth - 1 for it in gone):
            return Node(self.name, *self.cells[:part], cell, *self.cells[part + 1:])
        made = object.__new__(Node)
        put = object.__setattr__
        put(made, "name", self.name)
        put(made, "cells", self.cells[:part] + (cell,) + self.cells[part + 1:])
        put(made, "size", self.size + sum([it.size for it in come]) - sum([it.size for it in gone]))
        put(made, "depth", max(self.depth, deepest + 1))
        put(made, "length", self.length + sum([it.length + 1 for it in come]) - sum([it.length + 1 for it in gone]))
        sums = sums[:part] + (sums[part] + sum([it._hash for it in come]) - sum([it._hash for it in gone]),) + sums[part + 1:]
        put(made, "_hash", hash((self.name, *sums)))
        put(made, "_sums", sums)
        put(made, "_fits", None)
        return made

    def fits(self, grammar: object) -> bool:
        """Whether all below this node is known to fit the grammar, as `found_to_fit` noted."""
        return self._fits is grammar

    def found_to_fit(self, grammar: object) -> None:
        """Notes that all below this node fits the grammar: neither of them changes, so it isn't looked at again."""
        object.__setattr__(self, "_fits", grammar)

    def __setattr__(self, name: str, value: object) -> None:
        raise AttrdError("a node can't be changed: make another one")

    def __delattr__(self, name: str) -> None:
        raise AttrdError("a node can't be changed: make another one")

    def __hash__(self) -> int:
        return self._hash

    def __eq__(self, other: object) -> bool:
        if not isinstance(other, Node):
            return NotImplemented
        return self is other or (self._hash == other._hash and self.length == other.length and _same(self, other))

    def __str__(self) -> str:
        return write_term(self)

    def __repr__(self) -> str:
        text = write_term(self)
        return f"<Node {text if len(text) <= 80 else text[:77] + '...'}>"

    def __reduce__(self) -> Tuple[Any, ...]:
        return (read_term, (write_term(self),))

    def below(self) -> Iterator[Node]:
        """The nodes one step below, in order."""
        for cell in self.cells:
            if type(cell) is Node:
                yield cell
            elif type(cell) is tuple:
                yield from cell

    def all(self) -> Iterator[Node]:
        """This node and all below it, each before those below it."""
        left = [self]
        while left:
            node = left.pop()
            yield node
            left.extend(reversed(list(node.below())))


def _is_long(cell: Any) -> bool:
    return type(cell) is tuple and len(cell) > FEW


def _elements(cell: Any) -> Tuple[Node, ...]:
    for index, element in enumerate(() if _NODES.issuperset(map(type, cell)) else cell):
        if type(element) is not Node:
            raise TermFault("/", f"element {index} of a list is a Node, and not {type(element).__name__}")
    return tuple(cell)


_NODES = frozenset([Node])


def _token_bytes(cell: Any) -> int:
    if cell is None:
        return 1
    if cell is True:
        return 4
    if cell is False:
        return 5
    if isinstance(cell, str):
        return quoted_bytes(cell)
    if isinstance(cell, int):
        return len(str(cell)) if LEAST_INT <= cell <= GREATEST_INT else 12
    raise TermFault("/", f"a cell is a Node, a list of them, None or a token, and not {type(cell).__name__}")


def _same(one: Node, other: Node) -> bool:
    left: List[Any] = [(one, other)]
    while left:
        a, b = left.pop()
        if a is b:
            continue
        if a._hash != b._hash or a.name != b.name or len(a.cells) != len(b.cells):
            return False
        for x, y in zip(a.cells, b.cells):  # type: Any, Any
            if type(x) is not type(y):
                return False
            if type(x) is Node:
                left.append((x, y))
            elif type(x) is tuple:
                if len(x) != len(y):
                    return False
                left.extend(zip(x, y))
            elif x != y:
                return False
    return True


def write_token(value: Token) -> str:
    """The token as a term spells it."""
    if isinstance(value, str):
        return quoted(value)
    if isinstance(value, bool):
        return "true" if value else "false"
    return str(value)


def write_term(node: Node) -> str:
    """The term of the tree, as `show` replies it: of each tree there is just one."""
    parts: List[str] = []
    left: List[Any] = [node]
    while left:
        top = left.pop()
        if type(top) is not Node:
            parts.append(top)
            continue
        parts.append(top.name)
        parts.append("(")
        left.append(")")
        cells: List[Any] = []
        for number, cell in enumerate(top.cells):  # type: int, Any
            if number:
                cells.append(",")
            if type(cell) is Node:
                cells.append(cell)
            elif type(cell) is tuple:
                cells.append("[")
                for index, element in enumerate(cell):
                    if index:
                        cells.append(",")
                    cells.append(element)
                cells.append("]")
            else:
                cells.append("-" if cell is None else write_token(cell))
        cells.reverse()
        left.extend(cells)
    return "".join(parts)


_WORD = re.compile(r"[^\s()\[\],\"\-:/$]+")
_INT = re.compile(r"0(?![0-9])|-?[1-9][0-9]*")


class _Open:
    """A node, or a list in one, that isn't closed yet: `name` is None for a list."""

    __slots__ = ("name", "cells")

    def __init__(self, name: Optional[str]) -> None:
        self.name, self.cells = name, []  # type: Optional[str], List[Any]


class _Reader:
    """Reads one term, without recursion."""

    def __init__(self, text: str) -> None:
        self.text, self.at, self.open = text, 0, []  # type: str, int, List[_Open]
        self.depth = 0

    def fault(self, reason: str, at: Optional[int] = None) -> SyntaxFault:
        return SyntaxFault("term", self.text, self.at if at is None else at, reason)

    def read(self) -> Node:
        """The node at this place, and behind it the place where reading ended."""
        self.begin()
        while True:
            closed = self.closed() if self.text[self.at:self.at + 1] in (")", "]") else None
            if isinstance(closed, Node) and not self.open:
                return closed
            if closed is None:
                self.cell()
            else:
                self.open[-1].cells.append(closed)
            self.between()

    def begin(self) -> None:
        found = _WORD.match(self.text, self.at)
        if not found or not is_name(found[0]):
            raise self.fault("no name of a class")
        if self.text[found.end():found.end() + 1] != "(":
            raise self.fault("no ( behind the name of a class", found.end())
        self.depth += 1
        if self.depth > TREE_DEPTH:
            raise self.fault(f"names nest more than {TREE_DEPTH} deep")
        self.at = found.end() + 1
        self.open.append(_Open(found[0]))

    def closed(self) -> Union[Node, Tuple[Node, ...]]:
        sign, top = self.text[self.at], self.open[-1]
        if (sign == ")") != (top.name is not None):
            raise self.fault(f"{sign} closes nothing")
        self.at += 1
        self.open.pop()
        if top.name is None:
            return tuple(top.cells)
        self.depth -= 1
        return Node(top.name, *top.cells)

    def between(self) -> None:
        """Passes over the comma behind a cell, or stays at a closing sign."""
        sign = self.text[self.at:self.at + 1]
        if not self.open[-1].cells or sign in (")", "]"):
            return
        if sign != ",":
            raise self.fault("neither , nor a closing sign")
        self.at += 1
        if self.text[self.at:self.at + 1] in (")", "]"):
            raise self.fault("no cell behind a comma")

    def cell(self) -> None:
        """One cell: a token is taken, a node or a list is begun."""
        text, sign, cells = self.text, self.text[self.at:self.at + 1], self.open[-1].cells
        in_list = self.open[-1].name is None
        if sign == "[" and not in_list:
            self.at += 1
            self.open.append(_Open(None))
            return
        if sign == '"' and not in_list:
            value, self.at = read_quoted(text, self.at)
            cells.append(value)
            return
        number = None if in_list else _INT.match(text, self.at)
        if number:
            cells.append(self.int_of(number))
        elif sign == "-" and not in_list:
            self.at += 1
            cells.append(None)
        else:
            self.word(in_list)

    def int_of(self, number: "re.Match[str]") -> int:
        value = int(number[0]) if len(number[0]) <= 11 else GREATEST_INT + 1
        if not LEAST_INT <= value <= GREATEST_INT:
            raise self.fault("an int is outside of 32 bits")
        self.at = number.end()
        return value

    def word(self, in_list: bool) -> None:
        found = _WORD.match(self.text, self.at)
        if found and found[0] in ("true", "false") and not in_list:
            self.at = found.end()
            self.open[-1].cells.append(found[0] == "true")
        else:
            self.begin()


def read_term(text: str) -> Node:
    """The tree that the term spells, without a look at any grammar.

    Raises SyntaxFault: the text isn't one term, or its names nest more than 512 deep.
    """
    reader = _Reader(text_of("a term", text))
    node = reader.read()
    if reader.at != len(text):
        raise reader.fault("there is more behind the term")
    return node
