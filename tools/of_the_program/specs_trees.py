"""Trees of any grammar, with the edits of lines and what they are refused for: a node stays the node that it is, wherever an edit moves it."""
from __future__ import annotations

import re
from dataclasses import dataclass
from typing import Dict, Iterator, List, Optional, Sequence, Tuple, Union

from tools.of_the_program.specs_grammar import Component, Grammar

ESCAPES = {'"': '\\"', "\\": "\\\\", "\n": "\\n", "\t": "\\t"}
UNESCAPED = {written: sign for sign, written in ESCAPES.items()}
TOKENS = re.compile(r'"(?:[^"\\]|\\.)*"|[^\W\d]\w*|-?\d+|\S')
TEXT = re.compile(r'"(?:[^"\\]|\\.)*"')
# Where in a line each kind of edit has its parts.
PARTS = {"token": 3, "set": 2, "put": 3, "drop": 1, "insert": 4, "move": 5}


@dataclass(frozen=True)
class Refusal(Exception):
    """A refusal, by its code and name."""

    code: str


Token = Union[str, int, bool]
Cell = Union["Node", List["Node"], Token, None]


class Node:
    """A node: its class, its cells by their components, its constants by theirs, the node above it, and the component in which it stands."""

    def __init__(self, kind: str) -> None:
        self.kind = kind
        self.cells: Dict[str, Cell] = {}
        self.constants: Dict[str, Cell] = {}
        self.above: Optional[Node] = None
        self.part = ""

    def cell(self, part: str) -> Cell:
        """What stands in a component; none where nothing does, or where there is none."""
        return self.constants.get(part, self.cells.get(part))

    def list(self, part: str) -> List[Node]:
        """The elements of a list."""
        found = self.cell(part)
        assert isinstance(found, list)
        return found

    def below(self) -> Iterator[Node]:
        """The nodes right below."""
        for it in (*self.cells.values(), *self.constants.values()):
            yield from standing(it)

    def all(self) -> Iterator[Node]:
        """The node, and all that are below it."""
        yield self
        for it in self.below():
            yield from it.all()

    def index(self) -> int:
        """Its index in the list where it stands."""
        assert self.above is not None
        return self.above.list(self.part).index(self)

    def is_element(self) -> bool:
        """Whether it stands in a list."""
        return self.above is not None and isinstance(self.above.cell(self.part), list)

    def is_fixed(self) -> bool:
        """Whether it is a constant, or stands in one."""
        return self.above is not None and (self.part in self.above.constants or self.above.is_fixed())

    def path(self) -> str:
        """The node's path."""
        if self.above is None:
            return "/"
        step = f"{self.part}:{self.index()}" if self.is_element() else self.part
        return f"{self.above.path().rstrip('/')}/{step}"

    def term(self) -> str:
        """The node as a term."""
        return f"{self.kind}({','.join(map(written, self.cells.values()))})"

    def put(self, part: str, cell: Cell) -> None:
        """Gives a component its cell."""
        self.cells[part] = cell
        self.hold(part, cell)

    def plant(self, part: str, constant: Cell) -> None:
        """Has a constant stand in a component."""
        self.constants[part] = constant
        self.hold(part, constant)

    def hold(self, part: str, cell: Cell) -> None:
        """Has what stands in the cell stand in that component."""
        for it in standing(cell):
            it.above, it.part = self, part

    def at(self, path: str) -> Node:
        """The node with that path below this one. Raises Refusal."""
        for step in filter(None, path.split("/")):
            name, colon, index = step.partition(":")
            found = self.cell(name)
            if colon and isinstance(found, list) and int(index) < len(found):
                self = found[int(index)]
            elif not colon and isinstance(found, Node):
                self = found
            else:
                raise Refusal("4 path")
        return self


def standing(cell: Cell) -> Sequence[Node]:
    """The nodes that stand in a cell."""
    return cell if isinstance(cell, list) else [cell] if isinstance(cell, Node) else ()


def written(cell: Cell) -> str:
    """A cell as it stands in a term; texts and other values of attributes are written so, too."""
    if isinstance(cell, Node):
        return cell.term()
    if isinstance(cell, list):
        return f"[{','.join(it.term() for it in cell)}]"
    if isinstance(cell, bool):
        return str(cell).lower()
    if isinstance(cell, str):
        return quoted(cell)
    return "-" if cell is None else str(cell)


def quoted(text: str) -> str:
    """A text between quotes."""
    return f'"{"".join(ESCAPES.get(it, it) for it in text)}"'


def unquoted(text: str) -> str:
    """The text that stands so between quotes."""
    return re.sub(r"\\.", lambda it: UNESCAPED[it[0]], text[1:-1])


class Terms:
    """Reads terms, and values of tokens, of a grammar."""

    def __init__(self, grammar: Grammar, text: str) -> None:
        self.grammar, self.tokens, self.next = grammar, TOKENS.findall(text), 0
        if any(it not in grammar.classes or grammar.classes[it].is_abstract for it in self.names()):
            raise Refusal("6 class")

    def names(self) -> Iterator[str]:
        """The names of classes in it."""
        behind = zip(self.tokens, [*self.tokens[1:], ""])
        return (it for it, opening in behind if opening == "(")

    def take(self) -> str:
        self.next += 1
        return str(self.tokens[self.next - 1])

    def want(self, sign: str) -> None:
        """Steps over the sign; where another one stands there the cells don't fit."""
        if self.take() != sign:
            raise Refusal("7 fit")

    def node(self, of: str) -> Node:
        """The node of the term that is next, of that class or one below it."""
        made = Node(self.take())
        if made.kind not in self.grammar.classes or not self.grammar.is_below(made.kind, of):
            raise Refusal("7 fit")
        self.want("(")
        for at, part in enumerate(self.grammar.parts[made.kind]):
            if at:
                self.want(",")
            made.put(part.name, self.cell(part))
        self.want(")")
        for name, cell in self.grammar.constants[made.kind].items():
            made.plant(name, Terms(self.grammar, cell).cell(self.grammar.named[made.kind][name]))
        return made

    def cell(self, part: Component) -> Cell:
        """The cell of the component that is next."""
        if part.form == "token":
            return self.value(part.kind)
        if part.form == "list":
            return self.elements(part.kind)
        if part.form == "optional" and self.tokens[self.next] == "-":
            self.take()
            return None
        return self.node(part.kind)

    def elements(self, of: str) -> List[Node]:
        """The elements of a list, behind its bracket."""
        found: List[Node] = []
        self.want("[")
        while self.tokens[self.next] != "]":
            if found:
                self.want(",")
            found.append(self.node(of))
        self.take()
        return found

    def value(self, kind: str) -> Token:
        """The value of a token."""
        text = self.take()
        fits = {"String": text[0] == '"', "boolean": text in ("true", "false"), "int": text.lstrip("-").isdigit()}
        if not fits[kind]:
            raise Refusal("7 fit")
        return unquoted(text) if kind == "String" else text == "true" if kind == "boolean" else int(text)


class Tree:
    """A tree of a grammar, which lines edit."""

    def __init__(self, grammar: Grammar, term: str) -> None:
        self.grammar = grammar
        self.root = Terms(grammar, term).node(grammar.start)

    def edit(self, line: str) -> None:
        """Does the edit of a line. Raises Refusal."""
        words = line.split(" ", PARTS[line.split(" ")[0]])
        node = self.root.at(words[1])
        if words[0] == "token":
            part = self.component(node, words[2], "token")
            value = Terms(self.grammar, words[3]).value(part.kind)
            loose(node)
            node.put(part.name, value)
        elif words[0] == "set":
            self.set(node, words[2])
        elif words[0] == "put":
            part = self.component(node, words[2], "optional")
            new = Terms(self.grammar, words[3]).node(part.kind)
            if node.cells[part.name] is not None:
                raise Refusal("9 taken")
            loose(node)
            node.put(part.name, new)
        elif words[0] == "insert":
            self.insert(node, words[2], int(words[3]), words[4])
        elif words[0] == "drop":
            self.drop(node)
        else:
            self.move(node, self.root.at(words[3]), words[4], int(words[5]))

    def component(self, node: Node, name: str, form: str) -> Component:
        """The component of the node, which has that form."""
        found = self.grammar.named[node.kind].get(name)
        if found is None or found.form != form:
            raise Refusal("5 component")
        return found

    def set(self, node: Node, term: str) -> None:
        above, part = node.above, node.part
        if above is None:
            self.root = Terms(self.grammar, term).node(self.grammar.start)
            return
        new = Terms(self.grammar, term).node(self.grammar.named[above.kind][part].kind)
        loose(node)
        cell = above.cells[part]
        above.put(part, [new if it is node else it for it in cell] if isinstance(cell, list) else new)

    def insert(self, node: Node, name: str, index: int, term: str) -> None:
        part = self.component(node, name, "list")
        new, found = Terms(self.grammar, term).node(part.kind), node.list(part.name)
        if index > len(found):
            raise Refusal("8 index")
        loose_in(node, part)
        node.put(part.name, [*found[:index], new, *found[index:]])

    def drop(self, node: Node) -> None:
        above, part = node.above, node.part
        if above is None or self.grammar.named[above.kind][part].form == "child":
            raise Refusal("10 fixed")
        loose(node)
        cell = above.cells[part]
        above.put(part, [it for it in cell if it is not node] if isinstance(cell, list) else None)

    def move(self, node: Node, to: Node, name: str, index: int) -> None:
        part = self.component(to, name, "list")
        if not self.grammar.is_below(node.kind, part.kind):
            raise Refusal("7 fit")
        others = [it for it in to.list(part.name) if it is not node]
        if index > len(others):
            raise Refusal("8 index")
        if not node.is_element():
            raise Refusal("10 fixed")
        loose(node)
        loose_in(to, part)
        if any(it is to for it in node.all()):
            raise Refusal("11 inside")
        assert node.above is not None
        node.above.put(node.part, [it for it in node.above.list(node.part) if it is not node])
        to.put(part.name, [*others[:index], node, *others[index:]])


def loose(node: Node) -> None:
    """Refuses what is done with a node that is a constant, or stands in one."""
    if node.is_fixed():
        raise Refusal("10 fixed")


def loose_in(node: Node, part: Component) -> None:
    """Refuses what is done in a component that is fixed, or is one of such a node."""
    if part.is_fixed:
        raise Refusal("10 fixed")
    loose(node)


def parted(given: str) -> Tuple[str, ...]:
    """The arguments of a question, one by one."""
    return tuple(re.findall(r'"(?:[^"\\]|\\.)*"|[^,]+', given))
