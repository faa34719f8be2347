"""Trees of items, with the edits of lines: a node stays the node that it is, wherever an edit moves it."""
from __future__ import annotations

import random
import re
from typing import Dict, Iterator, List, Optional, Tuple

GRAMMAR = """Root ::= Item*;
abstract Item ::= <On:boolean> <Name>;
Leaf : Item;
Pair : Item ::= [Left:Item] [Right:Item];
Row : Item ::= Item*;
"""
NAMES = ("a", "b", "c", "d")
OPTIONALS = ("Left", "Right")
# Beyond so many nodes an edit brings no new ones.
MOST_NODES = 28


class Node:
    """A node: its class, its tokens, and its components that are nodes."""

    def __init__(self, kind: str, on: bool = False, name: str = "") -> None:
        self.kind, self.on, self.name = kind, on, name
        self.above: Optional[Node] = None
        self.optionals: Dict[str, Optional[Node]] = dict.fromkeys(OPTIONALS) if kind == "Pair" else {}
        self.items: List[Node] = []

    @property
    def has_list(self) -> bool:
        return self.kind in ("Root", "Row")

    def below(self) -> List[Tuple[str, Node]]:
        """The nodes right below, each with its step."""
        filled = [(part, it) for part, it in self.optionals.items() if it is not None]
        return filled + [(f"Item:{at}", it) for at, it in enumerate(self.items)]

    def all(self) -> Iterator[Node]:
        """The node, and all that are below it."""
        yield self
        for _, it in self.below():
            yield from it.all()

    def step(self) -> str:
        """The step that leads to the node from the one above it."""
        assert self.above is not None
        return next(step for step, it in self.above.below() if it is self)

    def path(self) -> str:
        """The node's path."""
        return "/" if self.above is None else f"{self.above.path().rstrip('/')}/{self.step()}"

    def term(self) -> str:
        """The node as a term."""
        listed = f"[{','.join(it.term() for it in self.items)}]"
        if self.kind == "Root":
            return f"Root({listed})"
        parts = [it.term() if it else "-" for it in self.optionals.values()] + ([listed] if self.kind == "Row" else [])
        return f"{self.kind}({','.join([str(self.on).lower(), chr(34) + self.name + chr(34), *parts])})"

    def copy(self) -> Node:
        """The node with all that is below it, as other nodes."""
        made = Node(self.kind, self.on, self.name)
        for part, it in self.optionals.items():
            made.fill(part, it.copy() if it else None)
        for it in self.items:
            made.insert(len(made.items), it.copy())
        return made

    def at(self, path: str) -> Optional[Node]:
        """The node with that path, if it is there."""
        for step in filter(None, path.split("/")):
            found = dict(self.below()).get(step)
            if found is None:
                return None
            self = found
        return self

    def token(self, part: str, value: str) -> None:
        """Gives a token the value, as it is written."""
        if part == "On":
            self.on = value == "true"
        else:
            self.name = value[1:-1]

    def fill(self, part: str, node: Optional[Node]) -> None:
        """Puts the node into an optional."""
        self.optionals[part] = node
        if node:
            node.above = self

    def insert(self, at: int, node: Node) -> None:
        """Puts the node into the list."""
        self.items.insert(at, node)
        node.above = self

    def renew(self, other: Node) -> None:
        """Gives the root what stands below the other one."""
        self.items = []
        for at, it in enumerate(other.items):
            self.insert(at, it)

    def leave(self) -> None:
        """Takes the node away from the one above it."""
        above, step = self.above, self.step()
        assert above is not None
        if step in OPTIONALS:
            above.optionals[step] = None
        else:
            above.items.remove(self)
        self.above = None

    def replace(self, other: Node) -> None:
        """Puts the other node where this one is."""
        above, step = self.above, self.step()
        assert above is not None
        if step in OPTIONALS:
            above.fill(step, other)
        else:
            above.items[above.items.index(self)] = other
            other.above = above
        self.above = None


TOKENS = re.compile(r'"[^"]*"|\w+|\S')


class Term:
    """Reads a term."""

    def __init__(self, text: str) -> None:
        self.tokens: List[str] = TOKENS.findall(text)

    def take(self) -> str:
        return self.tokens.pop(0)

    def node(self) -> Node:
        """The node of the term that is next."""
        made = Node(self.take())
        self.take()
        for part in ("On", "Name") if made.kind != "Root" else ():
            made.token(part, self.take())
            self.take()
        for part in made.optionals:
            made.fill(part, self.filled())
            self.take()
        if made.has_list:
            self.read_list(made)
        return made

    def filled(self) -> Optional[Node]:
        if self.tokens[0] != "-":
            return self.node()
        self.take()
        return None

    def read_list(self, of: Node) -> None:
        """The elements of the list that is next, and the end of its node."""
        while self.take() != "]":
            if self.tokens[0] not in "],":
                of.insert(len(of.items), self.node())
        self.take()


def node_of(term: str) -> Node:
    """The node of a term."""
    return Term(term).node()


def edited(tree: Node, command: str) -> bool:
    """Does the edit; gives whether its places are there."""
    words = command.split(" ")
    node = tree.at(words[1])
    if node is None or not fits(tree, node, words):
        return False
    if words[0] == "token":
        node.token(words[2], words[3])
    elif words[0] == "set" and node is tree:
        tree.renew(node_of(words[2]))
    elif words[0] == "set":
        node.replace(node_of(words[2]))
    elif words[0] == "put":
        node.fill(words[2], node_of(words[3]))
    elif words[0] == "drop":
        node.leave()
    elif words[0] == "insert":
        node.insert(int(words[3]), node_of(words[4]))
    else:
        to = tree.at(words[3])
        node.leave()
        assert to is not None
        to.insert(int(words[5]), node)
    return True


def fits(tree: Node, node: Node, words: List[str]) -> bool:
    """Whether what the edit names is there."""
    if words[0] == "put":
        return node.optionals.get(words[2], node) is None
    if words[0] == "insert":
        return node.has_list and int(words[3]) <= len(node.items)
    if words[0] == "move":
        to = tree.at(words[3])
        return to is not None and to.has_list and to not in list(node.all()) and int(words[5]) <= len(to.items) - (node.above is to)
    return node is not tree or words[0] == "set"


def item(chance: random.Random, depth: int) -> Node:
    """An item by chance, at most so deep."""
    kind = chance.choice(("Leaf", "Pair", "Row")) if depth > 1 else "Leaf"
    made = Node(kind, chance.random() < 0.4, chance.choice(NAMES))
    for part in made.optionals:
        made.fill(part, item(chance, depth - 1) if chance.random() < 0.6 else None)
    for at in range(chance.randrange(3) if kind == "Row" else 0):
        made.insert(at, item(chance, depth - 1))
    return made


def root(chance: random.Random) -> Node:
    """A tree by chance."""
    made = Node("Root")
    for at in range(chance.choice((1, 2, 3, 4, 4, 9))):
        made.insert(at, item(chance, chance.randint(1, 3)))
    return made


class Editing:
    """Commands of edits by chance, which the tree as it stands takes."""

    def __init__(self, tree: Node, chance: random.Random) -> None:
        self.tree, self.chance = tree, chance

    def items(self) -> List[Node]:
        return [it for it in self.tree.all() if it is not self.tree]

    def command(self) -> str:
        """An edit by chance."""
        kinds = (self.token, self.token, self.token, self.set, self.put, self.drop, self.insert, self.move)
        while True:
            command = self.chance.choice(kinds)()
            if command:
                return command

    def new(self) -> str:
        """The term of a new item."""
        room = len(self.items()) < MOST_NODES
        return item(self.chance, self.chance.randint(1, 3) if room else 1).term()

    def token(self) -> str:
        node = self.chance.choice(self.items())
        if self.chance.random() < 0.4:
            return f'token {node.path()} Name "{self.chance.choice(NAMES)}"'
        return f"token {node.path()} On {str(self.chance.choice((node.on, not node.on, not node.on))).lower()}"

    def set(self) -> str:
        if self.chance.random() < 0.05:
            return f"set / {root(self.chance).term()}"
        return f"set {self.chance.choice(self.items()).path()} {self.new()}"

    def put(self) -> Optional[str]:
        empty = [f"{it.path()} {part}" for it in self.items() for part, node in it.optionals.items() if node is None]
        return f"put {self.chance.choice(empty)} {self.new()}" if empty else None

    def drop(self) -> Optional[str]:
        node = self.chance.choice(self.items())
        return f"drop {node.path()}" if len(self.tree.items) > 1 or node.above is not self.tree else None

    def insert(self) -> str:
        node = self.chance.choice([it for it in self.tree.all() if it.has_list])
        return f"insert {node.path()} Item {self.chance.randint(0, len(node.items))} {self.new()}"

    def move(self) -> Optional[str]:
        movable = [it for it in self.items() if it.step() not in OPTIONALS]
        node = self.chance.choice(movable)
        inside = list(node.all())
        to = self.chance.choice([it for it in self.tree.all() if it.has_list and it not in inside])
        most = len(to.items) - (to is node.above)
        if node.above is self.tree and len(self.tree.items) == 1:
            return None
        return f"move {node.path()} to {to.path()} Item {self.chance.randint(0, most)}"
