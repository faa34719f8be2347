"""Trees of any grammar by chance, and edits of them that a line may say; some of these are refused."""
from __future__ import annotations

import random
from typing import Callable, List, Optional, Sequence, Tuple

from tools.of_the_program.specs_grammar import Component, Grammar, costs
from tools.of_the_program.specs_trees import Cell, Node, Token, Tree, written

NUMBERS = (0, 0, 1, 1, 2, 9, -1, 2_147_483_647, -2_147_483_648)
# Beyond so many nodes an edit brings few new ones.
MOST_NODES = 150
# How often an edit names what isn't there or doesn't fit, and how often what is new is a copy of what is there.
WRONG, COPIED = 0.06, 0.4


class Growing:
    """Nodes by chance, with tokens that have these texts."""

    def __init__(self, grammar: Grammar, chance: random.Random, texts: Sequence[str]) -> None:
        self.grammar, self.chance, self.texts, self.costs = grammar, chance, texts, costs(grammar)

    def node(self, of: str, size: int) -> Node:
        """A node of that class or one below it, with about so many nodes in all."""
        kinds = self.grammar.concrete[of]
        made = Node(self.chance.choice([it for it in kinds if self.costs[it] <= size] or [min(kinds, key=self.costs.__getitem__)]))
        parts = self.grammar.parts[made.kind]
        open_parts = [it for it in parts if it.form != "token"]
        shares = self.shares(max(0, size - self.costs[made.kind]), len(open_parts))
        for it in parts:
            made.put(it.name, self.token(it.kind) if it.form == "token" else self.cell(it, shares.pop()))
        return made

    def shares(self, room: int, count: int) -> List[int]:
        """So much room, cut into so many parts."""
        cuts = sorted(self.chance.randint(0, room) for _ in range(count - 1))
        return [after - before for before, after in zip([0, *cuts], [*cuts, room])] if count else []

    def token(self, kind: str) -> Token:
        """A value of a token."""
        if kind == "String":
            return self.chance.choice(self.texts)
        return self.chance.random() < 0.5 if kind == "boolean" else self.chance.choice(NUMBERS)

    def cell(self, part: Component, room: int) -> Cell:
        """A node, nodes or none, of so many nodes; a child has as many more as it needs at least."""
        cost = self.costs[part.kind]
        if part.form == "child":
            return self.node(part.kind, cost + room)
        if part.form == "optional":
            return self.node(part.kind, room) if cost <= room else None
        found: List[Node] = []
        while cost <= room:
            found.append(self.node(part.kind, self.chance.randint(cost, max(cost, room // self.chance.randint(1, 4)))))
            room -= len(list(found[-1].all()))
        return found


class Editing:
    """Commands of edits by chance, of the tree as it stands."""

    def __init__(self, tree: Tree, growing: Growing, chance: random.Random) -> None:
        self.tree, self.growing, self.chance, self.grammar = tree, growing, chance, tree.grammar

    def command(self) -> str:
        """An edit by chance."""
        kinds: Tuple[Callable[[], Optional[str]], ...] = (self.token, self.token, self.token, self.set, self.put, self.drop, self.insert, self.move)
        while True:
            found = self.chance.choice(kinds)()
            if found:
                return found

    def nodes(self) -> List[Node]:
        return list(self.tree.root.all())

    def is_wrong(self) -> bool:
        """Whether something is wrong in this edit."""
        return self.chance.random() < WRONG

    def with_parts(self, form: str) -> List[Tuple[Node, Component]]:
        """The nodes with components of that form, once with each."""
        return [(node, it) for node in self.nodes() for it in self.grammar.named[node.kind].values() if it.form == form]

    def new(self, of: str) -> str:
        """The term of a node of that class."""
        if self.is_wrong():
            of = self.chance.choice(list(self.growing.costs))
        nodes = self.nodes()
        known = [it for it in nodes if self.grammar.is_below(it.kind, of)]
        room = 1 if len(nodes) > MOST_NODES else 8
        if known and self.chance.random() < COPIED:
            found = self.chance.choice(known)
            if len(list(found.all())) <= 2 * room:
                return found.term()
        return self.growing.node(of, self.chance.randint(1, room)).term()

    def token(self) -> Optional[str]:
        known = self.with_parts("token")
        if not known:
            return None
        node, part = self.chance.choice(known)
        kind = self.chance.choice(("String", "int", "boolean")) if self.is_wrong() else part.kind
        return f"token {node.path()} {part.name} {written(self.growing.token(kind))}"

    def set(self) -> Optional[str]:
        node = self.chance.choice(self.nodes())
        if node.above is None:
            return f"set / {self.growing.node(self.grammar.start, self.chance.randint(1, 40)).term()}" if self.chance.random() < 0.2 else None
        return f"set {node.path()} {self.new(self.grammar.named[node.above.kind][node.part].kind)}"

    def put(self) -> Optional[str]:
        known = [it for it in self.with_parts("optional") if self.is_wrong() or it[0].cells[it[1].name] is None]
        if not known:
            return None
        node, part = self.chance.choice(known)
        return f"put {node.path()} {part.name} {self.new(part.kind)}"

    def drop(self) -> Optional[str]:
        node = self.chance.choice(self.nodes())
        if node.above is None or self.grammar.named[node.above.kind][node.part].form == "child":
            return f"drop {node.path()}" if self.is_wrong() else None
        return f"drop {node.path()}"

    def insert(self) -> Optional[str]:
        known = self.with_parts("list")
        if not known:
            return None
        node, part = self.chance.choice(known)
        most = len(node.list(part.name)) + (2 if self.is_wrong() else 0)
        return f"insert {node.path()} {part.name} {self.chance.randint(0, most)} {self.new(part.kind)}"

    def move(self) -> Optional[str]:
        movable = [it for it in self.nodes() if it.is_element() or self.chance.random() < WRONG / 4]
        lists = self.with_parts("list")
        if not movable or not lists:
            return None
        node = self.chance.choice(movable)
        inside = list(node.all())
        fitting = [(to, it) for to, it in lists if to not in inside and self.grammar.is_below(node.kind, it.kind)]
        if self.is_wrong() or self.is_wrong():
            fitting = [it for it in lists if it[0] in inside] or lists
        if not fitting:
            return None
        to, part = self.chance.choice(fitting)
        most = len([it for it in to.list(part.name) if it is not node]) + (2 if self.is_wrong() else 0)
        return f"move {node.path()} to {to.path()} {part.name} {self.chance.randint(0, most)}"
