"""Surveys: one attribute of all nodes of a class, asked again after each edit."""
from __future__ import annotations

from dataclasses import dataclass, field
from typing import Any, List, Optional, Tuple

from attrd import Grammar, commands
from attrd.replies import Circular, Fault, Reply, Value

from .mirror import Item, Mirror
from .views import Json, brief

# So many nodes are asked at most, in the order of the tree; so many that aren't empty are shown.
ASKED, SHOWN = 5_000, 10
EMPTY: Tuple[Any, ...] = (None, "", 0, False)


@dataclass(eq=False)
class Survey:
    """An attribute without parameters, of all nodes of a class and those below it."""

    number: int
    of: str
    attribute: str
    shown: Json = field(default_factory=dict)

    def items(self, mirror: Mirror) -> List[Item]:
        """The nodes that are asked, in the order of the tree."""
        return nodes_of(mirror, self.of)[:ASKED]

    def command(self, mirror: Mirror, item: Item) -> str:
        """The line that asks it of a node."""
        return commands.ask(mirror.path(item), self.attribute)

    def told(self, mirror: Mirror, items: List[Item], replies: List[Reply]) -> Json:
        """What a window shows of it: how many answers aren't empty, and the first of these."""
        full = [(item, reply) for item, reply in zip(items, replies) if not is_empty(reply)]
        rows = [{"node": {"path": str(mirror.path(item)), **brief(mirror, item)}, "value": _spelled(reply)} for item, reply in full[:SHOWN]]
        more = f", of the first {ASKED:,} nodes" if len(nodes_of(mirror, self.of)) > ASKED else ""
        return {"probe": self.number, "kind": "survey", "attribute": f"{self.attribute}()", "node": None, "of": self.of, "link": None, "rows": rows,
                "value": f"{len(full)} of {len(items)} not empty{more}", "spec": {"survey": self.of, "attribute": self.attribute}}


def nodes_of(mirror: Mirror, name: str) -> List[Item]:
    """The nodes of a class and those below it, in the order of the tree."""
    grammar: Grammar = mirror.grammar
    found, left = [], [mirror.root]
    while left:
        item = left.pop()
        if grammar.is_below(item.name, name):
            found.append(item)
        left.extend(reversed(list(item.below())))
    return found


def is_empty(reply: Optional[Reply]) -> bool:
    """Whether an answer is null, an empty text, 0 or false. A fault and a cycle aren't."""
    return isinstance(reply, Value) and reply.value in EMPTY


def _spelled(reply: Reply) -> str:
    if isinstance(reply, (Fault, Circular)):
        return str(reply)
    return reply.text if isinstance(reply, Value) else str(reply)
