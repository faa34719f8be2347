"""The attributes that all items have (`COMMON` of `circular_aspects`), with what their evaluation looks at and asks for."""
from __future__ import annotations

from dataclasses import dataclass, field
from typing import Callable, Dict, Iterator, List, Optional, Set, Tuple, Union

from tools.of_the_program.circular_trees import Node

Argument = Union[Node, str, None]
# A node, the name of an attribute, and its arguments.
Instance = Tuple[Node, str, Tuple[Argument, ...]]
# What can be looked at of a node: its class, its place, its index, a component or a token.
Location = Tuple[Node, str]


@dataclass
class Seen:
    """What an evaluation looks at, and the instances whose outcomes it asks for."""

    reads: Set[Location] = field(default_factory=set)
    asks: List[Instance] = field(default_factory=list)

    def of(self, instance: Instance) -> None:
        """The evaluation of that instance begins."""
        self.reads.update((it, "class") for it in (instance[0], *instance[2]) if isinstance(it, Node))

    def passed(self, nodes: List[Node], above: Node) -> None:
        """An equation of the node above is found for the first of these, and below it the others are passed."""
        self.reads.update((it, what) for it in nodes for what in ("class", "place"))
        self.reads.add((above, "class"))


def climbed(node: Node) -> Iterator[Tuple[Node, List[Node]]]:
    """The nodes above, each with the node and those that are passed below it, the lowest last."""
    nodes: List[Node] = []
    while node.above is not None:
        nodes.insert(0, node)
        yield node.above, list(nodes)
        node = node.above


def root(seen: Seen, node: Node) -> Optional[Node]:
    above, nodes = list(climbed(node))[-1]
    seen.passed(nodes, above)
    return above


def to(seen: Seen, node: Node) -> Optional[Node]:
    top = list(climbed(node))[-1][0]
    seen.asks += [(node, "root", ()), (top, "item", (node.name,))]
    seen.reads.add((node, "Name"))
    return next((it for it in top.items if it.name == node.name), None)


def item(seen: Seen, node: Node, name: str) -> Optional[Node]:
    seen.reads.add((node, "Item"))
    for it in node.items:
        seen.reads.add((it, "Name"))
        if it.name == name:
            return it
    return None


def after(seen: Seen, node: Node) -> Optional[Node]:
    above, nodes = next((above, nodes) for above, nodes in climbed(node) if above.kind != "Pair" or nodes[0].step() == "Left")
    seen.passed(nodes, above)
    if above.kind == "Pair":
        seen.reads.add((above, "Right"))
        found = above.optionals["Right"]
    else:
        seen.reads.update([(nodes[0], "index"), (above, "Item")])
        found = dict(above.below()).get(f"Item:{above.items.index(nodes[0]) + 1}")
    if found is None and above.above is not None:
        seen.asks.append((above, "after", ()))
        return after(Seen(), above)
    return found


WAYS: Dict[str, Callable[..., Optional[Node]]] = {"root": root, "to": to, "item": item, "after": after}


def way(seen: Seen, instance: Instance) -> Optional[Node]:
    """The value of such an instance, with what is seen for it."""
    seen.of(instance)
    return WAYS[instance[1]](seen, instance[0], *instance[2])
