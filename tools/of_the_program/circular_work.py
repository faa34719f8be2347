"""Which values of circular and lazy attributes are found anew: all that a question leads to and that isn't kept since an earlier one.
Where a circle answers it, it is what the search had come to before: what it looked at, or an equation of that demanded, has an outcome
and leads to it. What is kept goes where an edit touches what it, or what it leads to, looked at."""
from __future__ import annotations

from typing import Dict, Iterator, List, Set, Tuple

from tools.of_the_program.circular_meaning import Meaning
from tools.of_the_program.circular_sessions import Case, instance
from tools.of_the_program.circular_trees import Node, edited, node_of
from tools.of_the_program.circular_ways import WAYS, Instance, Location, Seen, way


class Leading:
    """What instances look at and lead to, on one tree."""

    def __init__(self, meaning: Meaning) -> None:
        self.meaning, self.ways = meaning, dict[Instance, Seen]()

    def seen(self, of: Instance) -> Seen:
        """What is seen in its own evaluation."""
        if of[1] not in WAYS:
            return self.meaning.seen[of]
        if of not in self.ways:
            way(self.ways.setdefault(of, Seen()), of)
        return self.ways[of]

    def comes_to(self, of: Instance) -> List[Instance]:
        """What it asks for, and what its formula leads to."""
        return self.seen(of).asks + ([] if of[1] in WAYS else self.meaning.atoms(of))

    def all(self, of: Instance) -> Set[Instance]:
        """The instance and all that it leads to."""
        found, to_do = {of}, [of]
        while to_do:
            new = [it for it in self.comes_to(to_do.pop()) if it not in found]
            found.update(new)
            to_do += new
        return found

    def support(self, of: Instance) -> Set[Location]:
        """All that it rests on."""
        return {at for it in self.all(of) for at in self.seen(it).reads}


def touched(tree: Node, command: str) -> Iterator[Tuple[Node, str]]:
    """What an edit touches of the tree as it is before; of a node that goes all."""
    words = command.split(" ")
    node = tree.at(words[1])
    assert node is not None
    if words[0] in ("token", "put"):
        yield node, words[2]
    if words[0] == "insert":
        yield from of_list(node)
    if words[0] in ("set", "drop", "move") and node.above is not None:
        part = node.step().partition(":")[0]
        yield from of_list(node.above) if part == "Item" and words[0] != "set" else [(node.above, part)]
    if words[0] in ("set", "drop"):
        yield from ((it, what) for it in node.all() for what in ("class", "place", "index", "On", "Name", "Left", "Right", "Item"))
    if words[0] == "move":
        to = tree.at(words[3])
        assert to is not None
        yield node, "place"
        yield from of_list(to)


def of_list(node: Node) -> List[Tuple[Node, str]]:
    """The list of the node, and the indexes of its elements."""
    return [(node, "Item"), *((it, "index") for it in node.items)]


class Work:
    """The work of the lines of a case, where each question is answered behind its line."""

    def __init__(self, case: Case) -> None:
        self.aspects, self.tree = case.aspects, node_of(case.term)
        self.kept: Dict[Instance, Set[Location]] = {}
        self.done = 0
        self.leading = Leading(Meaning(self.aspects, self.tree))
        for line in case.lines:
            self.follow(line[2:])

    def follow(self, command: str) -> None:
        """Follows a line."""
        word, _, rest = command.partition(" ")
        if word in ("ask", "post", "wait"):
            asked = None if word == "wait" else instance(self.tree, self.aspects, rest)
            if asked is not None:
                self.find(asked)
            return
        gone = set(touched(self.tree, command))
        edited(self.tree, command)
        self.forget(gone)
        self.leading = Leading(Meaning(self.aspects, self.tree))

    def forget(self, gone: Set[Location]) -> None:
        """Forgets what rests on something of this, which an edit touches."""
        self.kept = {it: rests for it, rests in self.kept.items() if not rests & gone}

    def find(self, asked: Instance) -> List[Instance]:
        """Keeps what the question leads to: gives what wasn't kept, which is counted."""
        self.leading.meaning.reach(asked)
        found = [it for it in self.met(asked) if it not in self.kept and self.is_kept(it)]
        self.kept.update((it, self.leading.support(it)) for it in found)
        self.done += len(found)
        return found

    def met(self, asked: Instance) -> Set[Instance]:
        """All that the question leads to; where a circle answers it, all to which its search had come that has an outcome, or is led to by
        what has one."""
        if self.is_settled(asked):
            return self.leading.all(asked)
        looked_at = self.leading.meaning.looked_at(asked)
        settled = [it for by in looked_at for it in (by, *self.leading.seen(by).asks) if self.is_settled(it)]
        return set[Instance]().union(*map(self.leading.all, settled))

    def is_settled(self, of: Instance) -> bool:
        """Whether it has an outcome."""
        return of[1] in WAYS or of in self.leading.meaning.outcomes

    def is_kept(self, of: Instance) -> bool:
        """Whether the instance is of a lazy or circular attribute, and has a value."""
        return self.is_lazy(of) and (of[1] in WAYS or isinstance(self.leading.meaning.outcomes.get(of), bool))

    def is_lazy(self, of: Instance) -> bool:
        """Whether the instance is of a lazy or circular attribute."""
        if of[1] in WAYS:
            return of[1] == "item" or of[1] == "to" and self.aspects.lazy_ways
        attribute = self.aspects.named(of[1])
        return attribute.lazy or attribute.start is not None
