"""Finds all faults of a tree: an aspect that counts them, and a search that goes down where the count isn't 0."""
from __future__ import annotations

from dataclasses import dataclass, field
from typing import Dict, Iterable, List, Optional, Sequence, Set, Tuple

from . import commands
from .connection import Pending
from .counting import Counting, accessors, free
from .declarations import Attribute, attributes_of
from .document import Document
from .edits import Edit
from .errors import AspectFault, ProtocolFault
from .following import followed
from .grammar import Grammar
from .paths import Path, Step
from .replies import Answer, Circular, Fault, Value
from .server import Text
from .terms import Node


@dataclass(frozen=True)
class Check:
    """An attribute that tells a fault of its node: a text that isn't empty, a boolean that is true, an int that isn't 0, a node
    that is null."""

    of: str
    name: str
    kind: str

    def count(self) -> str:
        """The expression that is 1 where there is a fault, and else 0."""
        test = {"String": f'{self.name}().equals("") ? 0 : 1', "boolean": f"{self.name}() ? 1 : 0", "int": f"{self.name}() == 0 ? 0 : 1"}
        return f"({test.get(self.kind, f'{self.name}() == null ? 1 : 0')})"

    def told(self, value: object) -> Optional[str]:
        """The fault that a value tells, or None where it tells none."""
        if self.kind == "String":
            return str(value) if value else None
        if self.kind == "boolean":
            return self.name if value is True else None
        if self.kind == "int":
            return f"{self.name} is {value}" if value != 0 else None
        return f"{self.name} is null" if value is None else None


@dataclass(frozen=True)
class Diagnostic:
    """A fault at a node. `has_value` is False where the attribute itself has no value: it met a fault, or a cycle."""

    path: Path
    attribute: str
    message: str
    has_value: bool = True


# What was asked of a node: checks, each with its line.
Own = List[Tuple[Check, Pending]]
# The faults of nodes that were asked.
Known = Dict[Path, List[Diagnostic]]


class Diagnostics:
    """The checks over a grammar. `aspect` is the file that counts; it has to be among the aspects of the server."""

    def __init__(self, grammar: Grammar, checks: Sequence[Check], taken: Iterable[str] = ()) -> None:
        """`taken` are names of attributes that the count must not have. Raises AspectFault where a class isn't declared."""
        for it in checks:
            if it.of not in grammar:
                raise AspectFault(f"{it.of}.{it.name}: there is no class {it.of}")
        self.grammar, self.checks = grammar, tuple(checks)
        self._taken = {*taken, *(it.name for it in checks), *accessors(grammar)}
        self.count = free("faultCount", self._taken)
        self._of_class = {it.name: self._checks_of(it.name) for it in grammar}

    @property
    def aspect(self) -> Text:
        """The aspect: for each class how many of its checks tell a fault, and how many do below it."""
        counting = Counting(self.grammar, self.count, lambda name: [it.count() for it in self._of_class[name]], self._taken)
        return Text(f"{self.count}.jrag", "aspect FaultCount {\n" + "\n".join(counting.lines()) + "\n}\n")

    def _checks_of(self, name: str) -> Tuple[Check, ...]:
        return tuple(it for it in self.checks if self.grammar.is_below(name, it.of))

    def total(self, document: Document) -> Answer:
        """How many faults the tree has: one question. Raises as `Session.ask`."""
        return document.session.ask("/", self.count, at=document.version)

    def find(self, document: Document, before: Iterable[Diagnostic] = ()) -> List[Diagnostic]:
        """All faults of the tree that the document knows, in the order of the tree.

        With `before`, the faults that were found last, their nodes are asked first, also where the last edits have left
        them: where they have all that the root counts, nothing else is asked. Else it goes down, a level after the
        other, where the count of a node isn't 0, or where it has none: a fault or a cycle below takes the counts above
        it away. It looks first where faults were or an edit was. A node's own attributes are asked only where its count
        isn't made up below. Raises Refused with Code.STALE where another session has edited the tree, and what
        `Session.ask` raises.
        """
        root = self._asked(document, Path(), document.tree)
        lines = self._standing(document, before)
        known = {path: _all_told(path, own) for path, own in lines.items()}
        if root.number != sum(map(len, known.values())):
            near = [*(path for path, told in known.items() if told), *(it.path for it in document.edits)]
            known = self._search(document, root, known, _steps_to(near))
        found = [fault for told in known.values() for fault in told]
        return sorted(found, key=lambda it: _place(self.grammar, document.tree, it.path))

    def _standing(self, document: Document, before: Iterable[Diagnostic]) -> Dict[Path, Own]:
        """What is asked of the nodes that had faults, where they were and where the last edits left them."""
        were = dict.fromkeys(it.path for it in before)
        are = (_followed(it, document.edits) for it in were)
        nodes = {it: self.grammar.node_at(document.tree, it) for it in (*were, *are) if it is not None}
        return {path: self._own(document, path, node) for path, node in nodes.items() if node is not None}

    def _search(self, document: Document, root: "_Counted", known: Known, likely: Dict[Path, Set[Step]]) -> Known:
        """The faults by their nodes: `known` are those of nodes that were asked; `likely` tells where to look first.

        Where the known ones at a node and below it are as many as it counts, nothing is asked there."""
        standing = _by_ancestors(known)
        found: Known = {}
        level: List[_Counted] = [root]
        due: List[_Counted] = []
        while level or due:
            wrong: List[_Counted] = []
            for it in level:
                there = {path: known[path] for path in standing.get(it.path, ())}
                if it.number == sum(map(len, there.values())):
                    found.update(there)
                else:
                    wrong.append(it)
            lines = {it.path: self._own(document, it.path, it.node) for it in due if it.path not in known}
            for it in wrong:
                self._ask_below(document, it, likely.get(it.path, set()), True)
            known = {**known, **{path: _all_told(path, own) for path, own in lines.items()}}
            found.update((it.path, known[it.path]) for it in due)
            for it in wrong:
                if not it.is_made_up(known):
                    self._ask_below(document, it, likely.get(it.path, set()), False)
            due = [it for it in wrong if it.path in known or not it.is_made_up(known)]
            level = [below for it in wrong for below in it.below]
        return found

    def _own(self, document: Document, path: Path, node: Node) -> Own:
        """What is asked of a node itself."""
        return [(check, self._ask(document, path, check.name)) for check in self._of_class[node.name]]

    def _ask(self, document: Document, path: Path, attribute: str) -> Pending:
        return document.session.send(commands.ask(path, attribute), at=document.version)

    def _asked(self, document: Document, path: Path, node: Node) -> "_Counted":
        return _Counted(path, node, self._ask(document, path, self.count))

    def _ask_below(self, document: Document, it: "_Counted", likely: Set[Step], is_likely: bool) -> None:
        """Asks the counts of the nodes below to which likely steps lead, all without such steps; or of the others."""
        if likely or is_likely:
            children = self.grammar.children(it.node)
            below = [(step, node) for step, node in children if not likely or (step in likely) is is_likely]
            it.below += [self._asked(document, it.path.child(*step), node) for step, node in below]


@dataclass
class _Counted:
    """A node whose count was asked; and where it isn't 0, nodes below whose counts were asked."""

    path: Path
    node: Node
    line: Pending
    below: List["_Counted"] = field(default_factory=list)

    @property
    def number(self) -> Optional[int]:
        """How many faults there are, or None where the count has no value. Waits for the answer, and raises as that does."""
        answer = _answer(self.line)
        return int(answer.text) if isinstance(answer, Value) else None

    def is_made_up(self, known: Known) -> bool:
        """Whether the faults of the node that are known and those counted below are all that there are."""
        own = len(known.get(self.path, ()))
        return self.number is not None and self.number == own + sum(it.number or 0 for it in self.below)


def _all_told(path: Path, own: Own) -> List[Diagnostic]:
    """The faults of a node itself, by what was asked of it."""
    return [fault for check, line in own for fault in _told(path, check, _answer(line))]


def _followed(path: Path, edits: Iterable[Edit]) -> Optional[Path]:
    """Where a node is behind these edits; None where it is gone."""
    at: Optional[Path] = path
    for it in edits:
        at = None if at is None else followed(at, it)
    return at


def _by_ancestors(known: Known) -> Dict[Path, List[Path]]:
    """For each node with a fault at it or below it the nodes of these faults."""
    found: Dict[Path, List[Path]] = {}
    for path, told in known.items():
        for at in range(len(path.steps) + 1 if told else 0):
            found.setdefault(Path(path.steps[:at]), []).append(path)
    return found


def _steps_to(paths: Iterable[Path]) -> Dict[Path, Set[Step]]:
    """For each node on the way to these the steps that lead on."""
    found: Dict[Path, Set[Step]] = {}
    for path in paths:
        for at, step in enumerate(path.steps):
            found.setdefault(Path(path.steps[:at]), set()).add(step)
    return found


def diagnostics(grammar: Grammar, aspects: Iterable[str], names: Iterable[str]) -> Diagnostics:
    """The checks that aspects declare under these names: texts of aspects, and names of attributes without parameters.

    Raises AspectFault where no aspect declares a name, or one declares it with parameters.
    """
    declared = [it for text in aspects for it in attributes_of(text)]
    checks: List[Check] = []
    for name in names:
        named = [it for it in declared if it.name == name]
        if not named:
            raise AspectFault(f"no aspect declares an attribute {name}")
        checks.extend(_check(it) for it in named)
    return Diagnostics(grammar, checks, [it.name for it in declared])


def _check(attribute: Attribute) -> Check:
    if attribute.parameters:
        raise AspectFault(f"{attribute.of}.{attribute.name} has parameters, so it tells no fault of a node")
    return Check(attribute.of, attribute.name, attribute.kind)


def _answer(line: Pending) -> Answer:
    reply = line.accepted()
    if isinstance(reply, (Value, Fault, Circular)):
        return reply
    raise ProtocolFault(f"{reply} is no answer")


def _told(path: Path, check: Check, answer: Answer) -> List[Diagnostic]:
    if not isinstance(answer, Value):
        return [Diagnostic(path, check.name, f"{check.name} has no value: {answer}", False)]
    message = check.told(answer.value)
    return [] if message is None else [Diagnostic(path, check.name, message)]


def _place(grammar: Grammar, tree: Node, path: Path) -> Tuple[Tuple[int, int], ...]:
    """Where a path stands in the order of the tree: a node before those below it, and components in the order of the grammar."""
    key: List[Tuple[int, int]] = []
    for step in path.steps:
        key.append((grammar.classes[tree.name].places[step.part], step.index or 0))
        below = grammar.node_at(tree, Path((step,)))
        assert below is not None
        tree = below
    return tuple(key)
