"""A tree on the server that is known here, and follows what it is to be."""
from __future__ import annotations

import time
from dataclasses import dataclass
from typing import Dict, List, Optional, Sequence, Tuple, Union

from . import commands
from .connection import encoded_line
from .costs import Costs
from .differing import difference
from .edits import Edit, applied
from .errors import OutOfMemory, Refused, TreeDiffers
from .following import followed
from .grammar import Grammar
from .paths import Path
from .replies import Code
from .session import Mark, Session
from .terms import Node, write_term
from .view import View


@dataclass(frozen=True)
class Update:
    """What an update sent: its edits, in their order, and the version behind them."""

    edits: Tuple[Edit, ...]
    version: int


class Document:
    """The server's tree, as its own edits made it. Each edit asks for the version that is known: none goes to another tree."""

    def __init__(self, session: Session, grammar: Grammar, costs: Optional[Costs] = None) -> None:
        """Takes the server's tree. Where no costs are given, `costs` follow what the edits take on this server.

        A server that was started here with a Node has that tree until its first edit: then nothing is read back. Raises as
        `Session.show`, and TermFault where the grammar isn't the server's.
        """
        self.session, self.grammar = session, grammar
        self.costs, self._learns = costs or Costs(), costs is None
        self.tree, self.version = self._known() or self._read()
        self.edits: Tuple[Edit, ...] = ()
        """The edits of the last update, as far as they were accepted."""
        self._places: Dict[str, Path] = {}
        self._marks: Dict[str, Mark] = {}

    @property
    def view(self) -> View:
        """The tree that is known, whose cells are read by their names."""
        return View(self.grammar, self.tree)

    @property
    def nodes(self) -> int:
        """How many nodes the tree may have, as far as that is known here."""
        return self.session.connection.nodes

    @property
    def marks(self) -> Dict[str, Mark]:
        """The marks of this document, by their names: those whose nodes are there."""
        return {name: self._marks[name] for name in self._places}

    @property
    def places(self) -> Dict[str, Path]:
        """Where they are, as the edits of this document leave them: nothing is asked."""
        return dict(self._places)

    def mark(self, name: str, place: Union[str, Path, View]) -> Mark:
        """Marks a node under a name, and follows it here too, so that it can be marked again after a restart.

        Raises as `Session.mark`, and Refused with Code.STALE where another session has edited the tree.
        """
        path = place.place if isinstance(place, View) else place if isinstance(place, Path) else Path.read(place)
        mark = self.session.mark(path, name, at=self.version)
        self._marks[name], self._places[name] = mark, path
        return mark

    def unmark(self, name: str) -> None:
        """Removes a mark of this document; one that it hasn't is passed over."""
        self._places.pop(name, None)
        mark = self._marks.pop(name, None)
        if mark is not None:
            mark.release()

    def reopen(self, session: Session) -> Update:
        """Goes on with another server, after a restart: makes its tree the one that is known here, and sets the marks again.

        They have their names and stand where they stood; `marks` has the new ones. Raises as the constructor and `update`.
        """
        wanted, places = self.tree, self._places
        self.session, self._marks, self._places = session, {}, {}
        self.tree, self.version = self._known() or self._read()
        update = self.update(wanted)
        for name, path in places.items():
            session.send(commands.unmark(name)).reply()
            self.mark(name, path)
        return update

    def _follow(self, edits: Sequence[Edit]) -> None:
        """Has the marks where these edits leave them."""
        self.edits = tuple(edits)
        for edit in edits:
            places = {name: followed(path, edit) for name, path in self._places.items()}
            self._places = {name: path for name, path in places.items() if path is not None}

    def _known(self) -> Optional[Tuple[Node, int]]:
        """The tree that the server was started with, where it has had no edit, and its version; None where it isn't known."""
        tree = self.session.connection.started_with
        if tree is None or self.session.version() != 0:
            return None
        self.grammar.check(tree, nodes=self.nodes)
        return tree, 0

    def _read(self) -> Tuple[Node, int]:
        while True:
            version = self.session.version()
            try:
                tree = self.session.show("/", at=version)
            except Refused as refusal:
                if refusal.code != Code.STALE:
                    raise
                continue
            self.grammar.check(tree, nodes=max(self.nodes, tree.size))
            return tree, version

    def update(self, new: Node) -> Update:
        """Makes the server's tree this one, by few edits: all of them are sent before the first reply is waited for.

        Raises TermFault before anything is sent, where the tree doesn't fit; Refused with Code.STALE where another session has
        edited the tree (then `refresh` and try again); OutOfMemory (then it may be tried again); what else `Session` raises.
        `tree` and `version` are what is known afterwards, also then: the edits up to the first refused one.
        """
        self.grammar.check(new, nodes=self.nodes)
        return self.send(difference(self.grammar, self.tree, new, self.costs, self.nodes), new)

    def send(self, edits: List[Edit], new: Node) -> Update:
        """Sends edits that make the tree this one. Raises as `update`, and LineFault before anything is sent."""
        texts = [edit.command() for edit in edits]
        for text in texts:
            encoded_line(f"{self.session.number} at {self.version + len(texts)} {text}")
        begun, since = self.version, time.perf_counter()
        lines = [self.session.send(text, at=begun + number) for number, text in enumerate(texts)]
        try:
            for line in lines:
                self.version = line.version()
        except (Refused, OutOfMemory):
            self.tree = applied(self.grammar, self.tree, edits[:self.version - begun])
            self._follow(edits[:self.version - begun])
            raise
        self.tree = new
        self._follow(edits)
        if self._learns and lines:
            self.costs = self.costs.after(edits, lines[-1].received - since)
        return Update(tuple(edits), self.version)

    def refresh(self) -> None:
        """Takes the server's tree as it is now, whoever has edited it, and asks where the marks are. Raises as the constructor."""
        self.tree, self.version = self._read()
        self.edits = ()
        self._places = {name: mark.where() for name, mark in self._marks.items() if mark.is_there()}

    def verify(self) -> None:
        """Compares the tree that is known with the server's. Raises TreeDiffers with the first place; nothing is changed."""
        tree, _ = self._read()
        if tree != self.tree:
            raise TreeDiffers(*first_difference(self.grammar, self.tree, tree))


def first_difference(grammar: Grammar, known: Node, shown: Node) -> Tuple[str, str, str]:
    """The path to the first node that differs by itself, and its two terms."""
    path = Path()
    while known.name == shown.name:
        ours, theirs = list(grammar.children(known)), list(grammar.children(shown))
        if [step for step, _ in ours] != [step for step, _ in theirs]:
            break
        below = next(((step, x, y) for (step, x), (_, y) in zip(ours, theirs) if x != y), None)
        if below is None:
            break
        step, known, shown = below
        path = path.child(step.part, step.index)
    return str(path), write_term(known), write_term(shown)
