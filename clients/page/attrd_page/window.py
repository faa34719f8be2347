"""One window of a browser: which nodes it shows, its probes, and its edits."""
from __future__ import annotations

import asyncio
import time
from typing import TYPE_CHECKING, Any, Callable, Dict, List, Optional, Set

from attrd import AttrdError, Path, commands
from attrd.replies import Code, Ok, RefusedReply, Reply
from attrd.why import read_instance

from .editing import Asked, edit_command, item_of
from .explaining import explained
from .mirror import Change, Inverse, Item
from .probes import Probes, Round
from .views import Json, attributes_of, brief, detail, view

if TYPE_CHECKING:
    from .page import Page

ROWS, FIRST_ROWS = 200, 40
TRIES = 8


class Window:
    """Tells a browser of nodes, probes and edits by `tell`, and does what it asks for."""

    def __init__(self, page: Page, number: int, tell: Callable[[Json], None]) -> None:
        self.page, self.number, self.tell = page, number, tell
        self.member = page.hub.member(on_lost=self._lost)
        self.probes = Probes(page.hub, self.member, page.mirror, self._plain)
        self.opened: Dict[int, int] = {}
        self.selected: Optional[int] = None
        self._round: Optional[asyncio.Task[None]] = None
        self._is_due = False
        self._doing: Dict[str, Callable[[Json], Any]] = {
            "open": self._open, "close": self._close, "more": self._more, "select": self._select, "reveal": self._reveal,
            "probe": self._probe, "unprobe": self._unprobe, "edit": self._edit,
            "undo": self._undo, "survey": self._survey, "why": self._why, "source": self._source}
        self._undone: List[Inverse] = []
        self._taking_back: Optional[Inverse] = None

    def _plain(self, name: str) -> List[str]:
        return [it.name for it in attributes_of(self.page.grammar, name, self.page.attributes) if not it.parameters]

    def greet(self, is_new: bool = True) -> None:
        """Tells the tree's first rows; of a new window the browser asks for the probes that its address has."""
        self._open_first()
        page = self.page
        self.tell({"kind": "hello", "isNew": is_new, "window": self.number, "files": page.names, "version": page.hub.version,
                   "root": page.mirror.root.number, "rootNode": brief(page.mirror, page.mirror.root), "nodes": self._views(self.opened),
                   "edits": list(page.edits)})

    def _open_first(self) -> None:
        left, rows = [self.page.mirror.root], 0
        while left and rows < FIRST_ROWS:
            item = left.pop(0)
            below = list(item.below())
            self.opened[item.number] = ROWS
            rows += min(len(below), ROWS)
            left.extend(below)

    def _views(self, numbers: Any) -> List[Json]:
        items = self.page.mirror.items
        return [view(self.page.mirror, items[it], self.opened[it]) for it in list(numbers) if it in items and it in self.opened]

    def _item(self, number: Any) -> Item:
        """The node of a number. Raises Asked where it is gone."""
        return item_of(self.page.mirror, number)

    async def do(self, message: Json) -> None:
        """Does what a message asks for; what goes wrong is told. Raises ServerLost."""
        act = self._doing.get(str(message.get("do")))
        try:
            if act is None:
                raise Asked(f"there is nothing of the name {message.get('do')!r} to do")
            result = act(message)
            if asyncio.iscoroutine(result):
                await result
        except AttrdError as fault:
            if self.page.hub.lost is not None:
                raise
            self.tell({"kind": "refused", "text": str(fault)})
        except (KeyError, TypeError, ValueError, RecursionError) as fault:
            self.tell({"kind": "refused", "text": f"this can't be read: {type(fault).__name__} {fault}"})

    def _open(self, message: Json) -> None:
        item = self._item(message["id"])
        self.opened.setdefault(item.number, ROWS)
        self.tell({"kind": "nodes", "nodes": self._views([item.number])})

    def _close(self, message: Json) -> None:
        self.opened.pop(message["id"], None)

    def _more(self, message: Json) -> None:
        item = self._item(message["id"])
        self.opened[item.number] = self.opened.get(item.number, 0) + ROWS
        self.tell({"kind": "nodes", "nodes": self._views([item.number])})

    def _select(self, message: Json) -> None:
        self.selected = self._item(message["id"]).number
        self._tell_detail()

    def _tell_detail(self) -> None:
        item = self.page.mirror.items.get(self.selected or 0)
        told = None if item is None else detail(self.page.mirror, item, self.page.attributes)
        self.tell({"kind": "detail", "detail": told})

    def _reveal(self, message: Json) -> None:
        """Opens all nodes above one, and selects it."""
        item = self._item(message["id"]) if message.get("id") else self.page.mirror.at(Path.read(message["path"]))
        above: List[int] = []
        at = item
        while at.above is not None:
            above.append(at.above.number)
            self.opened[at.above.number] = max(self.opened.get(at.above.number, ROWS), (at.index or 0) + 1)
            at = at.above
        self.selected = item.number
        self.tell({"kind": "nodes", "nodes": self._views(above), "reveal": item.number, "above": above})
        self._tell_detail()

    async def _probe(self, message: Json) -> None:
        item = self._item(message["id"]) if "id" in message else self.page.mirror.at(Path.read(message["path"]))
        name = str(message["attribute"])
        known = next((it for it in self.page.attributes if it.name == name and self.page.grammar.is_below(item.name, it.of)), None)
        if known is None:
            raise Asked(f"{item.name} has no attribute {name}")
        given = list(message.get("arguments") or [])
        if len(given) != len(known.parameters):
            raise Asked(f"{name} has {len(known.parameters)} parameters")
        arguments = [str(text) if kind == "String" else self._node_argument(str(text)) for kind, text in zip(known.parameters, given)]
        await self.probes.add(item, name, arguments, [commands.name_text(it) for it in message.get("then") or []])
        self.ask_again()

    async def _source(self, message: Json) -> None:
        """Takes another source text, and makes the tree that of the text by few edits."""
        source = self.page.source
        if source is None:
            raise Asked("there is no source text: start the page with --source and --parser")
        tree = source.take(str(message["text"]))
        for _ in range(TRIES):
            if tree is None or await source.send(tree, self.member, self.page.hub, self.page.mirror):
                break
        self.page.tell_source(self)

    async def _why(self, message: Json) -> None:
        """Tells where the value of an instance comes from; `to` says to the browser what had asked."""
        mirror, hub = self.page.mirror, self.page.hub
        told = await explained(self.member, self.page.specification, mirror.term(mirror.root), hub.version, read_instance(str(message["instance"])))
        self.tell({**told, "to": message.get("to")})

    def _survey(self, message: Json) -> None:
        of, name = self.page.grammar.class_named(str(message["of"])).name, str(message["attribute"])
        if name not in self._plain(of):
            raise Asked(f"{of} has no attribute {name} without parameters")
        self.probes.survey(of, name)
        self.ask_again()

    def _node_argument(self, text: str) -> Optional[Item]:
        """An argument of a class kind: the node at a path, or None for null. Raises AttrdError."""
        return None if text.strip() in ("", "null") else self.page.mirror.at(Path.read(text.strip()))

    async def _unprobe(self, message: Json) -> None:
        await self.probes.remove(int(message["probe"]))
        self.tell({"kind": "unprobed", "probe": int(message["probe"])})

    async def _edit(self, message: Json) -> None:
        """Sends an edit of a node, wherever the node is by then."""
        await self._send_edit(lambda: edit_command(self.page.mirror, message))

    async def _undo(self, message: Json) -> None:
        """Takes the last edit of this window back that isn't taken back yet."""
        if not self._undone:
            raise Asked("there is no edit of this window to take back")
        inverse = self._taking_back = self._undone.pop()
        try:
            await self._send_edit(lambda: self.page.mirror.inverse_command(inverse))
        finally:
            self._taking_back = None
            self._tell_undo()

    def _tell_undo(self) -> None:
        self.tell({"kind": "undo", "edits": len(self._undone)})

    async def _send_edit(self, spelled: Callable[[], str]) -> None:
        """Sends the line of an edit, spelled anew where another client was faster. Raises Asked where it is refused."""
        start = time.perf_counter()
        for _ in range(TRIES):
            command = spelled()
            reply: Reply = await self.member.reply(f"at {self.page.hub.version} {command}")
            if not (isinstance(reply, RefusedReply) and reply.code is Code.STALE):
                break
        if isinstance(reply, Ok):
            self.tell({"kind": "accepted", "milliseconds": (time.perf_counter() - start) * 1000, "version": reply.version})
        else:
            raise Asked(f"{reply} ({command[:200]})")

    def edited(self, items: Set[int], change: Change, told: Json, is_own: bool) -> None:
        """An edit was accepted, of whichever client: the rows that changed, and then the probes.

        What was open or selected and was replaced is so no less in its new form. An edit of this window can be taken back.
        """
        known, became = self.page.mirror.items, change.became
        if is_own and self._taking_back is None:
            self._undone.append(change.inverse)
            self._tell_undo()
        if became is not None:
            old, new = became
            items = items | {new}
            self.selected = new if self.selected == old else self.selected
            if old in self.opened:
                self.opened[new] = self.opened[old]
            told = {**told, "became": became}
        self.opened = {it: limit for it, limit in self.opened.items() if it in known}
        self.opened.setdefault(self.page.mirror.root.number, ROWS)
        self.tell({**told, "nodes": self._views(items), "rootNode": brief(self.page.mirror, self.page.mirror.root)})
        if self.selected is not None:
            self._tell_detail()
        self.ask_again()

    def tree_is_new(self) -> None:
        """The tree was asked for as a whole: all nodes have other numbers."""
        self.opened.clear()
        self.selected = None
        self.greet(False)
        self.ask_again()

    def ask_again(self) -> None:
        """Has the probes asked: once more behind the round that is under way, where one is."""
        self._is_due = True
        if self._round is None or self._round.done():
            self._round = asyncio.ensure_future(self._rounds())

    async def _rounds(self) -> None:
        while self._is_due and self.page.hub.lost is None:
            self._is_due = False
            try:
                self._tell_round(await self.probes.round())
            except AttrdError as fault:
                if self.page.hub.lost is None:
                    self.tell({"kind": "refused", "text": str(fault)})

    def _tell_round(self, told: Round) -> None:
        self.tell({"kind": "probes", "version": told.version, "milliseconds": told.seconds * 1000, "asked": len(self.probes.probes) + len(self.probes.surveys),
                   "probes": told.probes})

    def _lost(self) -> None:
        self.tell({"kind": "lost", "text": str(self.page.hub.lost)})

    def leave(self) -> None:
        """The browser's window is closed: its marks go."""
        if self._round is not None:
            self._round.cancel()
        self.member.leave()
