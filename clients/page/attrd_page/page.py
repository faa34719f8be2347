"""What all windows share: the hub, the tree that is known, and the count of the work."""
from __future__ import annotations

import asyncio
from collections import deque
from contextlib import suppress
from pathlib import Path as FilePath
from typing import TYPE_CHECKING, Callable, Deque, List, Optional, Sequence, Set

from attrd import Grammar, ProtocolFault, forms_options, write_term
from attrd.authoring import Source, Specification
from attrd.declarations import Attribute, attributes_of
from attrd.grammar import read_file
from attrd.terms import read_term

from . import work
from .hub import Hub, Member
from .mirror import Astray, Change, Mirror
from .views import Json
from .window import Window

if TYPE_CHECKING:
    from .source import SourceText

# How many edits a window that comes later is told.
EDITS = 100


class Page:
    """The windows over one hub. `names` are those of the files."""

    def __init__(self, hub: Hub, files: Sequence[str], program: Optional[str], source: Optional[SourceText] = None, forms: str = "") -> None:
        """`files` are the grammar, the tree and the aspects, in which these forms are read; `program` counts the work, if it is there. Raises
        AttrdError."""
        self.source = source
        self.hub, self.files = hub, list(files)
        self.program = None if program is None else [program, *forms_options(forms)]
        self.grammar = Grammar.load(files[0], forms)
        sources = [Source(FilePath(name).name, read_file(name).decode("utf-8", "replace")) for name in (files[0], *files[2:])]
        self.specification = Specification(sources[0], sources[1:], forms)
        self.attributes: List[Attribute] = [it for source in sources[1:] for it in attributes_of(source.text)]
        self.names = [FilePath(it).name for it in files]
        self.mirror: Mirror
        self.windows: Set[Window] = set()
        self.edits: Deque[Json] = deque(maxlen=EDITS)
        self._count = 0
        self._member = hub.member()
        self._is_astray = True
        self._counting: Optional[asyncio.Task[None]] = None
        self._next_copy: Optional[work.Copy] = None
        self._copies: work.Processes = set()
        hub.watchers.append(self._watch)
        hub.on_members = self._tell_clients

    async def begin(self) -> None:
        """Asks for the tree. Raises ServerLost."""
        self._resync()
        await self._member.reply("version")
        if self.source is not None:
            self.source.match(self.mirror, self.hub.version)

    async def empty(self) -> None:
        """Closes all windows, and waits until all that they have sent is answered. Raises ServerLost."""
        for window in list(self.windows):
            self.close(window)
        await self._member.reply("version")

    def tell_source(self, but: Optional[Window] = None) -> None:
        """Tells all windows of the source text; one of them without the text, since it stands there."""
        if self.source is None:
            return
        told = self.source.view(self.mirror, self.hub.version)
        for window in list(self.windows):
            window.tell({**told, "text": None} if window is but else told)

    async def end(self) -> None:
        """Counts no more work, and waits until no copy runs."""
        self.program = None
        for process in self._copies:
            with suppress(ProcessLookupError):
                process.kill()
        if self._counting is not None:
            await asyncio.wait([self._counting])

    def _resync(self) -> None:
        """Asks for the whole tree. The reply is taken at its place among the replies, so no edit is missed or counted twice."""
        self._is_astray = True
        self._member.send(0, b"show /", self._take)

    def _take(self, form: bytes) -> None:
        if not form.startswith(b"= "):
            raise ProtocolFault(f"{form[:100]!r} is no reply to show /")
        tree = read_term(form[2:].decode("utf-8"))
        self._is_astray = False
        if hasattr(self, "mirror"):
            self.mirror.reset(tree)
        else:
            self.mirror = Mirror(self.grammar, tree)
        for window in list(self.windows):
            window.tree_is_new()

    def window(self, tell: Callable[[Json], None]) -> Window:
        """A window that has just been opened."""
        self._count += 1
        window = Window(self, self._count, tell)
        self.windows.add(window)
        window.greet()
        if self.source is not None:
            window.tell(self.source.view(self.mirror, self.hub.version))
        self._tell_clients()
        return window

    def close(self, window: Window) -> None:
        """A window is closed."""
        self.windows.discard(window)
        window.leave()

    @property
    def clients(self) -> int:
        """How many clients share the server: windows, and whoever came over the hub's socket."""
        return len(self.hub.members) - 1

    def tell_files(self, fault: str) -> None:
        """Has all windows show that a file as it is now isn't taken."""
        self._tell_all({"kind": "files", "text": fault})

    def _tell_clients(self) -> None:
        self._tell_all({"kind": "clients", "clients": self.clients})

    def _tell_all(self, message: Json) -> None:
        for window in list(self.windows):
            window.tell(message)

    def _watch(self, member: Optional[Member], session: int, command: bytes, version: int) -> None:
        if self._is_astray:
            return
        copy = self._copy(version)
        try:
            change = self.mirror.follow(session, command.decode("utf-8"))
        except Astray:
            self._resync()
            return
        if change is None:
            return
        items = {it.number for it in change.items}
        above = {it.above.number for it in change.items if it.above is not None}
        self._note(member, version, change)
        for window in list(self.windows):
            window.edited(items | above, change, self._edited(window, member, version, change), window.member is member)
        if self.source is not None and self.source.version is not None:
            self._source_is_behind(version)
        if copy is not None:
            self._count_work(work.Copy(version, copy.term, copy.marks, copy.questions, change.line))

    def _source_is_behind(self, version: int) -> None:
        """The tree was edited: it is that of the text no more, unless the text is just being sent."""
        assert self.source is not None
        if self.source.version is not None and version > self.source.version:
            self.source.version = None
            self.tell_source()

    def _note(self, member: Optional[Member], version: int, change: Change) -> None:
        """Notes an edit, for windows that come later."""
        by = next((it.number for it in self.windows if it.member is member), None)
        who = f"window {by}" if by is not None else "another client"
        self.edits.append({"kind": "edited", "version": version, "line": change.line[:200], "by": who})

    def _edited(self, window: Window, member: Optional[Member], version: int, change: Change) -> Json:
        by = next((it.number for it in self.windows if it.member is member), None)
        who = "this window" if by == window.number else f"window {by}" if by is not None else "another client"
        return {"kind": "edited", "version": version, "line": change.line[:200], "by": who}

    def _copy(self, version: int) -> Optional[work.Copy]:
        """What there is before an edit, where its work is to be counted."""
        probes = [(window.member, it) for window in self.windows for it in window.probes.probes.values()]
        if self.program is None or not probes or len(self.mirror.items) > work.NODES:
            return None
        marks: List[str] = []
        questions: List[str] = []
        for member, probe in probes:
            session = member.session(probe.session)
            items = [self.mirror.marks.get((session, it)) for it in probe.names]
            if all(it is not None and it.number in self.mirror.items for it in items):
                marks += [f"{session} mark {name} {self.mirror.path(it)}" for name, it in zip(probe.names, items) if it is not None]
                questions.append(f"{session} {probe.question}")
        return work.Copy(version, write_term(self.mirror.term(self.mirror.root)), marks, questions, "")

    def _count_work(self, copy: work.Copy) -> None:
        """Counts on a copy, one edit at a time. Of edits that come meanwhile the last one is counted."""
        self._next_copy = copy
        if self._counting is None or self._counting.done():
            self._counting = asyncio.ensure_future(self._counts())

    async def _counts(self) -> None:
        while self._next_copy is not None and self.program is not None:
            copy, self._next_copy = self._next_copy, None
            found = await work.count(self.program, self.files[0], self.files[2:], copy, self._copies)
            if found is not None:
                self._tell_all({"kind": "work", "version": copy.version, "evaluated": found, "probes": len(copy.questions)})
