"""A client of the hub, with its sessions and their marks."""
from __future__ import annotations

from functools import partial
from typing import TYPE_CHECKING, Callable, Dict, Optional, Set

if TYPE_CHECKING:
    from .client import Client
    from .hub import Hub, Sink

# The program removes a mark whose node goes, and tells nobody. So when the names that came since the last time take so many bytes, and
# more than all those that were right then, it is asked which of them are still there.
SWEPT = 1 << 16
# What a name takes beside its bytes.
NAME_BYTES = 100
_NO_MARK = b"refused 3 mark"


def _pass_over(_: bytes) -> None:
    """Takes a reply that says nothing more."""


class Member:
    """A client. It numbers its sessions as it likes, from 0 to 999; each of them can have a session of the server to itself.

    When it leaves, the marks of its sessions are taken back before another client has them. `on_lost` is called when the server has
    ended, `on_done` with a posted question's session and answer, `on_swept` when marks that are gone have been looked for.
    `unanswered` counts its lines without a reply, and `is_sweeping` tells whether these marks are being looked for. `client` is the
    connection, where the service has one for it.
    """

    def __init__(self, hub: "Hub", on_lost: Callable[[], None], on_done: Callable[[int, bytes], None]) -> None:
        self.hub = hub
        self.on_lost, self.on_done = on_lost, on_done
        self.unanswered = 0
        self.is_leaving = False
        # So many sessions of the server it leaves to others.
        self.leaves = 0
        self.sessions: Dict[int, int] = {}
        self._own: Dict[int, int] = {}
        self._marks: Dict[int, Set[bytes]] = {}
        self.client: Optional["Client"] = None
        self.on_swept: Callable[[], None] = lambda: None
        # Bytes of names: those that came since the last sweep, and those that it found.
        self._fresh = self._right = 0
        self.is_sweeping = False
        hub.add(self)

    def session(self, number: int) -> int:
        """The server's session for one of this client, which it has to itself. Raises NoSession where there is none left for it."""
        if number not in self.sessions:
            taken = self.hub.take_session(self.leaves)
            self.sessions[number], self._own[taken], self._marks[taken] = taken, number, set()
        return self.sessions[number]

    def send(self, session: int, command: bytes, sink: "Sink") -> None:
        """Sends a command for a session of this client; `sink` gets the reply. Raises ServerLost and NoSession."""
        self.send_as(self.session(session), command, sink)

    def send_as(self, taken: int, command: bytes, sink: "Sink") -> None:
        """Sends a command for a session of the server; `sink` gets the reply. Raises ServerLost."""
        self.hub.send(self, taken, command, sink)
        self.unanswered += 1

    def accepted(self, session: int, command: bytes) -> None:
        """Keeps which marks the sessions have."""
        word, _, rest = command.partition(b" ")
        if word == b"mark":
            name = rest.partition(b" ")[0]
            self._marks[session].add(name)
            self._fresh += len(name) + NAME_BYTES
            if self._fresh > max(SWEPT, self._right) and not self.is_sweeping:
                self._sweep()
        elif word == b"unmark":
            self._marks[session].discard(rest)

    @property
    def is_behind(self) -> bool:
        """Whether so many marks came while others were looked for that the next ones have to wait."""
        return self.is_sweeping and self._fresh > 2 * max(SWEPT, self._right)

    def _sweep(self) -> None:
        """Has the program tell which marks are still there: the names of the others are removed."""
        self.is_sweeping = True
        self._fresh = self._right = 0
        for session, marks in self._marks.items():
            for name in marks:
                self.hub.chores.add(session, b"where", name, partial(self._swept, session, name))
        self.hub.chores.add(0, b"version", b"", self._end_sweep)

    def _swept(self, session: int, name: bytes, form: bytes) -> None:
        # In the order of the replies: a mark that is made anew behind this line is told behind it, too.
        if form == _NO_MARK:
            self._marks.get(session, set()).discard(name)
        else:
            self._right += len(name) + NAME_BYTES

    def _end_sweep(self, _: bytes) -> None:
        self.is_sweeping = False
        self.on_swept()

    def answer(self, lines: int) -> None:
        """So many lines less are without a reply."""
        self.unanswered -= lines
        if self.is_leaving and self.unanswered == 0:
            self._take_back()

    def done(self, session: int, form: bytes) -> None:
        """Tells the answer of a posted question, if the client is still there."""
        if not self.is_leaving:
            self.on_done(self._own[session], form)

    def lose(self) -> None:
        """The server has ended."""
        self.hub.members.discard(self)
        self.on_lost()

    def leave(self) -> None:
        """The client is gone. Lines under way are answered first, and then the marks are taken back."""
        if self.is_leaving:
            return
        self.is_leaving = True
        self.hub.members.discard(self)
        self.hub.on_members()
        if self.unanswered == 0:
            self._take_back()

    def _take_back(self) -> None:
        if self.hub.lost is not None:
            return
        for session, marks in self._marks.items():
            for name in marks:
                self.hub.chores.add(session, b"unmark", name, _pass_over)
            # Behind the marks: when this line has its reply, the session has none left.
            self.hub.chores.add(session, b"version", b"", partial(self._give_back, session))
        self._marks = {}

    def _give_back(self, session: int, _: bytes) -> None:
        self.hub.give_back(session)
