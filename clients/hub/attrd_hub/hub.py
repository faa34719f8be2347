"""The hub: many clients over the one stream to a server, each with sessions of its own.

It neither reads nor writes: the bytes of the server come by `feed`, and those for it are taken by `lines`.
"""
from __future__ import annotations

import heapq
import re
from collections import Counter, deque
from typing import Any, Callable, Deque, Dict, List, Optional, Set, Tuple, Union

from attrd import AttrdError, ProtocolFault, ServerLost

from .chores import Chores
from .lines import TOLD, condition_moved, end_of_lines, without_condition
from .member import Member

SESSIONS = 1_000
# The session of all that needs none of its own: it never has a mark.
SHARED = 0
_STALE = b"refused 2 stale "
_REFUSED_QUESTION = b"refused 15 "
_WAIT = re.compile(rb"(?:at [0-9]+ )?wait ")
# From so many bytes on a reply goes on to its client as its parts come: the whole of it would take memory that the system gives anew.
LONG_REPLY = 1 << 15

# What a client is told of a line: the reply, without its session.
Sink = Callable[[bytes], None]
# What a client is told of questions: whole replies as bytes, each with the client's session and its newline.
BlockSink = Callable[[bytes], None]
# What it is told of a long reply: a part of it, and with the last part how long the whole reply was; before that 0.
PartSink = Callable[[bytes, int], None]
# What a watcher is told of an edit, a mark or an `unmark` that was accepted: the client (None for the hub itself; of whichever class
# the hub's clients are), the session by the server's number, the command without its condition, the version then.
Watcher = Callable[[Any, int, bytes, int], None]


class NoSession(AttrdError):
    """The clients have all of the server's sessions, 0 to 999."""


class _Sent:
    """A line that has no reply yet."""

    __slots__ = ("member", "session", "command", "sink")

    def __init__(self, member: Optional[Member], session: int, command: bytes, sink: Sink) -> None:
        self.member, self.session, self.command, self.sink = member, session, command, sink


class Route:
    """Where lines of a client's session go that ask and change nothing.

    `own` is the session's number for the client, `session` that for the server. One route stands for any number of lines under
    way, so that a line makes no object of its own. A long reply goes to `part`, where there is one, and all others to `sink`.
    """

    __slots__ = ("member", "own", "session", "sink", "part", "is_same")

    def __init__(self, member: Member, own: bytes, session: bytes, sink: BlockSink, part: Optional[PartSink] = None) -> None:
        self.member, self.own, self.session, self.sink, self.part = member, own, session, sink, part
        self.is_same = own == session

    def told(self, replies: bytes) -> bytes:
        """The replies with the client's session in place of the server's."""
        return replies if self.is_same else (b"\n" + replies).replace(b"\n%b " % self.session, b"\n%b " % self.own)[1:]


class _Block:
    """Lines of a route, of which `left` have no reply yet."""

    __slots__ = ("route", "left")

    def __init__(self, route: Route, left: int) -> None:
        self.route, self.left = route, left

    @property
    def member(self) -> Member:
        """Whose lines they are."""
        return self.route.member


def pass_over(_: bytes) -> None:
    """Takes the reply of a line of the hub's own."""


class Hub:
    """The lines under way to a server. `version` is that of the tree after the replies so far; `lost` tells why no more come.

    `base` is added to each version of the server, as clients see it: so a server that begins anew at 0 goes on where the last one
    ended. `in_flight` counts the lines without a reply, `answered` those that have one. `on_members` is called when a client comes
    or leaves, `on_lines` when there are lines for the server where there were none: `out` has them.
    """

    def __init__(self, base: int = 0) -> None:
        self.base = self.version = base
        self.lost: Optional[AttrdError] = None
        self.in_flight = self.answered = 0
        self.members: Set[Member] = set()
        self.watchers: List[Watcher] = []
        self.on_members: Callable[[], None] = lambda: None
        self.on_lines: Optional[Callable[[], None]] = None
        self._free = [it for it in range(SESSIONS) if it != SHARED]
        self._sent: Deque[Union[Route, _Block, _Sent]] = deque()
        self._questions: Dict[bytes, Tuple[Member, int]] = {}
        self._open: Counter[int] = Counter()
        self._lingering: Set[int] = set()
        self._waited: Optional[_Sent] = None
        self.out: List[bytes] = []
        self.chores = Chores(self)
        # The parts of a reply whose end hasn't come: they are put together once. Of a long one, how many bytes have gone on.
        self._parts: List[bytes] = []
        self._gone_on = 0

    def add(self, member: Member) -> None:
        """One client more."""
        self.members.add(member)
        self.on_members()

    def take_session(self, leaves: int = 0) -> int:
        """A session that no client has, where more of them are free than are left to others. Raises NoSession."""
        if len(self._free) <= leaves:
            raise NoSession("the server's 1,000 sessions are taken")
        return heapq.heappop(self._free)

    def give_back(self, session: int) -> None:
        """Lets another client have the session, whose marks are taken back, as soon as none of its questions is open."""
        if self._open[session]:
            self._lingering.add(session)
        else:
            heapq.heappush(self._free, session)

    def send(self, member: Optional[Member], session: int, command: bytes, sink: Sink) -> None:
        """Sends a line; `sink` gets its reply. Raises ServerLost."""
        if self.lost is not None:
            raise self.lost
        self._write(b"%d %b\n" % (session, condition_moved(command, self.base) if self.base else command), 1)
        self._sent.append(_Sent(member, session, command, sink))
        if _WAIT.match(command):
            # Of the answer of a question and the refusal of a late `wait`, which one this line had shows the line behind it.
            self._write(b"%d version\n" % session, 1)
            self._sent.append(_Sent(None, session, b"version", pass_over))

    def send_block(self, route: Route, lines: bytes, count: int) -> None:
        """Sends so many lines of the route, which have the server's session; their replies come a part at a time. Raises ServerLost."""
        if self.lost is not None:
            raise self.lost
        self._write(lines, count)
        self._sent.append(_Block(route, count))
        route.member.unanswered += count

    def send_question(self, route: Route, line: bytes) -> None:
        """Sends one line of the route; its sink gets the whole reply with the client's session. Raises ServerLost."""
        if self.lost is not None:
            raise self.lost
        self.in_flight += 1
        if self.on_lines is not None and not self.out:
            self.on_lines()
        self.out.append(line if route.is_same else route.session + line[len(route.own):])
        self._sent.append(route)
        route.member.unanswered += 1

    def _write(self, lines: bytes, count: int) -> None:
        self.in_flight += count
        if self.on_lines is not None and not self.out:
            self.on_lines()
        self.out.append(lines)

    def first(self, most: int) -> List[Optional[Member]]:
        """Whose lines are answered next, at most so many; None for lines of the hub's own."""
        found: List[Optional[Member]] = []
        for sent in self._sent:
            if len(found) >= most:
                break
            found += [sent.member] * min(most, sent.left if isinstance(sent, _Block) else 1)
        return found[:most]

    def lines(self) -> bytes:
        """The lines for the server since the last time."""
        lines, self.out = b"".join(self.out), []
        return lines

    def feed(self, data: bytes) -> None:
        """Bytes of the server. Raises ProtocolFault where there is a reply and no line for it."""
        if self._gone_on:
            data = self._go_on(data)
            if not data:
                return
        if self._parts:
            self._parts.append(data)
            if data.find(b"\n") < 0:
                self._begin_to_go_on()
                return
            data = b"".join(self._parts)
            self._parts.clear()
        first = self._sent[0] if self._sent and not self._questions else None
        if type(first) is Route and data.find(b"\n") == len(data) - 1:
            self._settle_question(first, data)
            return
        end = data.rfind(b"\n") + 1
        if end < len(data):
            self._parts.append(data[end:])
        self._feed_lines(data[:end])
        if self._parts:
            self._begin_to_go_on()

    def _begin_to_go_on(self) -> None:
        """Has the parts of a reply go on, where they are many bytes already, and it is known whose it is."""
        first = self._sent[0] if self._sent and not self._questions else None
        route = first.route if isinstance(first, _Block) else first
        if not isinstance(route, Route) or route.part is None or sum(map(len, self._parts)) < LONG_REPLY:
            return
        data = b"".join(self._parts)
        self._parts.clear()
        self._gone_on = len(data)
        route.part(route.told(data), 0)

    def _go_on(self, data: bytes) -> bytes:
        """Has the next part of a long reply go on; what is behind the reply."""
        end = data.find(b"\n") + 1
        part = data[:end] if end else data
        self._gone_on += len(part)
        first = self._sent[0]
        route = first.route if isinstance(first, _Block) else first
        assert isinstance(route, Route) and route.part is not None
        route.part(part, self._gone_on if end else 0)
        if not end:
            return b""
        self._gone_on = 0
        self._settle_lines(first, 1)
        return data[end:]

    def _feed_lines(self, replies: bytes) -> None:
        """Whole replies."""
        sent, questions = self._sent, self._questions
        start, end = 0, len(replies)
        while start < end:
            first = sent[0] if sent and not questions else None
            if type(first) is Route:
                behind = self._settle_questions(replies, start)
            elif type(first) is _Block:
                behind, count = end_of_lines(replies, start, first.left)
                self._settle_block(first, replies[start:behind], count)
            else:
                behind = replies.find(b"\n", start) + 1
                self._answer(replies[start:behind - 1])
            start = behind

    def _settle_questions(self, replies: bytes, start: int) -> int:
        """Whole replies, of which those from `start` on answer lines of routes, as long as such lines are the first ones under way. Where
        what is behind them begins."""
        sent, find, end = self._sent, replies.find, len(replies)
        while start < end and sent:
            route = sent[0]
            if type(route) is not Route:
                break
            behind = find(b"\n", start) + 1
            # As `_settle_question`, without a call for each.
            sent.popleft()
            self.in_flight -= 1
            self.answered += 1
            sink, member = route.sink, route.member
            sink(replies[start:behind] if route.is_same else route.own + replies[start + len(route.session):behind])
            member.unanswered -= 1
            if member.is_leaving:
                member.answer(0)
            start = behind
        return start

    def _settle_question(self, route: Route, reply: bytes) -> None:
        self._sent.popleft()
        self.in_flight -= 1
        self.answered += 1
        # What stands in a slot is found more quickly so than as a method.
        sink, member = route.sink, route.member
        sink(reply if route.is_same else route.own + reply[len(route.session):])
        member.unanswered -= 1
        if member.is_leaving:
            member.answer(0)

    def _settle_block(self, block: _Block, replies: bytes, count: int) -> None:
        block.route.sink(block.route.told(replies))
        self._settle_lines(block, count)

    def _settle_lines(self, first: Union[Route, _Block, _Sent], count: int) -> None:
        """So many lines of the first ones under way have replies, which are told."""
        left = 0
        if isinstance(first, _Block):
            left = first.left = first.left - count
        if not left:
            self._sent.popleft()
        self._count(count)
        if first.member is not None:
            first.member.answer(count)

    def _count(self, lines: int) -> None:
        self.in_flight -= lines
        self.answered += lines

    def _answer(self, line: bytes) -> None:
        """One reply, for the first line without one; or the answer of a posted question."""
        _, _, form = line.partition(b" ")
        if form.startswith(b"done "):
            self._done(form)
            return
        waited, self._waited = self._waited, None
        if waited is not None and form.startswith(_REFUSED_QUESTION):
            waited.sink(form)
            return
        if not self._sent:
            raise ProtocolFault(f"{line[:100]!r} answers no line")
        first = self._sent[0]
        if isinstance(first, Route):
            self._settle_question(first, line + b"\n")
        elif isinstance(first, _Block):
            self._settle_block(first, line + b"\n", 1)
        else:
            self._sent.popleft()
            self._count(1)
            self._settle(first, form)

    def _settle(self, sent: _Sent, form: bytes) -> None:
        if form.startswith(b"ok "):
            self.version = self.base + int(form[3:])
            form = b"ok %d" % self.version
            self._accepted(sent)
        elif form.startswith(_STALE):
            form = _STALE + b"%d" % (self.base + int(form[len(_STALE):]))
        elif form.startswith(b"open ") and sent.member is not None:
            self._questions[form[5:]] = (sent.member, sent.session)
            self._open[sent.session] += 1
        sent.sink(form)
        if sent.member is not None:
            sent.member.answer(1)

    def _accepted(self, sent: _Sent) -> None:
        command = without_condition(sent.command)
        if command.partition(b" ")[0] not in TOLD:
            return
        if sent.member is not None:
            sent.member.accepted(sent.session, command)
        for watcher in self.watchers:
            watcher(sent.member, sent.session, command, self.version)

    def _done(self, form: bytes) -> None:
        _, number, version, rest = form.split(b" ", 3)
        first = self._sent[0] if self._sent else None
        if isinstance(first, _Sent) and without_condition(first.command) == b"wait " + number:
            self._sent.popleft()
            self._count(1)
            self._waited = first
            if first.member is not None:
                first.member.answer(1)
        member, session = self._questions.pop(number, (None, SHARED))
        if member is None:
            return
        self._open[session] -= 1
        if session in self._lingering and not self._open[session]:
            self._lingering.discard(session)
            self.give_back(session)
        member.done(session, b"done %b %d %b" % (number, self.base + int(version), rest))

    def lose(self, reason: str = "the server has ended") -> None:
        """No more replies come: all clients are told."""
        if self.lost is None:
            self.lost = ServerLost(reason, self.in_flight)
        for sent in self._sent:
            if sent.member is not None:
                sent.member.answer(sent.left if isinstance(sent, _Block) else 1)
        self._sent.clear()
        for member in list(self.members):
            member.lose()
