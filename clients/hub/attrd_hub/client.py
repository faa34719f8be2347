"""One connection: its bytes become lines for the hub, and replies become its bytes."""
from __future__ import annotations

import hmac
import math
import re
import socket
import time
from collections import deque
from functools import partial
from typing import TYPE_CHECKING, Deque, Dict, Optional, Union

from .hub import SESSIONS, SHARED, NoSession, Route
from .lines import (EDITS, LINE_BYTES, QUESTIONS, REFUSED_LIMIT, REFUSED_SYNTAX, TOLD, Places, first_lines, plain_session,
                    split_line, without_condition)
from .loop import GONE, READ, WRITE
from .member import Member
from .peers import peer_of
from .turns import BYTES_A_SECOND, LONG, NEW, NEW_LATEST, QUICK_COST

if TYPE_CHECKING:
    from .service import Service

CHUNK = 1 << 15
# Most of what is there to be read is shorter. For bytes of this length Python has room at hand, for longer ones it asks the system.
FIRST_CHUNK = 479
# So many lines of a client may have no reply; fewer where a reply can be as long as the tree.
MANY, FEW = 1_024, 4
# So many bytes a client may leave unread before its next lines wait.
UNREAD = 1 << 20
# A reply is a long one from so many bytes on: the next one of this client is expected to be so, too.
LONG_REPLY = 1 << 17
# So many bytes of lines wait here before no more are read.
WAITING = 1 << 15
# Of what a client that is gone has left so many pieces are read at once.
READ_ON = 8
# So many sessions a client may have to itself: for marks and for questions in turns.
OWN_SESSIONS = 100
_F = ord("f")
_SHOW_ALL, _SHOWS_ALL = b"show /\n", re.compile(rb"[0-9]+ show /\n")
# Of so many sessions it is known at once where their questions go.
ROUTES = 16
# So are so many lines, each of so many bytes at most.
KNOWN, KNOWN_BYTES = 64, 256


class Client:
    """A connection. `service` is told when it has something to send, and when it has lines that wait.

    In seconds of the program (see `turns`): `charged` is what its lines took so far; `paid` what each of those under way was expected to
    take, and `weight` what it was thought to take at most; `expected` and `latest` are that of the next one, by what its last ones took.
    """

    # An object with more than thirty attributes and no slots has a table of its own, in which each look takes longer.
    __slots__ = ("service", "stream", "member", "unread", "drained", "is_dirty", "is_ready", "is_ended", "is_new", "is_charged", "charged",
                 "paid", "weight", "expected", "latest", "_token", "_peer", "may_edit", "_later", "_later_bytes", "_lines", "_rest",
                 "_receive", "_send", "_routes", "_known", "_is_last", "_is_gone", "_expected", "_kept", "_noted", "_heard", "_events")

    def __init__(self, service: "Service", stream: socket.socket, token: Optional[bytes] = None, may_edit: bool = True) -> None:
        """`token` is what the first line has to be, where one is asked for. Who may not edit may not mark, either. Raises OSError where
        the system can't wait for one more."""
        stream.setblocking(False)
        # Before all else: where that fails, nothing of the client is left.
        service.loop.watch(stream.fileno(), READ, self._on_event)
        self.may_edit = may_edit
        self.service, self.stream, self._token = service, stream, token
        self._receive, self._send = stream.recv, stream.send
        self._peer = peer_of(stream)
        self.member = Member(service.hub, self.end, self._tell_done)
        self.member.client, self.member.on_swept = self, self._go_on
        if not may_edit:
            self.member.leaves = SESSIONS // 2
        # A reply is sent as it came. Where more come behind it, or it doesn't go as a whole, it is an array, which grows and shrinks.
        self.unread: Union[bytes, bytearray] = b""
        # Parts of long replies that are unread behind it, and what comes behind these: they aren't copied.
        self._later: Deque[memoryview] = deque()
        self._later_bytes = 0
        self.is_dirty: bool = False
        self.is_ready: bool = False
        self.is_ended: bool = False
        self._lines = self._rest = b""
        # Of own sessions that have asked plain questions.
        self._routes: Dict[bytes, Route] = {}
        # Of lines that were plain questions: most clients ask the same ones again.
        self._known: Dict[bytes, Route] = {}
        self._is_last = self._is_gone = False
        # Less than nothing before its first line.
        self.charged: float = -math.inf
        self.paid: float = QUICK_COST
        self.weight: float = QUICK_COST
        self.expected: float = NEW
        self.latest: float = NEW_LATEST
        # Whether it has had no reply, and whether its last replies were charged for themselves.
        self.is_new: bool = True
        self.is_charged: bool = False
        # How long a reply of its next line may be, and how many bytes of its replies the service counts as unread.
        self._expected = self._kept = 0
        # Longer replies are noted: all of them behind a long one.
        self._noted = LONG_REPLY
        # When bytes came last, and when the other side took some last.
        self._heard = time.monotonic()
        self.drained: float = self._heard
        self._events = READ

    def _on_event(self, events: int) -> None:
        """Takes what came. It is called for each line of a client that waits: so it reads by itself."""
        if (events != READ and not self._has_more(events)) or self._is_last:
            return
        # What stands in a slot is found more quickly so than as a method.
        receive = self._receive
        try:
            data = receive(FIRST_CHUNK)
        except BlockingIOError:
            # Of who is gone no more comes.
            if not self._is_gone:
                return
            data = b""
        except OSError:
            self._lose_reader()
            data = b""
        if self._goes_at_once(data):
            return
        if data:
            self._heard = self.service.loop.now
            self._take(data + self._read_on() if len(data) == FIRST_CHUNK else data)
        else:
            # A line without its newline isn't obeyed: it may be the beginning of another one.
            self._is_last, self._rest = True, b""
            self._go_on()
            self._end_if_done()
        if self._is_last or len(self._lines) >= WAITING:
            self._watch()

    def _has_more(self, events: int) -> bool:
        """The stream can be written, or is gone. Whether it can be read, too."""
        if events & WRITE and not self.is_dirty:
            # Not at once: edits whose replies came meanwhile aren't in the journal yet.
            self.is_dirty = True
            self.service.dirty.append(self)
        if events & GONE:
            self._lose()
            return False
        return events & READ != 0

    def _read(self) -> None:
        self._on_event(READ)

    def _read_on(self) -> bytes:
        """More of what is there. How the stream ends, the next reading tells."""
        try:
            return self.stream.recv(CHUNK)
        except OSError:
            return b""

    def _goes_at_once(self, data: bytes) -> bool:
        """Hands on what came, where it is one plain question, and nothing of this client waits. Whether it was."""
        route = self._known.get(data) or self._know(data)
        if route is None or self._lines or self._rest or self.unread or self._later or self.latest >= LONG:
            return False
        service = self.service
        hub = service.hub
        if hub.in_flight >= service.at_once or route.member.unanswered >= FEW:
            return False
        service.counts.lines += 1
        self.paid = self.weight = QUICK_COST
        hub.send_question(route, data)
        return True

    def _know(self, data: bytes) -> Optional[Route]:
        """Where a line goes, if it is a whole one with a plain question of a session that has asked some: it is known from then on. Not so
        one for the whole tree, whose reply may be long."""
        own, _, command = data.partition(b" ")
        route = self._routes.get(own)
        if route is None or data.find(b"\n") != len(data) - 1 or not command.startswith(QUESTIONS) or command == _SHOW_ALL:
            return None
        if len(data) <= KNOWN_BYTES:
            if len(self._known) >= KNOWN:
                self._known.clear()
            self._known[data] = route
        return route

    def _forget_routes(self) -> None:
        self._routes.clear()
        self._known.clear()

    def _lose(self) -> None:
        """The other side is gone: of what it has sent, `supply` reads the rest, and hands on what changes something."""
        if self.is_ended:
            return
        self.service.loop.forget(self.stream.fileno())
        self._lose_reader()
        if not self._lines:
            self._read()
        if not self._lines:
            self._end_if_done()
        if not self.is_ended:
            self._make_ready()

    def _take(self, data: bytes) -> None:
        whole, newline, rest = (self._rest + data).rpartition(b"\n")
        # What is over the limit stays over it when its end is cut off.
        self._rest = rest[:LINE_BYTES + 16]
        if self._token is not None and newline:
            whole = self._admit(whole)
        if whole:
            self._lines += whole + b"\n"
        self._go_on()

    def _admit(self, lines: bytes) -> bytes:
        """Looks at the token in the first line; the lines behind it. Who has another one is let go of."""
        first, _, others = lines.partition(b"\n")
        if not hmac.compare_digest(first.rstrip(b"\r"), self._token or b""):
            self.service.let_go(self, "no token")
            return b""
        self._token = None
        return others if self.service.admit(self) else b""

    @property
    def has_token(self) -> bool:
        """Whether it needn't send a token any more."""
        return self._token is None

    def _go_on(self) -> None:
        if self._lines or self._is_gone:
            self._make_ready()

    def _make_ready(self) -> None:
        if not self.is_ready and not self.is_ended:
            self.is_ready = True
            self.service.at_once = 0
            self.service.ready.add(self)

    @property
    def cost(self) -> float:
        """How many seconds of the program its next line is expected to take."""
        return max(QUICK_COST, self.expected, self._showing_cost())

    @property
    def most_cost(self) -> float:
        """How many seconds its next line may take."""
        return max(QUICK_COST, self.latest, self._showing_cost())

    def _showing_cost(self) -> float:
        """How long the program takes to show the whole tree, where the next line asks for that, and the tree is long."""
        room = self.service.room
        return room.tree_bytes / BYTES_A_SECOND if room.has_long_tree and _SHOWS_ALL.match(self._lines) else 0.0

    def supply(self, share: int) -> bool:
        """Hands on at most so many lines. Whether more of them could go at once."""
        member = self.member
        if self.is_ended or (member.is_sweeping and member.is_behind):
            return False
        if self._is_gone:
            self._read_rest()
        if not self._lines:
            self._end_if_done()
            return self._is_gone and not self._is_last
        lines = self._next_lines(share)
        if lines:
            self._lines = self._lines[len(lines):]
            self._hand_on(lines)
            if not self._events & READ:
                self._watch()
        return bool(lines and (self._lines or self._is_gone))

    def _read_rest(self) -> None:
        """Reads what a client that is gone has left, up to whole lines or its end, but not too much of it at once."""
        for _ in range(READ_ON):
            if self._lines or self._is_last:
                return
            self._read()

    def _next_lines(self, share: int) -> bytes:
        """The lines that may go now, at most as many as the share says: more of a client that is gone, since few of these are handed on."""
        unanswered = self.member.unanswered
        if self._is_gone:
            return first_lines(self._lines, MANY - unanswered)
        if self.unread_bytes >= UNREAD:
            return b""
        lines = first_lines(self._lines, min(share, MANY - unanswered))
        if lines.find(b" show ") >= 0:
            lines = first_lines(lines, FEW - unanswered)
        if self._expected or (self.service.room.has_long_tree and b" " + _SHOW_ALL in lines):
            return first_lines(lines, 1) if self._has_room_for_one(lines) else b""
        return lines

    def _has_room_for_one(self, lines: bytes) -> bool:
        """Whether the reply of the first line, as long as it is expected to be, has room beside those that aren't read; with none of
        these it has."""
        expected = max(self._expected, self.service.room.tree_bytes if _SHOWS_ALL.match(lines) else 0)
        others = self.unread_bytes + expected * self.member.unanswered
        return not others or others + expected <= UNREAD

    def _hand_on(self, lines: bytes) -> None:
        count = lines.count(b"\n")
        self.service.counts.lines += count
        own = plain_session(lines, count)
        if own is not None:
            if not self._is_gone:
                self._hand_on_block(own, lines, count)
            return
        for line in lines[:-1].split(b"\n"):
            if line:
                self._hand_on_line(line)

    def _hand_on_block(self, own: bytes, lines: bytes, count: int) -> None:
        route = self._routes.get(own)
        if route is None:
            if len(self._routes) >= ROUTES:
                self._forget_routes()
            session = b"%d" % self.member.sessions.get(int(own), SHARED)
            route = self._routes[own] = Route(self.member, own, session, self._write, self._write_part)
        if not route.is_same:
            lines = (b"\n" + lines).replace(b"\n%b " % own, b"\n%b " % route.session)[1:]
        self.service.hub.send_block(route, lines, count)

    def _hand_on_line(self, line: bytes) -> None:
        found = split_line(line)
        if found is None:
            self._refuse(b"?", REFUSED_SYNTAX)
            return
        own, command = found
        bare = without_condition(command)
        word = bare.partition(b" ")[0]
        if self._is_gone and word not in TOLD:
            return
        if word in TOLD and not self.may_edit:
            self._refuse(own, REFUSED_LIMIT)
            return
        try:
            session = self._session(int(own), word)
        except NoSession:
            self._refuse(own, REFUSED_LIMIT)
            return
        if word in EDITS:
            self._edit(own, session, command, Places(bare))
        else:
            self.member.send_as(session, command, partial(self._tell, own))

    def _session(self, own: int, word: bytes) -> int:
        """The server's session for a line. Raises NoSession where the client or the server has none left."""
        if word in (b"mark", b"post") and own not in self.member.sessions:
            if len(self.member.sessions) >= OWN_SESSIONS:
                raise NoSession("the client has as many sessions as it may have")
            self._forget_routes()
            return self.member.session(own)
        return self.member.sessions.get(own, SHARED)

    def _edit(self, own: bytes, session: int, command: bytes, places: Places) -> None:
        """Sends an edit, and in front of it a question for the path of each mark in it: the journal has paths from the root."""
        for mark in places.marks:
            self.service.hub.send(None, session, b"where " + mark, partial(_take_path, places, mark))
        self.member.send_as(session, command, partial(self._tell_edit, own, places))

    def _tell_edit(self, own: bytes, places: Places, form: bytes) -> None:
        if form.startswith(b"ok "):
            self.service.accepted(places, self._peer)
        self._tell(own, form)

    def _refuse(self, own: bytes, form: bytes) -> None:
        """Refuses a line in its order, without handing it on."""
        if self._is_gone:
            return
        self.member.send_as(SHARED, b"version", lambda _: self._tell(own, form))

    def _tell(self, own: bytes, form: bytes) -> None:
        self._write(b"%b %b\n" % (own, form))

    def _tell_done(self, session: int, form: bytes) -> None:
        self._write(b"%d %b\n" % (session, form))

    def _write(self, data: bytes) -> None:
        # The byte is looked for first: that takes a tenth of the time.
        if _F in data and data.find(b" refused ") >= 0 and not self.is_ended:
            self.service.counts.count_refused(data)
        if (self.service.tells_at_once and self.member.unanswered == 1 and self.latest <= QUICK_COST and len(data) <= self._noted
                and not self.is_dirty and not self._lines and not self._is_gone and self._events == READ):
            # Nothing else of this client is under way, or waits: so nothing is done behind its reply.
            data = self._send_at_once(data)
            if not data:
                return
        if not self._is_gone:
            if self.unread or self._later:
                self._put_behind(data)
            else:
                self.unread = data
            if len(data) > self._noted:
                self._note(len(data))
        if not self.is_dirty:
            self.is_dirty = True
            self.service.dirty.append(self)

    def _send_at_once(self, data: bytes) -> bytes:
        """Sends a reply before those of other clients are looked at; what there is no room for."""
        send = self._send
        try:
            taken = send(data)
        except BlockingIOError:
            return data
        except OSError:
            self._lose_reader()
            return data
        return b"" if taken == len(data) else data[taken:]

    def _write_part(self, data: bytes, length: int) -> None:
        """A part of a long reply, which has this length where it is the last part."""
        if not self._is_gone:
            self._put_later(data)
            if length > self._noted:
                self._note(length)
        if not self.is_dirty:
            self.is_dirty = True
            self.service.dirty.append(self)

    def _put_behind(self, data: bytes) -> None:
        """The reply goes behind what is unread."""
        if self._later:
            self._put_later(data)
        else:
            unread = self._unread_array()
            unread += data

    def _unread_array(self) -> bytearray:
        """What is unread, as an array from now on."""
        if not isinstance(self.unread, bytearray):
            self.unread = bytearray(self.unread)
        return self.unread

    def _put_later(self, data: bytes) -> None:
        self._later.append(memoryview(data))
        self._later_bytes += len(data)

    @property
    def unread_bytes(self) -> int:
        """How many bytes of replies wait for the client."""
        return len(self.unread) + self._later_bytes

    def _note(self, length: int) -> None:
        """There was a long reply, or one behind a long one: so long the next one is expected to be."""
        if length > LONG_REPLY:
            self._expected = length
            self.service.room.note(length)
        else:
            self._expected = self._expected // 2 if self._expected > LONG_REPLY else 0
        self._noted = 0 if self._expected else LONG_REPLY

    def flush(self) -> None:
        """Sends what the other side takes; lines that waited for that go on."""
        self.is_dirty = False
        unread = self.unread
        if self.latest > QUICK_COST:
            # Where its last lines may not have been quick, these are looked at.
            self.service.ready.settle(self)
        try:
            if unread:
                send = self._send
                taken = send(unread)
                if taken == len(unread):
                    self.unread = b""
                else:
                    self._send_rest(taken)
            if self._later:
                self._flush_later()
        except BlockingIOError:
            pass
        except OSError:
            self._lose_reader()
        # Of who has sent the last line no more is read.
        if self._lines or self._is_gone or self._events != READ or self.unread or self._later:
            self._go_on_behind()

    def _go_on_behind(self) -> None:
        """Replies went, as far as there was room for them."""
        if self._lines or self._is_last or self._is_gone:
            self._make_ready()
        if self.unread or self._later or self._events & WRITE:
            self._watch()
            self._count_unread()

    def _send_rest(self, taken: int) -> None:
        """So many of the unread bytes went: sends the others, as far as there is room for them. Raises OSError."""
        unread = self._unread_array()
        while taken:
            del unread[:taken]
            # What is drained is of interest where something is left.
            self.drained = self.service.loop.now
            taken = self._send(unread) if unread else 0

    def _flush_later(self) -> None:
        """Sends parts as they are, which takes no copy of them. Raises OSError."""
        while self._later:
            part = self._later[0]
            taken = self.stream.send(part)
            self._later_bytes -= taken
            self.drained = self.service.loop.now
            if taken < len(part):
                self._later[0] = part[taken:]
            else:
                self._later.popleft()

    def _count_unread(self) -> None:
        left = self.unread_bytes
        self.service.room.count(left - self._kept)
        self._kept = left

    def _clear_unread(self) -> None:
        self.unread = b""
        self._later.clear()
        self._later_bytes = 0
        self._count_unread()

    def _lose_reader(self) -> None:
        """Nobody reads the replies any more."""
        self._clear_unread()
        self._forget_routes()
        self._is_gone = True

    def _watch(self) -> None:
        """Waits for what is of use now: for more lines only where few of them wait."""
        if self.is_ended or not self.service.loop.is_watched(self.stream.fileno()):
            return
        wants = 0 if self._is_last or len(self._lines) >= WAITING else READ
        events = wants | (WRITE if self.unread_bytes else 0)
        if events != self._events:
            if wants and not self._events & READ:
                self._heard = time.monotonic()
            self._events = events
            self.service.loop.change(self.stream.fileno(), events)

    def is_silent(self, since: float) -> bool:
        """Whether nothing came since then in the middle of a line, or of the token, though it was waited for."""
        is_within = bool(self._rest) or self._token is not None
        return is_within and bool(self._events & READ) and self._heard < since

    def _end_if_done(self) -> None:
        if self._is_last and not self._lines and not self.unread_bytes and self.member.unanswered == 0:
            self.end()

    def end(self) -> None:
        """Ends the connection. Its marks are taken back."""
        if self.is_ended:
            return
        self.is_ended = self._is_last = self._is_gone = True
        self.service.loop.forget(self.stream.fileno())
        self.stream.close()
        self._clear_unread()
        self.service.left(self)
        self.member.leave()


def _take_path(places: Places, mark: bytes, form: bytes) -> None:
    if form.startswith(b"= "):
        places.found(mark, form[2:])
