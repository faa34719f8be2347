"""A connection: lines out, replies in, matched in their order; questions that are open, by their number."""
from __future__ import annotations

import threading
import time
from collections import deque
from types import TracebackType
from typing import Callable, Deque, Dict, List, Optional, Sequence, Set, Type, TypeVar

from . import commands
from .channel import Channel
from .errors import AttrdError, ConnectionClosed, LineFault, OutOfMemory, ProtocolFault, Refused, ReplyTimeout, ServerLost
from .lexical import GREATEST_VERSION, LINE_BYTES, TREE_NODES
from .replies import Code, Done, Memory, Ok, RefusedReply, Reply, read_reply
from .session import Session
from .terms import Node

SESSIONS = 1_000
HIGH_WATER = 1 << 16
# How many lines of `send_all` are put together at a time.
TOGETHER = 256
# Where many replies are to come, a pause before each read takes many of them at once: waking for each costs more than its answer.
MANY, PAUSE_A_REPLY, LONGEST_PAUSE = 16, 2e-6, 1e-3

ConnectionOrServer = TypeVar("ConnectionOrServer", bound="Connection")


class Pending:
    """A line that was sent, and its reply when it comes."""

    __slots__ = ("session", "command", "_connection", "_reply", "_failure", "received", "_calls")

    def __init__(self, connection: Connection, session: int, command: str) -> None:
        self.session, self.command = session, command
        self.received = 0.0
        self._connection = connection
        self._reply: Optional[Reply] = None
        self._failure: Optional[AttrdError] = None
        self._calls: Optional[List[Callable[[], None]]] = None

    def when_answered(self, call: Callable[[], None]) -> None:
        """Calls this when the reply is here, or will never come: at once where that is so already."""
        if self.is_answered:
            call()
        elif self._calls is None:
            self._calls = [call]
        else:
            self._calls.append(call)

    @property
    def is_answered(self) -> bool:
        """Whether the reply is here, or will never come."""
        return self._reply is not None or self._failure is not None

    def reply(self, seconds: Optional[float] = None) -> Reply:
        """The reply, whatever it is; waits for it. `received` is then the time of its coming, by `time.perf_counter`.

        Raises ServerLost where the stream ended before, ReplyTimeout where it didn't come in time, ProtocolFault, and
        ConnectionClosed where the connection was closed here.
        """
        if not self.is_answered:
            self._connection.settle(lambda: self.is_answered, seconds)
        if self._failure is not None:
            raise self._failure
        if self._reply is None:
            raise ReplyTimeout(f"no reply in {seconds} s: {self.command[:100]}")
        return self._reply

    def accepted(self, seconds: Optional[float] = None) -> Reply:
        """The reply, where the line wasn't refused. Raises as `reply` does, and Refused and OutOfMemory."""
        return accepted(self.reply(seconds), self.command)

    def version(self) -> int:
        """The version of an `ok`. Raises as `accepted` does, and ProtocolFault where the reply is no `ok`."""
        reply = self.accepted()
        if not isinstance(reply, Ok):
            raise ProtocolFault(f"{reply} is no reply to {self.command[:100]}")
        return reply.version

    def _settle(self, reply: Optional[Reply], failure: Optional[AttrdError] = None) -> None:
        self._reply, self._failure, self.received = reply, failure, time.perf_counter()
        calls, self._calls = self._calls, None
        for call in calls or ():
            call()


def accepted(reply: Reply, line: str) -> Reply:
    """The reply, where it is neither a refusal nor want of memory. Raises Refused and OutOfMemory."""
    if isinstance(reply, RefusedReply):
        raise Refused(reply.code, reply.name, reply.version, line)
    if isinstance(reply, Memory):
        raise OutOfMemory(f"no memory for: {line[:100]}")
    return reply


class Connection:
    """Lines and replies over one channel. Threads may share it: one waits while another one's line is under way.

    `version` is the last version that any reply told, None before the first. `started_with` is the tree of a server that was
    started here with a Node; None of any other.
    """

    def __init__(self, channel: Channel) -> None:
        self.version: Optional[int] = None
        self.nodes = TREE_NODES
        self.started_with: Optional[Node] = None
        self._channel = channel
        self._lock = threading.RLock()
        self._out = bytearray()
        self._in = bytearray()
        self._waiting: Deque[Pending] = deque()
        self._open: Dict[int, Callable[[Done], None]] = {}
        self._early: Dict[int, Done] = {}
        self._satisfied: Optional[Pending] = None
        self._sessions: Set[int] = set()
        self._lost: Optional[AttrdError] = None
        self._closing: List[Callable[[], None]] = []

    def session(self, number: Optional[int] = None) -> Session:
        """A session: of this number, or of the least one that this connection doesn't use yet.

        Session numbers belong to the server: over a socket another client may use the same one. Raises LineFault where the
        number isn't from 0 to 999, or where all are used.
        """
        with self._lock:
            if number is None:
                number = next((it for it in range(SESSIONS) if it not in self._sessions), SESSIONS)
            if type(number) is not int or not 0 <= number < SESSIONS:
                raise LineFault(f"no session's number: {number!r}")
            self._sessions.add(number)
        return Session(self, number)

    def release(self, session: int) -> None:
        """Lets another session have this number."""
        with self._lock:
            self._sessions.discard(session)

    def send(self, session: int, command: str, at: Optional[int] = None) -> Pending:
        """Sends a line, and doesn't wait for its reply. `at` is the version that the tree has to have.

        Raises LineFault where the line has a newline, isn't UTF-8 or has more than 65,535 bytes; ServerLost and
        ConnectionClosed where the stream has ended.
        """
        if at is not None and (type(at) is not int or not 0 <= at <= GREATEST_VERSION):
            raise LineFault(f"no version: {at!r}")
        line = f"{session} {command}" if at is None else f"{session} at {at} {command}"
        encoded = encoded_line(line)
        with self._lock:
            if self._lost is not None:
                raise self._lost
            pending = Pending(self, session, command)
            self._waiting.append(pending)
            self._out += encoded
            if len(self._out) > HIGH_WATER:
                self.settle(lambda: len(self._out) <= HIGH_WATER)
        return pending

    def send_all(self, session: int, commands_of: Sequence[str]) -> List[Pending]:
        """Sends so many lines, each without a version, and doesn't wait. Raises as `send`: LineFault before any of them is sent."""
        lines = [encoded_line(f"{session} {it}") for it in commands_of]
        sent = [Pending(self, session, it) for it in commands_of]
        with self._lock:
            for at in range(0, len(sent), TOGETHER):
                if self._lost is not None:
                    raise self._lost
                self._waiting.extend(sent[at:at + TOGETHER])
                self._out += b"".join(lines[at:at + TOGETHER])
                if len(self._out) > HIGH_WATER:
                    self.settle(lambda: len(self._out) <= HIGH_WATER)
        return sent

    def send_wait(self, session: int, number: int) -> Pending:
        """Sends `wait` for a question, and has the reply of a line behind it; the pending reply of the `wait`. Raises as `send`.

        An answer that came just before the server read the `wait` looks as one that came by it; the line behind tells them apart.
        """
        with self._lock:
            waiting = self.send(session, commands.wait(number))
            self.send(session, commands.version()).reply()
        return waiting

    def on_done(self, number: int, call: Callable[[Done], None]) -> None:
        """Has the answer of the question of this number, when it comes, or at once where it is here already."""
        with self._lock:
            early = self._early.pop(number, None)
            if early is None:
                self._open[number] = call
        if early is not None:
            call(early)

    def on_close(self, call: Callable[[], None]) -> None:
        """Calls this when the connection has been closed here."""
        self._closing.append(call)

    def flush(self) -> None:
        """Hands all lines to the server, without waiting for replies. Raises ServerLost, and ConnectionClosed."""
        self.settle(lambda: not self._out)
        if self._lost is not None:
            raise self._lost

    def poll(self) -> None:
        """Takes what the server has written by now, without waiting. Raises ServerLost where the stream has ended."""
        with self._lock:
            self._step(0.0)
            if self._lost is not None:
                raise self._lost

    def fileno(self) -> int:
        """The end to read from, for `select` and event loops: when it is readable, call `poll`."""
        return self._channel.incoming

    def writing_fileno(self) -> Optional[int]:
        """The end to write to, where lines wait to be written: when it is writable, call `poll`. None where none wait."""
        return self._channel.outgoing if self._out and self._lost is None else None

    def settle(self, is_done: Callable[[], bool], seconds: Optional[float] = None) -> None:
        """Writes and reads until this is so, until the time is over, or until the stream ends."""
        until = None if seconds is None else time.monotonic() + seconds
        with self._lock:
            while not is_done() and self._lost is None:
                left = None if until is None else until - time.monotonic()
                if left is not None and left < 0:
                    return
                self._step(left)

    def _step(self, seconds: Optional[float]) -> None:
        """One write, where there is something to write, and one read, where there is something to read."""
        try:
            wrote = self._write()
        except ServerLost as lost:
            self._drain()
            self._lose(lost)
            return
        data = self._channel.read()
        if data is None and not wrote:
            self._channel.wait(bool(self._out), seconds)
            if len(self._waiting) > MANY:
                time.sleep(min(LONGEST_PAUSE, len(self._waiting) * PAUSE_A_REPLY))
            data = self._channel.read()
        if data == b"":
            self._lose(ServerLost("the stream of replies has ended"))
        elif data:
            self._take(data)

    def _write(self) -> bool:
        if not self._out:
            return False
        taken = self._channel.write(bytes(self._out[:HIGH_WATER]))
        del self._out[:taken]
        return taken > 0

    def _drain(self) -> None:
        """Takes the replies that still come from a server that takes no more lines."""
        data = self._channel.read()
        while data:
            self._take(data)
            data = self._channel.read()

    def _take(self, data: bytes) -> None:
        self._in += data
        if b"\n" not in data:
            return
        *lines, rest = bytes(self._in).split(b"\n")
        self._in = bytearray(rest)
        for line in lines:
            if self._lost is None:
                self._answer(line)

    def _answer(self, line: bytes) -> None:
        try:
            session, reply = read_reply(line)
            if isinstance(reply, Done):
                self._done(reply)
                return
            pending = self._next(session, reply)
        except ProtocolFault as fault:
            self._lose(fault)
            return
        if isinstance(reply, Ok):
            self.version = reply.version
        elif isinstance(reply, RefusedReply) and reply.version is not None:
            self.version = reply.version
        pending._settle(reply)

    def _next(self, session: Optional[int], reply: Reply) -> Pending:
        """The line that this reply answers: the first one without a reply."""
        if self._satisfied is not None:
            waited, self._satisfied = self._satisfied, None
            if isinstance(reply, RefusedReply) and reply.code is Code.QUESTION and session == waited.session:
                return waited
        if not self._waiting:
            raise ProtocolFault("a reply came for which no line was sent")
        pending = self._waiting[0]
        if session != pending.session:
            raise ProtocolFault(f"the reply of session {session} came for a line of session {pending.session}: {pending.command[:100]}")
        return self._waiting.popleft()

    def _done(self, done: Done) -> None:
        """A `done` line: it answers its question, and the `wait` for it where that is the next line.

        It may have come just before the server read the `wait`: then that is refused as `question`, which the next reply tells.
        """
        if self._waiting and self._waiting[0].command == f"wait {done.number}":
            self._satisfied = self._waiting.popleft()
            self._satisfied._settle(done)
        self.version = done.version
        call = self._open.pop(done.number, None)
        if call is None:
            self._early[done.number] = done
        else:
            call(done)

    def _lose(self, fault: AttrdError) -> None:
        unanswered, status, message = len(self._waiting), None, ""
        if isinstance(fault, ServerLost):
            status, message = self._channel.ended()
            fault = ServerLost(fault.reason, unanswered, status, message)
        self._lost = fault
        for pending in self._waiting:
            pending._settle(None, fault)
        self._waiting.clear()
        self._out.clear()

    @property
    def lost(self) -> Optional[AttrdError]:
        """Why no more lines can be sent, or None."""
        return self._lost

    @property
    def unanswered(self) -> int:
        """How many lines have no reply yet."""
        return len(self._waiting)

    def close(self) -> None:
        """Closes the stream. Replies that haven't been taken by now are passed over; their lines may have been handled."""
        with self._lock:
            if self._lost is None:
                self._lose(ConnectionClosed("the connection was closed here"))
            calls, self._closing = self._closing, []
        self._channel.close()
        for call in calls:
            call()

    def __enter__(self: ConnectionOrServer) -> ConnectionOrServer:
        return self

    def __exit__(self, kind: Optional[Type[BaseException]], fault: Optional[BaseException], trace: Optional[TracebackType]) -> None:
        self.close()


def encoded_line(line: str) -> bytes:
    """The bytes of a line with its newline. Raises LineFault where it is too long, has a newline or isn't UTF-8."""
    try:
        encoded = line.encode("utf-8")
    except UnicodeEncodeError:
        raise LineFault("a line has half of a surrogate pair, which UTF-8 can't spell") from None
    if len(encoded) > LINE_BYTES:
        raise LineFault(f"the line has {len(encoded)} bytes, and {LINE_BYTES} are the limit: {line[:80]}")
    if b"\n" in encoded:
        raise LineFault(f"a line has a newline in it: {line[:80]!r}")
    return encoded + b"\n"
