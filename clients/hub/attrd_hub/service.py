"""The service: clients on one side, the program on the other, the journal between."""
from __future__ import annotations

import json
import os
import signal
import socket
import time
from collections import Counter
from contextlib import suppress
from pathlib import Path
from typing import Dict, List, NamedTuple, Optional, Set, Tuple

from attrd import AttrdError, ProtocolFault, StartFault
from attrd.programs import program_version, start_fault
from attrd.versions import misfit

from .callers import Callers
from .client import Client
from .hub import SHARED, Hub
from .journal import Journal, JournalFault, State
from .lines import Places
from .loop import READ, WRITE, Loop
from .member import Member
from .meter import QUICK, Meter, clock
from .pace import Pace
from .peers import Peer
from .program import Program
from .room import UNREAD_IN_ALL, Room
from .settings import Settings
from .sockets import file_at, listen_at, listen_tcp
from .status import Counts, Waits, figures_of, status_path
from .telling import Level, log, notify, shown
from .turns import DOUBTED, LONG, QUICK as QUICK_LINE, Turns

TICK_SECONDS = 0.5
ACCEPTED_AT_ONCE = 32
CLIENTS_IN_A_TURN = 64
# So many bytes that the program hasn't taken may wait.
UNSENT = 1 << 18
# A term is written anew when the journal has so many edits, or so many bytes.
JOURNAL_EDITS, JOURNAL_BYTES = 10_000, 1 << 24
# A term that is longer than the file of a tree, or than so many bytes for each node of it, is refused: the journal goes on behind the
# one before.
FILE_BYTES, BYTES_A_NODE = 4_194_304, 64
# The least time between two starts of the program.
RESTART_SECONDS = 1.0
LAST_SECONDS = 5.0
# That no connection can be taken is told once in so long.
TOLD_AGAIN_SECONDS = 60.0


class Slow(NamedTuple):
    """Lines that took long: whose they are, and how many seconds the program took for all of them."""

    members: List[Optional[Member]]
    seconds: float


class Service:
    """Serves from `run` on until a signal. `ready` are clients with lines that wait, `dirty` those with replies to be sent."""

    # As in a client: it has more than thirty.
    __slots__ = ("settings", "loop", "counts", "room", "ready", "callers", "dirty", "clients", "readers", "hub", "program", "journal", "pace", "meter",
                 "waits", "clock", "program_version", "began", "at_once", "_told_version", "_handed_on", "_listening", "_made", "_is_paused",
                 "_told_again", "_is_stopping", "_is_running", "_has_ended", "_is_renewing", "_started", "_told", "_answered", "_sent",
                 "_waiting", "tells_at_once")

    def __init__(self, settings: Settings) -> None:
        """Takes the journal's folder. Raises JournalFault."""
        self.settings = settings
        self.loop = Loop()
        self.counts = Counts()
        self.room = Room()
        self.ready = Turns(self.room)
        self.callers = Callers()
        self.dirty: List[Client] = []
        self.clients: Set[Client] = set()
        # How many of them may ask alone.
        self.readers = 0
        self.hub = Hub()
        self.program: Program
        self.journal = Journal(Path(settings.state), settings.sync) if settings.state is not None else None
        self.pace, self.meter = Pace(clock), Meter(clock)
        self.waits, self.clock = Waits(), time.monotonic
        self.program_version: Optional[str] = None
        self._told_version: Optional[str] = None
        self._handed_on = 0.0
        self._listening: List[Tuple[socket.socket, Optional[str]]] = []
        # The files of the sockets, as they were made here: one of another hub that stands there later stays.
        self._made: Dict[str, Optional[Tuple[int, int]]] = {}
        self._is_paused = False
        self._told_again = 0.0
        self._is_stopping = self._is_running = self._has_ended = self._is_renewing = False
        self.began = self._started = time.monotonic()
        self._told: Tuple[int, int] = (0, 0)
        # When the last reply came, or the first line behind it went to the program; and how many lines have gone there since its start:
        # the hub's lines under way are more than these, where some wait for the end of a turn.
        self._answered = 0.0
        self._sent = 0
        self._waiting = self.ready.waiting
        # As long as fewer lines are under way a question goes to the program as it comes, and not by turns: never where a client waits.
        self.at_once = 0
        # Replies go to clients as they are read: never behind an edit that isn't in the journal yet, nor where lines are charged, or wait.
        self.tells_at_once = False

    def run(self) -> int:
        """Serves; the status: 0 after a signal, 3 where the program has ended and there is no journal. Raises AttrdError."""
        try:
            self._start()
            self._listen()
            for number in (signal.SIGTERM, signal.SIGINT, signal.SIGHUP):
                signal.signal(number, self._on_signal)
            notify(f"READY=1\nSTATUS=version {self.hub.version}")
            return self._serve()
        finally:
            self._end()

    def _on_signal(self, _number: int, _frame: object) -> None:
        self._is_stopping = True

    @property
    def term_bytes(self) -> int:
        """How many bytes a term has at most that the program reads as a file, with its newline."""
        return max(FILE_BYTES, BYTES_A_NODE * self.settings.nodes) - 1

    def _start(self) -> None:
        """Starts the program with the tree as it was. Raises AttrdError."""
        self._started = time.monotonic()
        self.hub = Hub()
        state = self.journal.read(Path(self.settings.files[1])) if self.journal is not None else None
        commands = state.commands if state is not None else []
        self._start_program(state)
        if self.journal is not None and state is not None:
            self.journal.begin(state)
            self.hub.base = state.base
            for text in state.told:
                log(Level.WARNING, text)
        self.hub.version = self.hub.base + len(commands)
        self._has_ended = self._is_renewing = False
        self.loop.watch(self.program.output, READ, self._on_output)
        self.loop.watch(self.program.input, 0, self._on_input)
        log(Level.INFO, f"the program serves {' '.join(self.settings.files)}, version {self.hub.version}"
            + (f", {len(commands)} edits of the journal" if self.journal is not None else ""))

    def _start_program(self, state: Optional[State]) -> None:
        """Starts the program with the term and the edits of the state, where there is one. Raises AttrdError."""
        files = list(self.settings.files)
        if state is not None:
            files[1] = str(state.term)
        self._ask_version()
        self.room.expect(_size_of(files[1]))
        self.program = Program(self.settings.program, files, self.settings.options)
        self.pace = Pace(self.program.times)
        self._is_running = True
        try:
            self.program.replay(state.commands if state is not None else [])
        except StartFault as fault:
            if state is None or not state.is_first:
                raise
            # It is the operator's file that is refused, and not the copy of it.
            raise start_fault(fault.status, fault.message.replace(files[1], self.settings.files[1])) from None
        self.meter = Meter(self.program.times)

    def _ask_version(self) -> None:
        """Asks the program for its version. Where it isn't the hub's, or none is told, that is told once."""
        self.program_version = None
        try:
            self.program_version = program_version(self.settings.program)
            warning = misfit(self.program_version)
        except AttrdError as fault:
            warning = str(fault)
        if warning and warning != self._told_version:
            log(Level.WARNING, warning)
        self._told_version = warning

    def _listen(self) -> None:
        path, readers = self.settings.socket, self.settings.read_only_socket
        places = [(path, self._on_client, self.settings.mode), (status_path(path), self._on_status, self.settings.mode)]
        if readers is not None:
            places.append((readers, self._on_reader, self.settings.read_only_mode))
        for at, handler, mode in places:
            stream = listen_at(at, mode, self.settings.group)
            self._listening.append((stream, at))
            self._made[at] = file_at(at)
            self.loop.watch(stream.fileno(), READ, lambda _, stream=stream, handler=handler: handler(stream))  # type: ignore[misc]
        if self.settings.port is not None:
            tcp = listen_tcp(self.settings.port)
            self._listening.append((tcp, None))
            self.loop.watch(tcp.fileno(), READ, lambda _: self._on_client(tcp, self.settings.token))

    def _serve(self) -> int:
        tick = time.monotonic() + TICK_SECONDS
        while not self._is_stopping:
            self.loop.turn(0.0 if self._waiting and self.has_room() else TICK_SECONDS, self.hub.in_flight > 0)
            self._hand_on()
            if self._has_ended and not self._go_on():
                return 0 if self._is_stopping else 3
            if self.loop.now >= tick:
                self._tick()
                tick = time.monotonic() + TICK_SECONDS
        self._last_lines()
        return 0

    def has_room(self) -> bool:
        """Whether more lines of clients may go to the program now."""
        hub = self.hub
        is_free = hub.in_flight < self.pace.most and hub.answered >= self.ready.until
        return is_free and len(self.program.unsent) < UNSENT and not self._is_stopping

    def _hand_on(self) -> None:
        """Sends what the turn has brought: lines to the program, edits to the journal, and then replies to clients."""
        if self._waiting:
            self._supply()
        if self.hub.out:
            self._send()
        self._tell()

    def _tell(self) -> None:
        """Sends edits to the journal, and then replies to clients."""
        if self.journal is not None and self.journal.pending:
            self.journal.commit()
            if self.hub.answered >= self.ready.until:
                # Replies may be there for a while: how long lines took that go together counts from now on.
                self._answered = self.clock()
        if self.dirty:
            dirty, self.dirty = self.dirty, []
            for client in dirty:
                client.flush()
            if self.room.is_full:
                self._make_room()

    def _send(self) -> None:
        """Sends the hub's lines to the program; what else is to be done comes behind that, since the program works meanwhile."""
        hub, now = self.hub, self.loop.now
        answered = hub.answered
        is_idle = answered >= self._sent
        if is_idle:
            # Before the program has them: else it may have answered by then, where the system puts this process aside for it.
            self._answered = self.clock()
            if answered < self.ready.until:
                self.meter.mark()
        if self.program.send(hub.lines()):
            self.at_once = 0
            self._await_room()
        self._sent = answered + hub.in_flight
        if now >= self.pace.next:
            self.pace.begin(answered, hub.in_flight, now)
            self._handed_on = now

    def _make_room(self) -> None:
        """Ends clients that don't read, as long as all together leave too much unread."""
        self.room.is_full = False
        while self.room.unread > UNREAD_IN_ALL:
            client = self.room.who_goes(self.clients)
            if client is None:
                return
            self.let_go(client, "it doesn't read its replies")

    def _supply(self) -> None:
        """Has clients hand on lines by turns. Few of them have a share each: then those that have come meanwhile are heard."""
        if not self.has_room():
            return
        hub, ready, waiting, most = self.hub, self.ready, self.ready.waiting, self.pace.most
        share = self.pace.share(len(waiting))
        for _ in range(min(len(waiting), CLIENTS_IN_A_TURN)):
            if not waiting or hub.in_flight >= most or hub.answered < ready.until:
                break
            ready.serve(share, hub)

    def _await_room(self) -> None:
        self.loop.change(self.program.input, WRITE if self.program.unsent else 0)

    def _on_input(self, events: int) -> None:
        if events & WRITE:
            self.program.send(b"")
            self._await_room()

    def _on_output(self, _events: int) -> None:
        data = self.program.read()
        if data is None:
            return
        if not data:
            self._has_ended = True
            return
        hub, pace, now, until = self.hub, self.pace, self.loop.now, self.ready.until
        before = hub.answered
        is_looked_at = pace.is_measuring or now - self._answered > QUICK or before < until
        slow = self._slow(data, now) if is_looked_at else None
        self.tells_at_once = slow is None and not self.dirty and not self._waiting
        try:
            hub.feed(data)
        except ProtocolFault as fault:
            log(Level.ERROR, str(fault))
            self._has_ended = True
        answered = hub.answered
        if answered != before:
            self._answered = now
            if slow is not None:
                self._charge(slow, answered - before)
            elif self.dirty and not hub.in_flight and not self._waiting:
                # No lines go first: so replies do, before what else is to be done.
                self._tell()
            self.at_once = 0 if self._waiting or answered < until else pace.most
            if answered >= pace.until:
                pace.end(now, self.meter.times)
                self.waits.add(now - self._handed_on)

    def _slow(self, replies: bytes, now: float) -> Optional[Slow]:
        """Whose lines these replies answer, where one of them wasn't quick, or might have been so."""
        # To look for one end takes a small part of what it takes to count them, where it is a part of a long reply.
        if replies.find(b"\n") < 0:
            return None
        lines = replies.count(b"\n")
        seconds = self.meter.look(self._answered, now, self.hub.answered + lines >= self._sent)
        is_of_use = seconds > lines * QUICK_LINE or self.hub.answered < self.ready.until
        return Slow(self.hub.first(lines), seconds) if is_of_use else None

    def _charge(self, slow: Slow, lines: int) -> None:
        """So many lines had replies: their clients are charged what these took, each its part, as far as it was expected; but where one
        that should have been quick took long, or the machine stood still, nobody knows whose it was."""
        counts = Counter(it.client for it in slow.members[:lines] if it is not None and it.client is not None)
        paid = sum(count * it.paid for it, count in counts.items())
        most = sum(count * it.weight for it, count in counts.items())
        is_known = any(it.weight >= LONG for it in counts) or slow.seconds < 2.0 * most + DOUBTED
        for it, count in counts.items():
            if is_known:
                self.ready.charge(it, slow.seconds * it.paid / paid, count)
            else:
                self.ready.doubt(it)

    def accepted(self, places: Places, editor: Optional[Peer] = None) -> None:
        """An edit was accepted that this one made: it goes into the journal before its client is told."""
        self.counts.edits += 1
        if self.journal is None and not self.settings.logs_edits:
            return
        command = places.command()
        if command is None:
            raise JournalFault("an edit was accepted whose mark isn't known: it is left out")
        if self.settings.logs_edits:
            log(Level.INFO, f"version {self.hub.version} by {editor or 'a client over TCP'}: {shown(command)}")
        if self.journal is not None:
            self.tells_at_once = False
            self.journal.append(self.hub.version, command, editor)

    def _renew(self) -> None:
        """Has the term written anew, where the journal is long."""
        journal = self.journal
        if journal is None or self._is_renewing or journal.is_writing:
            return
        if journal.edits >= JOURNAL_EDITS or journal.bytes >= JOURNAL_BYTES:
            self._ask_term()

    def _ask_term(self) -> None:
        self._is_renewing = True
        self.hub.send(None, SHARED, b"show /", self._take_term)

    def _take_term(self, form: bytes) -> None:
        if self.journal is not None and len(form) - 2 > self.term_bytes:
            # `_is_renewing` stays: it isn't asked for again.
            log(Level.WARNING, f"the tree has more than {self.term_bytes:,} bytes: no term is written any more, and the journal goes on")
            return
        self._is_renewing = False
        if self.journal is not None and form.startswith(b"= "):
            self.journal.renew(form[2:])

    def _go_on(self) -> bool:
        """The program has ended: all clients are told by the end of their connections, and it is started again. Whether it is."""
        self.hub.lose()
        self.ready.clear()
        self.at_once = self._sent = 0
        self._forget_program()
        if self.journal is None or self._is_stopping:
            log(Level.ERROR, "the program has ended")
            return False
        log(Level.WARNING, f"the program has ended at version {self.hub.version}: it is started again, clients have to connect again")
        self.counts.restarts += 1
        time.sleep(max(0.0, self._started + RESTART_SECONDS - time.monotonic()))
        self._start()
        return True

    def _forget_program(self) -> None:
        if not self._is_running:
            return
        self._is_running = False
        for stream in (self.program.input, self.program.output):
            self.loop.forget(stream)
        told = self.program.end()
        for line in told.splitlines():
            log(Level.INFO, f"{self.settings.program}: {line}")
        log(Level.INFO, f"{self.settings.program} has ended: {self.program.status}")

    def _on_reader(self, stream: socket.socket) -> None:
        self._on_client(stream, may_edit=False)

    def admit(self, client: Client) -> bool:
        """A connection has sent its token. Whether there is a place for it."""
        self.callers.remove(client)
        self.counts.came += 1
        if self._has_place(client.may_edit):
            self.clients.add(client)
            return True
        self.counts.let_go += 1
        client.end()
        return False

    def _has_place(self, may_edit: bool) -> bool:
        """Whether one more client may come. Who may ask alone has half of the places: so all of these turn away none of the others."""
        places = self.settings.clients
        return len(self.clients) < places and (may_edit or self.readers < max(1, places // 2))

    def _on_client(self, stream: socket.socket, token: Optional[bytes] = None, may_edit: bool = True) -> None:
        for _ in range(ACCEPTED_AT_ONCE):
            try:
                connection, _ = stream.accept()
            except (BlockingIOError, ConnectionAbortedError):
                return
            except OSError as fault:
                self._pause(fault)
                return
            # Who has a token to send has a place of its own until then.
            if token is None:
                self.counts.came += 1
                if not self._has_place(may_edit):
                    self.counts.let_go += 1
                    connection.close()
                    continue
            if not self._take(connection, token, may_edit):
                return

    def _take(self, connection: socket.socket, token: Optional[bytes], may_edit: bool = True) -> bool:
        """Makes a client of a connection, one that waits for its token where it has to send one. Whether the system allowed that."""
        try:
            client = Client(self, connection, token, may_edit)
        except OSError as fault:
            self.counts.let_go += 1
            connection.close()
            self._pause(fault)
            return False
        if token is None:
            self.clients.add(client)
            self.readers += not may_edit
            return True
        oldest = self.callers.add(client)
        if oldest is not None:
            self.let_go(oldest, "it sent no token, and others came")
        return True

    def _pause(self, fault: OSError) -> None:
        """No connection can be taken, since the system has no more of what one needs: until the next tick none is looked for. That is
        told once in a while."""
        if self.loop.now >= self._told_again:
            self._told_again = self.loop.now + TOLD_AGAIN_SECONDS
            log(Level.WARNING, f"no connection can be taken: {fault.strerror}: those that come wait, and it is tried each half second")
        self._is_paused = True
        for stream, _ in self._listening:
            self.loop.change(stream.fileno(), 0)

    def _go_on_listening(self) -> None:
        if self._is_paused:
            self._is_paused = False
            for stream, _ in self._listening:
                self.loop.change(stream.fileno(), READ)

    def left(self, client: Client) -> None:
        """A connection has ended."""
        if client in self.clients:
            self.clients.remove(client)
            self.readers -= not client.may_edit
        self.callers.remove(client)

    def let_go(self, client: Client, reason: str) -> None:
        """Ends a client's connection for this reason."""
        self.counts.let_go += 1
        log(Level.INFO, f"a client is let go of: {reason}")
        client.end()

    def _on_status(self, stream: socket.socket) -> None:
        try:
            connection, _ = stream.accept()
        except (BlockingIOError, ConnectionAbortedError):
            return
        except OSError as fault:
            self._pause(fault)
            return
        with connection, suppress(OSError):
            connection.setblocking(False)
            connection.send(json.dumps(figures_of(self)).encode("ascii") + b"\n")

    def _tick(self) -> None:
        """What is looked at about each half second."""
        now = time.monotonic()
        self._go_on_listening()
        for client in [it for it in self.clients if it.is_silent(now - self.settings.half)]:
            self.let_go(client, f"nothing came for {self.settings.half:g} s in the middle of a line")
        for client in self.callers.late(now, self.settings.half):
            self.let_go(client, "it sent no token")
        if self.journal is not None:
            self.journal.tick()
            self._tell_term_fault(self.journal)
            self._renew()
        self._tell_clients()

    def _tell_clients(self) -> None:
        """Tells who came and left since the last line: one line, however many they are."""
        left = self.counts.came - len(self.clients)
        came_before, left_before = self._told
        if (self.counts.came, left) != self._told:
            log(Level.INFO, f"clients: {len(self.clients)}, {self.counts.came - came_before} came, {left - left_before} left; "
                f"version {self.hub.version}")
            notify(f"STATUS={len(self.clients)} clients, version {self.hub.version}")
            self._told = (self.counts.came, left)

    def _last_lines(self) -> None:
        """Has the lines under way answered, and the term written, where that doesn't take long."""
        notify("STOPPING=1")
        # No line of a client goes any more.
        self.pace.most = self.at_once = 0
        self._close_listening()
        if self.journal is not None and self.journal.edits and not self._is_renewing:
            self._ask_term()
        end = time.monotonic() + LAST_SECONDS
        while self.hub.in_flight and not self._has_ended and time.monotonic() < end:
            self.ready.clear()
            self._hand_on()
            self.loop.turn(0.1)
        self._hand_on()

    def _close_listening(self) -> None:
        for stream, path in self._listening:
            self.loop.forget(stream.fileno())
            # While it listens here, no other hub takes the path: so the file is looked at and removed before that ends.
            if path is not None and file_at(path) == self._made[path]:
                with suppress(OSError):
                    os.unlink(path)
            stream.close()
        self._listening.clear()

    def _end(self) -> None:
        has_served = bool(self._listening) or self._is_stopping
        self._close_listening()
        for client in [*self.clients, *self.callers.all()]:
            client.end()
        self._forget_program()
        if has_served:
            # An edit that couldn't be written had no reply, and may not be there at the next start.
            version = self.hub.version if self.journal is None else self.journal.written
            log(Level.INFO, f"the service ends at version {version}, after {self.counts.lines} lines, {self.counts.edits} edits")
        if self.journal is not None:
            self.journal.close()
            self._tell_term_fault(self.journal)
        self.loop.close()

    def _tell_term_fault(self, journal: Journal) -> None:
        """Tells that a term couldn't be written, once: the journal goes on without it."""
        if journal.term_fault is not None:
            log(Level.WARNING, journal.term_fault)
            journal.term_fault = None


def _size_of(path: str) -> int:
    """How many bytes a file has; 0 where it isn't there, which the program tells."""
    try:
        return os.stat(path).st_size
    except OSError:
        return 0
