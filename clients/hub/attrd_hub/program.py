"""The program: started over pipes, given the edits of a journal, and then read and written without waiting."""
from __future__ import annotations

import os
import subprocess
import tempfile
from contextlib import suppress
from typing import List, Optional, Sequence, Tuple

from attrd import AttrdError
from attrd.programs import cannot_start, start_fault

from .lines import LINE_BYTES
from .meter import Times, clock

CHUNK = 1 << 16
# Most of what is there to be read is shorter. For bytes of this length Python has room at hand, for longer ones it asks the system.
FIRST_CHUNK = 479
ENDING_SECONDS = 10.0
# So many lines are sent before their replies are read: these have room in a pipe.
BATCH = 256
# No longer than this are the three numbers that the system tells of a process and its processor.
SCHEDULE_BYTES = 100
_ROOM = 64


class Unfit(AttrdError):
    """An edit of the journal isn't accepted by the program over these files."""


class Program:
    """A program that runs, until `end`. `unsent` are the bytes that it hasn't taken yet."""

    def __init__(self, program: str, files: Sequence[str], options: Sequence[str]) -> None:
        """Raises AttrdError where it can't be started."""
        try:
            self._errors = tempfile.TemporaryFile()
        except OSError as fault:
            raise cannot_start(program, fault) from None
        try:
            self._process = subprocess.Popen([program, *options, "--", *files], stdin=subprocess.PIPE, stdout=subprocess.PIPE,
                                             stderr=self._errors, bufsize=0, start_new_session=True)
        except (OSError, ValueError) as fault:
            self._errors.close()
            raise cannot_start(program, fault) from None
        assert self._process.stdin is not None and self._process.stdout is not None
        self.input, self.output = self._process.stdin.fileno(), self._process.stdout.fileno()
        self.number = self._process.pid
        self._schedule: Optional[int] = None
        with suppress(OSError):
            self._schedule = os.open(f"/proc/{self.number}/schedstat", os.O_RDONLY | os.O_CLOEXEC)
        self.unsent = bytearray()
        self._rest = b""
        self._chunk = FIRST_CHUNK

    def times(self) -> Times:
        """How many seconds it ran so far, and how many it waited for a processor; where the system doesn't tell that, as what always runs."""
        if self._schedule is None:
            return clock()
        try:
            ran, waited, _ = os.pread(self._schedule, SCHEDULE_BYTES, 0).split()
        except (OSError, ValueError):
            return clock()
        return int(ran) * 1e-9, int(waited) * 1e-9

    def replay(self, commands: Sequence[bytes]) -> None:
        """Has the edits made, each by the session 0. Raises Unfit where one is refused, and StartFault where the program ends."""
        self._exchange([b"0 version\n"])
        for at in range(0, len(commands), BATCH):
            lines = [line for it in commands[at:at + BATCH] for line in edit_lines(it)]
            for start in range(0, len(lines), BATCH):
                self._exchange(lines[start:start + BATCH])
        told = self._exchange([b"0 version\n"])[0]
        if told != b"0 ok %d" % len(commands):
            raise Unfit(f"behind {len(commands)} edits of the journal the program tells {told.decode()!r}")
        os.set_blocking(self.input, False)
        os.set_blocking(self.output, False)

    def _exchange(self, lines: List[bytes]) -> List[bytes]:
        """The replies to these lines, each of which is accepted."""
        try:
            self._write(b"".join(lines))
        except OSError:
            raise self.fault() from None
        replies: List[bytes] = []
        while len(replies) < len(lines):
            data = os.read(self.output, CHUNK)
            if not data:
                raise self.fault()
            *found, self._rest = (self._rest + data).split(b"\n")
            replies += found
        for line, reply in zip(lines, replies):
            # A mark that was made for an edit may have gone with its node.
            if not reply.startswith(b"0 ok ") and not line.startswith(b"0 unmark "):
                raise Unfit(f"an edit of the journal isn't accepted: {line[:200].decode('utf-8', 'replace').strip()}: {reply.decode()}")
        return replies

    def _write(self, data: bytes) -> None:
        while data:
            data = data[os.write(self.input, data):]

    def read(self) -> Optional[bytes]:
        """The bytes that are there; None where there are none yet, and b"" at the end."""
        try:
            data = os.read(self.output, self._chunk)
        except BlockingIOError:
            return None
        except OSError:
            return b""
        if len(data) == FIRST_CHUNK:
            data += self._read_on()
        # In the middle of a long reply more of it comes.
        self._chunk = CHUNK if len(data) >= CHUNK else FIRST_CHUNK
        return data

    def _read_on(self) -> bytes:
        """More of what is there. How the stream ends, the next reading tells."""
        try:
            return os.read(self.output, CHUNK)
        except OSError:
            return b""

    def send(self, data: bytes) -> bool:
        """Hands lines on, as far as the program takes them; the rest is `unsent`, and goes with the next call. Whether there is a rest."""
        if self.unsent:
            self.unsent += data
            return self._send_unsent()
        try:
            taken = os.write(self.input, data)
        except BlockingIOError:
            taken = 0
        except OSError:
            # It has ended, which its output tells.
            return False
        if taken == len(data):
            return False
        self.unsent += data[taken:]
        return True

    def _send_unsent(self) -> bool:
        """Hands on what waits, as far as the program takes it. Whether there is a rest."""
        try:
            del self.unsent[:os.write(self.input, self.unsent)]
        except BlockingIOError:
            pass
        except OSError:
            self.unsent.clear()
        return bool(self.unsent)

    def fault(self) -> AttrdError:
        """Why it ended before it answered."""
        told = self.end()
        return start_fault(self._process.returncode, told)

    def end(self) -> str:
        """Ends it: what it wrote on standard error, and how it ended."""
        for stream in (self._process.stdin, self._process.stdout):
            assert stream is not None
            stream.close()
        try:
            self._process.wait(ENDING_SECONDS)
        except subprocess.TimeoutExpired:
            self._process.kill()
            self._process.wait()
        if self._schedule is not None:
            os.close(self._schedule)
            self._schedule = None
        if self._errors.closed:
            return ""
        self._errors.seek(0)
        with self._errors:
            return self._errors.read().decode("utf-8", "replace").strip()

    @property
    def status(self) -> str:
        """How it ended, in words."""
        code = self._process.poll()
        return "it runs" if code is None else f"status {code}" if code >= 0 else f"signal {-code}"


def _mark_lines(path: bytes, name: bytes) -> List[Tuple[bytes, bytes]]:
    """Marks, each with its place, of which the last one has this name and is at the path: a long path is gone in steps."""
    made: List[Tuple[bytes, bytes]] = []
    place = b""
    for step in path.split(b"/")[1:]:
        if len(place) + len(step) > LINE_BYTES - _ROOM:
            made.append((b"%b%d" % (name, len(made)), place))
            place = b"$" + made[-1][0]
        place += b"/" + step
    return [*made, (name, place)]


def edit_lines(command: bytes) -> List[bytes]:
    """The lines of the session 0 that make an edit of the journal. Where its paths make it too long, marks stand for them."""
    if len(command) + len(b"0 ") <= LINE_BYTES:
        return [b"0 %b\n" % command]
    is_move = command.startswith(b"move ")
    words = command.split(b" ", 4 if is_move else 2)
    made: List[Tuple[bytes, bytes]] = []
    for at, name in ((1, b"a"), (3, b"b")) if is_move else ((1, b"a"),):
        made += _mark_lines(words[at], name)
        words[at] = b"$" + name
    marks = [b"0 mark %b %b\n" % it for it in made]
    return [*marks, b"0 %b\n" % b" ".join(words), *(b"0 unmark %b\n" % name for name, _ in made)]
