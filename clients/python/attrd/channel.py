"""Byte streams to a server: the pipes of a program that was started here, or a Unix socket."""
from __future__ import annotations

import os
import select
import socket
import subprocess
import time
from typing import IO, Optional, Tuple, Union

from .errors import AttrdError, ServerLost

CHUNK = 1 << 18


class Channel:
    """A stream both ways. It writes what the server takes, and reads what is there, in the same wait: so neither side can wait
    for the other one to read. Only the ends that belong to this process are made non-blocking."""

    def __init__(self, incoming: int, outgoing: int) -> None:
        self.incoming, self.outgoing = incoming, outgoing
        os.set_blocking(incoming, False)
        os.set_blocking(outgoing, False)
        self._waiting = select.poll()
        self._waiting.register(incoming, select.POLLIN)
        if outgoing != incoming:
            self._waiting.register(outgoing, 0)

    def write(self, data: bytes) -> int:
        """How many of the bytes the stream took, which may be none. Raises ServerLost where it has ended."""
        try:
            return os.write(self.outgoing, data)
        except BlockingIOError:
            return 0
        except OSError as fault:
            raise ServerLost(f"the server takes no more lines: {fault.strerror}") from None

    def read(self) -> Optional[bytes]:
        """The bytes that are there; None where there are none yet, and b"" at the end of the stream."""
        try:
            return os.read(self.incoming, CHUNK)
        except BlockingIOError:
            return None
        except OSError:
            return b""

    def wait(self, to_write: bool, seconds: Optional[float]) -> None:
        """Waits until there is something to read, or until it can write where that is wanted, or until the time is over."""
        writing = select.POLLOUT if to_write else 0
        if self.incoming == self.outgoing:
            self._waiting.modify(self.incoming, select.POLLIN | writing)
        else:
            self._waiting.modify(self.outgoing, writing)
        self._waiting.poll(None if seconds is None else max(0, int(seconds * 1000)))

    def close(self) -> None:
        """Ends both ways."""
        raise NotImplementedError

    def ended(self) -> Tuple[Optional[int], str]:
        """The exit status and the standard error of a program that was started here, after its stream has ended."""
        return None, ""


class Program(Channel):
    """A program that was started here, with its pipes."""

    def __init__(self, process: "subprocess.Popen[bytes]", errors: IO[bytes]) -> None:
        assert process.stdin is not None and process.stdout is not None
        self.process, self.errors = process, errors
        super().__init__(process.stdout.fileno(), process.stdin.fileno())

    def close(self) -> None:
        """Ends its input, and waits until it has ended."""
        assert self.process.stdin is not None and self.process.stdout is not None
        for stream in (self.process.stdin, self.process.stdout):
            try:
                stream.close()
            except OSError:
                pass
        try:
            self.process.wait(timeout=10)
        except subprocess.TimeoutExpired:
            self.process.kill()
            self.process.wait()
        self.errors.close()

    def ended(self) -> Tuple[Optional[int], str]:
        """Its exit status and its standard error; waits a little for its end."""
        try:
            status: Optional[int] = self.process.wait(timeout=10)
            self.errors.seek(0)
            return status, self.errors.read().decode("utf-8", "replace")
        except (subprocess.TimeoutExpired, ValueError, OSError):
            return None, ""


class Socket(Channel):
    """A connection of a Unix socket."""

    def __init__(self, stream: socket.socket) -> None:
        self.stream = stream
        super().__init__(stream.fileno(), stream.fileno())

    def close(self) -> None:
        """Ends both ways."""
        try:
            self.stream.shutdown(socket.SHUT_RDWR)
        except OSError:
            pass
        self.stream.close()


def open_socket(path: Union[str, "os.PathLike[str]"], seconds: float = 0.0) -> Socket:
    """A connection of the socket at this path, which is waited for so long. Raises AttrdError where none can be made."""
    name, until = str(path), time.monotonic() + seconds
    while True:
        try:
            return Socket(_connected(name))
        except (OSError, ValueError, UnicodeError) as fault:
            if time.monotonic() >= until or not isinstance(fault, OSError):
                raise AttrdError(f"{name}: no connection: {getattr(fault, 'strerror', None) or fault}") from None
        time.sleep(0.01)


def _connected(name: str) -> socket.socket:
    """Raises OSError where nobody listens there or the system has no more sockets, and ValueError where this is no path."""
    stream = socket.socket(socket.AF_UNIX, socket.SOCK_STREAM)
    try:
        stream.connect(name)
    except BaseException:
        stream.close()
        raise
    return stream
