"""Who is at the other end of a connection, as the system tells it."""
from __future__ import annotations

import socket
import struct
from typing import NamedTuple, Optional

_CREDENTIALS = struct.Struct("iII")


class Peer(NamedTuple):
    """The process that connected, and the user and group that it had then, all by number."""

    pid: int
    uid: int
    gid: int

    def __str__(self) -> str:
        return f"pid {self.pid}, uid {self.uid}, gid {self.gid}"


def peer_of(stream: socket.socket) -> Optional[Peer]:
    """Who connected to a Unix socket; None over TCP, and where the system doesn't tell it."""
    if stream.family != socket.AF_UNIX:
        return None
    try:
        return Peer(*_CREDENTIALS.unpack(stream.getsockopt(socket.SOL_SOCKET, socket.SO_PEERCRED, _CREDENTIALS.size)))
    except OSError:
        return None
