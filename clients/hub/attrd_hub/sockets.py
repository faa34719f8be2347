"""The sockets at which the service listens."""
from __future__ import annotations

import os
import shutil
import socket
import stat
from contextlib import suppress
from pathlib import Path
from typing import Optional, Tuple

from attrd import AttrdError

BACKLOG = 1_024
HOST = "127.0.0.1"
SHORTEST_TOKEN = 16
# The system takes no longer path for a socket.
PATH_BYTES = 107


class ServerThere(AttrdError):
    """Another server answers at the socket's path."""


def is_socket(path: str) -> bool:
    """Whether there is the file of a socket."""
    try:
        return stat.S_ISSOCK(os.lstat(path).st_mode)
    except OSError:
        return False


def is_left_over(path: str) -> bool:
    """Whether there is the file of a socket on which nobody answers. Raises ServerThere where somebody does, and AttrdError where it
    is another file, or can't be looked at."""
    try:
        if not stat.S_ISSOCK(os.lstat(path).st_mode):
            raise AttrdError(f"{path}: it is there already, and no socket")
    except FileNotFoundError:
        return False
    except OSError as fault:
        raise AttrdError(f"{path}: {fault.strerror}") from None
    with socket.socket(socket.AF_UNIX, socket.SOCK_STREAM) as probe:
        probe.setblocking(False)
        try:
            probe.connect(path)
        except ConnectionRefusedError:
            return True
        except FileNotFoundError:
            # Who had it has just removed it.
            return False
        except BlockingIOError:
            # Somebody listens there, and has as many connections waiting as may wait.
            pass
        except OSError as fault:
            raise AttrdError(f"{path}: {fault.strerror}") from None
    raise ServerThere(f"{path}: another server answers there")


def file_at(path: str) -> Optional[Tuple[int, int]]:
    """Which file is at a path, as the system numbers it: the number of its device and its own; None where there is none."""
    try:
        found = os.lstat(path)
    except OSError:
        return None
    return found.st_dev, found.st_ino


def listen_at(path: str, mode: int, group: Optional[str]) -> socket.socket:
    """A Unix socket that listens at the path; a file on which nobody answers is taken over. Raises AttrdError."""
    stream = socket.socket(socket.AF_UNIX, socket.SOCK_STREAM)
    mask = os.umask(0o777 & ~mode)
    try:
        if is_left_over(path):
            with suppress(FileNotFoundError):
                os.unlink(path)
        stream.bind(path)
        if group is not None:
            shutil.chown(path, group=group)
        stream.listen(BACKLOG)
        stream.setblocking(False)
        return stream
    except (OSError, ValueError, LookupError) as fault:
        stream.close()
        raise AttrdError(f"{path}: no socket can be made: {getattr(fault, 'strerror', None) or fault}") from None
    except AttrdError:
        stream.close()
        raise
    finally:
        os.umask(mask)


def listen_tcp(port: int) -> socket.socket:
    """A socket that listens at the port of 127.0.0.1. Raises AttrdError."""
    stream = socket.socket(socket.AF_INET, socket.SOCK_STREAM)
    try:
        stream.setsockopt(socket.SOL_SOCKET, socket.SO_REUSEADDR, 1)
        stream.bind((HOST, port))
        stream.listen(BACKLOG)
        stream.setblocking(False)
        return stream
    except (OSError, OverflowError) as fault:
        stream.close()
        raise AttrdError(f"{HOST}:{port}: no socket can be made: {getattr(fault, 'strerror', None) or fault}") from None


def read_token(path: str) -> bytes:
    """The token of a file, without blanks around it. Raises AttrdError where it can't be read or is too short."""
    try:
        token = Path(path).read_bytes().strip()
    except OSError as fault:
        raise AttrdError(f"{path}: {fault.strerror}") from None
    if len(token) < SHORTEST_TOKEN or b"\n" in token:
        raise AttrdError(f"{path}: a token is one line of {SHORTEST_TOKEN} bytes or more")
    return token
