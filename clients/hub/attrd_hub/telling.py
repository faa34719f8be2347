"""What the service tells its surroundings: lines for the system's journal, and datagrams for systemd."""
from __future__ import annotations

import os
import socket
import sys
import time
from enum import IntEnum


# So many bytes of a client's line are told.
SHOWN = 200


class Level(IntEnum):
    """How much a line matters, as syslog counts it."""

    ERROR = 3
    WARNING = 4
    INFO = 6


def shown(line: bytes) -> str:
    """A client's line as the log has it: its first characters, each of which can be printed."""
    text = line[:SHOWN].decode("utf-8", "replace")
    return "".join(it if it.isprintable() else "\ufffd" for it in text) + (" .." if len(line) > SHOWN else "")


def is_journal(file: int) -> bool:
    """Whether this is the stream to the system's journal that systemd has named, by its device and its number: what a service starts has
    that name, too, also where it writes elsewhere."""
    found = os.fstat(file)
    return os.environ.get("JOURNAL_STREAM") == f"{found.st_dev}:{found.st_ino}"


def log(level: Level, text: str) -> None:
    """Writes lines on standard error: each with its level where that is the system's journal, which adds the time, and else with the
    time."""
    try:
        head = f"<{level.value}>" if is_journal(sys.stderr.fileno()) else time.strftime("%Y-%m-%dT%H:%M:%S%z ")
        # Not by `print`: what can't be written would be tried again at the end of Python, which then ends with a status of its own.
        os.write(sys.stderr.fileno(), "".join(f"{head}{it}\n" for it in text.splitlines()).encode("utf-8", "replace"))
    except (OSError, ValueError, AttributeError):
        pass


def notify(state: str) -> None:
    """Tells systemd a state, as `READY=1`, where it has started the service and waits for that."""
    path = os.environ.get("NOTIFY_SOCKET", "")
    if not path:
        return
    try:
        with socket.socket(socket.AF_UNIX, socket.SOCK_DGRAM) as stream:
            stream.connect("\0" + path[1:] if path.startswith("@") else path)
            stream.send(state.encode("utf-8"))
    except OSError as fault:
        log(Level.WARNING, f"systemd isn't told {state}: {fault.strerror}")
