"""What a hub tells of itself: as an object of JSON at a socket beside its own, and as text."""
from __future__ import annotations

import json
import re
import socket
import time
from bisect import bisect_left
from collections import Counter, deque
from typing import TYPE_CHECKING, Deque, Dict, List, Optional, Union

from attrd import AttrdError
from attrd.versions import VERSION

if TYPE_CHECKING:
    from .service import Service

SECONDS = 10.0
Figure = Union[int, float, str, None, List[int], Dict[str, int]]
# The waits of lines are counted up to each of these, in seconds.
BOUNDS = (0.0001, 0.00025, 0.0005, 0.001, 0.0025, 0.005, 0.01, 0.025, 0.05, 0.1, 0.25, 0.5, 1.0, 2.5, 5.0, 10.0)
# Of so many waits the median and the longest are told.
RECENT = 1_000
_REFUSED = re.compile(rb"^[0-9?]+ refused ([0-9]+)", re.M)
# Each figure, in the order in which it is told, with its name and its unit in words.
FIGURES = {
    "hub_version": ("version of the hub", ""), "program_version": ("version of the program", ""),
    "version": ("version of the tree", ""), "clients": ("clients", ""), "came": ("clients that came", ""),
    "let_go": ("clients that were let go of", ""), "lines": ("lines", ""), "in_flight": ("lines without a reply", ""),
    "refused": ("lines that were refused", ""), "edits": ("accepted edits", ""),
    "wait_median": ("wait of a line, median", "ms"), "wait_longest": ("wait of a line, longest", "ms"),
    "unread": ("bytes that clients haven't read", ""), "restarts": ("restarts of the program", ""),
    "seconds": ("seconds since the start", ""), "journal_edits": ("edits in the journal", ""),
    "journal_bytes": ("bytes of the journal", ""),
    "hub_memory": ("memory of the hub", "KiB"), "program_memory": ("memory of the program", "KiB"),
    "kept": ("cached values", "(no command of the program tells them)"),
}


class Counts:
    """What is counted since the start of the hub."""

    def __init__(self) -> None:
        self.came = 0
        self.let_go = 0
        self.lines = 0
        self.refused = 0
        self.refused_codes: Dict[str, int] = Counter()
        self.edits = 0
        self.restarts = 0

    def count_refused(self, replies: bytes) -> None:
        """Counts those of these replies that refuse a line, by their codes."""
        for code in _REFUSED.findall(replies):
            self.refused += 1
            self.refused_codes[code.decode("ascii")] += 1


class Waits:
    """How long lines wait for the program: about one in a millisecond is looked at, from where it is handed on until its reply comes.

    `counts` has the waits since the start, up to each of `BOUNDS` and above; `seconds` is their sum.
    """

    def __init__(self) -> None:
        self.counts = [0] * (len(BOUNDS) + 1)
        self.seconds = 0.0
        self._recent: Deque[float] = deque(maxlen=RECENT)

    def add(self, seconds: float) -> None:
        """One more."""
        self.counts[bisect_left(BOUNDS, seconds)] += 1
        self.seconds += seconds
        self._recent.append(seconds)

    def figures(self) -> Dict[str, Figure]:
        """The waits as figures; the median and the longest are of the last ones, in milliseconds, and None before the first."""
        recent = sorted(self._recent)
        median = (recent[(len(recent) - 1) // 2] + recent[len(recent) // 2]) / 2 if recent else 0.0
        return {"wait_counts": self.counts, "wait_seconds": round(self.seconds, 6),
                "wait_median": round(median * 1e3, 3) if recent else None,
                "wait_longest": round(recent[-1] * 1e3, 3) if recent else None}


def status_path(path: str) -> str:
    """Where the hub at this socket tells its figures."""
    return path + ".status"


def memory_of(process: Union[int, str]) -> Optional[int]:
    """How much memory a process has, in KiB; None where it isn't there."""
    try:
        with open(f"/proc/{process}/status", encoding="ascii", errors="replace") as lines:
            return next((int(it.split()[1]) for it in lines if it.startswith("VmRSS:")), None)
    except OSError:
        return None


def figures_of(service: "Service") -> Dict[str, Figure]:
    """What a service tells of itself."""
    journal = service.journal
    return {
        **vars(service.counts), **service.waits.figures(), "hub_version": VERSION, "program_version": service.program_version,
        "version": service.hub.version, "clients": len(service.clients), "in_flight": service.hub.in_flight,
        "unread": sum(it.unread_bytes for it in service.clients), "seconds": round(time.monotonic() - service.began, 1),
        "journal_edits": journal.edits if journal is not None else None,
        "journal_bytes": journal.bytes if journal is not None else None,
        "hub_memory": memory_of("self"), "program_memory": memory_of(service.program.number), "kept": None}


def asked(path: str) -> Dict[str, Figure]:
    """The figures of the hub at this socket. Raises AttrdError where none answers."""
    try:
        with socket.socket(socket.AF_UNIX, socket.SOCK_STREAM) as stream:
            stream.settimeout(SECONDS)
            stream.connect(status_path(path))
            data = b"".join(iter(lambda: stream.recv(1 << 16), b""))
        figures: Dict[str, Figure] = json.loads(data)
        return figures
    except (OSError, ValueError) as fault:
        raise AttrdError(f"{path}: no hub tells its figures there: {getattr(fault, 'strerror', None) or fault}") from None


def as_text(figures: Dict[str, Figure]) -> str:
    """The figures, one in a line."""
    lines = []
    for key, (name, unit) in FIGURES.items():
        value = figures.get(key)
        told = f"{value:,}" if isinstance(value, (int, float)) else str(value)
        if value is None:
            # What isn't known has no unit; but why it isn't known is told.
            told, unit = "not known", unit if unit.startswith("(") else ""
        lines.append(f"{name:34}{told} {unit}".rstrip())
    return "\n".join(lines)
