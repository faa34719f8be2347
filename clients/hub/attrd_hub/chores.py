"""Lines of the hub's own that nobody waits for: they go a few at a time, so that those of clients come between."""
from __future__ import annotations

from collections import deque
from functools import partial
from typing import TYPE_CHECKING, Deque, Tuple

if TYPE_CHECKING:
    from .hub import Hub, Sink

# So many of them are under way at once, and about so many bytes.
AT_ONCE, BYTES = 32, 1 << 16


class Chores:
    """Sends the lines in their order. The next ones go when those before them have their replies; `under_way` counts those that have none."""

    def __init__(self, hub: "Hub") -> None:
        self._hub = hub
        self._waiting: Deque[Tuple[int, bytes, bytes, "Sink"]] = deque()
        self.under_way = 0

    def add(self, session: int, word: bytes, name: bytes, sink: "Sink") -> None:
        """One more line: the word, and behind a blank the name, where there is one. `sink` gets its reply."""
        self._waiting.append((session, word, name, sink))
        if not self.under_way:
            self._go_on()

    def _go_on(self) -> None:
        left = BYTES
        while self._waiting and self.under_way < AT_ONCE and left > 0 and self._hub.lost is None:
            session, word, name, sink = self._waiting.popleft()
            self.under_way += 1
            left -= len(name)
            self._hub.send(None, session, b"%b %b" % (word, name) if name else word, partial(self._answer, sink))

    def _answer(self, sink: "Sink", form: bytes) -> None:
        sink(form)
        self.under_way -= 1
        if not self.under_way:
            self._go_on()
