"""Waits for streams that can be read or written."""
from __future__ import annotations

import math
import os
import select
from time import monotonic
from typing import Callable, Dict, List, Tuple

READ, WRITE, GONE = select.EPOLLIN, select.EPOLLOUT, select.EPOLLHUP | select.EPOLLERR
Handler = Callable[[int], None]
# So many streams are looked at in a turn: what they bring goes on before the others are looked at.
AT_ONCE = 64
# So long it looks before it sleeps, in seconds: to be woken takes about as long as a quick reply.
LOOK = 5e-5
# Where that finds nothing it sleeps at once the next time, and the next two, four and so on up to so many times.
MOST_PAUSE = 255
# A look that ends so late was put aside, since no processor is free: for so long it looks no more. Both in seconds.
LATE, REST = 5e-4, 0.1


class _Looking:
    """Of waits of one kind: how many more are without looking, of how many since it found something last."""

    __slots__ = ("left", "pause")

    def __init__(self) -> None:
        self.left = self.pause = 0


class Loop:
    """Calls a stream's handler with what it is ready for. `now` is when the last turn was done with waiting.

    It looks at all streams for a moment before it sleeps, as long as that finds something: then neither a quick reply nor
    the next line of a quick client has to wake it. Where no processor is free it doesn't: it would keep off the one that
    it waits for.
    """

    def __init__(self) -> None:
        self.now = monotonic()
        self._epoll = select.epoll()
        self._poll = self._epoll.poll
        self._handlers: Dict[int, Handler] = {}
        self._looks_from = 0.0 if len(os.sched_getaffinity(0)) > 1 else math.inf
        # Waits in which a reply is due, and others.
        self._looking = {True: _Looking(), False: _Looking()}

    def watch(self, file: int, events: int, handler: Handler) -> None:
        """Begins to wait for a stream; that it is gone is told in any case. Raises OSError where the system waits for no more."""
        self._epoll.register(file, events)
        self._handlers[file] = handler

    def is_watched(self, file: int) -> bool:
        """Whether it waits for this stream."""
        return file in self._handlers

    def change(self, file: int, events: int) -> None:
        """Waits for something else of a stream."""
        self._epoll.modify(file, events)

    def forget(self, file: int) -> None:
        """Waits for a stream no more. It has to be open still."""
        if self._handlers.pop(file, None) is not None:
            self._epoll.unregister(file)

    def turn(self, seconds: float, is_due: bool = False) -> None:
        """Waits so long at most, and calls the handlers of what is ready. `is_due` tells whether a reply is awaited."""
        found = self._look(self._looking[is_due]) if seconds and self.now >= self._looks_from else []
        if not found:
            found = self._poll(seconds, AT_ONCE)
            self.now = monotonic()
        handler_of = self._handlers.get
        for file, events in found:
            handler = handler_of(file)
            if handler is not None:
                handler(events)

    def _look(self, looking: _Looking) -> List[Tuple[int, int]]:
        """What is ready within a moment, and `now`; nothing where this wait is one without looking."""
        if looking.left:
            looking.left -= 1
            return []
        found: List[Tuple[int, int]] = []
        poll, now = self._poll, monotonic()
        end = now + LOOK
        while not found and now < end:
            found = poll(0, AT_ONCE)
            now = monotonic()
        self.now = now
        if found:
            looking.pause = 0
        else:
            looking.left = looking.pause = min(MOST_PAUSE, 2 * looking.pause + 1)
        if now > end + LATE:
            self._looks_from = now + REST
        return found

    def close(self) -> None:
        """Waits for nothing more."""
        self._epoll.close()
