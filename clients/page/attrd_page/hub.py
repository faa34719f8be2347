"""The page's hub: the one of `attrd_hub` over streams of asyncio, with clients that can wait for replies."""
from __future__ import annotations

import asyncio
from typing import Callable, List, Optional, Sequence, Set, Tuple

from attrd import LineFault, ProtocolFault, ServerLost
from attrd.replies import Reply, read_form
from attrd_hub import hub, member
from attrd_hub.hub import SESSIONS, NoSession, Sink, Watcher

from .upstream import Upstream

__all__ = ["SESSIONS", "Hub", "Member", "NoSession", "Sink", "Watcher"]
CHUNK = 1 << 18


class Hub(hub.Hub):
    """Owns a connection to a server."""

    def __init__(self, upstream: Upstream) -> None:
        super().__init__()
        self.on_lines = self._flush_soon
        self._upstream = upstream
        self._draining = asyncio.Lock()

    def member(self, on_lost: Optional[Callable[[], None]] = None, on_done: Optional[Callable[[int, bytes], None]] = None) -> Member:
        """A new client. `on_lost` is called when the server has ended, `on_done` with a posted question's session and answer."""
        return Member(self, on_lost or (lambda: None), on_done or (lambda session, form: None))

    def _flush_soon(self) -> None:
        asyncio.get_running_loop().call_soon(self.flush)

    def flush(self) -> None:
        """Hands the lines so far to the stream: those of one turn of the loop go out together."""
        lines = self.lines()
        if lines and self.lost is None:
            self._upstream.writer.write(lines)

    async def room(self) -> None:
        """Waits until the server has taken most of what was sent: a client that sends much waits here before it sends more."""
        async with self._draining:
            try:
                await self._upstream.writer.drain()
            except OSError:
                pass

    async def run(self) -> None:
        """Reads replies until the server ends; then tells all clients."""
        while self.lost is None:
            try:
                data = await self._upstream.reader.read(CHUNK)
                if not data:
                    break
                self.feed(data)
            except (OSError, ProtocolFault):
                break
        self.lose()

    async def close(self) -> str:
        """Ends the server's input; what a program that was started here wrote on standard error."""
        return await self._upstream.close()


def _encoded(command: str) -> bytes:
    try:
        encoded = command.encode("utf-8")
    except UnicodeEncodeError:
        raise LineFault("a line has half of a surrogate pair, which UTF-8 can't spell") from None
    if b"\n" in encoded:
        raise LineFault("a line has a newline in it")
    return encoded


class Member(member.Member):
    """A client that can wait for its replies."""

    def __init__(self, hub: Hub, on_lost: Callable[[], None], on_done: Callable[[int, bytes], None]) -> None:
        self._waiting: Set[asyncio.Future[None]] = set()
        self._progress: Optional[asyncio.Future[None]] = None
        super().__init__(hub, on_lost, on_done)

    async def reply(self, command: str, session: int = 0) -> Reply:
        """The reply to a command. Raises ServerLost, NoSession, and LineFault where it is no single line of UTF-8."""
        return (await self.replies([(session, command)]))[0]

    async def replies(self, lines: Sequence[Tuple[int, str]], take: Optional[Callable[[int, Reply], None]] = None) -> List[Reply]:
        """Sends commands, each with its session, in one piece; their replies.

        `take` has each reply with its place in the list before any later one is looked at: so the tree that is known is that of
        the reply. Raises as `reply` does.
        """
        future: asyncio.Future[None] = asyncio.get_running_loop().create_future()
        encoded = [(session, _encoded(command)) for session, command in lines]
        found: List[Reply] = []

        def taken(form: bytes) -> None:
            found.append(read_form(form.decode("utf-8")))
            if take is not None:
                take(len(found) - 1, found[-1])
            if len(found) == len(lines) and not future.done():
                future.set_result(None)
        for session, command in encoded:
            self.send(session, command, taken)
        if encoded:
            self._waiting.add(future)
            try:
                await future
            finally:
                self._waiting.discard(future)
        return found

    async def fewer(self, most: int) -> None:
        """Waits until at most so many lines have no reply. One waits at a time."""
        while self.unanswered > most and self.hub.lost is None:
            self._progress = asyncio.get_running_loop().create_future()
            await self._progress

    def answer(self, lines: int) -> None:
        """So many lines less are without a reply."""
        super().answer(lines)
        if self._progress is not None and not self._progress.done():
            self._progress.set_result(None)

    def lose(self) -> None:
        """The server has ended."""
        for future in self._waiting:
            if not future.done():
                future.set_exception(self.hub.lost or ServerLost("the server has ended"))
        super().lose()
