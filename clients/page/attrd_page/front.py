"""The hub's own socket: editors and other clients speak the server's protocol there, all at once."""
from __future__ import annotations

import asyncio
import os
import re
from typing import Optional, Set

from attrd import AttrdError

from .hub import Hub, Member

CHUNK = 1 << 16
LINE_BYTES = 65_535
# How many lines of a client may be under way: replies may be long.
UNANSWERED = 256
_LINE = re.compile(rb"(0|[1-9][0-9]{0,2})(?: (.*))?\Z", re.S)


class Client:
    """One connection to the hub's socket."""

    def __init__(self, hub: Hub, reader: asyncio.StreamReader, writer: asyncio.StreamWriter) -> None:
        self.hub, self.reader, self.writer = hub, reader, writer
        self.member: Member = hub.member(self.writer.close, self._tell)

    def _tell(self, session: int, form: bytes) -> None:
        self._write(b"%d %b\n" % (session, form))

    def _write(self, data: bytes) -> None:
        if not self.writer.is_closing():
            self.writer.write(data)

    async def serve(self) -> None:
        """Answers its lines until it goes. A client that takes no replies is given no more, and its lines wait."""
        rest = b""
        try:
            while self.hub.lost is None:
                data = await self.reader.read(CHUNK)
                if not data:
                    break
                *lines, rest = (rest + data).split(b"\n")
                for line in lines:
                    self._line(line)
                    await self._pace()
                # What is over the limit stays over it when its end is cut off.
                rest = rest[:LINE_BYTES + 16]
                await self.hub.room()
            if rest and self.hub.lost is None:
                self._line(rest)
            await self._last_replies()
        except (OSError, AttrdError):
            pass
        finally:
            self.member.leave()
            self.writer.close()

    async def _pace(self) -> None:
        """Waits where many lines have no reply yet, or where the client takes none."""
        await self.member.fewer(UNANSWERED)
        await self.writer.drain()

    async def _last_replies(self) -> None:
        """Waits until all lines that were sent have their replies: a client may close its sending half first."""
        if self.hub.lost is None:
            await self.member.reply("version")
            await self.writer.drain()

    def _line(self, line: bytes) -> None:
        """Sends a line on. A line whose session can't be read is answered here, behind those before it."""
        if not line:
            return
        found = _LINE.match(line)
        if found is None:
            self.member.send(0, b"version", lambda _: self._write(b"? refused 1 syntax\n"))
            return
        session = int(found[1])
        self.member.send(session, found[2] or b"", lambda form: self._tell(session, form))


async def listen(hub: Hub, path: str) -> asyncio.AbstractServer:
    """Serves the hub at a socket, to the user alone. Raises AttrdError where the socket can't be made; what is there stays."""
    clients: Set[asyncio.Task[None]] = set()

    async def serve(reader: asyncio.StreamReader, writer: asyncio.StreamWriter) -> None:
        task: Optional[asyncio.Task[None]] = asyncio.current_task()
        if task is not None:
            clients.add(task)
            task.add_done_callback(clients.discard)
        await Client(hub, reader, writer).serve()

    if os.path.lexists(path):
        raise AttrdError(f"{path}: it is there already")
    mask = os.umask(0o177)
    try:
        return await asyncio.start_unix_server(serve, path, backlog=256)
    except (OSError, ValueError) as fault:
        raise AttrdError(f"{path}: no socket can be made: {getattr(fault, 'strerror', None) or fault}") from None
    finally:
        os.umask(mask)
