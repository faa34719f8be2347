"""The client for programs with an event loop: questions and edits that are awaited, while the loop goes on."""
from __future__ import annotations

import asyncio
from contextlib import suppress
from types import TracebackType
from typing import Any, Iterable, List, Optional, Type

from . import commands
from .commands import Argument, Place
from .connection import Connection, Pending
from .errors import AttrdError, NoValue, ProtocolFault
from .replies import Answer, AskValue, Circular, Done, Fault, Ok, Opened, Reply, Value
from .server import start as start_server
from .session import Session
from .terms import Node


class AsyncConnection:
    """A connection in an event loop. It reads and writes when the stream can, and waits for nothing by itself.

    Its methods are called in that loop alone. What it is given is closed with it: `async with AsyncConnection(attrd.connect(path))`.
    """

    def __init__(self, connection: Connection) -> None:
        """In the loop that runs now. Raises RuntimeError where none does."""
        self.connection = connection
        self._loop = asyncio.get_running_loop()
        self._writing: Optional[int] = None
        self._loop.add_reader(connection.fileno(), self._go_on)

    def session(self, number: Optional[int] = None) -> AsyncSession:
        """A session, as `Connection.session`."""
        return AsyncSession(self, self.connection.session(number))

    def _go_on(self) -> None:
        """Writes and reads what can be written and read now, and waits to be called again where lines are left."""
        with suppress(AttrdError):
            self.connection.poll()
        wanted = self.connection.writing_fileno()
        if wanted is not None and self._writing is None:
            self._loop.add_writer(wanted, self._go_on)
        elif wanted is None and self._writing is not None:
            self._loop.remove_writer(self._writing)
        self._writing = wanted
        if self.connection.lost is not None:
            self._loop.remove_reader(self.connection.fileno())

    async def answered(self, pending: Pending) -> Pending:
        """The line, when its reply is here or will never come."""
        done = asyncio.Event()
        pending.when_answered(done.set)
        self._go_on()
        await done.wait()
        return pending

    async def close(self) -> None:
        """Closes the stream, and ends a program that was started for it."""
        self._loop.remove_reader(self.connection.fileno())
        if self._writing is not None:
            self._loop.remove_writer(self._writing)
        await self._loop.run_in_executor(None, self.connection.close)

    async def __aenter__(self) -> AsyncConnection:
        return self

    async def __aexit__(self, kind: Optional[Type[BaseException]], fault: Optional[BaseException], trace: Optional[TracebackType]) -> None:
        await self.close()


class AsyncSession:
    """A session whose lines are awaited. `attrd.commands` spells them: `await session.edit(commands.drop("/Stmt:0"))`.

    Each method may raise what `Session` raises.
    """

    def __init__(self, connection: AsyncConnection, session: Session) -> None:
        self.connection, self.session = connection, session

    async def reply(self, command: str, at: Optional[int] = None) -> Reply:
        """The reply to a command that isn't refused."""
        return (await self.connection.answered(self.session.send(command, at))).accepted()

    async def replies(self, lines: Iterable[str]) -> List[Reply]:
        """The replies to these commands, whatever they are: all are sent before the first is waited for."""
        pending = self.session.send_all(lines)
        return [(await self.connection.answered(it)).reply() for it in pending]

    async def edit(self, command: str, at: Optional[int] = None) -> int:
        """The version behind an edit, a mark or `version`."""
        reply = await self.reply(command, at)
        if isinstance(reply, Ok):
            return reply.version
        raise ProtocolFault(f"{reply} is no reply to {command[:100]}")

    async def ask(self, place: Place, attribute: str, *arguments: Argument, at: Optional[int] = None) -> Answer:
        """The answer of a question: Value, Fault or Circular."""
        return _answer(await self.reply(commands.ask(place, attribute, arguments), at))

    async def value(self, place: Place, attribute: str, *arguments: Argument, at: Optional[int] = None) -> AskValue:
        """The value of an attribute in Python. Raises NoValue too."""
        answer = await self.ask(place, attribute, *arguments, at=at)
        if isinstance(answer, Value):
            return answer.value
        raise NoValue(answer)

    async def show(self, place: Place = "/", at: Optional[int] = None) -> Node:
        """The node with all below it."""
        reply = await self.reply(commands.show(place), at)
        value = reply.value if isinstance(reply, Value) else None
        if isinstance(value, Node):
            return value
        raise ProtocolFault(f"{reply} is no term")

    async def posted(self, place: Place, attribute: str, *arguments: Argument) -> Done:
        """The answer of a question that the server goes on with between lines, with the version of its tree. Other lines come between.

        A program without `post` refuses it: Code.SYNTAX.
        """
        reply = await self.reply(commands.post(place, attribute, arguments))
        if not isinstance(reply, Opened):
            raise ProtocolFault(f"{reply} is no reply to a post")
        done: List[Done] = []
        self.connection.connection.on_done(reply.number, done.append)
        while not done:
            await self.reply(commands.version())
        return done[0]


def _answer(reply: Reply) -> Answer:
    if isinstance(reply, (Value, Fault, Circular)):
        return reply
    raise ProtocolFault(f"{reply} is no answer")


async def start(*files: Any, **named: Any) -> AsyncConnection:
    """Starts the program as `attrd.start`, with the same arguments; the loop goes on meanwhile. Raises as that."""
    loop = asyncio.get_running_loop()
    return AsyncConnection(await loop.run_in_executor(None, lambda: start_server(*files, **named)))
