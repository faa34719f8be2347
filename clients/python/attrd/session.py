"""Sessions: the commands as methods, marks, and questions in turns."""
from __future__ import annotations

import weakref
from collections import deque
from typing import TYPE_CHECKING, Deque, Dict, Iterable, List, Optional, Union

from . import commands
from .commands import Argument, Place
from .errors import AttrdError, NoValue, OutOfMemory, ProtocolFault, Refused
from .paths import FromMark, Path
from .replies import Answer, AskValue, Circular, Code, Done, Fault, Memory, Opened, Value
from .terms import Node, Token

if TYPE_CHECKING:
    from .connection import Connection, Pending


class Mark:
    """A marked node. The mark is removed on the server when this object is let go of, or at `release`.

    It follows its node when that moves. When the node is replaced or removed, lines with it are refused: Code.MARK.
    """

    def __init__(self, session: Session, name: str) -> None:
        self.name = name
        self._session = session
        self._end = weakref.finalize(self, session._forget, name)
        self._end.atexit = False

    @property
    def place(self) -> FromMark:
        """The place of the node."""
        return FromMark(self.name)

    def __truediv__(self, step: str) -> FromMark:
        return self.place / step

    def where(self) -> Path:
        """Where the node is now. Raises Refused with Code.MARK where it is gone."""
        return self._session.where(self.name)

    def is_there(self) -> bool:
        """Whether the node is still in the tree."""
        try:
            self.where()
        except Refused as refusal:
            if refusal.code != Code.MARK:
                raise
            return False
        return True

    def release(self) -> None:
        """Removes the mark now. A second time does nothing."""
        self._end()

    def __enter__(self) -> Mark:
        return self

    def __exit__(self, *_: object) -> None:
        self.release()

    def __str__(self) -> str:
        return "$" + self.name

    def __repr__(self) -> str:
        return f"<Mark ${self.name} of session {self._session.number}>"


class Question:
    """A posted question. `number` is the server's."""

    def __init__(self, session: Session, number: int) -> None:
        self.number, self._session = number, session
        self._done: Optional[Done] = None
        session.connection.on_done(number, self._take)

    def _take(self, done: Done) -> None:
        self._done = done

    @property
    def done(self) -> Optional[Done]:
        """The answer, with the version of its tree, where it is here."""
        return self._done

    def wait(self) -> Done:
        """Has the server go on with this question until it is answered. Raises ServerLost, OutOfMemory and ProtocolFault.

        An answer may be a refusal, where the place, the attribute or the arguments don't fit, or `Memory`.
        """
        connection = self._session.connection
        if self._done is None:
            line = connection.send_wait(self._session.number, self.number)
            if isinstance(line.reply(), Memory):
                raise OutOfMemory(f"no memory for: {line.command}")
        if self._done is None:
            raise ProtocolFault(f"question {self.number} has no answer")
        return self._done


class Session:
    """A session of a connection. Its methods send a line and wait for its reply; `send` doesn't wait.

    Each of them may raise ServerLost, ConnectionClosed, ProtocolFault, OutOfMemory, and Refused with the code; LineFault and
    SyntaxFault come before anything is sent.
    """

    def __init__(self, connection: Connection, number: int) -> None:
        self.connection, self.number = connection, number
        self._let_go: Deque[str] = deque()
        self._marks: Dict[str, None] = {}
        self._count = 0

    def send(self, command: str, at: Optional[int] = None) -> Pending:
        """Sends a command (see `attrd.commands`), and doesn't wait. Marks that were let go of are removed first."""
        self._forget_marks()
        return self.connection.send(self.number, command, at)

    def _forget_marks(self) -> None:
        while self._let_go:
            self.connection.send(self.number, commands.unmark(self._let_go.popleft()))

    def send_all(self, lines: Iterable[str]) -> List[Pending]:
        """Sends so many commands, and doesn't wait. Any number may be under way: replies are read meanwhile."""
        self._forget_marks()
        return self.connection.send_all(self.number, list(lines))

    def ask(self, place: Place, attribute: str, *arguments: Argument, at: Optional[int] = None) -> Answer:
        """The answer of a question: Value, Fault or Circular. A `str` argument is a text; a place is a Path or a mark."""
        reply = self.send(commands.ask(place, attribute, arguments), at).accepted()
        if isinstance(reply, (Value, Fault, Circular)):
            return reply
        raise ProtocolFault(f"{reply} is no answer")

    def value(self, place: Place, attribute: str, *arguments: Argument, at: Optional[int] = None) -> AskValue:
        """The value of an attribute in Python. Raises NoValue too, where the answer is a fault or a cycle."""
        answer = self.ask(place, attribute, *arguments, at=at)
        if isinstance(answer, Value):
            return answer.value
        raise NoValue(answer)

    def show(self, place: Place = "/", at: Optional[int] = None) -> Node:
        """The node with all below it."""
        value = self._value(commands.show(place), at)
        if isinstance(value, Node):
            return value
        raise ProtocolFault(f"{value} is no term")

    def set(self, place: Place, term: Union[str, Node], at: Optional[int] = None) -> int:
        """Puts a tree in the place of a node; the version then."""
        return self.send(commands.set_node(place, term), at).version()

    def put(self, place: Place, part: str, term: Union[str, Node], at: Optional[int] = None) -> int:
        """Fills an empty optional; the version then."""
        return self.send(commands.put(place, part, term), at).version()

    def drop(self, place: Place, at: Optional[int] = None) -> int:
        """Removes an element of a list, or what stands in an optional; the version then."""
        return self.send(commands.drop(place), at).version()

    def insert(self, place: Place, part: str, index: int, term: Union[str, Node], at: Optional[int] = None) -> int:
        """A new element, of this index then; the version then."""
        return self.send(commands.insert(place, part, index, term), at).version()

    def token(self, place: Place, part: str, value: Token, at: Optional[int] = None) -> int:
        """Another value for a token; the version then."""
        return self.send(commands.token(place, part, value), at).version()

    def move(self, place: Place, target: Place, part: str, index: int, at: Optional[int] = None) -> int:
        """Takes an element to another place of a list: INDEX counts without it; the version then."""
        return self.send(commands.move(place, target, part, index), at).version()

    def version(self, at: Optional[int] = None) -> int:
        """How many edits were accepted."""
        return self.send(commands.version(), at).version()

    def mark(self, place: Place, name: Optional[str] = None, at: Optional[int] = None) -> Mark:
        """Marks a node, under a name of its own where none is given."""
        if name is not None:
            self.send(commands.mark(name, place), at).version()
            return self._marked(name)
        while True:
            name = self._fresh()
            try:
                self.send(commands.mark(name, place), at).version()
                return self._marked(name)
            except Refused as refusal:
                if refusal.code != Code.TAKEN:
                    raise

    def _fresh(self) -> str:
        self._count += 1
        return f"m{self._count}"

    def _marked(self, name: str) -> Mark:
        self._marks[name] = None
        return Mark(self, name)

    def _forget(self, name: str) -> None:
        """Called when a mark is let go of, in whatever thread that is: the line goes out with the next one."""
        if self._marks.pop(name, 0) is None:
            self._let_go.append(name)

    def where(self, name: str, at: Optional[int] = None) -> Path:
        """Where a mark of this session is now."""
        value = self._value(commands.where(name), at)
        if isinstance(value, Path):
            return value
        raise ProtocolFault(f"{value} is no path")

    def _value(self, command: str, at: Optional[int]) -> AskValue:
        reply = self.send(command, at).accepted()
        if isinstance(reply, Value):
            return reply.value
        raise ProtocolFault(f"{reply} is no reply to {command[:100]}")

    def post(self, place: Place, attribute: str, *arguments: Argument, at: Optional[int] = None) -> Question:
        """Posts a question, which the server goes on with between lines. A program without `post` refuses it: Code.SYNTAX."""
        reply = self.send(commands.post(place, attribute, arguments), at).accepted()
        if isinstance(reply, Opened):
            return Question(self, reply.number)
        raise ProtocolFault(f"{reply} is no reply to a post")

    def close(self) -> None:
        """Removes the marks that this session made here, and lets another session have its number."""
        self._let_go.extend(self._marks)
        self._marks.clear()
        if self.connection.lost is None:
            try:
                self.send(commands.version()).reply()
            except AttrdError:
                pass
        self.connection.release(self.number)

    def __enter__(self) -> Session:
        return self

    def __exit__(self, *_: object) -> None:
        self.close()
