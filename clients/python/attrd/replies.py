"""Replies as types. `read_reply` reads a line of the server."""
from __future__ import annotations

from dataclasses import dataclass
from enum import Enum, IntEnum
from functools import lru_cache
from typing import Callable, Dict, Optional, Tuple, Union

from .errors import ProtocolFault, SyntaxFault
from .lexical import is_name, read_quoted
from .paths import Path
from .terms import Node, read_term

# Replies of so many bytes at most are kept, to be read once.
SHORT = 200


class Code(IntEnum):
    """The codes of refusals, in the order in which the server looks for them."""

    SYNTAX = 1
    STALE = 2
    MARK = 3
    PATH = 4
    COMPONENT = 5
    CLASS = 6
    FIT = 7
    INDEX = 8
    TAKEN = 9
    FIXED = 10
    INSIDE = 11
    LIMIT = 12
    ATTRIBUTE = 13
    ARGUMENTS = 14
    QUESTION = 15


class FaultKind(Enum):
    """Why an evaluation has no value."""

    NULL = "null"
    INDEX = "index"
    ABSENT = "absent"
    ZERO = "zero"
    CAST = "cast"
    LONG = "long"


AskValue = Union[int, bool, str, Path, None, Node]


@dataclass(frozen=True)
class Ok:
    """An edit, a mark or `version` was accepted; the version of the tree now."""

    version: int

    def __str__(self) -> str:
        return f"ok {self.version}"


@dataclass(frozen=True)
class Value:
    """A value, as it is written: a decimal, true, false, a text, a path, null, or a term."""

    text: str

    @property
    def value(self) -> AskValue:
        """The value in Python: int, bool, str, Path, None or Node. Raises ProtocolFault where it is none of them."""
        return read_value(self.text)

    def __str__(self) -> str:
        return f"= {self.text}"


@dataclass(frozen=True)
class Fault:
    """The evaluation met a fault, in the equation of this attribute at this node."""

    kind: FaultKind
    path: Path
    attribute: str

    def __str__(self) -> str:
        return f"fault {self.kind.value} in {self.path}.{self.attribute}"


@dataclass(frozen=True)
class Circular:
    """The question came back to this attribute of this node."""

    path: Path
    attribute: str

    def __str__(self) -> str:
        return f"circular {self.path}.{self.attribute}"


@dataclass(frozen=True)
class RefusedReply:
    """The line was refused. `version` is the server's, for Code.STALE alone."""

    code: Code
    name: str
    version: Optional[int] = None

    def __str__(self) -> str:
        return f"refused {int(self.code)} {self.name}" + ("" if self.version is None else f" {self.version}")


@dataclass(frozen=True)
class Memory:
    """There was no memory for the line: it changed nothing."""

    def __str__(self) -> str:
        return "memory"


@dataclass(frozen=True)
class Opened:
    """A question was posted under this number."""

    number: int

    def __str__(self) -> str:
        return f"open {self.number}"


@dataclass(frozen=True)
class Done:
    """A posted question was answered, on the tree of this version."""

    number: int
    version: int
    answer: Union[Value, Fault, Circular, RefusedReply, Memory]

    def __str__(self) -> str:
        return f"done {self.number} {self.version} {self.answer}"


Answer = Union[Value, Fault, Circular]
Reply = Union[Ok, Value, Fault, Circular, RefusedReply, Memory, Opened, Done]


def read_value(text: str) -> AskValue:
    """The value that the text spells: int, bool, str, Path, None or Node. Raises ProtocolFault."""
    constants: Dict[str, Optional[bool]] = {"true": True, "false": False, "null": None}
    if text in constants:
        return constants[text]
    try:
        if text.startswith("/"):
            return Path.read(text)
        if text.startswith('"'):
            value, end = read_quoted(text)
            if end == len(text):
                return value
        elif text[:1] == "-" or "0" <= text[:1] <= "9":
            return int(text)
        else:
            return read_term(text)
    except (SyntaxFault, ValueError):
        pass
    raise ProtocolFault(f"no value: {text[:100]!r}")


def _place(text: str) -> Tuple[Path, str]:
    path, _, attribute = text.rpartition(".")
    if not is_name(attribute):
        raise ValueError
    return Path.read(path), attribute


def _ok(rest: str) -> Ok:
    return Ok(int(rest))


def _fault(rest: str) -> Fault:
    kind, _, place = rest.partition(" in ")
    return Fault(FaultKind(kind), *_place(place))


def _circular(rest: str) -> Circular:
    return Circular(*_place(rest))


def _refused(rest: str) -> RefusedReply:
    words = rest.split(" ")
    code = Code(int(words[0]))
    version = int(words[2]) if code is Code.STALE else None
    return RefusedReply(code, words[1], version)


def _memory(rest: str) -> Memory:
    if rest:
        raise ValueError
    return Memory()


def _opened(rest: str) -> Opened:
    return Opened(int(rest))


def _done(rest: str) -> Done:
    number, version, answer = rest.split(" ", 2)
    form = read_form(answer)
    if isinstance(form, (Ok, Opened, Done)):
        raise ValueError
    return Done(int(number), int(version), form)


_FORMS: Dict[str, Callable[[str], Reply]] = {
    "ok": _ok, "=": Value, "fault": _fault, "circular": _circular, "refused": _refused, "memory": _memory, "open": _opened, "done": _done}


def read_form(text: str) -> Reply:
    """The reply of the text behind the session. Raises ProtocolFault where it is none."""
    word, _, rest = text.partition(" ")
    try:
        return _FORMS[word](rest)
    except (KeyError, ValueError, IndexError, SyntaxFault):
        raise ProtocolFault(f"no reply: {text[:100]!r}") from None


def read_reply(line: bytes) -> Tuple[Optional[int], Reply]:
    """The session of a reply, None for `?`, and the reply. Raises ProtocolFault where the line is none."""
    return _read_short(line) if len(line) <= SHORT else _read(line)


def _read(line: bytes) -> Tuple[Optional[int], Reply]:
    try:
        session, _, rest = line.decode("utf-8").partition(" ")
        number = None if session == "?" else int(session)
    except ValueError:
        raise ProtocolFault(f"no reply: {line[:100]!r}") from None
    return number, read_form(rest)


# Replies never change, and most of them come again and again.
_read_short = lru_cache(maxsize=1 << 12)(_read)
