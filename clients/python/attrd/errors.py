"""The exceptions of this package. All of them are an `AttrdError`."""
from __future__ import annotations

from typing import Optional


class AttrdError(Exception):
    """Anything that this package tells as a fault."""


class SyntaxFault(AttrdError):
    """A text isn't what it was read as: a term, a path, a value, a reply.

    `what` says what was to be read, `text` is the text, `at` the character with which it can't go on.
    """

    def __init__(self, what: str, text: str, at: int, reason: str) -> None:
        shown = text[max(0, at - 20):at + 20]
        super().__init__(f"no {what}: {reason} at character {at}, near {shown!r}")
        self.what, self.text, self.at, self.reason = what, text, at, reason


class GrammarFault(AttrdError):
    """A grammar that the server would refuse: `code` and `name` as the server tells them, `line` and `column` from 1."""

    def __init__(self, code: str, name: str, line: int, column: int) -> None:
        super().__init__(f"{code} {name} at {line}:{column}")
        self.code, self.name, self.line, self.column = code, name, line, column


class TermFault(AttrdError):
    """A term doesn't fit the grammar: `path` leads from its root to the place (`/Stmt:3/Init`), `reason` says why."""

    def __init__(self, path: str, reason: str) -> None:
        super().__init__(f"{path}: {reason}")
        self.path, self.reason = path, reason


class UnknownName(AttrdError):
    """The grammar has no class of this name, or the class no such component."""


class StartFault(AttrdError):
    """The program ended before it answered a line.

    `status` is its exit status and `message` what it wrote. Where a file was refused, `file`, `code` and `name` are set,
    and `line` and `column` where the message has a place (a tree file's has none).
    """

    def __init__(self, status: Optional[int], message: str, file: Optional[str] = None, code: Optional[str] = None,
                 name: Optional[str] = None, line: Optional[int] = None, column: Optional[int] = None) -> None:
        super().__init__(message.strip() or f"the program ended with status {status}")
        self.status, self.message = status, message
        self.file, self.code, self.name, self.line, self.column = file, code, name, line, column


class ServerLost(AttrdError):
    """The stream to the server ended. Of lines without a reply nobody knows whether they were handled; none is sent again.

    `unanswered` counts these lines; `status` and `message` are the exit status and the standard error of a program that was
    started here, where they are known.
    """

    def __init__(self, reason: str, unanswered: int = 0, status: Optional[int] = None, message: str = "") -> None:
        told = f"{reason}; {unanswered} lines have no reply" if unanswered else reason
        super().__init__(f"{told} ({message.strip()})" if message.strip() else told)
        self.reason, self.unanswered, self.status, self.message = reason, unanswered, status, message


class ServerRestarted(ServerLost):
    """A server answers again, and it isn't the one from before: what was known of its tree, version and marks is gone."""


class ConnectionClosed(AttrdError):
    """The connection was closed here before."""


class ReplyTimeout(AttrdError):
    """No reply came in the time that was given. The line stays sent, and its reply may still come."""


class ProtocolFault(AttrdError):
    """The server wrote what is no reply to the line that was sent."""


class LineFault(AttrdError):
    """A line can't be sent: it has more than 65,535 bytes, or a part of it can't be spelled."""


class Refused(AttrdError):
    """A line was refused. `code` is a `Code`; `version` is the server's where the code is `Code.STALE`."""

    def __init__(self, code: int, name: str, version: Optional[int] = None, line: str = "") -> None:
        shown = line if len(line) <= 120 else line[:117] + "..."
        super().__init__(f"refused {int(code)} {name}" + (f" {version}" if version is not None else "") + (f": {shown}" if line else ""))
        self.code, self.name, self.version, self.line = code, name, version, line


class OutOfMemory(AttrdError):
    """The server had no memory for a line. It changed nothing, and the line may be sent again."""


class NoValue(AttrdError):
    """A question has no value: `reply` is the `Fault` or `Circular` that answered it."""

    def __init__(self, reply: object) -> None:
        super().__init__(str(reply))
        self.reply = reply


class TreeDiffers(AttrdError):
    """The server's tree isn't the one that is known here. `path` leads to the first node that differs."""

    def __init__(self, path: str, known: str, shown: str) -> None:
        super().__init__(f"the server's tree differs at {path}: {shown[:80]} in place of {known[:80]}")
        self.path, self.known, self.shown = path, known, shown


class AspectFault(AttrdError):
    """An aspect can't be written from what was named: an attribute or a class isn't there, or isn't of the kind wanted."""


def text_of(what: str, value: object) -> str:
    """The value, where it is a text. Raises AttrdError."""
    if isinstance(value, str):
        return value
    raise AttrdError(f"{what} is a text, and not {type(value).__name__}")
