"""What an editor sends with a message, taken apart with a look at each part."""
from __future__ import annotations

from typing import Any, Type, TypeVar

from .positions import Change, Position
from .rpc import INVALID_PARAMS, Failure

T = TypeVar("T")

# A line or column is at most this in the protocol.
GREATEST = 2147483647


def part(message: Any, kind: Type[T], *names: str) -> T:
    """The part of the message that these names lead to. Raises Failure where it isn't there, or isn't of the kind."""
    found = message
    for name in names:
        found = found.get(name) if isinstance(found, dict) else None
    if not isinstance(found, kind) or (kind is int and isinstance(found, bool)):
        raise Failure(INVALID_PARAMS, f"the message has no {'.'.join(names)} that is a {kind.__name__}")
    return found


def uri_in(params: Any) -> str:
    """The document of a request or notification. Raises Failure where there is none."""
    return part(params, str, "textDocument", "uri")


def position_in(message: Any, *names: str) -> Position:
    """The position to which these names lead. Raises Failure where there is none."""
    line, character = part(message, int, *names, "line"), part(message, int, *names, "character")
    if not (0 <= line <= GREATEST and 0 <= character <= GREATEST):
        raise Failure(INVALID_PARAMS, f"{'.'.join(names)} is no position")
    return Position(line, character)


def change_in(message: Any) -> Change:
    """A change of a document. Raises Failure where it isn't one."""
    text = part(message, str, "text")
    if message.get("range") is None:
        return Change(None, None, text)
    return Change(position_in(message, "range", "start"), position_in(message, "range", "end"), text)
