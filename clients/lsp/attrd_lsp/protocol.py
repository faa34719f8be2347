"""Stretches of text, diagnostics and kinds of symbols, as the editor's protocol has them."""
from __future__ import annotations

from enum import IntEnum
from functools import cached_property, lru_cache
from typing import Any, Dict

from .positions import Span, Text
from .rpc import ENCODER

Json = Dict[str, Any]


class Symbol(IntEnum):
    """The protocol's numbers for kinds of symbols."""

    FILE, MODULE, NAMESPACE, PACKAGE, CLASS, METHOD, PROPERTY, FIELD, CONSTRUCTOR, ENUM, INTERFACE, FUNCTION, VARIABLE = range(1, 14)
    CONSTANT, STRING, NUMBER, BOOLEAN, ARRAY, OBJECT, KEY, NULL, ENUM_MEMBER, STRUCT, EVENT, OPERATOR, TYPE_PARAMETER = range(14, 27)


def range_of(text: Text, span: Span) -> Json:
    """The stretch of the text, for the editor."""
    (line, character), (last, end) = text.range(span)
    return {"start": {"line": line, "character": character}, "end": {"line": last, "character": end}}


class Told(Json):
    """A diagnostic. It isn't changed: most are told again at each key, and are written then as they were."""

    @cached_property
    def text(self) -> str:
        """What is written of it."""
        return ENCODER.encode(self)


def diagnostic(text: Text, span: Span, message: str, severity: int, source: str = "attrd") -> Told:
    """A message at a stretch of the text."""
    start, end = text.range(span)
    return told_at(*start, *end, message, severity, source)


@lru_cache(maxsize=1 << 12)
def told_at(line: int, character: int, last: int, end: int, message: str, severity: int, source: str) -> Told:
    """The diagnostic of a place as the editor tells it."""
    places = {"start": {"line": line, "character": character}, "end": {"line": last, "character": end}}
    return Told(range=places, severity=severity, source=source, message=message)
