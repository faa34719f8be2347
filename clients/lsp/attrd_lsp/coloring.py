"""Semantic tokens: the names of a file, each with the kind of what it declares or means."""
from __future__ import annotations

from typing import Dict, List, NamedTuple, Optional

from .inquiry import Inquiry
from .meaning import find_meanings, meant
from .positions import Span, Text
from .protocol import Symbol
from .source import Source

# The protocol's name of a token for each kind of symbol.
TYPES: Dict[int, str] = {
    Symbol.NAMESPACE: "namespace", Symbol.MODULE: "namespace", Symbol.CLASS: "class", Symbol.METHOD: "method", Symbol.PROPERTY: "property",
    Symbol.FIELD: "property", Symbol.ENUM: "enum", Symbol.INTERFACE: "interface", Symbol.FUNCTION: "function", Symbol.VARIABLE: "variable",
    Symbol.CONSTANT: "variable", Symbol.ENUM_MEMBER: "enumMember", Symbol.STRUCT: "struct", Symbol.EVENT: "event",
    Symbol.OPERATOR: "operator", Symbol.TYPE_PARAMETER: "typeParameter", Symbol.STRING: "string", Symbol.NUMBER: "number",
}  # fmt: skip
# Of how many uses is asked at most what they mean: those behind them in the text have no colour.
MOST = 5_000
# What stands in no text, and what no symbol is.
BUILT_IN, OTHER = "type", "variable"
LEGEND = list(dict.fromkeys([*TYPES.values(), BUILT_IN, OTHER]))
MODIFIERS = ["declaration"]


class Token(NamedTuple):
    """A name in the text, the kind of what it declares or means, and whether it declares it."""

    span: Span
    kind: str
    is_declaration: bool


def find_tokens(source: Source, file: str, within: Span) -> Inquiry[List[Token]]:
    """The names of a file that begin within the stretch, in the order of the text; those that mean nothing are left out."""
    named = source.in_file(file, within, lambda _, __, phrase: phrase.name is not None)
    spots = [it for it in named if within.start <= it.name.start < within.end]
    declared = [(it, source.symbol_kind(it)) for it in spots]
    found = [Token(it.name, type_of(kind), True) for it, kind in declared if kind is not None]
    uses = [it for it in spots if source.meanings(it)][:MOST]
    answers = yield from find_meanings(source, uses)
    for it, told in zip(uses, answers):
        path = meant(told)
        if path is not None:
            target = source.spot(path)
            found.append(Token(it.name, BUILT_IN if target is None else type_of(source.symbol_kind(target)), False))
    return sorted(set(found))


def type_of(kind: Optional[int]) -> str:
    """The protocol's name of a token for a kind of symbol."""
    return TYPES.get(kind or 0, OTHER)


def encoded(text: Text, tokens: List[Token]) -> List[int]:
    """The tokens as the protocol has them: five numbers each, from the token before."""
    numbers: List[int] = []
    line = character = 0
    for it in tokens:
        start, end = text.position(it.span.start), text.position(it.span.end)
        if start.line != end.line or start == end:
            continue
        column = start.character - character if start.line == line else start.character
        numbers += [start.line - line, column, end.character - start.character, LEGEND.index(it.kind), int(it.is_declaration)]
        line, character = start
    return numbers
