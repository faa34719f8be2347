"""The line of an edit that a window asks for, with the reason where the server would refuse it."""
from __future__ import annotations

from typing import Any

from attrd import AttrdError, Node, SyntaxFault, TermFault, commands
from attrd.grammar import Grammar, Part, Shape, token_fault
from attrd.lexical import MOST_NODES
from attrd.terms import read_term

from .mirror import Item, Mirror
from .views import Json


class Asked(AttrdError):
    """What a window asked for can't be done."""


def item_of(mirror: Mirror, number: Any) -> Item:
    """The node of a number. Raises Asked where it is gone."""
    item = mirror.items.get(number) if type(number) is int else None
    if item is None:
        raise Asked("that node is gone")
    return item


def edit_command(mirror: Mirror, message: Json) -> str:
    """The line of an edit. Raises Asked with the reason where the server would refuse it."""
    item, what = item_of(mirror, message["id"]), message["edit"]
    grammar, path = mirror.grammar, mirror.path(item)
    if what == "drop":
        return commands.drop(path)
    if what == "set":
        wanted = mirror.part_of(item).kind if item.above is not None else grammar.start
        return commands.set_node(path, _term(grammar, message, wanted))
    part = grammar.class_named(item.name).part(str(message["part"]))
    if part is None:
        raise Asked(f"{item.name} has no component {message['part']}")
    if what == "token":
        return commands.token(path, part.name, _token(part, message["value"]))
    if what == "put":
        return commands.put(path, part.name, _term(grammar, message, part.kind))
    if what == "insert":
        return commands.insert(path, part.name, int(message["index"]), _term(grammar, message, part.kind))
    if what == "move":
        return commands.move(mirror.path(item_of(mirror, message["moved"])), path, part.name, int(message["index"]))
    raise Asked(f"there is no edit {what!r}")


def _term(grammar: Grammar, message: Json, wanted: str) -> Node:
    try:
        term = read_term(str(message["term"]).strip())
        grammar.check(term, wanted, MOST_NODES)
    except (SyntaxFault, TermFault) as fault:
        raise Asked(f"the term doesn't fit: {fault}") from None
    return term


def _token(part: Part, text: Any) -> Any:
    """The value of a token that was typed. Raises Asked with the reason where it is none."""
    value: Any = text
    if part.shape is not Shape.TOKEN:
        raise Asked(f"{part.name} is no token")
    if part.kind == "int":
        try:
            value = int(str(text).strip())
        except ValueError:
            raise Asked(f"{str(text)!r} is no number") from None
    elif part.kind == "boolean":
        value = {"true": True, "false": False}.get(str(text).strip(), text)
    fault = token_fault(part, value)
    if fault:
        raise Asked(fault)
    return value
