"""What a window is told of nodes: plain values for JSON."""
from __future__ import annotations

from typing import Any, Dict, List, Optional, Sequence

from attrd import Grammar, TermFault, write_term
from attrd.declarations import Attribute
from attrd.grammar import Part, Shape
from attrd.terms import write_token

from .mirror import Item, Mirror

Json = Dict[str, Any]
LONGEST_LABEL, LONGEST_TERM = 40, 4_000


def brief(mirror: Mirror, item: Item) -> Json:
    """A node as one row shows it: its class, its tokens, and whether anything can stand below it now."""
    tokens = [write_token(cell) for part, cell in zip(mirror.grammar.parts(item.name), item.cells) if part.shape is Shape.TOKEN]
    label = " ".join(tokens)
    return {"id": item.number, "class": item.name, "label": label if len(label) <= LONGEST_LABEL else label[:LONGEST_LABEL - 1] + "…",
            "leaf": next(item.below(), None) is None}


def view(mirror: Mirror, item: Item, limit: int) -> Json:
    """A node with the rows below it: of each list the first ones, up to the limit, and how many it has."""
    parts: List[Json] = []
    for part, cell in zip(mirror.grammar.parts(item.name), item.cells):
        if isinstance(cell, Item):
            parts.append({"name": part.name, "child": brief(mirror, cell)})
        elif isinstance(cell, list):
            parts.append({"name": part.name, "count": len(cell), "list": [brief(mirror, it) for it in cell[:limit]]})
    return {"id": item.number, "parts": parts}


def detail(mirror: Mirror, item: Item, attributes: Sequence[Attribute]) -> Json:
    """The selected node: where it is, what can be done with it, and which attributes it has."""
    grammar, term = mirror.grammar, write_term(mirror.term(item))
    part = mirror.part_of(item) if item.above is not None else None
    siblings = item.above.cells[item.part] if item.above is not None else None
    return {
        "id": item.number, "class": item.name, "path": str(mirror.path(item)), "term": term if len(term) <= LONGEST_TERM else None,
        "canDrop": part is not None and part.shape in (Shape.LIST, Shape.OPTIONAL),
        "index": item.index, "count": len(siblings) if isinstance(siblings, list) else None,
        "above": item.above.number if item.above is not None else None, "part": part.name if part is not None else None,
        "cells": [_cell(grammar, it, cell) for it, cell in zip(grammar.parts(item.name), item.cells)],
        "attributes": [attribute_view(it) for it in attributes_of(grammar, item.name, attributes)]}


def _cell(grammar: Grammar, part: Part, cell: Any) -> Json:
    told: Json = {"name": part.name, "shape": part.shape.value, "kind": part.kind}
    if part.shape is Shape.TOKEN:
        told["value"] = cell if part.kind == "String" else write_token(cell)
    elif isinstance(cell, list):
        told["count"] = len(cell)
    else:
        told["filled"] = cell is not None
    if part.shape in (Shape.LIST, Shape.OPTIONAL):
        told["choices"] = choices(grammar, part.kind)
    return told


def choices(grammar: Grammar, kind: str) -> List[Json]:
    """The classes that may stand where this one is wanted, each with a short term of it."""
    found = [(name, _smallest(grammar, name)) for name in grammar.concrete_below(kind)]
    return [{"class": name, "term": term} for name, term in found if term is not None]


def _smallest(grammar: Grammar, name: str) -> Optional[str]:
    """A short term of the class itself: of its cells those are given that have to be."""
    cells: List[Any] = []
    tokens: Json = {"String": "x", "int": 0, "boolean": True}
    empty: Dict[Shape, Any] = {Shape.LIST: (), Shape.OPTIONAL: None}
    try:
        for part in grammar.parts(name):
            child = grammar.smallest(part.kind) if part.shape is Shape.CHILD else None
            cells.append(child if child is not None else empty.get(part.shape, tokens.get(part.kind)))
        return write_term(grammar.make(name, *cells))
    except TermFault:
        return None


def attributes_of(grammar: Grammar, name: str, attributes: Sequence[Attribute]) -> List[Attribute]:
    """The attributes of a class, each once, by name."""
    found = {it.name: it for it in attributes if grammar.is_below(name, it.of)}
    return [found[it] for it in sorted(found)]


def attribute_view(it: Attribute) -> Json:
    """An attribute as a window shows it."""
    return {"name": it.name, "of": it.of, "kind": it.kind, "parameters": list(it.parameters), "inherited": it.is_inherited, "lazy": it.is_lazy}
