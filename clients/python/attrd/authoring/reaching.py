"""Which classes come to no equation for an attribute, and by which way of components."""
from __future__ import annotations

from typing import Dict, Iterable, List, Optional, Set

from ..grammar import Shape
from .aspect_tree import Declaration
from .specification import Specification


def classes_without(specification: Specification, attribute: Declaration) -> List[str]:
    """The classes that have a synthesized attribute, aren't abstract, and come to no equation, in the order of the grammar."""
    if attribute.of is None or attribute.of.text not in specification.grammar:
        return []
    given = {it.declaration.of.text for it in specification.equations(attribute) if it.declaration.of is not None}
    grammar = specification.grammar
    return [it for it in grammar.concrete_below(attribute.of.text) if not given.intersection(grammar.ancestors(it))]


def way_without(specification: Specification, attribute: Declaration, given: Iterable[str] = ()) -> str:
    """A way from the root to a class that has an inherited attribute, through components for which no equation stands, and through none of
    the classes that are `given`; the root's name alone where the root itself has it, and empty where there is none."""
    grammar = specification.grammar
    equated = _equated(specification, attribute)
    for name in given:
        equated.setdefault(name, set()).add("getChild")
    before: Dict[str, Optional[str]] = {it: None for it in grammar.concrete_below(grammar.start)}
    left = list(before)
    for name in left:
        if attribute.of is not None and grammar.is_below(name, attribute.of.text):
            return _told(before, name)
        for part in specification.parts(name):
            if part.shape is not Shape.TOKEN and not _is_given(specification, equated, name, part.name):
                for below in grammar.concrete_below(part.kind):
                    if below not in before:
                        before[below] = f"{name}.get{part.name}()"
                        left.append(below)
    return ""


def _equated(specification: Specification, attribute: Declaration) -> Dict[str, Set[str]]:
    found: Dict[str, Set[str]] = {}
    for placed in specification.equations(attribute):
        it = placed.declaration
        if it.of is not None and it.getter is not None:
            found.setdefault(it.of.text, set()).add(it.accessor)
    return found


def _is_given(specification: Specification, equated: Dict[str, Set[str]], name: str, part: str) -> bool:
    return any({"getChild", f"get{part}"} & equated.get(above, set()) for above in specification.grammar.ancestors(name))


def _told(before: Dict[str, Optional[str]], name: str) -> str:
    steps, at = [name], before[name]
    while at is not None:
        steps.append(at)
        at = before[at.split(".")[0]]
    return " to ".join(reversed(steps))
