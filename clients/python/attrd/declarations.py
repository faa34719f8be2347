"""Which attributes aspects declare: enough of `.jrag` to name them, and no check of it."""
from __future__ import annotations

import re
from typing import List, NamedTuple, Tuple

from .errors import text_of

_PASSED_OVER = re.compile(r'//[^\n]*|/\*.*?\*/|"(?:[^"\\\n]|\\.)*"', re.S)
_DECLARED = re.compile(r"\b(syn|inh)\s+(?:(lazy)\s+)?(nta\s+)?(\w+)\s+(\w+)\s*\.\s*(\w+)\s*\(([^()]*)\)(\s*circular\b)?")
# A constant of such a name declares no attribute: it is the accessor of a component.
_ACCESSOR = re.compile(r"get\w")


class Attribute(NamedTuple):
    """A declared attribute: `kind` is int, boolean, String or a class; `parameters` are the kinds of its parameters. A circular one is lazy."""

    of: str
    name: str
    kind: str
    parameters: Tuple[str, ...]
    is_inherited: bool
    is_lazy: bool


def attributes_of(text: str) -> List[Attribute]:
    """The attributes that an aspect file declares, in its order, constants among them. What can't be read as a declaration is passed over.

    Raises AttrdError where it is no text.
    """
    plain = _PASSED_OVER.sub(lambda it: '""' if it[0].startswith('"') else " ", text_of("an aspect", text))
    found = []
    for form, lazy, nta, kind, of, name, parameters, circular in _DECLARED.findall(plain):
        if nta and _ACCESSOR.match(name):
            continue
        kinds = tuple(it.split()[0] for it in parameters.split(",") if it.strip())
        found.append(Attribute(of, name, kind, kinds, form == "inh", bool(lazy or circular)))
    return found
