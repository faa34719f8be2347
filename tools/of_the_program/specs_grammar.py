"""An abstract grammar as its file says it: classes, what is above them, and their components. Nothing is taken from the program."""
from __future__ import annotations

from dataclasses import dataclass
from typing import Dict, FrozenSet, List, Optional, Tuple

from tools.of_the_program.jastadd_reading import Row

TOKEN_KINDS = ("String", "int", "boolean")
# The component of an equation that is for all of them.
ANY = "Child"


@dataclass(frozen=True)
class Component:
    """A component: its name, its form (child, list, optional, token), its class or the kind of its token, and whether it stands between
    slashes or is that of a constant, which terms leave out."""

    name: str
    form: str
    kind: str
    is_fixed: bool = False


@dataclass(frozen=True)
class Class:
    """A class, with the components that it has of its own."""

    name: str
    is_abstract: bool
    above: Optional[str]
    own: Tuple[Component, ...]


class Grammar:
    """The classes of a grammar that the program accepts; the first one is the start class."""

    def __init__(self, text: str) -> None:
        self.classes = {it.name: it for it in Classes(text).all()}
        self.start = next(iter(self.classes))
        self.lines = {name: self.up(name) for name in self.classes}
        own = {name: [it for of in reversed(line) for it in self.classes[of].own] for name, line in self.lines.items()}
        # those that have cells in terms, and all by their names
        self.parts = {name: [it for it in parts if not it.is_fixed] for name, parts in own.items()}
        self.named = {name: {it.name: it for it in parts} for name, parts in own.items()}
        self.concrete = {of: [name for name, it in self.classes.items() if not it.is_abstract and of in self.lines[name]] for of in self.classes}
        self.accessors = self.all_accessors()
        # the cell of the constant that stands in a component of a class, by its name
        self.constants: Dict[str, Dict[str, str]] = {name: {} for name in self.classes}

    def add_constant(self, of: str, part: Component, cell: str) -> None:
        """Has a constant stand in a component of a class, and of those below it: the one of its name between slashes, or one more."""
        for below in self.classes:
            if self.is_below(below, of):
                self.named[below][part.name] = part
                self.constants[below][part.name] = cell
        self.accessors |= accessors(part)

    def up(self, name: Optional[str]) -> List[str]:
        """The class, and those above it."""
        return [name, *self.up(self.classes[name].above)] if name else []

    def is_below(self, name: str, of: str) -> bool:
        """Whether the class is that one or below it."""
        return of in self.lines[name]

    def all_accessors(self) -> FrozenSet[str]:
        """The names of the accessors of all classes."""
        return frozenset(name for of in self.classes.values() for it in of.own for name in accessors(it))


def accessors(part: Component) -> FrozenSet[str]:
    """The names of the accessors of a component."""
    more = {"list": ("getNum{}", "get{}List"), "optional": ("has{}",)}
    return frozenset(form.format(part.name) for form in ("get{}", *more.get(part.form, ())))


class Classes(Row):
    """Reads a grammar. Raises Refused."""

    def all(self) -> List[Class]:
        found: List[Class] = []
        while self.next.kind != "end":
            is_abstract = bool(self.take("abstract"))
            name = self.name().text
            above = self.name().text if self.take(":") else None
            found.append(Class(name, is_abstract, above, tuple(self.components())))
        return found

    def components(self) -> List[Component]:
        """What stands behind a `::=`, if it does, up to the semicolon."""
        found: List[Component] = []
        if self.take("::="):
            while not self.is_next(";"):
                found.append(self.component())
        self.want(";")
        return found

    def component(self) -> Component:
        if self.take("<"):
            name = self.name().text
            kind = self.want(*TOKEN_KINDS).text if self.take(":") else "String"
            self.want(">")
            return Component(name, "token", kind)
        if self.take("["):
            part = self.typed()
            self.want("]")
            return Component(part[0], "optional", part[1])
        is_fixed = bool(self.take("/"))
        name, kind = self.typed()
        form = "list" if self.take("*") else "child"
        if is_fixed:
            self.want("/")
        return Component(name, form, kind, is_fixed)

    def typed(self) -> Tuple[str, str]:
        """`[NAME :] CLASS`: the name and the class."""
        name = self.name().text
        return name, self.name().text if self.take(":") else name


def costs(grammar: Grammar) -> Dict[str, int]:
    """The fewest nodes that a node of each class has with all below it, where there is one."""
    found: Dict[str, int] = {}
    while True:
        before = dict(found)
        for name in grammar.classes:
            for of in grammar.concrete[name]:
                needed = [found.get(it.kind) for it in grammar.parts[of] if it.form == "child"]
                if None not in needed:
                    found[name] = min(found.get(name, 10**9), 1 + sum(it or 0 for it in needed))
        if found == before:
            return found
