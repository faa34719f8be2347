"""Programs of the tutorial's language as people write them: about so many nodes, and the same ones for the same seed.

Nearly half of the classes have a superclass. A class has some fields and some methods; a method is a block of five declarations to 181,
most of them of less than fifteen, with uses between them and blocks within. Names are declared before they are used, most of them
near by; nothing in the program is wrong.
"""
from __future__ import annotations

import random
import sys
from dataclasses import dataclass, field
from typing import Callable, Dict, Iterator, List, Optional, Tuple

from figures import ROOT

sys.path.insert(0, str(ROOT / "clients" / "python"))

from attrd import Grammar, Node, Path  # noqa: E402

LANGUAGE = ROOT / "clients" / "lsp" / "attrd_lsp" / "data"
GRAMMAR = LANGUAGE / "small.ast"
ASPECTS = tuple(LANGUAGE / name for name in ("kinds.jrag", "names.jrag", "types.jrag", "errors.jrag"))
# How many declarations a method has, and how many of a hundred methods: the least, the most, the weight.
METHODS = ((5, 8, 57), (8, 15, 28), (15, 40, 11), (40, 100, 3), (100, 180, 1))
SMALL_METHODS = ((5, 25, 1),)
LARGEST = 181
# Programs below this size have small methods alone, and no largest one.
LARGE_PROGRAM = 3_000
# More nodes than a class has on the average: with room for so many none is cut short at the program's end.
ROOM = 400
DEEPEST_BLOCK, DEEPEST_CLASS = 4, 6
WORDS = ("count", "index", "total", "left", "right", "name", "item", "next", "limit", "offset", "value", "size")

Scope = Dict[str, str]


@dataclass
class Class:
    """A class that is written: its superclass and the kinds of its own fields by their names."""

    name: str
    above: Optional[Class]
    fields: Scope = field(default_factory=dict)

    def chain(self) -> Iterator[Class]:
        """The class, its superclass, and so on."""
        known: Optional[Class] = self
        while known is not None:
            yield known
            known = known.above

    def visible(self) -> Scope:
        """The kinds of all fields by their names, inherited ones too."""
        found: Scope = {}
        for known in self.chain():
            found = {**known.fields, **found}
        return found


class Writer:
    """Writes one program."""

    def __init__(self, nodes: int, seed: int) -> None:
        self.random = random.Random(seed)
        self.wanted, self.written = nodes, 3
        self.classes: Dict[str, Class] = {}
        self.names = 0
        self.has_largest = nodes < LARGE_PROGRAM

    def program(self) -> Node:
        """The program: as many classes as it takes to have so many nodes."""
        return self.program_until(lambda: self.written >= self.wanted)

    def program_until(self, is_done: Callable[[], bool]) -> Node:
        """The program with as many classes as it takes."""
        kinds = [Node("Basic", "int"), Node("Basic", "boolean")]
        while not is_done():
            kinds.append(self.class_declaration())
        return Node("Program", kinds)

    def class_declaration(self) -> Node:
        """Another class, of which those behind it know."""
        declared = Class(f"Class{len(self.classes)}", self.superclass())
        above = Node("KindUse", declared.above.name) if declared.above else None
        fields = [self.declared_field(declared, k) for k in range(min(25, 1 + int(self.random.expovariate(0.2))))]
        self.classes[declared.name] = declared
        self.written += 2 + (above is not None) + sum(it.size for it in fields)
        methods = [self.method(declared)]
        for _ in range(self.further_methods()):
            if self.written >= self.wanted:
                break
            methods.append(self.method(declared))
        return Node("ClassDecl", declared.name, above, fields, Node("Block", methods))

    def further_methods(self) -> int:
        """How many methods a class has beside its first one."""
        return int(self.random.expovariate(0.4)) if self.wanted >= LARGE_PROGRAM else self.random.randint(0, 2)

    def superclass(self) -> Optional[Class]:
        """One of the classes before, for nearly half of all; none where the chain would get long."""
        if not self.classes or self.random.random() >= 0.45:
            return None
        found = self.random.choice(list(self.classes.values())[-30:])
        return found if len(list(found.chain())) < DEEPEST_CLASS else None

    def declared_field(self, declared: Class, number: int) -> Node:
        name, kind = f"field{number}of{len(self.classes)}", self.kind()
        declared.fields[name] = kind
        return Node("Decl", name, Node("KindUse", kind), None)

    def kind(self) -> str:
        """A kind: mostly of numbers, else of truths or one of the last classes."""
        chance = self.random.random()
        if chance < 0.6 or not self.classes:
            return "int"
        return "boolean" if chance < 0.72 else self.random.choice(list(self.classes)[-40:])

    def method(self, declared: Class) -> Node:
        """A method of the class; in the middle of a large program the one with the most declarations."""
        sizes = METHODS if self.wanted >= LARGE_PROGRAM else SMALL_METHODS
        least, most, _ = self.random.choices(sizes, [weight for *_, weight in sizes])[0]
        count = self.random.randint(least, most)
        if not self.has_largest and self.written >= self.wanted // 2:
            self.has_largest, count = True, LARGEST
        self.names = 0
        made = self.block([declared.visible()], 1, count)
        self.written += made.size
        return made

    def block(self, scopes: List[Scope], depth: int, declarations: int) -> Node:
        """A block with so many declarations, and with uses and blocks between them."""
        scopes, left = [*scopes, {}], declarations
        statements: List[Node] = []
        while left or len(statements) < 2:
            chance = self.random.random()
            if left and chance < 0.62:
                left -= 1
                statements.append(self.declaration(scopes))
            elif chance < 0.97 or depth == DEEPEST_BLOCK or declarations < 4:
                statements.append(Node("Show", self.expression(self.random.choice(("int", "int", "int", "boolean")), scopes)))
            else:
                statements.append(self.block(scopes, depth + 1, self.random.randint(1, 6)))
        return Node("Block", statements)

    def declaration(self, scopes: List[Scope]) -> Node:
        """A declaration in the innermost scope, with its kind, with a first value, or with both."""
        self.names += 1
        name, kind = f"{self.random.choice(WORDS)}{self.names}", self.kind()
        value = self.expression(kind, scopes) if kind in ("int", "boolean") else self.name(kind, scopes)
        declared = Node("KindUse", kind) if value is None or self.random.random() < 0.6 else None
        scopes[-1][name] = kind
        return Node("Decl", name, declared, value)

    def expression(self, kind: str, scopes: List[Scope], depth: int = 0) -> Node:
        """An expression of that kind, which is int or boolean."""
        return self.number(scopes, depth) if kind == "int" else self.truth(scopes, depth)

    def number(self, scopes: List[Scope], depth: int) -> Node:
        chance, found = self.random.random(), None
        if chance < 0.3 and depth < 3:
            return Node("Plus", self.number(scopes, depth + 1), self.number(scopes, depth + 1))
        if chance < 0.78:
            found = self.name("int", scopes)
        if found is None and chance < 0.88:
            found = self.dot("int", scopes)
        return found or Node("Num", self.random.randint(0, 999))

    def truth(self, scopes: List[Scope], depth: int) -> Node:
        chance = self.random.random()
        if chance < 0.25:
            return Node("Truth", self.random.random() < 0.5)
        found = self.name("boolean", scopes) if chance < 0.5 else None
        return found or Node("Less", self.number(scopes, depth + 1), self.number(scopes, depth + 1))

    def name(self, kind: str, scopes: List[Scope]) -> Optional[Node]:
        """A use of something of that kind, mostly of an inner scope; None where there is none."""
        for scope in self.near_first(scopes):
            found = [name for name, known in scope.items() if known == kind]
            if found:
                return Node("Name", self.random.choice(found))
        return None

    def near_first(self, scopes: List[Scope]) -> List[Scope]:
        """The scopes by chance, the inner ones rather at the front."""
        weights = {k: self.random.random() * (1.0 if k == len(scopes) - 1 else 1.8 if k else 2.2) for k in range(len(scopes))}
        return [scopes[k] for k in sorted(weights, key=weights.__getitem__)]

    def dot(self, kind: str, scopes: List[Scope]) -> Optional[Node]:
        """A field of that kind of something whose kind is a class; None where none is found."""
        for _ in range(4):
            scope = self.random.choice(scopes)
            held = [name for name, known in scope.items() if known in self.classes]
            if held:
                name = self.random.choice(held)
                fields = [it for it, known in self.classes[scope[name]].visible().items() if known == kind]
                if fields:
                    return Node("Dot", Node("Name", name), self.random.choice(fields))
        return None


def written(nodes: int, seed: int) -> Node:
    """The program of about so many nodes for this seed."""
    return Writer(nodes, seed).program()


def written_classes(count: int, seed: int) -> Node:
    """The program of so many classes for this seed."""
    writer = Writer(count * ROOM, seed)
    return writer.program_until(lambda: len(writer.classes) == count)


def places(grammar: Grammar, tree: Node) -> List[Tuple[Path, Node]]:
    """All nodes of a tree that fits, each with its path, from the first to the last of the text."""
    found, left = [], [(Path(), tree)]
    while left:
        path, node = left.pop()
        found.append((path, node))
        left.extend(reversed([(path.child(*step), below) for step, below in grammar.children(node)]))
    return found
