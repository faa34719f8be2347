"""Grammars by chance with components between slashes, and the constants that fill these and that add more components."""
from __future__ import annotations

import random
from dataclasses import dataclass
from typing import Iterator, List, Optional, Sequence

from tools.of_the_program.specs_grammar import Class, Component, Grammar, costs
from tools.of_the_program.specs_growing import Growing
from tools.of_the_program.specs_trees import Cell, Node, standing, written

START = "P"
# How many classes there are beside the start class, how many elements a list has and about how many nodes each, and how many nodes a class
# comes to at most with its constants.
CLASSES, ELEMENTS, NODES, MOST = (3, 4, 4, 5, 6), (0, 1, 2, 2, 3), (1, 1, 2, 3, 5), 30
# How often a component is named as its class, a class stands below another one or is abstract then, and a component stands between slashes.
UNNAMED, BELOW, ABSTRACT, SLASHED = 0.4, 0.5, 0.4, 0.4
FORMS = ("token", "token", "list", "list", "optional", "child")
TOKENS = ("String", "String", "int", "boolean")
TEXTS = ("a", "b", "c", "", 'q"\\')
LOCAL = "l"


@dataclass(frozen=True)
class Made:
    """A constant: of which class, its component, what stands in that, and whether it is named by an accessor."""

    of: str
    part: Component
    cell: Cell
    is_accessor: bool

    def name(self) -> str:
        """Its name in aspects."""
        return f"get{self.part.name}{'List' if self.part.form == 'list' else ''}" if self.is_accessor else self.part.name

    def kind(self) -> str:
        """Its kind in aspects."""
        return f"List<{self.part.kind}>" if self.part.form == "list" else self.part.kind

    def classes(self) -> Iterator[str]:
        """The classes of the nodes in it."""
        return (below.kind for it in standing(self.cell) for below in it.all())


class Language:
    """A grammar, as it is read and as it stands in a file, and the constants over it."""

    def __init__(self, text: str, chance: random.Random) -> None:
        self.text, self.grammar = text, Grammar(text)
        self.constants = list(Filling(self.grammar, chance).all()) if self.is_grown() else []

    def is_grown(self) -> bool:
        """Whether each class has a tree that ends."""
        return set(costs(self.grammar)) == set(self.grammar.classes)

    def planted(self) -> Grammar:
        """The grammar with the constants."""
        found = Grammar(self.text)
        for it in self.constants:
            found.add_constant(it.of, it.part, written(it.cell))
        return found

    def of(self, kind: str) -> List[Made]:
        """The constants of the nodes of a class."""
        return [it for it in self.constants if self.grammar.is_below(kind, it.of)]

    def nodes(self, kind: str, above: Sequence[str] = ()) -> int:
        """How many nodes a node has with its constants, and these with theirs; very many where one stands in itself."""
        if kind in above:
            return 10 * MOST
        return 1 + sum(self.nodes(below, (*above, kind)) for it in self.of(kind) for below in it.classes())

    def is_fit(self) -> bool:
        """Whether its trees end, and none of its constants is large or stands in itself."""
        return self.is_grown() and all(self.nodes(it) <= MOST for it in self.grammar.classes)


def language(chance: random.Random) -> Language:
    """A language by chance that the program accepts."""
    while True:
        found = Language("".join(f"{line(it, chance)}\n" for it in Classes(chance).all()), chance)
        if found.is_fit():
            return found


class Classes:
    """Classes by chance: the first one is the start class, which stands in no component."""

    def __init__(self, chance: random.Random) -> None:
        self.chance, self.numbers, self.taken = chance, iter(range(1, 1000)), set[str]()
        self.names = [f"K{at}" for at in range(1, chance.choice(CLASSES) + 1)]

    def all(self) -> Iterator[Class]:
        yield self.made(START, None, [self.component(START, "list"), self.slashed(), self.slashed()])
        above = {it: self.chance.choice(self.names[:at]) for at, it in enumerate(self.names) if at and self.chance.random() < BELOW}
        for it in self.names:
            yield self.made(it, above.get(it), [], it in above.values() and self.chance.random() < ABSTRACT)

    def made(self, name: str, above: Optional[str], parts: List[Component], is_abstract: bool = False) -> Class:
        """A class with these components and others."""
        more = [self.slashed() if self.chance.random() < SLASHED else self.component(name, self.chance.choice(FORMS))
                for _ in range(self.chance.randrange(4))]
        return Class(name, is_abstract, above, tuple(self.chance.sample([*parts, *more], len(parts) + len(more))))

    def slashed(self) -> Component:
        """A component between slashes."""
        kind = self.chance.choice(self.names)
        return Component(self.name(kind), self.chance.choice(("child", "list", "list")), kind, True)

    def component(self, of: str, form: str) -> Component:
        """A component of that form; a child is of a later class, so that most trees end."""
        later = self.names[self.names.index(of) + 1 if of in self.names else 0:]
        if form == "token" or (form == "child" and not later):
            return Component(f"M{next(self.numbers)}", "token", self.chance.choice(TOKENS))
        kind = self.chance.choice(later if form == "child" else self.names)
        return Component(self.name(kind), form, kind)

    def name(self, kind: str) -> str:
        """A name that no component has yet: now and then that of its class."""
        if kind in self.taken or self.chance.random() >= UNNAMED:
            return f"M{next(self.numbers)}"
        self.taken.add(kind)
        return kind


def line(it: Class, chance: random.Random) -> str:
    """The class as a grammar has it."""
    above = f" : {it.above}" if it.above else ""
    return f"{'abstract ' if it.is_abstract else ''}{it.name}{above} ::= {' '.join(row(part, chance) for part in it.own)};"


def row(part: Component, chance: random.Random) -> str:
    """The component as a grammar has it."""
    if part.form == "token":
        return f"<{part.name}:{part.kind}>" if part.kind != "String" or chance.random() < 0.5 else f"<{part.name}>"
    typed = part.kind if part.name == part.kind else f"{part.name}:{part.kind}"
    starred = f"{typed}*" if part.form == "list" else typed
    return f"/{starred}/" if part.is_fixed else f"[{typed}]" if part.form == "optional" else starred


class Filling:
    """Constants by chance: one for each component between slashes, and a few that add one."""

    def __init__(self, grammar: Grammar, chance: random.Random) -> None:
        self.grammar, self.chance, self.growing = grammar, chance, Growing(grammar, chance, TEXTS)

    def all(self) -> Iterator[Made]:
        for of in self.grammar.classes.values():
            for part in of.own:
                if part.is_fixed:
                    yield self.made(of.name, part, True)
        for number in range(self.chance.randrange(4)):
            kind, form = self.chance.choice([it for it in self.grammar.classes if it != START]), self.chance.choice(("child", "child", "list"))
            is_accessor = form == "list" or self.chance.random() < 0.4
            part = Component(f"{'N' if is_accessor else 'n'}{number}", form, kind, True)
            yield self.made(self.chance.choice(list(self.grammar.classes)), part, is_accessor)

    def made(self, of: str, part: Component, is_accessor: bool) -> Made:
        """The constant of a class in a component."""
        count = self.chance.choice(ELEMENTS) if part.form == "list" else 1
        nodes = [self.growing.node(part.kind, self.chance.choice(NODES)) for _ in range(count)]
        return Made(of, part, nodes if part.form == "list" else nodes[0], is_accessor)


class Written:
    """Constants as aspects have them, each in one of the ways that are read."""

    def __init__(self, grammar: Grammar, chance: random.Random) -> None:
        self.grammar, self.chance = grammar, chance

    def declaration(self, it: Made) -> str:
        """The declaration of a constant."""
        front = self.chance.choice(("syn nta", "syn nta", "public syn lazy nta", "syn nta final"))
        return f"{front} {it.kind()} {it.of}.{it.name()}() {self.body(it)}"

    def body(self, it: Made) -> str:
        """Its body."""
        if isinstance(it.cell, list) and self.chance.random() < 0.5:
            return self.local(it.part.kind, it.cell)
        made = self.made(it.cell, it.part.kind)
        return self.chance.choice((f"= {made};", f"{{ return {made}; }}"))

    def local(self, kind: str, nodes: Sequence[Node]) -> str:
        """A block with a local variable to which nodes are added, some of them at its declaration."""
        at = self.chance.randint(0, len(nodes))
        added = "".join(f" {LOCAL}.add({self.node(it)});" for it in nodes[at:])
        return f"{{ List<{kind}> {LOCAL} = {self.made(list(nodes[:at]), kind)};{added} return {LOCAL}; }}"

    def made(self, cell: Cell, kind: str) -> str:
        """What stands in a component of that class, but for an optional."""
        if isinstance(cell, list):
            return f"new List{self.angle(kind)}(){''.join(f'.add({self.node(it)})' for it in cell)}"
        return self.node(cell) if isinstance(cell, Node) else written(cell)

    def angle(self, kind: str) -> str:
        """The class between `<` and `>`, or nothing."""
        return self.chance.choice((f"<{kind}>", ""))

    def node(self, node: Node) -> str:
        """`new`, and the node."""
        return f"new {node.kind}({', '.join(map(self.part, self.grammar.parts[node.kind], node.cells.values()))})"

    def part(self, part: Component, cell: Cell) -> str:
        """What stands for a component of a node."""
        if part.form == "optional":
            return f"new Opt{self.angle(part.kind)}({'' if cell is None else self.made(cell, part.kind)})"
        return self.made(cell, part.kind)
