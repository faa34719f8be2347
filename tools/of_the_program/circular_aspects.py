"""Aspects by chance with circular attributes: of both starts, inherited ones, with a text or a node as parameter, through lazy and through
plain ones, with faults."""
from __future__ import annotations

import random
from dataclasses import dataclass, field
from typing import Callable, Dict, List, Optional, Sequence, Tuple

NAMES = ("a", "b", "c", "d")
# What all items have: a way over the tree by names, one along the lists, and the root.
COMMON = """aspect Ways {
  syn lazy Item Root.item(String n) = first (x : getItemList()) { x.getName().equals(n) };
  inh Root Item.root();
  eq Root.getItem().root() = this;
  syn LAZY Item Item.to() = root().item(getName());
  inh Item Item.after();
  eq Root.getItem(int i).after() = i + 1 < getNumItem() ? getItem(i + 1) : null;
  eq Row.getItem(int i).after() = i + 1 < getNumItem() ? getItem(i + 1) : after();
  eq Pair.getLeft().after() = hasRight() ? getRight() : after();
}
"""


@dataclass(frozen=True)
class Expr:
    """An expression: its form, its parts, and a word of it."""

    form: str
    parts: Tuple[Expr, ...] = ()
    word: str = ""

    def text(self) -> str:
        """The expression as it is written."""
        it = [part.text() for part in self.parts]
        written: Dict[str, Callable[[], str]] = {
            "word": lambda: self.word,
            "text": lambda: f'"{self.word}"',
            "on": lambda: f"{it[0]}.getOn()",
            "name": lambda: f"{it[0]}.getName()",
            "equals": lambda: f"{it[0]}.equals({it[1]})",
            "not": lambda: f"!({it[0]})",
            "and": lambda: f"({it[0]} && {it[1]})",
            "or": lambda: f"({it[0]} || {it[1]})",
            "if": lambda: f"({it[0]} ? {it[1]} : {it[2]})",
            "exists": lambda: f"exists ({self.word} : {it[0]}.getItemList()) {{ {it[1]} }}",
            "first": lambda: f"first ({self.word} : {it[0]}.getItemList()) {{ {it[1]} }}",
            "count": lambda: f"sum ({self.word} : {it[0]}.getItemList()) {{ {it[1]} ? 1 : 0 }} > 1",
            "agree": lambda: f"({it[0]}) == ({it[1]})",
            "same": lambda: f"{it[0]} == {it[1]}",
            "other": lambda: f"{it[0]} != {it[1]}",
            "zero": lambda: "1 / 0 == 0",
            "is": lambda: f"{it[0]} instanceof {self.word}",
            "row": lambda: f"((Row) {it[0]})",
            "left": lambda: f"((Pair) {it[0]}).getLeft()",
            "ask": lambda: f"{it[0]}.{self.word}({','.join(it[1:])})",
        }
        return written[self.form]()


def word(text: str) -> Expr:
    """A name, or a word of the language."""
    return Expr("word", (), text)


THIS, NULL, TRUE, FALSE = word("this"), word("null"), word("true"), word("false")


@dataclass
class Attribute:
    """An attribute: its start if it is circular, of which kinds its parameters are, and its equations, each with the class of its node; those of
    an inherited one are for components. Mostly it wants final values of what lies in lower layers alone, so that few circles come."""

    name: str
    layer: int
    start: Optional[bool]
    lazy: bool
    inherited: bool
    kinds: Tuple[str, ...]
    equations: Dict[str, Expr] = field(default_factory=dict)

    @property
    def parameters(self) -> str:
        """The parameters as they are written."""
        return ", ".join(f"{kind} {NAMED[kind]}" for kind in self.kinds)

    def declared(self) -> str:
        """The declaration, with its equations."""
        circular = "" if self.start is None else f" circular [{str(self.start).lower()}]"
        front = "inh" if self.inherited else "syn"
        lazy = "lazy " if self.lazy else ""
        lines = [f"{front} {lazy}boolean Item.{self.name}({self.parameters}){circular};"]
        lines += [f"eq {of}.{self.name}({self.parameters}) = {body.text()};" for of, body in self.equations.items()]
        return "".join(f"  {it}\n" for it in lines)


# What a parameter of each kind is called.
NAMED = {"String": "w", "Item": "n"}
# Where an inherited attribute may have equations, with what this is there.
PLACES = {"Root.getItem()": "Root", "Row.getItem()": "Row", "Pair.getLeft()": "Pair", "Pair.getRight()": "Pair"}


class Aspects:
    """Attributes by chance."""

    def __init__(self, chance: random.Random) -> None:
        self.chance = chance
        self.lazy_ways = chance.random() < 0.5
        # how often a fault comes, or what may be a circle
        self.wild = chance.choice((0.0, 0.02, 0.1))
        self.attributes = [self.attribute(f"p{it}") for it in range(chance.randint(2, 7))]
        for it in self.attributes:
            self.equip(it)

    def text(self) -> str:
        """The aspect file."""
        common = COMMON.replace("LAZY ", "lazy " if self.lazy_ways else "")
        return common + "aspect Chance {\n" + "".join(it.declared() for it in self.attributes) + "}\n"

    def named(self, name: str) -> Attribute:
        """The attribute of that name."""
        return next(it for it in self.attributes if it.name == name)

    def attribute(self, name: str) -> Attribute:
        start = self.chance.choice((False, False, False, True, None))
        return Attribute(name, self.chance.randrange(3), start, self.chance.random() < (0.3 if start is not None else 0.6), self.chance.random() < 0.25,
                         self.chance.choice(((), (), ("String",), ("Item",), ("Item", "String"))))

    def equip(self, attribute: Attribute) -> None:
        """Gives the attribute its equations: one for all, and some of their own."""
        if attribute.inherited:
            places = ["Root.getItem()", *(it for it in PLACES if it != "Root.getItem()" and self.chance.random() < 0.4)]
        else:
            places = ["Item", *(it for it in ("Leaf", "Pair", "Row") if self.chance.random() < 0.3)]
        for place in places:
            scope = self.scope(attribute, PLACES.get(place, place))
            attribute.equations[place] = scope.positive(self.chance.randint(1, 4))

    def scope(self, attribute: Attribute, this: str) -> Scope:
        """What makes the expressions of an equation of the attribute, where `this` has that class."""
        return Scope(self, attribute, this)


class Scope:
    """Expressions by chance in an equation of an attribute, where `this` has that class."""

    def __init__(self, aspects: Aspects, of: Attribute, this: str) -> None:
        self.aspects, self.of, self.this, self.chance = aspects, of, this, aspects.chance
        self.bound: List[Expr] = [word("n")] if "Item" in of.kinds else []
        self.names = iter("xyzuv")

    def often(self, share: float) -> bool:
        return self.chance.random() < share

    def positive(self, depth: int) -> Expr:
        """A boolean expression for a place in which circular attributes stay in the formula."""
        if depth <= 0:
            return self.call(self.of.start) if self.often(0.6) else self.atom()
        form = self.chance.choice(("and", "and", "or", "or", "if", "exists", "along", "along", "twice", "guard", "call"))
        if form in ("and", "or"):
            return Expr(form, (self.positive(depth - 1), self.positive(depth - 1)))
        if form == "if":
            return Expr("if", (self.strict(depth - 2), self.positive(depth - 1), self.positive(depth - 1)))
        if form == "exists":
            return self.folded("exists", lambda: self.positive(depth - 1))
        if form == "twice":
            inner = self.folded("exists", lambda: Expr("not", (self.positive(depth - 1),))) if self.often(0.7) else Expr("not", (self.positive(depth - 1),))
            return Expr("not", (inner,))
        if form == "guard":
            return self.guarded(depth)
        if form == "along":
            return self.along(depth)
        return self.call(self.of.start)

    def along(self, depth: int) -> Expr:
        """What holds where this is on, or where it holds of an element to which something leads."""
        found = self.folded("exists", lambda: Expr("and", (self.atom(), self.call(self.of.start, self.bound[-1]))))
        return Expr("or", (self.atom() if depth > 1 else Expr("on", (self.sure(),)), found))

    def guarded(self, depth: int) -> Expr:
        """What holds of a node that may be none, behind a test in front."""
        node = self.node()
        call = self.call(self.of.start, node)
        return Expr("and", (Expr("other", (node, NULL)), call if depth < 2 else Expr("or", (call, self.positive(depth - 2)))))

    def strict(self, depth: int) -> Expr:
        """A boolean expression for any place: mostly of what isn't circular, so that few circles come."""
        if depth <= 0 or self.often(0.4):
            return self.final() if self.often(0.5) else self.atom()
        form = self.chance.choice(("and", "or", "not", "agree", "count", "found"))
        if form == "count":
            return self.folded("count", lambda: self.strict(depth - 1))
        if form == "found":
            found = self.folded("first", lambda: self.strict(depth - 1))
            return found if found == TRUE else Expr("other", (found, self.chance.choice((NULL, self.node()))))
        return Expr(form, tuple(self.strict(depth - 1) for _ in range(1 if form == "not" else 2)))

    def folded(self, form: str, body: Callable[[], Expr]) -> Expr:
        """A fold over a list, whose element is bound in its body."""
        if self.this == "Row" and self.often(0.6):
            owner: Expr = THIS
        elif self.often(0.03):
            owner = Expr("row", (self.node(),))
        else:
            owner = THIS if self.this == "Root" else Expr("ask", (THIS,), "root")
        name = next(self.names, None)
        if name is None:
            return TRUE
        self.bound.append(word(name))
        made = Expr(form, (owner, body()), name)
        self.bound.pop()
        return made

    def atom(self) -> Expr:
        """A boolean expression without attributes."""
        if self.often(self.aspects.wild / 3):
            return Expr("zero")
        form = self.chance.choice(("on", "on", "equals", "same", "other", "is", "word"))
        if form == "word":
            return self.chance.choice((TRUE, FALSE))
        if form in ("same", "other"):
            return Expr(form, (self.node(), self.chance.choice((NULL, self.node()))))
        if form == "is":
            return Expr("is", (self.node(),), self.chance.choice(("Leaf", "Pair", "Row")))
        node = self.sure()
        return Expr("on", (node,)) if form == "on" else Expr("equals", (Expr("name", (node,)), self.some_text()))

    def some_text(self) -> Expr:
        """A text: the parameter or one of the names."""
        return word("w") if "String" in self.of.kinds and self.often(0.7) else Expr("text", (), self.chance.choice(NAMES))

    def sure(self) -> Expr:
        """A node that is there, mostly."""
        nodes = [*self.bound] + ([] if self.this == "Root" else [THIS])
        return self.chance.choice(nodes) if nodes and not self.often(self.aspects.wild) else self.node()

    def node(self) -> Expr:
        """A node or none."""
        if self.this == "Root":
            nodes = [*self.bound, Expr("ask", (THIS, self.some_text()), "item")]
        else:
            base = self.chance.choice([THIS, *self.bound])
            nodes = [base, Expr("ask", (base,), "to"), Expr("ask", (base,), "after")]
        if self.often(self.aspects.wild / 2):
            return Expr("left", (self.chance.choice(nodes),))
        return self.chance.choice(nodes)

    def final(self) -> Expr:
        """A call of an attribute of a lower layer, or what asks for none."""
        known = [it for it in self.any() if it.layer < self.of.layer]
        return self.called(known) if known else self.atom()

    def any(self) -> List[Attribute]:
        """All attributes that may be called here."""
        return self.aspects.attributes

    def call(self, start: Optional[bool], node: Optional[Expr] = None) -> Expr:
        """A call of an attribute, mostly of one with that start that lies no higher."""
        return self.called([it for it in self.any() if it.start == start and it.layer <= self.of.layer], node)

    def called(self, known: Sequence[Attribute], node: Optional[Expr] = None) -> Expr:
        """A call of one of these attributes, or now and then of any."""
        if not known or self.often(self.aspects.wild):
            known = self.any()
        asked = self.chance.choice(list(known))
        receiver = node or self.sure()
        given = [self.some_text() if kind == "String" else self.argument() for kind in asked.kinds]
        return Expr("ask", (receiver, *given), asked.name)

    def argument(self) -> Expr:
        """A node as an argument: mostly one that is passed on."""
        return self.bound[0] if "Item" in self.of.kinds and self.often(0.7) else self.node()
