"""Methods by chance with bodies of statements, in aspects of JastAdd's own language, and trees on which they are asked."""
from __future__ import annotations

import random
from dataclasses import dataclass, field
from itertools import count
from typing import Callable, Dict, Iterator, List, Optional, Sequence, Tuple, Union

GRAMMAR = "Item ::= <On:boolean> <Size:int> <Name> Item*;\nLeaf : Item;\n"
NAMES = ("a", "b", "c")
SIZES = (0, 0, 1, 2, 3, 7, -1, -2, 65_536, 2_147_483_647, -2_147_483_648)
KINDS = ("int", "boolean", "String", "Item")
# How many forms an expression may come to, with parentheses counted apart.
MOST_FORMS = 1_000


@dataclass(eq=False)
class Node:
    """A node, by its class, its tokens, its elements and its path."""

    kind: str
    on: bool
    size: int
    name: str
    path: str
    items: List[Node] = field(default_factory=list)

    def all(self) -> Iterator[Node]:
        """The node, and all that are below it."""
        yield self
        for it in self.items:
            yield from it.all()

    def term(self) -> str:
        """The node as a term."""
        return f'{self.kind}({str(self.on).lower()},{self.size},"{self.name}",[{",".join(it.term() for it in self.items)}])'


Value = Union[int, bool, str, Node, None]


def tree(chance: random.Random, path: str = "", depth: int = 3) -> Node:
    """A tree by chance."""
    made = Node(chance.choice(("Item", "Leaf")), chance.random() < 0.5, chance.choice(SIZES), chance.choice(NAMES), path or "/")
    for at in range(chance.randrange(4) if depth else 0):
        made.items.append(tree(chance, f"{path}/Item:{at}", depth - 1))
    return made


@dataclass(frozen=True)
class Expr:
    """An expression: its form, its parts, and a word of it."""

    form: str
    parts: Tuple[Expr, ...] = ()
    word: str = ""

    def text(self) -> str:
        """The expression as it is written."""
        it = [part.text() for part in self.parts]
        if self.form in FOLDS:
            return f"{self.form} ({self.word} : {it[0]}.getItemList()) {{ {it[1]} }}"
        if self.form == "binary":
            return f"({it[0]} {self.word} {it[1]})"
        written: Dict[str, Callable[[], str]] = {
            "word": lambda: self.word,
            "token": lambda: f"{it[0]}.get{self.word}()",
            "item": lambda: f"{it[0]}.getItem({it[1]})",
            "call": lambda: f"{it[0]}.{self.word}({', '.join(it[1:])})",
            "equals": lambda: f"{it[0]}.equals({it[1]})",
            "is": lambda: f"({it[0]} instanceof {self.word})",
            "cast": lambda: f"((Leaf) {it[0]})",
            "not": lambda: f"!{it[0]}",
            "minus": lambda: f"(- {it[0]})",
            "choice": lambda: f"({it[0]} ? {it[1]} : {it[2]})",
        }
        return written[self.form]()

    def forms(self) -> int:
        """How many forms it has."""
        return 1 + sum(it.forms() for it in self.parts)


FOLDS = ("exists", "first", "sum")


def word(text: str) -> Expr:
    """A name, a literal, or a word of the language."""
    return Expr("word", (), text)


THIS, NULL = word("this"), word("null")


@dataclass(frozen=True)
class Return:
    """`return value;`"""

    value: Expr

    def text(self) -> str:
        return f"return {self.value.text()};"

    def forms(self, rest: int) -> int:
        return self.value.forms()


@dataclass(frozen=True)
class If:
    """`if (test) then else other`, perhaps without an `else`."""

    test: Expr
    then: Statement
    other: Optional[Statement]

    def text(self) -> str:
        return f"if ({self.test.text()}) {self.then.text()}" + (f" else {self.other.text()}" if self.other else "")

    def forms(self, rest: int) -> int:
        return 1 + self.test.forms() + self.then.forms(rest) + (self.other.forms(rest) if self.other else rest)


@dataclass(frozen=True)
class Search:
    """`for (Item name : of.getItemList()) if (test) return value;`, with blocks around what is in it."""

    name: str
    of: Expr
    test: Expr
    value: Expr
    blocks: int

    def text(self) -> str:
        opening, closing, final = "{ " * self.blocks, " }" * self.blocks, "final " * (self.blocks % 2)
        inner = f"if ({self.test.text()}) {opening}return {self.value.text()};{closing}"
        return f"for ({final}Item {self.name} : {self.of.text()}.getItemList()) {opening}{inner}{closing}"

    def forms(self, rest: int) -> int:
        once = 2 + self.of.forms() + self.test.forms()
        return 2 + once * (1 + self.value.forms()) + rest


@dataclass(frozen=True)
class Block:
    """`{ statements }`; without any, it is `;`."""

    statements: Tuple[Statement, ...]

    def text(self) -> str:
        return f"{{ {self.inner()} }}" if self.statements else ";"

    def inner(self) -> str:
        """The statements as they are written."""
        return " ".join(it.text() for it in self.statements)

    def forms(self, rest: int) -> int:
        for it in reversed(self.statements):
            rest = it.forms(rest)
        return rest


Statement = Union[Return, If, Search, Block]


@dataclass
class Method:
    """A method, or an attribute with a body of statements; the bodies by the class whose nodes have them."""

    name: str
    kind: str
    parameters: Tuple[str, ...]
    is_lazy: bool
    bodies: Dict[str, Block] = field(default_factory=dict)

    def text(self) -> str:
        """The declarations as they are written."""
        listed = ", ".join(f"{kind} {NAMED[kind]}" for kind in self.parameters)
        front = f"syn lazy {self.kind}" if self.is_lazy else f"public {self.kind}"
        fronts = {"Item": front, "Leaf": "eq"}
        return "".join(f"  {fronts[of]} {of}.{self.name}({listed}) {{ {body.inner()} }}\n" for of, body in self.bodies.items())


# What a parameter of each kind is called.
NAMED = {"Item": "n", "String": "t", "int": "i", "boolean": "b"}
# How many parameters a method has.
PARAMETERS = (0, 0, 0, 1, 1, 1, 2, 2, 3, 4)


Ways = Sequence[Callable[[], Optional[Expr]]]


class Making:
    """A body by chance, of a method that may call those before it."""

    def __init__(self, chance: random.Random, method: Method, before: Sequence[Method]) -> None:
        self.chance, self.method, self.before, self.numbers = chance, method, before, count()
        self.bound: List[str] = [NAMED["Item"]] if "Item" in method.parameters else []
        # whether a fold may stand here, which it may not in the value of a loop
        self.may_fold = True

    def often(self, share: float) -> bool:
        return self.chance.random() < share

    def body(self) -> Block:
        """A body each way through which ends by a `return`, and that comes to few forms."""
        while True:
            made = self.ending(2)
            if made.forms(0) <= MOST_FORMS:
                return made

    def ending(self, depth: int) -> Block:
        """Statements whose end can't be reached."""
        front = [self.statement(depth) for _ in range(self.chance.randrange(4))]
        last: Statement = self.returned()
        if depth and self.often(0.3):
            last = If(self.boolean(2), self.ending(depth - 1), self.ending(depth - 1))
        behind = [self.statement(0)] if self.often(0.05) else []
        return Block((*front, last, *behind))

    def statement(self, depth: int) -> Statement:
        """A statement that may go on."""
        way = self.chance.choice(("if", "if", "if", "search", "search", "search", "block", "empty", "return"))
        if way == "if":
            return self.choice(depth)
        if way == "search":
            return self.search()
        if way == "block" and depth:
            return Block(tuple(self.statement(depth - 1) for _ in range(self.chance.randint(1, 2))))
        return self.returned() if way == "return" and self.often(0.1) else Block(())

    def returned(self) -> Return:
        return Return(self.of(self.method.kind, 2))

    def choice(self, depth: int) -> If:
        """An `if` in one of whose ways a `return` stands."""
        then, other = self.returning(depth), self.chance.choice((None, None, Block(()), self.returning(depth)))
        if other is not None and self.often(0.2):
            then, other = other, then
        return If(self.boolean(2), then, other)

    def returning(self, depth: int) -> Statement:
        """A statement in which a `return` stands; an `if` is in a block, so that no `else` behind it is its own."""
        if not depth or self.often(0.6):
            return self.returned() if self.often(0.5) else Block((self.returned(),))
        return Block((self.choice(depth - 1), *(self.statement(0) for _ in range(self.chance.randrange(2)))))

    def search(self) -> Search:
        name, of, kind = f"x{next(self.numbers)}", self.node(1), self.method.kind
        self.bound.append(name)
        test, self.may_fold = self.boolean(2), False
        value = self.of(kind, 1)
        if self.often(0.6) and kind in ("boolean", "Item"):
            value = word(self.chance.choice(("true", "false")) if kind == "boolean" else name)
        self.may_fold = True
        self.bound.pop()
        return Search(name, of, test, value, self.chance.randrange(3))

    def made(self, depth: int, flat: Ways, deep: Ways) -> Expr:
        """An expression made in one of the ways, in a flat one where nothing may stand in it. The first can always be gone."""
        made = self.chance.choice((*flat, *deep) if depth > 0 else flat)() or flat[0]()
        assert made is not None
        return made

    def of(self, kind: str, depth: int) -> Expr:
        """An expression of the kind."""
        if kind == "Item":
            return NULL if self.often(0.2) else self.node(depth)
        ways: Dict[str, Callable[[int], Expr]] = {"int": self.number, "boolean": self.boolean, "String": self.string}
        return ways[kind](depth)

    def known(self) -> Expr:
        """A name of a node."""
        return self.chance.choice([THIS, *(word(it) for it in self.bound for _ in range(2))])

    def token(self, *names: str) -> Expr:
        """What a node that is known has of its own."""
        return Expr("token", (self.known(),), self.chance.choice(names))

    def literal(self, *values: object) -> Expr:
        return word(str(self.chance.choice(values)))

    def called(self, kind: str, depth: int) -> Optional[Expr]:
        """A call of a method of the kind, where there is one before."""
        known = [it for it in self.before if it.kind == kind]
        if not known:
            return None
        asked = self.chance.choice(known)
        given = [self.given_text() if it == "String" and self.often(0.5) else self.of(it, 0 if it == "Item" else depth) for it in asked.parameters]
        return Expr("call", (self.node(depth), *given), asked.name)

    def given_text(self) -> Expr:
        """A text that isn't computed: a token, a literal or a parameter."""
        return self.chance.choice([self.token("Name"), self.literal(*(f'"{it}"' for it in NAMES)), *self.passed("String")])

    def passed(self, kind: str) -> List[Expr]:
        """The parameter of the kind, where the method has one."""
        return [word(NAMED[kind])] if kind in self.method.parameters else []

    def folded(self, form: str, depth: int) -> Optional[Expr]:
        """A fold, where one may stand."""
        if not self.may_fold:
            return None
        name, of = f"y{next(self.numbers)}", self.known()
        self.bound.append(name)
        inner = self.number(depth) if form == "sum" else self.boolean(depth)
        self.bound.pop()
        return Expr(form, (of, inner), name)

    def joined(self, part: Callable[[int], Expr], operators: Sequence[str], depth: int) -> Expr:
        """Two parts with an operator between them."""
        return Expr("binary", (part(depth), part(depth)), self.chance.choice(operators))

    def chosen(self, part: Callable[[int], Expr], depth: int) -> Expr:
        """One of two parts."""
        return Expr("choice", (self.boolean(depth), part(depth), part(depth)))

    def node(self, depth: int) -> Expr:
        """A node or none; never the word `null`."""
        less = depth - 1
        return self.made(depth, (self.known,), (
            self.known, self.known, lambda: self.folded("first", less), lambda: self.called("Item", less),
            lambda: Expr("item", (self.node(less), self.number(0) if self.often(0.3) else self.literal(0, 0, 1, 2))),
            lambda: Expr("choice", (self.boolean(less), self.node(less), self.of("Item", less))),
            lambda: Expr("cast", (self.node(less),)) if self.often(0.4) else None,
        ))

    def number(self, depth: int) -> Expr:
        less = depth - 1
        return self.made(depth, (lambda: self.token("Size", "NumItem"), lambda: self.literal(*SIZES), *(lambda: it for it in self.passed("int"))), (
            *[lambda: self.joined(self.number, "+-*/%", less)] * 3, lambda: self.chosen(self.number, less),
            lambda: self.folded("sum", less), lambda: self.called("int", less), lambda: Expr("minus", (self.number(less),)),
        ))

    def boolean(self, depth: int) -> Expr:
        less = depth - 1
        return self.made(depth, (lambda: self.token("On"), lambda: self.literal("true", "false"), *(lambda: it for it in self.passed("boolean"))), (
            lambda: self.joined(self.number, ("<", "<=", ">", ">=", "==", "!="), less), lambda: self.called("boolean", less),
            *[lambda: self.joined(self.boolean, ("&&", "||", "&&", "||", "=="), less)] * 3, lambda: self.folded("exists", less),
            lambda: Expr("binary", (self.node(less), self.of("Item", less)), self.chance.choice(("==", "!="))),
            lambda: Expr("is", (self.node(less),), "Leaf"), lambda: Expr("not", (self.boolean(less),)),
            lambda: Expr("equals", (self.string(less), self.string(less))),
        ))

    def string(self, depth: int) -> Expr:
        less = depth - 1
        return self.made(depth, (self.given_text,), (
            lambda: self.joined(self.string, "+", less), lambda: self.called("String", less), lambda: self.chosen(self.string, less),
            lambda: Expr("binary", (self.string(less), self.number(less)), "+"),
        ))


def methods(chance: random.Random, most: int) -> List[Method]:
    """So many methods by chance, each of which may call those before it."""
    made: List[Method] = []
    for number in range(most):
        parameters = tuple(chance.sample(sorted(NAMED), chance.choice(PARAMETERS)))
        method = Method(f"m{number}", chance.choice(KINDS), parameters, chance.random() < 0.3)
        for of in ("Item", "Leaf") if chance.random() < 0.3 else ("Item",):
            method.bodies[of] = Making(chance, method, made).body()
        made.append(method)
    return made


def aspects(made: Sequence[Method]) -> str:
    """The aspect file of the methods."""
    return "aspect Bodies {\n" + "".join(it.text() for it in made) + "}\n"
