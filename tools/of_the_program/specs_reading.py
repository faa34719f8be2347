"""Aspects in JastAdd's own language, read into expressions and statements as they are written. They are aspects that the program accepts."""
from __future__ import annotations

from dataclasses import dataclass
from typing import List, Optional, Tuple, Union

from tools.of_the_program.jastadd_reading import FOLDS, KINDS, MODIFIERS, ROWS, Row
from tools.of_the_program.specs_grammar import ANY, Component
from tools.of_the_program.specs_trees import unquoted

WORDS = {"true": True, "false": False, "null": None}


@dataclass(frozen=True)
class Expr:
    """An expression: its form, its parts, a word of it, and what a literal stands for. Of a call the receiver is the first part."""

    form: str
    parts: Tuple[Expr, ...] = ()
    word: str = ""
    literal: Union[int, bool, str, None] = None


THIS = Expr("name", (), "this")


@dataclass(frozen=True)
class Return:
    """`return value;`"""

    value: Expr


@dataclass(frozen=True)
class If:
    """`if (test) then else other`; where no `else` is written, the last one is an empty block."""

    test: Expr
    then: Statement
    other: Statement


@dataclass(frozen=True)
class Each:
    """`for (K name : of) body`"""

    name: str
    of: Expr
    body: Statement

    def search(self) -> Tuple[Expr, Expr]:
        """The test and the value of a body that is `if (test) return value;`, perhaps in blocks."""
        test = alone(self.body)
        assert isinstance(test, If)
        value = alone(test.then)
        assert isinstance(value, Return)
        return test.test, value.value


@dataclass(frozen=True)
class Block:
    """`{ statements }`, or `;`."""

    statements: Tuple[Statement, ...] = ()


Statement = Union[Return, If, Each, Block]


def alone(statement: Statement) -> Statement:
    """The statement, out of blocks of its own."""
    while isinstance(statement, Block) and len(statement.statements) == 1:
        statement = statement.statements[0]
    return statement


@dataclass(frozen=True)
class Parameter:
    """A parameter: its kind and its name."""

    kind: str
    name: str


@dataclass(frozen=True)
class Declared:
    """What declares an attribute: for which class, its sort, its parameters, the start of a circular one, and its body, if it has one."""

    sort: str
    of: str
    name: str
    parameters: Tuple[Parameter, ...]
    start: Optional[bool] = None
    body: Optional[Statement] = None


@dataclass(frozen=True)
class Constant:
    """A constant: of which class, its component, its cell as in a term, and its attribute; one with the name of an accessor has none."""

    of: str
    part: Component
    cell: str
    attribute: Optional[Declared]


@dataclass(frozen=True)
class Equation:
    """An equation: of a class, for one of its components where the attribute is inherited, and the name of the index."""

    of: str
    component: Optional[str]
    index: Optional[str]
    name: str
    parameters: Tuple[Parameter, ...]
    body: Statement


Said = Union[Declared, Equation, Constant]


class Expressions(Row):
    """Reads expressions. Raises Refused."""

    def expression(self) -> Expr:
        test = self.row(0)
        if not self.take("?"):
            return test
        then = self.expression()
        self.want(":")
        return Expr("choice", (test, then, self.expression()))

    def row(self, number: int) -> Expr:
        if number == len(ROWS):
            return self.unary()
        found = self.row(number + 1)
        while True:
            operator = self.take(*ROWS[number])
            if operator is None:
                return found
            if operator.text == "instanceof":
                found = Expr("is", (found,), self.name().text)
            else:
                found = Expr("binary", (found, self.row(number + 1)), operator.text)

    def unary(self) -> Expr:
        if self.take("!"):
            return Expr("not", (self.unary(),))
        if self.take("-"):
            return self.calls(self.number(-1)) if self.next.kind == "number" else Expr("minus", (self.unary(),))
        if self.is_cast():
            name = self.ahead(2)[1].text
            self.at += 3
            return Expr("cast", (self.unary(),), name)
        return self.calls(self.operand())

    def is_cast(self) -> bool:
        opening, name, closing, behind = self.ahead(4)
        is_pair = opening.is_sign("(") and name.is_name() and closing.is_sign(")")
        return is_pair and (behind.is_name() or behind.is_sign("(") or (behind.kind == "word" and behind.text in ("this", "null", *FOLDS)))

    def number(self, sign: int) -> Expr:
        value = int(self.next.text)
        self.at += 1
        return Expr("literal", literal=sign * value)

    def operand(self) -> Expr:
        if self.next.kind == "number":
            return self.number(1)
        if self.next.kind == "text":
            self.at += 1
            return Expr("literal", literal=unquoted(self.tokens[self.at - 1].text))
        if self.take("this"):
            return THIS
        word = self.take(*WORDS)
        if word:
            return Expr("literal", literal=WORDS[word.text])
        if self.take("("):
            found = self.expression()
            self.want(")")
            return found
        return self.fold() if self.is_fold() else self.named()

    def is_fold(self) -> bool:
        _, opening, name, colon = self.ahead(4)
        return self.is_next(*FOLDS) and opening.is_sign("(") and name.is_name() and colon.is_sign(":")

    def fold(self) -> Expr:
        """`WORD ( NAME : LIST ) { E }`: the name is its word, and its form is that of the fold."""
        form, _, name, _ = self.ahead(4)
        self.at += 4
        of = self.calls(self.operand())
        self.want(")")
        self.want("{")
        inner = self.expression()
        self.want("}")
        return Expr(form.text, (of, inner), name.text)

    def named(self) -> Expr:
        """A name, or a call of this node."""
        name = (self.take(*FOLDS) or self.name()).text
        return Expr("call", (THIS, *self.arguments()), name) if self.is_next("(") else Expr("name", (), name)

    def calls(self, receiver: Expr) -> Expr:
        """The calls behind a receiver."""
        while self.take("."):
            name = (self.take(*FOLDS) or self.name()).text
            receiver = Expr("call", (receiver, *self.arguments()), name)
        return receiver

    def arguments(self) -> List[Expr]:
        self.want("(")
        found: List[Expr] = []
        while not self.take(")"):
            if found:
                self.want(",")
            found.append(self.expression())
        return found


class Statements(Expressions):
    """Reads statements, kinds and parameters. Raises Refused."""

    def kind(self) -> str:
        return (self.take(*KINDS) or self.name()).text

    def variable(self) -> Parameter:
        """`[final] KIND NAME`"""
        self.take("final")
        return Parameter(self.kind(), self.name().text)

    def parameters(self) -> Tuple[Parameter, ...]:
        self.want("(")
        found: List[Parameter] = []
        while not self.take(")"):
            if found:
                self.want(",")
            found.append(self.variable())
        return tuple(found)

    def statement(self) -> Statement:
        if self.take("return"):
            value = Return(self.expression())
            self.want(";")
            return value
        if self.take("if"):
            test = self.tested()
            then = self.statement()
            return If(test, then, self.statement() if self.take("else") else Block())
        if self.take("for"):
            return self.loop()
        if self.take(";"):
            return Block()
        self.want("{")
        return self.block()

    def tested(self) -> Expr:
        self.want("(")
        test = self.expression()
        self.want(")")
        return test

    def loop(self) -> Each:
        """What stands behind a `for`."""
        self.want("(")
        name = self.variable().name
        self.want(":")
        of = self.expression()
        self.want(")")
        return Each(name, of, self.statement())

    def block(self) -> Block:
        """Statements up to the closing brace."""
        found: List[Statement] = []
        while not self.take("}"):
            found.append(self.statement())
        return Block(tuple(found))

    def body(self) -> Statement:
        """`= E;`, or a block."""
        if self.take("="):
            value = Return(self.expression())
            self.want(";")
            return value
        self.want("{")
        return self.block()


class Aspects(Statements):
    """Reads a file. Raises Refused."""

    def file(self) -> List[Said]:
        found: List[Said] = []
        while self.take("import"):
            while not self.take(";"):
                self.at += 1
        while self.next.kind != "end":
            self.want("aspect")
            self.name()
            self.want("{")
            while not self.take("}"):
                found.append(self.declaration())
        return found

    def declaration(self) -> Said:
        while self.take(*MODIFIERS):
            pass
        if self.take("eq"):
            return self.equation()
        sort = self.take("syn", "inh")
        is_constant = False
        while sort and self.is_next("lazy", "final", "nta"):
            is_constant |= bool(self.take("nta"))
            self.take("lazy", "final")
        if is_constant:
            return self.constant()
        self.kind()
        of = self.name().text
        self.want(".")
        name, parameters = self.name().text, self.parameters()
        start = self.start() if self.take("circular") else None
        body = None if self.take(";") else self.body()
        return Declared(sort.text if sort else "syn", of, name, parameters, start, body)

    def constant(self) -> Constant:
        """What stands behind `nta`: the body of its attribute is the accessor of the component."""
        form, kind = ("child", self.name().text) if not self.is_list() else ("list", self.element())
        of = self.name().text
        self.want(".")
        name = self.name().text
        self.parameters()
        if name.startswith("get") and name != "get":
            component, attribute = name[len("get"):].removesuffix("List" if form == "list" else ""), None
        else:
            component, attribute = name, Declared("syn", of, name, (), None, Return(Expr("call", (THIS,), f"get{name}")))
        return Constant(of, Component(component, form, kind, True), self.constant_cell(), attribute)

    def is_list(self) -> bool:
        """Whether `List <` is next."""
        first, opening = self.ahead(2)
        return first.text == "List" and opening.is_sign("<")

    def element(self) -> str:
        """`List < CLASS >`: the class."""
        self.at += 2
        found = self.name().text
        self.want(">")
        return found

    def constant_cell(self) -> str:
        """`= MADE ;`, `{ return MADE ; }`, or a list to which a local variable is added: the cell."""
        if self.take("="):
            return self.ended()
        self.want("{")
        found = self.local() if self.is_list() else self.returned()
        self.want("}")
        return found

    def ended(self) -> str:
        """What is made up to the semicolon."""
        found = self.made()
        self.want(";")
        return found

    def returned(self) -> str:
        self.want("return")
        return self.ended()

    def local(self) -> str:
        """`List < CLASS > NAME = LIST ; { NAME . add ( NODE ) ; } return NAME ;`: the list with all that is added to it."""
        self.element()
        name = self.name().text
        self.want("=")
        found = [self.ended()[1:-1]]
        while self.take(name):
            self.at += 3
            found.append(self.made())
            self.at += 2
        self.at += 3
        return f"[{','.join(filter(None, found))}]"

    def made(self) -> str:
        """The term of what is written down for a component."""
        if not self.take("new"):
            sign = "-" if self.take("-") else ""
            self.at += 1
            return sign + self.tokens[self.at - 1].text
        name = self.name().text
        if self.take("<"):
            self.name()
            self.want(">")
        self.want("(")
        parts: List[str] = []
        while not self.take(")"):
            if parts:
                self.want(",")
            parts.append(self.made())
        if name == "Opt":
            return parts[0] if parts else "-"
        while name == "List" and self.take("."):
            self.name()
            self.want("(")
            parts.append(self.made())
            self.want(")")
        return f"[{','.join(parts)}]" if name == "List" else f"{name}({','.join(parts)})"

    def start(self) -> bool:
        """What stands behind `circular`: the value from which it starts."""
        self.want("[")
        found = self.want("true", "false").text == "true"
        self.want("]")
        return found

    def equation(self) -> Equation:
        of = self.name().text
        self.want(".")
        name, parameters = self.name().text, self.parameters()
        if not self.take("."):
            return Equation(of, None, None, name, parameters, self.body())
        index = parameters[0].name if parameters else None
        component = name[len("get"):] if name.startswith("get") else name
        name, parameters = self.name().text, self.parameters()
        return Equation(of, component or ANY, index, name, parameters, self.body())
