"""What the manual says of reading an aspect file of JastAdd's own language, by itself: whether it is read, or the code and the place of its
fault. It has no limits, which are too far away for the small files of tests."""
from __future__ import annotations

import re
from dataclasses import dataclass
from typing import List, Optional, Sequence, Tuple, Union

SYNTAX, LEFT_OUT, KIND = "J1 syntax", "J10 form left out", "J4 kind"
RESERVED = frozenset(
    "abstract aspect syn inh eq lazy circular nta return true false null this instanceof exists first sum int boolean String".split())
MODIFIERS = frozenset(("public", "protected", "private", "final"))
KINDS, FOLDS, VALUES = ("int", "boolean", "String"), ("exists", "first", "sum"), ("true", "false", "null", "this")
# Words of Java that begin an operand that is left out.
OTHER_OPERANDS = ("new", "super", "switch")
# What stands for a list or an optional in a constant.
CONTAINERS = ("List", "Opt")
# What a kind goes on with that is left out: its arguments, an array, the package before it.
BEHIND_KIND = ("<", "[", ".")
# Operators, from the weakest row to the strongest; `instanceof` stands in that of `<`.
ROWS: Sequence[Tuple[str, ...]] = (("||",), ("&&",), ("==", "!="), ("<", "<=", ">", ">=", "instanceof"), ("+", "-"), ("*", "/", "%"))
GREATEST = 2_147_483_647
BLANKS = re.compile(r"(?:[ \t\r\n]|//[^\n]*|/\*.*?\*/)*", re.S)
TOKEN = re.compile(r'(?P<word>[^\W\d]\w*)|(?P<number>[0-9]+)|(?P<text>"(?:[^"\\\n\t]|\\["\\nt])*")'
                   r"|(?P<sign>::=|==|!=|<=|>=|&&|\|\||[:;*\[\]<>/.(){},=!\-+?%])")
# What stands between quotes before a tab or a wrong escape.
UNFINISHED = re.compile(r'"(?:[^"\\\n\t]|\\["\\nt])*(?=[\t\\])')


@dataclass(frozen=True)
class Refused(Exception):
    """A fault, by its code and the offset where it stands."""

    code: str
    at: int


@dataclass(frozen=True)
class Token:
    """A word, number, text or sign, or the end; and its offset."""

    kind: str
    text: str
    at: int

    def is_name(self) -> bool:
        """Whether it may name something."""
        return self.kind == "word" and self.text not in RESERVED

    def is_sign(self, text: str) -> bool:
        """Whether it is that sign."""
        return (self.kind, self.text) == ("sign", text)


def cut(text: str) -> List[Token]:
    """The tokens of a text, with the end behind them. Raises Refused where it can't be cut."""
    found: List[Token] = []
    at = 0
    while True:
        blanks = BLANKS.match(text, at)
        at = blanks.end() if blanks else at
        if at == len(text):
            return [*found, Token("end", "", at)]
        token = TOKEN.match(text, at)
        if token is None or text.startswith("/*", at):
            raise Refused(SYNTAX, uncut_at(text, at))
        found.append(Token(token.lastgroup or "", token[0], at))
        at = token.end()


def uncut_at(text: str, at: int) -> int:
    """Where a text can't be cut whose tokens end before this offset: at what can't stand between quotes, or here."""
    begun = UNFINISHED.match(text, at)
    return begun.end() if begun else at


@dataclass(frozen=True)
class Return:
    """`return E;`, and whether a fold stands in E."""

    has_fold: bool


@dataclass(frozen=True)
class If:
    """`if (E) S else S`, at its offset; where no `else` is written, the last one is `;`."""

    at: int
    then: Statement
    other: Statement


@dataclass(frozen=True)
class Each:
    """`for (K x : E) S`, at its offset."""

    at: int
    body: Statement


# A block is its statements, and `;` is None.
Statement = Union[Return, If, Each, List["Statement"], None]


def returns(statement: Statement) -> bool:
    """Whether a `return` stands in the statement."""
    if isinstance(statement, list):
        return any(map(returns, statement))
    if isinstance(statement, If):
        return returns(statement.then) or returns(statement.other)
    return returns(statement.body) if isinstance(statement, Each) else statement is not None


def alone(statement: Statement) -> Statement:
    """The statement, out of blocks of its own."""
    while isinstance(statement, list) and len(statement) == 1:
        statement = statement[0]
    return statement


def is_search(loop: Each) -> bool:
    """Whether the loop looks for an element: its body is `if (E) return E;`, and no fold stands in the value."""
    test = alone(loop.body)
    if not isinstance(test, If) or test.other is not None:
        return False
    value = alone(test.then)
    return isinstance(value, Return) and not value.has_fold


def is_open(statement: Statement, rest: bool) -> bool:
    """Whether the end behind the statement can be reached, where that of its rest can or can't. Raises Refused where it means nothing."""
    if isinstance(statement, list):
        for it in reversed(statement):
            rest = is_open(it, rest)
        return rest
    if isinstance(statement, Return):
        return False
    if isinstance(statement, If):
        if not returns(statement):
            raise Refused(LEFT_OUT, statement.at)
        behind = is_open(statement.other, rest)
        return is_open(statement.then, rest) or behind
    if isinstance(statement, Each) and not is_search(statement):
        raise Refused(LEFT_OUT, statement.at)
    return rest


class Row:
    """Tokens, of which one is next."""

    def __init__(self, text: str) -> None:
        """Of a text. Raises Refused where it can't be cut."""
        self.tokens, self.at = cut(text), 0

    @property
    def next(self) -> Token:
        """The next token; the end stays."""
        return self.tokens[self.at]

    def ahead(self, count: int) -> List[Token]:
        """So many tokens from the next one on, with the end in the place of those behind it."""
        return [self.tokens[min(self.at + it, len(self.tokens) - 1)] for it in range(count)]

    def is_next(self, *texts: str) -> bool:
        """Whether one of these words or signs is next."""
        return self.next.kind in ("word", "sign") and self.next.text in texts

    def take(self, *texts: str) -> Optional[Token]:
        """Steps over one of these words or signs, if it is next."""
        token = self.next
        if not self.is_next(*texts):
            return None
        self.at += 1
        return token

    def wrong(self, code: str = SYNTAX) -> Refused:
        """The fault at the next token."""
        return Refused(code, self.next.at)

    def want(self, *texts: str) -> Token:
        """The same as `take`. Raises Refused where another token is next."""
        token = self.take(*texts)
        if token is None:
            raise self.wrong()
        return token

    def other(self) -> Refused:
        """The fault where no form begins that is read: a word begins one that is left out."""
        return self.wrong(LEFT_OUT if self.next.kind == "word" else SYNTAX)

    def name(self) -> Token:
        """Steps over a name. Raises Refused where none is next."""
        token = self.next
        if not token.is_name():
            raise self.wrong()
        self.at += 1
        return token


class Expressions(Row):
    """Reads expressions: whether a fold stands in each. Raises Refused."""

    def expression(self) -> bool:
        found = self.row(0)
        if self.take("?"):
            found |= self.expression()
            self.want(":")
            found |= self.expression()
        return found

    def row(self, number: int) -> bool:
        if number == len(ROWS):
            return self.unary()
        found = self.row(number + 1)
        while True:
            operator = self.take(*ROWS[number])
            if operator is None:
                return found
            if operator.text == "instanceof":
                self.name()
            else:
                found |= self.row(number + 1)

    def unary(self) -> bool:
        if self.take("!"):
            return self.unary()
        if self.take("-"):
            return self.calls(self.number(GREATEST + 1)) if self.next.kind == "number" else self.unary()
        if self.is_cast():
            self.at += 3
            return self.unary()
        return self.calls(self.operand())

    def is_cast(self) -> bool:
        opening, name, closing, behind = self.ahead(4)
        is_pair = opening.is_sign("(") and name.is_name() and closing.is_sign(")")
        return is_pair and (behind.is_name() or behind.is_sign("(") or (behind.kind == "word" and behind.text in ("this", "null", *FOLDS)))

    def number(self, most: int) -> bool:
        text = self.next.text
        if int(text) > most or (text[0] == "0" and text != "0"):
            raise self.wrong()
        self.at += 1
        return False

    def operand(self) -> bool:
        if self.next.kind == "number":
            return self.number(GREATEST)
        if self.next.kind == "text":
            self.at += 1
            return False
        if self.is_next(*OTHER_OPERANDS):
            raise self.wrong(LEFT_OUT)
        if self.take(*VALUES):
            return False
        if self.take("("):
            found = self.expression()
            self.want(")")
            return found
        return self.fold() if self.is_fold() else self.named()

    def is_fold(self) -> bool:
        _, opening, name, colon = self.ahead(4)
        return self.is_next(*FOLDS) and opening.is_sign("(") and name.is_name() and colon.is_sign(":")

    def fold(self) -> bool:
        """`WORD ( NAME : LIST ) { E }`"""
        self.at += 4
        self.calls(self.operand())
        self.want(")")
        self.want("{")
        self.expression()
        self.want("}")
        return True

    def named(self) -> bool:
        """A name, or a call without a receiver."""
        token = self.called()
        if self.is_next("(") or not token.is_name():
            return self.arguments()
        return False

    def called(self) -> Token:
        """The name of a call, which may be a word of a fold."""
        return self.take(*FOLDS) or self.name()

    def calls(self, found: bool) -> bool:
        """The calls behind a receiver."""
        while self.take("."):
            self.called()
            found |= self.arguments()
        return found

    def arguments(self) -> bool:
        self.want("(")
        if self.take(")"):
            return False
        found = self.expression()
        while not self.take(")"):
            self.want(",")
            found |= self.expression()
        return found


class Statements(Expressions):
    """Reads statements, kinds and parameters. Raises Refused."""

    def kind(self) -> Token:
        found = self.take(*KINDS) or self.name()
        if self.is_next(*BEHIND_KIND):
            raise Refused(LEFT_OUT, found.at)
        return found

    def variable(self) -> Token:
        """`[final] KIND NAME`: the kind."""
        self.take("final")
        found = self.kind()
        self.name()
        return found

    def parameters(self, of: Token) -> List[Token]:
        """The kinds of the parameters of what has this name."""
        self.want("(")
        if of.text == "getChild" and self.is_next("int"):
            raise self.wrong(LEFT_OUT)
        if self.take(")"):
            return []
        found = [self.variable()]
        while not self.take(")"):
            self.want(",")
            found.append(self.variable())
        return found

    def statement(self) -> Statement:
        first = self.next
        if self.take("return"):
            value = Return(self.expression())
            self.want(";")
            return value
        if self.take("if"):
            self.want("(")
            self.expression()
            self.want(")")
            then = self.statement()
            return If(first.at, then, self.statement() if self.take("else") else None)
        if self.take("for"):
            return self.loop(first)
        if self.take("{"):
            return self.block()[0]
        if self.take(";"):
            return None
        raise self.other()

    def loop(self, first: Token) -> Each:
        """What stands behind a `for`; where it isn't `( KIND NAME :`, another loop is left out there."""
        try:
            self.want("(")
            self.variable()
            self.want(":")
        except Refused:
            raise Refused(LEFT_OUT, first.at) from None
        self.expression()
        self.want(")")
        return Each(first.at, self.statement())

    def block(self) -> Tuple[List[Statement], Token]:
        """Statements up to the closing brace, and that."""
        found: List[Statement] = []
        while not self.is_next("}"):
            found.append(self.statement())
        return found, self.want("}")


@dataclass(frozen=True)
class Constant:
    """A constant that was read: its declaration's word, class and name, the component that is its, its kind, whether that is a list, the term
    or the terms that it is made of, and their first `new`."""

    at: int
    of: Token
    name: Token
    component: str
    kind: Token
    is_list: bool
    cell: str
    new: Token

    def is_accessor(self) -> bool:
        """Whether it is named as an accessor, and declares no attribute."""
        return self.component != self.name.text


class Constants(Statements):
    """Reads constant nonterminal attributes, behind their `nta`: what isn't written down is left out. Raises Refused."""

    def __init__(self, text: str) -> None:
        super().__init__(text)
        self.constants: List[Constant] = []

    def constant(self, at: int) -> None:
        """Of the declaration at this offset."""
        while self.take("lazy", "final"):
            pass
        kind, listed = self.made_kind()
        of = self.name()
        self.want(".")
        name = self.name()
        component = self.component(name.text, listed is not None)
        if component is None:
            raise Refused(LEFT_OUT, (listed or kind).at)
        self.want("(")
        if not self.take(")"):
            raise self.other()
        cell, new = self.list_body(name) if listed else self.tree_body(name)
        self.constants.append(Constant(at, of, name, component, kind, listed is not None, cell, new))

    def made_kind(self) -> Tuple[Token, Optional[Token]]:
        """`CLASS`, or `List < CLASS >`: the class, and the word of a list."""
        if self.is_next(*KINDS):
            raise self.wrong(LEFT_OUT)
        first = self.name()
        is_list = first.text == "List" and self.is_next("<")
        kind = self.element(first) if is_list else first
        if self.is_next(*BEHIND_KIND):
            raise Refused(LEFT_OUT, first.at)
        return kind, first if is_list else None

    def element(self, of: Token) -> Token:
        """`< CLASS >`, which is left out there where something else stands."""
        self.want_of(of, "<")
        found = self.name_of(of)
        self.want_of(of, ">")
        return found

    @staticmethod
    def component(name: str, is_list: bool) -> Optional[str]:
        """The component of the constant with that name; none where a list isn't named by its accessor."""
        behind = name[len("get"):] if name.startswith("get") else ""
        if is_list:
            return behind[:-len("List")] or None if behind.endswith("List") else None
        return behind or name

    def begun(self, name: Token) -> Tuple[bool, Token]:
        """`= new`, or `{ return new`: whether it is a block, and the `new`; something else is left out at the name."""
        is_block = self.want_of(name, "=", "{").text == "{"
        if is_block:
            self.want_of(name, "return")
        return is_block, self.want_of(name, "new")

    def ended(self, new: Token, is_block: bool) -> None:
        """The semicolon behind what is made there, and the end of the block."""
        self.want_of(new, ";")
        if is_block:
            self.block_end()

    def block_end(self) -> None:
        if not self.take("}"):
            raise self.other()

    def tree_body(self, name: Token) -> Tuple[str, Token]:
        """The body of a tree: its term, and its `new`."""
        is_block, new = self.begun(name)
        term = self.node(new)
        self.ended(new, is_block)
        return term, new

    def list_body(self, name: Token) -> Tuple[str, Token]:
        """The body of a list: its terms, and its `new`."""
        _, word = self.ahead(2)
        if self.is_next("{") and (word.kind, word.text) == ("word", "List"):
            self.at += 2
            return self.local(name)
        is_block, new = self.begun(name)
        self.want_of(new, "List")
        found = self.items(new)
        self.ended(new, is_block)
        return f"[{','.join(found)}]", new

    def local(self, name: Token) -> Tuple[str, Token]:
        """A local variable that holds a list, to which nodes are added, behind its `List`."""
        self.element(name)
        local = self.name_of(name)
        self.want_of(name, "=")
        new = self.want_of(name, "new")
        self.want_of(new, "List")
        found = self.items(new)
        self.want_of(new, ";")
        while self.next.kind == "word" and self.next.text == local.text:
            found.append(self.addition())
        self.returned(local)
        return f"[{','.join(found)}]", new

    def addition(self) -> str:
        """`NAME . add ( new NODE ) ;`"""
        at = self.name()
        self.want_of(at, ".")
        found = self.added(at)
        self.want_of(at, ";")
        return found

    def returned(self, local: Token) -> None:
        """`return NAME ; }`"""
        word = self.take("return")
        if word is None:
            raise self.other()
        self.want_of(word, local.text)
        self.want_of(word, ";")
        self.block_end()

    def want_of(self, at: Token, *texts: str) -> Token:
        """Steps over what goes on with what stands there, which is left out where something else does."""
        found = self.take(*texts)
        if found is None:
            raise Refused(LEFT_OUT, at.at)
        return found

    def name_of(self, at: Token) -> Token:
        """The same of a name."""
        if not self.next.is_name():
            raise Refused(LEFT_OUT, at.at)
        return self.name()

    def node(self, new: Token) -> str:
        """`CLASS ( PARTS )`, behind its `new`: the term."""
        name = self.name_of(new)
        if name.text in CONTAINERS:
            raise Refused(LEFT_OUT, new.at)
        self.want_of(new, "(")
        found: List[str] = []
        if not self.take(")"):
            found.append(self.part())
            while self.take(","):
                found.append(self.part())
            self.want(")")
        return f"{name.text}({','.join(found)})"

    def part(self) -> str:
        """What stands for a component, and behind it a comma or the closing parenthesis."""
        first = self.next
        new = self.take("new")
        if new is None:
            found = self.literal()
        else:
            found = self.container(new) if self.is_next(*CONTAINERS) else self.node(new)
        if not self.is_next(",", ")"):
            raise Refused(LEFT_OUT, first.at)
        return found

    def literal(self) -> str:
        if self.next.kind == "text":
            self.at += 1
            return self.tokens[self.at - 1].text
        sign, text = self.take("-"), self.next.text
        if self.next.kind == "number":
            self.number(GREATEST + 1 if sign else GREATEST)
        elif sign:
            raise Refused(LEFT_OUT, sign.at)
        elif not self.take("true", "false"):
            raise self.no_operand()
        return f"-{text}" if sign else text

    def no_operand(self) -> Refused:
        """The fault where nothing stands that is read: an operand that begins here is left out."""
        is_begun = self.next.kind not in ("sign", "end") or self.is_next("!", "(", "-")
        return self.wrong(LEFT_OUT if is_begun else SYNTAX)

    def child(self) -> str:
        """`new` and a node."""
        new = self.take("new")
        if new is None:
            raise self.no_operand()
        return self.node(new)

    def opening(self, new: Token) -> None:
        """`[< CLASS >] (`"""
        if self.take("<"):
            self.name_of(new)
            self.want_of(new, ">")
        self.want_of(new, "(")

    def container(self, new: Token) -> str:
        """A list with what is added to it, or an optional with its node."""
        if self.want(*CONTAINERS).text == "List":
            return f"[{','.join(self.items(new))}]"
        self.opening(new)
        found = "-" if self.is_next(")") else self.child()
        self.want_of(new, ")")
        return found

    def items(self, new: Token) -> List[str]:
        """An empty list and what is added to it, behind its `List`."""
        self.opening(new)
        self.want_of(new, ")")
        found: List[str] = []
        while self.take("."):
            found.append(self.added(new))
        return found

    def added(self, at: Token) -> str:
        """`add ( new NODE )`"""
        self.want_of(at, "add")
        self.want_of(at, "(")
        found = self.child()
        self.want_of(at, ")")
        return found


class Aspects(Constants):
    """Reads a file. Raises Refused."""

    def __init__(self, text: str) -> None:
        super().__init__(text)
        # how many there are, constants counted
        self.declarations = 0

    def file(self) -> None:
        while self.take("import"):
            while not self.take(";"):
                if self.next.kind == "end":
                    raise self.wrong()
                self.at += 1
        while self.next.kind != "end":
            if not self.take("aspect"):
                raise self.other()
            self.name()
            self.want("{")
            while not self.take("}"):
                self.declaration()

    def declaration(self) -> None:
        while self.take(*MODIFIERS):
            pass
        self.declarations += 1
        first = self.next
        if self.take("syn"):
            self.synthesized(first)
        elif self.take("inh"):
            self.head()
            self.want(";")
        elif self.take("eq"):
            self.equation()
        elif self.is_method():
            self.kind()
            self.target()
            self.want("{")
            self.statements()
        else:
            raise self.other()

    def synthesized(self, first: Token) -> None:
        """An attribute or a constant, behind its `syn`."""
        while self.take("lazy", "final"):
            pass
        if self.take("nta"):
            self.constant(first.at)
            return
        self.head()
        if not self.take(";"):
            self.body()

    def is_method(self) -> bool:
        """Whether `KIND NAME . NAME (` is next, and no `void`."""
        kind, of, dot, name, opening = self.ahead(5)
        is_kind = kind.text != "void" and (kind.is_name() or self.is_next(*KINDS))
        return is_kind and of.is_name() and dot.is_sign(".") and name.is_name() and opening.is_sign("(")

    def target(self) -> List[Token]:
        """`CLASS . NAME ( PARAMETERS )`: the kinds of the parameters."""
        self.name()
        self.want(".")
        return self.parameters(self.name())

    def head(self) -> None:
        """What stands behind `syn` or `inh`, up to its ending."""
        while self.take("lazy", "final"):
            pass
        if self.is_next("nta"):
            raise self.wrong(LEFT_OUT)
        kind = self.kind()
        self.target()
        circular = self.take("circular")
        if circular and not (kind.text == "boolean" and self.take("[") and self.take("true", "false") and self.take("]")):
            raise Refused(LEFT_OUT, circular.at)

    def equation(self) -> None:
        kinds = self.target()
        if [it.text for it in kinds] in ([], ["int"]) and self.take("."):
            self.parameters(self.name())
        self.body()

    def body(self) -> None:
        if self.take("="):
            self.expression()
            self.want(";")
        else:
            self.want("{")
            self.statements()

    def statements(self) -> None:
        """A body of statements, behind its opening brace: what they mean is looked at once all are read."""
        found, end = self.block()
        if is_open(found, True):
            raise Refused(KIND, end.at)


def fault_of(text: str) -> Optional[str]:
    """The fault that reading the file meets, with its place as the program tells it; None where there is none."""
    try:
        Aspects(text).file()
    except Refused as fault:
        return told(text, fault)
    return None


def told(text: str, fault: Refused) -> str:
    """A fault with its place in the text, as the program tells it."""
    line = text.count("\n", 0, fault.at) + 1
    return f"{fault.code} at {line}:{fault.at - text.rfind(chr(10), 0, fault.at)}"
