"""Evaluates an equation's expression over a tree, but for the attributes in it: these are asked."""
from __future__ import annotations

from typing import Dict, Generator, List, Mapping, NamedTuple, Optional, Tuple

from .authoring.aspect_tree import Expression, Form
from .grammar import Grammar
from .lexical import read_quoted
from .paths import Path
from .replies import AskValue
from .terms import Node


# The farthest from 0 that an int is that is computed and passed.
MOST_PASSED = 1_048_576


class Call(NamedTuple):
    """An attribute that is asked, and the stretch of the text in which it is written."""

    path: Path
    attribute: str
    arguments: Tuple[AskValue, ...]
    start: int
    end: int


class Look(NamedTuple):
    """Something of the tree that the expression looked at: by `get`, `has` or `getNum` what a component of the node
    has, and by `List` to how many elements of it a fold came."""

    path: Path
    front: str
    part: str
    value: AskValue


class Stopped(Exception):
    """The expression has no value, for the reason that is told."""


Evaluating = Generator[Call, AskValue, AskValue]


class Evaluation:
    """Evaluation for one node. A generator yields each attribute that is asked, and wants its value.

    `looks` are the components that it came to look at, but for those within folds. Where `most` is given, it stops
    behind so many looks, those within folds among them."""

    def __init__(
        self, grammar: Grammar, tree: Node, this: Path, bound: Mapping[str, AskValue], most: Optional[int] = None
    ) -> None:
        self.grammar, self.tree, self.this, self.bound, self.most = grammar, tree, this, dict(bound), most
        self.looks: List[Look] = []
        self._count, self._folds = 0, 0

    def _looked(self, look: Look) -> AskValue:
        self._spend()
        self._note(look)
        return look.value

    def _note(self, look: Look) -> None:
        if not self._folds and look not in self.looks:
            self.looks.append(look)

    def _spend(self) -> None:
        self._count += 1
        if self.most is not None and self._count > self.most:
            raise Stopped(f"it looks at more than {self.most} places")

    def value(self, it: Expression) -> Evaluating:
        """The value of an expression. Raises Stopped where it has none."""
        if it.form is Form.CALL:
            return (yield from self._call(it))
        if it.form is Form.FOLD:
            return (yield from self._fold(it))
        if it.form in (Form.BINARY, Form.CHOICE, Form.UNARY):
            return (yield from self._operator(it))
        if it.form is Form.GROUP:
            return (yield from self.value(it.parts[0]))
        if it.form in (Form.CAST, Form.INSTANCE):
            return (yield from self._of_class(it))
        if it.form is Form.TEXT:
            return read_quoted(it.word.text)[0]
        if it.form is Form.NUMBER:
            return int(it.word.text)
        if it.form is Form.NAME:
            return self.bound[it.word.text]
        constants: Dict[str, AskValue] = {"this": self.this, "true": True, "false": False}
        return constants.get(it.word.text)

    def _of_class(self, it: Expression) -> Evaluating:
        value = yield from self.value(it.parts[0])
        node = self._node(value) if isinstance(value, Path) else None
        is_below = node is not None and self.grammar.is_below(node.name, it.word.text)
        if it.form is Form.INSTANCE:
            return is_below
        if node is not None and not is_below:
            raise Stopped(f"the cast of {value}, a {node.name}, to {it.word.text} fails")
        return value

    def _node(self, path: Path) -> Node:
        node = self.grammar.node_at(self.tree, path)
        if node is None:
            raise Stopped(f"no node is known at {path}")
        return node

    def _operator(self, it: Expression) -> Evaluating:
        sign = it.word.text
        first = yield from self.value(it.parts[0])
        if it.form is Form.CHOICE:
            return (yield from self.value(it.parts[1 if first else 2]))
        if it.form is Form.UNARY:
            return (not first) if sign == "!" else _wrapped(-_number(first))
        if sign in ("&&", "||"):
            return first if bool(first) is (sign == "||") else (yield from self.value(it.parts[1]))
        second = yield from self.value(it.parts[1])
        return _operated(sign, first, second)

    def _call(self, it: Expression) -> Evaluating:
        receiver: AskValue = self.this
        if it.receiver is not None:
            receiver = yield from self.value(it.receiver)
        arguments: List[AskValue] = []
        for part in it.arguments:
            arguments.append((yield from self.value(part)))
        name = it.word.text
        if isinstance(receiver, str):
            return receiver == arguments[0]
        if not isinstance(receiver, Path):
            raise Stopped(f"{name} is called on null")
        accessor = _accessor(self.grammar, self._node(receiver).name, name)
        if accessor is not None:
            return self._cell(receiver, accessor[0], accessor[1], arguments)
        for part, value in zip(it.arguments, arguments):
            if _is_too_far(part, value):
                raise Stopped(f"{name} is passed the int {value}, which is too far from 0")
        return (yield Call(receiver, name, tuple(arguments), it.start, it.end))

    def _cell(self, path: Path, front: str, part: str, arguments: List[AskValue]) -> AskValue:
        cell = self.grammar.cell(self._node(path), part)
        if front == "has":
            return self._looked(Look(path, front, part, cell is not None))
        if isinstance(cell, tuple):
            if front == "getNum":
                return self._looked(Look(path, front, part, len(cell)))
            index = _number(arguments[0])
            if not 0 <= index < len(cell):
                raise Stopped(f"{path} has no element {part}:{index}")
            return self._looked(Look(path, front, part, path.child(part, index)))
        if cell is None:
            raise Stopped(f"{path} has no {part}")
        return self._looked(Look(path, front, part, path.child(part) if isinstance(cell, Node) else cell))

    def _fold(self, it: Expression) -> Evaluating:
        among, body = it.parts
        above: AskValue = self.this
        if among.receiver is not None:
            above = yield from self.value(among.receiver)
        if not isinstance(above, Path):
            raise Stopped("a fold goes over a list of null")
        node = self._node(above)
        part = _listed(self.grammar, node.name, among.word.text)
        cell = self.grammar.cell(node, part)
        name, count = body.bound[-1].name.text, len(cell) if isinstance(cell, tuple) else 0
        values: List[AskValue] = []
        self._folds += 1
        try:
            while len(values) < count and (it.word.text == "sum" or not (values and values[-1])):
                self._spend()
                self.bound[name] = above.child(part, len(values))
                values.append((yield from self.value(body)))
        finally:
            self._folds -= 1
            self._note(Look(above, "List", part, len(values)))
        if it.word.text == "sum":
            return _wrapped(sum(map(_number, values)))
        is_found = bool(values and values[-1])
        return is_found if it.word.text == "exists" else self.bound[name] if is_found else None


def _is_too_far(part: Expression, value: AskValue) -> bool:
    """Whether an argument is an int that is computed and farther from 0 than one that may be passed."""
    while part.form is Form.GROUP:
        part = part.parts[0]
    return type(value) is int and part.form is not Form.NUMBER and not -MOST_PASSED - 1 <= value <= MOST_PASSED


def _accessor(grammar: Grammar, of: str, name: str) -> Optional[Tuple[str, str]]:
    """The front of an accessor's name and its component, or None where the name is no accessor of the class."""
    parts = {it.name for it in grammar.components(of)}
    return next(((front, name[len(front):]) for front in ("getNum", "has", "get") if name.startswith(front) and name[len(front):] in parts), None)


def _listed(grammar: Grammar, of: str, name: str) -> str:
    """The list of a class that an accessor names: by `List` at its end, or by an `s`, where no list is named otherwise."""
    whole = name[len("get"):-len("List")]
    is_whole = name.endswith("List") and any(it.name == whole for it in grammar.components(of))
    return whole if is_whole else name[len("get"):-len("s")]


def _wrapped(number: int) -> int:
    return (number + 2 ** 31) % 2 ** 32 - 2 ** 31


def _number(value: AskValue) -> int:
    return value if isinstance(value, int) else 0


def _operated(sign: str, first: AskValue, second: AskValue) -> AskValue:
    if sign in ("==", "!="):
        return (first == second) is (sign == "==")
    if sign == "+" and isinstance(first, str):
        return first + (second if isinstance(second, str) else str(second))
    a, b = _number(first), _number(second)
    if sign in ("/", "%") and b == 0:
        raise Stopped("it is divided by 0")
    if sign in ("<", "<=", ">", ">="):
        return {"<": a < b, "<=": a <= b, ">": a > b, ">=": a >= b}[sign]
    if sign in ("/", "%"):
        quotient = abs(a) // abs(b) * (1 if (a < 0) is (b < 0) else -1)
        return _wrapped(quotient if sign == "/" else a - quotient * b)
    return _wrapped({"+": a + b, "-": a - b, "*": a * b}[sign])
