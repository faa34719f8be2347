"""What methods with bodies of statements answer: one statement is done after the other, as Java does it. No expression is made of a
body."""
from __future__ import annotations

from dataclasses import dataclass
from typing import Callable, Dict, Iterator, Optional, Sequence, Tuple, Union

from tools.of_the_program.jastadd_bodies import FOLDS, NAMED, Expr, If, Method, Node, Return, Search, Statement, Value


# What is computed and passed: an int is so far from 0, a text has so many bytes.
MOST, LONGEST = 1_048_576, 4_096


@dataclass(frozen=True)
class Fault(Exception):
    """A fault, with the node and the attribute whose own body met it."""

    kind: str
    path: str
    name: str


@dataclass(frozen=True)
class Returned:
    """What a body has returned."""

    value: Value


def wrapped(number: int) -> int:
    """The number in 32 bits."""
    return (number + 2 ** 31) % 2 ** 32 - 2 ** 31


def divided(number: int, by: int) -> int:
    """The quotient, cut toward zero."""
    return abs(number) // abs(by) * (1 if (number < 0) == (by < 0) else -1)


def told(value: Value) -> str:
    """A value as it is replied."""
    if isinstance(value, bool):
        return str(value).lower()
    if isinstance(value, Node):
        return value.path
    return "null" if value is None else f'"{value}"' if isinstance(value, str) else str(value)


def is_number(e: Expr) -> bool:
    """Whether the expression is a number as it is written; a minus in front belongs to it."""
    return e.form == "word" and e.word.lstrip("-").isdigit() or e.form == "minus" and e.parts[0].form == "word" and e.parts[0].word.isdigit()


def is_given(e: Expr) -> bool:
    """Whether the text is a literal, a parameter or a token."""
    return e.form in ("word", "token")


class Java:
    """Does what methods say, one statement after the other, on nodes of one tree, which stays as it is."""

    def __init__(self, methods: Sequence[Method]) -> None:
        self.methods = {it.name: it for it in methods}
        self.known: Dict[Tuple[Node, str, Tuple[Value, ...]], Union[Returned, Fault]] = {}

    def reply(self, node: Node, name: str, given: Tuple[Value, ...]) -> str:
        """The reply to a question."""
        try:
            return f"= {told(self.called(node, name, given))}"
        except Fault as fault:
            return f"fault {fault.kind} in {fault.path}.{fault.name}"

    def called(self, node: Node, name: str, given: Tuple[Value, ...]) -> Value:
        """What the node's method returns. Raises Fault."""
        key = (node, name, given)
        if key not in self.known:
            method = self.methods[name]
            try:
                body = method.bodies.get(node.kind) or method.bodies["Item"]
                end = Body(self, node, method, given).done(body)
                assert end is not None, "the end of a body was reached"
                self.known[key] = end
            except Fault as fault:
                self.known[key] = fault
        outcome = self.known[key]
        if isinstance(outcome, Fault):
            raise outcome
        return outcome.value


class Body:
    """A body that is done, with what its names stand for."""

    def __init__(self, java: Java, node: Node, method: Method, given: Tuple[Value, ...]) -> None:
        self.java, self.node, self.method = java, node, method
        self.names: Dict[str, Value] = {"this": node, "null": None, "true": True, "false": False}
        self.names.update(zip(map(NAMED.__getitem__, method.parameters), given))

    def fault(self, kind: str) -> Fault:
        return Fault(kind, self.node.path, self.method.name)

    def done(self, statement: Optional[Statement]) -> Optional[Returned]:
        """What the statement returns; None where its end is reached. Raises Fault."""
        if isinstance(statement, Return):
            return Returned(self.value(statement.value))
        if isinstance(statement, If):
            return self.done(statement.then if self.value(statement.test) else statement.other)
        if isinstance(statement, Search):
            return self.sought(statement)
        for it in statement.statements if statement else ():
            end = self.done(it)
            if end is not None:
                return end
        return None

    def sought(self, loop: Search) -> Optional[Returned]:
        for _ in self.each(loop.name, loop.of):
            if self.value(loop.test):
                return Returned(self.value(loop.value))
        return None

    def each(self, name: str, of: Expr) -> Iterator[Node]:
        """The elements of the list, to each of which the name is bound in turn."""
        for it in self.there(of).items:
            self.names[name] = it
            yield it
        self.names.pop(name, None)

    def there(self, e: Expr) -> Node:
        """The node that is asked for something."""
        found = self.value(e)
        if not isinstance(found, Node):
            raise self.fault("null")
        return found

    def number(self, e: Expr) -> int:
        found = self.value(e)
        assert isinstance(found, int)
        return found

    def value(self, e: Expr) -> Value:
        """What the expression comes to. Raises Fault."""
        if e.form == "word":
            return self.names[e.word] if e.word in self.names else e.word[1:-1] if e.word[0] == '"' else int(e.word)
        if e.form in FOLDS:
            return self.folded(e)
        if e.form == "binary":
            return self.binary(e)
        if e.form == "choice":
            return self.value(e.parts[1 if self.value(e.parts[0]) else 2])
        if e.form == "not":
            return not self.value(e.parts[0])
        if e.form == "minus":
            return wrapped(-self.number(e.parts[0]))
        return self.of_node(e)

    def of_node(self, e: Expr) -> Value:
        """What is asked of a node or a text, or told of it."""
        if e.form == "is":
            node = self.value(e.parts[0])
            return isinstance(node, Node) and e.word in (node.kind, "Item")
        if e.form == "cast":
            node = self.value(e.parts[0])
            if isinstance(node, Node) and node.kind != "Leaf":
                raise self.fault("cast")
            return node
        if e.form == "equals":
            return self.value(e.parts[0]) == self.value(e.parts[1])
        if e.form == "token":
            node = self.there(e.parts[0])
            tokens: Dict[str, Value] = {"On": node.on, "Size": node.size, "Name": node.name, "NumItem": len(node.items)}
            return tokens[e.word]
        return self.item(e) if e.form == "item" else self.call(e)

    def item(self, e: Expr) -> Node:
        receiver, at = self.value(e.parts[0]), self.number(e.parts[1])
        if not isinstance(receiver, Node):
            raise self.fault("null")
        if not 0 <= at < len(receiver.items):
            raise self.fault("index")
        return receiver.items[at]

    def call(self, e: Expr) -> Value:
        receiver, given = self.value(e.parts[0]), tuple(map(self.passed, e.parts[1:]))
        if not isinstance(receiver, Node):
            raise self.fault("null")
        return self.java.called(receiver, e.word, given)

    def passed(self, e: Expr) -> Value:
        """What is passed: of what is computed an int isn't too far from 0, and a text not too long. Raises Fault."""
        value = self.value(e)
        is_int = isinstance(value, int) and not isinstance(value, bool)
        if is_int and not is_number(e) and not -MOST - 1 <= int(str(value)) <= MOST:
            raise self.fault("long")
        if isinstance(value, str) and not is_given(e) and len(value) > LONGEST:
            raise self.fault("long")
        return value

    def folded(self, e: Expr) -> Value:
        total = 0
        for it in self.each(e.word, e.parts[0]):
            found = self.value(e.parts[1])
            if e.form == "sum":
                assert isinstance(found, int)
                total = wrapped(total + found)
            elif found:
                return it if e.form == "first" else True
        nothing: Dict[str, Value] = {"sum": total, "first": None, "exists": False}
        return nothing[e.form]

    def binary(self, e: Expr) -> Value:
        left = self.value(e.parts[0])
        if e.word in ("&&", "||"):
            return self.value(e.parts[1]) if left is (e.word == "&&") else left
        right = self.value(e.parts[1])
        if e.word in ("==", "!="):
            return (left is right if isinstance(left, Node) or isinstance(right, Node) else left == right) is (e.word == "==")
        if isinstance(left, str):
            return left + str(right)
        assert isinstance(left, int) and isinstance(right, int)
        return self.computed(left, e.word, right)

    def computed(self, left: int, operator: str, right: int) -> Value:
        if operator in ("/", "%") and right == 0:
            raise self.fault("zero")
        values: Dict[str, Callable[[], Value]] = {
            "+": lambda: wrapped(left + right), "-": lambda: wrapped(left - right), "*": lambda: wrapped(left * right),
            "/": lambda: wrapped(divided(left, right)), "%": lambda: wrapped(left - divided(left, right) * right),
            "<": lambda: left < right, "<=": lambda: left <= right, ">": lambda: left > right, ">=": lambda: left >= right,
        }
        return values[operator]()
