"""The values of expressions, and what statements return, where they are done one after the other as Java does it. What they ask for is
found elsewhere (`specs_meaning.py`)."""
from __future__ import annotations

from dataclasses import dataclass
from typing import Callable, Dict, List, Optional, Protocol, Tuple, Union

from tools.of_the_program.specs_aspects import Specification
from tools.of_the_program.specs_reading import Each, Expr, If, Return, Statement
from tools.of_the_program.specs_trees import Node

# What is computed and passed: an int is so far from 0. A text has so many bytes there, and so many where it is joined.
MOST, PASSED, LONGEST = 1_048_576, 4_096, 65_535
Value = Union[int, bool, str, Node, None]
# A node, the name of an attribute, and its arguments.
Instance = Tuple[Node, str, Tuple[Value, ...]]


@dataclass(frozen=True)
class Fault(Exception):
    """A fault, and the instance whose own equation met it."""

    kind: str
    at: Instance


@dataclass(frozen=True)
class Returned:
    """What a body has returned."""

    value: Value


class Asked(Protocol):
    """What finds the values that equations ask for."""

    specification: Specification

    def demand(self, of: Instance) -> Value:
        """The value of an instance. Raises Fault."""


def wrapped(number: int) -> int:
    """The number in 32 bits."""
    return (number + 2**31) % 2**32 - 2**31


def divided(number: int, by: int) -> int:
    """The quotient, cut toward zero."""
    return abs(number) // abs(by) * (1 if (number < 0) == (by < 0) else -1)


def length(text: str) -> int:
    """How many bytes a text has."""
    return len(text.encode())


class Evaluation:
    """The equation of one instance, with what its names stand for."""

    def __init__(self, asked: Asked, instance: Instance) -> None:
        self.asked, self.instance = asked, instance
        self.specification = asked.specification
        node, name, given = instance
        declared = self.specification.attribute(node.kind, name)
        assert declared is not None, f"{node.kind} has no {name}"
        self.declared = declared
        found = self.specification.equation(node, name, declared.sort == "inh")
        self.body = found.body
        self.names: Dict[str, Value] = {"this": found.at}
        self.names.update(zip((it.name for it in found.parameters), given))
        if found.counted is not None and found.below is not None:
            self.names[found.counted] = found.below.index()

    def fault(self, kind: str) -> Fault:
        return Fault(kind, self.instance)

    def returned(self) -> Value:
        """What the body returns. Raises Fault."""
        found = self.done(self.body)
        assert found is not None, "the end of a body was reached"
        return found.value

    def done(self, statement: Statement) -> Optional[Returned]:
        """What the statement returns; None where its end is reached. Raises Fault."""
        if isinstance(statement, Return):
            return Returned(self.value(statement.value))
        if isinstance(statement, If):
            return self.done(statement.then if self.value(statement.test) else statement.other)
        if isinstance(statement, Each):
            return self.looped(statement)
        for it in statement.statements:
            found = self.done(it)
            if found:
                return found
        return None

    def looped(self, loop: Each) -> Optional[Returned]:
        """What a loop returns."""
        for it in self.elements(loop.of):
            self.names[loop.name] = it
            found = self.done(loop.body)
            if found:
                return found
        return None

    def elements(self, e: Expr) -> List[Node]:
        """The elements of a list that an accessor gives as a whole. Raises Fault."""
        owner = self.there(e.parts[0])
        return owner.list(self.accessor(owner, e.word)[1])

    def there(self, e: Expr) -> Node:
        """The node that is asked for something. Raises Fault."""
        found = self.value(e)
        if not isinstance(found, Node):
            raise self.fault("null")
        return found

    def value(self, e: Expr) -> Value:
        """What the expression comes to. Raises Fault."""
        return VALUES[e.form](self, e)

    def number(self, e: Expr) -> int:
        found = self.value(e)
        assert isinstance(found, int)
        return found

    def literal(self, e: Expr) -> Value:
        return e.literal

    def name(self, e: Expr) -> Value:
        return self.names[e.word]

    def choice(self, e: Expr) -> Value:
        return self.value(e.parts[1 if self.value(e.parts[0]) else 2])

    def negated(self, e: Expr) -> Value:
        return not self.value(e.parts[0])

    def minus(self, e: Expr) -> Value:
        return wrapped(-self.number(e.parts[0]))

    def is_of(self, e: Expr) -> Value:
        found = self.value(e.parts[0])
        return isinstance(found, Node) and self.specification.grammar.is_below(found.kind, e.word)

    def cast(self, e: Expr) -> Value:
        found = self.value(e.parts[0])
        if isinstance(found, Node) and not self.specification.grammar.is_below(found.kind, e.word):
            raise self.fault("cast")
        return found

    def folded(self, e: Expr) -> Value:
        total = 0
        for it in self.elements(e.parts[0]):
            self.names[e.word] = it
            found = self.value(e.parts[1])
            if e.form == "sum":
                assert isinstance(found, int)
                total = wrapped(total + found)
            elif found:
                return it if e.form == "first" else True
        nothing: Dict[str, Value] = {"sum": total, "first": None, "exists": False}
        return nothing[e.form]

    def binary(self, e: Expr) -> Value:
        left = self.value(e.parts[0])
        if e.word in ("&&", "||"):
            return self.value(e.parts[1]) if left is (e.word == "&&") else left
        right = self.value(e.parts[1])
        if e.word in ("==", "!="):
            return (left is right if isinstance(left, Node) or isinstance(right, Node) else left == right) is (e.word == "==")
        if isinstance(left, str):
            return self.joined(left + str(right))
        assert isinstance(left, int) and isinstance(right, int)
        return self.computed(left, e.word, right)

    def joined(self, text: str) -> str:
        if length(text) > LONGEST:
            raise self.fault("long")
        return text

    def computed(self, left: int, operator: str, right: int) -> Value:
        if operator in ("/", "%") and right == 0:
            raise self.fault("zero")
        return COMPUTED[operator](left, right)

    def call(self, e: Expr) -> Value:
        """Of a call: an accessor, a comparison of texts, or an attribute."""
        if e.word == "equals":
            return self.value(e.parts[0]) == self.value(e.parts[1])
        if e.word in self.specification.names:
            return self.asked.demand(self.called(e))
        receiver, given = self.value(e.parts[0]), [self.number(it) for it in e.parts[1:]]
        if not isinstance(receiver, Node):
            raise self.fault("null")
        return self.accessed(receiver, e.word, given)

    def called(self, e: Expr) -> Instance:
        """The instance that is called: the receiver and the arguments come first, and then whether it is null."""
        receiver, given = self.value(e.parts[0]), tuple([self.passed(it) for it in e.parts[1:]])
        if not isinstance(receiver, Node):
            raise self.fault("null")
        return receiver, e.word, given

    def passed(self, e: Expr) -> Value:
        """An argument: of what is computed an int isn't too far from 0, and a text not too long. Raises Fault."""
        found = self.value(e)
        is_far = isinstance(found, int) and e.form != "literal" and not -MOST - 1 <= found <= MOST
        if is_far or (isinstance(found, str) and length(found) > PASSED):
            raise self.fault("long")
        return found

    def accessed(self, node: Node, word: str, given: List[int]) -> Value:
        """What an accessor gives, but for that of a list as a whole."""
        front, part = self.accessor(node, word)
        found = node.cell(part)
        if front == "has":
            return found is not None
        if isinstance(found, list):
            if front == "getNum":
                return len(found)
            if not 0 <= given[0] < len(found):
                raise self.fault("index")
            return found[given[0]]
        if found is None:
            raise self.fault("absent")
        return found

    def accessor(self, node: Node, word: str) -> Tuple[str, str]:
        """The accessor's front, and the component of which it is."""
        grammar = self.specification.grammar
        for part in grammar.named[node.kind]:
            found = {f"get{part}": "get", f"getNum{part}": "getNum", f"get{part}List": "list", f"has{part}": "has"}.get(word)
            if found:
                return found, part
        assert word not in grammar.accessors and word.endswith("s"), f"{node.kind} has no {word}"
        return "list", word[len("get"):-1]


VALUES: Dict[str, Callable[[Evaluation, Expr], Value]] = {
    "literal": Evaluation.literal, "name": Evaluation.name, "choice": Evaluation.choice, "not": Evaluation.negated,
    "minus": Evaluation.minus, "is": Evaluation.is_of, "cast": Evaluation.cast, "binary": Evaluation.binary, "call": Evaluation.call,
    **dict.fromkeys(("exists", "first", "sum"), Evaluation.folded),
}
COMPUTED: Dict[str, Callable[[int, int], Value]] = {
    "+": lambda a, b: wrapped(a + b), "-": lambda a, b: wrapped(a - b), "*": lambda a, b: wrapped(a * b),
    "/": lambda a, b: wrapped(divided(a, b)), "%": lambda a, b: wrapped(a - divided(a, b) * b),
    "<": lambda a, b: a < b, "<=": lambda a, b: a <= b, ">": lambda a, b: a > b, ">=": lambda a, b: a >= b,
}
