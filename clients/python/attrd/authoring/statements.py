"""What bodies of statements mean: expressions, as the program rewrites them."""
from __future__ import annotations

from dataclasses import dataclass, replace
from typing import List, Optional, Sequence, Tuple, Union

from ..scanning import Word
from .aspect_tree import Binding, Expression, Form


@dataclass(eq=False)
class Choice:
    """`if (condition) then else other`; where no `else` is written, `other` is an empty block."""

    word: Word
    condition: Expression
    then: Statement
    other: Statement


@dataclass(eq=False)
class Each:
    """`for (K name : list) inner`: the name is bound among the list's elements."""

    word: Word
    binding: Binding
    inner: Statement


# `return E;` is its expression, a block its statements.
Statement = Union[Expression, Choice, Each, List["Statement"]]


def meaning(statement: Statement, rest: Optional[Expression]) -> Optional[Expression]:
    """The expression that a statement means in front of what the rest does; None where the end can be reached."""
    if isinstance(statement, Expression):
        return statement
    if isinstance(statement, Choice):
        sides = [meaning(it, rest) for it in (statement.then, statement.other)]
        return None if None in sides else _made(Form.CHOICE, statement.word, [statement.condition, *(it for it in sides if it is not None)])
    if isinstance(statement, Each):
        return _sought(statement, rest)
    for it in reversed(statement):
        rest = meaning(it, rest)
    return rest


def searched(each: Each) -> Optional[Tuple[Expression, Expression]]:
    """The test and the value of a loop that looks for an element, by `if (test) return value;`; None of any other loop."""
    inner = _alone(each.inner)
    if not isinstance(inner, Choice) or inner.other != []:
        return None
    value = _alone(inner.then)
    is_plain = isinstance(value, Expression) and all(it.form is not Form.FOLD for it in value.all())
    return (inner.condition, value) if is_plain and isinstance(value, Expression) else None


def _alone(statement: Statement) -> Statement:
    """A statement out of the blocks in which it stands alone."""
    while isinstance(statement, list) and len(statement) == 1:
        statement = statement[0]
    return statement


def _sought(each: Each, rest: Optional[Expression]) -> Optional[Expression]:
    found = searched(each)
    if rest is None or found is None or each.binding.among is None:
        return None
    test, value = found
    some, first = (_made(Form.FOLD, Word("reserved", it, each.word.at), [each.binding.among, test]) for it in ("exists", "first"))
    if value.form is Form.CONSTANT and value.word.text == "true":
        return _made(Form.BINARY, Word("sign", "||", each.word.at), [some, rest])
    if value.form is Form.CONSTANT and value.word.text == "false":
        none = _made(Form.UNARY, Word("sign", "!", each.word.at), [some])
        return _made(Form.BINARY, Word("sign", "&&", each.word.at), [none, rest])
    is_element = value.form is Form.NAME and value.word.text == each.binding.name.text
    if is_element and rest.form is Form.CONSTANT and rest.word.text == "null":
        return first
    return _made(Form.CHOICE, each.word, [some, with_name(value, each.binding.name.text, first), rest])


def with_name(value: Expression, name: str, other: Expression) -> Expression:
    """The expression with another one in the place of a name."""
    if value.form is Form.NAME and value.word.text == name:
        return other
    return replace(value, parts=[with_name(it, name, other) for it in value.parts])


def _made(form: Form, word: Word, parts: Sequence[Expression]) -> Expression:
    """An expression that stands in no text, told at the word of its statement."""
    return Expression(form, word.at, word.end, word, list(parts), parts[0].bound)
