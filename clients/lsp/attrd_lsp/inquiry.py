"""Questions to attrd, and inquiries that are made of them.

An inquiry is a generator: it yields questions, is sent their answers in the same order, and returns what it found. So it
knows nothing of how questions are sent, and between two of its steps an edit can come in, which ends it."""
from __future__ import annotations

from typing import Generator, List, NamedTuple, Optional, Tuple, TypeVar, Union

from attrd.replies import AskValue, Circular, Fault, Memory, RefusedReply, Value, read_value

T = TypeVar("T")
Answer = Union[Value, Fault, Circular, RefusedReply, Memory]


class Question(NamedTuple):
    """The value of an attribute of the node of that path, with these arguments: texts, paths of nodes, and null."""

    path: str
    attribute: str
    arguments: Tuple[AskValue, ...] = ()


class Kept(List[Question]):
    """Questions whose answers the program keeps, or what they rest on: they take no time to speak of, and are asked at once."""


Inquiry = Generator[List[Question], List[Answer], T]


class NoAnswer(Exception):
    """A question that an inquiry rests on has no value; the text says why."""


def node_in(answer: Answer) -> Optional[str]:
    """The path of the node that is the answer, and None for `null`. Raises NoAnswer where there is no value."""
    if not isinstance(answer, Value):
        raise NoAnswer(why_not(answer))
    return answer.text if answer.text.startswith("/") else None


def text_in(answer: Answer) -> str:
    """The text that is the answer. Raises NoAnswer where there is no value, or no text."""
    value = read_value(answer.text) if isinstance(answer, Value) else None
    if not isinstance(value, str):
        raise NoAnswer(why_not(answer))
    return value


def why_not(answer: Answer) -> str:
    """Why the answer isn't the value that is wanted, in a sentence."""
    if isinstance(answer, Circular):
        return f"`{answer.attribute}` depends on itself"
    if isinstance(answer, Fault):
        return f"the evaluation of `{answer.attribute}` met the fault `{answer.kind.value}`"
    if isinstance(answer, Memory):
        return "attrd has no memory for this question"
    return f"attrd answers: {answer}"
