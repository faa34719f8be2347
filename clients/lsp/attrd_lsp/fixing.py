"""Quick fixes: a text for the place of an error or a warning, told by an attribute of its node."""
from __future__ import annotations

from typing import Iterable, List, NamedTuple

from attrd.replies import Value, read_value

from .inquiry import Inquiry, Question
from .problems import Problem
from .source import Source


class Fix(NamedTuple):
    """The text that is to stand where a problem is told."""

    problem: Problem
    text: str


def find_fixes(source: Source, problems: Iterable[Problem]) -> Inquiry[List[Fix]]:
    """The fixes of these problems, where an attribute tells one."""
    asked = []
    for problem in problems:
        spot = source.spot(problem.path)
        attribute = None if spot is None else source.of_class(source.language.fixes, spot.phrase.kind)
        if attribute is not None:
            asked.append((problem, Question(problem.path, attribute)))
    answers = yield [question for _, question in asked]
    values = [read_value(it.text) if isinstance(it, Value) else None for it in answers]
    return [Fix(problem, value) for (problem, _), value in zip(asked, values) if isinstance(value, str) and value]
