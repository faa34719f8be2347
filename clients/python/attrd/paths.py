"""Paths from the root, and places: a path, or steps from a mark."""
from __future__ import annotations

import re
from dataclasses import dataclass
from typing import NamedTuple, Optional, Tuple

from .errors import SyntaxFault, text_of
from .lexical import is_name

_INDEX = re.compile(r"(?:0|[1-9][0-9]{0,8})\Z")


class Step(NamedTuple):
    """A component's name, with an index where it is a list."""

    part: str
    index: Optional[int] = None  # type: ignore[assignment]

    def __str__(self) -> str:
        return self.part if self.index is None else f"{self.part}:{self.index}"


def _read_step(what: str, text: str, at: int, word: str) -> Step:
    part, colon, index = word.partition(":")
    if not is_name(part):
        raise SyntaxFault(what, text, at, "a step has no name that may be one")
    if not colon:
        return Step(part)
    if not _INDEX.match(index):
        raise SyntaxFault(what, text, at + len(part) + 1, "an index is a decimal of at most nine digits, without leading zeros")
    return Step(part, int(index))


def _read_steps(what: str, text: str, at: int) -> Tuple[Step, ...]:
    steps = []
    for word in text[at:].split("/"):
        steps.append(_read_step(what, text, at, word))
        at += len(word) + 1
    return tuple(steps)


@dataclass(frozen=True, repr=False)
class Path:
    """A path from the root: `Path()` is the root itself."""

    steps: Tuple[Step, ...] = ()

    @staticmethod
    def read(text: str) -> Path:
        """The path that the text spells. Raises SyntaxFault."""
        if text_of("a path", text) == "/":
            return Path()
        if not text.startswith("/"):
            raise SyntaxFault("path", text, 0, "a path begins with /")
        return Path(_read_steps("path", text, 1))

    def child(self, part: str, index: Optional[int] = None) -> Path:
        """The path of a child, or of an element of a list."""
        return Path(self.steps + (Step(part, index),))

    @property
    def parent(self) -> Path:
        """The path without its last step; the root's is the root's."""
        return Path(self.steps[:-1])

    def is_below(self, other: Path) -> bool:
        """Whether the path leads to the other one's node, or below it."""
        return self.steps[:len(other.steps)] == other.steps

    def __truediv__(self, step: str) -> Path:
        return Path(self.steps + _read_steps("path", text_of("a step", step), 0))

    def __str__(self) -> str:
        return "/" + "/".join(map(str, self.steps))

    def __repr__(self) -> str:
        return f"<Path {self}>"


@dataclass(frozen=True, repr=False)
class FromMark:
    """Steps from a marked node: `$u/Left`."""

    mark: str
    steps: Tuple[Step, ...] = ()

    @staticmethod
    def read(text: str) -> FromMark:
        """The place that the text spells. Raises SyntaxFault."""
        mark, slash, _ = text_of("a place", text)[1:].partition("/")
        if not text.startswith("$") or not is_name(mark):
            raise SyntaxFault("place", text, 0, "a place is a path, or $ and the name of a mark")
        return FromMark(mark, _read_steps("place", text, len(mark) + 2) if slash else ())

    def __truediv__(self, step: str) -> FromMark:
        return FromMark(self.mark, self.steps + _read_steps("place", text_of("a step", step), 0))

    def __str__(self) -> str:
        return "/".join(["$" + self.mark, *map(str, self.steps)])

    def __repr__(self) -> str:
        return f"<FromMark {self}>"
