"""Why what hover shows is what it is: the equation, what it looked at and what it asked, with places in the text.

Where an equation hands on what it asked last, as that of a name does with its declaration's value, the reason of that
follows, as far as there is room: what a hover tells, asks and looks at is bounded."""
from __future__ import annotations

from pathlib import Path as FilePath
from typing import Dict, Generator, List, Mapping, NamedTuple, Optional

import attrd
from attrd import Bounds, Instance, NoReason, Path, Reason, Why
from attrd.evaluating import Look
from attrd.replies import AskValue, Circular, Fault, Value
from attrd.why import written

from .desk import Desk
from .inquiry import Answer, Inquiry, NoAnswer, Question, why_not
from .meaning import Hover, find_hover, hovered, name_of
from .positions import Text
from .source import Source, Spot

# So many lines are told behind the value, and so many characters of each, and of a node's text.
LINES, WIDTH, SHORT = 10, 110, 30
# So many questions are asked, and at so many places of the tree is looked here for one equation.
QUESTIONS, LOOKS = 24, 300


class Words(NamedTuple):
    """Tells nodes and values to who reads a file: places in it as LINE:COLUMN, behind a file's name those in others."""

    source: Source
    texts: Mapping[str, Text]
    file: str

    def reason(self, reason: Reason) -> List[str]:
        """The equation, what it looked at and what it asked, a line for each."""
        lines = [f"{reason.place}: {reason.head} = {' '.join(reason.equation.split())}"]
        lines += [f"  {name} = {value}" for name, value in reason.bound.items() if type(value) is int]
        lines += [f"  {self.node(it.path)}: {looked(it)}" for it in reason.looks if not isinstance(it.value, Path)]
        lines += [f"  {self.node(it.instance.path)}: {self.answer(it.instance, it.answer)}" for it in reason.steps]
        is_told = bool(reason.steps) and not isinstance(reason.steps[-1].answer, Value)
        return [*lines, *([f"  {reason.stopped}"] if reason.stopped and not is_told else [])]

    def answer(self, instance: Instance, answer: attrd.Answer) -> str:
        """An attribute with its arguments and its value."""
        arguments = ", ".join(map(self.value, instance.arguments))
        told = f"= {self.value(answer.value)}" if isinstance(answer, Value) else f"has no value: {why_not(answer)}"
        return f"{instance.attribute}({arguments}) {told}"

    def value(self, value: AskValue) -> str:
        """A value: a node by its name, with its place behind it."""
        if not isinstance(value, Path):
            return written(value)
        spot = self.source.spot(str(value))
        return name_of(self.source, str(value)) if spot is None else f"{self.shown(spot)} at {self.place(spot)}"

    def node(self, path: Path) -> str:
        """A node by its name, with its place before it."""
        spot = self.source.spot(str(path))
        return name_of(self.source, str(path)) if spot is None else f"{self.place(spot)} {self.shown(spot)}"

    def place(self, spot: Spot) -> str:
        """Where the name of a node stands, or the node that has none."""
        line, character = self.texts[spot.file].position(spot.name.start)
        other = "" if spot.file == self.file else f"{FilePath(spot.file).name}:"
        return f"{other}{line + 1}:{character + 1}"

    def shown(self, spot: Spot) -> str:
        """The name of a node, or else the text at which it stands."""
        if spot.phrase.name is not None:
            return spot.phrase.identifier
        text = " ".join(self.texts[spot.file].text[spot.span.start : spot.span.end].split())
        return shortened(text, SHORT)


def looked(look: Look) -> str:
    """What was seen of a component that is no child; a child is told where it is asked something."""
    if look.front == "get":
        return f"{look.part} is {written(look.value)}"
    if look.front == "has":
        return f"{look.part} is there" if look.value else f"there is no {look.part}"
    return f"{look.value} of {look.part}" + (" looked at" if look.front == "List" else "")


def shortened(text: str, most: int) -> str:
    """The text, or so much of it that it has at most so many characters."""
    return text if len(text) <= most else text[: most - 1] + "…"


def find_hover_with_reasons(desk: Desk, words: Words, offset: int) -> Inquiry[Optional[Hover]]:
    """What is told of the phrase at that offset, and why, where the language names an attribute. Raises NoAnswer."""
    source = words.source
    spot = hovered(source, words.file, offset)
    attribute = None if spot is None else source.of_class(source.language.why, spot.phrase.kind)
    if spot is None or attribute is None:
        return (yield from find_hover(source, words.file, offset))
    try:
        hover = yield from find_hover(source, words.file, offset)
    except NoAnswer as fault:
        hover = Hover(str(fault), spot.span if spot.phrase.name is None else spot.name)
    reasons = yield from find_reasons(desk, words, Instance(Path.read(spot.path), attribute))
    if attribute == source.of_class(source.language.hover, spot.phrase.kind):
        reasons = reasons[1:]
    lines = [shortened(it, WIDTH) for it in reasons]
    if hover is None:
        return Hover("\n".join(lines), spot.span) if lines else None
    return Hover("\n".join([hover.text, *lines]), hover.span)


def find_reasons(desk: Desk, words: Words, instance: Instance) -> Inquiry[List[str]]:
    """The value of an instance, and some lines that tell where it comes from; one alone where that can't be told."""
    why = Why(desk.specification, desk.tree)
    known: Dict[Instance, Answer] = {}
    seen: List[Instance] = []
    lines: List[str] = []
    following: Optional[Instance] = instance
    while following is not None and following not in seen:
        seen.append(following)
        left = QUESTIONS - len(known) - (following not in known)
        try:
            reason = yield from found_reason(why.reason(following, Bounds(left, LOOKS)), known)
        except (NoReason, NoAnswer) as fault:
            return lines or [f"why {following.attribute}() is what it is isn't known: {fault}"]
        lines = lines or [words.answer(reason.instance, reason.answer)]
        lines += words.reason(reason)
        following = handed_on(reason)
        goes_on = following is not None and following not in seen
        if len(lines) > LINES + 1 or (goes_on and len(known) >= QUESTIONS):
            return cut(lines, goes_on)
    return lines


def cut(lines: List[str], goes_on: bool) -> List[str]:
    """As many of these lines as there is room for, the last one of which tells that there are more."""
    left = len(lines) - LINES
    more = [f"{left} more"] * (left > 0) + ["and so on"] * goes_on
    return [*lines[:LINES], f"  … {', '.join(more)}"]


def found_reason(
    asking: Generator[Instance, attrd.Answer, Reason], known: Dict[Instance, Answer]
) -> Inquiry[Reason]:
    """The reason at the end of what is asked, but for what is known. Raises NoReason, and NoAnswer where none comes."""
    try:
        wanted = next(asking)
        while True:
            if wanted not in known:
                (known[wanted],) = yield [Question(str(wanted.path), wanted.attribute, wanted.arguments)]
            answer = known[wanted]
            if not isinstance(answer, (Value, Fault, Circular)):
                raise NoAnswer(why_not(answer))
            wanted = asking.send(answer)
    except StopIteration as end:
        found: Reason = end.value
        return found


def handed_on(reason: Reason) -> Optional[Instance]:
    """The instance whose value the equation handed on: that which it asked last, where that has the same answer."""
    last = reason.steps[-1] if reason.steps else None
    return last.instance if last is not None and last.answer == reason.answer else None
