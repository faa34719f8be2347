"""What the names of a tree mean, by the attributes that the language names."""
from __future__ import annotations

from typing import List, NamedTuple, Optional, Sequence, Tuple

from attrd.replies import Value, read_value

from .inquiry import Answer, Inquiry, NoAnswer, Question, node_in, why_not
from .positions import Span
from .source import Source, Spot


class Hover(NamedTuple):
    """What is told of a phrase, and where that stands."""

    text: str
    span: Span


def word_at(source: Source, file: str, offset: int) -> Optional[Spot]:
    """The phrase whose name stands at that offset: a declaration, or a name that may mean one."""
    spot = source.at(file, offset)
    while spot is not None and not (spot.phrase.name is not None and spot.name.holds(offset)):
        spot = source.above(spot)
    return spot if spot is not None and (source.symbol_kind(spot) is not None or source.meanings(spot)) else None


def find_meanings(source: Source, words: Sequence[Spot]) -> Inquiry[List[Tuple[Answer, ...]]]:
    """For each of these names what its attributes answer, as `meant` takes it."""
    asked = [[Question(word.path, it) for it in source.meanings(word)] for word in words]
    answers = iter((yield [question for questions in asked for question in questions]))
    return [tuple(next(answers) for _ in questions) for questions in asked]


def meant(answers: Tuple[Answer, ...]) -> Optional[str]:
    """The path of the declaration that a name means: the first answer that is a node. None where there is none."""
    return next((it.text for it in answers if isinstance(it, Value) and it.text.startswith("/")), None)


def meant_by(source: Source, word: Spot) -> Inquiry[Optional[str]]:
    """The path of the declaration that the word means or is; None where it means none. Raises NoAnswer."""
    if source.symbol_kind(word) is not None:
        return word.path
    (answers,) = yield from find_meanings(source, [word])
    found = meant(answers)
    wrong = next((it for it in answers if not isinstance(it, Value)), None)
    if found is None and wrong is not None:
        raise NoAnswer(why_not(wrong))
    return found


def find_definition(source: Source, file: str, offset: int) -> Inquiry[Optional[Spot]]:
    """The declaration of the name at that offset; None where there is none in the text. Raises NoAnswer."""
    word = word_at(source, file, offset)
    path = None if word is None else (yield from meant_by(source, word))
    return None if path is None else source.spot(path)


def find_references(source: Source, file: str, offset: int) -> Inquiry[Optional[Tuple[Spot, List[Spot]]]]:
    """The declaration of the name at that offset, and all names that mean it; None where it has none. Raises NoAnswer."""
    declaration = yield from find_definition(source, file, offset)
    if declaration is None:
        return None
    uses = [it for it in source.named(declaration.phrase.identifier) if source.meanings(it)]
    answers = yield from find_meanings(source, uses)
    return declaration, [it for it, told in zip(uses, answers) if meant(told) == declaration.path]


def hovered(source: Source, file: str, offset: int) -> Optional[Spot]:
    """The innermost phrase at that offset; of a declaration only its name stands for it."""
    spot = source.at(file, offset)
    if spot is None or (source.symbol_kind(spot) is not None and not spot.name.holds(offset)):
        return None
    return spot


def find_hover(source: Source, file: str, offset: int) -> Inquiry[Optional[Hover]]:
    """What is told of the phrase at that offset: a declaration, or what an attribute answers. Raises NoAnswer."""
    spot = hovered(source, file, offset)
    if spot is None:
        return None
    span = spot.span if spot.phrase.name is None else spot.name
    attribute = source.of_class(source.language.hover, spot.phrase.kind)
    if attribute is not None:
        (answer,) = yield [Question(spot.path, attribute)]
        return Hover(hover_text(source, spot, attribute, answer), span)
    is_named = source.symbol_kind(spot) is not None or source.meanings(spot)
    path = (yield from meant_by(source, spot)) if is_named else None
    return None if path is None else Hover(title_of(source, path), span)


def hover_text(source: Source, spot: Spot, attribute: str, answer: Answer) -> str:
    """What an attribute's answer tells of the phrase: a text as it is, a node and all else behind the phrase's name.

    Raises NoAnswer where there is no value."""
    path = node_in(answer)
    if attribute in source.meanings(spot) and path is not None:
        return title_of(source, path)
    value = read_value(answer.text) if isinstance(answer, Value) and path is None else None
    if isinstance(value, str):
        return value
    named = f"{spot.phrase.identifier}: " if spot.phrase.name is not None else ""
    if path is not None:
        return named + name_of(source, path)
    return named + (f"no {attribute} is known" if value is None else answer.text if isinstance(answer, Value) else "")


def name_of(source: Source, path: str) -> str:
    """The name of the node of that path: its own, or the first of its texts, or that of its class."""
    spot = source.spot(path)
    if spot is not None and spot.phrase.name is not None:
        return spot.phrase.identifier
    node = spot.phrase.tree if spot is not None else source.node(path)
    return path if node is None else next((it for it in node.cells if isinstance(it, str)), node.name)


def title_of(source: Source, path: str) -> str:
    """How the declaration of that path is shown: as the language says, or by the first line of its text."""
    spot = source.spot(path)
    if spot is None:
        return name_of(source, path)
    if source.language.title is not None:
        return source.language.title(spot.phrase)
    read = source.piece(source.number(path)[0]).text[spot.phrase.span[0] : spot.phrase.span[1]]
    return read.strip().split("\n")[0].rstrip()
