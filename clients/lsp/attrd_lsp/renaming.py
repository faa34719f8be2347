"""Another name for a declaration and all names that mean it, tried on the program's tree before the editor is told."""
from __future__ import annotations

from typing import Dict, List, Mapping, NamedTuple, Optional, Tuple

from .desk import Desk
from .inquiry import Answer, Inquiry
from .meaning import find_meanings, find_references, meant
from .positions import Span
from .problems import Known, Problem, find_problems
from .source import Source, Spot


class CannotRename(Exception):
    """A name can't get this other name; the text says why."""


# Where a new name is to stand, by files.
Places = Dict[str, List[Span]]


class Wish(NamedTuple):
    """That what the name at this place means gets another name."""

    file: str
    offset: int
    name: str


def find_renaming(desk: Desk, texts: Mapping[str, str], source: Source, known: Known, wish: Wish) -> Inquiry[Places]:
    """Where the new name is to stand; `known` tells where problems were at the last check.

    The renamed files are shown to the program: each name with the old or the new text has to mean what it meant before, and no
    error may come. Raises CannotRename where that isn't so, and NoAnswer and AttrdError as questions do."""
    new = wish.name
    check_name(source, new)
    found = yield from find_references(source, wish.file, wish.offset)
    if found is None:
        raise CannotRename("no name that is declared in a file stands here")
    places: Places = {}
    for it in (found[0], *found[1]):
        places.setdefault(it.file, []).append(it.name)
    new_texts = {it: renamed(texts[it], spans, new) for it, spans in places.items()}
    tried = with_texts(source, new_texts, new)
    names = names_like(source, found[0], new)
    before = yield from find_meanings(source, names)
    errors = yield from errors_of(desk, source, known)
    desk.try_tree(tried.tree)
    try:
        after = yield from find_meanings(source, names)
        come = yield from errors_of(desk, tried, known)
    finally:
        desk.show(source.tree)
    check_meanings(texts, names, before, after)
    check_errors({**texts, **new_texts}, errors, come)
    return places


def check_name(source: Source, new: str) -> None:
    """Raises CannotRename where no name of a program may be so, or a text can't be read."""
    if not source.language.is_name(new):
        raise CannotRename(f"'{new}' is no name")
    if not source.is_good:
        raise CannotRename("the file can't be parsed; names can be changed when it can")


def names_like(source: Source, declaration: Spot, new: str) -> List[Spot]:
    """The names whose meaning might change where the declaration gets the new name: those with the one text or the other."""
    texts = dict.fromkeys((declaration.phrase.identifier, new))
    return [it for name in texts for it in source.named(name) if source.meanings(it)]


def renamed(text: str, spans: List[Span], new: str) -> str:
    """The text with the new name at all these places."""
    parts, end = [], 0
    for span in sorted(spans):
        parts += [text[end : span.start], new]
        end = span.end
    return "".join([*parts, text[end:]])


def with_texts(source: Source, texts: Mapping[str, str], new: str) -> Source:
    """The files with these texts. Raises CannotRename where they can't be read then."""
    for file, text in texts.items():
        source = source.with_file(file, text)
    if not source.is_good:
        raise CannotRename(f"the file can't be parsed with '{new}' in it")
    return source


def check_meanings(texts: Mapping[str, str], names: List[Spot], before: List[Tuple[Answer, ...]], after: List[Tuple[Answer, ...]]) -> None:
    """Raises CannotRename for the first of these names that would mean something else."""
    for name, old, new in zip(names, before, after):
        if old != new and (meant(old) != meant(new) or meant(old) is None):
            raise CannotRename(f"'{name.phrase.identifier}' in line {line_of(texts, name.file, name.span)} would mean something else")


def errors_of(desk: Desk, source: Source, known: Known) -> Inquiry[Optional[List[Problem]]]:
    """The errors of the tree; None where the language tells none."""
    if desk.checks is None:
        return None
    found = yield from find_problems(source, desk.checks, known)
    return [it for it in found if it.is_error]


def check_errors(texts: Mapping[str, str], before: Optional[List[Problem]], after: Optional[List[Problem]]) -> None:
    """Raises CannotRename for the first error that comes with the new name; those that stay may tell it in the place of the old one."""
    known = {it.path for it in before or ()}
    come = next((it for it in after or () if it.path not in known), None)
    if come is not None:
        raise CannotRename(f"an error would come in line {line_of(texts, come.file, come.span)}: {come.text}")


def line_of(texts: Mapping[str, str], file: str, span: Span) -> int:
    """The line in which the span begins, from 1. A name has no line end, so lines stay where names change."""
    return texts[file].count("\n", 0, span.start) + 1
