"""Names that would mean something at a place: each declared name is asked of the attributes by which names are looked up there."""
from __future__ import annotations

import re
from typing import Dict, List, Mapping, NamedTuple, Optional, Sequence

from .desk import Desk
from .inquiry import Inquiry, Question
from .meaning import meant, name_of, title_of
from .source import Source, Spot

# How many names are asked for at most.
MOST = 200
WORD_END, WORD_START = re.compile(r"\w*\Z"), re.compile(r"\w*")
# What stands for a name that isn't typed yet.
UNTYPED = "zz"


class Completion(NamedTuple):
    """A name that would mean something, and what: the protocol's number for its kind of symbol, where it has one, and its title.

    A word of the language has neither."""

    name: str
    kind: Optional[int]
    title: str


class Completions(NamedTuple):
    """What may be typed at a place; `is_all` is False where there are more names than are asked for."""

    found: List[Completion]
    is_all: bool


def find_completions(desk: Desk, texts: Mapping[str, str], source: Source, file: str, offset: int) -> Inquiry[Completions]:
    """What may be typed at the offset of the file.

    Where no name stands there, or the file has faults, it is read with one, as far as that goes, and shown to the program meanwhile.
    Raises NoAnswer and AttrdError as questions do."""
    text = texts[file]
    typed = (WORD_END.search(text[:offset]) or [""])[0]
    start = offset - len(typed)
    if typed and source.is_good:
        return (yield from completions_in(source, file, start, typed))
    behind = WORD_START.match(text, offset)
    changed = text[:start] + (typed or UNTYPED) + text[behind.end() if behind else offset :]
    tried = source.with_file(file, changed, holds=False)
    desk.try_tree(tried.tree)
    try:
        return (yield from completions_in(tried, file, start, typed))
    finally:
        desk.show(source.tree)


def completions_in(source: Source, file: str, start: int, typed: str) -> Inquiry[Completions]:
    """What may stand in the place of the name that begins there; so much of it is typed."""
    spot = source.at(file, start + 1)
    lookups: Sequence[str] = ()
    while spot is not None and not lookups:
        lookups = source.of_class(source.language.lookup, spot.phrase.kind) or ()
        spot = spot if lookups else source.above(spot)
    words = [Completion(it, None, "") for it in source.language.words if typed and it.startswith(typed) and it != typed]
    if spot is None:
        return Completions(words, True)
    names = [it for it in declared_names(source) if it.casefold().startswith(typed.casefold()) and (typed or it != UNTYPED)]
    found = yield from seen_names(source, spot, lookups, names[:MOST])
    return Completions(found + words, len(names) <= MOST)


def seen_names(source: Source, spot: Spot, lookups: Sequence[str], names: List[str]) -> Inquiry[List[Completion]]:
    """Those of the names that mean something at the phrase, by these attributes."""
    answers = iter((yield [Question(spot.path, it, (name,)) for name in names for it in lookups]))
    found: Dict[str, str] = {}
    for name in names:
        path = meant(tuple(next(answers) for _ in lookups))
        if path is not None:
            found[name] = path
    return [completion(source, name, path) for name, path in found.items()]


def completion(source: Source, name: str, path: str) -> Completion:
    """What a name means that leads to the node of that path."""
    target = source.spot(path)
    return Completion(name, None if target is None else source.symbol_kind(target), title_of(source, path))


def declared_names(source: Source) -> List[str]:
    """The names of all declarations, also of those that stand in no text, in the order of the alphabet."""
    listed = source.language.listed
    names = {name_of(source, f"/{listed.component}:{it}") for it in range(len(listed.before))} if listed is not None else set()
    for number in range(source.count):
        piece = source.piece(number)
        names.update(name for name, paths in piece.named.items() if any(source.declares(number, it) for it in paths))
    return sorted(names)
