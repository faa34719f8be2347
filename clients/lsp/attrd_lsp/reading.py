"""A file as parts that are read each by itself: what the tree has of each, and where that stands.

A part whose text is as it was is not read again. A part that can't be parsed keeps the tree of its last good text; its
nodes stand then where that text went, as far as it can be told. A language that isn't split has one part, the whole file."""
from __future__ import annotations

import traceback
from dataclasses import dataclass, field
from functools import cached_property
from pathlib import Path
from typing import Dict, List, NamedTuple, Optional, Tuple, TypeVar

import attrd

from .language import Language
from .phrases import Fault, Parsed, Phrase, misfit, misplaced, moved, with_child
from .positions import Marks, Span, carried

T = TypeVar("T")
# How deep the tree of a part may be of which no more is read than what has changed.
DEEPEST_AGAIN = 100
# How many of the phrases around a change are tried to be read by themselves.
TRIED = 2


@dataclass(frozen=True)
class Piece:
    """The text of one part, and what was read of it. `trouble` is why the parser's answer can't be used."""

    text: str
    phrase: Optional[Phrase]
    faults: Tuple[Fault, ...]
    trouble: Optional[str]
    met: Dict[str, Optional[Phrase]] = field(default_factory=dict, compare=False, repr=False)

    @classmethod
    def of(cls, text: str, parsed: Parsed, trouble: Optional[str]) -> Piece:
        """What was read of the text."""
        return cls(text, parsed.phrase, tuple(parsed.faults), trouble)

    @cached_property
    def phrases(self) -> Dict[str, Phrase]:
        """All phrases by their paths from the part, in the order of the text."""
        return {} if self.phrase is None else with_paths(self.phrase)

    @cached_property
    def named(self) -> Dict[str, List[str]]:
        """The paths of the phrases that have names, by these."""
        found: Dict[str, List[str]] = {}
        for path, it in self.phrases.items():
            if it.identifier:
                found.setdefault(it.identifier, []).append(path)
        return found

    def at(self, path: str) -> Optional[Phrase]:
        """The phrase of that path from the part; None where none is there. The others aren't looked at."""
        if path not in self.met:
            it = self.phrase
            for step in path.split("/")[1:]:
                it = None if it is None else it.child(step)
            self.met[path] = it
        return self.met[path]

    @cached_property
    def is_good(self) -> bool:
        """Whether the text was read without a fault."""
        return not self.faults and self.trouble is None

    @property
    def name(self) -> str:
        """The name of the part, and an empty one where it has none."""
        return "" if self.phrase is None else self.phrase.identifier


def with_paths(phrase: Phrase) -> Dict[str, Phrase]:
    """The phrase and all below it by their paths from it, in the order of the text; its own path is empty."""
    found: Dict[str, Phrase] = {}
    waiting = [("", phrase)]
    while waiting:
        path, it = waiting.pop()
        found[path] = it
        waiting.extend((f"{path}/{step}", child) for step, child in reversed(it.children))
    return found


@dataclass(frozen=True)
class Reader:
    """Reads texts of a language. Trees have to fit the grammar, where it is known."""

    language: Language
    grammar: Optional[attrd.Grammar] = None

    def piece(self, text: str) -> Piece:
        """What the parser reads of the text of one part. Whatever it raises is told in its own words."""
        try:
            parsed = self.language.parse(text)
            trouble = self.trouble_with(parsed, len(text))
        except Exception as fault:  # noqa: BLE001  the parser is anybody's
            parsed, trouble = Parsed(None, []), failed(fault)
        return Piece.of(text, parsed if trouble is None else Parsed(None, []), trouble)

    def again(self, old: Piece, text: str, stretch: Stretch) -> Optional[Piece]:
        """What is read of the text of a part in which a stretch has changed, where a phrase around that can be read by itself and is of the
        same class again: the innermost one, or the next. None where the text has to be read as a whole."""
        around = phrases_around(old.phrase, stretch.old) if old.is_good and old.phrase is not None else []
        if not around or around[0][0].tree.depth > DEEPEST_AGAIN:
            return None
        alone = [it for it, (phrase, _) in enumerate(around) if phrase.kind in self.language.again]
        for last in alone[: -TRIED - 1 : -1]:
            inner = around[last][0]
            found = self.read_alone(inner, text[inner.span[0] : inner.span[1] + stretch.moved])
            if found is not None and found.tree.depth <= DEEPEST_AGAIN:
                return Piece(text, with_inner(around[: last + 1], found, stretch), (), None)
        return None

    def read_alone(self, inner: Phrase, text: str) -> Optional[Phrase]:
        """What is read of the text of a phrase by itself; None where that has a fault, or isn't a phrase of all of it of the same class."""
        try:
            found, faults = self.language.again[inner.kind](text)
        except Exception:  # noqa: BLE001  the whole part is read then, where it is told
            return None
        if found is None or faults or found.span != (0, len(text)) or found.kind != inner.kind or misplaced(found, len(text)):
            return None
        return None if self.grammar is not None and misfit(self.grammar, found, inner.kind) else found

    def trouble_with(self, parsed: Parsed, length: int) -> Optional[str]:
        """Why the parser's answer can't be used; None where it can."""
        found, faults = parsed
        wrong = next((it for it in faults if not 0 <= it.span.start <= it.span.end <= length), None)
        if wrong is not None:
            return f"the parser tells a fault at {wrong.span.start} to {wrong.span.end}, which isn't in the text: {wrong.text}"
        if found is None:
            return None
        where = misplaced(found, length)
        if where is not None:
            return f"the parser tells places that can't be: {where}"
        what = None if self.grammar is None else misfit(self.grammar, found, self.wanted(self.grammar))
        return None if what is None else f"the parser's tree doesn't fit the grammar: {what}"

    def wanted(self, grammar: attrd.Grammar) -> str:
        """The class of what the parser reads."""
        return grammar.start if self.language.listed is None else self.language.listed.element

    @property
    def is_by_line(self) -> bool:
        """Whether each line of a text tells by itself where parts begin in it."""
        listed = self.language.listed
        return listed is not None and listed.starts is not None and listed.is_by_line

    def starts(self, text: str) -> List[int]:
        """Where the parts of a text begin."""
        listed = self.language.listed
        return [0] if listed is None or listed.starts is None else listed.starts(text)

    def front(self, text: str) -> List[Fault]:
        """The faults of a text that stands before the first part."""
        return self.language.listed.front(text) if text and self.language.listed is not None else []


def failed(fault: Exception) -> str:
    """That a parser raised this, and where."""
    place = traceback.extract_tb(fault.__traceback__)[-1]
    return f"the parser fails: {type(fault).__name__}: {fault} ({Path(place.filename).name}, line {place.lineno})"


def phrases_around(top: Phrase, change: Span) -> List[Tuple[Phrase, int]]:
    """The phrases that a change lies within, from the outermost on, each with its index among the children of the one before.

    The first and the last character of each stay."""
    found: List[Tuple[Phrase, int]] = []
    waiting = [(0, top)]
    while waiting:
        index, it = waiting[0]
        found.append((it, index))
        children = enumerate(child for _, child in it.children)
        waiting = [(at, child) for at, child in children if child.span[0] < change.start and change.end < child.span[1]]
    return found


def with_inner(around: List[Tuple[Phrase, int]], new: Phrase, stretch: Stretch) -> Phrase:
    """The outermost one of these phrases, with what was read of the innermost one's text in the place of that."""
    found = moved(new, around[-1][0].span[0])
    for (above, _), (_, index) in zip(around[-2::-1], around[:0:-1]):
        found = with_child(above, index, found, stretch.old, stretch.length)
    return found


class Stretch(NamedTuple):
    """A stretch of an old text, and how many characters of the new one have come in its place. All else is alike."""

    old: Span
    length: int

    @property
    def moved(self) -> int:
        """How many characters further on all behind it stands now."""
        return self.length - (self.old.end - self.old.start)

    def then(self, change: Span, length: int) -> Stretch:
        """The stretch that has this one and a change of the new text in it."""
        before, end = min(self.old.start, change.start), max(self.old.start + self.length, change.end)
        return Stretch(Span(before, end - self.moved), end - before + length - (change.end - change.start))


class Cut(NamedTuple):
    """A text in parts: where each begins, and its text."""

    starts: Marks
    texts: List[str]


def cut_text(text: str, starts: List[int]) -> Cut:
    """The text in the parts that begin there."""
    return Cut(Marks.of(starts), [text[start:end] for start, end in zip(starts, [*starts[1:], len(text)])])


def cut_again(old: Cut, text: str, stretch: Stretch, reader: Reader) -> Tuple[Cut, Tuple[int, int]]:
    """The new text in parts, where each line tells by itself whether one begins in it; how many at the front and at the end are as before.

    So no more than the lines of the stretch are looked at."""
    first = max(text.rfind(it, 0, stretch.old.start) for it in "\r\n") + 1
    ends = [text.find(it, stretch.old.start + stretch.length) for it in "\r\n"]
    last = min([it + 1 for it in ends if it >= 0], default=len(text))
    kept, behind = old.starts.passed(first - 1), old.starts.passed(last - stretch.moved - 1)
    come = [first + it for it in reader.starts(text[first:last])]
    starts = old.starts.replaced(kept, come, behind, stretch.moved)
    alike = max(0, kept - 1), len(old.starts) - behind
    borders = [starts[it] if it < len(starts) else len(text) for it in range(alike[0], kept + len(come) + 1)]
    fresh = [text[start:end] for start, end in zip(borders, borders[1:])]
    return Cut(starts, spliced(old.texts, alike, fresh)), alike


@dataclass(frozen=True)
class Reading:
    """The parts of a file: where the text of each begins, that text, what was read of it and its tree; and all faults.

    `pieces` are texts that were read, and `cut` is the text in all its parts, also those of which the tree has nothing; it is None
    where these can't be told. `kept` is how many parts of the front and of the end the reading before had, where that is known."""

    starts: Marks = field(default_factory=lambda: Marks.of(()))
    texts: List[str] = field(default_factory=list)
    taken: List[Piece] = field(default_factory=list)
    faults: Tuple[Fault, ...] = ()
    trouble: Optional[str] = None
    pieces: Dict[str, Piece] = field(default_factory=dict)
    cut: Optional[Cut] = Cut(Marks.of(()), [])
    kept: Optional[Tuple[int, int]] = None

    @property
    def trees(self) -> List[attrd.Node]:
        """The trees of the parts."""
        return trees_of(self.taken)

    @property
    def is_whole(self) -> bool:
        """Whether the tree has all parts of the text, each as it is."""
        return self.is_good and self.cut is not None and len(self.cut.texts) == len(self.taken)

    @property
    def is_good(self) -> bool:
        """Whether all of it was read without a fault."""
        return not self.faults and self.trouble is None

    def place(self, number: int, span: Span) -> Span:
        """Where a span of what was read of the part of that number stands in the file."""
        old, new, start = self.taken[number].text, self.texts[number], self.starts[number]
        if old == new:
            return Span(start + span[0], start + span[1])
        return Span(start + carried(span[0], old, new), start + carried(span[1], old, new))


def read_file(text: str, old: Reading, reader: Reader, holds: bool = True, stretch: Optional[Stretch] = None) -> Reading:
    """The file with that text, which was `old` before. Where it doesn't hold, a part with faults is what could be read of it.

    `stretch` is what has changed of the text, where that is known."""
    try:
        cut, ends = cut_anew(text, old, reader, stretch)
        starts, texts = cut
        front = reader.front(text[: starts[0]] if starts else text)
    except Exception as fault:  # noqa: BLE001  the language is anybody's
        return unread(old, failed(fault))
    between = texts[ends[0] : len(texts) - ends[1]]
    changed = None if stretch is None else changed_part(old, ends, between, stretch)
    again = None if changed is None else reader.again(old.taken[ends[0]], between[0], changed)
    new = {it: again or old.pieces.get(it) or reader.piece(it) for it in between}
    if old.is_whole and not front and all(it.is_good and it.phrase is not None for it in new.values()):
        fresh = [new[it] for it in between]
        pieces = old.pieces if stretch is not None else dict(old.pieces)
        replace(pieces, old.texts[ends[0] : len(old.texts) - ends[1]], new)
        return Reading(starts, texts, spliced(old.taken, ends, fresh), (), None, pieces, cut, ends)
    pieces = {it: new.get(it) or old.pieces.get(it) or reader.piece(it) for it in texts}
    read = [pieces[it] for it in texts]
    trouble = next((it.trouble for it in read if it.trouble is not None), None)
    faults = front + [Fault(it.text, it.span.moved(start)) for start, piece in zip(starts, read) for it in piece.faults]
    last = last_good(read, old) if holds else {}
    taken = [it if it.is_good else last.get(number, it) for number, it in enumerate(read)]
    numbers = [number for number, it in enumerate(taken) if it.phrase is not None]
    chosen = Marks.of(starts[it] for it in numbers), [texts[it] for it in numbers], [taken[it] for it in numbers]
    return Reading(*chosen, tuple(faults), trouble, pieces, cut)


def changed_part(old: Reading, ends: Tuple[int, int], between: List[str], stretch: Stretch) -> Optional[Stretch]:
    """The stretch that has changed of the one part between the ends; None where it isn't one part, or isn't within it."""
    if not old.is_whole or len(between) != 1 or len(old.taken) - sum(ends) != 1:
        return None
    start = old.starts[ends[0]]
    inner = stretch.old.moved(-start)
    return Stretch(inner, stretch.length) if 0 < inner.start and inner.end < len(old.texts[ends[0]]) else None


def cut_anew(text: str, old: Reading, reader: Reader, stretch: Optional[Stretch]) -> Tuple[Cut, Tuple[int, int]]:
    """The text in parts; how many of them at the front and at the end are as they were, one by one. Raises what the language raises."""
    if old.cut is not None and stretch is not None and reader.is_by_line:
        return cut_again(old.cut, text, stretch, reader)
    starts, texts = cut_text(text, reader.starts(text))
    if old.cut is None:
        return Cut(starts, texts), (0, 0)
    ends = alike_ends(texts, old.cut.texts)
    return Cut(starts, spliced(old.cut.texts, ends, texts[ends[0] : len(texts) - ends[1]])), ends


def unread(old: Reading, trouble: str) -> Reading:
    """The file as it was, where its parts can't be told."""
    return Reading(old.starts, old.texts, old.taken, (), trouble, old.pieces, None)


def trees_of(pieces: List[Piece]) -> List[attrd.Node]:
    """The trees of those that have one."""
    return [it.phrase.tree for it in pieces if it.phrase is not None]


def spliced(old: List[T], ends: Tuple[int, int], between: List[T]) -> List[T]:
    """The old list with these elements between so many of its front and so many of its end."""
    found = old.copy()
    found[ends[0] : len(old) - ends[1]] = between
    return found


def replace(pieces: Dict[str, Piece], gone: List[str], new: Dict[str, Piece]) -> None:
    """Takes the pieces of texts that are gone away, and puts new ones in. From key to key the readings of a file share them."""
    for it in gone:
        pieces.pop(it, None)
    pieces.update(new)


def last_good(read: List[Piece], old: Reading) -> Dict[int, Piece]:
    """For parts, by their numbers, what the tree had without faults of the part that stood there before.

    What is alike at the front and at the back goes together; between, parts go together one by one where they are
    equally many, and else by their names."""
    texts = [it.text for it in read]
    front, back = alike_ends(texts, old.texts)
    found = dict(enumerate(old.taken[:front]))
    found.update({len(texts) - it: old.taken[len(old.taken) - it] for it in range(1, back + 1)})
    numbers = range(front, len(texts) - back)
    between = range(front, len(old.texts) - back)
    if len(numbers) == len(between):
        found.update(zip(numbers, old.taken[front:]))
    else:
        by_name = {old.taken[it].name: old.taken[it] for it in reversed(between)}
        found.update({it: by_name[read[it].name] for it in numbers if read[it].name in by_name})
    return {number: it for number, it in found.items() if it.is_good}


def alike_ends(one: List[str], other: List[str]) -> Tuple[int, int]:
    """How many texts the two lists begin with alike, and how many of the others they end with alike."""
    front = alike(one, other)
    return front, min(alike(one[::-1], other[::-1]), min(len(one), len(other)) - front)


def alike(one: List[str], other: List[str]) -> int:
    """How many texts the two lists begin with alike."""
    count = 0
    for left, right in zip(one, other):
        if left != right:
            break
        count += 1
    return count
