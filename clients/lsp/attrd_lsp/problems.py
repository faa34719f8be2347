"""The problems of a tree: what the attributes tell that the language names, counted by an aspect that the library makes.

The count of a node is how many problems there are at it and below it. That of the root is asked first. Behind it the program keeps what
all problems rest on: so the nodes that had problems, and those where the tree was edited, are asked at once. Where these haven't all that
the root counts, the nodes below are asked, and so on down, a level in one batch; a node's own attributes only where its count isn't made
up below."""
from __future__ import annotations

from functools import lru_cache
from typing import Dict, Iterable, Iterator, List, Mapping, NamedTuple, Optional, Sequence, Tuple

from attrd import Check, Diagnostics, Path
from attrd.edits import Drop, Edit, Insert, Move, Put, SetNode
from attrd.replies import AskValue, Circular, Fault, Memory, RefusedReply, Value, read_value
from attrd.sequences import common_end, common_front

from .inquiry import Answer, Inquiry, Kept, NoAnswer, Question, why_not
from .phrases import Phrase
from .positions import Span
from .source import Source

# How many parts are asked beside the root, before its count is known.
FRESH = 8
# At how many nodes around edits problems are looked for first.
NEAR = 24


class Problem(NamedTuple):
    """Something is wrong at this stretch of a file; it is an error or a warning, told by an attribute of the node of that path.

    The node stands in the part of that number, at the path that is told last from there."""

    text: str
    file: str
    span: Span
    is_error: bool
    path: str
    number: int
    below: str


class Replaced(NamedTuple):
    """So many characters have come in the place of a stretch of a file."""

    file: str
    span: Span
    length: int

    def carried(self, problems: Iterable[Problem]) -> List[Problem]:
        """The problems where they are then, but for those whose place is gone."""
        found = [self.moved(it) if it.file == self.file and it.span.end > self.span.start else it for it in problems]
        return [it for it in found if it.file != self.file or it.span.start < it.span.end]

    def moved(self, it: Problem) -> Problem:
        """The problem where its place is then."""
        return it._replace(span=it.span.behind(self.span, self.length))


class Known(NamedTuple):
    """Where problems were at the last check: the texts of all parts, and by the numbers of those with problems the paths below them, each
    with that from the root; and the mark of the files, as they were then."""

    texts: Sequence[str] = ()
    wrong: Mapping[int, Mapping[str, str]] = {}
    mark: object = None


class Edited(NamedTuple):
    """The path of a node that was edited, and whether all of it is new."""

    path: str
    is_new: bool


class Place(NamedTuple):
    """A node of the tree: the number of its part, its path from there and from the root, and its phrase."""

    number: int
    below: str
    path: str
    phrase: Phrase


class Counted(NamedTuple):
    """A node and how many problems are told of it and below it."""

    place: Place
    told: Answer


class First(NamedTuple):
    """What was asked first: the count of the root, and those of some parts."""

    total: Optional[int]
    counted: List[Counted]


def find_problems(source: Source, checks: Diagnostics, known: Known, edited: Sequence[Edited] = ()) -> Inquiry[List[Problem]]:
    """The problems of the tree, in the order of its text. Raises NoAnswer where they can't be asked for.

    The counts of the root and of parts whose text is another one are asked first, then the nodes that had problems and those that were
    edited since, as far as these are remembered: where they have all that the root counts, nothing else is asked."""
    asking = Asking(source, checks)
    numbers = range(source.count)
    changed = Changed.of(known, source)
    fresh, is_fresh = changed.fresh, set(changed.fresh)
    few = fresh if known.texts and len(fresh) <= FRESH else []
    first = yield from asking.first(few)
    if first.total == 0:
        return []
    likely = {it.path: it for it in (*standing_in(source, known, changed), *near(source, edited))}
    told = yield from asking.told_at(likely.values(), first.total is not None)
    if first.total == len(told):
        return in_order(source, told)
    counted = first.counted if few == fresh else (yield from asking.counts(fresh))
    found = [it for it in told if source.number(it.path)[0] not in is_fresh]
    number = total_of(counted)
    if first.total is None or number is None or number + len(found) != first.total:
        counted += yield from asking.counts([it for it in numbers if it not in is_fresh])
        found = [] if source.language.listed is None else (yield from asking.of_root(first.total, counted))
    found += yield from asking.down(counted, told)
    return in_order(source, found)


class Changed(NamedTuple):
    """What has become of parts since problems were known: so many at the front and at the end are as they were, one by one. Between them
    stand parts that are `fresh`, by their numbers, and others, whose texts were there before: by their numbers what these had."""

    front: int
    end: int
    fresh: List[int]
    moved: Dict[int, int]

    @classmethod
    def of(cls, known: Known, source: Source) -> Changed:
        """What has become of them where the files are these now."""
        step, texts = source.step, source.texts
        if step is not None and step.before is known.mark:
            return cls(step.number, len(texts) - step.number - 1, [step.number], {})
        front = common_front(known.texts, texts)
        end = common_end(known.texts, texts, front)
        were = {known.texts[it]: it for it in range(front, len(known.texts) - end)}
        between = range(front, len(texts) - end)
        moved = {it: were[texts[it]] for it in between if texts[it] in were}
        return cls(front, end, [it for it in between if it not in moved], moved)


def standing_in(source: Source, known: Known, changed: Changed) -> List[Place]:
    """The nodes that had problems: those in parts that are as they were, and by the numbers of their parts those in fresh ones."""
    behind, moved = len(known.texts) - changed.end, source.count - len(known.texts)
    there = [(it, paths) for it, paths in known.wrong.items() if it < changed.front or it >= behind and moved == 0]
    found = [Place(number, below, path, phrase) for number, paths in there for below, path, phrase in phrases_at(source, number, paths)]
    wrong = [(it + moved, paths) for it, paths in known.wrong.items() if it >= behind and moved != 0]
    wrong += [(it, known.wrong.get(old, {})) for it, old in changed.moved.items()]
    wrong += [(it, known.wrong.get(it, {})) for it in changed.fresh]
    return found + [it for number, paths in wrong for it in places_of(source, number, paths)]


def phrases_at(source: Source, number: int, paths: Mapping[str, str]) -> Iterator[Tuple[str, str, Phrase]]:
    """The phrases of these paths below the part of that number, as far as they are there, each with its paths."""
    at = source.piece(number).at
    for below, path in paths.items():
        phrase = at(below)
        if phrase is not None:
            yield below, path, phrase


def places_of(source: Source, number: int, paths: Iterable[str]) -> Iterator[Place]:
    """The nodes of these paths below the part of that number, as far as they are there."""
    front = source.path(number)
    for below, path, phrase in phrases_at(source, number, {it: (front + it) or "/" for it in paths}):
        yield Place(number, below, path, phrase)


def place_of(source: Source, number: int, below: str) -> Optional[Place]:
    """The node of that path below the part of that number; None where none is there."""
    return next(places_of(source, number, [below]), None)


def part_of(source: Source, number: int) -> Place:
    """The part of that number. Only those that were read have one."""
    found = place_of(source, number, "")
    assert found is not None
    return found


def near(source: Source, edited: Sequence[Edited]) -> List[Place]:
    """The nodes that were edited, those around them in their parts, and some of those below what is new."""
    found: Dict[str, Place] = {}
    new: List[Place] = []
    for path, is_new in edited:
        number, below = source.number(path)
        it = place_of(source, number, below) if 0 <= number < source.count else None
        new += [it] if it is not None and is_new else []
        while it is not None:
            found.setdefault(it.path, it)
            it = place_of(source, number, it.below.rpartition("/")[0]) if it.below else None
    for place in new:
        if len(found) + len(place.phrase.children) > NEAR:
            break
        inner = children(place)
        found.update((it.path, it) for it in inner)
        new += inner
    return list(found.values())[:NEAR]


def edited_by(edits: Iterable[Edit]) -> List[Edited]:
    """The nodes that these edits have changed or put there, each where it stands behind its edit."""
    return [edited_at(it) for it in edits]


def edited_at(edit: Edit) -> Edited:
    """The node that an edit has changed or put there."""
    path: Path = edit.path
    if isinstance(edit, Drop):
        return Edited(str(path.parent), False)
    if isinstance(edit, Put):
        return Edited(str(path.child(edit.part)), True)
    if isinstance(edit, Insert):
        return Edited(str(path.child(edit.part, edit.index)), True)
    if isinstance(edit, Move):
        return Edited(str(edit.target.child(edit.part, edit.index)), False)
    return Edited(str(path), isinstance(edit, SetNode))


def children(place: Place) -> List[Place]:
    """The nodes just below."""
    number, around, path = place.number, place.below, "" if place.path == "/" else place.path
    return [Place(number, f"{around}/{step}", f"{path}/{step}", it) for step, it in place.phrase.children]


def in_order(source: Source, found: List[Problem]) -> List[Problem]:
    """The problems in the order of the text, each once."""
    return sorted(set(found), key=lambda it: (source.first[it.file], it.span, it.text))


def known_by(source: Source, found: Iterable[Problem]) -> Known:
    """Where problems are, for the next check."""
    wrong: Dict[int, Dict[str, str]] = {}
    for it in found:
        wrong.setdefault(it.number, {})[it.below] = it.path
    return Known(source.texts, wrong, source.mark)


class Asking:
    """Asks for the problems of a tree."""

    def __init__(self, source: Source, checks: Diagnostics) -> None:
        self.source, self.count = source, checks.count
        self.checks, self.warnings = checks, source.language.warnings
        self.of_kind: Dict[str, Sequence[Check]] = {}

    def checks_of(self, kind: str) -> Sequence[Check]:
        """The attributes that tell a problem of a node of that class itself."""
        if kind not in self.of_kind:
            self.of_kind[kind] = [it for it in self.checks.checks if self.checks.grammar.is_below(kind, it.of)]
        return self.of_kind[kind]

    def own(self, places: Iterable[Place]) -> List[Tuple[Place, Check]]:
        """What is asked of the nodes themselves."""
        return [(place, check) for place in places for check in self.checks_of(place.phrase.kind)]

    def first(self, fresh: List[int]) -> Inquiry[First]:
        """The count of the root, and those of these parts. Raises NoAnswer."""
        parts = [part_of(self.source, it) for it in fresh]
        answers = yield [Question("/", self.count), *(Question(it.path, self.count) for it in parts)]
        if isinstance(answers[0], (RefusedReply, Memory)):
            raise NoAnswer(why_not(answers[0]))
        return First(number_in(answers[0]), [Counted(place, it) for place, it in zip(parts, answers[1:])])

    def told_at(self, places: Iterable[Place], is_counted: bool) -> Inquiry[List[Problem]]:
        """What is told of these nodes themselves. Where the root's count is known, what that rests on is kept."""
        own = self.own(places)
        questions = [Question(place.path, check.name) for place, check in own]
        answers = yield Kept(questions) if is_counted else questions
        return self.told(own, answers)

    def counts(self, numbers: Iterable[int]) -> Inquiry[List[Counted]]:
        """The counts of the parts of these numbers."""
        parts = [part_of(self.source, it) for it in numbers]
        answers = yield [Question(it.path, self.count) for it in parts]
        return [Counted(place, it) for place, it in zip(parts, answers)]

    def of_root(self, total: Optional[int], parts: List[Counted]) -> Inquiry[List[Problem]]:
        """Problems of a root that stands in no text: they are told at the first part, where the parts don't make up the count."""
        if not parts or total is None or total_of(parts) in (None, total):
            return []
        checks = self.checks_of(self.source.tree.name)
        answers = yield [Question("/", it.name) for it in checks]
        return self.told([(parts[0].place, it) for it in checks], answers)

    def down(self, counted: List[Counted], told: List[Problem]) -> Inquiry[List[Problem]]:
        """The problems at these nodes and below them: each level in one batch, with what is left to ask of the nodes above it.

        Where problems that are told already are as many as a node counts, they are its problems."""
        told_below = by_ancestors(told)
        found: List[Problem] = []
        due: List[Tuple[Place, Check]] = []
        wrong = counted
        while wrong or due:
            are_told = [number_in(it.told) == len(told_below.get(it.place.path, ())) for it in wrong]
            found += [problem for it, is_told in zip(wrong, are_told) if is_told for problem in told_below.get(it.place.path, ())]
            wrong = [it for it, is_told in zip(wrong, are_told) if not is_told]
            below = [children(it.place) for it in wrong]
            questions = [Question(it.path, self.count) for places in below for it in places]
            answers = yield [Question(place.path, check.name) for place, check in due] + questions
            found += self.told(due, answers)
            counts = iter(answers[len(due) :])
            level = [[Counted(it, next(counts)) for it in places] for places in below]
            due = self.own(it.place for it, inner in zip(wrong, level) if not is_made_up(it, inner))
            wrong = [it for inner in level for it in inner]
        return found

    def told(self, own: List[Tuple[Place, Check]], answers: Sequence[Answer]) -> List[Problem]:
        """The problems that these answers tell of the nodes themselves."""
        texts = [(place, check, text_of(place, check, answer)) for (place, check), answer in zip(own, answers)]
        return [self.problem(place, check, text) for place, check, text in texts if text]

    def problem(self, place: Place, check: Check, text: str) -> Problem:
        """The problem with this text at the name of the node, or else at the whole of it."""
        file, span = self.source.stands(place.number, place.phrase.name or place.phrase.span)
        return Problem(text, file, span, check.name not in self.warnings, place.path, place.number, place.below)


def by_ancestors(told: List[Problem]) -> Dict[str, List[Problem]]:
    """By the path of each node with a problem at it or below it these problems, in their order."""
    found: Dict[str, List[Problem]] = {}
    for it in told:
        path = it.path
        while path and path != "/":
            found.setdefault(path, []).append(it)
            path = path.rpartition("/")[0]
        found.setdefault("/", []).append(it)
    return found


def is_made_up(it: Counted, below: List[Counted]) -> bool:
    """Whether the nodes just below have all problems that are counted."""
    return total_of(below) is not None and total_of(below) == number_in(it.told)


def total_of(counted: Sequence[Counted]) -> Optional[int]:
    """How many problems these have together; None where that isn't known of one."""
    numbers = [number_in(it.told) for it in counted]
    return None if None in numbers else sum(it or 0 for it in numbers)


def number_in(count: Answer) -> Optional[int]:
    """How many problems the answer tells, and None where it tells no number."""
    return int(count.text) if isinstance(count, Value) and count.text.isdigit() else None


def text_of(place: Place, check: Check, answer: Answer) -> Optional[str]:
    """What an attribute tells of its node; None where it tells nothing."""
    return check.told(value_of(answer.text)) if isinstance(answer, Value) else told_by(place, answer)


@lru_cache(maxsize=512)
def value_of(text: str) -> AskValue:
    """The value that the text spells; most of them are told at each key. Raises ProtocolFault."""
    return read_value(text)


def told_by(place: Place, answer: Answer) -> str:
    """What is wrong where the attribute has no value."""
    if isinstance(answer, (Circular, Fault)) and str(answer.path) != place.path:
        return f"this rests on another place, where {why_not(answer)}"
    return why_not(answer)
