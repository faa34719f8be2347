"""The files of one tree: its nodes by their paths, by their places and by their names."""
from __future__ import annotations

import bisect
from dataclasses import dataclass, field
from functools import cached_property
from typing import Callable, Dict, Iterator, List, Mapping, NamedTuple, Optional, Sequence, Tuple, TypeVar

from attrd import Node, Path

from .language import Language
from .phrases import Phrase
from .positions import Span
from .reading import Piece, Reader, Reading, Stretch, read_file, trees_of

T = TypeVar("T")


class Spot(NamedTuple):
    """A phrase of the tree: the path of its node, its file, and where the whole of it and its name stand there."""

    path: str
    phrase: Phrase
    file: str
    span: Span
    name: Span


class Step(NamedTuple):
    """One part of a tree that has changed: the mark of the source before, the number of the part, and its trees before and now."""

    before: object
    number: int
    old: Node
    new: Node


@dataclass(frozen=True)
class Source:
    """The files of a tree, in the order in which their parts stand in it."""

    reader: Reader
    files: Mapping[str, Reading]
    step: Optional[Step] = field(default=None, compare=False, repr=False)
    """How the tree comes of that of the source before, where one part of it has changed."""
    mark: object = field(default_factory=object, compare=False, repr=False)
    """What no other source has: so one can be told again that isn't kept."""

    @property
    def language(self) -> Language:
        """The language of the files."""
        return self.reader.language

    def with_file(self, file: str, text: str, holds: bool = True, stretch: Optional[Stretch] = None) -> Source:
        """The same files, but for this text of one of them. Another file comes behind all that are there.

        `stretch` is what has changed of the text, where that is known."""
        read = read_file(text, self.files.get(file, Reading()), self.reader, holds, stretch)
        found = Source(self.reader, {**self.files, file: read})
        if read.kept is None or file not in self.files or self.language.listed is None:
            return found
        front, end = read.kept
        gone, come = (trees_of(it.taken[front : len(it.taken) - end]) for it in (self.files[file], read))
        if len(gone) == len(come) == 1:
            return Source(self.reader, found.files, Step(self.mark, self.first[file] + front, gone[0], come[0]))
        if "tree" in self.__dict__:
            before = self.first[file] + len(self.language.listed.before)
            behind = self.count - self.first[file] - len(self.files[file].taken)
            found.__dict__["tree"] = self.tree.with_elements(0, before + front, behind + end, come)
        return found

    def without(self, file: str) -> Source:
        """The same files without this one."""
        return Source(self.reader, {name: it for name, it in self.files.items() if name != file})

    # The tree

    @cached_property
    def count(self) -> int:
        """How many parts the tree has."""
        return sum(len(it.taken) for it in self.files.values())

    @cached_property
    def first(self) -> Dict[str, int]:
        """The number in the tree of the first part of each file."""
        found, count = {}, 0
        for file, it in self.files.items():
            found[file] = count
            count += len(it.taken)
        return found

    @cached_property
    def files_by_number(self) -> Tuple[List[int], List[str]]:
        """The numbers of the first parts of all files, and these files."""
        return list(self.first.values()), list(self.first)

    def where(self, number: int) -> Tuple[str, int]:
        """The file of the part of that number, and its number there. A number that no part has is counted on behind the last file's."""
        firsts, files = self.files_by_number
        if len(files) == 1:
            return files[0], number
        at = bisect.bisect_right(firsts, number) - 1
        return files[at], number - firsts[at]

    @cached_property
    def tree(self) -> Node:
        """The tree of all files. Without any part it is the smallest that fits. Raises TermFault where none does."""
        trees = [tree for it in self.files.values() for tree in it.trees]
        listed = self.language.listed
        if listed is not None:
            return Node(listed.root, (*listed.before, *trees))
        if trees or self.reader.grammar is None:
            return trees[0] if trees else Node("Nothing")
        return self.reader.grammar.smallest(self.reader.grammar.start)

    def piece(self, number: int) -> Piece:
        """What the tree has of the part of that number."""
        file, index = self.where(number)
        return self.files[file].taken[index]

    def stands(self, number: int, span: Span) -> Tuple[str, Span]:
        """The file of the part of that number, and where a span of what was read of it stands there."""
        file, index = self.where(number)
        return file, self.files[file].place(index, span)

    @cached_property
    def texts(self) -> List[str]:
        """The texts of all parts, as they are now."""
        found = [it.texts for it in self.files.values()]
        return found[0] if len(found) == 1 else [text for texts in found for text in texts]

    @property
    def is_good(self) -> bool:
        """Whether all files were read without a fault."""
        return all(it.is_good for it in self.files.values())

    def held(self, file: str) -> List[Tuple[Spot, bool]]:
        """The parts of a file that the tree doesn't have as their texts are, and whether it has their last good text."""
        reading, first = self.files[file], self.first[file]
        told = enumerate(zip(reading.taken, reading.texts)) if reading.faults else ()
        wrong = [(it, piece) for it, (piece, text) in told if not piece.is_good or piece.text != text]
        return [(self.located(first + it, ""), piece.is_good) for it, piece in wrong]

    # Paths

    def path(self, number: int) -> str:
        """The path of the part of that number; it is empty where the part is the root."""
        listed = self.language.listed
        return "" if listed is None else f"/{listed.component}:{number + len(listed.before)}"

    def number(self, path: str) -> Tuple[int, str]:
        """The part to which a path leads, and the path from there; a number less than 0 where it leads to none."""
        listed = self.language.listed
        if listed is None:
            return 0, "" if path == "/" else path
        step, slash, steps = path[1:].partition("/")
        part, _, index = step.partition(":")
        there = part == listed.component and index.isdigit()
        return (int(index) - len(listed.before) if there else -1), slash + steps

    def phrase(self, number: int, below: str) -> Phrase:
        """The phrase of that path below the part of that number. Raises LookupError where none is there."""
        found = self.piece(number).at(below)
        if found is None:
            raise LookupError(f"part {number} has no {below}")
        return found

    def located(self, number: int, below: str) -> Spot:
        """The phrase of that path below the part of that number; what has no name is named by its first character."""
        file, index = self.where(number)
        reading = self.files[file]
        phrase = self.phrase(number, below)
        name = phrase.name or Span(phrase.span[0], min(phrase.span[0] + 1, phrase.span[1]))
        return Spot(self.path(number) + below or "/", phrase, file, reading.place(index, phrase.span), reading.place(index, name))

    def spot(self, path: str) -> Optional[Spot]:
        """The phrase of the node of that path; None for what stands in no text, or isn't there."""
        number, below = self.number(path)
        if not 0 <= number < self.count or self.piece(number).at(below) is None:
            return None
        return self.located(number, below)

    def node(self, path: str) -> Optional[Node]:
        """The node of that path where it stands in no text, but before all parts of a list."""
        listed = self.language.listed
        step = Path.read(path).steps
        if listed is None or len(step) != 1 or step[0].part != listed.component:
            return None
        return next((it for index, it in enumerate(listed.before) if index == step[0].index), None)

    # Places and names

    def part_at(self, file: str, offset: int) -> int:
        """The number of the part that begins there or before, and -1 where none does."""
        if file not in self.files:
            return -1
        index = self.files[file].starts.passed(offset) - 1
        return -1 if index < 0 else self.first[file] + index

    def at(self, file: str, offset: int) -> Optional[Spot]:
        """The innermost phrase at that offset of the file."""
        number = self.part_at(file, offset)
        if number < 0 or not self.located(number, "").span.holds(offset):
            return None
        index, reading = self.where(number)[1], self.files[file]
        below = ""
        while True:
            children = self.phrase(number, below).children
            inner = [step for step, it in children if reading.place(index, it.span).holds(offset)]
            if not inner:
                return self.located(number, below)
            below = f"{below}/{inner[0]}"

    def above(self, spot: Spot) -> Optional[Spot]:
        """The phrase just around this one."""
        number, below = self.number(spot.path)
        return self.located(number, below.rpartition("/")[0]) if below else None

    def named(self, name: str) -> Iterator[Spot]:
        """The phrases with that name, in the order of the tree."""
        for number in range(self.count):
            for below in self.piece(number).named.get(name, ()):
                yield self.located(number, below)

    def in_file(self, file: str, within: Span, is_wanted: Callable[[int, str, Phrase], bool]) -> Iterator[Spot]:
        """The wanted phrases of the parts of a file that stand in the stretch, each before those below it, in the order of the text.

        What is wanted is told by the number of the part, the path below it and the phrase."""
        first, last = max(self.part_at(file, within.start), self.first[file]), self.part_at(file, within.end)
        for number in range(first, last + 1):
            for below, phrase in self.piece(number).phrases.items():
                if is_wanted(number, below, phrase):
                    yield self.located(number, below)

    # What the language says of classes

    def of_class(self, told: Mapping[str, T], kind: str) -> Optional[T]:
        """What is told of the class, or else of the nearest one above it; None where nothing is."""
        grammar = self.reader.grammar
        chain: Sequence[str] = grammar.ancestors(kind) if grammar is not None and kind in grammar else (kind,)
        return next((told[it] for it in chain if it in told), None)

    def symbol_kind(self, spot: Spot) -> Optional[int]:
        """The protocol's number for what a declaration is; None where the phrase is none."""
        return self.declares(*self.number(spot.path))

    def declares(self, number: int, below: str) -> Optional[int]:
        """The same of the phrase of that path below the part of that number."""
        kinds, phrase = self.language.kinds, self.phrase(number, below)
        if phrase.name is None:
            return None
        above, _, step = below.rpartition("/")
        known = kinds.get(f"{self.phrase(number, above).kind}.{step.partition(':')[0]}") if below else None
        return known if known is not None else self.of_class(kinds, phrase.kind)

    def meanings(self, spot: Spot) -> Sequence[str]:
        """The attributes that answer what the name of the phrase means; none for a declaration."""
        if spot.phrase.name is None or self.symbol_kind(spot) is not None:
            return ()
        return self.of_class(self.language.meaning, spot.phrase.kind) or ()
