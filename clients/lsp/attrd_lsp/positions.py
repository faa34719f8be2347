"""The text of a document, and places in it.

An editor tells a place by line and column, where columns count units of UTF-16. Here a place is an offset, which counts
characters of the text. `Text` leads from one to the other."""
from __future__ import annotations

import bisect
import re
from array import array
from dataclasses import dataclass
from typing import Iterable, Iterator, List, NamedTuple, Optional, Tuple

LINE_END = re.compile(r"\r\n|\n|\r")


class Position(NamedTuple):
    """A place as the editor tells it; both count from 0."""

    line: int
    character: int


class Span(NamedTuple):
    """The characters from `start` to before `end`."""

    start: int
    end: int

    def moved(self, by: int) -> Span:
        """The same span, so many characters on."""
        return Span(self.start + by, self.end + by)

    def behind(self, change: Span, length: int) -> Span:
        """Where the span is when `length` characters have come in the place of a change."""
        if self.start > change.start and self.start >= change.end:
            return self.moved(length - (change.end - change.start))
        return Span(*(it if it <= change.start else max(it + length - (change.end - change.start), change.start) for it in self))

    def holds(self, offset: int) -> bool:
        """Whether the offset is in the span or at its end, where the cursor stands behind a word."""
        return self.start <= offset <= self.end


class Change(NamedTuple):
    """A change of a text as the editor tells it: new text in the place of a range, or of all where no range is given."""

    start: Optional[Position]
    end: Optional[Position]
    text: str


def units(text: str) -> int:
    """How many units of UTF-16 the text has."""
    return len(text) if text.isascii() else len(text) + sum(it > "\uffff" for it in text)


def characters(text: str, wanted: int) -> int:
    """How many characters the first `wanted` units have; one that is cut isn't counted, and the text has no more than its own."""
    if text.isascii():
        return min(wanted, len(text))
    passed = 0
    for index, it in enumerate(text):
        passed += 2 if it > "\uffff" else 1
        if passed > wanted:
            return index
    return len(text)


def line_starts(text: str) -> List[int]:
    """Where the lines of the text begin: at 0, and behind each line end."""
    return [0, *(it.end() for it in LINE_END.finditer(text))]


@dataclass(frozen=True, eq=False)
class Marks:
    """Offsets in their order. Those of `given` are so, but for those from the index `moved` on: these stand `by` characters further on.

    So a change of the text has only to tell how far all behind it has moved."""

    given: "array[int]"
    moved: int = 0
    by: int = 0

    @classmethod
    def of(cls, offsets: Iterable[int]) -> Marks:
        """These offsets."""
        return cls(array("q", offsets))

    def __len__(self) -> int:
        return len(self.given)

    def __getitem__(self, index: int) -> int:
        return self.given[index] + (self.by if index >= self.moved else 0)

    def __iter__(self) -> Iterator[int]:
        yield from self.given[: self.moved]
        yield from (it + self.by for it in self.given[self.moved :])

    def __eq__(self, other: object) -> bool:
        return isinstance(other, Marks) and list(self) == list(other)

    def passed(self, offset: int) -> int:
        """How many of them aren't behind the offset."""
        given, moved = self.given, self.moved
        if moved < len(given) and given[moved] + self.by <= offset:
            return bisect.bisect_right(given, offset - self.by, moved)
        return bisect.bisect_right(given, offset, 0, moved)

    def around(self, offset: int) -> Tuple[int, int, Optional[int]]:
        """The index of the last one that isn't behind the offset, and that one; and the next one, where there is one."""
        given, moved, by = self.given, self.moved, self.by
        if moved < len(given) and given[moved] + by <= offset:
            index = bisect.bisect_right(given, offset - by, moved) - 1
            return index, given[index] + by, given[index + 1] + by if index + 1 < len(given) else None
        index = bisect.bisect_right(given, offset, 0, moved) - 1
        return index, given[index], self[index + 1] if index + 1 < len(given) else None

    def replaced(self, kept: int, come: Iterable[int], behind: int, by: int) -> Marks:
        """The first ones, as many as are kept, others behind them, and then those from an index on, each so many characters further on."""
        front, back = self.given[:kept], self.given[behind:]
        if self.by and self.moved < kept:
            front[self.moved :] = array("q", [it + self.by for it in front[self.moved :]])
        elif self.by and self.moved > behind:
            back[: self.moved - behind] = array("q", [it - self.by for it in back[: self.moved - behind]])
        front.extend(come)
        return Marks(front + back, len(front), self.by + by)


class Text(NamedTuple):
    """A text that isn't changed, with the offsets at which its lines begin."""

    text: str
    starts: Marks

    @classmethod
    def of(cls, text: str) -> Text:
        """This text."""
        return cls(text, Marks.of(line_starts(text)))

    def line_at(self, offset: int) -> int:
        """The number of the line in which the offset is."""
        return self.starts.passed(offset) - 1

    def line(self, number: int) -> str:
        """The line of that number, without its end."""
        return self.text[self.starts[number] : self.behind(number)].rstrip("\r\n")

    def behind(self, number: int) -> int:
        """Where the line behind that of the number begins, or the text ends."""
        return self.starts[number + 1] if number + 1 < len(self.starts) else len(self.text)

    def offset(self, position: Position) -> int:
        """Where the position is. Behind a line's end is its end, and behind the last line the end of the text."""
        if position.line >= len(self.starts):
            return len(self.text)
        return self.starts[position.line] + characters(self.line(position.line), position.character)

    def position(self, offset: int) -> Position:
        """Where the offset is, for the editor."""
        line = self.line_at(offset)
        return Position(line, units(self.text[self.starts[line] : offset]))

    def range(self, span: Span) -> Tuple[Position, Position]:
        """Where the span begins and ends, for the editor; most are within a line, which is looked for once then."""
        start, end = span
        line, begin, behind = self.starts.around(start)
        character = units(self.text[begin:start])
        if behind is not None and behind <= end:
            return Position(line, character), self.position(end)
        return Position(line, character), Position(line, character + units(self.text[start:end]))

    def changed_span(self, change: Change) -> Span:
        """The stretch that is replaced by the change."""
        if change.start is None or change.end is None:
            return Span(0, len(self.text))
        start = self.offset(change.start)
        return Span(start, max(start, self.offset(change.end)))

    def changed(self, span: Span, new: str) -> Text:
        """The text with `new` in the place of the span.

        A line begins where it does by the characters before and behind that place: so no more than the places from the beginning of
        what is new to its end are looked at."""
        text = "".join((self.text[: span.start], new, self.text[span.end :]))
        end = span.start + len(new)
        kept = max(1, self.line_at(span.start - 1) + 1)
        found = (it.end() for it in LINE_END.finditer(text, max(0, span.start - 1), end + 1))
        come = [it for it in found if span.start <= it <= end]
        return Text(text, self.starts.replaced(kept, come, self.line_at(span.end) + 1, end - span.end))


def carried(offset: int, old: str, new: str) -> int:
    """Where the offset of the old text stands in the new one, which differs from it in one stretch.

    Before the stretch it stays, behind it moves with the text, and within it is the stretch's beginning."""
    same = common_front(old, new)
    if offset <= same:
        return offset
    behind = min(common_front(old[::-1], new[::-1]), min(len(old), len(new)) - same)
    return offset + len(new) - len(old) if offset >= len(old) - behind else same


def common_front(one: str, other: str) -> int:
    """How many characters the two texts begin with alike."""
    low, high = 0, min(len(one), len(other))
    while low < high:
        middle = (low + high + 1) // 2
        if one[:middle] == other[:middle]:
            low = middle
        else:
            high = middle - 1
    return low

