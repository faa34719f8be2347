"""A text with other texts in the place of some of its stretches."""
from __future__ import annotations

from typing import List, Tuple


class Patched:
    """`original` is the text; `put` puts another text in the place of a stretch of it, told by offsets in the original."""

    def __init__(self, original: str) -> None:
        self.original = original
        self._put: List[Tuple[int, int, str]] = []

    def put(self, start: int, end: int, new: str) -> None:
        """Has `new` in the place of the stretch from `start` to before `end`, and of all that was put within it."""
        kept = [it for it in self._put if it[1] <= start or it[0] >= end]
        self._put = sorted([*kept, (start, end, new)])

    def with_put(self, start: int, end: int, new: str) -> Patched:
        """Another text with this one's changes, and this one more."""
        other = Patched(self.original)
        other._put = list(self._put)
        other.put(start, end, new)
        return other

    def is_free(self, start: int, end: int) -> bool:
        """Whether nothing was put over a part of the stretch from outside of it."""
        return not any(it[0] <= start and end <= it[1] for it in self._put)

    @property
    def text(self) -> str:
        """The text as it is now."""
        parts, at = [], 0
        for start, end, new in self._put:
            parts += [self.original[at:start], new]
            at = end
        return "".join([*parts, self.original[at:]])

    def original_offset(self, offset: int) -> int:
        """Where an offset of the text as it is now stands in the original; the beginning of a stretch for what was put there."""
        moved = 0
        for start, end, new in self._put:
            if offset < start + moved:
                break
            if offset < start + moved + len(new):
                return start
            moved += len(new) - (end - start)
        return offset - moved
